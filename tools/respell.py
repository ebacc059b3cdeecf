#!/usr/bin/env python3
"""Respells the names that specs/ and proofs/ declare: words in snake case, types in camel case.

usage: python3 tools/respell.py     at the top of the repository, once

A name counts as declared where a file of specs/, or a lemma file right in proofs/, gives it a type. Names of the standard library
that hold a dash, and the names of goals in proofs/F/, stay. In src/ only clauses and ghost lines are turned, and no comment or
string. Edits in must-fail/ are turned too, and what stands between backticks in README.md and docs/. It stops if two names would fall together.
"""
import glob
import os
import re
import sys

DECLARED = re.compile(r"^\s*(?:(?:abbrev|unfoldable|pub|record|data)\s+)*([^\s:(){}=]+)(?:\s+:|\s+[({])")
ALIAS = re.compile(r"\bas ([^\s,{}]+)")
NAME = r"[A-Za-z0-9_'\-]"
ANSWERS = ("Answers.antt", "Invariants.antt", "Proof.antt")
# names that hold an older library's word, or that the first script gave another ending
OTHERS = {"getD-newest": "get_or_newest", "number_of_lem": "number_of"}


def texts(*patterns):
    return sorted(p for q in patterns for p in glob.glob(q, recursive=True) if os.path.isfile(p))


def respelled(name):
    if name in OTHERS:
        return OTHERS[name]
    if name[0].isupper():
        return "".join(part[:1].upper() + part[1:] for part in name.split("-"))
    return name.replace("-", "_")


def library_names(paths):
    """Names that are imported from the library, by any file."""
    found = set()
    for path in paths:
        for line in re.findall(r"use (?:Rattle\.std|borrow|mathlib|lib|Prim)[^;\n]*\{([^}]*)\}", open(path).read()):
            found |= {word.strip().split(" as ")[0] for word in line.split(",")}
    return found


def declared_names(paths):
    found = set()
    for path in paths:
        if os.path.basename(path) in ANSWERS:
            continue
        for line in open(path):
            match = DECLARED.match(line)
            if match:
                found.add(match.group(1))
            if line.startswith(("use ", "let ")) or " let " in line:
                found |= set(re.findall(r"\blet ([^\s:=(){}]+)", line))
    return found


def aliases(paths):
    found = set()
    for path in paths:
        for line in open(path):
            if re.match(r"\s*(?:ghost )?use ", line):
                found |= set(ALIAS.findall(line))
    return found


def turn(text, table, names):
    return names.sub(lambda match: table[match.group(0)], text)


def turn_source(text, table, names):
    """Clauses and ghost lines only: nothing in comments and strings."""
    turned = []
    for line in text.split("\n"):
        code, slashes, comment = line.partition("//")
        if '"' not in code:
            code = turn(code, table, names)
        turned.append(code + slashes + comment)
    return "\n".join(turned)


def turn_page(text, table, names):
    """What stands between backticks."""
    return re.sub(r"`[^`\n]*`", lambda match: turn(match.group(0), table, names), text)


def main():
    proofs = texts("crates/*/specs/**/*.antt", "crates/*/proofs/**/*.antt")
    sources = texts("crates/*/src/**/*.rt")
    edits = texts("crates/*/must-fail/*.edit")
    library = library_names(proofs + sources)
    declared = declared_names(proofs) | aliases(proofs + sources)
    table = {n: respelled(n) for n in declared - library if "-" in n.strip("-") and n[0].isalpha() or n in OTHERS}
    plain = (declared | library) - set(table)
    for name, new in table.items():
        if new in plain or list(table.values()).count(new) > 1:
            sys.exit(f"{name}: {new} is another name already")
    longest_first = sorted(map(re.escape, table), key=len, reverse=True)
    names = re.compile(f"(?<!{NAME})(?:{'|'.join(longest_first)})(?!{NAME})")
    for path in proofs + edits:
        text = open(path).read()
        open(path, "w").write(turn(text, table, names))
    for path in sources:
        text = open(path).read()
        open(path, "w").write(turn_source(text, table, names))
    for path in texts("README.md", "docs/*.md"):
        text = open(path).read()
        open(path, "w").write(turn_page(text, table, names))
    print(f"{len(table)} names")


if __name__ == "__main__":
    main()
