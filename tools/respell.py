#!/usr/bin/env python3
"""Brings the names of this repository's definitions, lemmas, fields of records and import aliases to snake case.

Run once at the top of the repository, after port.py. The names stand in respelled.tsv, old and new. They are turned as
whole words in specs/, proofs/, the clauses of src/ and the must-fail edits, and in README.md and docs/ between backticks.
Names of Rust items, strings, inputs and outputs are left as they are: none of them is in the table.
"""
import pathlib
import re
import sys

TOOLS = pathlib.Path(__file__).resolve().parent
TOP = TOOLS.parent
PART = r"[A-Za-z0-9_'\-]"


def table():
    rows = (TOOLS / "respelled.tsv").read_text().splitlines()
    return dict(row.split("\t") for row in rows)


def turned(text, names):
    word = re.compile(rf"(?<!{PART}){PART}+(?!{PART})")
    return word.sub(lambda m: names.get(m.group(0), m.group(0)), text)


def turned_page(text, names):
    return re.sub(r"`[^`\n]*`", lambda m: turned(m.group(0), names), text)


def main():
    names = table()
    changed = 0
    for path in sorted(TOP.glob("crates/**/*")):
        if path.suffix in (".antt", ".rt", ".edit") and "out" not in path.relative_to(TOP).parts:
            changed += rewrite(path, turned, names)
    for path in [TOP / "README.md", *sorted(TOP.glob("docs/*.md"))]:
        changed += rewrite(path, turned_page, names)
    print(f"respell: {len(names)} names, {changed} files changed")


def rewrite(path, turn, names):
    old = path.read_text()
    new = turn(old, names)
    if new != old:
        path.write_text(new)
    return new != old


if __name__ == "__main__":
    sys.exit(main())
