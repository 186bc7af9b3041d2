#!/usr/bin/env python3
"""Prints the crates that crates need, lowest first, those of this repository alone.

    closure.py CRATE..                  prints their names
    closure.py --copy FOLDER CRATE..    copies them to FOLDER/crates, and adds their lines to FOLDER/crates.txt
    closure.py --table CRATE..          prints a row of a table for each: how many there are, and their lines of code
"""

import shutil
import sys
from pathlib import Path

TOP = Path(__file__).resolve().parent.parent


def lines():
    """The line of each crate in crates.txt, and the libraries that it names."""
    found = {}
    for line in (TOP / "crates.txt").read_text().split("\n"):
        if line.strip() and not line.lstrip().startswith("#"):
            head, _, rest = line.partition(":")
            found[head.split()[0]] = (line, rest.split())
    return found


def needed(names, table):
    order = []

    def visit(name):
        if name in table and name not in order:
            for below in table[name][1]:
                visit(below)
            order.append(name)

    for name in names:
        if name not in table:
            sys.exit(f"closure.py: there is no crate {name}")
        visit(name)
    return order


def code_lines(crate):
    return sum(len(it.read_text().split("\n")) - 1 for it in (TOP / "crates" / crate / "src").rglob("*.rt"))


def main():
    words, table = sys.argv[1:], lines()
    if words[:1] == ["--copy"]:
        target, order = Path(words[1]), needed(words[2:], table)
        for name in order:
            shutil.copytree(TOP / "crates" / name, target / "crates" / name, ignore=shutil.ignore_patterns("out"))
        with (target / "crates.txt").open("a") as out:
            out.writelines(f"{table[name][0]}\n" for name in order)
        print(f"copied {len(order)} crates: {' '.join(order)}")
    elif words[:1] == ["--table"]:
        for name in words[1:]:
            order = needed([name], table)
            others = " ".join(f"`{it}`" for it in order[:-1])
            print(f"| `{name}` | {len(order)}: {others} | {sum(map(code_lines, order)):,} |")
    else:
        print(" ".join(needed(words, table)))


main()
