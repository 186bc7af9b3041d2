#!/usr/bin/env python3
"""Counts the ways down from each crate through crates.txt, and names libraries that a crate lists and cites nowhere.

    python3 bench/ways.py [N]

Before and after it builds a library the kit's `rt` sums what the library is made from, and sums each library below once
for each way that leads to it: so a crate that lists the libraries of the one below it has twice as many ways. The N crates
with the most ways are told (20), then which libraries, of the repository or of the kit, a crate lists and no file of it
names, and which of the repository its files name and it doesn't list. The status is 1 where there is such a library.
"""
import functools
import os
import re
import sys

ROOT = os.path.dirname(os.path.dirname(os.path.abspath(__file__)))


def listed():
    """The crates that crates.txt lists, each with its libraries, in order."""
    found = {}
    for line in open(f"{ROOT}/crates.txt", encoding="utf-8"):
        head, colon, libraries = line.partition("#")[0].partition(":")
        if colon:
            found[head.split()[0]] = libraries.split()
    return found


def cited(name):
    """The names in the files of a crate, comments left out, that may be those of libraries."""
    found = set()
    for part in ("src", "specs", "proofs"):
        for folder, _, files in os.walk(f"{ROOT}/crates/{name}/{part}"):
            for file in files:
                text = open(f"{folder}/{file}", encoding="utf-8").read()
                text = re.sub(r"^\s*(//|--).*$", "", text, flags=re.MULTILINE)
                found.update(re.findall(r"\bRattle\.(\w+)\.", text))
                found.update(re.findall(r"\b(\w+)::", text))
                found.update(re.findall(r"\buse (\w+)(?: as \w+)?;", text))
    return found - {name}


def main():
    crates = listed()

    @functools.lru_cache(None)
    def ways(name):
        return 1 + sum(ways(it) for it in crates[name] if it in crates)

    most = int(sys.argv[1]) if len(sys.argv) > 1 else 20
    for name in sorted(crates, key=ways)[-most:]:
        print(f"{ways(name):8} {name}")
    print(f"{sum(map(ways, crates)):8} together")
    differs = False
    for name, libraries in crates.items():
        names = cited(name)
        beyond, lacking = [it for it in libraries if it not in names], sorted(names & set(crates) - set(libraries))
        if beyond or lacking:
            differs = True
            print(f"{name}: lists and doesn't name: {' '.join(beyond) or '-'}; names and doesn't list: {' '.join(lacking) or '-'}")
    return int(differs)


if __name__ == "__main__":
    sys.exit(main())
