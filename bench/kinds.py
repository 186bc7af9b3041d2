#!/usr/bin/env python3
"""Goes through the kinds, clauses and quantities of the sources: each has a row in the index of docs/MANUAL.md, and a
sentence in crates/error_advice. Ends with 1 where one is missing, and prints it.

A name is found where a function `name`, `format_name`, `limit_name` or `type_rule_name` answers it. Crates whose functions
of these names tell something else stand in OTHERS.
"""

import re
import sys
from pathlib import Path

TOP = Path(__file__).resolve().parent.parent
INDEX = (TOP / "docs/MANUAL.md").read_text().split("## Every message")[1]
ADVICE = (TOP / "crates/error_advice/src/sentences.rt").read_text()
NAMES = re.compile(r"fn (?:name|format_name|limit_name|type_rule_name)\(.*?\n\}|    (?:pub )?fn name\(.*?\n    \}", re.S)
# Functions of that name which tell no kind of a refusal, by crate.
OTHERS = {"text_lines", "run_heap", "jvm_model"}
# Kinds that are told behind another word: `Type Local`. Their sentence is one for all.
BEHIND = {"type_verifier": "Type "}


def named():
    """Each name with the crate that answers it."""
    for path in sorted((TOP / "crates").glob("*/src/**/*.rt")):
        crate = path.relative_to(TOP / "crates").parts[0]
        if crate in OTHERS:
            continue
        for function in NAMES.findall(path.read_text()):
            for name in re.findall(r'=>\s*"([^"]+)"', function):
                yield crate, BEHIND.get(crate, "") + name


def main():
    found = sorted(set(named()))
    missing = [f"docs/MANUAL.md has no row of {name} ({crate})" for crate,
        name in found if not re.search(rf"^\|[^|]*`{name}[ `]", INDEX, re.M)]
    missing += [f"error_advice has no sentence for {name} ({crate})" for crate, name in found
                if not name.startswith("Type ") and crate != "report_text" and f'"{name}"' not in ADVICE]
    missing += [f"docs/MANUAL.md has no row of status {status}" for status in range(16)
        if f"\n| {status} |" not in INDEX]
    for it in missing:
        print(it)
    print(f"{len({name for _, name in found})} kinds, clauses and quantities, {len(missing)} missing")
    sys.exit(1 if missing or len(found) < 60 else 0)


main()
