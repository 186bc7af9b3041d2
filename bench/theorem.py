#!/usr/bin/env python3
"""Keeps docs/THEOREM.md as the sources have it: the definitions and clauses that it quotes, and its sizes.

    theorem.py             puts each quotation and the table of sizes in place of the old one
    theorem.py --check     ends with 1 where a quotation isn't the text of the sources, or a size is wrong by a tenth

In the page a quotation stands between <!-- definition NAME --> or <!-- clause FUNCTION LABEL --> and <!-- end -->, the
table between <!-- sizes --> and <!-- end -->. A definition is looked for by its name in specs/ of all crates, a function
in src/; where several crates have one, the crate is named behind it, as <!-- definition Checked shrink_core -->.
"""

import re
import sys
from pathlib import Path

TOP = Path(__file__).resolve().parent.parent
CRATES, PAGE = TOP / "crates", TOP / "docs/THEOREM.md"
QUOTE = re.compile(r"<!-- (definition|clause|sizes)([^>]*?) -->\n(.*?)<!-- end -->\n", re.S)


def stop(why):
    sys.exit(f"theorem.py: {why}")


def one_of(found, what, crate):
    """The one text of those that were found, by their crate."""
    chosen = [it for it in found if it[0] == crate] or found
    if len(chosen) != 1:
        stop(f"{what} stands {len(chosen)} times: {sorted({it[0] for it in chosen})}")
    return chosen[0]


def block_at(lines, at):
    """The lines of a definition that begins at a line: the comment before it, and all up to the next blank line."""
    first = at
    while first and lines[first - 1].lstrip().startswith("--"):
        first -= 1
    last = at
    while last < len(lines) and lines[last].strip():
        last += 1
    indent = len(lines[at]) - len(lines[at].lstrip())
    return "\n".join(it[indent:] for it in lines[first:last])


def definition(name, crate=None):
    head = re.compile(rf"^ *(?:abbrev |unfoldable |opaque )*pub (?:record |data )?{name}(?= |$)")
    found = []
    for path in sorted(CRATES.glob("*/specs/**/*.antt")):
        lines = path.read_text().split("\n")
        found += [(path.relative_to(CRATES).parts[0], block_at(lines, at)) for at,
            it in enumerate(lines) if head.match(it)][:1]
    crate, text = one_of(found, name, crate)
    return f"`{name}` of `{crate}`:\n\n```\n{text}\n```\n"


def clause(function, label, crate=None):
    """A clause of a public function, by its label; `-` where it has none."""
    named = "" if label == "-" else rf"{label} "
    found = []
    for path in sorted(CRATES.glob("*/src/**/*.rt")):
        for it in re.finditer(rf"^ *pub fn {function}\b.*?^ *\{{", path.read_text(), re.M | re.S):
            text = re.search(rf"^ *(ensures {named}\{{.*?\}})(?=\s*(?:ensures|requires|//|\{{))", it[0] + "\n",
                re.M | re.S)
            if text:
                clean = re.sub(r"\n +", "\n    ", text[1])
                found.append((path.relative_to(CRATES).parts[0], clean))
    crate, text = one_of(found, function, crate)
    return f"`{function}` of `{crate}`:\n\n```\n{text}\n```\n"


def lines_of(pattern):
    files = [it for it in CRATES.glob(pattern) if "out" not in it.relative_to(CRATES).parts]
    return sum(1 for it in files for line in it.read_text().split("\n") if line.strip())


def sizes():
    code = lines_of("*/src/**/*.rt")
    rows = [("code, with its contracts and comments", "src/", code),
        ("definitions", "specs/", lines_of("*/specs/**/*.antt")),
            ("proofs", "proofs/", lines_of("*/proofs/**/*.antt"))]
    crates = len({it.parent for it in CRATES.glob("*/src")})
    text = f"| In {crates} crates | Where | Lines that aren't blank |\n|---|---|---|\n"
    return text + "".join(f"| {what} | `{where}` | {round(count, -2):,} |\n" for what, where, count in rows)


def is_near(old, new):
    """Whether two tables have figures that differ by a tenth at most."""
    pairs = list(zip(*(re.findall(r"\d[\d,]*", it) for it in (old, new))))
    numbers = [(int(a.replace(",", "")), int(b.replace(",", ""))) for a, b in pairs]
    return re.sub(r"\d[\d,]*", "", old) == re.sub(r"\d[\d,]*",
        "", new) and all(abs(a - b) * 10 <= b for a, b in numbers)


def main():
    text, wrong = PAGE.read_text(), []

    def put(match):
        words = match[2].split()
        new = dict(definition=definition, clause=clause, sizes=sizes)[match[1]](*words)
        old = match[3].strip()
        if not (is_near(old, new.strip()) if match[1] == "sizes" else old == new.strip()):
            wrong.append(" ".join([match[1], *words]))
        return f"<!-- {match[1]}{match[2]} -->\n\n{new}\n<!-- end -->\n"

    new = QUOTE.sub(put, text)
    if "--check" in sys.argv:
        for it in wrong:
            print(f"{PAGE.name}: {it} isn't what the sources have: run bench/theorem.py")
        sys.exit(1 if wrong else 0)
    PAGE.write_text(new)


main()
