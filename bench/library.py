#!/usr/bin/env python3
"""Makes what is told of the library from the table of the program, crates/lib_table/src/table.rt.

    library.py             writes bin/library.txt, which bin/survey reads, and the table of docs/LIMITS.md
    library.py --check     ends with 1 where one of them isn't that of the table

bin/library.txt has the name of each class in internal form, and as CLASS.NAME:DESCRIPTOR what a program may name of it,
what it inherits among it. The table of docs/LIMITS.md stands there between the lines <!-- library --> and
<!-- end of library -->.
"""

import re
import sys
from pathlib import Path

TOP = Path(__file__).resolve().parent.parent
TABLE = TOP / "crates/lib_table/src/table.rt"
LIST, PAGE = TOP / "bin/library.txt", TOP / "docs/LIMITS.md"
FRONT, BACK = "<!-- library -->\n", "<!-- end of library -->\n"
BASES = dict(B="byte", C="char", D="double", F="float", I="int", J="long", S="short", V="void", Z="boolean")


class Row:
    """A class of the table: its name, its supertypes, and each member's name, descriptor and role."""

    def __init__(self, text):
        self.name = re.search(r'name: "([^"]+)"', text)[1]
        self.is_interface = "LibKind::Interface" in text
        self.super = re.search(r'super_name: Some\("([^"]+)"\)', text)
        self.super = self.super and self.super[1]
        self.interfaces = re.findall(r'"([^"]+)"', re.search(r"interfaces: &\[(.*?)\]", text, re.S)[1])
        members = text[text.index("members:"):]
        message, cause = "(Ljava/lang/String;)V", "(Ljava/lang/String;Ljava/lang/Throwable;)V"
        self.members = [("<init>", it, "Callable") for it in ("()V", message)] if "_constructors!" in members else []
        if "three_constructors!" in members:
            self.members.append(("<init>", cause, "Callable"))
        for role, name, kind in re.findall(r'\bmethod!\((\w+) "([^"]+)" "([^"]+)"\)', members):
            self.members.append((name, kind, role))
        for kind in re.findall(r'constructor!\("([^"]+)"\)', members):
            self.members.append(("<init>", kind, "Callable"))
        for name, kind in re.findall(r'static_(?:method|field)!\("([^"]+)" "([^"]+)"\)', members):
            self.members.append((name, kind, "Callable"))


def rows():
    text = TABLE.read_text()
    found = [Row(it) for it in re.split(r"\n    ClassRow \{", text[text.index("static CLASSES"):])[1:]]
    count = int(re.search(r"CLASSES: \[ClassRow; (\d+)\]", text)[1])
    if len(found) != count:
        sys.exit(f"library.py: {TABLE} has {count} classes, of which {len(found)} were read")
    return {row.name: row for row in found}


def above(table, row):
    """The class with its supertypes, nearest first."""
    yield row
    for name in filter(None, [row.super, *row.interfaces]):
        yield from above(table, table[name])


def listed(table):
    lines = []
    for row in table.values():
        lines.append(row.name)
        seen = {}
        for it in above(table, row):
            for name, kind, role in it.members:
                if name != "<init>" or it is row:
                    seen.setdefault((name, kind), role)
        lines += [f"{row.name}.{name}:{kind}" for (name, kind), role in seen.items() if role == "Callable"]
    return "".join(f"{it}\n" for it in sorted(lines))


def type_text(kind):
    dims = len(kind) - len(kind.lstrip("["))
    kind = kind.lstrip("[")
    return (BASES.get(kind) or kind[1:-1].replace("/", ".").replace("java.lang.", "")) + "[]" * dims


def member_text(name, kind):
    if not kind.startswith("("):
        return f"`{name}`"
    types = re.findall(r"\[*(?:L[^;]+;|[A-Z])", kind[1:kind.index(")")])
    return f"`{name}({', '.join(type_text(it) for it in types)})`"


def page(table):
    lines = ["| Class | A program may use | It may declare, and not call |", "|---|---|---|"]
    for row in table.values():
        def of(role):
            simple = row.name.split("/")[-1]
            return ", ".join(member_text(simple if n == "<init>" else n, k) for n, k, r in row.members if r == role)
        kind = "interface " if row.is_interface else ""
        lines.append(f"| {kind}`{row.name.replace('/', '.')}` | {of('Callable')} | {of('KnownOnly')} |")
    forbidden = [f"`{n}` of {r.name.split('/')[-1]}" for r in table.values() for n, _,
        role in r.members if role == "NoOverride"]
    return "\n".join(lines) + f"\n\nNeither called nor declared may be {' and '.join(forbidden)}.\n"


def main():
    table = rows()
    wanted = {LIST: listed(table)}
    text = PAGE.read_text()
    wanted[PAGE] = text[:text.index(FRONT)] + FRONT + "\n" + page(table) + "\n" + text[text.index(BACK):]
    if "--check" in sys.argv:
        wrong = [it for it in wanted if not it.is_file() or it.read_text() != wanted[it]]
        for it in wrong:
            print(f"{it} isn't what {TABLE.name} says: run bench/library.py")
        sys.exit(1 if wrong else 0)
    for it, content in wanted.items():
        it.write_text(content)


main()
