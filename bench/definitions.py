#!/usr/bin/env python3
"""Lists the definitions that the contract of a public call rests on, with their lines.

    definitions.py CRATE FUNCTION           prints the list
    definitions.py --write FILE.md          puts each list in place of the old one that FILE.md has
    definitions.py --check FILE.md          ends with 1 where a list in FILE.md isn't that of the sources

In a document a list stands between the lines <!-- definitions CRATE FUNCTION --> and <!-- end of definitions -->. It
leaves out what a list above it in the document has. Behind the function's name, `but CRATE.FILE.NAME` names a
definition that isn't followed there: one of another case than the list is of.

A list has its crates in the order in which they are best read: first those of READ_FIRST, then each before those that
it cites.

Begun with the names in the function's `requires` and `ensures`, each name is looked up in the imports of the file in
which it stands, and the definition that it means is read in turn. Lines are those of the definition without comments.
A name that is bound in a definition and means a definition elsewhere in its file counts too, so a list may be a few
lines too long, never too short. What std defines (`Rattle.std`) is named and not counted.
"""

import re
import sys
from pathlib import Path

ROOT = Path(__file__).resolve().parent.parent / "crates"
WORD = re.compile(r"(?<![\w.])([A-Za-z_]\w*(?:\.[A-Za-z_]\w*)*)")
IMPORT = re.compile(r"^(?:ghost )?use Rattle\.([\w.]+?)(?:\.\{([^}]*)\}| as (\w+))[ \t]*;?[ \t]*$", re.M)
NO_DEFINITION = re.compile(r"\s*(?:module |infix|(?:pub )?mod |use |obeys )")
DECLARED = "declared"
READ_FIRST = ("jvm_model", "set_view", "pair_laws", "pair_checker", "pair_clauses", "pair_edits")


class Module:
    """A file of specs/: what it imports, and its definitions by name, each a text without comments."""

    def __init__(self, path, text):
        self.names, self.aliases = imports(text)
        self.path, self.definitions = path, {}
        for block in re.split(r"\n\s*\n", IMPORT.sub("", text)):
            lines = [it for it in block.split("\n") if not it.lstrip().startswith("--")]
            lines = [it for it in lines if it and not NO_DEFINITION.match(it)]
            first = lines[0].strip() if lines else ""
            head = re.match(r"^(?:pub |abbrev |unfoldable |opaque )*(record |data )?(\S+)", first)
            if head:
                names = {head[2], *re.findall(r"^  (?:pub )?(\w+) :", block if head[1] == "data " else "", re.M)}
                for name in names:
                    self.definitions[name] = (head[2], "\n".join(lines))


def imports(text):
    """Gives the module and name behind each imported word, and the module behind each alias."""
    names, aliases = {}, {}
    for module, listed, alias in IMPORT.findall(text):
        if alias:
            aliases[alias] = module
        for item in filter(None, (it.strip() for it in listed.split(","))):
            name, _, other = item.partition(" as ")
            names[(other or name).strip()] = (module, name.strip())
    return names, aliases


def words_of(text):
    return WORD.findall(re.sub(r" --.*", "", re.sub(r'"(?:[^"\\]|\\.)*"', "", text)))


def contract(crate, function):
    """Gives the file in which a public function stands, that of the root's `pub use` first, and its clauses."""
    folder = ROOT / crate / "src"
    root = (folder / "lib.rt").read_text() if (folder / "lib.rt").is_file() else ""
    shown = [module for module, listed in re.findall(r"pub use (\w+)::([^;]*);", root) if re.search(rf"\b{function}\b", listed)]
    for path in [folder / f"{it}.rt" for it in shown] + sorted(folder.rglob("*.rt")):
        text = path.read_text()
        found = re.search(rf"^ *pub (?:const )?fn {function}\b(.*?)^ *\{{", text, re.M | re.S)
        if found:
            clauses = re.sub(r"//.*", "", found[1][found[1].find("\n"):])
            return text, "\n".join(re.findall(r"(?:requires|ensures)[^{]*\{(.*?)\}\s*(?=requires|ensures|\Z)", clauses, re.S))
    sys.exit(f"definitions.py: {crate} has no public function {function}")


class Reach:
    """The definitions that are reached, in the order in which they are met."""

    def __init__(self, crate, function, cuts=()):
        self.modules, self.found, self.types, self.std = {}, {}, {}, {}
        self.cuts = set(cuts)
        text, clauses = contract(crate, function)
        names, aliases = imports(text)
        waiting = list(self.meant(clauses, None, names, aliases))
        while waiting:
            module, name = waiting.pop(0)
            waiting += self.take(module, name)

    def module(self, name):
        if name not in self.modules:
            crate, _, rest = name.partition(".specs.")
            path = ROOT / crate / "specs" / f"{rest.replace('.', '/')}.antt"
            self.modules[name] = Module(path, path.read_text()) if path.is_file() else None
        return self.modules[name]

    def meant(self, text, own, names, aliases):
        for word in words_of(text):
            first, _, rest = word.partition(".")
            if first in aliases and rest:
                yield aliases[first], rest.split(".")[0]
            elif first in names:
                yield names[first]
            elif own and first in self.module(own).definitions:
                yield own, first
        for name in (it for it in {**names, **dict.fromkeys(self.module(own).definitions if own else ())} if "◌" in it):
            signs = [it for it in name.split("◌") if it]
            if all(it in text for it in signs) or (signs == [">>="] and "←" in text):
                yield names.get(name) or (own, name)

    def take(self, module, name):
        if f"{module.replace('.specs.', '.', 1)}.{name}" in self.cuts:
            return []
        if module.startswith("std") or not (ROOT / module.split(".")[0]).is_dir():
            self.std.setdefault(module, set()).add(name)
            return []
        if f".specs.{DECLARED}." in module:
            crate, _, rest = module.partition(f".specs.{DECLARED}.")
            parts = [it for it in rest.split(".") if it != "TheVariants"]
            self.types[crate, "/".join(parts[:-1]), parts[-1]] = None
            return []
        found = self.module(module)
        if not found or name not in found.definitions:
            sys.exit(f"definitions.py: {module} has no {name}")
        head, text = found.definitions[name]
        if (module, head) in self.found:
            return []
        self.found[module, head] = text
        return list(self.meant(text, module, found.names, found.aliases))

    def above(self, module):
        """Gives the modules that a module's reached definitions name."""
        found = self.modules[module]
        named = set()
        for (own, _), text in self.found.items():
            if own == module:
                named |= {it for it, _ in self.meant(text, module, found.names, found.aliases)}
        return named - {module}

    def order(self):
        """Gives the modules, each before those that it names, so that reading goes from the promise down."""
        reached = list(dict.fromkeys(module for module, _ in self.found))
        below, done = {it: self.above(it) & set(reached) for it in reached}, []

        def visit(module, path=()):
            if module in done or module in path:
                return
            for other in reversed(reached):
                if other in below[module]:
                    visit(other, (*path, module))
            done.append(module)

        for module in reversed(reached):
            visit(module)
        return done[::-1]


def declared_lines(crate, file, name):
    """Counts the lines of a type of the code, from its name to its end."""
    for path in (ROOT / crate / "src" / f"{file}.rt", ROOT / crate / "src" / file / "mod.rt"):
        if path.is_file():
            found = re.search(rf"^(?:pub(?:\(crate\))? )?(?:struct|enum|type) {name}\b.*?(?:^\}}|;$)", path.read_text(), re.M | re.S)
            if found:
                return found[0].count("\n") + 1
    return 0


def reading_order(modules):
    """Gives the crates of modules that stand in an order, those of READ_FIRST first."""
    crates = list(dict.fromkeys(module.split(".")[0] for module in modules))
    return [it for it in READ_FIRST if it in crates] + [it for it in crates if it not in READ_FIRST]


def listing(crate, function, cuts=(), above=None):
    """Gives the list of a call, without what `above` has, to which it is added."""
    reach = Reach(crate, function, cuts)
    above = above if above is not None else {}
    found = {key: text for key, text in reach.found.items() if key not in above}
    order = [it for it in reach.order() if any(of == it for of, _ in found)]
    rows, total, files = [], 0, {}
    for module in order:
        own = [text for (of, _), text in found.items() if of == module]
        lines = sum(text.count("\n") + 1 for text in own)
        of, _, rest = module.partition(".specs.")
        files.setdefault(of, []).append((rest, len(own), lines))
    for of in reading_order(order):
        lines = sum(it[2] for it in files[of])
        total += lines
        named = ", ".join(f"`{rest}` {count}" for rest, count, _ in files[of])
        rows.append(f"| `{of}` | {named} | {lines:,} |")
    said = [f"{len(found):,} definitions in {len(order)} files, {total:,} lines without their comments.", ""]
    said += ["| Crate | Files of `specs/`, with how many definitions | Lines |", "|---|---|---|", *rows, ""]
    types = {}
    for of, file, name in reach.types:
        if (of, file, name) not in above:
            types.setdefault(of, []).append((name, declared_lines(of, file, name)))
    more = sum(lines for it in types.values() for _, lines in it)
    if types:
        said += [f"The types of the code that they speak of ({sum(map(len, types.values()))}, {more:,} lines):", ""]
    for of in reading_order([*order, *types]):
        if of in types:
            said.append(f"- `{of}`: " + ", ".join(f"`{name}`" for name, _ in sorted(types[of])))
    std = sorted({f"`{module.rpartition('.')[2]}`" for module in reach.std if module not in above})
    if std:
        said += ["", f"Of std's definitions they use those of {', '.join(std)}."]
    above.update(found)
    above.update(dict.fromkeys([*reach.types, *reach.std]))
    return "\n".join(said).rstrip()


def listings(page):
    """Gives a document with its lists as the sources have them."""
    above = {}
    return LIST.sub(lambda it: f"{it[1]}\n{listing(it[2], it[3], (it[4] or '').split()[1::2], above)}\n\n{it[5]}", page)


LIST = re.compile(r"(<!-- definitions (\w+) (\w+)((?: but [\w.]+)*) -->\n).*?(<!-- end of definitions -->)", re.S)


def main(words):
    if len(words) == 2 and words[0] in ("--write", "--check"):
        path = Path(words[1])
        old = path.read_text()
        new = listings(old)
        if words[0] == "--write":
            path.write_text(new)
        elif new != old:
            print(f"definitions.py: the lists of {path} aren't those of the sources: bench/definitions.py --write {path}", file=sys.stderr)
            return 1
        return 0
    if len(words) != 2:
        print(__doc__, file=sys.stderr)
        return 2
    print(listing(*words))
    return 0


if __name__ == "__main__":
    sys.exit(main(sys.argv[1:]))
