#!/usr/bin/env python3
"""Lists the lemmas of crates/*/proofs that stand in several files with one statement.

    python3 bench/doubles.py [CRATE ..]

Two statements are one where they differ only in the names of what they bind. With crates, only lemmas that one of these
has are listed. For each statement there are its places, a line each; the last line tells how many statements there are
and how many copies are too many. A statement of a few characters, as that of a plain type, isn't listed.
"""
import collections
import glob
import os
import re
import sys

TOP = os.path.join(os.path.dirname(os.path.abspath(__file__)), '..', 'crates')
HEAD = re.compile(r"^(\s*)(?:abbrev |unfoldable )?(?:pub )?([A-Za-z_][\w'-]*) : (.*)$")
NAME = re.compile(r"(?<![.\w'-])[A-Za-z_][\w'-]*(?![\w'-])")
SHORTEST = 25


def with_plain_names(statement):
    """The statement with v0, v1 and so on for what it binds, in the order in which that stands in it."""
    bound = {name for group in re.findall(r'[({]([^(){}:]+?) : ', statement) for name in group.split()}
    bound |= {name for group in re.findall(r'λ ([^.]+)\.', statement) for name in NAME.findall(group)}
    numbers = {}

    def plain(found):
        name = found[0]
        return f'v{numbers.setdefault(name, len(numbers))}' if name in bound else name

    return NAME.sub(plain, statement)


def lemmas(lines):
    """The number of the line, the name and the statement of each lemma that is followed by its proof."""
    at = 0
    while at < len(lines):
        found = HEAD.match(lines[at])
        behind = at + 1
        if found:
            margin, name, statement = len(found[1]), found[2], [found[3]]
            while behind < len(lines) and len(lines[behind]) - len(lines[behind].lstrip()) > margin:
                statement.append(lines[behind].strip())
                behind += 1
            if behind < len(lines) and re.match(rf"\s{{{margin}}}{re.escape(name)}(?![\w'-])", lines[behind]):
                yield at + 1, name, ' '.join(statement)
        at = behind


def main(crates):
    places = collections.defaultdict(list)
    for path in sorted(glob.glob(os.path.join(TOP, '*', 'proofs', '*.antt'))):
        with open(path, encoding='utf-8') as file:
            for line, name, statement in lemmas(file.read().splitlines()):
                if len(statement) > SHORTEST:
                    places[with_plain_names(statement)].append((os.path.relpath(path, TOP), line, name))
    statements, copies = 0, 0
    for statement, found in sorted(places.items(), key=lambda it: -len(it[1])):
        files = {path for path, _, _ in found}
        if len(files) < 2 or crates and not any(path.split(os.sep)[0] in crates for path in files):
            continue
        statements, copies = statements + 1, copies + len(files) - 1
        print(statement)
        for path, line, name in found:
            print(f'    {path}:{line}: {name}')
    print(f'{statements} statements in several files, {copies} copies too many')


if __name__ == '__main__':
    main(sys.argv[1:])
