#!/usr/bin/env python3
"""Lists the definitions below crates/*/specs that name no source.

    python3 bench/sources.py [CRATE ..]

A definition names its source in the comment above it, or falls under a heading that does: the comment `-- ---- ..`
above it, up to the next such one, else the comment at the top of its file. A source is a section of the Java Virtual
Machine Specification, Java SE 8 Edition (JVMS 4.7.3), or of the Java Language Specification (JLS 13.1), the Unicode
Standard, the documentation of the library (Java SE 8 API), a part of the ProGuard manual, the words "the project's own"
with what it is for, or "only the proof of" what needs it. One line is written for each definition without one, and then
how many there are; the status is 1 where there is one.
"""
import glob
import os
import re
import sys

SOURCE = re.compile(r"JVMS \d|JLS \d|Unicode Standard|Java SE 8 API|ProGuard manual|project's own|only the proofs? of")
DEFINITION = re.compile(r'\s*(?:pub )?(?:abbrev|unfoldable|opaque|data|record)(?: pub)? ([^\s{]\S*) ')
TOP = os.path.join(os.path.dirname(os.path.abspath(__file__)), '..', 'crates')


def definitions(lines):
    """The number of each line that begins a definition, with its name and whether a source is named for it."""
    top, heading, comment, at_top = False, False, [], True
    for number, line in enumerate(lines, 1):
        text = line.strip()
        if text.startswith('--'):
            comment.append(text[2:].strip())
            continue
        if comment and comment[0].startswith('----'):
            heading = bool(SOURCE.search(' '.join(comment)))
        found = DEFINITION.match(line)
        if found:
            yield number, found.group(1), bool(top or heading or SOURCE.search(' '.join(comment)))
        if at_top and comment and not found:
            top = bool(SOURCE.search(' '.join(comment)))
        at_top = at_top and not (comment or text)
        if not text.startswith(('module ', 'infix')):
            comment = []


def main(crates):
    missing = 0
    for path in sorted(glob.glob(os.path.join(TOP, '*', 'specs', '**', '*.antt'), recursive=True)):
        if crates and os.path.relpath(path, TOP).split(os.sep)[0] not in crates:
            continue
        with open(path, encoding='utf-8') as file:
            for number, name, has_source in definitions(file.read().splitlines()):
                if not has_source:
                    missing += 1
                    print(f'{os.path.relpath(path, TOP)}:{number}: {name}')
    print(f'{missing} without a source')
    return 1 if missing else 0


if __name__ == '__main__':
    sys.exit(main(sys.argv[1:]))
