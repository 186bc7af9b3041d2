#!/usr/bin/env python3
"""Writes a line for the program of crates/set_vectors to standard output.

    python3 bench/sets.py directory DIR      the class files below DIR
    python3 bench/sets.py chain N            N classes, each the superclass of the one before
    python3 bench/sets.py diamond N          N levels of two interfaces that both extend both of the next level, and a class
    python3 bench/sets.py references N       N classes with six methods and five fields, each with ten references to the next
"""
import os
import sys

sys.dont_write_bytecode = True
sys.path.insert(0, os.path.join(os.path.dirname(os.path.abspath(__file__)), '..', 'crates', 'set_vectors'))
from assembler import OBJECT, PUBLIC, STATIC, File, body, interface


def directory(top):
    for folder, _, names in os.walk(top):
        for name in names:
            if name.endswith('.class'):
                path = os.path.join(folder, name)
                with open(path, 'rb') as file:
                    yield os.path.relpath(path, top), file.read()


def chain(count):
    for i in range(count):
        yield File(f'c/C{i:05}', f'c/C{i + 1:05}' if i + 1 < count else OBJECT)


def diamond(levels):
    for level in range(levels):
        above = [f'd/{side}{level + 1:05}' for side in 'AB'] if level + 1 < levels else []
        yield from (interface(f'd/{side}{level:05}', *above) for side in 'AB')
    yield File('d/Z', interfaces=['d/A00000', 'd/B00000'])


def references(count):
    for i in range(count):
        other = f'r/R{(i + 1) % count:05}'
        code = []
        for k in range(5):
            code += [('invokestatic', (other, f'm{k}', '()V')), ('getstatic', (other, f'f{k}', 'I')), 'pop']
        yield File(f'r/R{i:05}', fields=[(PUBLIC | STATIC, f'f{k}', 'I') for k in range(5)],
                   methods=[body(name=f'm{k}') for k in range(5)] + [body(*code)])


def main(shape, operand):
    if shape == 'directory':
        files = list(directory(operand))
    else:
        make = {'chain': chain, 'diamond': diamond, 'references': references}[shape]
        files = [(file.name + '.class', file.bytes()) for file in make(int(operand))]
    files.sort(key=lambda file: file[0].encode())
    print(' '.join(f'{path}={data.hex()}' for path, data in files))


if __name__ == '__main__':
    if len(sys.argv) != 3:
        sys.exit(__doc__)
    main(sys.argv[1], sys.argv[2])
