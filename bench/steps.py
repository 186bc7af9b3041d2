#!/usr/bin/env python3
"""Measures how many steps a second the interpreter of the machine does.

    javac -g:none --release 8 -XDstringConcat=inline -d CLASSES bench/Steps.java
    python3 bench/steps.py PROGRAM CLASSES [LOOP ..]

PROGRAM is a build of crates/machine_vectors, CLASSES the folder of the class files. A row of that program takes 300,000
steps of a loop that goes on, so a number of rows is a number of steps. For each loop of Steps.java, or for those named,
a line tells the least user time of three runs of 20 rows, and the steps a second.
"""
import os
import resource
import subprocess
import sys

STEPS = 300_000
ROWS = 20
LOOPS = ('arithmetic', 'longs', 'arrays', 'primes', 'fields', 'statics', 'calls', 'recursion', 'selected', 'objects',
         'texts')


def rows(folder, loop):
    """The rows of a loop, which the program answers by `running`."""
    files = []
    for name in sorted(os.listdir(folder)):
        if name.endswith('.class'):
            with open(os.path.join(folder, name), 'rb') as file:
                files.append(f'{name}={file.read().hex()}')
    argument = 50 if loop == 'recursion' else 100_000_000
    return f'Steps.{loop}(int) {argument}\\n {" ".join(files)}\n'.encode() * ROWS


def user_time(program, data):
    """The user time of a run, in seconds."""
    before = resource.getrusage(resource.RUSAGE_CHILDREN).ru_utime
    ran = subprocess.run([program], input=data, stdout=subprocess.PIPE, check=True)
    if not all(line.endswith(b' running') for line in ran.stdout.splitlines()):
        sys.exit('a run has ended: ' + ran.stdout.decode(errors='replace'))
    return resource.getrusage(resource.RUSAGE_CHILDREN).ru_utime - before


def main():
    if len(sys.argv) < 3:
        sys.exit(__doc__)
    program, folder, loops = sys.argv[1], sys.argv[2], sys.argv[3:] or LOOPS
    for loop in loops:
        least = min(user_time(program, rows(folder, loop)) for _ in range(3))
        print(f'{loop:12} {least:6.2f} s {ROWS * STEPS / least / 1e6:6.1f} million steps a second')


main()
