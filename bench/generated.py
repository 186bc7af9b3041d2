#!/usr/bin/env python3
"""Makes a generated set and shrinks it by 1, 2 and 64 workers, and says whether the files are the same each time.

    python3 bench/generated.py PROGRAM [NUMBER [WORKERS ..]]

PROGRAM is called by its words, as bin/cixorradde is; NUMBER is that of `gen`, 4000 where none is given. What is kept is
`f` of the first class with all that it reaches: half of the classes and of the methods. The summary that is due is
worked out from NUMBER; of `edited` and `fallback` it is only asked that each call says the same. With `check` the first
output is asked for whether it belongs to the set. The status is 1 where anything is otherwise than it should be.
"""
import hashlib
import os
import subprocess
import sys
import tempfile

CONFIG = """-injars in
-outjars out{name}
-printmapping map{name}.txt
-keep class g.C0 {{ public static int f(int); }}
"""


def called(program, folder, words):
    """What the program prints; it ends with status 0."""
    done = subprocess.run([program, *words], cwd=folder, capture_output=True, text=True)
    if done.returncode != 0:
        sys.exit(f'{" ".join(words)}: status {done.returncode}, {done.stdout.strip()}')
    return done.stdout


def digest(folder, parts):
    """One digest of all files of these folders and files, with their paths."""
    total = hashlib.sha256()
    for part in parts:
        top = os.path.join(folder, part)
        paths = [top]
        if os.path.isdir(top):
            paths = sorted(os.path.join(at, name) for at, _, names in os.walk(top) for name in names)
        for path in paths:
            with open(path, 'rb') as file:
                total.update(f'{os.path.relpath(path, top)} {os.path.getsize(path)}\n'.encode())
                total.update(file.read())
    return total.hexdigest()


def summary_due(number):
    """The lines of the summary that count what was read and what is kept."""
    return [f'classes {2 * number + 1} {number + 1}', 'fields 0 0', f'methods {6 * number + 1} {3 * number + 1}']


def shrunk(program, folder, workers):
    """The summary of a shrink by so many workers, and the digest of what it wrote."""
    name = f'-{workers}'
    with open(os.path.join(folder, f'shrink{name}.pro'), 'w') as file:
        file.write(CONFIG.format(name=name))
    said = called(program, folder, ['shrink', f'shrink{name}.pro', f'wit{name}.txt', f'--workers={workers}'])
    return said, digest(folder, [f'out{name}', f'map{name}.txt', f'wit{name}.txt'])


def main():
    if len(sys.argv) < 2:
        sys.exit(__doc__)
    program = os.path.abspath(sys.argv[1])
    number = int(sys.argv[2]) if len(sys.argv) > 2 else 4000
    workers = [int(word) for word in sys.argv[3:]] or [1, 2, 64]
    with tempfile.TemporaryDirectory() as folder:
        said = called(program, folder, ['gen', str(number), 'in'])
        good = said == f'classes {2 * number + 1}\n'
        print(f'gen {number}: {said.strip()}, {digest(folder, ["in"])[:16]}')
        answers = {count: shrunk(program, folder, count) for count in workers}
        for count, (summary, files) in answers.items():
            print(f'{count} workers: {", ".join(summary.splitlines())}, {files[:16]}')
        first = answers[workers[0]]
        good = good and all(answer == first for answer in answers.values())
        good = good and first[0].split('\n')[:3] == summary_due(number)
        name = f'-{workers[0]}'
        checked = called(program, folder, ['check', f'shrink{name}.pro', f'wit{name}.txt'])
        good = good and checked == 'ok\n'
        print(f'check: {checked.strip()}')
    print('as it should be' if good else 'NOT as it should be')
    sys.exit(0 if good else 1)


main()
