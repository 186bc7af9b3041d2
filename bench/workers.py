#!/usr/bin/env python3
"""Shrinks by 1, 2 and 64 workers, and says whether all that is said and written is the same, byte for byte.

    python3 bench/workers.py PROGRAM [WORKERS ..]

PROGRAM is called by its words, as bin/cixorradde is. Shrunk are the rows of the stored run of `run_vectors` that ask for a
`shrink` (kept, names, optimised, and run without failing devices), each example, and copies.py's copies of two examples with 2,002
classes and more. What a row's answer tells of that (what is said, the texts, and the class files but for those of `kept`) is
compared with it too. The status is 1 where anything differs.
"""
import os
import re
import subprocess
import sys
import tempfile
from pathlib import Path

sys.dont_write_bytecode = True
TOP = Path(__file__).resolve().parent.parent
ROWS = TOP / 'crates/run_vectors'
BYTES = {'n': b'\n', 'r': b'\r', 't': b'\t', 'f': b'\f', 's': b' ', '\\': b'\\', 'e': b''}
NAMED = ['config.pro', 'wit.txt']


def unescaped(text):
    parts = re.split(r'\\(x[0-9a-f]{2}|[nrtfs\\e])', text)
    return b''.join(part.encode() if k % 2 == 0 else bytes([int(part[1:], 16)]) if part[0] == 'x' else BYTES[part]
                    for k, part in enumerate(parts))


def file_of(word):
    """The path of a word of a row and its bytes, none where it is gone."""
    path, kind, text = re.fullmatch(r'([^=:]*?)([=:]|-$)(.*)', word).groups()
    return path, None if kind == '-' else bytes.fromhex(text) if kind == '=' else unescaped(text)


class Row:
    """The files of a row, the words without `shrink` and the workers, and what the answer says: the status, what is said, and
    files with their bytes."""

    def __init__(self, asked, answer):
        kind, *words = asked.split(' ')
        self.due = self.known = None
        if kind == 'run':
            self.words = unescaped(words[0]).decode('utf-8', 'replace').split('\n' if '\\n' in words[0] else ' ')[1:]
            self.files = dict(map(file_of, words[1:]))
            status, said, *files = answer.split(' ')
            self.due = (int(status), unescaped(said))
            self.known = dict(map(file_of, files))
            return
        config = unescaped(words[0]) + (b'-keepnames class ** { *; }\n' if kind == 'kept' else b'')
        self.words, self.files = NAMED, {'config.pro': config, **{f'in/{path}': data for path, data in map(file_of, words[1:])}}
        if not answer.startswith('ok '):
            self.due, self.known = (None, answer.encode() + b'\n'), {}
            return
        texts = answer.split(' ')[1:]
        if kind == 'kept':
            self.due = (0, unescaped(texts[3]))
            self.known = {path: unescaped(it) for path, it in zip(('seeds.txt', 'use.txt'), texts[1:3]) if it != '-'}
            return
        names = ['map.txt'] if kind == 'names' else ['said', 'wit.txt', 'map.txt']
        known = {path: unescaped(it) for path, it in zip(names, texts)}
        known.update({f'out/{path}': data for path, data in map(file_of, texts[len(names):])})
        self.due = (0, known.pop('said', None))
        self.known = known

    def agrees(self, status, said, files):
        due = self.due[0] in (None, status) and self.due[1] in (None, said)
        return due and all(files.get(path) == data for path, data in self.known.items())


def rows():
    asked, answers = ((ROWS / it).read_text().split('\n') for it in ('stdin', 'stdout'))
    for number, (row, answer) in enumerate(zip(asked, answers), 1):
        kind, _, rest = row.partition(' ')
        if kind in ('kept', 'names', 'optimised') or kind == 'run' and rest.startswith('shrink') and 'workers' not in rest.split(' ')[0]:
            yield number, Row(row, answer)


def tree(folder):
    return {str(it.relative_to(folder)): it.read_bytes() for it in sorted(folder.rglob('*')) if it.is_file()}


def shrunk(program, folder, files, words, workers):
    """The status, what is said, and all files afterwards."""
    at = Path(tempfile.mkdtemp(dir=folder))
    for path, data in files.items():
        (at / path).parent.mkdir(parents=True, exist_ok=True)
        (at / path).write_bytes(data)
    ran = subprocess.run([program, 'shrink', *words, f'--workers={workers}'], cwd=at, capture_output=True)
    found = (ran.returncode, ran.stdout, tree(at))
    subprocess.run(['rm', '-rf', at])
    return found


def sets(folder):
    """Each example, and copies of two with very many classes."""
    for name in ('minimal', 'app', 'railway', 'vending'):
        top = TOP / 'examples' / name
        inputs = {path: data for path, data in tree(top).items() if path.startswith('in/')}
        config = re.sub(rf'examples/{name}/', '', (top / 'shrink.pro').read_text())
        yield name, {**inputs, 's.pro': config.encode()}
        if name in ('app', 'vending'):
            many = Path(folder) / f'many-{name}'
            subprocess.run([sys.executable, TOP / 'bench/copies.py', top / 'in', many, '2002'], check=True, stdout=subprocess.DEVNULL)
            keep = '-injars in\n-outjars out\n-printmapping map.txt\n-printseeds seeds.txt\n-printusage use.txt\n' \
                '-keepattributes LineNumberTable\n-keep class ** { public static void main(java.lang.String[]); }\n'
            yield f'{name}, many copies', {**{f'in/{path}': data for path, data in tree(many).items()}, 's.pro': keep.encode()}


def main():
    if len(sys.argv) < 2:
        sys.exit(__doc__)
    program, workers = os.path.abspath(sys.argv[1]), sys.argv[2:] or ['1', '2', '64']
    wrong, number, classes = [], 0, 0
    with tempfile.TemporaryDirectory(dir='/dev/shm' if os.path.isdir('/dev/shm') else None) as folder:
        for line, row in rows():
            found = [shrunk(program, folder, row.files, row.words, it) for it in workers]
            number += 1
            classes += sum(it.startswith('out/') for it in found[0][2])
            if any(it != found[0] for it in found):
                wrong.append(f'row {line} differs with the workers')
            if not row.agrees(*found[0]):
                wrong.append(f'row {line} has another answer')
        print(f'rows: {number} by {", ".join(workers)} workers, {classes} class files written by each, {len(wrong)} wrong', flush=True)
        for name, files in sets(folder):
            found = [shrunk(program, folder, files, ['s.pro', 'o.wit'], it) for it in workers]
            good = all(it == found[0] for it in found) and found[0][0] == 0
            said = ', '.join(found[0][1].decode().split('\n')[:-1])
            print(f'{name}: {said}, {len(found[0][2]) - len(files)} files: {"the same" if good else "NOT the same"}', flush=True)
            if not good:
                wrong.append(name)
    for it in wrong:
        print(f'workers.py: {it}', file=sys.stderr)
    sys.exit(1 if wrong else 0)


if __name__ == '__main__':
    main()
