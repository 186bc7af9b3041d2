#!/usr/bin/env python3
"""What goes wrong outside under `gen`, `why`, `run` and `compare`: the rows of docs/FAILURES.md that begin with a command.

    python3 bench/failing_more.py PROGRAM [--write]

Makes each situation in the room that bench/failing.py has (an input, and a whole output where one is wanted), runs the command
there, and compares the first line, the status and what stands afterwards with the row; with --write it prints the rows as they
are. Rows about rights are run as nobody, those with file systems of their own in a mount namespace: both want root, and are
passed over without it.
"""
import os
import resource
import signal
import subprocess
import sys
import tempfile

sys.path.insert(0, os.path.dirname(os.path.abspath(__file__)))
import failing
from failing import NOBODY, Room, instead, link, long_file, mounted

MAIN = 'Hello.main(java.lang.String[])'
WORDS = {
    'gen': ['gen', '2', 'set'],
    'why': ['why', 's.pro', 'Greeting'],
    'run': ['run', 'in', MAIN, '1000', 'you'],
    'compare': ['compare', 's.pro', MAIN, '1000', 'you'],
}
# what `gen 2 set` writes, in this order
GENERATED = ['set/g/C0.class', 'set/g/C1.class', 'set/g/D0.class', 'set/g/D1.class', 'set/g/I.class']
SITUATIONS = {}


def row(command, name, made, words=None, **more):
    SITUATIONS[command, name] = (made, words or WORDS[command], more)


def kept(room):
    pass


def gone(path):
    return lambda room: (room.at / path).unlink()


def closed(path, mode=0):
    return lambda room: (room.at / path).chmod(mode)


def limited(size):
    """A file may have so many bytes, and the signal is ignored."""
    def before():
        resource.setrlimit(resource.RLIMIT_FSIZE, (size, size))
        signal.signal(signal.SIGXFSZ, signal.SIG_IGN)
    return before


# gen
row('gen', 'the directory isn\'t there', kept)
row('gen', 'the directory\'s folder isn\'t there', kept, ['gen', '2', 'new/folder/set'])
row('gen', 'the directory has a file', lambda room: room.put('set/x', 'x'))
row('gen', 'the directory has empty folders', lambda room: (room.at / 'set/g').mkdir(parents=True))
row('gen', 'the directory is a file', lambda room: room.put('set', 'x'))
row('gen', 'the directory is a link to an empty folder', lambda room: ((room.at / 'real').mkdir(), link(room, 'set', 'real')))
row('gen', 'the directory is a link that leads nowhere', lambda room: link(room, 'set', 'nowhere'))
row('gen', 'the directory may not be written', lambda room: ((room.at / 'set').mkdir(), (room.at / 'set').chmod(0o555)), user=NOBODY)
row('gen', 'the directory\'s folder may not be written', closed('.', 0o555), user=NOBODY)
row('gen', 'a file may have 300 bytes (ulimit -f), and the signal is ignored', kept, before=limited(300))
row('gen', 'the disk of the directory has 4 KiB', lambda room: mounted(room, 'set', 'size=4k'), mounts=['set'])
row('gen', 'the disk of the directory is read-only', lambda room: mounted(room, 'set', 'ro'), mounts=['set'])
row('gen', 'the number is 4,001', kept, ['gen', '4001', 'set'])
row('gen', 'standard output is /dev/full', kept, out='/dev/full')

# why
row('why', 'the item is kept', kept)
row('why', 'the item goes', kept, ['why', 's.pro', 'Unused'])
row('why', 'the item isn\'t there', kept, ['why', 's.pro', 'Nothing'])
row('why', 'the item isn\'t UTF-8', kept, ['why', 's.pro', b'\xff'])
row('why', 'the config isn\'t there', gone('s.pro'))
row('why', 'the config is a directory', lambda room: instead(room, 's.pro', os.mkdir))
row('why', 'the input directory isn\'t there', lambda room: (room.at / 'in').rename(room.at / 'other'))
row('why', 'a class file is empty', lambda room: room.put('in/Hello.class', ''))
row('why', 'a class file may not be read', closed('in/Hello.class'), user=NOBODY)
row('why', 'a class file is a pipe that nobody writes to', lambda room: instead(room, 'in/Hello.class', os.mkfifo))
row('why', 'the output directory has a file', lambda room: room.put('out/x', 'x'))
row('why', 'nothing may be written', closed('.', 0o555), user=NOBODY)
row('why', 'standard output is /dev/full', kept, out='/dev/full')
row('why', 'standard output is a pipe that nobody reads', kept, out='gone')

# run
row('run', 'the method returns', kept)
row('run', 'there is no such method', kept, ['run', 'in', 'Hello.none()', '1000'])
row('run', 'the steps don\'t suffice', kept, ['run', 'in', MAIN, '3', 'you'])
row('run', 'an argument isn\'t UTF-8', kept, ['run', 'in', MAIN, '1000', b'\xff'])
row('run', 'the directory isn\'t there', kept, ['run', 'nowhere', MAIN, '1000', 'you'])
row('run', 'the directory is a file', kept, ['run', 's.pro', MAIN, '1000', 'you'])
row('run', 'the directory is a link to one', lambda room: link(room, 'there', 'in'), ['run', 'there', MAIN, '1000', 'you'])
row('run', 'the directory may not be read', closed('in'), user=NOBODY)
row('run', 'a class file is empty', lambda room: room.put('in/Hello.class', ''))
row('run', 'a class file may not be read', closed('in/Hello.class'), user=NOBODY)
row('run', 'a class file is a pipe that nobody writes to', lambda room: instead(room, 'in/Hello.class', os.mkfifo))
row('run', 'a class file is a link that leads nowhere', lambda room: link(room, 'in/Other.class', 'nowhere'))
row('run', 'nothing may be written', closed('.', 0o555), user=NOBODY)
row('run', 'standard output is /dev/full', kept, out='/dev/full')
row('run', 'standard output is a pipe that nobody reads', kept, out='gone')

# compare
row('compare', 'both do the same', kept, shrunk=True)
row('compare', 'there is no such method', kept, ['compare', 's.pro', 'Hello.none()', '1000'], shrunk=True)
row('compare', 'the config isn\'t there', gone('s.pro'), shrunk=True)
row('compare', 'the mapping isn\'t there', gone('map.txt'), shrunk=True)
row('compare', 'the mapping is a directory', lambda room: instead(room, 'map.txt', os.mkdir), shrunk=True)
row('compare', 'the mapping may not be read', closed('map.txt'), shrunk=True, user=NOBODY)
row('compare', 'the mapping has 64 MiB and a byte', lambda room: instead(room, 'map.txt', long_file), shrunk=True)
row('compare', 'the mapping isn\'t one', lambda room: room.put('map.txt', 'x\n'), shrunk=True)
row('compare', 'the witness isn\'t there', gone('o.wit'), shrunk=True)
row('compare', 'the output directory isn\'t there', lambda room: (room.at / 'out').rename(room.at / 'other'), shrunk=True)
row('compare', 'a class file of the output is missing', gone('out/a.class'), shrunk=True)
row('compare', 'a class file of the output is empty', lambda room: room.put('out/a.class', ''), shrunk=True)
row('compare', 'a class file of the output may not be read', closed('out/a.class'), shrunk=True, user=NOBODY)
row('compare', 'a class file of the input is empty', lambda room: room.put('in/Hello.class', ''), shrunk=True)
row('compare', 'nothing may be written', closed('.', 0o555), shrunk=True, user=NOBODY)
row('compare', 'standard output is /dev/full', kept, shrunk=True, out='/dev/full')


def left_of_gen(room, before, whole):
    """In words: which of the files that `gen` writes stand, in their order, and whether anything else changed."""
    after = room.stands()
    here = {it.replace('new/folder/set', 'set').replace('real/', 'set/'): data for it, data in after.items() if it not in before}
    if any(after.get(it) != data for it, data in before.items()) or not set(here) <= set(GENERATED):
        return f'CHANGED {sorted(after)}'
    states = ['none' if it not in here else 'new' if here[it] == whole[it] else 'part' for it in GENERATED]
    first = next((k for k, it in enumerate(states) if it != 'new'), len(states))
    if first == len(states):
        return 'all are written'
    if set(states[first:]) == {'none'}:
        return f'{first} of {len(states)}' if first else 'none is written'
    if states[first] == 'part' and set(states[first + 1:]) <= {'none'}:
        return f'{first} of {len(states)}, and a part of the next' if first else f'a part of the first of {len(states)}'
    return f'CHANGED {states}'


def told(room, key, whole):
    """The row of a situation: what is printed first, the status, and what stands afterwards."""
    made, words, more = SITUATIONS[key]
    if (more.get('user') or more.get('mounts')) and os.getuid() or more.get('mounts') and not room.may_mount:
        return None
    room.fresh(more.get('shrunk', False))
    if more.get('user'):
        for path in [room.at, *room.at.rglob('*')]:
            path.chmod(0o777 if path.is_dir() else 0o666)
    made(room)
    before = room.stands()
    out = subprocess.PIPE
    if more.get('out') == 'gone':
        reader, out = os.pipe()
        os.close(reader)
    elif more.get('out'):
        out = os.open(more['out'], os.O_WRONLY)
    ran = room.run(words, more.get('user'), more.get('before'), out)
    if out != subprocess.PIPE:
        os.close(out)
    room.at.chmod(0o755)
    after = left_of_gen(room, before, whole) if key[0] == 'gen' else 'no file changes' if room.stands() == before else 'CHANGED'
    for path in more.get('mounts', []):
        subprocess.run(['umount', str(room.at / path)], check=True)
    line = (ran.stdout or b'').decode('utf-8', 'replace').split('\n')[0]
    status = str(ran.returncode) if ran.returncode >= 0 else f'signal {-ran.returncode}'
    return f'`{line}`' if line else 'nothing', status, after


def documented():
    rows = {}
    for line in (failing.TOP / 'docs/FAILURES.md').read_text().split('\n'):
        cells = [it.strip() for it in line.strip('|').split('|')]
        if line.startswith('|') and len(cells) == 5 and cells[0].strip('`') in WORDS:
            rows[cells[0].strip('`'), cells[1]] = tuple(cells[2:])
    return rows


def main():
    words = [it for it in sys.argv[1:] if it != '--write']
    if len(words) != 1:
        sys.exit(__doc__)
    write = '--write' in sys.argv
    with tempfile.TemporaryDirectory(dir='/dev/shm' if os.path.isdir('/dev/shm') else None) as top:
        may_mount = failing.private_mounts()
        room = Room(words[0], top)
        room.may_mount = may_mount
        room.fresh()
        room.run(WORDS['gen'])
        whole = {it: (room.at / it).read_bytes() for it in GENERATED}
        rows = documented()
        for key in SITUATIONS:
            row = told(room, key, whole)
            if row is None:
                print(f'failing_more.py: passed over: {key}', file=sys.stderr)
            elif write:
                print(f'| `{key[0]}` | {key[1]} | {" | ".join(row)} |', flush=True)
            else:
                room.count('situations', rows.get(key) == row and 'CHANGED' not in row[2], f'{key}: {row}, and the row has {rows.get(key)}')
        if not write:
            for key in set(rows) - set(SITUATIONS):
                room.count('situations', False, f'{key} is in the document and not tried')
        room.fresh()
        print(', '.join(f'{group}: {right} of {number}' for group, (number, right) in room.counts.items()) or 'rows as they are')
        sys.exit(1 if room.wrong else 0)


if __name__ == '__main__':
    main()
