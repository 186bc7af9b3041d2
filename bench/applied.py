#!/usr/bin/env python3
"""Has ProGuard shrink programs, and looks at its output, its names and its traces with this program.

    python3 bench/applied.py PROGRAM [COUNT]

PROGRAM is called by its words, as bin/cixorradde is. The programs are the four examples and COUNT (13) random ones
(random_programs.py). ProGuard shrinks each without optimisation: as it is, with -useuniqueclassmembernames, and with the
mapping of `shrink` by -applymapping and -overloadaggressively. Of each output `check` is asked through the mapping that ProGuard printed. Of the first
two also

- `shrink` applies that mapping, and for each class, field and method that both keep it is told whether it has ProGuard's
  name, and else why not: the rules fix its name, the name is fixed or the library's, or another one took it before;
- for the examples, frames of all new names, at lines in and out of all ranges and at none, go through `retrace` and through ProGuard's ReTrace:
  of both mappings, counted apart where some range holds the line or none is told, and where none holds it.

It wants ProGuard 6 (`proguard`, and retrace.jar beside it) and a JDK from 9 on.
"""
import os
import re
import shutil
import subprocess
import sys
import tempfile
from pathlib import Path

TOP = Path(__file__).resolve().parent.parent
MAIN = '-keepclasseswithmembers class * {\n    public static void main(java.lang.String[]);\n}\n'
LINES = MAIN + '-keepattributes SourceFile,LineNumberTable\n'
RETRACE = '/usr/share/java/retrace.jar'
EXAMPLES = ('app', 'minimal', 'railway', 'vending')
COMMANDS = re.compile(r'^\s*-(injars|outjars|printmapping|printseeds|printusage|libraryjars|verbose|dontwarn)\b.*$', re.M)


def library(room):
    """The classes of the JDK as ProGuard 6 reads them: of them only the version is told anew."""
    java = Path(shutil.which('java')).resolve().parent.parent
    subprocess.run(['jimage', 'extract', '--dir', str(room / 'jdk'), '--include',
                    'regex:/java.base/java/(lang|io)/[A-Za-z]*.class', str(java / 'lib/modules')], check=True)
    for path in (room / 'jdk').rglob('*.class'):
        data = bytearray(path.read_bytes())
        data[4:8] = bytes([0, 0, 0, 52])
        path.write_bytes(data)
    return room / 'jdk/java.base'


def programs(room, count):
    """The name, the input and the rules of each program."""
    for name in EXAMPLES:
        config = (TOP / 'examples' / name / 'shrink.pro').read_text()
        yield name, TOP / 'examples' / name / 'in', COMMANDS.sub('', re.sub('#.*', '', config))
    subprocess.run([sys.executable, '-B', str(TOP / 'bench/random_programs.py'), '57', str(count), str(room / 'source')],
                   check=True)
    for number in range(count):
        sources = [str(p) for p in (room / 'source').rglob('*.java') if f'r{number}' in p.relative_to(room / 'source').parts]
        place = room / f'r{number}-in'
        subprocess.run(['javac', '--release', '8', '-nowarn', '-Xlint:-options', '-g', '-d', str(place), *sources], check=True)
        yield f'r{number}', place, LINES


def mapping(path):
    """The lines of a mapping: classes by their old names with the new one, and the members of each."""
    classes, members = {}, {}
    for line in path.read_text().splitlines():
        if not line.startswith(' '):
            old, new = line.rstrip(':').split(' -> ')
            classes[old] = new
            own = members.setdefault(old, {})
        else:
            what, new = line.strip().split(' -> ')
            own[re.sub(r'^(\d+:\d+:)', '', what)] = new
    return classes, members


def kind_of(what):
    """Of a member's line the kind and what has one new name: a field's name, a method's name and descriptor."""
    kind, name = what.split(' ', 1)
    if '(' not in name:
        return 'field', name
    return 'method ' + kind + ' ' + name[name.index('('):], name[:name.index('(')]


def compared(theirs, ours):
    """How many names are ProGuard's, and those that aren't."""
    same, other = 0, []
    for old, new in ours[0].items():
        if old not in theirs[0]:
            continue
        wanted = theirs[0][old]
        if wanted == new:
            same += 1
        else:
            other.append(('class', old, wanted, new))
        for what, name in ours[1][old].items():
            given = theirs[1][old].get(what)
            if given is None:
                continue
            if given == name:
                same += 1
            else:
                other.append((kind_of(what)[0], f'{old}: {what}', given, name))
    return same, other


def why(place, ours, theirs):
    """Why a name isn't ProGuard's, as far as both mappings tell."""
    kind, old, wanted, new = place
    if kind == 'class':
        return 'another package' if wanted.rpartition('.')[0] != old.rpartition('.')[0] else 'another class has it'
    name = kind_of(old.split(': ', 1)[1])[1]
    if new == name:
        return 'the name stays'
    holders = {(kind_of(w)[1]) for c in ours[1].values() for w, n in c.items() if kind_of(w)[0] == kind and n == wanted}
    lines = [n for c in theirs[1].values() for w, n in c.items() if kind_of(w) == (kind, name)]
    if lines and lines[0] != wanted:
        return 'an earlier line gives another name'
    if holders:
        return 'another name has it'
    return 'the name is one of the library or stays elsewhere'


def frames(path):
    """A trace with all new names of a mapping, at lines in and out of all ranges and at none; of each line whether a
    method fits it."""
    out, classes = [], []
    for line in path.read_text().splitlines():
        if not line.startswith(' '):
            classes.append((line.rstrip(':').split(' -> ')[1], {}))
        elif '(' in line:
            found = re.match(r'\s*(\d+):(\d+):', line)
            classes[-1][1].setdefault(line.split(' -> ')[1], []).append(found and (int(found[1]), int(found[2])))
    for new, methods in classes:
        out.append((f'{new}: no such thing', True))
        for name, ranges in methods.items():
            told = sorted({line for it in ranges if it for line in (it[0], it[1], it[1] + 1)})
            for number in (None, *told, 60000):
                fits = number is None or any(it is None or it[0] <= number <= it[1] for it in ranges)
                out.append((f'    at {new}.{name}(SourceFile' + ('' if number is None else f':{number}') + ')', fits))
    return out


def retraced(command, path, lines, room):
    """What is printed for each line of a trace, each traced by its place among separators."""
    trace = room / 'trace.txt'
    marks = [f'-- {k} --' for k in range(len(lines))]
    trace.write_text(''.join(f'{line}\n{mark}\n' for line, mark in zip(lines, marks)))
    said = subprocess.run([*command, str(path), str(trace)], capture_output=True, text=True).stdout.splitlines()
    parts, now = [], []
    for line in said:
        if line.strip() in marks:
            parts.append(now)
            now = []
        else:
            now.append(line)
    return parts


def whole(lines):
    """ReTrace leaves out of an alternative what the line before has, blank for character: written whole again."""
    out = []
    for line in lines:
        if out and line[:1] == ' ' and not line.lstrip().startswith('at '):
            blanks = len(line) - len(line.lstrip())
            line = out[-1][:blanks] + line.lstrip()
        out.append(line)
    return out


def shrunk_by_proguard(top, name, place, rules, jdk, more):
    """The rules by which ProGuard's output is checked."""
    (top / f'{name}.pro').write_text(
        f'-injars {place}\n-outjars {top}/{name}\n-libraryjars {jdk}\n-printmapping {top}/{name}.txt\n'
        f'-dontoptimize\n-dontnote\n-dontwarn\n-keeppackagenames\n{more}{rules}')
    subprocess.run(['proguard', f'@{top}/{name}.pro'], stdout=open(top / f'{name}.log', 'w'), stderr=subprocess.STDOUT,
                   check=True)
    config = top / f'{name}-check.pro'
    config.write_text(f'-injars {place}\n-outjars {top}/{name}\n-printmapping {top}/{name}.txt\n{rules}')
    return config


def said_by(program, *words):
    return subprocess.run([program, *map(str, words)], capture_output=True, text=True).stdout.strip()


def traces(program, path, room):
    """How many lines of a trace through a mapping are told otherwise by ReTrace, where a method fits and where none does."""
    rows = frames(path)
    lines = [line for line, _ in rows]
    one = retraced([program, 'retrace'], path, lines, room)
    two = [whole(part) for part in retraced(['java', '-jar', RETRACE], path, lines, room)]
    wrong = [(line, a, b) for (line, fits), a, b in zip(rows, one, two) if a != b and fits]
    for row in wrong[:3]:
        print('   ', row, file=sys.stderr)
    outside = sum(1 for (_, fits), a, b in zip(rows, one, two) if a != b and not fits)
    return (sum(1 for _, fits in rows if fits), sum(1 for (_, fits), a in zip(rows, one) if fits and len(a) > 1), len(wrong),
            sum(1 for _, fits in rows if not fits), outside)


def main():
    program, count = os.path.abspath(sys.argv[1]), int(sys.argv[2]) if len(sys.argv) > 2 else 13
    room = Path(tempfile.mkdtemp())
    print('in', room, file=sys.stderr)
    jdk = library(room)
    oks, counts = {}, [0] * 5
    for name, place, rules in programs(room, count):
        top = room / name
        top.mkdir()
        witness = top / 'wit.txt'
        witness.write_text('witness 1\n')
        (top / 'first.pro').write_text(f'-injars {place}\n-outjars {top}/first\n-printmapping {top}/first.txt\n-dontoptimize\n{rules}')
        said_by(program, 'shrink', top / 'first.pro', top / 'first.wit')
        for way, more in (('plain', ''), ('unique', '-useuniqueclassmembernames\n'), ('applied', f'-overloadaggressively\n-applymapping {top}/first.txt\n')):
            said = said_by(program, 'check', shrunk_by_proguard(top, way, place, rules, jdk, more), witness)
            oks.setdefault(way, []).append(said)
            print(f'{name} {way}: check {said}', end='', flush=True)
            if way != 'applied':
                (top / f'ours-{way}.pro').write_text(
                    f'-injars {place}\n-outjars {top}/ours-{way}\n-printmapping {top}/ours-{way}.txt\n'
                    f'-applymapping {top}/{way}.txt\n-dontoptimize\n{rules}')
                said_by(program, 'shrink', top / f'ours-{way}.pro', top / 'ours.wit')
                theirs, ours = mapping(top / f'{way}.txt'), mapping(top / f'ours-{way}.txt')
                same, other = compared(theirs, ours)
                reasons = {}
                for it in other:
                    reasons.setdefault(why(it, ours, theirs), []).append(it)
                told = ''.join(f', {len(rows)} {reason}' for reason, rows in reasons.items())
                print(f'; names {same} alike{told}', end='')
                for reason, rows in reasons.items():
                    for row in rows[:3]:
                        print('   ', name, way, reason, row, file=sys.stderr)
                for path in (top / f'{way}.txt', top / f'ours-{way}.txt') if name in EXAMPLES else ():
                    found = traces(program, path, room)
                    counts = [a + b for a, b in zip(counts, found)]
                    print(f'; traces {found}', end='')
            print(flush=True)
    for way, said in oks.items():
        print(f'{way}: {said.count("ok")} of {len(said)} ok')
    print('lines where a method fits: %d, with several old names %d, told otherwise by ReTrace %d; where none fits: %d, %d' % tuple(counts))


main()
