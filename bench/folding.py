#!/usr/bin/env python3
"""Optimises programs with much to fold and runs them before and after, and tells how much smaller they get.

    python3 bench/folding.py PROGRAM random [--programs N] [--seed N] [--keep DIR]
    python3 bench/folding.py PROGRAM sizes

PROGRAM is a built program (bin/cixorradde's, or one of .try).

`random` writes N small programs (300 unless said otherwise) by random_programs.py whose bodies have, beside what is there,
flags and levels that hold a constant, choices by them, switches on constants, dead code, stores that nothing loads, state
machines, and loops that are left and gone on with from within. Each is compiled, every second one with `-g` and lines kept, and
shrunk with passes and under -dontoptimize. `check` has to say `ok` of both, and all three main methods run under `java`, with
all classes verified, and have to print and end alike. What differs is told, kept below DIR (kept/ in a new folder unless said
otherwise), and the status is 1.

`sizes` tells the bytes of the class files of each example before, under -dontoptimize, with passes, and where that is shrunk again;
how many of the kept methods were edited and fell back; and the processor seconds of one run. Beside it stand the bytes that
ProGuard writes by the same rules, without and with those of its optimisations that are nearest to the passes, and its seconds, if
`proguard` (Debian's proguard-cli) and `jimage` are there.
"""
import argparse
import collections
import os
import re
import resource
import subprocess
import sys
import tempfile
from pathlib import Path

sys.dont_write_bytecode = True
sys.path.insert(0, os.path.dirname(os.path.abspath(__file__)))
import random_programs
from both import JAVA, put, tree

TOP = Path(__file__).resolve().parent.parent
EXAMPLES = ['minimal', 'app', 'railway', 'vending']
MAIN = '-keepclasseswithmembers class * { public static void main(java.lang.String[]); }\n'
LINES = '-keepattributes SourceFile,LineNumberTable\n'
PLAIN = '-dontoptimize\n'

# Those of ProGuard's optimisations (6.2.2) that are nearest to reach, const, slots and jumps.
NEAREST = 'code/simplification/branch,code/simplification/advanced,code/removal/simple,code/removal/advanced,code/removal/variable'


# ---- random programs

class Folding(random_programs.Writer):
    """A writer whose bodies have much to fold. A name that begins with `k` is a local variable that holds an int that is
    known, one that begins with `z` a boolean that is."""

    def __init__(self, rng, top):
        super().__init__(rng, top)
        self.flags = []

    def known(self):
        return [it for it in self.locals if it[0] == 'k']

    def new(self, letter):
        self.depth += 1
        return f'{letter}{self.depth}'

    def condition(self):
        """What is decided by constants, though not for the compiler."""
        rng, held = self.rng, self.known()
        one = rng.choice(held) if held else self.number()
        plain = f'{one} {rng.choice(random_programs.COMPARED)} {rng.choice([self.number(), *held])}'
        return rng.choice([plain, *self.flags, f'{one} != 0 && {self.value(0)} > 3', f'{plain} || {self.value(0)} == 2'])

    def value(self, deep=2):
        rng = self.rng
        if deep and self.known() and rng.random() < 0.2:
            if self.kinds and rng.random() < 0.4:
                kind = rng.choice(self.kinds)
                return f'new {kind.name}({self.condition()} ? {self.value(0)} : {self.value(0)}).value'
            return f'({self.condition()} ? {self.value(deep - 1)} : {self.value(0)})'
        return super().value(deep)

    def statement(self, deep=2):
        rng = self.rng
        if deep == 0 or rng.random() < 0.4:
            return super().statement(deep)
        aim = rng.choice([it for it in self.locals if it[0] == 'v'])
        return rng.choice([self.choice, self.by_switch, self.unused, self.machine, self.left, self.thrown, self.counted])(deep, aim)

    def choice(self, deep, aim):
        other = f' else {{ {self.statement(deep - 1)} }}' if self.rng.random() < 0.5 else ''
        return f'if ({self.condition()}) {{ {self.statement(deep - 1)} }}{other}'

    def by_switch(self, deep, aim):
        on = self.rng.choice([self.rng.choice('0127'), *self.known()])
        rows = ' '.join(f'case {k}: {self.statement(0)} {self.rng.choice(["break;", ""])}'
                        for k in self.rng.choice([[0, 1, 2, 3], [0, 7, 300], [2, 128, 40000], [5]]))
        return f'switch ({on}) {{ {rows} default: {aim} ^= 3; }}'

    def unused(self, deep, aim):
        name = self.new('u')
        return self.rng.choice([f'int {name} = {self.value(1)};', f'long {name} = {self.value(0)} * 3L;', f'int {name} = {self.number()}; {name}++;',
                                f'String {name} = "u" + {aim};', f'int {name} = 0; {name} = {self.value(0)}; {name} -= 7;'])

    def machine(self, deep, aim):
        """A state machine that ends, since its state grows or it is left."""
        name, flag = self.new('s'), self.condition()
        return (f'int {name} = 0; while ({name} < 4) {{ switch ({name}) {{ case 0: {self.statement(0)} {name} = {flag} ? 1 : 2; continue; '
                f'case 1: {name} = 2; if ({self.condition()}) {{ {self.statement(0)} break; }} continue; case 2: {name} = 3; break; '
                f'default: {name} = 9; }} {aim} += {name}; }}')

    def left(self, deep, aim):
        """A loop in a loop, left and gone on with from within."""
        outer, one, two = self.new('o'), self.new('i'), self.new('i')
        return (f'{outer}: for (int {one} = 0; {one} < 4; {one}++) {{ for (int {two} = 0; {two} < 3; {two}++) {{ '
                f'if ({self.condition()}) {{ if ({aim} > {self.number()}) continue {outer}; }} else if ({two} > 1) {{ break {outer}; }} '
                f'{self.statement(0)} if ({self.condition()}) continue; {aim}++; }} }}')

    def thrown(self, deep, aim):
        return (f'try {{ if ({self.condition()}) {{ throw new {self.top}.x.Broken("c", {aim}); }} {self.statement(0)} }} '
                f'catch ({self.top}.x.Broken e) {{ {self.statement(0)} }} finally {{ if ({self.condition()}) {{ {aim} += 5; }} }}')

    def counted(self, deep, aim):
        """A local variable that is counted by constants."""
        name = self.new('k')
        self.locals.append(name)
        text = f'int {name} = {self.number()}; {name} += {self.rng.choice(["1", "-3", "100"])}; {self.choice(deep, aim)}'
        self.locals.remove(name)
        return f'{{ {text} }}'

    def body(self, result='v0'):
        self.locals, self.flags, self.depth = ['a', 'v0', 'v1'], [], 0
        lines = [f'int v0 = {self.number()};', 'int v1 = a;']
        for letter in self.rng.sample('kkzz', self.rng.randrange(1, 5)):
            name = self.new(letter)
            lines.append(f'int {name} = {self.number()};' if letter == 'k' else f'boolean {name} = {self.rng.choice(["true", "false"])};')
            (self.locals if letter == 'k' else self.flags).append(name)
        lines += [f'{{ {self.statement()} }}' for _ in range(self.rng.randrange(2, 5))]
        return ' '.join(lines) + f' return {result} + v1;'


def said(program, room, config, witness, command='shrink'):
    return subprocess.run([program, command, config, witness], cwd=room, capture_output=True, text=True).stdout.strip()


def shrunk(program, room, name, rules):
    """Shrinks in/ to NAME/ and has it checked: the five numbers of the summary behind their words, and why it went wrong, if so."""
    (room / f'{name}.pro').write_text(f'-injars in\n-outjars {name}\n-printmapping {name}.map\n{MAIN}{rules}')
    summary = said(program, room, f'{name}.pro', f'{name}.wit')
    if not summary.startswith('classes '):
        return {}, f'shrink to {name}: {summary}'
    checked = said(program, room, f'{name}.pro', f'{name}.wit', 'check')
    told = {line.split()[0]: int(line.split()[-1]) for line in summary.splitlines()}
    told['bytes'] = size(room / name)
    return told, '' if checked == 'ok' else f'check of {name}: {checked}'


def size(top):
    return sum(it.stat().st_size for it in Path(top).rglob('*.class'))


def acts(witness):
    """How many acts of each kind a witness has."""
    found = collections.Counter(line.split()[0] for line in witness.read_text().splitlines()[1:])
    return {word: found[word] for word in ('drop', 'fact', 'fold', 'cut', 'aim', 'skip')}


def compiled(room, count):
    """Compiles the programs, each second one with `-g`, each to a folder of its own."""
    for odd, debug in enumerate(['-g:none', '-g']):
        names = [f'r{k}' for k in range(odd, count, 2)]
        files = [str(it) for name in names for it in sorted((room / 'sources' / name).rglob('*.java'))]
        (room / f'files{odd}').write_text('\n'.join(files))
        subprocess.run(['javac', '--release', '8', debug, '-nowarn', '-Xlint:-options', '-d', str(room / debug[1:]), f'@{room / f"files{odd}"}'], check=True)
        for name in names:
            (room / name / 'in').mkdir(parents=True)
            (room / debug[1:] / name).rename(room / name / 'in' / name)


def one_random(program, top, k):
    """The counts of a program, and what is wrong with it."""
    rules = LINES if k % 2 else ''
    plain, fault = shrunk(program, top, 'plain', PLAIN + rules)
    passed, other = shrunk(program, top, 'passed', rules)
    faults = [it for it in (fault, other) if it]
    if faults:
        return {}, faults
    if plain['edited'] or plain['fallback']:
        faults.append('-dontoptimize: something was edited')
    counts = {'before': size(top / 'in'), 'plain': plain['bytes'], 'passed': passed['bytes'], 'edited': passed['edited'],
              'fallback': passed['fallback'], 'methods': passed['methods'], 'kept': 0}
    counts['kept'] = plain['methods']
    if plain['methods'] != passed['methods']:
        faults.append('the kept methods differ')
    return {**counts, **acts(top / 'passed.wit')}, faults


def run_both(room, pairs):
    """Runs the main methods of pairs of folders, and answers what is said of each."""
    (room / 'Both.java').write_text(JAVA)
    subprocess.run(['javac', '-d', str(room), str(room / 'Both.java')], check=True)
    asked = ''.join(f'{one} {two} {main}\n' for one, two, main in pairs)
    return subprocess.run(['java', '-Xverify:all', '-cp', str(room), 'Both'], input=asked, capture_output=True, text=True).stdout.splitlines()


def random_ones(program, count, seed, keep):
    room = Path(keep or tempfile.mkdtemp(prefix='folding-'))
    random_programs.write(seed, count, str(room / 'sources'), Folding)
    compiled(room, count)
    totals, bad, pairs = collections.Counter(), 0, []
    for k in range(count):
        top = room / f'r{k}'
        counts, faults = one_random(program, top, k)
        totals.update(counts)
        totals['programs edited'] += counts.get('edited', 0) > 0
        bad += bool(faults)
        for fault in faults:
            print(f'r{k}: {fault}', flush=True)
        pairs += [(top / 'in', top / name, f'r{k}.Main') for name in ('plain', 'passed')]
    told = run_both(room, pairs)
    for (_, after, main), line in zip(pairs, told):
        if line != 'same':
            bad += 1
            print(f'{main} of {after}: {line[:300]}')
    bad += len(told) != len(pairs)
    print(f'{count} programs, {totals["programs edited"]} of them edited; {len(pairs)} pairs ran, {told.count("same")} alike')
    print(f'methods {totals["methods"]} kept, {totals["edited"]} edited, {totals["fallback"]} fallback')
    print('acts', ', '.join(f'{word} {totals[word]}' for word in ('drop', 'fact', 'fold', 'cut', 'aim', 'skip')))
    print(f'bytes {totals["before"]} before, {totals["plain"]} under -dontoptimize, {totals["passed"]} with passes')
    print(f'{bad} wrong' + (f', in {room}' if bad or keep else ''))
    return 1 if bad else 0


# ---- sizes of the examples

def library(room):
    """The classes of the JDK's library that ProGuard 6 can read, their version told anew; none where there is no `jimage`."""
    modules = Path(os.path.realpath(subprocess.run(['which', 'java'], capture_output=True, text=True).stdout.strip())).parent.parent / 'lib/modules'
    done = subprocess.run(['jimage', 'extract', '--dir', str(room / 'jdk'), '--include', 'regex:/java.base/java/(lang|io)/[A-Za-z]*.class', str(modules)])
    for path in (room / 'jdk').rglob('*.class'):
        data = path.read_bytes()
        path.write_bytes(data[:4] + b'\0\0\0\x34' + data[8:])
    return room / 'jdk/java.base' if done.returncode == 0 else None


def seconds():
    """The processor seconds of all processes that were started and have ended."""
    used = resource.getrusage(resource.RUSAGE_CHILDREN)
    return used.ru_utime + used.ru_stime


def by_proguard(room, name, given, rules, more):
    """The bytes of the class files that ProGuard writes, and the processor seconds that it takes."""
    out = room / name
    (room / f'{name}.pro').write_text(f'-injars {given}\n-outjars {out}\n-libraryjars {room / "jdk/java.base"}\n-dontnote\n-dontwarn\n'
                                      f'-keeppackagenames\n{rules}\n{more}')
    start = seconds()
    done = subprocess.run(['proguard', f'@{room / f"{name}.pro"}'], capture_output=True, text=True)
    if done.returncode:
        sys.exit(done.stdout[-2000:])
    return size(out), seconds() - start


def rules_of(config):
    """The rules of an example's config: all but what it reads and writes."""
    other = re.compile(r'\s*-(injars|outjars|printmapping|printseeds|printusage|libraryjars|verbose|dontwarn)')
    return ''.join(line for line in config.read_text().splitlines(True) if not other.match(line))


def one_size(program, top, rules, given, out, more=''):
    """The numbers of the summary of one run by their words, the bytes that it wrote, and the processor seconds that it took."""
    (top / f'{out}.pro').write_text(f'-injars {given}\n-outjars {out}\n-printmapping {out}.map\n{rules}\n{more}')
    start = seconds()
    summary = said(program, top, f'{out}.pro', f'{out}.wit')
    took = seconds() - start
    if said(program, top, f'{out}.pro', f'{out}.wit', 'check') != 'ok':
        sys.exit(f'check of {top / out} isn\'t ok')
    return {line.split()[0]: line.split()[-1] for line in summary.splitlines()} | {'bytes': size(top / out), 'took': took}


def sizes(program):
    room = Path(tempfile.mkdtemp(prefix='folding-'))
    has = subprocess.run('command -v proguard jimage', shell=True, capture_output=True).returncode == 0 and library(room)
    head = ['Example', 'Before', '`-dontoptimize`', 'Passes', 'Again', 'Methods', 'Edited', 'Fallback', 's']
    head += ['ProGuard `-dontoptimize`', 'ProGuard', 's'] * bool(has)
    print('| ' + ' | '.join(head) + ' |\n|' + '---|' * len(head))
    for name in EXAMPLES:
        top = room / name
        given = TOP / 'examples' / name / 'in'
        put(top / 'in', tree(given))
        rules = rules_of(TOP / 'examples' / name / 'shrink.pro')
        plain = one_size(program, top, rules, 'in', 'plain', PLAIN)
        passed = one_size(program, top, rules, 'in', 'passed')
        again = one_size(program, top, rules, 'passed', 'again')
        row = [f'`{name}`', size(given), plain['bytes'], passed['bytes'], again['bytes'], passed['methods'], passed['edited'], passed['fallback'],
               f'{passed["took"]:.3f}']
        if has:
            first, _ = by_proguard(room, f'{name}-plain', given, rules, PLAIN)
            second, took = by_proguard(room, f'{name}-passed', given, rules, f'-optimizations {NEAREST}\n-optimizationpasses 1\n')
            row += [first, second, f'{took:.1f}']
        print('| ' + ' | '.join(map(str, row)) + ' |', flush=True)
    return 0


def main():
    parser = argparse.ArgumentParser(usage=__doc__)
    parser.add_argument('program', type=lambda path: str(Path(path).resolve()))
    parser.add_argument('what', choices=['random', 'sizes'])
    parser.add_argument('--programs', type=int, default=300)
    parser.add_argument('--seed', type=int, default=1)
    parser.add_argument('--keep')
    words = parser.parse_args()
    return sizes(words.program) if words.what == 'sizes' else random_ones(words.program, words.programs, words.seed, words.keep)


if __name__ == '__main__':
    sys.exit(main())
