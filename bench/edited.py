#!/usr/bin/env python3
"""Makes pairs whose codes are edited, with their witnesses, and forges witnesses; `check` judges each.

    python3 bench/edited.py PROGRAM [--rough N] [--each N] [--seed N] [--keep DIR] [--only WORD] [--put DIR] [--of CLASSES MAIN]

PROGRAM is a built program (bin/cixorradde's, or one of .try). For each example its `shrink`, under -dontoptimize, gives a pair
with unchanged codes. The passes of passes.py then edit every code of the output, and their acts are the witness. `check` has to
say `ok`, and both main methods run under `java` with all classes verified and have to print the same. So it is done with the
example's classes as they are, and with N places of each code made rough before (6 unless said otherwise): dead code, branches
on constants, stores that nothing loads, gotos. With --put the pairs made rough are left below DIR, each with s.pro, map.txt and o.wit; with
--of a directory of classes and its main class stand in place of the examples. First each row of the example of
docs/CHECKING.md, "Edited codes", is asked, and has to be answered so.

Then forged witnesses: for each kind of act each of the FORGERIES below is made N times (10 unless said otherwise) at acts that
a fixed seed picks: once with the output as it is, where passes.py says which answer is right, clause and place; and once with
the output that the forged witness would make, where `ok` is right exactly where passes.py finds its acts legal. Such outputs
run under `java`, too. An answer that isn't right is a failure: it is kept below DIR (forged/) and the status is 1.
"""
import argparse
import collections
import copy
import os
import random
import re
import struct
import subprocess
import sys
import tempfile
from pathlib import Path

sys.dont_write_bytecode = True
sys.path.insert(0, os.path.dirname(os.path.abspath(__file__)))
import passes
from both import JAVA, put, tree
from classes import Class, Code, Member, read_class, targets, write_class

TOP = Path(__file__).resolve().parent.parent
EXAMPLES = [('minimal', 'Hello'), ('app', 'Main'), ('railway', 'Railway')]
GREATEST = 2 ** 32 - 1
STATIC = 8


# ---- rough codes

def inserted(body, at, ins, behind):
    """Puts instructions before a place. What leads there leads to their first one; with `behind` it passes them over."""
    count = len(ins)

    def moved(to):
        return to + count if to > at or behind and to == at else to

    def typed(held):
        return [['made', it[1] + count if it[1] >= at else it[1]] if it[0] == 'made' else it for it in held]
    body.ins = [passes.retargeted(it, lambda which, to: moved(to)) for it in body.ins]
    body.handlers = [[moved(row[0]), row[1] + count if row[1] > at else row[1], moved(row[2]), row[3]] for row in body.handlers]
    body.frames = {moved(to): (typed(frame[0]), typed(frame[1])) for to, frame in body.frames.items()}
    line = body.lines[at - 1 if at else 0]
    body.ins[at:at], body.lines[at:at] = [list(it) for it in ins], [line] * count


def dead_code(rng, body, at, frame, spare):
    if at == 0 or passes.goes_on(body.ins[at - 1]):
        return False
    inserted(body, at, [['op', 1], ['op', 191]], True)
    body.frames[at] = (frame[0], [])


def unused_store(rng, body, at, frame, spare):
    more = rng.choice([[['int', 5], ['store', 0, spare]], [['int', 5], ['store', 0, spare], ['iinc', spare, 3]],
                       [['long', 7], ['store', 1, spare]], [['int', 3], ['int', 4], ['op', 96], ['store', 0, spare]]])
    inserted(body, at, more, False)


def branch_on_constant(rng, body, at, frame, spare):
    """Always taken, past code that is dead then."""
    load = [['int', 5], ['store', 0, spare], ['load', 0, spare]]
    begin, branch = rng.choice([(load, ['if', 154, 0]), (load + [['int', 5]], ['if', 159, 0]), ([['int', 0]], ['if', 153, 0]),
                                (load[:2] + [['iinc', spare, 1]] + load[2:] + [['int', 6]], ['if', 159, 0]),
                                (load, ['table', 0, 7, [0, 0]]), (load, ['lookup', 0, [1, 9], [0, 0]])])
    elsewhere = [] if branch[0] != 'if' and rng.random() < 0.3 else [['op', 1], ['op', 191]]
    to = at + len(begin) + 1 + len(elsewhere)
    inserted(body, at, [*begin, passes.aimed(branch, lambda old: to), *elsewhere], False)
    if branch[0] != 'if' and elsewhere:
        body.frames[to - 2] = (frame[0], [])
    body.frames[to] = frame


def goto_next(rng, body, at, frame, spare):
    inserted(body, at, [['goto', at + 1]], False)
    body.frames[at + 1] = frame


def branch_to_next(rng, body, at, frame, spare):
    """On what isn't known: an int that is a local there."""
    slot, found = 0, []
    for it in frame[0]:
        found += [slot] if it == ['int'] else []
        slot += 2 if it == ['long'] else 1
    if not found:
        return False
    two = rng.random() < 0.5
    more = [['load', 0, rng.choice(found)]] * (1 + two)
    inserted(body, at, [*more, ['if', rng.choice([159, 161] if two else [153, 156]), at + len(more) + 1]], False)
    body.frames[at + len(more) + 1] = frame


ROUGH = [dead_code, unused_store, branch_on_constant, branch_on_constant, goto_next, goto_next, branch_to_next]


def roughened(rng, data, count):
    """A class file with so many places of each code made rough, without the attributes that aren't read."""
    made = read_class(data)
    for it in [made, *made.fields, *made.methods, *(it.code for it in made.methods if it.code)]:
        it.others = []
    for method in made.methods:
        if not method.code:
            continue
        body, code = passes.body_of(made.name, method), method.code
        for _ in range(count):
            # the marked frames of a constructor stay as they are
            places = [(at, frame) for at, frame in body.frames.items() if ['this'] not in frame[0]]
            if 0 not in body.frames and method.name != '<init>' and not any(0 in targets(it) for it in body.ins):
                places.append((0, (passes.first_locals(made.name, method), [])))
            if places:
                at, frame = rng.choice(sorted(places, key=lambda it: it[0]))
                if rng.choice(ROUGH)(rng, body, at, frame, code.max_locals) is not False:
                    code.max_locals += 2
                    code.max_stack = max(code.max_stack, len(frame[1]) * 2 + 4)
        passes.put(body, code)
    return write_class(made)


# ---- a pair

def old_names(mapping):
    """For each new class name: the old one, and the methods with a line, as a witness names them."""
    found = {}
    for line in mapping.split('\n'):
        at = re.fullmatch(r'(\S+) -> (\S+):', line)
        if at:
            methods = found.setdefault(at[2].replace('.', '/'), (at[1], []))[1]
        elif '(' in line:
            methods.append(re.sub(r'^    (\d+:\d+:)?', '', line).rpartition(' -> ')[0])
    return found


class Pair:
    """An input and an output with the codes of the input, by the lines of a mapping; `bodies` are these codes by class file and
    method, `order` the methods with a code as a witness tells them."""

    def __init__(self, name, inputs, outputs, mapping, config):
        self.name, self.inputs, self.outputs, self.mapping, self.config = name, inputs, outputs, mapping, config
        self.bodies, self.names, places = {}, {}, []
        olds = old_names(mapping)
        for path, data in outputs.items():
            if path.endswith('.class'):
                found = read_class(data)
                old, methods = olds[found.name]
                for k, (method, text) in enumerate(zip(found.methods, methods)):
                    self.names[path, k] = f'{old} {text}'
                    if method.code:
                        self.bodies[path, k] = passes.body_of(found.name, method)
                        places.append((old.replace('.', '/').encode() + b'.class', path, k))
        self.order = [(path, k) for _, path, k in sorted(places)]
        self.after = {}

    def after_steps(self, key, steps):
        """The code of a method after acts; None where one isn't legal."""
        told = key, repr(steps)
        if told not in self.after:
            self.after[told] = passes.after_steps(self.bodies[key], dict(steps))
        return self.after[told]

    def put(self, edits, paths=None):
        """The output in which these codes are others; with `paths` these files of it alone."""
        files = dict(self.outputs) if paths is None else {}
        for path in {path for path, _ in edits} if paths is None else paths:
            found = read_class(self.outputs[path])
            for (at, k), body in edits.items():
                if at == path:
                    passes.put(body, found.methods[k].code)
            files[path] = write_class(found)
        return files


def text(entries):
    """A witness: entries are methods by their names, each with its acts by steps."""
    lines = ['witness 1']
    for name, steps in entries:
        lines.append(f'method {name}')
        for step, acts in steps:
            lines += [f'step {step}', *(' '.join(map(str, act)) for act in acts)]
    return '\n'.join(lines) + '\n'


def entry_of(pair, key, steps):
    return [pair.names[key], [[step, list(acts)] for step, acts in sorted(steps.items())]]


class Room:
    def __init__(self, program, room, kept):
        self.program, self.room, self.kept = str(Path(program).resolve()), Path(room), Path(kept)
        self.at, self.shown, self.both, self.wrong, self.calls = self.room / 'at', {}, [], [], 0
        self.at.mkdir()

    def call(self, *words):
        self.calls += 1
        ran = subprocess.run([self.program, *words], cwd=self.at, capture_output=True, timeout=300)
        return ran.stdout.decode('utf-8', 'replace').rstrip('\n')

    def show(self, files):
        for path in [it for it in self.shown if it not in files]:
            (self.at / path).unlink()
        put(self.at, {path: data for path, data in files.items() if self.shown.get(path) != data})
        self.shown = dict(files)

    def made(self, name, inputs):
        """The pair that `shrink` writes by the example's config, or by that of an example."""
        given = TOP / f'examples/{name}/shrink.pro'
        rules = re.sub(r'^-(injars|outjars|print\w+) .*\n', '',
                       (given if given.exists() else TOP / 'examples/railway/shrink.pro').read_text(), flags=re.M)
        config = f'-injars in\n-outjars out\n-printmapping map.txt\n-dontoptimize\n{rules}'
        self.show({'s.pro': config.encode(), **{f'in/{path}': data for path, data in inputs.items()}})
        said = self.call('shrink', 's.pro', 'o.wit')
        if said.startswith('error'):
            sys.exit(f'edited.py: {name} is not shrunk: {said}')
        pair = Pair(name, inputs, tree(self.at / 'out'), (self.at / 'map.txt').read_text(), config)
        subprocess.run(['rm', '-r', 'out', 'map.txt', 'o.wit'], cwd=self.at, check=True)
        return pair

    def files(self, pair, outputs, witness):
        return {'s.pro': pair.config.encode(), 'map.txt': pair.mapping.encode(), 'o.wit': witness.encode(),
                **{f'in/{path}': data for path, data in pair.inputs.items()}, **{f'out/{path}': data for path, data in outputs.items()}}

    def check(self, pair, outputs, witness):
        self.show(self.files(pair, outputs, witness))
        return self.call('check', 's.pro', 'o.wit')

    def fail(self, what, pair, outputs, witness, why):
        target = self.kept / f'{what}-{len(self.wrong)}'.replace(' ', '-')
        put(target, self.files(pair, outputs, witness))
        self.wrong.append(f'{pair.name}: {what}: {why} ({target})')
        print(f'edited.py: {self.wrong[-1]}', file=sys.stderr, flush=True)

    def runs(self, pair, outputs, main, what, witness):
        folder = self.room / 'both' / str(len(self.both))
        put(folder / 'in', pair.inputs)
        put(folder / 'out', outputs)
        self.both.append((folder, main, what, pair, outputs, witness))

    def run_both(self):
        """Runs input and output of each pair that was taken; they have to print the same."""
        (self.room / 'Both.java').write_text(JAVA)
        subprocess.run(['javac', '-J-XX:TieredStopAtLevel=1', '-d', str(self.room), str(self.room / 'Both.java')], check=True,
                       stderr=subprocess.DEVNULL)
        lines = ''.join(f'{folder}/in {folder}/out {main}\n' for folder, main, *_ in self.both)
        ran = subprocess.run(['java', '-XX:+UseSerialGC', '-XX:TieredStopAtLevel=1', '-Xverify:all', '-cp', str(self.room), 'Both'],
                             input=lines, capture_output=True, text=True)
        said = [it for it in ran.stdout.split('\n') if it]
        if len(said) != len(self.both):
            sys.exit(f'edited.py: java answered {len(said)} of {len(self.both)}: {ran.stderr[-500:]}')
        for (_, _, what, pair, outputs, witness), line in zip(self.both, said):
            if line != 'same':
                self.fail(what, pair, outputs, witness, f'under java they {line[:300]}')


def edited(room, pair, main, what):
    """The pair with all codes edited that are typed then; the acts of each, or none where it isn't taken."""
    edits, steps = {}, {}
    for key in pair.order:
        body, acts = passes.optimised(pair.bodies[key])
        if acts:
            edits[key], steps[key] = body, acts
    fallback = 0
    while True:
        outputs, witness = pair.put(edits), text([entry_of(pair, key, steps[key]) for key in pair.order if key in steps])
        said = room.check(pair, outputs, witness)
        untyped = [key for key in steps if said == f'error 9 no OutputProfile {" ".join(output_name(pair, key))}']
        if len(untyped) != 1:
            break
        del edits[untyped[0]], steps[untyped[0]]
        fallback += 1
    counts = collections.Counter(act[0] for held in steps.values() for acts in held.values() for act in acts)
    told = ', '.join(f'{kind} {count}' for kind, count in sorted(counts.items())) or 'none'
    print(f'{what}: {len(pair.order)} codes, {len(steps)} edited, {fallback} fallbacks, acts: {told}: {said}', flush=True)
    if said == 'ok':
        room.runs(pair, outputs, main, what, witness)
    else:
        room.fail(what, pair, outputs, witness, said)
    return steps, edits


def output_name(pair, key):
    """The class and the method of the output, as a refusal names them."""
    found = read_class(pair.outputs[key[0]])
    method, dotted = found.methods[key[1]], {'Z': 'boolean', 'B': 'byte', 'C': 'char', 'S': 'short', 'I': 'int', 'J': 'long', 'V': 'void'}
    names = []
    for dims, base in re.findall(r'(\[*)(L[^;]*;|[A-Z])', method.descriptor):
        names.append((base[1:-1].replace('/', '.') if base[0] == 'L' else dotted[base]) + '[]' * len(dims))
    return found.name.replace('/', '.'), f'{names[-1]} {method.name}({",".join(names[:-1])})'


# ---- the example of the page

def page(room):
    """Asks each row of the example of docs/CHECKING.md, and that of the clauses on witnesses; tells how many there are."""
    text = (TOP / 'docs/CHECKING.md').read_text()
    clauses, example = text.split('| Clause |')[1].split('\n\n')[0], text.split('## Edited codes')[1].split('\n## ')[0]

    def class_file(ins, frames):
        return write_class(Class(0x21, 'Main', 'java/lang/Object', [], [], [Member(9, 'f', '(I)I', code=Code(1, 1, ins, [], frames, []))]))
    load = [['load', 0, 0], ['op', 172]]
    pair = Pair('page', {'Main.class': class_file([['goto', 2], ['op', 0], *load], [[1, 'same'], [2, 'same']])},
                {'Main.class': class_file(load, [])}, 'Main -> Main:\n    int f(int) -> f\n',
                '-injars in\n-outjars out\n-printmapping map.txt\n-keep class Main { int f(int); }\n')
    begin = 'witness 1\nmethod Main int f(int)\n'
    right = re.search(r'With the witness\n\n```\n(.*?)```', example, re.S)[1]
    asked = [(right, 'ok')]
    for acts, line in re.findall(r'^\| (.*?) \| `(error .*?)` \|', example, re.M):
        witness = 'witness 1\n' if acts.startswith('none') else right.replace(' f(', ' h(') if 'the same' in acts else \
            begin + ''.join(f'{it}\n' for it in re.findall(r'`(.*?)`', acts))
        asked.append((witness, line))
    asked += [(begin.replace(' f(', ' h(') + 'step 1\ndrop 1 1\n', re.search(r'`(error 9 no WitnessStray .*?)`', clauses)[1]),
              (begin + 'step 1\ndrop 0 0\n', re.search(r'`(error 9 no EditIllegal .*?)`', clauses)[1])]
    for witness, line in asked:
        said = room.check(pair, pair.outputs, witness)
        if said != line:
            room.fail('page', pair, pair.outputs, witness, f'{said!r}, and the page says {line!r}')
    print(f'{len(asked)} rows of docs/CHECKING.md', flush=True)
    return len(asked) > 7 or sys.exit('edited.py: the rows of docs/CHECKING.md aren\'t found')


# ---- forged witnesses

FORGERIES = {}


def forgery(made):
    """made(rng, forged) changes the witness of `forged`, or answers False where it can't."""
    FORGERIES[made.__name__] = made
    return made


class Forged:
    """The entries of a witness, and an act in it: its entry, its step and its number."""

    def __init__(self, pair, entries, at):
        self.pair, self.entries, (self.entry, self.step, self.number) = pair, entries, at

    def steps(self):
        return self.entries[self.entry][1]

    def acts(self):
        return self.steps()[self.step][1]

    def act(self):
        return self.acts()[self.number]

    def put(self, *act):
        self.acts()[self.number] = act

    def length(self):
        keys = {self.pair.names[key]: key for key in self.pair.order}
        return len(self.pair.bodies[keys[self.entries[self.entry][0]]].ins)


def lands(forged, to):
    """The act with its first place there; a range keeps its length."""
    act = forged.act()
    if not 0 <= to <= GREATEST or to == act[1]:
        return False
    more = act[2] - act[1] + to if act[0] in ('drop', 'fact') else None
    forged.put(act[0], to, *([min(more, GREATEST), *act[3:]] if more is not None else act[2:]))


@forgery
def place_before(rng, forged):
    return lands(forged, forged.act()[1] - rng.choice([1, 1, 2]))


@forgery
def place_behind(rng, forged):
    return lands(forged, forged.act()[1] + rng.choice([1, 1, 2]))


@forgery
def place_anywhere(rng, forged):
    return lands(forged, rng.choice([0, rng.randrange(forged.length()), forged.length(), GREATEST]))


@forgery
def end_or_target(rng, forged):
    """The end of a range, or where it leads; of a cut or a skip the act names two places more."""
    act, by = forged.act(), rng.choice([-2, -1, 1, 2])
    if act[0] in ('cut', 'skip'):
        forged.acts().append((act[0], act[1] + 1))
        forged.acts().append((act[0], act[1] + 2))
        return None
    at = 3 if act[0] == 'aim' else 2
    if act[at] + by < 0:
        return False
    forged.put(*act[:at], act[at] + by, *act[at + 1:])


@forgery
def value_or_slot(rng, forged):
    """Another value, slot or number of a target; of other acts the place of another act."""
    act = forged.act()
    if act[0] == 'fact':
        forged.put(*act[:3], *rng.choice([(act[3], act[4] ^ 1), (act[3], -act[4] - 1), (act[3] + 1, act[4]), (act[3] ^ 1, act[4])]))
    elif act[0] == 'aim':
        forged.put(act[0], act[1], act[2] + rng.choice([1, 2]), act[3])
    else:
        others = [it for _, acts in forged.steps() for it in acts if it[1] != act[1]]
        return lands(forged, rng.choice(others)[1]) if others else False


@forgery
def one_more(rng, forged):
    act, n = forged.act(), forged.length()
    at = rng.randrange(n)
    forged.acts().insert(rng.randrange(len(forged.acts()) + 1), {
        'drop': ('drop', at, at + rng.randrange(2)), 'fact': ('fact', at, min(n - 1, at + 1), *act[3:]), 'fold': ('fold', at, at + 1),
        'cut': ('cut', at), 'aim': ('aim', at, 0, rng.randrange(n)), 'skip': ('skip', at)}[act[0]])


@forgery
def one_fewer(rng, forged):
    del forged.acts()[forged.number]
    if not forged.acts():
        del forged.steps()[forged.step]
    if not forged.steps():
        del forged.entries[forged.entry]


@forgery
def twice(rng, forged):
    forged.acts().insert(rng.randrange(len(forged.acts()) + 1), forged.act())


@forgery
def other_step(rng, forged):
    """In another step, mostly of the same pass where there is one."""
    act, step = forged.act(), forged.steps()[forged.step][0]
    other = rng.choice([it for it in (1, 3, 6) if it != step] if act[0] == 'drop' and rng.random() < 0.9 else
                       [it for it in range(1, 7) if it != step])
    one_fewer(rng, forged)
    if forged.entry >= len(forged.entries) or not forged.steps():
        return False
    held = next((acts for number, acts in forged.steps() if number == other), None)
    if held is None:
        forged.steps().append([other, [act]])
        forged.steps().sort()
    else:
        held.append(act)


@forgery
def other_method(rng, forged):
    """The act stands in the entry of another method."""
    step, act = forged.steps()[forged.step][0], forged.act()
    others = [k for k in range(len(forged.entries)) if k != forged.entry]
    if not others:
        return False
    steps = forged.entries[rng.choice(others)][1]
    held = next((acts for number, acts in steps if number == step), None)
    if held is None:
        steps.append([step, [act]])
        steps.sort()
    else:
        held.append(act)
    if rng.random() < 0.5:
        one_fewer(rng, forged)


@forgery
def entry_of_another(rng, forged):
    """The whole entry names another method: one that has none, one that isn't there, or one without a code."""
    named = {it[0] for it in forged.entries}
    free = [forged.pair.names[key] for key in forged.pair.names if forged.pair.names[key] not in named]
    free.append(forged.entries[forged.entry][0].rpartition('(')[0] + '(int,int,int,int)')
    forged.entries[forged.entry][0] = rng.choice(free)


@forgery
def entry_again_or_gone(rng, forged):
    """The entry stands twice or not at all, or the acts of a step stand in the opposite order."""
    pick = rng.randrange(3)
    if pick == 0:
        forged.entries.insert(forged.entry + rng.randrange(2), copy.deepcopy(forged.entries[forged.entry]))
    elif pick == 1:
        del forged.entries[forged.entry]
    else:
        if len(forged.acts()) < 2:
            return False
        forged.acts().reverse()


def is_text(pair, entries):
    """The witness is in its grammar: each act in a step of its pass, steps and classes in order, no method twice."""
    names = [name for name, _ in entries]
    holders = [name.split(' ')[0].replace('.', '/').encode() + b'.class' for name in names]
    return (len(set(names)) == len(names) and holders == sorted(holders) and all(
        steps and [step for step, _ in steps] == sorted({step for step, _ in steps}) and all(
            acts and all(passes.PASS_OF[act[0]] == passes.PASSES[step] and 0 <= min(act[1:3]) for act in acts)
            for step, acts in steps) for _, steps in entries))


def right_answer(pair, entries, edits):
    """What `check` has to say of a witness of this pair, whose output has these codes."""
    if not is_text(pair, entries):
        return 'error 11'
    keys = {pair.names[key]: key for key in pair.order}
    told = {keys[name]: steps for name, steps in entries if name in keys}
    for name, _ in entries:
        if name not in keys:
            return f'error 9 no WitnessStray {name}'
    after = {key: pair.after_steps(key, told[key]) for key in told}
    for key in pair.order:
        if key in after and after[key] is None:
            return f'error 9 no EditIllegal {pair.names[key]}'
    for key in pair.order:
        one, two = after.get(key, pair.bodies[key]), edits.get(key, pair.bodies[key])
        if (one.ins, one.handlers, one.lines) != (two.ins, two.handlers, two.lines):
            return f'error 9 no CodeDiffers {pair.names[key]}'
    return 'ok'


def as_told(pair, entries):
    """The codes that the acts of a witness make, legal or not; None where they have no class file."""
    keys, edits = {pair.names[key]: key for key in pair.order}, {}
    for name, steps in entries:
        if name not in keys:
            return None
        body = pair.bodies[keys[name]]
        for step, acts in steps:
            body = passes.applied(passes.PASSES[step], acts, body)
        edits[keys[name]] = body
        if not body.ins or any(to >= len(body.ins) for ins in body.ins for to in targets(ins)):
            return None
    return edits


def forge(room, pair, main, steps, edits, rng, each, only, rows):
    """Forged witnesses of a pair that was taken."""
    entries = [entry_of(pair, key, steps[key]) for key in pair.order if key in steps]
    whole, places = pair.put(edits), collections.defaultdict(list)
    for k, (_, held) in enumerate(entries):
        for j, (step, acts) in enumerate(held):
            for n, act in enumerate(acts):
                places[act[0]].append((k, j, n))
    for kind in sorted(places):
        for name, made in FORGERIES.items():
            if only not in f'{kind} {name}':
                continue
            for _ in range(each):
                for _ in range(8):
                    forged = Forged(pair, copy.deepcopy(entries), rng.choice(places[kind]))
                    if made(rng, forged) is not False and forged.entries != entries:
                        one_forged(room, pair, main, forged.entries, edits, whole, kind, name, rows)
                        break


def one_forged(room, pair, main, entries, edits, whole, kind, name, rows):
    witness, right = text(entries), right_answer(pair, entries, edits)
    said = room.check(pair, whole, witness)
    row = rows[kind]
    row['forged'] += 1
    row[shape(said)] += 1
    if said != right and not (right == 'error 11' and said.startswith('error 11 text ')):
        room.fail(f'{kind} {name}', pair, whole, witness, f'{said!r}, and {right!r} is right')
    if right == 'error 11':
        return
    made = as_told(pair, entries)
    changed = {key: body for key, body in (made or {}).items() if key not in edits or body != edits[key]}
    unedited = {key: pair.bodies[key] for key in edits if made and key not in made}
    try:
        outputs = made and {**whole, **pair.put({**made, **unedited}, {path for path, _ in [*changed, *unedited]})}
    except (IndexError, struct.error, OverflowError):
        outputs = None
    if not outputs:
        return
    right, said = right_answer(pair, entries, made), room.check(pair, outputs, witness)
    row['with its output'] += 1
    row[f'{shape(said)} '] += 1
    if (said == 'ok') != (right == 'ok') and not (right == 'ok' and 'OutputProfile' in said):
        room.fail(f'{kind} {name} with its output', pair, outputs, witness, f'{said!r}, and {right!r} is right')
    elif said not in (right, 'ok') and not re.match(r'error 9 no Output(Profile|Format) ', said):
        room.fail(f'{kind} {name} with its output', pair, outputs, witness, f'{said!r}, and {right!r} is right')
    elif said == 'ok':
        room.runs(pair, outputs, main, f'{kind} {name}', witness)


def shape(said):
    found = re.match(r'error 9 no (\w+)', said) or re.match(r'error 11 text \d+ (\w+)', said)
    return found[1] if found else said


def table(rows):
    print('| Act | Forged witnesses | `ok` | Refused by | With the output that it tells | `ok` | Refused by |\n|---|---|---|---|---|---|---|')
    total = collections.Counter()
    for row in rows.values():
        total.update(row)

    def by(row, behind):
        return ', '.join(f'{name.strip()} {count:,}' for name, count in row.most_common()
                         if name.endswith(' ') == behind and name.strip() not in ('ok', 'forged', 'with its output'))
    for kind, row in [*((f'`{kind}`', rows[kind]) for kind in sorted(rows)), ('all', total)]:
        print(f'| {kind} | {row["forged"]:,} | {row["ok"]:,} | {by(row, False)} | {row["with its output"]:,} | {row["ok "]:,} | {by(row, True)} |')


def main():
    words = argparse.ArgumentParser(description=__doc__, formatter_class=argparse.RawDescriptionHelpFormatter)
    words.add_argument('program')
    words.add_argument('--rough', type=int, default=6)
    words.add_argument('--each', type=int, default=10)
    words.add_argument('--seed', type=int, default=1)
    words.add_argument('--keep', default='forged')
    words.add_argument('--only', default='')
    words.add_argument('--put')
    words.add_argument('--of', nargs=2)
    asked = words.parse_args()
    rows = collections.defaultdict(collections.Counter)
    with tempfile.TemporaryDirectory(dir='/dev/shm' if os.path.isdir('/dev/shm') else None) as at:
        room = Room(asked.program, at, asked.keep)
        page(room)
        for name, main_class in [asked.of] if asked.of else EXAMPLES:
            inputs = tree(name if asked.of else TOP / f'examples/{name}/in')
            edited(room, room.made(name, inputs), main_class, f'{name} as it is')
            rng = random.Random(f'{asked.seed} {Path(name).name}')
            pair = room.made(name, {path: roughened(rng, data, asked.rough) for path, data in inputs.items()})
            steps, edits = edited(room, pair, main_class, f'{name} made rough')
            if asked.put:
                put(Path(asked.put) / Path(name).name, room.shown)
            if not room.wrong and asked.each:
                forge(room, pair, main_class, steps, edits, rng, asked.each, asked.only, rows)
        room.run_both()
        if rows:
            table(rows)
        print(f'{room.calls} calls, {len(room.both)} pairs ran under java, {len(room.wrong)} wrong')
        sys.exit(1 if room.wrong else 0)


if __name__ == '__main__':
    main()
