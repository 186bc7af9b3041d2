#!/usr/bin/env python3
"""The passes a second time, for edited.py: which acts each finds on a code, which acts are legal, and what they make of it.

    python3 bench/passes.py        answers the rows of acts in crates/class_vectors, and tells how many differ

It shares nothing with the project's crates and follows docs/PASSES.md. A code is a `Body`: its instructions as classes.py has
them, each with its line, handlers, and whole frames by the numbers of instructions. An act is a tuple as its line in a witness,
`('drop', FROM, TO)`. Legality is told of a step as a whole. All of it is quadratic and meant for codes as javac writes them.
"""
import re
import sys
from pathlib import Path

from classes import aimed, read_class, targets

PASSES = {1: 'reach', 2: 'const', 3: 'reach', 4: 'slots', 5: 'jumps', 6: 'reach'}
PASS_OF = {'drop': 'reach', 'fact': 'const', 'fold': 'const', 'cut': 'slots', 'aim': 'jumps', 'skip': 'jumps'}
NOP, POP, POP2 = ['op', 0], ['op', 87], ['op', 88]
LONG = 1


class Body:
    def __init__(self, ins, lines, handlers, frames):
        self.ins, self.lines, self.handlers, self.frames = ins, lines, handlers, frames

    def __eq__(self, other):
        return vars(self) == vars(other)


# ---- from a method and back

def types_of(descriptor):
    """The verification types of the parameters."""
    found, at = [], 1
    while descriptor[at] != ')':
        start = at
        while descriptor[at] == '[':
            at += 1
        at = descriptor.index(';', at) + 1 if descriptor[at] == 'L' else at + 1
        text = descriptor[start:at]
        found.append(['object', text[1:-1] if text[0] == 'L' else text] if text[0] in 'L[' else ['long' if text == 'J' else 'int'])
    return found


def first_locals(holder, method):
    own = [] if method.flags & 8 else [['this'] if method.name == '<init>' else ['object', holder]]
    return own + types_of(method.descriptor)


def body_of(holder, method):
    code = method.code
    held, frames = first_locals(holder, method), {}
    for number, form, *args in code.frames:
        held = {'same': lambda: held, 'one': lambda: held, 'chop': lambda: held[:-args[0]], 'append': lambda: held + args,
                'full': lambda: args[0]}[form]()
        frames[number] = (held, args if form == 'one' else args[1] if form == 'full' else [])
    rows, lines, at, line = sorted(code.lines, key=lambda it: it[0]), [], 0, None
    for number in range(len(code.ins)):
        while at < len(rows) and rows[at][0] <= number:
            line, at = rows[at][1], at + 1
        lines.append(line)
    return Body([list(it) for it in code.ins], lines, [list(it) for it in code.handlers], frames)


def put(body, code):
    """Makes the body the one of a code; its frames are written whole."""
    code.ins, code.handlers = body.ins, body.handlers
    code.frames = [[at, 'full', *body.frames[at]] for at in sorted(body.frames)]
    code.lines = [[at, line] for at, line in enumerate(body.lines) if line is not None and (at == 0 or body.lines[at - 1] != line)]


# ---- where control goes

def goes_on(ins):
    return not (ins[0] in ('goto', 'table', 'lookup') or ins[0] == 'op' and (172 <= ins[1] <= 177 or ins[1] == 191))


def successors(body, at):
    ins = body.ins[at]
    return ([at + 1] if goes_on(ins) and at + 1 < len(body.ins) else []) + targets(ins)


def all_targets(body):
    return {to for ins in body.ins for to in targets(ins)} | {row[2] for row in body.handlers}


def covered(body, row):
    return range(row[0], min(row[1], len(body.ins)))


# ---- what acts make of a code

def rewritten(kind, acts, body):
    """The instructions after the acts, each at its place, and which places go."""
    ins, gone = [list(it) for it in body.ins], set()
    if kind == 'reach':
        gone = {at for _, first, last in acts for at in range(first, min(last + 1, len(ins)))}
    elif kind == 'slots':
        aimed_at, cut = all_targets(body), {act[1] for act in acts}
        for at in sorted(cut & set(range(len(ins)))):
            if ins[at][0] == 'iinc':
                gone.add(at)
            elif ins[at][0] == 'store' and at > 0 and is_push(body.ins[at - 1]) and at not in aimed_at:
                gone |= {at - 1, at}
            elif ins[at][0] == 'store':
                ins[at] = list(POP2 if ins[at][1] == LONG else POP)
    elif kind == 'const':
        folds = {}
        for act in acts:
            if act[0] == 'fold':
                folds.setdefault(act[1], act[2])
        for at, to in folds.items():
            if at < len(ins):
                gone |= set(range(at - operands(body.ins[at]), at))
                ins[at] = ['goto', to]
                if to == at + 1:
                    gone.add(at)
    else:
        skipped, moved = {act[1] for act in acts if act[0] == 'skip'}, first_aims(acts)
        for at, it in enumerate(body.ins):
            if at not in skipped:
                ins[at] = retargeted(it, lambda which, to: moved.get((at, which), to))
            elif it[0] == 'goto':
                gone.add(at)
            elif it[0] == 'if':
                ins[at] = list(POP2 if 159 <= it[1] <= 166 else POP)
    return ins, gone


def first_aims(acts):
    moved = {}
    for act in acts:
        if act[0] == 'aim':
            moved.setdefault((act[1], act[2]), act[3])
    return moved


def retargeted(ins, to):
    numbers = iter(range(len(targets(ins))))
    return aimed(ins, lambda old: to(next(numbers), old))


def is_push(ins):
    return ins[0] in ('int', 'long', 'text', 'load') or ins == ['op', 1]


def applied(kind, acts, body):
    """The code after the acts, with carried frames."""
    ins, gone = rewritten(kind, acts, body)
    lives = [at not in gone for at in range(len(ins))]
    places = [0]
    for it in lives:
        places.append(places[-1] + it)

    def place(at):
        return places[min(at, len(ins))]
    handlers = [[place(row[0]), place(row[1]), place(row[2]), row[3]] for row in body.handlers]
    cut = {(body.ins[act[1]][1 if body.ins[act[1]][0] == 'iinc' else 2]) for act in acts if kind == 'slots' and act[1] < len(ins)
           and body.ins[act[1]][0] in ('store', 'iinc')}
    kept = [at for at in range(len(ins)) if lives[at]]
    return Body([aimed(ins[at], place) for at in kept], [body.lines[at] for at in kept],
                [row for row in handlers if row[0] < row[1]], carried(body, lives, places, cut))


def carried(body, lives, places, cut):
    aimed_at, found = all_targets(body), {}
    for at, lives_here in enumerate(lives):
        if not lives_here:
            continue
        frame, before = body.frames.get(at), at - 1
        while frame is None and before >= 0 and not lives[before]:
            if before in aimed_at:
                frame = body.frames.get(before)
                break
            before -= 1
        if frame:
            def moved(it):
                if it[0] != 'made':
                    return it
                return ['made', places[it[1]]] if lives[it[1]] else ['top']
            held = [moved(it) for it in without(frame[0], cut)]
            while held and held[-1] == ['top']:
                held.pop()
            found[places[at]] = (held, [moved(it) for it in frame[1]])
    return found


def without(held, cut):
    """Locals in which those that begin at these slots are Top."""
    found, slot = [], 0
    for it in held:
        wide = 2 if it == ['long'] else 1
        found += [['top']] * wide if slot in cut else [it]
        slot += wide
    return found


# ---- constants

def wrapped(value):
    return (value + 2 ** 31) % 2 ** 32 - 2 ** 31


def operands(ins):
    """How many ints it takes to choose where control goes."""
    if ins[0] == 'if':
        return 1 if ins[1] <= 158 else 2 if ins[1] <= 164 else 0
    return 1 if ins[0] in ('table', 'lookup') else 0


def change(body, aimed_at, slot, at):
    """What an instruction does to the int in a slot: keeps, is a value, adds one, or loses it."""
    ins = body.ins[at]
    if ins[0] == 'iinc' and ins[1] == slot:
        return 'adds', ins[2]
    if ins[0] == 'store' and (ins[2] == slot or ins[1] == LONG and ins[2] + 1 == slot):
        before = body.ins[at - 1] if at > 0 and at not in aimed_at else NOP
        return ('is', before[1]) if ins[1] == 0 and before[0] == 'int' else ('loses', None)
    return 'keeps', None


def after(held, what):
    kind, value = what
    if kind == 'adds':
        return None if held is None else wrapped(held + value)
    return {'keeps': held, 'is': value, 'loses': None}[kind]


def largest(body, slot):
    """The int that the slot holds before each instruction, None where none is known."""
    aimed_at, known, waiting = all_targets(body), {}, [0]
    fixed = {0} | {row[2] for row in body.handlers}
    known.update({at: None for at in fixed})
    waiting = sorted(fixed)
    while waiting:
        at = waiting.pop()
        out = after(known[at], change(body, aimed_at, slot, at))
        for to in successors(body, at):
            now = out if to not in known else known[to] if known[to] == out else None
            if to not in known or known[to] != now:
                known[to] = now
                waiting.append(to)
    return [known.get(at) for at in range(len(body.ins))]


def target_where(ins, given):
    """Where a branch or switch leads with these operands, None for the next instruction."""
    if ins[0] == 'table':
        at = given[0] - ins[2]
        return ins[3][at] if 0 <= at < len(ins[3]) else ins[1]
    if ins[0] == 'lookup':
        return dict(zip(ins[2], ins[3])).get(given[0], ins[1])
    a, b = given if len(given) == 2 else (given[0], 0)
    met = [a == b, a != b, a < b, a >= b, a > b, a <= b][(ins[1] - 153) % 6]
    return ins[2] if met else None


def fold_of(body, aimed_at, at, fact):
    """Where the branch or switch there leads, if that is known by facts."""
    count = operands(body.ins[at])
    if count == 0 or at < count or at in aimed_at or count == 2 and at - 1 in aimed_at:
        return None
    given = []
    for k in range(at - count, at):
        ins = body.ins[k]
        given.append(ins[1] if ins[0] == 'int' else fact(ins[2], k) if ins[:2] == ['load', 0] else None)
    if None in given:
        return None
    to = target_where(body.ins[at], given)
    return at + 1 if to is None else to


# ---- which acts a pass finds

def found(kind, body):
    return {'reach': found_drops, 'const': found_constants, 'slots': found_cuts, 'jumps': found_jumps}[kind](body)


def reached(body):
    marks, waiting = set(), [0]
    while waiting:
        at = waiting.pop()
        if at not in marks:
            marks.add(at)
            waiting += successors(body, at) + [row[2] for row in body.handlers if row[0] <= at < row[1]]
    return marks


def runs(flags):
    """The runs of places whose flags are equal and not None."""
    found, start = [], 0
    for at in range(1, len(flags) + 1):
        if at == len(flags) or flags[at] != flags[start]:
            if flags[start] is not None:
                found.append((start, at - 1))
            start = at
    return found


def found_drops(body):
    marks = reached(body)
    return [('drop', *run) for run in runs([None if at in marks else 0 for at in range(len(body.ins))])]


def found_cuts(body):
    loaded = {ins[2] for ins in body.ins if ins[0] == 'load'}
    return [('cut', at) for at, ins in enumerate(body.ins)
            if ins[0] == 'store' and ins[2] not in loaded or ins[0] == 'iinc' and ins[1] not in loaded]


def found_jumps(body):
    def end(to):
        seen, at = set(), to
        while body.ins[at][0] == 'goto':
            if at in seen:
                return to
            seen.add(at)
            at = body.ins[at][1]
        return at
    ends = [[end(to) for to in targets(ins)] for ins in body.ins]
    aims = [('aim', at, which, to) for at, ins in enumerate(body.ins)
            for which, (old, to) in enumerate(zip(targets(ins), ends[at])) if old != to]
    return aims + [('skip', at) for at, ins in enumerate(body.ins) if ins[0] in ('goto', 'if') and ends[at] == [at + 1]]


MOST_FACTS = 1048576


def found_constants(body):
    aimed_at, known = all_targets(body), {}
    asked = {ins[2] for at, it in enumerate(body.ins) for ins in body.ins[max(0, at - operands(it)):at] if ins[:2] == ['load', 0]}
    if len(asked) * len(body.ins) > MOST_FACTS:
        return []
    folds, taken = [], set()

    def fact(slot, at):
        if slot not in known:
            known[slot] = largest(body, slot)
        return known[slot][at]
    for at, ins in enumerate(body.ins):
        to = fold_of(body, aimed_at, at, fact)
        if to is not None:
            folds.append(('fold', at, to))
            taken |= {body.ins[k][2] for k in range(at - operands(ins), at) if body.ins[k][0] == 'load'}
    facts = [('fact', first, last, slot, known[slot][first]) for slot in sorted(taken) for first, last in runs(known[slot])]
    return facts + folds


# ---- which acts are legal

def are_legal(kind, acts, body):
    """All acts of a step are legal on the code."""
    n = len(body.ins)
    if any(PASS_OF[act[0]] != kind for act in acts) or named_twice(acts):
        return False
    right = {'reach': are_legal_drops, 'const': are_legal_constants, 'slots': are_legal_cuts, 'jumps': are_legal_jumps}[kind]
    if not right(acts, body):
        return False
    ins, gone = rewritten(kind, acts, body)
    last = max((at for at in range(n) if at not in gone), default=-1)
    live = [at for at in range(n) if at not in gone]
    aimed_at = {to for at in live for to in targets(ins[at])}
    aimed_at |= {row[2] for row in body.handlers if any(at not in gone for at in covered(body, row))}
    return all(to <= last for to in aimed_at)


def named_twice(acts):
    ranges = {}
    for act in acts:
        key = act[0], act[3] if act[0] == 'fact' else act[2] if act[0] == 'aim' else None
        ends = (act[1], act[2]) if act[0] in ('drop', 'fact') else (act[1], act[1])
        ranges.setdefault(key, []).append(ends)
    return any(a[0] <= b[1] and b[0] <= a[1] for held in ranges.values() for k, a in enumerate(held) for b in held[:k])


def are_legal_drops(acts, body):
    n = len(body.ins)
    if any(not first <= last < n for _, first, last in acts):
        return False
    gone = {at for _, first, last in acts for at in range(first, last + 1)}
    left = [at for at in range(n) if at not in gone]
    needed = {0} | {to for at in left for to in successors(body, at)}
    needed |= {row[2] for row in body.handlers if any(at not in gone for at in covered(body, row))}
    return not gone & needed


def are_legal_cuts(acts, body):
    loaded, cut = {ins[2] for ins in body.ins if ins[0] == 'load'}, {act[1] for act in acts}
    for at in cut:
        ins = body.ins[at] if at < len(body.ins) else NOP
        if ins[0] == 'store':
            if ins[2] in loaded or any(it[0] == 'iinc' and it[1] == ins[2] and k not in cut for k, it in enumerate(body.ins)):
                return False
        elif ins[0] != 'iinc' or ins[1] in loaded:
            return False
    return True


def are_legal_jumps(acts, body):
    n, moved = len(body.ins), first_aims(acts)
    for act in acts:
        at = act[1]
        if at >= n:
            return False
        old = targets(body.ins[at])
        if act[0] == 'skip':
            if body.ins[at][0] not in ('goto', 'if') or moved.get((at, 0), old[0]) != at + 1:
                return False
        elif act[2] >= len(old) or act[3] not in behind(body, old[act[2]]):
            return False
    return True


def behind(body, at):
    """Where one or more gotos lead from there."""
    seen = []
    while body.ins[at][0] == 'goto' and body.ins[at][1] not in seen:
        at = body.ins[at][1]
        seen.append(at)
    return seen


def are_legal_constants(acts, body):
    n, facts, aimed_at = len(body.ins), {}, all_targets(body)
    for act in acts:
        if act[0] == 'fact':
            if not act[1] <= act[2] < n:
                return False
            for at in range(act[1], act[2] + 1):
                facts.setdefault((act[3], at), act[4])
    before = {}
    for at in range(n):
        for to in successors(body, at):
            before.setdefault(to, set()).add(at)
    entries = {row[2] for row in body.handlers}
    for (slot, at), value in facts.items():
        if at == 0 or at in entries:
            return False
        for p in before.get(at, ()):
            if after(facts.get((slot, p)), change(body, aimed_at, slot, p)) != value:
                return False
    return all(fold_of(body, aimed_at, act[1], lambda slot, at: facts.get((slot, at))) == act[2] if act[1] < n else False
               for act in acts if act[0] == 'fold')


# ---- all steps

def optimised(body):
    """The code after the six steps, and the acts of each step that has any."""
    steps = {}
    for step, kind in PASSES.items():
        acts = found(kind, body)
        if acts:
            steps[step] = acts
        body = applied(kind, acts, body)
    return body, steps


def after_steps(body, steps):
    """The code after these acts, or None where a step isn't legal."""
    for step, kind in PASSES.items():
        acts = steps.get(step, [])
        if not are_legal(kind, acts, body):
            return None
        body = applied(kind, acts, body)
    return body


# ---- rows of acts

ESCAPES = {'n': '\n', 's': ' ', 'e': '', '\\': '\\'}


def read_body(file, index):
    found = read_class(bytes.fromhex(file.partition('=')[2]))
    return body_of(found.name, found.methods[index])


def read_acts(text):
    lines = re.sub(r'\\(.)', lambda it: ESCAPES[it[1]], text).splitlines()
    return [(name, *map(int, rest)) for name, *rest in (it.split(' ') for it in lines)]


def answer(words):
    """The acts that are found; or whether acts are legal, and give the code of another class file, or that with its frames."""
    kind, index = words[1].lower(), int(words[2])
    if words[0] == 'pass':
        return found(kind, read_body(words[3], index))
    acts, body = read_acts(words[3]), read_body(words[4], index)
    if not are_legal(kind, acts, body):
        return 'bad'
    after, told = applied(kind, acts, body), read_body(words[5], index)
    frames = after.frames if words[0] == 'carry' else {}
    return 'ok' if (after.ins, after.handlers, after.lines, frames) == (told.ins, told.handlers, told.lines, told.frames) else 'other'


def main():
    folder, counts, wrong = Path(__file__).resolve().parent.parent / 'crates/class_vectors', {}, 0
    for row, right in zip((folder / 'stdin').read_text().splitlines(), (folder / 'stdout').read_text().splitlines()):
        words = row.split(' ')
        if words[0] in ('pass', 'legal', 'carry'):
            counts[words[0]] = counts.get(words[0], 0) + 1
            if answer(words) != (read_acts(right) if words[0] == 'pass' else right.split(' ')[0]):
                wrong += 1
                print(f'{row[:120]}: {right[:60]}')
    print(f'{", ".join(f"{name} {count}" for name, count in counts.items())}: {wrong} differ')
    sys.exit(1 if wrong or not counts else 0)


if __name__ == '__main__':
    main()
