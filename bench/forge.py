#!/usr/bin/env python3
"""Forges pairs of input and output, and looks whether `check` takes one that it mustn't.

    python3 bench/forge.py PROGRAM [--each N] [--seed N] [--only WORD] [--keep DIR] [--table]

PROGRAM is a built program (bin/cixorradde's, or one of .try). The pairs are what it writes by `shrink` of the examples and of
random programs (random_programs.py), under several rules; and the same of programs whose codes were made rough before
(edited.py), with each code edited by the passes of passes.py and a witness that tells of it. Each kind of change below is made N
times (40 unless said otherwise) at places that a fixed seed picks, then pairs of changes; `check` runs on each. Where it says
ok, `compare` may not say that the main method does otherwise, and the pair is judged by judge.py, which reads class files and
goes through the acts of the witness by itself; where the classes aren't byte for byte those that were there before, both main
methods run under `java` with all classes verified, and have to print the same. A pair that is taken and shouldn't be, and an answer of
another form than docs/MANUAL.md has, are failures: they are kept below DIR (forged/) and the status is 1.

Of the pairs that `check` refuses it is counted how many the judge would take; it judges no types, so these aren't failures.
"""
import argparse
import collections
import copy
import os
import random
import re
import shutil
import struct
import subprocess
import sys
import tempfile
from pathlib import Path

sys.dont_write_bytecode = True
sys.path.insert(0, os.path.dirname(os.path.abspath(__file__)))
import edited
import judge as judging
import passes
import random_programs
from both import JAVA, put, tree
from classes import Bad, Builder, Member, aimed, attribute, read_class, read_entries, Reader, targets, write_class
from judge import Names, Rule, Rules, renamed_ins

TOP = Path(__file__).resolve().parent.parent


class Kinds(dict):
    """The kinds of change by their names, and the group of each."""
    groups, now = {}, ''

    def __setitem__(self, name, made):
        super().__setitem__(name, made)
        self.groups[name] = self.now


KINDS = Kinds()


class World:
    """A pair: files of the input and of the output by their paths, the mapping, the witness and the rules."""

    def __init__(self, name, inputs, files, mapping, witness, rules):
        self.name, self.inputs, self.files, self.mapping, self.witness, self.rules = name, inputs, files, mapping, witness, rules

    def copied(self):
        return World(self.name, dict(self.inputs), dict(self.files), self.mapping, self.witness, copy.deepcopy(self.rules))

    def same(self, other):
        return (self.inputs, self.files, self.mapping, self.witness, self.rules.text()) == (
            other.inputs, other.files, other.mapping, other.witness, other.rules.text())


def change(made):
    """A kind of change: made(rng, world) changes the world, or leaves it as it is where it can't."""
    KINDS[made.__name__] = made
    return made


def of_class(made):
    def whole(rng, world):
        path = rng.choice(sorted(it for it in world.files if it.endswith('.class')))
        found, before = read_class(world.files[path]), read_class(world.files[path])
        if made(rng, found, world) is not False and found != before:
            world.files[path] = write_class(found)
    whole.__name__ = made.__name__
    return change(whole)


def of_list(part):
    """The members of a class, where it has any."""
    def outer(made):
        def whole(rng, found, world):
            items = getattr(found, part)
            if not items:
                return False
            return made(rng, found, items, rng.randrange(len(items)))
        whole.__name__ = made.__name__
        return of_class(whole)
    return outer


def of_code(made):
    def whole(rng, world):
        paths = sorted(it for it in world.files if it.endswith('.class'))
        rng.shuffle(paths)
        for path in paths:
            found, before = read_class(world.files[path]), read_class(world.files[path])
            codes = [it.code for it in found.methods if it.code]
            rng.shuffle(codes)
            for code in codes[:4]:
                if made(rng, code, found, world) is not False and found != before:
                    try:
                        world.files[path] = write_class(found)
                    except (IndexError, OverflowError, ValueError, KeyError) as fault:
                        raise Unmade from fault
                    return
    whole.__name__ = made.__name__
    return change(whole)


class Unmade(Exception):
    """The change has no class file."""


def other(rng, items, it):
    rest = [x for x in items if x != it]
    return rng.choice(rest) if rest else it


# ---- a class
KINDS.now = 'a class itself'

CLASS_BITS, FIELD_BITS, METHOD_BITS = [1, 0x10, 0x20, 0x200, 0x400, 0x1000], [1, 2, 4, 8, 0x10, 0x40, 0x80, 0x1000], \
    [1, 2, 4, 8, 0x10, 0x20, 0x40, 0x80, 0x100, 0x400, 0x800, 0x1000]


@of_class
def class_flag(rng, found, world):
    found.flags ^= rng.choice(CLASS_BITS)


def names_in(world):
    return sorted(it[:-6] for it in world.files if it.endswith('.class'))


@of_class
def superclass(rng, found, world):
    found.above = other(rng, [*names_in(world), judging.OBJECT, 'java/lang/Exception', 'java/lang/RuntimeException'], found.above)


@of_class
def superclass_with_calls(rng, found, world):
    """The superclass, and the calls that name it."""
    above = other(rng, [*names_in(world), judging.OBJECT], found.above)
    names = Names()
    names.classes[found.above] = above
    for it in found.methods:
        if it.code:
            it.code.ins = [renamed_ins(ins, names) if ins[0] == 'method' and ins[1] == 183 else ins for ins in it.code.ins]
    found.above = above


@of_class
def interface_added(rng, found, world):
    found.interfaces.insert(rng.randrange(len(found.interfaces) + 1),
                            rng.choice([*names_in(world), 'java/lang/Cloneable', 'java/io/Serializable', 'java/lang/Runnable']))


@of_list('interfaces')
def interface_dropped(rng, found, items, k):
    del items[k]


@of_list('interfaces')
def interface_repeated(rng, found, items, k):
    items.append(items[k])


@of_list('interfaces')
def interface_other(rng, found, items, k):
    items[k] = rng.choice(['java/lang/Cloneable', 'java/lang/Runnable', judging.OBJECT, found.name])


@of_class
def class_name(rng, found, world):
    """Its own name, in one place."""
    found.name = rng.choice([other(rng, names_in(world), found.name), found.name + 'x', found.above])


@of_class
def class_attribute(rng, found, world):
    """Source file, Synthetic and Deprecated, which aren't compared."""
    if rng.random() < 0.5:
        found.source = None if found.source else b'Other.java'
    else:
        found.marks = [] if found.marks else [rng.choice(['Synthetic', 'Deprecated'])]


@of_class
def unread_attribute(rng, found, world):
    """An attribute of a name that isn't read, with any bytes."""
    holder = rng.choice([found, *found.fields, *found.methods, *(it.code for it in found.methods if it.code)])
    holder.others.append((rng.choice(['Unknown', 'Other', 'org.example.Note', 'x']), rng.randbytes(rng.randrange(9))))


PASSED_OVER = ['InnerClasses', 'Signature', 'BootstrapMethods', 'EnclosingMethod', 'LocalVariableTable', 'LocalVariableTypeTable',
               'MethodParameters', 'RuntimeVisibleAnnotations', 'NestHost', 'SourceDebugExtension']


@of_class
def passed_over_attribute(rng, found, world):
    """An attribute of the standard that isn't read, with any bytes, where a virtual machine may read it."""
    holder = rng.choice([found, *found.fields, *found.methods, *(it.code for it in found.methods if it.code)])
    holder.others.append((rng.choice(PASSED_OVER), rng.randbytes(rng.randrange(9))))


@of_class
def line_outside(rng, found, world):
    """A row of lines behind the end of the code, by which no instruction has a line."""
    codes = [it.code for it in found.methods if it.code]
    if not codes:
        return False
    rng.choice(codes).others.append(('LineNumberTable', struct.pack('>HHH', 1, 60000, 7)))


@of_class
def meaningless_flag(rng, found, world):
    """Flags that mean nothing in their place are dropped."""
    it, bits = rng.choice([(found, [2, 4, 8, 0x40, 0x80, 0x100, 0x800, 0x8000]),
                           *((x, [0x20, 0x100, 0x200, 0x400, 0x800, 0x2000]) for x in found.fields),
                           *((x, [0x200, 0x2000, 0x4000, 0x8000]) for x in found.methods)])
    it.flags ^= rng.choice(bits)


# What `check` takes and a virtual machine may refuse, since it isn't read here or isn't in the table of the library
# (docs/CHECKING.md): counted apart.
KNOWN = {'passed_over_attribute', 'line_outside', 'method_renamed_as_in_the_jdk'}


# ---- fields and methods
KINDS.now = 'its fields and methods'

@of_list('fields')
def field_flag(rng, found, items, k):
    items[k].flags ^= rng.choice(FIELD_BITS)


@of_list('methods')
def method_flag(rng, found, items, k):
    items[k].flags ^= rng.choice(METHOD_BITS)


@of_list('methods')
def access_flag(rng, found, items, k):
    items[k].flags = items[k].flags & ~7 | other(rng, [0, 1, 2, 4], items[k].flags & 7)


def member_kinds(part):
    @of_list(part)
    def name(rng, found, items, k):
        items[k].name = rng.choice([items[k].name + 'x', other(rng, [it.name for it in items], items[k].name), 'main', 'toString'])

    @of_list(part)
    def descriptor(rng, found, items, k):
        old = items[k].descriptor
        items[k].descriptor = old.replace('I', 'J', 1) if 'I' in old and rng.random() < 0.5 else rng.choice(
            [old[:-1] + 'V' if part == 'methods' else 'Z', f'[{old}' if part == 'fields' else old.replace('(', '(I', 1),
             'Ljava/lang/Object;' if part == 'fields' else re.sub(r'L[^;]*;', 'Ljava/lang/Object;', old, count=1)])

    @of_list(part)
    def dropped(rng, found, items, k):
        del items[k]

    @of_list(part)
    def repeated(rng, found, items, k):
        items.insert(rng.randrange(len(items) + 1), copy.deepcopy(items[k]))

    @of_list(part)
    def added(rng, found, items, k):
        new = copy.deepcopy(items[k])
        new.name = f'added{rng.randrange(9)}'
        items.insert(rng.randrange(len(items) + 1), new)

    @of_list(part)
    def swapped(rng, found, items, k):
        j = rng.randrange(len(items))
        items[k], items[j] = items[j], items[k]

    @of_list(part)
    def names_swapped(rng, found, items, k):
        j = rng.randrange(len(items))
        items[k].name, items[j].name = items[j].name, items[k].name

    @change
    def moved(rng, world):
        """Into another class."""
        a, b = rng.choice(names_in(world)), rng.choice(names_in(world))
        first, second = read_class(world.files[a + '.class']), read_class(world.files[b + '.class'])
        if a != b and getattr(first, part):
            getattr(second, part).append(getattr(first, part).pop(rng.randrange(len(getattr(first, part)))))
            world.files[a + '.class'], world.files[b + '.class'] = write_class(first), write_class(second)

    @of_list(part)
    def marks(rng, found, items, k):
        items[k].marks = [] if items[k].marks else [rng.choice(['Synthetic', 'Deprecated'])]

    for made in (name, descriptor, dropped, repeated, added, swapped, names_swapped, moved, marks):
        made.__name__ = f'{part[:-1]}_{made.__name__}'
        KINDS[made.__name__] = made
    for it in ('name', 'descriptor', 'dropped', 'repeated', 'added', 'swapped', 'names_swapped', 'moved', 'marks'):
        KINDS.pop(it, None)


member_kinds('fields')
member_kinds('methods')


@of_list('fields')
def constant_changed(rng, found, items, k):
    constants = [it for it in items if it.constant]
    if not constants:
        return False
    it = rng.choice(constants)
    kind, value = it.constant
    it.constant = [kind, value + b'x'] if kind == 'text' else rng.choice([[kind, value ^ 1], [kind, -value - 1]])


@of_list('fields')
def constant_dropped(rng, found, items, k):
    if not items[k].constant:
        return False
    items[k].constant = None


@of_list('fields')
def constant_added(rng, found, items, k):
    if items[k].constant or items[k].descriptor not in 'IJZ':
        return False
    items[k].flags |= 8 if rng.random() < 0.5 else 0
    items[k].constant = ['long' if items[k].descriptor == 'J' else 'int', rng.randrange(2)]


@of_list('methods')
def exceptions(rng, found, items, k):
    if items[k].throws and rng.random() < 0.6:
        items[k].throws = rng.choice([[], items[k].throws * 2, ['java/lang/Exception']])
    else:
        items[k].throws = items[k].throws + [rng.choice(['java/lang/Exception', 'java/lang/Error', found.name])]


@of_list('methods')
def code_dropped(rng, found, items, k):
    if not items[k].code:
        return False
    items[k].code = None
    items[k].flags |= 0x400 if rng.random() < 0.8 else 0


@of_list('methods')
def codes_swapped(rng, found, items, k):
    j = rng.randrange(len(items))
    items[k].code, items[j].code = items[j].code, items[k].code


# ---- codes
KINDS.now = 'instructions'

# Instructions that take and give the same kinds of values.
FAMILIES = [[96, 100, 104, 108, 112, 120, 122, 124, 126, 128, 130], [97, 101, 105, 109, 113, 127, 129, 131], [116, 145, 146, 147],
            range(153, 159), range(159, 165), [165, 166], [121, 123, 125], [89, 95], [172, 172], [192, 192], [198, 199]]


@of_code
def opcode(rng, code, found, world):
    k = rng.randrange(len(code.ins))
    ins = code.ins[k]
    if ins[0] not in ('op', 'if', 'field', 'method', 'class'):
        return False
    near = [op for family in FAMILIES if ins[1] in family for op in family if op != ins[1]]
    if not near:
        return False
    code.ins[k] = [ins[0], rng.choice(near), *ins[2:]]


@of_code
def branch_inverted(rng, code, found, world):
    places = numbers(code, 'if')
    if not places:
        return False
    k = rng.choice(places)
    op = code.ins[k][1]
    code.ins[k] = ['if', op ^ 1 if op > 197 else (op + 1 ^ 1) - 1, code.ins[k][2]]


@of_code
def any_opcode(rng, code, found, world):
    k = rng.randrange(len(code.ins))
    code.ins[k] = ['op', rng.choice([0, 1, 87, 88, 89, 95, 96, 100, 104, 116, 130, 133, 136, 145, 172, 176, 177, 190, 191, 194])]


def numbers(code, *kinds):
    return [k for k, ins in enumerate(code.ins) if ins[0] in kinds]


def of_instruction(*kinds):
    def outer(made):
        def whole(rng, code, found, world):
            places = numbers(code, *kinds)
            if not places:
                return False
            k = rng.choice(places)
            code.ins[k] = made(rng, list(code.ins[k]), code, found, world)
        whole.__name__ = made.__name__
        return of_code(whole)
    return outer


@of_instruction('int', 'long')
def pushed_number(rng, ins, code, found, world):
    return [ins[0], rng.choice([ins[1] ^ 1, -ins[1] - 1, 0, ins[1] ^ 0x40000000, ins[1] + 256 & 0x7FFFFFFF])]


@of_instruction('text')
def pushed_text(rng, ins, code, found, world):
    return ['text', rng.choice([ins[1] + b'x', ins[1][:-1], ins[1].upper(), b'', ins[1] + b'\xc0\x80'])]


@of_instruction('int', 'long', 'text')
def pushed_kind(rng, ins, code, found, world):
    return rng.choice([['text', b'5'], ['int', 5], ['long', 5], ['op', 1]])


@of_instruction('load', 'store')
def local_slot(rng, ins, code, found, world):
    return [*ins[:2], rng.choice([ins[2] ^ 1, ins[2] + 1, 0, code.max_locals, code.max_locals - 1])]


@of_instruction('load', 'store')
def local_kind(rng, ins, code, found, world):
    return [rng.choice(['load', 'store']), rng.choice([0, 1, 4]), ins[2]]


@of_instruction('iinc')
def increment(rng, ins, code, found, world):
    return rng.choice([['iinc', ins[1], -ins[2]], ['iinc', ins[1], ins[2] + 1], ['iinc', ins[1] ^ 1, ins[2]]])


@of_instruction('if', 'goto')
def branch_target(rng, ins, code, found, world):
    return aimed(ins, lambda old: rng.choice([rng.randrange(len(code.ins)), min(old + 1, len(code.ins) - 1), max(old - 1, 0)]))


@of_instruction('table', 'lookup')
def switch_target(rng, ins, code, found, world):
    at = rng.randrange(len(ins[3]) + 1)
    aims = [ins[1], *ins[3]]
    aims[at] = other(rng, aims, aims[at])
    return [ins[0], aims[0], ins[2], aims[1:]]


@of_instruction('table', 'lookup')
def switch_value(rng, ins, code, found, world):
    if ins[0] == 'table':
        return rng.choice([['table', ins[1], ins[2] + 1, ins[3]], ['table', ins[1], ins[2], ins[3][:-1]],
                           ['table', ins[1], ins[2], ins[3] + ins[3][-1:]]])
    values = list(ins[2])
    at = rng.randrange(len(values))
    values[at] += rng.choice([-1, 1])
    return rng.choice([['lookup', ins[1], values, ins[3]], ['lookup', ins[1], ins[2][1:], ins[3][1:]],
                       ['lookup', ins[1], ins[2][::-1], ins[3][::-1]]])


@of_instruction('table', 'lookup')
def switch_form(rng, ins, code, found, world):
    """The same switch by the other instruction."""
    if ins[0] == 'table':
        return ['lookup', ins[1], list(range(ins[2], ins[2] + len(ins[3]))), ins[3]]
    low, high = min(ins[2]), max(ins[2])
    if high - low > 300:
        return ins
    table = dict(zip(ins[2], ins[3]))
    return ['table', ins[1], low, [table.get(k, ins[1]) for k in range(low, high + 1)]]


def references(world, *kinds):
    found = []
    for path in sorted(world.files):
        if path.endswith('.class'):
            for it in read_class(world.files[path]).methods:
                found += [ins for ins in it.code.ins if ins[0] in kinds] if it.code else []
    return found


@of_instruction('method', 'field')
def reference(rng, ins, code, found, world):
    """Another member of the same descriptor."""
    alike = [it for it in references(world, ins[0]) if it[1] == ins[1] and it[4] == ins[4] and it != ins]
    return list(rng.choice(alike)) if alike else ins


@of_instruction('method', 'field')
def any_reference(rng, ins, code, found, world):
    return list(rng.choice(references(world, ins[0])))


@of_instruction('method', 'field')
def reference_holder(rng, ins, code, found, world):
    """The class that a reference names: one above or below, mostly the same member is meant."""
    return [*ins[:2], other(rng, names_in(world), ins[2]), *ins[3:]]


@of_instruction('method', 'field')
def reference_related(rng, ins, code, found, world):
    """A class above or below the one that a reference names, by which mostly the same member is meant."""
    above = {it: read_class(world.files[it + '.class']).above for it in names_in(world)}
    near = [a for a, b in above.items() if b == ins[2]] + ([above[ins[2]]] if ins[2] in above else [])
    return [*ins[:2], rng.choice(near or [ins[2]]), *ins[3:]]


@of_instruction('method', 'field')
def reference_name(rng, ins, code, found, world):
    names = [it[3] for it in references(world, ins[0])]
    return [*ins[:3], rng.choice([ins[3] + 'x', other(rng, names, ins[3])]), *ins[4:]]


@of_instruction('method', 'field')
def reference_descriptor(rng, ins, code, found, world):
    return [*ins[:4], other(rng, [it[4] for it in references(world, ins[0])], ins[4]), *ins[5:]]


@of_instruction('method')
def reference_interface(rng, ins, code, found, world):
    """Whether the pool says that the holder is an interface."""
    return [*ins[:5], not ins[5]]


@of_instruction('method')
def call_kind(rng, ins, code, found, world):
    return [ins[0], other(rng, [182, 183, 184, 185], ins[1]), *ins[2:]]


@of_instruction('class', 'multi')
def class_operand(rng, ins, code, found, world):
    if ins[0] == 'multi':
        return rng.choice([['multi', ins[1], max(1, ins[2] - 1)], ['multi', '[' + ins[1], ins[2]]])
    return [*ins[:2], rng.choice([other(rng, names_in(world), ins[2]), judging.OBJECT, 'java/lang/String', f'[L{found.name};'])]


def shifted(code, at, by):
    """All numbers of instructions at or behind `at` moved on."""
    def to(k):
        return k + by if k >= at else k
    code.ins = [aimed(ins, to) for ins in code.ins]
    code.handlers = [[*map(to, row[:3]), row[3]] for row in code.handlers]
    code.lines = [[to(row[0]), row[1]] for row in code.lines]

    def types(it):
        return ['made', to(it[1])] if it[:1] == ['made'] else [types(x) if isinstance(x, list) else x for x in it]
    code.frames = [[to(row[0]), *types(row[1:])] for row in code.frames]


@of_code
def instruction_inserted(rng, code, found, world):
    at = rng.randrange(len(code.ins))
    shifted(code, at, 1)
    code.ins.insert(at, rng.choice([['op', 0], ['op', 0], ['int', 1], ['iinc', 0, 1], ['op', 177], list(code.ins[at])]))


@of_code
def instructions_inserted(rng, code, found, world):
    """Two that leave the stack as it was: a value that is thrown away, or a call of something else."""
    at = rng.randrange(len(code.ins))
    shifted(code, at, 2)
    code.ins[at:at] = rng.choice([[['int', 7], ['op', 87]], [['op', 1], ['op', 87]], [['op', 0], ['op', 0]],
                                  [['field', 178, 'java/lang/System', 'out', 'Ljava/io/PrintStream;'], ['op', 87]]])
    code.max_stack += 1


def inserted(code, at, *more):
    shifted(code, at, len(more))
    code.ins[at:at] = [list(it) for it in more]
    code.max_stack += 1


@of_code
def operands_swapped(rng, code, found, world):
    places = [k for k, ins in enumerate(code.ins) if ins[0] == 'op' and ins[1] in FAMILIES[0]]
    if not places:
        return False
    inserted(code, rng.choice(places), ['op', 95])


@of_code
def value_replaced(rng, code, found, world):
    """An int that was made is thrown away, and another one pushed."""
    places = [k for k, ins in enumerate(code.ins[:-1]) if ins[0] == 'int' or ins[:2] == ['load', 0]
              or ins[0] == 'method' and ins[4].endswith(')I') or ins[0] == 'field' and ins[1] in (178, 180) and ins[4] == 'I']
    if not places:
        return False
    inserted(code, rng.choice(places) + 1, ['op', 87], ['int', rng.choice([0, 1, -1, 77])])


@of_code
def counter_inserted(rng, code, found, world):
    places = [k for k, ins in enumerate(code.ins) if ins[:2] == ['load', 0]]
    if not places:
        return False
    k = rng.choice(places)
    inserted(code, k, ['iinc', code.ins[k][2], rng.choice([0, 1, -1])])


@of_code
def store_inserted(rng, code, found, world):
    """An int is stored where it was loaded from."""
    places = [k for k, ins in enumerate(code.ins) if ins[:2] == ['load', 0]]
    if not places:
        return False
    k = rng.choice(places)
    inserted(code, k + 1, ['op', 89], ['store', 0, code.ins[k][2]])


@of_code
def goto_inserted(rng, code, found, world):
    """A goto to the next instruction, where a frame stands."""
    places = [row[0] for row in code.frames if row[0]]
    if not places:
        return False
    k = rng.choice(places)
    inserted(code, k, ['goto', k + 1])


@of_code
def local_alike(rng, code, found, world):
    """Another local of the same kind."""
    places = numbers(code, 'load', 'store', 'iinc')
    if not places:
        return False
    k = rng.choice(places)
    ins = code.ins[k]
    kind = 0 if ins[0] == 'iinc' else ins[1]
    slots = {it[2] if it[0] != 'iinc' else it[1] for it in code.ins if it[0] in ('load', 'store') and it[1] == kind}
    slot = rng.choice(sorted(slots or {0}))
    code.ins[k] = ['iinc', slot, ins[2]] if ins[0] == 'iinc' else [*ins[:2], slot]


@of_code
def calls_swapped(rng, code, found, world):
    """Two calls, or uses of fields, of one descriptor."""
    places = numbers(code, 'method', 'field')
    if not places:
        return False
    k = rng.choice(places)
    j = rng.choice([j for j in places if code.ins[j][:2] == code.ins[k][:2] and code.ins[j][4] == code.ins[k][4]])
    code.ins[k], code.ins[j] = code.ins[j], code.ins[k]


@of_code
def instruction_dropped(rng, code, found, world):
    at = rng.randrange(len(code.ins))
    if len(code.ins) < 2 or at == len(code.ins) - 1:
        return False
    del code.ins[at]
    code.ins.append(['op', 0])
    shifted(code, at + 1, -1)
    code.ins.pop()
    if any(row[0] == row[1] for row in code.handlers):
        return False


@of_code
def instruction_blank(rng, code, found, world):
    code.ins[rng.randrange(len(code.ins))] = ['op', 0]


@of_code
def instructions_swapped(rng, code, found, world):
    k = rng.randrange(len(code.ins))
    j = min(k + 1, len(code.ins) - 1) if rng.random() < 0.7 else rng.randrange(len(code.ins))
    code.ins[k], code.ins[j] = code.ins[j], code.ins[k]


@of_code
def instruction_repeated(rng, code, found, world):
    k = rng.randrange(len(code.ins))
    code.ins[rng.randrange(len(code.ins))] = list(code.ins[k])


@of_code
def dead_code(rng, code, found, world):
    """Instructions behind the last one, under a frame of their own where it has none there."""
    code.frames.append([len(code.ins), 'same'])
    code.ins += rng.choice([[['op', 177]], [['int', 1], ['op', 172]], [['op', 1], ['op', 191]], [['op', 0], ['goto', 0]]])


@of_code
def sizes(rng, code, found, world):
    """max_stack and max_locals, which aren't compared."""
    if rng.random() < 0.5:
        code.max_stack = max(0, code.max_stack + rng.choice([-1, 1, 5, 300]))
    else:
        code.max_locals = max(0, code.max_locals + rng.choice([-1, 1, 5, 300]))


@change
def spelled_long(rng, world):
    """All instructions of a class in their longest spellings."""
    path = rng.choice(sorted(it for it in world.files if it.endswith('.class')))
    world.files[path] = write_class(read_class(world.files[path]), True)


# ---- handlers, frames, lines
KINDS.now = 'handlers, frames and lines'

def of_rows(part):
    def outer(made):
        def whole(rng, code, found, world):
            rows = getattr(code, part)
            if not rows:
                return False
            return made(rng, code, rows, rng.randrange(len(rows)))
        whole.__name__ = made.__name__
        return of_code(whole)
    return outer


@of_rows('handlers')
def handler_dropped(rng, code, rows, k):
    del rows[k]


@of_rows('handlers')
def handler_repeated(rng, code, rows, k):
    rows.insert(rng.randrange(len(rows) + 1), list(rows[k]))


@of_rows('handlers')
def handlers_swapped(rng, code, rows, k):
    j = rng.randrange(len(rows))
    rows[k], rows[j] = rows[j], rows[k]


@of_rows('handlers')
def handler_range(rng, code, rows, k):
    at = rng.randrange(2)
    rows[k][at] = max(0, min(len(code.ins), rows[k][at] + rng.choice([-1, 1, 2])))


@of_rows('handlers')
def handler_entry(rng, code, rows, k):
    rows[k][2] = rng.choice([row[2] for row in rows] + [row[0] for row in code.frames])


@of_rows('handlers')
def handler_class(rng, code, rows, k):
    caught = [None, 'java/lang/Exception', 'java/lang/Throwable', 'java/lang/ArithmeticException', judging.OBJECT]
    rows[k][3] = other(rng, caught, rows[k][3])


@of_code
def handler_added(rng, code, found, world):
    frames = [row[0] for row in code.frames]
    code.handlers.append([0, max(1, len(code.ins) - 1), rng.choice(frames or [0]), rng.choice([None, 'java/lang/Exception'])])


@of_rows('frames')
def frame_dropped(rng, code, rows, k):
    del rows[k]


@of_rows('frames')
def frame_place(rng, code, rows, k):
    rows[k][0] = max(0, min(len(code.ins) - 1, rows[k][0] + rng.choice([-1, 1])))
    if len({row[0] for row in rows}) != len(rows) or rows != sorted(rows, key=lambda it: it[0]):
        return False


@of_rows('frames')
def frame_types(rng, code, rows, k):
    number = rows[k][0]
    rows[k] = [number, *rng.choice([['same'], ['one', ['int']], ['one', ['object', judging.OBJECT]], ['chop', 1], ['append', ['int']],
                                    ['append', ['top']], ['full', [], []], ['full', [['int']], [['null']]]])]


@of_code
def frame_added(rng, code, found, world):
    """A frame like the one before, which isn't compared where it fits."""
    free = set(range(len(code.ins))) - {row[0] for row in code.frames}
    if not free:
        return False
    code.frames = sorted(code.frames + [[rng.choice(sorted(free)), 'same']], key=lambda it: it[0])


@of_rows('lines')
def line_changed(rng, code, rows, k):
    rows[k][1] = max(0, rows[k][1] + rng.choice([-1, 1, 100]))


@of_rows('lines')
def line_dropped(rng, code, rows, k):
    del rows[k]


@of_rows('lines')
def line_moved(rng, code, rows, k):
    rows[k][0] = max(0, min(len(code.ins) - 1, rows[k][0] + rng.choice([-1, 1])))


@of_rows('lines')
def lines_swapped(rng, code, rows, k):
    rng.shuffle(rows)


@of_code
def line_added(rng, code, found, world):
    code.lines.append([rng.randrange(len(code.ins)), rng.randrange(200)])


@of_rows('lines')
def line_again(rng, code, rows, k):
    """A row that says what the one before says."""
    if rows[k][0] + 1 >= (rows[k + 1][0] if k + 1 < len(rows) else len(code.ins)):
        return False
    rows.insert(k + 1, [rows[k][0] + 1, rows[k][1]])


# ---- the pool and the bytes
KINDS.now = 'the constant pool and bytes'

def of_pool(made):
    def whole(rng, world):
        path = rng.choice(sorted(it for it in world.files if it.endswith('.class')))
        data = world.files[path]
        r = Reader(data)
        r.take(8)
        entries = read_entries(r)
        rest = data[r.at:]
        made(rng, entries)
        body = b''.join(bytes([it[0]]) + (len(it[1]).to_bytes(2, 'big') if it[0] == 1 else b'') + it[1] for it in entries if it)
        world.files[path] = data[:8] + len(entries).to_bytes(2, 'big') + body + rest
    whole.__name__ = made.__name__
    return change(whole)


def places(entries, *tags):
    return [k for k, it in enumerate(entries) if it and it[0] in tags]


@of_pool
def pool_text(rng, entries):
    """A text of the pool, wherever it is used."""
    k = rng.choice(places(entries, 1))
    text = entries[k][1]
    entries[k] = (1, rng.choice([text + b'x', text[:-1], text.swapcase(), text.replace(b'/', b'.'), b'', text + b'\x80']))


@of_pool
def pool_number(rng, entries):
    found = places(entries, 3, 5)
    if found:
        k = rng.choice(found)
        data = bytearray(entries[k][1])
        data[rng.randrange(len(data))] ^= 1 << rng.randrange(8)
        entries[k] = (entries[k][0], bytes(data))


@of_pool
def pool_index(rng, entries):
    """An index in an entry: another entry of the kind that it names, or any."""
    k = rng.choice(places(entries, 7, 8, 9, 10, 11, 12))
    tag, data = entries[k]
    at = rng.randrange(len(data) // 2) * 2
    old = entries[int.from_bytes(data[at:at + 2], 'big')][0]
    new = rng.choice(places(entries, old)) if rng.random() < 0.8 else rng.randrange(len(entries) + 1)
    entries[k] = (tag, data[:at] + new.to_bytes(2, 'big') + data[at + 2:])


@of_pool
def pool_tag(rng, entries):
    k = rng.choice(places(entries, 7, 8, 9, 10, 11))
    tag = entries[k][0]
    entries[k] = ({7: 8, 8: 7, 9: 10, 10: 11, 11: 10}[tag], entries[k][1])


@of_pool
def pool_added(rng, entries):
    """An entry that nothing uses."""
    entries.append(rng.choice([(1, b'unused'), (3, b'\0\0\0\7'), (7, rng.choice(places(entries, 1)).to_bytes(2, 'big')), (4, b'\0\0\0\0'),
                               (15, b'\1\0\1'), (16, b'\0\1')]))


@of_pool
def pool_swapped(rng, entries):
    """Two entries of one kind."""
    k = rng.choice(places(entries, 1, 3, 7, 8, 9, 10, 12))
    j = rng.choice(places(entries, entries[k][0]))
    entries[k], entries[j] = entries[j], entries[k]


def of_bytes(made):
    def whole(rng, world):
        path = rng.choice(sorted(it for it in world.files if it.endswith('.class')))
        world.files[path] = made(rng, world.files[path])
    whole.__name__ = made.__name__
    return change(whole)


@of_bytes
def byte_flipped(rng, data):
    at = rng.randrange(len(data))
    return data[:at] + bytes([data[at] ^ 1 << rng.randrange(8)]) + data[at + 1:]


@of_bytes
def byte_set(rng, data):
    at = rng.randrange(len(data))
    return data[:at] + bytes([rng.choice([0, 1, 255, 127, data[at] + 1 & 255])]) + data[at + 1:]


@of_bytes
def bytes_swapped(rng, data):
    at = rng.randrange(len(data) - 1)
    return data[:at] + data[at + 1:at + 2] + data[at:at + 1] + data[at + 2:]


@of_bytes
def byte_added(rng, data):
    at = rng.choice([len(data), rng.randrange(len(data))])
    return data[:at] + rng.randbytes(1) + data[at:]


@of_bytes
def byte_dropped(rng, data):
    at = rng.choice([len(data) - 1, rng.randrange(len(data))])
    return data[:at] + data[at + 1:]


@of_bytes
def cut(rng, data):
    return data[:rng.randrange(len(data))]


@of_bytes
def version(rng, data):
    return data[:6] + rng.choice([51, 53, 55, 61, 45]).to_bytes(2, 'big') + data[8:]


# ---- files
KINDS.now = 'files'

def path_of(rng, world):
    return rng.choice(sorted(it for it in world.files if it.endswith('.class')))


@change
def file_dropped(rng, world):
    del world.files[path_of(rng, world)]


@change
def file_moved(rng, world):
    path = path_of(rng, world)
    new = rng.choice(['x/' + path, path[:-6] + 'x.class', path.swapcase()[:-6] + '.class', path + '.class', path[:-6] + '.CLASS'])
    world.files[new] = world.files.pop(path)


@change
def file_copied(rng, world):
    path = path_of(rng, world)
    world.files[rng.choice(['x/' + path, path[:-6] + 'x.class', 'META-INF/versions/9/' + path])] = world.files[path]


@change
def files_swapped(rng, world):
    a, b = path_of(rng, world), path_of(rng, world)
    world.files[a], world.files[b] = world.files[b], world.files[a]


@change
def file_of_the_input(rng, world):
    path = path_of(rng, world)
    world.files[path] = world.inputs.get(path) or rng.choice(list(world.inputs.values()))


@change
def file_added(rng, world):
    """A class of the input that isn't there, or one more under a new name."""
    path = rng.choice(sorted(world.inputs))
    if path in world.files:
        found = read_class(world.files[path])
        found.name += 'Added'
        world.files[found.name + '.class'] = write_class(found)
    else:
        world.files[path] = world.inputs[path]


@change
def other_file(rng, world):
    """A file that is no class file and isn't looked at."""
    world.files[rng.choice(['META-INF/MANIFEST.MF', 'x.txt', 'lib.so', 'a/b/c.jar', 'Main.class.old', 'noclass'])] = rng.randbytes(20)


@change
def no_files(rng, world):
    world.files = {} if rng.random() < 0.2 else dict(rng.sample(sorted(world.files.items()), len(world.files) // 2))


# ---- the mapping
KINDS.now = 'the mapping'

def of_lines(made):
    def whole(rng, world):
        lines = world.mapping.split('\n')[:-1]
        made(rng, lines, rng.randrange(len(lines)), world)
        world.mapping = '\n'.join(lines) + '\n'
    whole.__name__ = made.__name__
    return change(whole)


def of_member_line(made):
    def whole(rng, lines, k, world):
        members = [k for k, it in enumerate(lines) if it.startswith(' ')]
        if members:
            made(rng, lines, rng.choice(members), world)
    whole.__name__ = made.__name__
    return of_lines(whole)


def of_class_line(made):
    def whole(rng, lines, k, world):
        made(rng, lines, rng.choice([k for k, it in enumerate(lines) if not it.startswith(' ')]), world)
    whole.__name__ = made.__name__
    return of_lines(whole)


@of_lines
def map_dropped(rng, lines, k, world):
    del lines[k]


@of_lines
def map_repeated(rng, lines, k, world):
    lines.insert(rng.choice([k, rng.randrange(len(lines))]), lines[k])


@of_lines
def map_moved(rng, lines, k, world):
    lines.insert(rng.randrange(len(lines)), lines.pop(k))


@of_lines
def map_swapped(rng, lines, k, world):
    j = rng.randrange(len(lines))
    lines[k], lines[j] = lines[j], lines[k]


@of_class_line
def map_class_block(rng, lines, k, world):
    """A class with its members behind the others."""
    end = next((j for j in range(k + 1, len(lines)) if not lines[j].startswith(' ')), len(lines))
    block = lines[k:end]
    del lines[k:end]
    lines += block


@of_class_line
def map_class_dropped(rng, lines, k, world):
    end = next((j for j in range(k + 1, len(lines)) if not lines[j].startswith(' ')), len(lines))
    del lines[k:end]


@of_class_line
def map_class_new(rng, lines, k, world):
    old, _, new = lines[k][:-1].partition(' -> ')
    package = new.rpartition('.')[0]
    lines[k] = f'{old} -> {rng.choice([new + "x", "x." + new, old, package + ".zz" if package else "zz", "java.lang.String"])}:'


@of_class_line
def map_class_old(rng, lines, k, world):
    old, _, new = lines[k][:-1].partition(' -> ')
    lines[k] = f'{rng.choice([old + "x", new, old.upper(), "java.lang.Object"])} -> {new}:'


@of_class_line
def map_classes_swapped(rng, lines, k, world):
    j = rng.choice([j for j, it in enumerate(lines) if not it.startswith(' ')])
    (a, b), (c, d) = (lines[x].split(' -> ') for x in (k, j))
    lines[k], lines[j] = f'{a} -> {d if j != k else b}', f'{c} -> {b if j != k else d}'


@of_member_line
def map_member_new(rng, lines, k, world):
    old, _, new = lines[k].rpartition(' -> ')
    lines[k] = f'{old} -> {rng.choice([new + "x", "a", "b", "toString", "main", "<init>"])}'


@of_member_line
def map_member_old(rng, lines, k, world):
    lines[k] = re.sub(r' ([^ (]+)(\(| -> )', lambda it: f' {it[1]}{rng.choice("xyz")}{it[2]}', lines[k], count=1)


@of_member_line
def map_member_type(rng, lines, k, world):
    lines[k] = rng.choice([lines[k].replace('int', 'long', 1), lines[k].replace('void', 'int', 1), lines[k].replace('(', '(int,', 1),
                           lines[k].replace('()', '(int)', 1), lines[k].replace('java.lang.String', 'java.lang.Object', 1)])


@of_member_line
def map_news_swapped(rng, lines, k, world):
    j = rng.choice([j for j, it in enumerate(lines) if it.startswith(' ')])
    (a, _, b), (c, _, d) = (lines[x].rpartition(' -> ') for x in (k, j))
    if j != k:
        lines[k], lines[j] = f'{a} -> {d}', f'{c} -> {b}'


@of_member_line
def map_lines(rng, lines, k, world):
    """The ranges of lines, which aren't compared."""
    body = re.sub(r'^    (\d+:\d+:)?', '', lines[k])
    lines[k] = f'    {rng.choice(["", "1:1:", "7:3:", "1:99999:"]) if "(" in body else ""}{body}'


@of_lines
def map_spelling(rng, lines, k, world):
    """Blanks, ends of lines, comments, a mark at the front."""
    pick = rng.randrange(6)
    if pick == 0:
        lines[k] = lines[k] + '\r'
    elif pick == 1:
        lines.insert(k, rng.choice(['# a comment', '', '   ']))
    elif pick == 2:
        lines[0] = '\ufeff' + lines[0]
    elif pick == 3:
        lines[k] = lines[k].replace(' -> ', rng.choice(['->', '  -> ', ' => ']))
    elif pick == 4:
        lines[k] = lines[k] + rng.choice([' ', ':', ';'])
    else:
        lines[k] = rng.choice([' ', '\t']) + lines[k]


@change
def map_character(rng, world):
    at = rng.randrange(len(world.mapping))
    world.mapping = world.mapping[:at] + rng.choice(['', 'x', ' ', '\n', ':', world.mapping[at] * 2]) + world.mapping[at + 1:]


@change
def map_cut(rng, world):
    world.mapping = world.mapping[:rng.randrange(len(world.mapping))]


# ---- the witness
KINDS.now = 'the witness'

def methods_in(world):
    """Methods of the input as a witness names them."""
    found = []
    for line in world.mapping.split('\n'):
        at = re.fullmatch(r'(\S+) -> \S+:', line)
        if at:
            holder = at[1]
        elif '(' in line:
            found.append(f'{holder} ' + re.sub(r'^    (\d+:\d+:)?', '', line).rpartition(' -> ')[0])
    return found or ['A void f()']


@change
def witness_act(rng, world):
    """One method with one act."""
    step, act = rng.choice([(1, 'drop 0 0'), (3, 'drop 1 2'), (6, 'drop 0 99'), (2, 'fact 0 1 0 5'), (2, 'fact 2 2 0 -1'), (2, 'fold 0 1'),
                            (4, 'cut 0'), (4, 'cut 3'), (5, 'aim 0 0 1'), (5, 'skip 0')])
    world.witness += f'method {rng.choice(methods_in(world))}\nstep {step}\n{act}\n'


@change
def witness_acts(rng, world):
    """Several methods with several steps, in an order that may be wrong."""
    methods = methods_in(world)
    picked = rng.sample(range(len(methods)), min(3, len(methods)))
    for method in [methods[k] for k in (picked if rng.random() < 0.3 else sorted(picked))]:
        world.witness += f'method {method}\n'
        for step in sorted(rng.sample(range(1, 7), 2)):
            act = {1: 'drop 0 1', 2: 'fold 1 2', 3: 'drop 2 2', 4: 'cut 1', 5: 'skip 2', 6: 'drop 0 0'}[step]
            world.witness += f'step {step}\n{act}\n{act if rng.random() < 0.3 else "# a comment"}\n'


@change
def witness_stranger(rng, world):
    """A method that isn't there, or a step or an act that is none."""
    world.witness += rng.choice(['method no.Where int f(int)\nstep 1\ndrop 0 0\n', 'method Main\n', 'step 1\n', 'drop 0 0\n',
                                 'method Main int f(int)\nstep 7\ncut 0\n', 'method Main int f(int)\nstep 1\ncut 0\n',
                                 'method Main int f(int)\nstep 1\n', 'witness 1\n', 'anything\n'])


@change
def witness_spelling(rng, world):
    world.witness = rng.choice(['', 'witness 2\n', 'witness 1', 'witness 1\r\n', '# a comment\nwitness 1\n',
                                '\n\nwitness 1\n\n', ' witness 1\n', 'witness  1\n', 'witness 01\n', 'Witness 1\n',
                                'witness 1 \n', 'witness 1\nwitness 1\n', '\ufeffwitness 1\n', 'witness 1\n# b\n',
                                'witness 1\n\udcff\n'])


def of_witness(made):
    """made(rng, lines, k) changes the lines of a witness with entries; k is the number of one."""
    def whole(rng, world):
        lines = world.witness.split('\n')[:-1]
        if len(lines) > 1:
            made(rng, lines, rng.randrange(1, len(lines)))
            world.witness = '\n'.join(lines) + '\n'
    whole.__name__ = made.__name__
    whole.wants_entries = True
    return change(whole)


@of_witness
def witness_dropped(rng, lines, k):
    del lines[k]


@of_witness
def witness_repeated(rng, lines, k):
    lines.insert(k, lines[k])


@of_witness
def witness_moved(rng, lines, k):
    lines.insert(rng.randrange(1, len(lines)), lines.pop(k))


@of_witness
def witness_swapped(rng, lines, k):
    j = rng.randrange(1, len(lines))
    lines[k], lines[j] = lines[j], lines[k]


@of_witness
def witness_number(rng, lines, k):
    """One number of an act, or of a step, is another one."""
    places = [(j, at) for j, line in enumerate(lines) if j and not line.startswith('method') for at in range(1, len(line.split()))]
    j, at = rng.choice(places)
    words = lines[j].split()
    words[at] = str(max(0, int(words[at]) + rng.choice([-2, -1, 1, 2, 1000])))
    lines[j] = ' '.join(words)


@of_witness
def witness_word(rng, lines, k):
    """Another kind of act, or another method, in one line."""
    others = [it for it in lines[1:] if it.startswith('method') == lines[k].startswith('method')]
    lines[k] = ' '.join([rng.choice(['drop', 'fold', 'cut', 'aim', 'skip', 'fact']), *lines[k].split()[1:]]) \
        if not lines[k].startswith(('method', 'step')) else rng.choice(others)


@of_witness
def witness_entry_dropped(rng, lines, k):
    begins = [j for j, it in enumerate(lines) if it.startswith('method')] + [len(lines)]
    j = rng.randrange(len(begins) - 1)
    del lines[begins[j]:begins[j + 1]]


# ---- in several places at once
KINDS.now = 'several places at once, and rules'

def renamed_world(world, names, classes_moved=False):
    """Each output class under other names."""
    files = {}
    for path, data in world.files.items():
        found = read_class(data)
        for is_method, part in ((False, found.fields), (True, found.methods)):
            for it in part:
                it.name = (names.methods if is_method else names.fields).get(it.name, it.name)
                it.descriptor = names.descriptor(it.descriptor)
                it.throws = [names.type(x) for x in it.throws]
                if it.code:
                    it.code.ins = [renamed_ins(ins, names) for ins in it.code.ins]
                    it.code.handlers = [[*row[:3], row[3] and names.type(row[3])] for row in it.code.handlers]

                    def typed(x):
                        if isinstance(x, list):
                            return ['object', names.type(x[1])] if x[:1] == ['object'] else [typed(y) for y in x]
                        return x
                    it.code.frames = typed(it.code.frames)
        found.name, found.above = names.type(found.name), names.type(found.above)
        found.interfaces = [names.type(it) for it in found.interfaces]
        files[found.name + '.class'] = write_class(found)
    world.files = files


def renaming(rng, world, pick, fresh):
    """A class, a field or a method gets another name in the mapping and in all classes."""
    lines, names = world.mapping.split('\n'), Names()
    if pick == 'class':
        news = sorted(re.findall(r' -> (\S+):$', world.mapping, re.M))
        old = rng.choice(news)
        new = fresh(old)
        names.classes[old.replace('.', '/')] = new.replace('.', '/')
        lines = [re.sub(rf' -> {re.escape(old)}:$', f' -> {new}:', it) for it in lines]
    else:
        members = [it for it in lines if it.startswith(' ') and ('(' in it) == (pick == 'method') and '<' not in it]
        if not members:
            return
        old = rng.choice(members).rpartition(' -> ')[2]
        new = fresh(old)
        (names.methods if pick == 'method' else names.fields)[old] = new
        lines = [f'{it.rpartition(" -> ")[0]} -> {new}' if it.startswith(' ') and it.rpartition(' -> ')[2] == old
                 and ('(' in it) == (pick == 'method') else it for it in lines]
    world.mapping = '\n'.join(lines)
    renamed_world(world, names)


for pick in ('class', 'field', 'method'):
    def consistent(rng, world, pick=pick):
        """To a name that nothing has, in its package."""
        renaming(rng, world, pick, lambda old: old + 'fresh')
    KINDS[f'{pick}_renamed_throughout'] = consistent

    def clashing(rng, world, pick=pick):
        """To a name that something has, is fixed or of the library, or in another package."""
        def name(old):
            if pick == 'class':
                return rng.choice(['elsewhere.' + old, re.sub(r'[^.]+$', 'a', old), 'java.lang.String'])
            return rng.choice(['a', 'b', 'main', 'toString', 'out', 'run'])
        renaming(rng, world, pick, name)
    KINDS[f'{pick}_renamed_badly'] = clashing


@change
def method_renamed_as_in_the_jdk(rng, world):
    """To that of a final method of Throwable that isn't in the table of the library."""
    found = re.findall(r'\bvoid \w+\(java\.lang\.Throwable\) -> (\w+)$', world.mapping, re.M)
    names = Names()
    if found:
        names.methods[found[0]] = 'addSuppressed'
        world.mapping = re.sub(rf'(\(.*\)) -> {found[0]}$', r'\1 -> addSuppressed', world.mapping, flags=re.M)
        renamed_world(world, names)


def without(rng, world, part, path=None, k=None):
    """A member goes from its class and from the mapping."""
    path = path or path_of(rng, world)
    found = read_class(world.files[path])
    items = getattr(found, part)
    if not items:
        return
    k = rng.randrange(len(items)) if k is None else k
    lines = world.mapping.split('\n')
    start = next((j for j, it in enumerate(lines) if it.endswith(f' -> {found.name.replace("/", ".")}:')), None)
    if start is None:
        return
    end = next((j for j in range(start + 1, len(lines)) if not lines[j].startswith(' ')), len(lines))
    mine = [j for j in range(start + 1, end) if ('(' in lines[j]) == (part == 'methods')]
    if len(mine) == len(items):
        del items[k]
        del lines[mine[k]]
        world.mapping = '\n'.join(lines)
        world.files[path] = write_class(found)


@change
def method_removed_throughout(rng, world):
    """From its class and from the mapping: what overrides something goes so, too."""
    without(rng, world, 'methods')


@change
def override_removed_throughout(rng, world):
    """The same of a method that another class of the output, or the library, has too."""
    found = {it: read_class(world.files[it + '.class']) for it in names_in(world)}
    held = collections.Counter(it.key() for x in found.values() for it in x.methods)
    paths = [it for it in found if any(held[m.key()] > 1 and m.name[0] != '<' or m.name in judging.LIBRARY_NAMES - {'<init>', '<clinit>'}
                                       for m in found[it].methods)]
    if not paths:
        return
    name = rng.choice(paths)
    k = rng.choice([k for k, m in enumerate(found[name].methods)
                    if held[m.key()] > 1 and m.name[0] != '<' or m.name in judging.LIBRARY_NAMES - {'<init>', '<clinit>'}])
    without(rng, world, 'methods', name + '.class', k)


@change
def field_removed_throughout(rng, world):
    without(rng, world, 'fields')


@change
def class_removed_throughout(rng, world):
    lines = world.mapping.split('\n')
    k = rng.choice([k for k, it in enumerate(lines[:-1]) if not it.startswith(' ')])
    end = next((j for j in range(k + 1, len(lines)) if not lines[j].startswith(' ')), len(lines))
    world.files.pop(lines[k].rpartition(' -> ')[2][:-1].replace('.', '/') + '.class', None)
    del lines[k:end]
    world.mapping = '\n'.join(lines)


@change
def rule_other(rng, world):
    """Other rules than those by which the pair was made."""
    name = rng.choice(sorted(world.inputs))[:-6]
    pick = rng.randrange(5)
    if pick == 0:
        world.rules.rules.append(Rule(rng.choice(['all', 'class', 'public', 'names']), name))
    elif pick == 1 and len(world.rules.rules) > 1:
        world.rules.rules.pop(rng.randrange(1, len(world.rules.rules)))
    elif pick == 2:
        world.rules.lines = not world.rules.lines
    elif pick == 3:
        world.rules.throws = not world.rules.throws
    else:
        world.rules.obfuscate = not world.rules.obfuscate


KINDS.now = 'the input'


def of_input(made):
    def whole(rng, world):
        swapped = World(world.name, world.files, dict(world.inputs), world.mapping, world.witness, world.rules)
        for path in list(swapped.files):
            found = read_class(swapped.files[path])
            for it in [found, *found.fields, *found.methods, *(m.code for m in found.methods if m.code)]:
                it.others = []
            swapped.files[path] = write_class(found)
        before = dict(swapped.files)
        made(rng, swapped)
        if swapped.files != before:
            world.inputs = swapped.files
    return whole


for name in ('opcode', 'method_flag', 'field_flag', 'pushed_number', 'reference', 'method_dropped', 'field_added', 'superclass',
             'handler_range', 'instruction_inserted', 'line_changed', 'interface_added', 'file_dropped'):
    KINDS[f'input_{name}'] = of_input(KINDS[name])
INPUTS = [made for name, made in KINDS.items() if name.startswith('input_')]


# ---- the pairs

SETTINGS = [dict(), dict(lines=True), dict(throws=True, lines=True), dict(obfuscate=False), dict(shrink=False)]


def config(rules):
    return '-injars in\n-outjars out\n-printmapping map.txt\n' + rules.text()


class Forge:
    def __init__(self, program, room, seed, kept):
        self.program, self.room, self.rng, self.kept = str(Path(program).resolve()), Path(room), random.Random(seed), Path(kept)
        self.read, self.lacks, self.wrong, self.rows, self.both, self.edits = {}, {}, [], {}, [], 0
        self.at = self.room / 'at'
        self.shown = {}

    def call(self, *words):
        return subprocess.run([self.program, *words], cwd=self.at, capture_output=True, timeout=120)

    def clear(self):
        shutil.rmtree(self.at, ignore_errors=True)
        self.at.mkdir(parents=True)
        self.shown = {}

    def show(self, files):
        """Makes the files below `at` these, changing those that differ."""
        for path in [it for it in self.shown if it not in files]:
            (self.at / path).unlink()
        for path, data in files.items():
            if self.shown.get(path) != data:
                target = self.at / path
                target.parent.mkdir(parents=True, exist_ok=True)
                target.write_bytes(data)
        self.shown = files

    def made(self, name, inputs, rules):
        """The pair that `shrink` writes."""
        self.clear()
        put(self.at / 'in', inputs)
        (self.at / 's.pro').write_text(config(rules))
        ran = self.call('shrink', 's.pro', 'o.wit')
        if ran.returncode:
            sys.exit(f'forge.py: {name} is not shrunk: {ran.stdout.decode()}')
        return World(name, inputs, tree(self.at / 'out'), (self.at / 'map.txt').read_text(), (self.at / 'o.wit').read_text(), rules)

    def worlds(self, count, seed):
        sources, classes = self.room / 'sources', self.room / 'classes'
        paths = random_programs.write(seed, count, str(sources))
        classes.mkdir()
        subprocess.run(['javac', '-J-XX:+UseSerialGC', '-J-XX:TieredStopAtLevel=1', '--release', '8', '-nowarn', '-Xlint:none',
                        '-g:source,lines', '-d', str(classes), *paths], check=True, stderr=subprocess.DEVNULL)
        programs = [(name, tree(TOP / f'examples/{name}/in'), name_of) for name, name_of in
                    (('minimal', 'Hello'), ('app', 'Main'), ('railway', 'Railway'))]
        for k in range(count):
            programs.append((f'r{k}', {f'r{k}/{path}': data for path, data in tree(classes / f'r{k}').items()}, f'r{k}.Main'))
        found = []
        for number, (name, inputs, main) in enumerate(programs):
            names = sorted(it[:-6] for it in inputs)
            for setting in SETTINGS if number < 3 else self.rng.sample(SETTINGS, 2):
                rules = Rules([Rule('main')], **setting)
                if self.rng.random() < 0.5:
                    rules.rules.append(Rule(self.rng.choice(['all', 'class', 'public', 'names']), self.rng.choice(names)))
                world = self.made(name, inputs, rules)
                world.main = main
                found.append(world)
            if number < 3 or number % 2:
                rough = {path: edited.roughened(self.rng, data, 5) for path, data in inputs.items()}
                rules = Rules([Rule('main')], optimise=False, **self.rng.choice(SETTINGS))
                found.append(self.edited(self.made(f'{name}, edited', rough, rules), main))
        return found

    def edited(self, world, main):
        """The pair with each code edited that is typed then, by the passes of passes.py."""
        self.clear()
        pair = edited.Pair(world.name, world.inputs, world.files, world.mapping, '')
        bodies, steps = {}, {}
        for key in pair.order:
            body, acts = passes.optimised(pair.bodies[key])
            if acts:
                bodies[key], steps[key] = body, acts
        while True:
            world.files = pair.put(bodies)
            world.witness = edited.text([edited.entry_of(pair, key, steps[key]) for key in pair.order if key in steps])
            line = self.check(world)[1].rstrip('\n')
            untyped = [key for key in steps if line == f'error 9 no OutputProfile {" ".join(edited.output_name(pair, key))}']
            if len(untyped) != 1:
                break
            del bodies[untyped[0]], steps[untyped[0]]
        world.main, self.edits = main, self.edits + len(steps)
        return world

    def classes_of(self, inputs):
        found = {}
        for path, data in inputs.items():
            if data not in self.read:
                try:
                    self.read[data] = read_class(data)
                except (Bad, IndexError, UnicodeDecodeError):
                    return None
            found[self.read[data].name] = self.read[data]
        return found

    def judged(self, world):
        """None where the pair is right, else why not."""
        classes = self.classes_of(world.inputs)
        if classes is None:
            return 'unreadable input'
        key = (id(self), world.rules.text(), world.mapping, tuple(sorted(map(hash, world.inputs.values()))))
        if key not in self.lacks:
            plain = judging.lacking
            try:
                names = judging.names_of(world.mapping.encode('utf-8', 'surrogateescape'), classes)
                self.lacks[key] = plain(classes, set(names.classes) | names.members, world.rules)
            except (Bad, UnicodeDecodeError, KeyError, StopIteration) as fault:
                self.lacks[key] = f'lines: {fault}'
        plain, judging.lacking = judging.lacking, lambda *_: self.lacks[key]
        try:
            return judging.judge(classes, world.files, world.mapping.encode('utf-8', 'surrogateescape'), world.rules, world.witness)
        finally:
            judging.lacking = plain

    def check(self, world):
        files = {f'in/{path}': data for path, data in world.inputs.items()}
        files.update({f'out/{path}': data for path, data in world.files.items()})
        files['s.pro'] = config(world.rules).encode()
        files['map.txt'] = world.mapping.encode('utf-8', 'surrogateescape')
        files['o.wit'] = world.witness.encode('utf-8', 'surrogateescape')
        self.show(files)
        ran = self.call('check', 's.pro', 'o.wit')
        return ran.returncode, ran.stdout.decode('utf-8', 'replace'), files

    def fail(self, kind, world, files, why):
        target = self.kept / f'{kind}-{len(self.wrong)}'
        put(target, files)
        (target / 'why.txt').write_text(why + '\n')
        self.wrong.append(f'{kind} of {world.name}: {why} ({target})')
        print(f'forge.py: {self.wrong[-1]}', file=sys.stderr, flush=True)

    def forge(self, kind, source, made):
        for _ in range(8):
            world = source.copied()
            try:
                for it in made:
                    it(self.rng, world)
            except (Unmade, Bad, OverflowError, LookupError, ValueError, struct.error):
                continue  # no such change here, or the second of two finds nothing
            if not world.same(source):
                break
        else:
            return
        row = self.rows.setdefault(kind, collections.Counter())
        status, line, files = self.check(world)
        row['pairs'] += 1
        if status == 0 and line == 'ok\n':
            row['ok'] += 1
            why, shown = self.judged(world), self.compared(source.main)
            row['compared'] += shown == 'same'
            if why:
                self.fail(kind, world, files, f'ok, and the judge says {why}')
            elif shown != 'same' and not shown.startswith('error 12 entry '):
                self.fail(kind, world, files, f'ok, and compare says {shown}')
            elif world.inputs != source.inputs or any(
                    world.files.get(it) != data for it, data in source.files.items() if it.endswith('.class')):
                row['run'] += 1
                folder = self.room / 'both' / str(len(self.both))
                put(folder / 'in', world.inputs)
                put(folder / 'out', world.files)
                self.both.append((kind, world, files, {name for name in KINDS if KINDS[name] in made}, folder, source.main))
            return
        form = re.fullmatch(r'error (\d+) (?:(no) (\w+) .+|(text) \d+ (\w+)|(format|profile|rules) .+)\n', line)
        if not form or int(form[1]) != status or not (form[2] or form[4] or any(it in INPUTS for it in made)):
            self.fail(kind, world, files, f'status {status}, {line!r}')
        row[form[3] or form[5] or form[6] if form else 'odd'] += 1
        if form and form[2] and self.judged(world) is None:
            row['judge ok'] += 1
            self.rows.setdefault('_refused', []).append((kind, line.strip()))

    def compared(self, main):
        """What `compare` says of the pair that was checked last, from its main method, which the rules may not keep any more."""
        return self.call('compare', 's.pro', f'{main}.main(java.lang.String[])', '1000000').stdout.decode('utf-8', 'replace').strip()

    def run_both(self):
        if not self.both:
            return 0
        (self.room / 'Both.java').write_text(JAVA)
        subprocess.run(['javac', '-J-XX:TieredStopAtLevel=1', '-d', str(self.room), str(self.room / 'Both.java')], check=True,
                       stderr=subprocess.DEVNULL)
        lines = ''.join(f'{folder}/in {folder}/out {main}\n' for *_, folder, main in self.both)
        ran = subprocess.run(['java', '-XX:+UseSerialGC', '-XX:TieredStopAtLevel=1', '-Xverify:all', '-cp', str(self.room), 'Both'],
                             input=lines, capture_output=True, text=True)
        said = [it for it in ran.stdout.split('\n') if it]
        if len(said) != len(self.both):
            sys.exit(f'forge.py: java answered {len(said)} of {len(self.both)}: {ran.stderr[-500:]}')
        for (kind, world, files, known, *_), line in zip(self.both, said):
            of_input = re.match(r'differ fault java.lang.ClassFormatError', line) and any(it.startswith('input_') for it in known)
            if line != 'same' and (known & KNOWN and re.search('ClassFormatError|overrides final method', line) or of_input):
                self.rows[kind]['java refuses'] += 1  # the output, or already the input
            elif line != 'same':
                self.fail(kind, world, files, f'ok, and under java they {line[:300]}')
        return len(said)


APART = ('pairs', 'ok', 'run', 'compared', 'judge ok', 'java refuses', 'kinds')


def table(rows, head='Change'):
    """A row for each: pairs, ok, those of them that java refuses, and how many were refused by which clause or text fault."""
    print(f'| {head} | Pairs | `ok` | Refused by |\n|---|---|---|---|')
    for kind, row in rows.items():
        by = ', '.join(f'{name} {count}' for name, count in row.most_common() if name not in APART)
        refused = f' (java refuses {row["java refuses"]})' if row['java refuses'] else ''
        print(f'| {kind} | {row["pairs"]:,} | {row["ok"]}{refused} | {by} |')


def main():
    words = argparse.ArgumentParser(description=__doc__, formatter_class=argparse.RawDescriptionHelpFormatter)
    words.add_argument('program')
    words.add_argument('--each', type=int, default=40)
    words.add_argument('--seed', type=int, default=1)
    words.add_argument('--programs', type=int, default=12)
    words.add_argument('--only', default='')
    words.add_argument('--keep', default='forged')
    words.add_argument('--table', action='store_true')
    asked = words.parse_args()
    with tempfile.TemporaryDirectory(dir='/dev/shm' if os.path.isdir('/dev/shm') else None) as room:
        forge = Forge(asked.program, room, asked.seed, asked.keep)
        worlds = forge.worlds(asked.programs, asked.seed)
        plan = collections.defaultdict(list)
        for kind in sorted(KINDS):
            if asked.only in kind:
                places = [k for k, it in enumerate(worlds) if '\nmethod ' in it.witness or not hasattr(KINDS[kind], 'wants_entries')]
                for _ in range(asked.each):
                    plan[forge.rng.choice(places)].append((kind, [KINDS[kind]]))
        for _ in range(8 * asked.each if not asked.only else 0):
            two = forge.rng.sample(sorted(KINDS), 2)
            plan[forge.rng.randrange(len(worlds))].append(('two changes', [KINDS[it] for it in two]))
        for number in sorted(plan):
            world = worlds[number]
            forge.clear()
            status, line, files = forge.check(world)
            why = forge.judged(world)
            if (status, line) != (0, 'ok\n') or why:
                forge.fail('before', world, files, f'{line!r}, the judge says {why}')
            for kind, made in plan[number]:
                forge.forge(kind, world, made)
        ran = forge.run_both()
        refused = forge.rows.pop('_refused', [])
        groups = {}
        for kind, row in sorted(forge.rows.items(), key=lambda it: list(KINDS).index(it[0]) if it[0] in KINDS else 999):
            group = KINDS.groups.get(kind, kind)
            groups.setdefault(group, collections.Counter()).update(row)
            groups[group]['kinds'] += 1
        if asked.table:
            table({f'`{kind}`': row for kind, row in sorted(forge.rows.items())})
        table({f'{kind} ({row["kinds"]} kinds)': row for kind, row in groups.items()}, 'Where')
        total = sum(forge.rows.values(), collections.Counter())
        by = ', '.join(f'{name} {count}' for name, count in total.most_common() if name not in APART)
        print(f'{len(worlds)} pairs before, of them {sum("edited" in it.name for it in worlds)} with {forge.edits} edited codes, '
              f'{len(forge.rows)} kinds of change, {total["pairs"]} forged pairs: {total["ok"]} ok, '
              f'of which {ran} ran under java, which refuses {total["java refuses"]} of kinds that are known, and of {total["compared"]} '
              f'compare says same; {by}; '
              f'{total["judge ok"]} refused that the judge would take; {len(forge.wrong)} wrong')
        for kind, line in refused[:40] if asked.table else ():
            print(f'refused, and the judge would take it: {kind}: {line}', file=sys.stderr)
        sys.exit(1 if forge.wrong else 0)


if __name__ == '__main__':
    main()
