#!/usr/bin/env python3
"""Class files of one shape, and what a program takes for them.

    python3 bench/shapes.py write SHAPE N DIR               writes the class files below DIR
    python3 bench/shapes.py time PROGRAM [SHAPE=N,N,..]..   processor seconds and peak of `PROGRAM shrink` for each N
    python3 bench/shapes.py check PROGRAM [SHAPE=N,N,..]..  the same of `shrink` and then of `check` on what it wrote
    python3 bench/shapes.py count PROGRAM [SHAPE=N,N,..]..  its instructions, by valgrind's callgrind

Without shapes `time` and `count` go over all of them, and `check` over the costly ones. They keep all classes, but for shapes
that have rules of their own, and write below /dev/shm; a run that takes more than a processor minute, or more than 6 GB, is ended.
"""
import os, resource, shutil, struct, subprocess, sys, tempfile, time

sys.dont_write_bytecode = True
sys.path.insert(0, os.path.join(os.path.dirname(os.path.abspath(__file__)), '..', 'crates', 'set_vectors'))
from assembler import FINAL, OBJECT, PRIVATE, PUBLIC, STATIC, File, Method, Pool, abstract, attribute, body, interface

LONG = 'n' * 65000


class Raw(Method):
    """A method whose Code the shape makes itself."""


def raw(make, name='run', descriptor='()V', flags=PUBLIC | STATIC):
    method = Raw(name, descriptor, flags, code=())
    method.make = make
    return method


def code_attribute(max_stack, max_locals, code, handlers=(), attributes=()):
    rows = b''.join(struct.pack('>HHHH', *row) for row in handlers)
    return (struct.pack('>HHI', max_stack, max_locals, len(code)) + code + struct.pack('>H', len(handlers)) + rows
            + struct.pack('>H', len(attributes)) + b''.join(attributes))


def instance(name, *code):
    return Method(name, '()V', PUBLIC, [*code, 'return'])


# ---- usual shapes

def classes(n):
    """N classes of five methods that call the next class, and two fields."""
    for i in range(n):
        other = f'p/C{(i + 1) % n:05}'
        calls = [('invokestatic', (other, 's', '()V')), ('getstatic', (other, 'f0', 'I')), 'pop']
        yield File(f'p/C{i:05}', fields=[(PUBLIC | STATIC, f'f{k}', 'I') for k in range(2)],
                   methods=[instance(f'm{k}', *calls) for k in range(4)] + [body(name='s')])


def chain(n):
    """N classes, each the superclass of the one before."""
    for i in range(n):
        yield File(f'p/C{i:05}', f'p/C{i + 1:05}' if i + 1 < n else OBJECT)


def deep(n):
    """The classes of `classes` in chains of 50, each with the one before it as its superclass, whose methods it overrides."""
    for i, file in enumerate(classes(n)):
        yield File(f'p/C{i:05}', f'p/C{i - 1:05}' if i % 50 else OBJECT, fields=file.fields, methods=file.methods)


def deep_large(n):
    """The same, each with twelve static methods of 61 instructions beside: classes of 2.4 kB."""
    for i, file in enumerate(deep(n)):
        other = f'p/C{(i + 1) % n:05}'
        calls = [('invokestatic', (other, 's', '()V')), ('getstatic', (other, 'f0', 'I')), 'pop'] * 20
        file.methods = [*file.methods, *(body(*calls, name=f't{k}') for k in range(12))]
        yield file


def overriding(n, methods=1):
    """The same, each with a method that overrides the one above."""
    for i in range(n):
        yield File(f'p/C{i:05}', f'p/C{i + 1:05}' if i + 1 < n else OBJECT, methods=[instance(f'm{k}') for k in range(methods)])


def implementing(n):
    """A chain of N classes, the last of which implements an interface with a method that the first one has."""
    yield interface('p/I', methods=[abstract('run')])
    for i in range(n):
        yield File(f'p/C{i:05}', f'p/C{i + 1:05}' if i + 1 < n else OBJECT, ['p/I'] if i == 0 else [],
                   methods=[instance('run')] if i == n - 1 else [])


def interfaces(n):
    """One class that implements N interfaces."""
    for i in range(n):
        yield interface(f'p/I{i:05}')
    yield File('p/A', interfaces=[f'p/I{i:05}' for i in range(n)])


def extending(n):
    """A chain of N interfaces."""
    for i in range(n):
        yield interface(f'p/I{i:05}', *([f'p/I{i + 1:05}'] if i + 1 < n else []))


def calls(n):
    """One class with N static methods, each of which calls the next."""
    for j in range(n):
        pass
    yield File('p/A', methods=[instance('run', ('invokestatic', ('p/A', 's00000', '()V')))]
               + [body(*([('invokestatic', ('p/A', f's{j + 1:05}', '()V'))] if j + 1 < n else []), name=f's{j:05}') for j in range(n)])


# ---- hostile shapes: legal class files, small for what they ask

def strings(n):
    """N ldc_w of one text of 65,000 bytes."""
    def make(pool):
        at = pool.add(b'\x08' + struct.pack('>H', pool.utf8(LONG)))
        return code_attribute(1, 0, (b'\x13' + struct.pack('>H', at) + b'\x57') * n + b'\xb1')
    yield File('p/A', methods=[raw(make)])


def long_calls(n):
    """N calls of one method whose name has 65,000 letters."""
    call = ('invokestatic', ('p/A', LONG, '()V'))
    yield File('p/A', methods=[body(name=LONG), body(*[call] * n)])


def handlers(n):
    """N handlers that catch one class whose name has 65,000 letters (refused: the class isn't there)."""
    def make(pool):
        caught = pool.of_class('p/' + LONG)
        return code_attribute(1, 0, b'\x00\xb1', [(0, 1, 1, caught)] * n)
    yield File('p/A', methods=[raw(make)])


def throws(n):
    """A method that throws one class whose name has 65,000 letters, named N times (refused: the class isn't there)."""
    yield File('p/A', methods=[Method('run', '()V', PUBLIC, ['return'], throws=['p/' + LONG] * n)])


def descriptors(n):
    """N methods with one descriptor of 65,000 bytes (refused: a class that it names isn't there)."""
    yield File('p/A', methods=[body(name=f'm{k}', descriptor=f'(Lp/{LONG};)V') for k in range(n)])


def long_arguments(n):
    """N methods with one descriptor of 255 arguments, of classes that are there."""
    yield File('p/A', methods=[Method(f'm{k}', f'({"Lp/A;" * 255})V', PUBLIC | STATIC | 0x100 & 0, ['return']) for k in range(n)])


def frames(n):
    """N frames, each of which appends a local."""
    def make(pool):
        rows = b''.join(b'\xfc' + struct.pack('>H', 0) + b'\x01' for _ in range(n))
        table = attribute(pool, 'StackMapTable', struct.pack('>H', n) + rows)
        return code_attribute(1, n + 1, b'\x00' * (n + 1) + b'\xb1', attributes=[table])
    yield File('p/A', methods=[raw(make)])


LOCALS = 255
INTS = b''.join(b'\x03\x36' + bytes([k]) for k in range(LOCALS))  # iconst_0 into each local


def full_frame(delta, stack=()):
    """All locals are ints."""
    return (b'\xff' + struct.pack('>HH', delta, LOCALS) + b'\x01' * LOCALS + struct.pack('>H', len(stack)) + b''.join(stack))


def stack_map(pool, rows):
    rows = list(rows)
    return attribute(pool, 'StackMapTable', struct.pack('>H', len(rows)) + b''.join(rows))


def full_frames(n):
    """N frames of 255 locals, at every second instruction."""
    def make(pool):
        rows = [full_frame(len(INTS))] + [full_frame(1)] * (n - 1)
        return code_attribute(1, LOCALS, INTS + b'\x00\x00' * n + b'\xb1', attributes=[stack_map(pool, rows)])
    yield File('p/A', methods=[raw(make)])


def branches(n):
    """N branches to one frame of 255 locals."""
    def make(pool):
        code = INTS + b''.join(b'\x03\x99' + struct.pack('>h', -4 * k - 1) for k in range(n)) + b'\xb1'
        return code_attribute(1, LOCALS, code, attributes=[stack_map(pool, [full_frame(len(INTS))])])
    yield File('p/A', methods=[raw(make)])


def covering(n):
    """N handlers with frames of 255 locals, each of which covers N stores."""
    def make(pool):
        body = INTS + b'\x03\x3b' * n + b'\xb1'
        thrown = b'\x07' + struct.pack('>H', pool.of_class('java/lang/Throwable'))
        rows = [full_frame(len(body), [thrown])] + [b'\x40' + thrown] * (n - 1)
        table = [(len(INTS), len(body), len(body) + k, 0) for k in range(n)]
        return code_attribute(1, LOCALS, body + b'\xbf' * n, table, [stack_map(pool, rows)])
    yield File('p/A', methods=[raw(make)])


def handler_frames(pool, body, others):
    """A frame for each of N instructions behind a body: the first local and those of `others` are Tops, the rest ints."""
    thrown = b'\x07' + struct.pack('>H', pool.of_class('java/lang/Throwable'))
    for k, tops in enumerate(others):
        types = bytes(0 if slot == 0 or slot in tops else 1 for slot in range(LOCALS))
        yield b'\xff' + struct.pack('>HH', 0 if k else len(body), LOCALS) + types + struct.pack('>H', 1) + thrown


def storing(n, others, begins):
    def make(pool):
        body = INTS + b'\x03\x3b\x01\x4b' * (n // 2) + b'\xb1'
        table = [(len(INTS) + begins(k), len(body), len(body) + k, 0) for k in range(n)]
        return code_attribute(1, LOCALS, body + b'\xbf' * n, table, [stack_map(pool, handler_frames(pool, body, others))])
    yield File('p/A', methods=[raw(make)])


def changing(n):
    """N handlers with the same locals, each of which covers N stores of an int and of null in turn."""
    return storing(n, [()] * n, lambda k: 0)


def beginning(n):
    """The same, each of which covers a store less than the one before."""
    return storing(n, [()] * n, lambda k: 2 * k)


def differing(n):
    """The same, each with locals of its own."""
    return storing(n, [(1 + k % 254, 1 + k // 254) for k in range(n)], lambda k: 0)


def ending(n):
    """The same with the same locals, each of which covers a store more than the one before."""
    return storing(n, [()] * n, lambda k: 2 * (n - 1 - k))


def making(n):
    """N handlers, each of which covers N instructions that make an object."""
    def make(pool):
        made = b'\xbb' + struct.pack('>H', pool.of_class('p/A')) + b'\x57'
        body = INTS + made * n + b'\xb1'
        table = [(len(INTS), len(body), len(body) + k, 0) for k in range(n)]
        rows = handler_frames(pool, body, [()] * n)
        return code_attribute(1, LOCALS, body + b'\xbf' * n, table, [stack_map(pool, rows)])
    yield File('p/A', methods=[raw(make)])


def framing(n):
    """N handlers, each of which covers N frames: what is in the last local is forgotten, and it is stored to again."""
    def make(pool):
        body = INTS + (b'\0\x03\x36' + bytes([LOCALS - 1]) + b'\0') * (n // 2) + b'\xb1'
        first = b'\xff' + struct.pack('>HH', len(INTS), LOCALS - 1) + b'\x01' * (LOCALS - 1) + b'\0\0'
        rows = [first] + [b'\xfc\0\3\1', b'\xfa\0\0'] * (n // 2)
        rows = rows[:-1] + list(handler_frames(pool, b'\0', [(LOCALS - 1,)] * n))
        table = [(len(INTS), len(body), len(body) + k, 0) for k in range(n)]
        return code_attribute(1, LOCALS, body + b'\xbf' * n, table, [stack_map(pool, rows)])
    yield File('p/A', methods=[raw(make)])


def wanting(n):
    """A chain of N classes; N handlers that want one each in a local, and cover N stores of the lowest and of null."""
    yield from chain(n)

    def make(pool):
        classes = [b'\x07' + struct.pack('>H', pool.of_class(f'p/C{k:05}')) for k in range(n)]
        thrown = b'\x07' + struct.pack('>H', pool.of_class('java/lang/Throwable'))
        body = b'\x01\x4c' + b'\x2a\x4c\x01\x4c' * (n // 2) + b'\xb1'
        rows = [b'\xff' + struct.pack('>HH', 0 if k else len(body), 2) + b'\0' + ty + b'\0\1' + thrown
                for k, ty in enumerate(classes)]
        table = [(2, len(body), len(body) + k, 0) for k in range(n)]
        return code_attribute(1, 2, body + b'\xbf' * n, table, [stack_map(pool, rows)])
    yield File('p/A', methods=[raw(make, descriptor='(Lp/C00000;)V')])


def deep_frames(n):
    """A chain of N classes, and N frames into which the lowest flows where the topmost is wanted."""
    yield from chain(n)

    def make(pool):
        low, top = (b'\x07' + struct.pack('>H', pool.of_class(f'p/C{k:05}')) for k in (0, n - 1))
        first = b'\xff' + struct.pack('>HH', 0, 2) + top + low + struct.pack('>H', 0)
        code = b'\x2b\x4b' * n + b'\xb1'
        return code_attribute(1, 2, code, attributes=[stack_map(pool, [first] + [b'\x01'] * (n - 1))])
    yield File('p/A', methods=[raw(make, descriptor='(Lp/C00000;Lp/C00000;)V')])


def tall(n):
    """A chain of N classes below an interface with N methods, which the first class has."""
    yield interface('p/I', methods=[abstract(f'm{k}') for k in range(n)])
    for i in range(n):
        yield File(f'p/C{i:05}', f'p/C{i + 1:05}' if i + 1 < n else OBJECT, ['p/I'] if i == 0 else [],
                   methods=[instance(f'm{k}') for k in range(n)] if i == n - 1 else [])


def overriding_twenty(n):
    """A chain of N classes with twenty methods each, which override those above."""
    return overriding(n, 20)


def descriptor(k):
    letters = []
    for _ in range(8):
        letters.append('IJBC'[k % 4])
        k //= 4
    return f'({"".join(letters)})V'


def overloads(n):
    """One class with N methods of one name, and 200 calls of the last ones."""
    named = [body(name='m', descriptor=descriptor(k)) for k in range(n)]

    def make(pool):
        code = b''
        for k in range(n - 200, n):
            for letter in descriptor(k)[1:-2]:
                code += b'\x09' if letter == 'J' else b'\x03'
            code += b'\xb8' + struct.pack('>H', pool.member(10, ('p/A', 'm', descriptor(k))))
        return code_attribute(20, 0, code + b'\xb1')
    yield File('p/A', methods=[*named, raw(make)])


def two_overloads(n):
    """Two classes with N methods of one name, one class below the other."""
    for name, above in (('p/A', OBJECT), ('p/B', 'p/A')):
        yield File(name, above, methods=[Method('m', descriptor(k), PUBLIC, ['return']) for k in range(n)])


def folded(a, b):
    product = a * b
    return (product ^ product >> 64) & 0xFFFFFFFFFFFFFFFF


def colliding_names(n):
    """Names of 48 letters with one hash in the library's tables, whose seed is fixed."""
    length, seed, multiplier = 48, 0x243F6A8885A308D3, 0x9E3779B97F4A7C15
    allowed = set(b'abcdefghijklmnopqrstuvwxyzABCDEFGHIJKLMNOPQRSTUVWXYZ0123456789_')
    k = 0
    while True:
        first = f'{k:016}'.encode()
        state = folded(int.from_bytes(first[:8], 'little') ^ (seed + length), int.from_bytes(first[8:], 'little') ^ multiplier)
        zero = state.to_bytes(8, 'little')
        if set(zero) <= allowed:
            break
        k += 1
    for i in range(n):
        yield (first + zero).decode() + f'{i:08}' + 't' * 16


def colliding(n):
    """One class with N methods whose names have one hash."""
    yield File('p/A', methods=[body(name=name) for name in colliding_names(n)])


def alike_ends(n):
    """One class with N methods whose names have one mark in key_table, their last 32 letters."""
    yield File('p/A', methods=[body(name=f'm{i:08}' + 't' * 32) for i in range(n)])


def colliding_classes(n):
    """N classes whose names have one hash; each calls the next one."""
    names = list(colliding_names(n))
    for name, other in zip(names, names[1:] + names[:1]):
        yield File(name, methods=[body(name='s'), instance('m', ('invokestatic', (other, 's', '()V')))])


# ---- costly shapes: those that are known to take more than their size

def chain_methods(n):
    """A chain of N classes in two packages in turn, each with twenty methods of package access of the same names."""
    names = [f'{"pq"[i % 2]}/C{i:05}' for i in range(n)] + [OBJECT]
    for i in range(n):
        yield File(names[i], names[i + 1], methods=[Method(f'm{k}', '()V', 0, ['return']) for k in range(20)])


def chain_opened(n):
    """The same, but the methods of every third class are public, which opens those of its package above it to all packages."""
    for i, file in enumerate(chain_methods(n)):
        if i % 3 == 0:
            file.methods = [Method(f'm{k}', '()V', PUBLIC, ['return']) for k in range(20)]
        yield file


def chain_private(n):
    """A chain of N classes, each with twenty methods of the same names, which are private in the lower half and public above."""
    names = [f'p/C{i:05}' for i in range(n)] + [OBJECT]
    for i in range(n):
        yield File(names[i], names[i + 1], methods=[Method(f'm{k}', '()V', PRIVATE if 2 * i < n else PUBLIC, ['return']) for k in range(20)])


def below_chain(n):
    """A chain of N classes whose lowest one implements an interface of N methods, which none of them has."""
    yield interface('p/I', methods=[abstract(f'm{k}') for k in range(n)])
    for i in range(n):
        yield File(f'p/C{i:05}', f'p/C{i + 1:05}' if i + 1 < n else OBJECT, [] if i else ['p/I'])


def chain_final(n):
    """A chain of N classes, each with a final method of its own name."""
    for i in range(n):
        yield File(f'p/C{i:05}', f'p/C{i + 1:05}' if i + 1 < n else OBJECT, methods=[Method(f'm{i}', '()V', PUBLIC | FINAL, ['return'])])


def interface_dense(n):
    """N interfaces, each of which extends all those behind it."""
    names = [f'p/I{i:05}' for i in range(n)]
    for i in range(n):
        yield interface(names[i], *names[i + 1:])


def interface_dense_up(n):
    """N interfaces, each of which extends all those before it."""
    names = [f'p/I{i:05}' for i in range(n)]
    for i in range(n):
        yield interface(names[i], *names[:i])


def nops(n):
    """One class file of N methods with 65,000 nop each."""
    code = code_attribute(0, 0, b'\0' * 65000 + b'\xb1')
    yield File('p/A', methods=[raw(lambda pool: code, name=f'm{k}') for k in range(n)])


def rule_members(n):
    """One class of 1,240 methods, and a rule with N members that match none of them."""
    yield File('p/A', methods=[body(name=f'm{k}') for k in range(1240)])


rule_members.rules = lambda n: '-keep class p.A { ' + ' '.join(f'void x{k}();' for k in range(n)) + ' }\n'


def rule_overloads(n):
    """One interface of 1,240 methods of one name, and a rule with N members of that name that match none of them."""
    yield interface('p/A', methods=[abstract('m', descriptor(k)) for k in range(1240)])


rule_overloads.rules = lambda n: '-keep class p.A { ' + ' '.join(f'void m(x.C{k});' for k in range(n)) + ' }\n'


def rule_stars(n):
    """One class of 1,240 methods, and a rule with N members whose names have a star, and that match none of them."""
    yield File('p/A', methods=[body(name=f'm{k}') for k in range(1240)])


rule_stars.rules = lambda n: '-keep class p.A { ' + ' '.join(f'void x{k}*();' for k in range(n)) + ' }\n'


def rule_parameters(n):
    """One class, and a rule with one method of N parameters."""
    yield File('p/A', methods=[body()])


rule_parameters.rules = lambda n: '-keep class p.A { void run(); void f(' + ','.join(['int'] * n) + '); }\n'


def high_references(n):
    """A chain of N classes whose topmost has N static methods, and N calls of them by the name of the lowest."""
    for i in range(n):
        yield File(f'p/C{i:05}', f'p/C{i + 1:05}' if i + 1 < n else OBJECT,
                   methods=[body(name=f's{k}') for k in range(n)] if i + 1 == n else [])
    yield File('p/A', methods=[body(*[('invokestatic', ('p/C00000', f's{k}', '()V')) for k in range(n)])])


def line_rows(n):
    """N nop with N rows of lines, the last instruction's first."""
    def make(pool):
        rows = b''.join(struct.pack('>HH', n - 1 - k, 1 + k % 60000) for k in range(n))
        table = attribute(pool, 'LineNumberTable', struct.pack('>H', n) + rows)
        return code_attribute(0, 0, b'\0' * n + b'\xb1', attributes=[table])
    yield File('p/A', methods=[raw(make)])


line_rows.rules = lambda n: '-keep class ** { *; }\n-keepattributes LineNumberTable\n'


def wide_frames(n):
    """N nop with a frame each, which takes a byte, in a code of 65,535 locals."""
    def make(pool):
        table = attribute(pool, 'StackMapTable', struct.pack('>H', n) + b'\0' * n)
        return code_attribute(0, 65535, b'\0' * n + b'\xb1', attributes=[table])
    yield File('p/A', methods=[raw(make)])


def wide_methods(n):
    """N methods of one instruction with 65,535 locals."""
    code = code_attribute(0, 65535, b'\xb1')
    yield File('p/A', methods=[raw(lambda pool: code, name=f'm{k}') for k in range(n)])


def wildcard_rules(n):
    """N classes, and N rules that name none of them by wildcards."""
    for i in range(n):
        yield File(f'p/C{i:05}', methods=[body()])


wildcard_rules.rules = lambda n: '-keep class ** { *; }\n' + ''.join(f'-keep class q.*{k} {{ *; }}\n' for k in range(n))


def two_chains(n):
    """Two chains of N interfaces, and N classes that implement the lowest of both."""
    for side in 'IJ':
        for i in range(n):
            yield interface(f'p/{side}{i:05}', *([f'p/{side}{i + 1:05}'] if i + 1 < n else []))
    for i in range(n):
        yield File(f'p/C{i:05}', interfaces=['p/I00000', 'p/J00000'])


def same_interface(n):
    """N classes that implement an interface of N methods, which their superclass has."""
    yield interface('p/I', methods=[abstract(f'm{k}') for k in range(n)])
    yield File('p/B', methods=[instance(f'm{k}') for k in range(n)])
    for i in range(n):
        yield File(f'p/C{i:05}', 'p/B', ['p/I'])


def long_pattern(n):
    """A method with a name of 2 N letters, and a rule with a pattern of N of them and another one behind a star."""
    yield File('p/A', methods=[body(name='a' * (2 * n))])


long_pattern.rules = lambda n: f'-keep class ** {{ *; }}\n-keep class p.A {{ void *{"a" * n}b(); }}\n'


def named_rules(n):
    """N classes, and a rule for each, which names it and what it extends."""
    for i in range(n):
        yield File(f'p/C{i:05}', methods=[body()])


named_rules.rules = lambda n: ''.join(f'-keep class p.C{k:05} extends java.lang.Object {{ void run(); }}\n' for k in range(n))


def attribute_filters(n):
    """N classes with their source files, and a filter of N patterns for attributes."""
    for i in range(n):
        file = File(f'p/C{i:05}', methods=[body(name=f'm{k}') for k in range(4)])
        yield file


attribute_filters.rules = lambda n: '-keep class ** { *; }\n-keepattributes ' + ','.join(f'*x{k}' for k in range(n)) + '\n'


USUAL = [classes, deep, deep_large, chain, overriding, implementing, interfaces, extending, calls]
HOSTILE = [strings, long_calls, handlers, throws, descriptors, long_arguments, frames, full_frames, branches, covering, changing, beginning, differing, ending, making, framing, wanting, deep_frames, tall, overriding_twenty, overloads, two_overloads, colliding, alike_ends, colliding_classes]
COSTLY = [chain_methods, chain_opened, chain_private, below_chain, chain_final, same_interface, high_references, interface_dense, interface_dense_up, two_chains, nops, wide_frames,
          wide_methods, line_rows, rule_members, rule_overloads, rule_stars, rule_parameters, long_pattern, wildcard_rules, named_rules, attribute_filters]
SIZES = {
    'chain_methods': [200, 400, 800], 'chain_opened': [20, 40, 80], 'chain_private': [20, 40, 80], 'below_chain': [1250, 2500, 5000], 'chain_final': [1250, 2500, 5000], 'same_interface': [250, 500, 1000],
    'high_references': [1000, 2000, 4000], 'interface_dense': [125, 250, 500], 'interface_dense_up': [125, 250, 500],
    'two_chains': [500, 1000, 2000], 'nops': [31, 62, 124], 'wide_frames': [250, 500, 1000], 'wide_methods': [250, 500, 1000],
    'line_rows': [10000, 20000, 40000], 'rule_members': [2000, 4000, 8000], 'rule_overloads': [2000, 4000, 8000], 'rule_stars': [2000, 4000, 8000], 'rule_parameters': [250000, 500000, 1000000],
    'long_pattern': [2000, 4000, 8000], 'wildcard_rules': [100, 200, 400], 'named_rules': [500, 1000, 2000],
    'attribute_filters': [500, 1000, 2000],
    'classes': [2000, 4000, 8000], 'calls': [4000, 8000, 16000], 'strings': [8000, 16000], 'long_calls': [5000, 10000, 20000],
    'handlers': [16000, 32000, 65000], 'throws': [16000, 32000, 65000], 'descriptors': [5000, 10000, 20000],
    'long_arguments': [5000, 10000, 20000], 'frames': [2500, 5000, 10000, 20000],
    'full_frames': [8000, 16000, 32000], 'branches': [2000, 4000, 8000], 'covering': [500, 1000, 2000, 4000], 'changing': [1000, 2000, 4000], 'beginning': [2000, 4000, 8000], 'differing': [500, 1000, 2000], 'ending': [1000, 2000, 4000], 'making': [1000, 2000, 4000], 'framing': [1000, 2000, 4000], 'wanting': [1000, 2000, 4000], 'deep_frames': [1000, 2000, 4000], 'tall': [500, 1000, 2000],
    'overriding_twenty': [1000, 2000, 4000], 'overloads': [15000, 30000, 60000], 'two_overloads': [5000, 10000, 20000],
    'colliding': [5000, 10000, 20000], 'alike_ends': [5000, 10000, 20000], 'colliding_classes': [5000, 10000, 20000],
}


def file_bytes(file):
    """The class file, its raw methods with the Code that they make."""
    import assembler
    plain = assembler.code_of
    made = iter([m for m in file.methods if m.code is not None])

    def code_of(pool, code, handlers, frames):
        method = next(made)
        return method.make(pool) if isinstance(method, Raw) else plain(pool, code, handlers, frames)
    assembler.code_of = code_of
    try:
        return file.bytes()
    finally:
        assembler.code_of = plain


def write(shape, n, top):
    for file in shape(n):
        path = os.path.join(top, file.name + '.class')
        os.makedirs(os.path.dirname(path), exist_ok=True)
        with open(path, 'wb') as out:
            out.write(file_bytes(file))


def folder():
    return tempfile.TemporaryDirectory(dir='/dev/shm' if os.path.isdir('/dev/shm') else None)


def prepare(shape, n, top):
    """The class files of a shape, and a config that keeps all of them, or has the rules of the shape."""
    write(shape, n, f'{top}/in')
    rules = shape.rules(n) if hasattr(shape, 'rules') else '-keep class ** { *; }\n'
    with open(f'{top}/s.pro', 'w') as out:
        out.write(f'-injars {top}/in\n-outjars {top}/out\n-printmapping {top}/map.txt\n{rules}')


def watched(words):
    """What a command says first, its processor seconds and its peak in MB."""
    before, ticks, peak = resource.getrusage(resource.RUSAGE_CHILDREN), os.sysconf('SC_CLK_TCK'), 0
    child = subprocess.Popen(words, stdout=subprocess.PIPE)
    while child.poll() is None:
        try:
            peak = max([peak] + [int(line.split()[1]) for line in open(f'/proc/{child.pid}/status') if line.startswith('VmHWM')])
            used = sum(map(int, open(f'/proc/{child.pid}/stat').read().rpartition(')')[2].split()[11:13])) / ticks
            if used > 60 or peak > 6_000_000:
                child.kill()
        except OSError:
            pass
        time.sleep(0.002)
    said = child.stdout.read().decode().split('\n')[0]
    after = resource.getrusage(resource.RUSAGE_CHILDREN)
    return said or 'stopped', after.ru_utime + after.ru_stime - before.ru_utime - before.ru_stime, peak / 1000


def measure(program, asked):
    print('| shape | N | processor s | times the one before | peak MB | first line |\n|---|---|---|---|---|---|')
    for shape, sizes in asked:
        before = None
        for n in sizes:
            with folder() as top:
                prepare(shape, n, top)
                said, seconds, peak = watched([program, 'shrink', f'{top}/s.pro', f'{top}/o.wit'])
            grown = f'{seconds / before:.1f}' if before else ''
            print(f'| {shape.__name__} | {n:,} | {seconds:.2f} | {grown} | {peak:.0f} | {said[:60]} |', flush=True)
            before = max(seconds, 0.001)
            if said == 'stopped':
                break


def check(program, asked):
    print('| Shape | N | MB of input | `shrink` s | times the one before | peak MB | `check` s | times the one before | peak MB | first lines |')
    print('|---|---|---|---|---|---|---|---|---|---|')
    for shape, sizes in asked:
        before = {}
        for n in sizes:
            cells, lines = [], []
            with folder() as top:
                prepare(shape, n, top)
                size = sum(os.path.getsize(os.path.join(at, name)) for at, _, names in os.walk(f'{top}/in') for name in names)
                size += os.path.getsize(f'{top}/s.pro')
                for word in ('shrink', 'check'):
                    said, seconds, peak = watched([program, word, f'{top}/s.pro', f'{top}/o.wit'])
                    cells += [f'{seconds:.2f}', f'{seconds / before[word]:.1f}' if word in before else '', f'{peak:.0f}']
                    before[word] = max(seconds, 0.001)
                    lines.append(said[:40])
                    if said.startswith('error') or said == 'stopped':
                        cells += ['', '', ''] * (word == 'shrink')
                        break
            print(f'| `{shape.__name__}` | {n:,} | {size / 1e6:.2f} | {" | ".join(cells)} | {", ".join(lines)} |', flush=True)


def count(program, asked):
    print('| shape | N | M instructions | times the one before | first line |\n|---|---|---|---|---|')
    for shape, sizes in asked:
        before = None
        for n in sizes:
            with folder() as top:
                prepare(shape, n, top)
                ran = subprocess.run(['valgrind', '--tool=callgrind', f'--callgrind-out-file={top}/cg', program, 'shrink',
                                      f'{top}/s.pro', f'{top}/o.wit'], capture_output=True, text=True)
            counted = int(ran.stderr.partition('Collected :')[2].split()[0])
            grown = f'{counted / before:.2f}' if before else ''
            print(f'| {shape.__name__} | {n:,} | {counted / 1e6:,.0f} | {grown} | {ran.stdout.split(chr(10))[0][:60]} |', flush=True)
            before = counted


def main(words):
    shapes = {shape.__name__: shape for shape in USUAL + HOSTILE + COSTLY}
    if len(words) == 4 and words[0] == 'write' and words[1] in shapes:
        write(shapes[words[1]], int(words[2]), words[3])
    elif len(words) >= 2 and words[0] in ('time', 'check', 'count'):
        every = [shape.__name__ for shape in COSTLY] if words[0] == 'check' else shapes
        asked = [word.partition('=') for word in words[2:]] or [(name, '', '') for name in every]
        told = {'time': measure, 'check': check, 'count': count}[words[0]]
        told(words[1], [(shapes[name], [int(n) for n in sizes.split(',')] if sizes else SIZES.get(name, [1000, 2000, 4000, 8000]))
                           for name, _, sizes in asked])
    else:
        sys.exit(__doc__)


if __name__ == '__main__':
    main(sys.argv[1:])
