"""Class files as Python values (JVMS 4 and 6.5), read and written without the project's crates, for forge.py and judge.py.

A value has texts in the place of indices, numbers of instructions in the place of offsets, and one form for all spellings of
an instruction. What is read of a file is what the project reads; other attributes are kept as they are, by `others`.
"""
import re
import struct
from dataclasses import dataclass, field

MAIN = ('main', '([Ljava/lang/String;)V')


class Bad(Exception):
    """The bytes are no class file."""


@dataclass
class Code:
    max_stack: int
    max_locals: int
    ins: list
    handlers: list  # [from, to, entry, caught or None], numbers of instructions
    frames: list  # [number, form, types ..]
    lines: list  # [number, line]
    others: list = field(default_factory=list)


@dataclass
class Member:
    flags: int
    name: str
    descriptor: str
    constant: object = None
    code: Code = None
    throws: list = field(default_factory=list)
    marks: list = field(default_factory=list)  # Synthetic, Deprecated
    others: list = field(default_factory=list)

    def key(self):
        return self.name, self.descriptor


@dataclass
class Class:
    flags: int
    name: str
    above: str
    interfaces: list
    fields: list
    methods: list
    source: bytes = None
    marks: list = field(default_factory=list)
    others: list = field(default_factory=list)


# ---- reading

class Reader:
    def __init__(self, data):
        self.data, self.at = data, 0

    def take(self, n):
        if self.at + n > len(self.data):
            raise Bad('cut')
        self.at += n
        return self.data[self.at - n:self.at]

    def u1(self):
        return self.take(1)[0]

    def u2(self):
        return int.from_bytes(self.take(2), 'big')

    def u4(self):
        return int.from_bytes(self.take(4), 'big')

    def many(self, read):
        return [read() for _ in range(self.u2())]


SIZES = {3: 4, 4: 4, 5: 8, 6: 8, 7: 2, 8: 2, 9: 4, 10: 4, 11: 4, 12: 4, 15: 3, 16: 2, 18: 4}


def read_entries(r):
    """The entries of the pool by their indices, each a tag and its bytes; None where none begins."""
    count, entries = r.u2(), [None]
    while len(entries) < count:
        tag = r.u1()
        if tag != 1 and tag not in SIZES:
            raise Bad('tag')
        entries.append((tag, r.take(r.u2() if tag == 1 else SIZES[tag])))
        if tag in (5, 6):
            entries.append(None)
    return entries


class Pool:
    def __init__(self, entries):
        self.entries = entries

    def entry(self, index, *tags):
        if not 0 < index < len(self.entries) or not self.entries[index] or self.entries[index][0] not in tags:
            raise Bad('index')
        return self.entries[index]

    def utf8(self, index):
        return self.entry(index, 1)[1]

    def text(self, index):
        return self.utf8(index).decode('utf-8', 'surrogateescape')

    def type(self, index):
        return self.text(struct.unpack('>H', self.entry(index, 7)[1])[0])

    def pair(self, index):
        name, descriptor = struct.unpack('>HH', self.entry(index, 12)[1])
        return self.text(name), self.text(descriptor)

    def member(self, index, *tags):
        tag, data = self.entry(index, *tags)
        holder, pair = struct.unpack('>HH', data)
        return tag, self.type(holder), *self.pair(pair)

    def constant(self, index):
        tag, data = self.entry(index, 3, 5, 8)
        if tag == 8:
            return ['text', self.utf8(struct.unpack('>H', data)[0])]
        return ['int' if tag == 3 else 'long', int.from_bytes(data, 'big', signed=True)]


IFS = {*range(153, 167), 198, 199}
PLAIN = {0, 1, *range(46, 54), *range(79, 132), *range(133, 153), *range(172, 178), 190, 191, 194, 195}


def operand(code, at, size, signed=True):
    if at + size > len(code):
        raise Bad('code')
    return int.from_bytes(code[at:at + size], 'big', signed=signed)


def switch(code, at):
    """The instruction, its targets as offsets, and its length."""
    base = at + 1 + (-at - 1) % 4
    default, low = at + operand(code, base, 4), operand(code, base + 4, 4)
    if code[at] == 170:
        count = operand(code, base + 8, 4) - low + 1
        if not 0 <= count < 65536:
            raise Bad('switch')
        targets = [at + operand(code, base + 12 + 4 * k, 4) for k in range(count)]
        return ['table', default, low, targets], base + 12 + 4 * count - at
    if not 0 <= low < 65536:
        raise Bad('switch')
    rows = [(operand(code, base + 8 + 8 * k, 4), at + operand(code, base + 12 + 8 * k, 4)) for k in range(low)]
    return ['lookup', default, [row[0] for row in rows], [row[1] for row in rows]], base + 8 + 8 * low - at


def wide(code, at):
    op, slot = operand(code, at + 1, 1, False), operand(code, at + 2, 2, False)
    if op == 132:
        return ['iinc', slot, operand(code, at + 4, 2)], 6
    if not (21 <= op <= 25 or 54 <= op <= 58):
        raise Bad('wide')
    return ['load' if op < 54 else 'store', (op - 21) % 33, slot], 4


def instruction(code, at, pool):
    op = code[at]
    index = operand(code, at + 1, 2, False) if at + 2 < len(code) else 0
    if 2 <= op <= 8:
        return ['int', op - 3], 1
    if op in (9, 10):
        return ['long', op - 9], 1
    if op in (16, 17):
        return ['int', operand(code, at + 1, op - 15)], op - 14
    if op in (18, 19, 20):
        return pool.constant(operand(code, at + 1, 1, False) if op == 18 else index), 2 if op == 18 else 3
    if 21 <= op <= 25 or 54 <= op <= 58:
        return ['load' if op < 54 else 'store', (op - 21) % 33, operand(code, at + 1, 1, False)], 2
    if 26 <= op <= 45 or 59 <= op <= 78:
        kind = op - (26 if op < 59 else 59)
        return ['load' if op < 59 else 'store', kind // 4, kind % 4], 1
    if op == 132:
        return ['iinc', operand(code, at + 1, 1, False), operand(code, at + 2, 1)], 3
    if op in IFS:
        return ['if', op, at + operand(code, at + 1, 2)], 3
    if op in (167, 200):
        return ['goto', at + operand(code, at + 1, 2 if op == 167 else 4)], 3 if op == 167 else 5
    if op in (170, 171):
        return switch(code, at)
    if 178 <= op <= 181:
        return ['field', op, *pool.member(index, 9)[1:]], 3
    if 182 <= op <= 185:
        tag, *named = pool.member(index, 10, 11)
        return ['method', op, *named, tag == 11], 5 if op == 185 else 3
    if op in (187, 189, 192, 193):
        return ['class', op, pool.type(index)], 3
    if op == 188:
        return ['newarray', operand(code, at + 1, 1)], 2
    if op == 196:
        return wide(code, at)
    if op == 197:
        return ['multi', pool.type(index), operand(code, at + 3, 1, False)], 4
    if op in PLAIN:
        return ['op', op], 1
    raise Bad(f'opcode {op}')


def targets(ins):
    """The targets of an instruction, the default of a switch first."""
    return {'if': lambda: [ins[2]], 'goto': lambda: [ins[1]], 'table': lambda: [ins[1], *ins[3]],
            'lookup': lambda: [ins[1], *ins[3]]}.get(ins[0], list)()


def aimed(ins, to):
    """The instruction with other targets."""
    if ins[0] == 'if':
        return ['if', ins[1], to(ins[2])]
    if ins[0] == 'goto':
        return ['goto', to(ins[1])]
    if ins[0] in ('table', 'lookup'):
        return [ins[0], to(ins[1]), ins[2], [to(it) for it in ins[3]]]
    return list(ins)


def decode(code, pool):
    """The instructions and the number of each offset at which one begins, and of the end."""
    found, at, numbers = [], 0, {}
    while at < len(code):
        numbers[at] = len(found)
        ins, size = instruction(code, at, pool)
        found.append(ins)
        at += size
    if at != len(code):
        raise Bad('code')
    numbers[at] = len(found)

    def to(offset):
        if offset not in numbers or offset == len(code):
            raise Bad('target')
        return numbers[offset]
    return [aimed(ins, to) for ins in found], numbers


TYPES = ['top', 'int', 'float', 'double', 'long', 'null', 'this']


def read_type(r, pool, numbers):
    tag = r.u1()
    if tag < 7:
        return [TYPES[tag]]
    if tag == 7:
        return ['object', pool.type(r.u2())]
    return ['made', numbers.get(r.u2(), -1)]


def read_frames(r, pool, numbers):
    found, offset = [], -1
    for _ in range(r.u2()):
        tag = r.u1()
        def types(count):
            return [read_type(r, pool, numbers) for _ in range(count)]
        delta = tag % 64 if tag < 128 else r.u2()
        if tag < 64 or tag == 251:
            row = ['same']
        elif tag < 128 or tag == 247:
            row = ['one', *types(1)]
        elif 248 <= tag < 251:
            row = ['chop', 251 - tag]
        elif 252 <= tag < 255:
            row = ['append', *types(tag - 251)]
        elif tag == 255:
            row = ['full', types(r.u2()), types(r.u2())]
        else:
            raise Bad('frame')
        offset += delta + 1
        found.append([numbers.get(offset, -1), *row])
    return found


def read_code(data, pool):
    r = Reader(data)
    stack, local = r.u2(), r.u2()
    ins, numbers = decode(r.take(r.u4()), pool)
    def row():
        a, b, c, caught = r.u2(), r.u2(), r.u2(), r.u2()
        if not {a, b, c} <= set(numbers):
            raise Bad('handler')
        return [numbers[a], numbers[b], numbers[c], pool.type(caught) if caught else None]
    code = Code(stack, local, ins, r.many(row), [], [])
    lines = []
    for name, body in r.many(lambda: read_attribute(r, pool)):
        inner = Reader(body)
        if name == 'LineNumberTable':
            lines += inner.many(lambda: [inner.u2(), inner.u2()])
        elif name == 'StackMapTable':
            code.frames = read_frames(inner, pool, numbers)
        else:
            code.others.append((name, body))
    starts = sorted(numbers)
    for start, line in sorted(lines, key=lambda it: it[0]):
        code.lines.append([next((numbers[it] for it in starts if it >= start), len(ins)), line])
    return code


def read_attribute(r, pool):
    name = pool.text(r.u2())
    return name, r.take(r.u4())


def read_member(r, pool, is_method):
    member = Member(r.u2(), pool.text(r.u2()), pool.text(r.u2()))
    for name, body in r.many(lambda: read_attribute(r, pool)):
        inner = Reader(body)
        if name == 'Code' and is_method:
            member.code = read_code(body, pool)
        elif name == 'ConstantValue' and not is_method and member.flags & 8:
            member.constant = pool.constant(inner.u2())
        elif name == 'Exceptions' and is_method:
            member.throws = inner.many(lambda: pool.type(inner.u2()))
        elif name in ('Synthetic', 'Deprecated'):
            member.marks.append(name)
        else:
            member.others.append((name, body))
    return member


def read_class(data):
    r = Reader(data)
    if r.u4() != 0xCAFEBABE or r.u4() != 52:
        raise Bad('head')
    pool = Pool(read_entries(r))
    found = Class(r.u2(), pool.type(r.u2()), pool.type(r.u2()), r.many(lambda: pool.type(r.u2())), [], [])
    found.fields = r.many(lambda: read_member(r, pool, False))
    found.methods = r.many(lambda: read_member(r, pool, True))
    for name, body in r.many(lambda: read_attribute(r, pool)):
        if name == 'SourceFile':
            found.source = pool.utf8(Reader(body).u2())
        elif name in ('Synthetic', 'Deprecated'):
            found.marks.append(name)
        else:
            found.others.append((name, body))
    if r.at != len(data):
        raise Bad('trailing')
    return found


# ---- writing

class Builder:
    def __init__(self):
        self.entries, self.known, self.count = [], {}, 1

    def add(self, data):
        if data not in self.known:
            self.known[data] = self.count
            self.entries.append(data)
            self.count += 2 if data[0] in (5, 6) else 1
        return self.known[data]

    def utf8(self, data):
        data = data if isinstance(data, bytes) else data.encode('utf-8', 'surrogateescape')
        return self.add(b'\x01' + struct.pack('>H', len(data)) + data)

    def type(self, name):
        return self.add(b'\x07' + struct.pack('>H', self.utf8(name)))

    def member(self, tag, holder, name, descriptor):
        pair = self.add(b'\x0c' + struct.pack('>HH', self.utf8(name), self.utf8(descriptor)))
        return self.add(bytes([tag]) + struct.pack('>HH', self.type(holder), pair))

    def constant(self, kind, value):
        if kind == 'text':
            return self.add(b'\x08' + struct.pack('>H', self.utf8(value)))
        return self.add(b'\x03' + struct.pack('>i', value) if kind == 'int' else b'\x05' + struct.pack('>q', value))


def words_of(descriptor):
    """The words of the arguments, and one for `this` (invokeinterface's count)."""
    inside = descriptor[1:descriptor.index(')')]
    return 1 + sum(2 if it in 'JD' else 1 for it in re.findall(r'\[+(?:L[^;]*;|.)|L[^;]*;|.', inside))


def slotted(name, kind, slot, is_long):
    if not is_long and slot < 4:
        return bytes([(26 if name == 'load' else 59) + 4 * kind + slot])
    op = (21 if name == 'load' else 54) + kind
    return struct.pack('>BBH', 196, op, slot) if is_long or slot > 255 else bytes([op, slot])


def pushed(kind, value, pool, is_long):
    if kind == 'int' and not is_long and -1 <= value <= 5:
        return bytes([value + 3])
    if kind == 'int' and not is_long and -128 <= value < 128:
        return struct.pack('>Bb', 16, value)
    if kind == 'int' and -32768 <= value < 32768:
        return struct.pack('>Bh', 17, value)
    if kind == 'long' and value in (0, 1) and not is_long:
        return bytes([9 + value])
    index = pool.constant(kind, value)
    return struct.pack('>BH', 20 if kind == 'long' else 19, index) if is_long or kind == 'long' or index > 255 else bytes([18, index])


def spelled(ins, pool, is_long):
    """The bytes of an instruction without targets."""
    name, *args = ins
    if name in ('int', 'long', 'text'):
        return pushed(name, args[0], pool, is_long)
    if name in ('load', 'store'):
        return slotted(name, *args, is_long)
    if name == 'iinc':
        slot, value = args
        short = not is_long and slot < 256 and -128 <= value < 128
        return struct.pack('>BBb', 132, slot, value) if short else struct.pack('>BBHh', 196, 132, slot, value)
    if name == 'field':
        return struct.pack('>BH', args[0], pool.member(9, *args[1:]))
    if name == 'method':
        head = struct.pack('>BH', args[0], pool.member(11 if args[4] else 10, *args[1:4]))
        return head + (bytes([words_of(args[3]), 0]) if args[0] == 185 else b'')
    if name == 'class':
        return struct.pack('>BH', args[0], pool.type(args[1]))
    if name == 'multi':
        return struct.pack('>BHB', 197, pool.type(args[0]), args[1])
    return bytes([188, args[0]]) if name == 'newarray' else bytes([args[0]])


def size_at(ins, body, at, is_long):
    if ins[0] == 'table':
        return 1 + (-at - 1) % 4 + 12 + 4 * len(ins[3])
    if ins[0] == 'lookup':
        return 1 + (-at - 1) % 4 + 8 + 8 * len(ins[3])
    return 3 if ins[0] == 'if' else (5 if is_long else 3) if ins[0] == 'goto' else len(body)


def encode(code, pool, is_long=False):
    """The bytes of the instructions, and the offset of each and of the end."""
    bodies = [None if targets(ins) or ins[0] in ('table', 'lookup') else spelled(ins, pool, is_long) for ins in code.ins]
    starts, at = [], 0
    for ins, body in zip(code.ins, bodies):
        starts.append(at)
        at += size_at(ins, body, at, is_long)
    starts.append(at)
    out = b''
    for ins, body, start in zip(code.ins, bodies, starts):
        def to(number):
            return starts[number] - start
        pad = bytes((-start - 1) % 4)
        if ins[0] == 'if':
            body = struct.pack('>Bh', ins[1], to(ins[2]))
        elif ins[0] == 'goto':
            body = struct.pack('>Bi', 200, to(ins[1])) if is_long else struct.pack('>Bh', 167, to(ins[1]))
        elif ins[0] == 'table':
            body = b'\xaa' + pad + struct.pack('>iii', to(ins[1]), ins[2], ins[2] + len(ins[3]) - 1)
            body += b''.join(struct.pack('>i', to(it)) for it in ins[3])
        elif ins[0] == 'lookup':
            body = b'\xab' + pad + struct.pack('>ii', to(ins[1]), len(ins[3]))
            body += b''.join(struct.pack('>ii', value, to(it)) for value, it in zip(ins[2], ins[3]))
        out += body
    return out, starts


def attribute(pool, name, data):
    return struct.pack('>HI', pool.utf8(name), len(data)) + data


def counted(rows):
    rows = list(rows)
    return struct.pack('>H', len(rows)) + b''.join(rows)


def put_type(ty, pool, starts):
    if ty[0] == 'object':
        return b'\x07' + struct.pack('>H', pool.type(ty[1]))
    if ty[0] == 'made':
        return b'\x08' + struct.pack('>H', starts[ty[1]])
    return bytes([TYPES.index(ty[0])])


def put_frame(row, delta, pool, starts):
    def types(list_):
        return b''.join(put_type(it, pool, starts) for it in list_)
    form, *args = row[1:]
    if form == 'same':
        return bytes([delta]) if delta < 64 else struct.pack('>BH', 251, delta)
    if form == 'one':
        return (bytes([64 + delta]) if delta < 64 else struct.pack('>BH', 247, delta)) + types(args)
    if form == 'chop':
        return struct.pack('>BH', 251 - args[0], delta)
    if form == 'append':
        return struct.pack('>BH', 251 + len(args), delta) + types(args)
    return struct.pack('>BHH', 255, delta, len(args[0])) + types(args[0]) + struct.pack('>H', len(args[1])) + types(args[1])


def put_code(code, pool, is_long):
    data, starts = encode(code, pool, is_long)
    rows = [struct.pack('>HHHH', starts[a], starts[b], starts[c], pool.type(caught) if caught else 0)
            for a, b, c, caught in code.handlers]
    inner, at, frames = [], -1, []
    for row in code.frames:
        frames.append(put_frame(row, starts[row[0]] - at - 1, pool, starts))
        at = starts[row[0]]
    if code.lines:
        inner.append(attribute(pool, 'LineNumberTable', counted(struct.pack('>HH', starts[a], b) for a, b in code.lines)))
    if frames:
        inner.append(attribute(pool, 'StackMapTable', counted(frames)))
    inner += [attribute(pool, *it) for it in code.others]
    return struct.pack('>HHI', code.max_stack, code.max_locals, len(data)) + data + counted(rows) + counted(inner)


def put_member(member, pool, is_long):
    inner = []
    if member.constant:
        inner.append(attribute(pool, 'ConstantValue', struct.pack('>H', pool.constant(*member.constant))))
    if member.code:
        inner.append(attribute(pool, 'Code', put_code(member.code, pool, is_long)))
    if member.throws:
        inner.append(attribute(pool, 'Exceptions', counted(struct.pack('>H', pool.type(it)) for it in member.throws)))
    inner += [attribute(pool, it, b'') for it in member.marks] + [attribute(pool, *it) for it in member.others]
    return struct.pack('>HHH', member.flags, pool.utf8(member.name), pool.utf8(member.descriptor)) + counted(inner)


def write_class(found, is_long=False):
    """The class file; with is_long its instructions in their longest spellings."""
    pool = Builder()
    body = struct.pack('>HHH', found.flags, pool.type(found.name), pool.type(found.above))
    body += counted(struct.pack('>H', pool.type(it)) for it in found.interfaces)
    body += counted(put_member(it, pool, is_long) for it in found.fields)
    body += counted(put_member(it, pool, is_long) for it in found.methods)
    inner = [attribute(pool, 'SourceFile', struct.pack('>H', pool.utf8(found.source)))] if found.source is not None else []
    inner += [attribute(pool, it, b'') for it in found.marks] + [attribute(pool, *it) for it in found.others]
    body += counted(inner)
    return b'\xca\xfe\xba\xbe\0\0\0\x34' + struct.pack('>H', pool.count) + b''.join(pool.entries) + body
