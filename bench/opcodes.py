#!/usr/bin/env python3
"""Class files with each opcode, in hex, as crates/class_vectors takes them; and a check of what is answered.

    python3 bench/opcodes.py write > LINES
    python3 bench/opcodes.py check LINES ANSWERS

The tables below were written from JVMS 6.5 and know nothing of the program. Each opcode that is left out or that is
none stands alone in a class file; all others stand together, in each of their spellings. `check` compares each answer
with what the tables say: the kind of what is left out, the fault's offset, or the canonical bytes of each code, whose
indices are compared by what they lead to.
"""
import struct
import sys

# ---- the opcodes (JVMS 6.5)

PLAIN = ([*range(0x00, 0x0B)] + [*range(0x1A, 0x22)] + [*range(0x2A, 0x30)] + [*range(0x32, 0x36)] +
         [*range(0x3B, 0x43)] + [*range(0x4B, 0x51)] + [*range(0x53, 0x62)] + [0x64, 0x65, 0x68, 0x69, 0x6C, 0x6D] +
         [0x70, 0x71, 0x74, 0x75] + [*range(0x78, 0x84)] + [0x85, 0x88, 0x91, 0x92, 0x93, 0x94] +
         [0xAC, 0xAD, 0xB0, 0xB1, 0xBE, 0xBF])
# float, double and monitors, with how many bytes stand behind the opcode
LEFT_OUT = {**{opcode: 0 for opcode in
               [*range(0x0B, 0x10)] + [*range(0x22, 0x2A)] + [0x30, 0x31] + [*range(0x43, 0x4B)] +
               [0x51, 0x52, 0x62, 0x63, 0x66, 0x67, 0x6A, 0x6B, 0x6E, 0x6F, 0x72, 0x73, 0x76, 0x77] +
               [0x86, 0x87, 0x89, 0x8A, 0x8B, 0x8C, 0x8D, 0x8E, 0x8F, 0x90, 0x95, 0x96, 0x97, 0x98] +
               [0xAE, 0xAF, 0xC2, 0xC3]},
            0x17: 1, 0x18: 1, 0x38: 1, 0x39: 1}
# jsr, ret, jsr_w, and what isn't defined or is reserved (JVMS 4.9.1, 6.2)
NONE = [0xA8, 0xA9, 0xC9] + [*range(0xCA, 0x100)]

# ---- a constant pool


class Pool:
    def __init__(self):
        self.entries, self.found, self.next = [], {}, 1

    def add(self, key, entry, slots=1):
        if key not in self.found:
            self.entries.append(entry)
            self.found[key] = self.next
            self.next += slots
        return self.found[key]

    def text(self, text):
        data = text.encode()
        return self.add(('Utf8', text), b'\x01' + struct.pack('>H', len(data)) + data)

    def int(self, number):
        return self.add(('Int', number), b'\x03' + struct.pack('>i', number))

    def long(self, number):
        return self.add(('Long', number), b'\x05' + struct.pack('>q', number), 2)

    def class_(self, name):
        return self.add(('Class', name), b'\x07' + struct.pack('>H', self.text(name)))

    def string(self, text):
        return self.add(('String', text), b'\x08' + struct.pack('>H', self.text(text)))

    def member(self, tag, class_, name, descriptor):
        named = self.add(('NameAndType', name, descriptor),
                         b'\x0c' + struct.pack('>HH', self.text(name), self.text(descriptor)))
        return self.add((tag, class_, name, descriptor),
                        bytes([tag]) + struct.pack('>HH', self.class_(class_), named))


def pool_told(data):
    """What each index leads to, and the offset behind the pool."""
    count, = struct.unpack_from('>H', data, 8)
    at, index, raw = 10, 1, {}
    while index < count:
        tag = data[at]
        if tag == 1:
            length, = struct.unpack_from('>H', data, at + 1)
            raw[index] = ('Utf8', data[at + 3:at + 3 + length].decode())
            at += 3 + length
        elif tag == 3:
            raw[index] = ('Int', struct.unpack_from('>i', data, at + 1)[0])
            at += 5
        elif tag == 5:
            raw[index] = ('Long', struct.unpack_from('>q', data, at + 1)[0])
            at, index = at + 9, index + 1
        elif tag in (7, 8):
            raw[index] = (tag, struct.unpack_from('>H', data, at + 1)[0])
            at += 3
        else:
            raw[index] = (tag, *struct.unpack_from('>HH', data, at + 1))
            at += 5
        index += 1

    def told(index):
        entry = raw[index]
        if entry[0] == 7:
            return ('Class', raw[entry[1]][1])
        if entry[0] == 8:
            return ('String', raw[entry[1]][1])
        if entry[0] == 12:
            return (raw[entry[1]][1], raw[entry[2]][1])
        if entry[0] in (9, 10, 11):
            return (entry[0], told(entry[1])[1], *told(entry[2]))
        return entry

    return told, at


# ---- class files


def class_file(codes):
    """A class C with one static method m0, m1 .. for each code, which is made of the pool."""
    pool = Pool()
    this, above = pool.class_('C'), pool.class_('java/lang/Object')
    code_name, descriptor = pool.text('Code'), pool.text('()V')
    methods = []
    for number, code in enumerate(codes):
        code = code(pool)
        body = struct.pack('>HHI', 9, 65535, len(code)) + code + struct.pack('>HH', 0, 0)
        methods.append(struct.pack('>HHHH', 9, pool.text(f'm{number}'), descriptor, 1) +
                       struct.pack('>HI', code_name, len(body)) + body)
    head = b'\xca\xfe\xba\xbe' + struct.pack('>HHH', 0, 52, pool.next) + b''.join(pool.entries)
    rest = struct.pack('>HHHHHH', 0x21, this, above, 0, 0, len(methods))
    return head + rest + b''.join(methods) + struct.pack('>H', 0)


def codes_in(data):
    """The bytes of each code and the offset at which it begins, and what the indices lead to."""
    told, at = pool_told(data)
    at += 10
    count, = struct.unpack_from('>H', data, at)
    at, codes = at + 2, []
    for _ in range(count):
        length, = struct.unpack_from('>I', data, at + 18)
        codes.append((data[at + 22:at + 22 + length], at + 22))
        at += 8 + 6 + 12 + length
    return codes, told


# ---- instructions: how each is spelled, and how it is written

INDEX = object()        # what follows is the index of a constant


def spelled(parts, pool):
    """The bytes of parts: numbers are bytes, a pair of a width and a constant is an index."""
    made = b''
    for part in parts:
        made += bytes([part]) if isinstance(part, int) else part[1](pool).to_bytes(part[0], 'big')
    return made


def told_parts(parts):
    return [part if isinstance(part, int) else part[2] for part in parts]


def two(number):
    return list(struct.pack('>h', number))


def four(number):
    return list(struct.pack('>i', number))


def constant(width, kind, *key):
    made = {'Int': lambda p: p.int(*key), 'Long': lambda p: p.long(*key), 'String': lambda p: p.string(*key),
            'Class': lambda p: p.class_(*key)}.get(kind, lambda p: p.member(kind, *key))
    return (width, made, (kind, *key))


def pushes():
    """Numbers: (as it is read, as it is written)."""
    for number in range(-1, 6):
        yield [0x10, number & 255], [3 + number]
        yield [0x11, *two(number)], [3 + number]
        yield [0x12, constant(1, 'Int', number)], [3 + number]
    for number in (-128, -2, 6, 127):
        yield [0x10, number & 255], None
        yield [0x11, *two(number)], [0x10, number & 255]
        yield [0x13, constant(2, 'Int', number)], [0x10, number & 255]
    for number in (-32768, -129, 128, 32767):
        yield [0x11, *two(number)], None
        yield [0x12, constant(1, 'Int', number)], [0x11, *two(number)]
    for number in (-32769, 32768, -2 ** 31, 2 ** 31 - 1):
        yield [0x12, constant(1, 'Int', number)], None
        yield [0x13, constant(2, 'Int', number)], [0x12, constant(1, 'Int', number)]
    for number in (0, 1):
        yield [0x14, constant(2, 'Long', number)], [9 + number]
    for number in (-1, 2, -2 ** 63, 2 ** 63 - 1):
        yield [0x14, constant(2, 'Long', number)], None
    yield [0x12, constant(1, 'String', 's')], None
    yield [0x13, constant(2, 'String', 's')], [0x12, constant(1, 'String', 's')]


def locals_():
    """Loads and stores of ints, longs and references, and iinc."""
    for opcode, short in ((0x15, 0x1A), (0x16, 0x1E), (0x19, 0x2A), (0x36, 0x3B), (0x37, 0x3F), (0x3A, 0x4B)):
        for slot in range(4):
            yield [opcode, slot], [short + slot]
            yield [0xC4, opcode, 0, slot], [short + slot]
        for slot in (4, 255):
            yield [opcode, slot], None
            yield [0xC4, opcode, 0, slot], [opcode, slot]
        for slot in (256, 65534):
            yield [0xC4, opcode, slot >> 8, slot & 255], None
    for slot, by in ((0, 0), (255, 127), (1, -128)):
        yield [0x84, slot, by & 255], None
        yield [0xC4, 0x84, 0, slot, *two(by)], [0x84, slot, by & 255]
    for slot, by in ((256, 1), (0, 128), (0, -129), (65535, 32767), (65535, -32768)):
        yield [0xC4, 0x84, slot >> 8, slot & 255, *two(by)], None


def named():
    """What names a member or a type."""
    for opcode in (0xB2, 0xB3, 0xB4, 0xB5):
        yield [opcode, constant(2, 9, 'D', 'f', '[J')], None
    for opcode in (0xB6, 0xB7, 0xB8):
        yield [opcode, constant(2, 10, '[LD;', 'clone', '(J[JD)V')], None
    for opcode in (0xB7, 0xB8):
        yield [opcode, constant(2, 11, 'I', 'm', '()V')], None
    yield [0xB9, constant(2, 11, 'I', 'm', '(J[JD)V'), 6, 0], None
    yield [0xBB, constant(2, 'Class', 'D')], None
    for kind in (4, 5, 8, 9, 10, 11):
        yield [0xBC, kind], None
    for name in ('D', '[[I'):
        for opcode in (0xBD, 0xC0, 0xC1):
            yield [opcode, constant(2, 'Class', name)], None
    for dimensions in (1, 2):
        yield [0xC5, constant(2, 'Class', '[[I'), dimensions], None


def branches():
    """Each leads three bytes on, or back to itself."""
    for opcode in [*range(0x99, 0xA8), 0xC6, 0xC7]:
        yield [opcode, 0, 3], None
        yield [opcode, 0, 0], None


def switches(pads):
    """Switches at each alignment, both of one case; each leads to itself."""
    parts = []
    for pad in (3, 2, 1, 0):
        for body in ([0xAA], [0xAB]):
            parts.append((pad, body))
    made = []
    for pad, [opcode] in parts:
        while (len(made) + 1 + pad) % 4:
            made.append(0x00)
        keys = [*four(-1), *four(-1), *four(0)] if opcode == 0xAA else [*four(1), *four(-7), *four(0)]
        made += [opcode] + [0] * pad + four(0) + keys
    return made + [0xB1]


def joined(pairs):
    read, written = [], []
    for one, other in pairs:
        read += one
        written += one if other is None else other
    return read + [0xB1], written + [0xB1]


def groups():
    """The codes that are read, and as what each is written."""
    yield [*PLAIN, 0xB1], [*PLAIN, 0xB1]
    for pairs in (pushes(), locals_(), named(), branches()):
        yield joined(pairs)
    yield [0xC8, *four(5), 0xB1], [0xA7, 0, 3, 0xB1]
    yield switches(True), switches(True)


def accepted():
    return class_file([lambda pool, parts=read: spelled(parts, pool) for read, _ in groups()])


def alone(code):
    return class_file([lambda pool: bytes(code)])


def refused():
    """A class file with one instruction that is left out, or none, and what is answered."""
    for opcode, operands in sorted(LEFT_OUT.items()):
        yield alone([0x00, opcode] + [0] * operands + [0xB1]), 'left-out 0 Opcode'
    for opcode in (0x17, 0x18, 0x38, 0x39):
        yield alone([0x00, 0xC4, opcode, 1, 0, 0xB1]), 'left-out 0 Opcode'
    for kind in (6, 7):
        yield alone([0x00, 0xBC, kind, 0xB1]), 'left-out 0 Opcode'
    yield alone([0x00, 0xBA, 0, 1, 0, 0, 0xB1]), 'left-out 0 Constant'
    for opcode in NONE:
        data = alone([0x00, opcode, 0, 0, 0, 0, 0xB1])
        yield data, f'fault {codes_in(data)[0][0][1] + 1} BadOpcode'


# ---- what is answered


def differs(code, told, wanted):
    """Whether a code isn't these parts."""
    at = 0
    for part in wanted:
        if isinstance(part, int):
            if code[at:at + 1] != bytes([part]):
                return f'at {at} stands {code[at:at + 1].hex()}, not {part:02x}'
            at += 1
        else:
            found = told(int.from_bytes(code[at:at + part[0]], 'big'))
            if found != part[2]:
                return f'at {at} stands {found}, not {part[2]}'
            at += part[0]
    return None if at == len(code) else f'{len(code) - at} bytes more'


def main():
    lines = [(accepted(), None), *refused()]
    if sys.argv[1] == 'write':
        for data, _ in lines:
            print(data.hex())
        return 0
    asked, answers = (open(name).read().splitlines() for name in sys.argv[2:4])
    for (data, wanted), line, answer in zip(lines, asked, answers, strict=True):
        assert line == data.hex(), 'these are other lines'
        if wanted is not None:
            assert answer == wanted, f'{answer}, not {wanted}: {line}'
            continue
        kind, written = answer.split()
        assert kind == 'ok', answer
        codes, told = codes_in(bytes.fromhex(written))
        for (code, _), (_, parts) in zip(codes, groups(), strict=True):
            wrong = differs(code, told, parts)
            assert wrong is None, wrong
    print(f'{len(lines)} answers are as JVMS 6.5 has it')
    return 0


if __name__ == '__main__':
    sys.exit(main())
