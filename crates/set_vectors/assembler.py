"""Makes class files from short descriptions (JVMS 4), for sets.py."""
import struct

PUBLIC, PRIVATE, PROTECTED, STATIC, FINAL, SUPER, VOLATILE = 1, 2, 4, 8, 0x10, 0x20, 0x40
NATIVE, INTERFACE, ABSTRACT, SYNTHETIC, ANNOTATION, ENUM = 0x100, 0x200, 0x400, 0x1000, 0x2000, 0x4000
OBJECT = 'java/lang/Object'


class Pool:
    def __init__(self):
        self.entries, self.known = [], {}

    def add(self, data):
        if data not in self.known:
            self.entries.append(data)
            self.known[data] = len(self.entries)
        return self.known[data]

    def utf8(self, text):
        data = text.encode()
        return self.add(b'\x01' + struct.pack('>H', len(data)) + data)

    def of_class(self, name):
        return self.add(b'\x07' + struct.pack('>H', self.utf8(name)))

    def named(self, name, descriptor):
        return self.add(b'\x0c' + struct.pack('>HH', self.utf8(name), self.utf8(descriptor)))

    def member(self, tag, reference):
        holder, name, descriptor = reference
        return self.add(bytes([tag]) + struct.pack('>HH', self.of_class(holder), self.named(name, descriptor)))

    def float(self):
        return self.add(b'\x04' + struct.pack('>f', 1.5))


# instructions: a name alone, or a pair of a name and what it names
PLAIN = {'aconst_null': b'\x01', 'iconst_0': b'\x03', 'lconst_0': b'\x09', 'aload_0': b'\x2a', 'aload_1': b'\x2b', 'pop': b'\x57',
         'dup': b'\x59', 'return': b'\xb1', 'areturn': b'\xb0', 'ireturn': b'\xac', 'athrow': b'\xbf', 'fconst_0': b'\x0b',
         'arraylength': b'\xbe'}
FIELDS = {'getstatic': 0xb2, 'putstatic': 0xb3, 'getfield': 0xb4, 'putfield': 0xb5}
METHODS = {'invokevirtual': 0xb6, 'invokespecial': 0xb7, 'invokestatic': 0xb8}
CLASSES = {'new': 0xbb, 'anewarray': 0xbd, 'checkcast': 0xc0, 'instanceof': 0xc1}


def words_of(descriptor):
    count, at = 1, 1
    while descriptor[at] != ')':
        wide = descriptor[at] in 'JD'
        while descriptor[at] == '[':
            wide = False
            at += 1
        if descriptor[at] == 'L':
            at = descriptor.index(';', at)
        count += 2 if wide else 1
        at += 1
    return count


def instruction(pool, what):
    if isinstance(what, str):
        return PLAIN[what]
    name, operand = what
    if name in FIELDS:
        return bytes([FIELDS[name]]) + struct.pack('>H', pool.member(9, operand))
    if name in METHODS:
        return bytes([METHODS[name]]) + struct.pack('>H', pool.member(10, operand))
    if name.endswith('_of_interface'):
        return bytes([METHODS[name[:-len('_of_interface')]]]) + struct.pack('>H', pool.member(11, operand))
    if name == 'invokeinterface':
        return b'\xb9' + struct.pack('>HBB', pool.member(11, operand), words_of(operand[2]), 0)
    if name == 'multianewarray':
        return b'\xc5' + struct.pack('>HB', pool.of_class(operand[0]), operand[1])
    if name == 'ldc_float':
        return b'\x12' + bytes([pool.float()])
    return bytes([CLASSES[name]]) + struct.pack('>H', pool.of_class(operand))


def attribute(pool, name, data):
    return struct.pack('>HI', pool.utf8(name), len(data)) + data


def code_of(pool, code, handlers, frames):
    data = b''.join(instruction(pool, what) for what in code)
    rows = b''.join(struct.pack('>HHHH', 0, len(data), 0, pool.of_class(caught) if caught else 0) for caught in handlers)
    inner = b''
    if frames:
        # full frames at the first instruction, each with these locals
        table = b''.join(b'\xff' + struct.pack('>HH', 0, len(types))
                         + b''.join(verification(pool, t) for t in types) + struct.pack('>H', 0) for types in frames)
        inner = attribute(pool, 'StackMapTable', struct.pack('>H', len(frames)) + table)
    return (struct.pack('>HHI', 4, 4, len(data)) + data + struct.pack('>H', len(handlers)) + rows
            + struct.pack('>H', 1 if inner else 0) + inner)


def verification(pool, name):
    if name == 'float':
        return b'\x02'
    return b'\x07' + struct.pack('>H', pool.of_class(name))


class Method:
    def __init__(self, name, descriptor, flags=PUBLIC, code=None, handlers=(), throws=(), frames=()):
        self.name, self.descriptor, self.flags = name, descriptor, flags
        self.code, self.handlers, self.throws, self.frames = code, handlers, throws, frames


class File:
    """A class file; interfaces have the flags 0x600 and their methods no code unless it is given."""

    def __init__(self, name, above=OBJECT, interfaces=(), flags=PUBLIC | SUPER, fields=(), methods=(), float_constant=False):
        self.name, self.above, self.interfaces, self.flags = name, above, interfaces, flags
        self.fields, self.methods, self.float_constant = fields, methods, float_constant

    def bytes(self):
        pool = Pool()
        if self.float_constant:
            pool.float()
        body = struct.pack('>HHHH', self.flags, pool.of_class(self.name), pool.of_class(self.above), len(self.interfaces))
        body += b''.join(struct.pack('>H', pool.of_class(i)) for i in self.interfaces)
        body += struct.pack('>H', len(self.fields))
        for flags, name, descriptor in self.fields:
            body += struct.pack('>HHHH', flags, pool.utf8(name), pool.utf8(descriptor), 0)
        body += struct.pack('>H', len(self.methods))
        for m in self.methods:
            parts = []
            if m.code is not None:
                parts.append(attribute(pool, 'Code', code_of(pool, m.code, m.handlers, m.frames)))
            if m.throws:
                parts.append(attribute(pool, 'Exceptions', struct.pack('>H', len(m.throws))
                                       + b''.join(struct.pack('>H', pool.of_class(t)) for t in m.throws)))
            body += struct.pack('>HHHH', m.flags, pool.utf8(m.name), pool.utf8(m.descriptor), len(parts)) + b''.join(parts)
        body += struct.pack('>H', 0)
        return (b'\xca\xfe\xba\xbe\x00\x00\x00\x34' + struct.pack('>H', len(pool.entries) + 1) + b''.join(pool.entries) + body)


def interface(name, *above, flags=PUBLIC, fields=(), methods=()):
    return File(name, OBJECT, above, flags | INTERFACE | ABSTRACT, fields, methods)


def init(*more, flags=PUBLIC, above=OBJECT):
    return Method('<init>', '()V', flags, ['aload_0', ('invokespecial', (above, '<init>', '()V')), *more, 'return'])


def body(*code, name='run', descriptor='()V', flags=PUBLIC | STATIC, **more):
    return Method(name, descriptor, flags, [*code, 'return'], **more)


def abstract(name, descriptor='()V', flags=PUBLIC):
    return Method(name, descriptor, flags | ABSTRACT)
