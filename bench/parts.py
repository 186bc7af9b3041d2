#!/usr/bin/env python3
"""Class files of one part each, in hex, as crates/class_vectors takes them, and what is answered.

    python3 bench/parts.py lines > LINES
    python3 bench/parts.py answers > ANSWERS

The bytes were spelled by hand after JVMS 4: an interface without members; a class with a code of two instructions; one
with a field, a handler, lines and a frame, each cut at every byte; and codes with rows of a StackMapTable (JVMS 4.7.4).
The answers were written by hand too and know nothing of the program.
"""
import struct
import sys

HEAD = bytes.fromhex("CAFEBABE00000034")


def u2(number):
    return struct.pack(">H", number)


def u4(number):
    return struct.pack(">I", number)


def utf8(text):
    return b"\1" + u2(len(text)) + text.encode()


def name(text, at):
    """A Utf8 entry, and the Class entry at the index behind it."""
    return utf8(text) + b"\7" + u2(at)


A = HEAD + u2(5) + name("A", 1) + name("java/lang/Object", 3) + bytes.fromhex("0600 0002 0004 0000 0000 0000 0000")

# The static method f has at the offset 90 the instructions nop and goto, which leads back to nop.
LOOP = (HEAD + u2(8) + name("A", 1) + name("java/lang/Object", 3) + utf8("f") + utf8("()V") + utf8("Code") +
        bytes.fromhex("0020 0002 0004 0000 0000 0001 0008 0005 0006 0001") + u2(7) + u4(16) + u2(0) + u2(0) + u4(4) +
        bytes.fromhex("00 A7FFFF 0000 0000 0000"))

# A field with a constant, and a method with a handler over the first instruction, one line, and a frame at the last
# but one.
T = (HEAD + u2(14) + name("T", 1) + name("java/lang/Object", 3) + utf8("f") + utf8("J") + utf8("ConstantValue") +
     b"\5" + struct.pack(">Q", 2 ** 32 + 2) + utf8("(I)I") + utf8("Code") + utf8("LineNumberTable") +
     utf8("StackMapTable") + bytes.fromhex("0021 0002 0004 0000") +
     bytes.fromhex("0001 0008 0005 0006 0001") + u2(7) + u4(2) + u2(8) +
     bytes.fromhex("0001 0009 0005 000A 0001") + u2(11) + u4(49) + u2(2) + u2(1) + u4(8) +
     bytes.fromhex("1A 990005 04 AC 03 AC") + u2(1) + bytes.fromhex("0000 0001 0006 0004") +
     u2(2) + u2(12) + u4(6) + bytes.fromhex("0001 0000 0007") + u2(13) + u4(3) + bytes.fromhex("0001 06") + u2(0))


def framed(rows, max_stack=3, max_locals=6):
    """A static method f(int) whose code is `new A`, 300 times nop and return, with these rows; and where they begin."""
    code = bytes.fromhex("BB0002") + bytes(300) + b"\xB1"
    front = (HEAD + u2(9) + name("A", 1) + name("java/lang/Object", 3) + utf8("f") + utf8("(I)V") + utf8("Code") +
             utf8("StackMapTable") + bytes.fromhex("0020 0002 0004 0000 0000 0001 0008 0005 0006 0001") + u2(7) +
             u4(2 + 2 + 4 + len(code) + 2 + 2 + 6 + len(rows)) + u2(max_stack) + u2(max_locals) + u4(len(code)) +
             code + u2(0) + u2(1))
    return front + u2(8) + u4(len(rows)) + rows + u2(0), len(front) + 6


def changed(file, at, byte):
    return file[:at] + bytes([byte]) + file[at + 1:]


def rows():
    """Each file with its answer."""
    same = lambda file: (file, "ok " + file.hex())
    fault = lambda file, at, kind: (file, f"fault {at} {kind}")
    yield same(A)
    for end in range(len(A)):
        yield fault(A[:end], end, "Cut")
    yield fault(A + b"\0", len(A), "Trailing")
    for at, byte, told, kind in [(0, 0xCB, 0, "BadMagic"), (10, 2, 10, "BadTag"), (16, 5, 14, "BadIndex"),
                                 (39, 2, 39, "BadFlags"), (42, 1, 41, "BadIndex")]:
        yield fault(changed(A, at, byte), told, kind)
    yield same(LOOP)
    for at, byte, told, kind in [(89, 0, 86, "BadCode"), (91, 0xCB, 91, "BadOpcode"), (91, 0x12, 91, "BadOperand"),
                                 (91, 0xC8, 91, "BadCode"), (93, 0xFE, 91, "BadTarget")]:
        yield fault(changed(LOOP, at, byte), told, kind)
    yield changed(LOOP, 90, 0x0B), "left-out 0 Opcode"
    yield same(T)
    for end in range(len(T)):
        yield fault(T[:end], end, "Cut")
    yield from frame_rows()


# Each form of a row: same, one item, the two with a delta of 16 bits, append, chop, full (JVMS 4.7.4).
WRITTEN = [
    bytes([0, 5, 63, 0, 127, 4, 247, 0, 64, 7, 0, 2, 251, 0, 64]),
    bytes([0, 6, 252, 0, 0, 4, 254, 0, 2, 5, 6, 8, 0, 0, 248, 0, 59, 250, 0, 0, 255, 0, 63, 0, 2, 0, 1, 0, 2, 4, 5, 5]),
    bytes([0, 5, 253, 0, 0, 4, 7, 0, 2, 250, 0, 2, 124, 8, 0, 0, 63, 255, 0, 64, 0, 0, 0, 1, 5]),
]
# The same frames spelled otherwise, with how they are written.
OTHERS = [
    (bytes([0, 2, 63, 251, 0, 63]), bytes([0, 2, 63, 63])),
    (bytes([0, 1, 247, 0, 5, 1]), bytes([0, 1, 69, 1])),
    (bytes([0, 1, 255, 0, 5, 0, 3, 1, 4, 0, 0, 0]), bytes([0, 1, 252, 0, 5, 4])),
]
# Rows at fault, with the place of the row among the bytes.
AT_FAULT = [
    ([0, 1, 128], 2), ([0, 1, 246], 2), ([0, 1, 64, 9], 2), ([0, 1, 64, 7, 0, 1], 2), ([0, 1, 64, 8, 0, 3], 2),
    ([0, 1, 64, 8, 0, 1], 2), ([0, 1, 249, 0, 0], 2), ([0, 1, 1], 2), ([0, 2, 0, 1], 3), ([0, 1, 251, 2, 2], 2),
    ([0, 1, 255, 0, 0, 0, 7, 1, 1, 1, 1, 1, 1, 1, 0, 0], 2), ([0, 1, 255, 0, 0, 0, 0, 0, 2, 4, 4], 2),
]
# Attributes that are longer or shorter than their rows.
UNEVEN = [[0], [0, 0, 9], [0, 1], [0, 2, 0, 252, 0, 2]]


def frame_rows():
    for form in WRITTEN:
        file, _ = framed(form)
        yield file, "ok " + file.hex()
    for form, written in OTHERS:
        yield framed(form)[0], "ok " + framed(written)[0].hex()
    for form, place in AT_FAULT:
        file, start = framed(bytes(form))
        yield file, f"fault {start + place} BadFrame"
    for form in UNEVEN:
        file, start = framed(bytes(form))
        yield file, f"fault {start - 6} BadAttribute"


if __name__ == "__main__":
    which = {"lines": lambda row: row[0].hex(), "answers": lambda row: row[1]}.get(sys.argv[1] if sys.argv[1:] else "")
    if which is None:
        sys.exit(__doc__)
    for row in rows():
        print(which(row))
