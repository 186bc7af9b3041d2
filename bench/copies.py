#!/usr/bin/env python3
"""Copies the class files of a directory many times, each copy in packages of its own.

    python3 bench/copies.py FROM TO CLASSES

writes the class files below FROM to TO as they are, and then again and again below the packages c1, c2
and so on, with the names of FROM's classes changed in every text of the constant pool (JVMS 4.4), until
TO has at least CLASSES class files. TO must not be there yet.
"""
import os
import re
import struct
import sys

# The bytes behind the tag of each kind of entry but Utf8 (JVMS 4.4).
SIZES = {3: 4, 4: 4, 5: 8, 6: 8, 7: 2, 8: 2, 9: 4, 10: 4, 11: 4, 12: 4, 15: 3, 16: 2, 18: 4}


def renamed(class_file, rename):
    """The class file with each Utf8 entry changed by rename."""
    count = struct.unpack('>H', class_file[8:10])[0]
    parts = [class_file[:10]]
    at, index = 10, 1
    while index < count:
        tag = class_file[at]
        if tag == 1:
            length = struct.unpack('>H', class_file[at + 1:at + 3])[0]
            text = rename(class_file[at + 3:at + 3 + length])
            parts.append(b'\x01' + struct.pack('>H', len(text)) + text)
            at += 3 + length
        else:
            parts.append(class_file[at:at + 1 + SIZES[tag]])
            at += 1 + SIZES[tag]
        index += 2 if tag in (5, 6) else 1
    return b''.join(parts) + class_file[at:]


def class_files(directory):
    """The path of each class file below the directory, with its bytes."""
    for folder, _, names in sorted(os.walk(directory)):
        for name in sorted(names):
            if name.endswith('.class'):
                path = os.path.join(folder, name)
                with open(path, 'rb') as file:
                    yield os.path.relpath(path, directory), file.read()


def write(path, data):
    os.makedirs(os.path.dirname(path), exist_ok=True)
    with open(path, 'wb') as file:
        file.write(data)


def main(source, target, wanted):
    originals = list(class_files(source))
    names = sorted((path[:-len('.class')].encode() for path, _ in originals), key=len, reverse=True)
    whole = re.compile(rb'\A(?:' + b'|'.join(map(re.escape, names)) + rb')\Z')
    inside = re.compile(rb'L(' + b'|'.join(map(re.escape, names)) + rb');')
    os.makedirs(target)
    copies = -(-wanted // len(originals))
    for copy in range(copies):
        package = b'' if copy == 0 else b'c%d/' % copy

        def rename(text):
            if whole.match(text):
                return package + text
            return inside.sub(lambda found: b'L' + package + found.group(1) + b';', text)

        for path, data in originals:
            write(os.path.join(target, package.decode(), path), renamed(data, rename))
    print(f'{copies * len(originals)} class files')


if __name__ == '__main__':
    if len(sys.argv) != 4:
        sys.exit(__doc__)
    main(sys.argv[1], sys.argv[2], int(sys.argv[3]))
