#!/usr/bin/env python3
"""Writes the source of a program with many classes and static fields, whose loops bench/steps.py measures.

    mkdir -p DIR && python3 bench/many.py 600 >DIR/Steps.java
    javac -g:none --release 8 -d CLASSES DIR/Steps.java
    python3 bench/steps.py PROGRAM CLASSES casts statics classes

Each round of a loop goes over all of them: `casts` casts an object to each of the classes and reads a field of it,
`statics` adds to each static field of one class, and `classes` to a static field of each class.
"""
import sys


def main():
    if len(sys.argv) != 2:
        sys.exit(__doc__)
    count = int(sys.argv[1])
    lines = [f'class C{k} {{ static int total; int value; }}' for k in range(count)]
    lines.append('public class Steps {')
    lines.extend(f'    static int total{k};' for k in range(count))
    lines.append(f'    static Object[] objects() {{ Object[] objects = new Object[{count}];')
    lines.extend(f'        objects[{k}] = new C{k}();' for k in range(count))
    lines.append('        return objects; }')
    lines.append('    static int casts(int n) { Object[] objects = objects(); int x = 0; for (int i = 0; i < n; i++) {')
    lines.extend(f'        x += ((C{k}) objects[{k}]).value;' for k in range(count))
    lines.append('    } return x; }')
    lines.append('    static int statics(int n) { for (int i = 0; i < n; i++) {')
    lines.extend(f'        total{k} += i;' for k in range(count))
    lines.append('    } return total0; }')
    lines.append('    static int classes(int n) { for (int i = 0; i < n; i++) {')
    lines.extend(f'        C{k}.total += i;' for k in range(count))
    lines.append('    } return C0.total; }')
    lines.append('}')
    print('\n'.join(lines))


main()
