#!/usr/bin/env python3
"""Writes a line for the program of crates/rule_vectors to standard output: rules, and behind them the class files of a line
of bench/sets.py, which is read from standard input.

    python3 bench/rules.py none          no rule
    python3 bench/rules.py ten           ten rules as a program has them
    python3 bench/rules.py names N       N rules, each with the name of a class
    python3 bench/rules.py wildcards N   N rules with wildcards in the names of classes or members, or both
    python3 bench/rules.py stars N       N rules with three pairs of stars in the names of classes
    python3 bench/rules.py extends N     N rules for the classes below a class
"""
import sys

TEN = ['-keepclasseswithmembers class * { public static void main(java.lang.String[]); }',
       '-keepclasseswithmembernames class * { native <methods>; }',
       '-keepclassmembers class * { public static **[] values(); public static ** valueOf(java.lang.String); }',
       '-keep public class * extends java.lang.Exception',
       '-keep class calculator.** { public protected *; }',
       '-keep interface ** { *; }',
       '-keep class **.model.** { <fields>; }',
       '-keep class Main { void run*(...); }',
       '-keepnames class **.api.*',
       '-keep class report.*Writer, !**.internal.** { *; }']

WILDCARDS = ['-keep class **.K{0}* {{ *; }}',
             '-keep class c{0}.** {{ public *; }}',
             '-keep class **Node{0} {{ <init>(...); }}',
             '-keep class c?{0}.*.*e* {{ int *; }}',
             '-keepclasseswithmembers class * {{ public static void main{0}(java.lang.String[]); }}']


def rules(which, count, names):
    if which == 'none':
        yield '-dontshrink'
    elif which == 'ten':
        yield from TEN
    elif which == 'names':
        yield from (f'-keep class {names[i * 7 % len(names)]} {{ *; }}' for i in range(count))
    elif which == 'wildcards':
        yield from (WILDCARDS[i % 5].format(i) for i in range(count))
    elif which == 'stars':
        yield from (f'-keep class **a**e**{i} {{ *; }}' for i in range(count))
    elif which == 'extends':
        yield from (f'-keep class ** extends {names[i * 7 % len(names)]}' for i in range(count))
    else:
        sys.exit(__doc__)


def main(which, count=0):
    files = sys.stdin.readline().rstrip('\n')
    names = [word.split('=')[0][:-len('.class')].replace('/', '.') for word in files.split(' ')]
    config = '\n'.join(rules(which, int(count), names))
    text = config.replace('\\', '\\\\').replace('\n', '\\n').replace(' ', '\\s')
    print('seeds', text, files)


if __name__ == '__main__':
    if len(sys.argv) not in (2, 3):
        sys.exit(__doc__)
    main(*sys.argv[1:])
