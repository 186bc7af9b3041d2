#!/usr/bin/env python3
"""Writes rows for the program of crates/run_vectors: small sets whose methods have package access.

    python3 bench/kept_rows.py        the lines of standard input, each behind its title
"""
import os
import sys

sys.dont_write_bytecode = True
sys.path.insert(0, os.path.join(os.path.dirname(os.path.abspath(__file__)), '..', 'crates', 'set_vectors'))
from assembler import File, Method, PUBLIC, body, init

CONFIG = ('-injars in\n-outjars out\n-printmapping map.txt\n-printseeds seeds.txt\n-printusage use.txt\n'
          '-keep class %s { %s; }\n-dontoptimize\n')


def void(name, flags=0, code=()):
    return Method(name, '()V', flags, [*code, 'return'])


def row(title, kept, files):
    config = (CONFIG % kept).replace('\n', '\\n').replace(' ', '\\s')
    print(f'# {title}')
    print('kept', config, *(f'{f.name}.class={f.bytes().hex()}' for f in files))


print('# ---- package access')
row('invokespecial runs a method of the direct superclass that overrides nothing', ('p.C', 'void run()'), [
    File('p/A', methods=[void('m')]),
    File('p/C', 'q/B', methods=[void('run', PUBLIC, ['aload_0', ('invokespecial', ('p/A', 'm', '()V'))])]),
    File('q/B', 'p/A', methods=[void('m'), void('other')])])
row('a method of another package overrides one with package access through a public one',
    ('p.Main', 'static void run()'), [
        File('p/A', methods=[init(), void('m'), void('other')]),
        File('p/B', 'p/A', methods=[init(above='p/A'), void('m', PUBLIC)]),
        File('p/Main', methods=[body(('new', 'q/C'), 'dup', ('invokespecial', ('q/C', '<init>', '()V')),
                                     ('invokevirtual', ('p/A', 'm', '()V')))]),
        File('q/C', 'p/B', methods=[init(above='p/B'), void('m', PUBLIC)])])
