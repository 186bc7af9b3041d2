#!/usr/bin/env python3
"""Makes stdin and stdout of this folder: small sets of class files, each with what follows for it from the rules (JVMS 5.3, 5.4.3 to
5.4.5, 6.5, and docs/CLASS-SETS.md). The answers are written by hand, beside the classes."""
from assembler import *

ROWS = []


def row(title, answer, *files, paths=None):
    """A set with its answer: `ok`, or the fault, with `-` for a class or the number of a member, fields first and then methods."""
    files = sorted(files, key=lambda f: f.name + '.class')
    ROWS.append((title, answer, [((paths or {}).get(f.name, f.name + '.class'), f.bytes()) for f in files]))


def subject(title):
    ROWS.append((title, None, []))


def one(*code, flags=PUBLIC | SUPER, above=OBJECT, interfaces=(), fields=(), methods=(), name='p/A', **more):
    """A class whose first method has this code."""
    return File(name, above, interfaces, flags, fields, [body(*code, **more), *methods])


subject('names')
row('a class without anything', 'ok', File('p/A'))
row('a field of a library class', 'ok', File('p/A', fields=[(PUBLIC, 'x', 'Ljava/lang/String;')]))
row('a field of a missing class', 'profile p/A 0 Unresolved', File('p/A', fields=[(PUBLIC, 'x', 'Lm/M;')]))
row('a field of arrays of a missing class', 'profile p/A 0 Unresolved', File('p/A', fields=[(PUBLIC, 'x', '[[Lm/M;')]))
row('a parameter of a missing class', 'profile p/A 0 Unresolved', one(descriptor='(ILm/M;)V'))
row('a result of a missing class', 'profile p/A 0 Unresolved', File('p/A', flags=PUBLIC | SUPER | ABSTRACT, methods=[abstract('m', '()Lm/M;')]))
row('Exceptions of a library class', 'ok', one(throws=['java/lang/Exception']))
row('Exceptions of a missing class', 'profile p/A 0 Unresolved', one(throws=['java/lang/Exception', 'm/M']))
row('a handler of a library class', 'ok', one(handlers=['java/lang/RuntimeException']))
row('a handler of a missing class', 'profile p/A 0 Unresolved', one(handlers=[None, 'm/M']))
row('a frame of a library class', 'ok', one(frames=[['java/lang/String']]))
row('a frame of a missing class', 'profile p/A 0 Unresolved', one(frames=[['java/lang/String', '[Lm/M;']]))
row('checkcast to a missing class', 'profile p/A 0 Unresolved', one(('checkcast', 'm/M')))
row('checkcast to an array of numbers', 'ok', one(('checkcast', '[I')))
row('instanceof of a missing class', 'profile p/A 0 Unresolved', one(('instanceof', 'm/M')))
row('instanceof of a library class', 'ok', one(('instanceof', 'java/lang/String')))
row('anewarray of a missing class', 'profile p/A 0 Unresolved', one(('anewarray', 'm/M')))
row('anewarray of a library class', 'ok', one(('anewarray', 'java/lang/String')))
row('multianewarray of a missing class', 'profile p/A 0 Unresolved', one(('multianewarray', ('[[Lm/M;', 2))))
row('multianewarray of numbers', 'ok', one(('multianewarray', ('[[I', 2))))
row('a call whose descriptor names a class that the library lacks', 'profile p/A 0 Unresolved',
    one(('invokevirtual', (OBJECT, 'getClass', '()Ljava/lang/Class;'))))
row('the member of an earlier class at fault comes first', 'profile p/A 1 Unresolved',
    File('p/A', fields=[(PUBLIC, 'x', 'I'), (PUBLIC, 'y', 'Lm/M;')]), File('p/B', flags=PUBLIC | SUPER | ENUM))
row('a field at fault comes before a method', 'profile p/A 0 Unresolved', one(('new', 'm/M'), fields=[(PUBLIC, 'x', 'Lm/M;')]))

subject('access to classes')
row('a class of the same package that is not public', 'ok', File('p/A', fields=[(PUBLIC, 'x', 'Lp/B;')]), File('p/B', flags=SUPER))
row('a class of another package that is not public', 'profile p/A 0 Inaccessible', File('p/A', fields=[(PUBLIC, 'x', 'Lq/B;')]), File('q/B', flags=SUPER))
row('a package below is another package', 'profile p/A 0 Inaccessible', File('p/A', fields=[(PUBLIC, 'x', 'Lp/r/B;')]), File('p/r/B', flags=SUPER))
row('a superclass of another package', 'ok', File('p/A', 'q/B'), File('q/B'))
row('a superclass of another package that is not public', 'profile p/A - Inaccessible', File('p/A', 'q/B'), File('q/B', flags=SUPER))
row('a superinterface of another package that is not public', 'profile p/A - Inaccessible', File('p/A', interfaces=['q/I']), interface('q/I', flags=0))
row('new of a class of another package that is not public', 'profile p/A 0 Inaccessible', one(('new', 'q/B')), File('q/B', flags=SUPER))
row('a frame of a class of another package that is not public', 'profile p/A 0 Inaccessible', one(frames=[['q/B']]), File('q/B', flags=SUPER))
row('a member of a class of another package that is not public', 'profile p/A 0 Inaccessible',
    one(('getstatic', ('q/B', 'x', 'I'))), File('q/B', flags=SUPER, fields=[(PUBLIC | STATIC, 'x', 'I')]))

subject('what is left out')
row('an abstract method', 'ok', File('p/A', flags=PUBLIC | SUPER | ABSTRACT, methods=[abstract('m')]))
row('a native method', 'profile p/A 0 LeftOutFlag', File('p/A', methods=[Method('m', '()V', PUBLIC | NATIVE)]))
row('an annotation', 'profile p/A - LeftOutFlag', interface('p/A', flags=PUBLIC | ANNOTATION))
row('an enum', 'profile p/A - LeftOutFlag', File('p/A', flags=PUBLIC | SUPER | ENUM))
row('a field with the flag of enum constants', 'ok', File('p/A', fields=[(PUBLIC | ENUM, 'x', 'I')]))
row('a float in the constant pool', 'profile p/A - LeftOutConstant', File('p/A', float_constant=True))
row('an instruction on floats', 'profile p/A 0 LeftOutOpcode', one('fconst_0', 'pop'))
row('a field of float', 'profile p/A 0 LeftOutType', File('p/A', fields=[(PUBLIC, 'x', 'F')]))
row('a field of arrays of double', 'profile p/A 0 LeftOutType', File('p/A', fields=[(PUBLIC, 'x', '[D')]))
row('a field of long', 'ok', File('p/A', fields=[(PUBLIC, 'x', 'J')]))
row('a parameter of double', 'profile p/A 0 LeftOutType', one(descriptor='(D)V'))
row('a float in a frame', 'profile p/A 0 LeftOutType', one(frames=[['float']]))
row('checkcast to an array of float', 'profile p/A 0 LeftOutType', one(('checkcast', '[F')))
row('anewarray of arrays of double', 'profile p/A 0 LeftOutType', one(('anewarray', '[D')))
row('a call whose descriptor has a float', 'profile p/A 0 LeftOutType', one(('invokestatic', ('p/B', 'm', '(F)V'))), File('p/B'))

subject('several rules at one place')
row('native and a missing class', 'profile p/A 0 LeftOutFlag', File('p/A', methods=[Method('m', '(Lm/M;)V', PUBLIC | NATIVE)]))
row('an instruction on floats and a float in the descriptor', 'profile p/A 0 LeftOutOpcode', one('fconst_0', 'pop', descriptor='(F)V'))
row('a float and a missing class', 'profile p/A 0 LeftOutType', one(descriptor='(Lm/M;D)V'))
row('an instance method called as a static one, and then a missing class', 'profile p/A 0 Unresolved',
    one(('invokestatic', (OBJECT, 'equals', '(Ljava/lang/Object;)Z')), ('new', 'm/M')))
row('a class that is not accessible, and new of an interface', 'profile p/A 0 Inaccessible',
    one(('new', 'java/lang/Runnable'), ('checkcast', 'q/B')), File('q/B', flags=SUPER))
row('a method that only may be known, called as a static one', 'profile p/A 0 WrongKind', one(('invokestatic', (OBJECT, 'hashCode', '()I'))))
row('an enum with a superclass that is not accessible', 'profile p/A - LeftOutFlag', File('p/A', 'q/B', flags=PUBLIC | SUPER | ENUM), File('q/B', flags=SUPER))

subject('fields')
STATIC_X = [(PUBLIC | STATIC, 'x', 'I')]
INSTANCE_X = [(PUBLIC, 'x', 'I')]
X = ('p/A', 'x', 'I')
row('getstatic of a static field', 'ok', one(('getstatic', X), fields=STATIC_X))
row('getstatic of a field that is not static', 'profile p/A 1 WrongKind', one(('getstatic', X), fields=INSTANCE_X))
row('getfield of a field', 'ok', one(('getfield', X), fields=INSTANCE_X))
row('getfield of a static field', 'profile p/A 1 WrongKind', one(('getfield', X), fields=STATIC_X))
row('putstatic of a static field', 'ok', one(('putstatic', X), fields=STATIC_X))
row('putfield of a static field', 'profile p/A 1 WrongKind', one(('putfield', X), fields=STATIC_X))
row('a field that is not there', 'profile p/A 1 Unresolved', one(('getstatic', ('p/A', 'y', 'I')), fields=STATIC_X))
row('a field of another type', 'profile p/A 1 Unresolved', one(('getstatic', ('p/A', 'x', 'J')), fields=STATIC_X))
row('a field of a superclass', 'ok', one(('getstatic', X), above='p/B'), File('p/B', fields=STATIC_X))
row('a field of the superinterface of a superclass', 'ok', one(('getstatic', X), above='p/B'), File('p/B', interfaces=['p/I']),
    interface('p/I', fields=[(PUBLIC | STATIC | FINAL, 'x', 'I')]))
CONSTANT_X = interface('p/I', fields=[(PUBLIC | STATIC | FINAL, 'x', 'I')])
row('a static field of a superinterface is found before that of the superclass', 'ok',
    one(('getstatic', X), above='p/B', interfaces=['p/I']), File('p/B', fields=INSTANCE_X), CONSTANT_X)
row('so it hides that of the superclass', 'profile p/A 0 WrongKind',
    one(('getfield', X), above='p/B', interfaces=['p/I']), File('p/B', fields=INSTANCE_X), CONSTANT_X)
row('a private field of the own class', 'ok', one(('getstatic', X), fields=[(PRIVATE | STATIC, 'x', 'I')]))
row('a private field of another class', 'profile p/A 0 Inaccessible', one(('getstatic', ('p/B', 'x', 'I'))), File('p/B', fields=[(PRIVATE | STATIC, 'x', 'I')]))
row('a field of the same package', 'ok', one(('getstatic', ('p/B', 'x', 'I'))), File('p/B', fields=[(STATIC, 'x', 'I')]))
row('a field of another package', 'profile p/A 0 Inaccessible', one(('getstatic', ('q/B', 'x', 'I'))), File('q/B', fields=[(STATIC, 'x', 'I')]))
row('a protected field of the superclass in another package', 'ok', one(('getstatic', X), above='q/B'), File('q/B', fields=[(PROTECTED | STATIC, 'x', 'I')]))
row('a protected field of another class in another package', 'profile p/A 0 Inaccessible',
    one(('getstatic', ('q/B', 'x', 'I'))), File('q/B', fields=[(PROTECTED | STATIC, 'x', 'I')]))
row('a protected field that is not static, through the own class', 'ok', one(('getfield', X), above='q/B'), File('q/B', fields=[(PROTECTED, 'x', 'I')]))
row('a protected field that is not static, through a sister class', 'profile p/A 0 Inaccessible',
    one(('getfield', ('q/C', 'x', 'I')), above='q/B'), File('q/B', fields=[(PROTECTED, 'x', 'I')]), File('q/C', 'q/B'))
row('a field of an array', 'profile p/A 0 LeftOutMember', one(('getfield', ('[I', 'length', 'I'))))
row('the field out of System', 'ok', one(('getstatic', ('java/lang/System', 'out', 'Ljava/io/PrintStream;'))))
row('putstatic of the field out of System', 'profile p/A 0 LeftOutMember', one(('putstatic', ('java/lang/System', 'out', 'Ljava/io/PrintStream;'))))

subject('final fields')
FINAL_STATIC = [(PUBLIC | STATIC | FINAL, 'x', 'I')]
FINAL_X = [(PUBLIC | FINAL, 'x', 'I')]
row('a final static field written by <clinit>', 'ok',
    File('p/A', fields=FINAL_STATIC, methods=[body(('putstatic', X), name='<clinit>', flags=STATIC)]))
row('a final static field written by another method', 'profile p/A 1 WrongKind', one(('putstatic', X), fields=FINAL_STATIC))
row('a final field written by <init>', 'ok', File('p/A', fields=FINAL_X, methods=[init(('putfield', X))]))
row('a final field written by another method', 'profile p/A 1 WrongKind', one(('putfield', X), fields=FINAL_X))
row('a final field written by <clinit>', 'profile p/A 1 WrongKind', File('p/A', fields=FINAL_X, methods=[body(('putfield', X), name='<clinit>', flags=STATIC)]))
row('a final field of the superclass written by <init>', 'profile p/A 0 WrongKind',
    File('p/A', 'p/B', methods=[init(('putfield', ('p/B', 'x', 'I')), above='p/B')]), File('p/B', fields=FINAL_X, methods=[init()]))
row('a final static field of another class written by <clinit>', 'profile p/A 0 WrongKind',
    File('p/A', methods=[body(('putstatic', ('p/B', 'x', 'I')), name='<clinit>', flags=STATIC)]), File('p/B', fields=FINAL_STATIC))
row('a field of another class that is not final', 'ok', one(('putfield', ('p/B', 'x', 'I'))), File('p/B', fields=INSTANCE_X))

subject('calls')
M = ('p/B', 'm', '()V')
row('invokestatic of a static method', 'ok', one(('invokestatic', M)), File('p/B', methods=[body(name='m')]))
row('invokestatic of a method that is not static', 'profile p/A 0 WrongKind', one(('invokestatic', M)), File('p/B', methods=[body(name='m', flags=PUBLIC)]))
row('invokevirtual of a method', 'ok', one(('invokevirtual', M)), File('p/B', methods=[body(name='m', flags=PUBLIC)]))
row('invokevirtual of a static method', 'profile p/A 0 WrongKind', one(('invokevirtual', M)), File('p/B', methods=[body(name='m')]))
row('a method that is not there', 'profile p/A 0 Unresolved', one(('invokevirtual', M)), File('p/B', methods=[body(name='n', flags=PUBLIC)]))
row('a method of another descriptor', 'profile p/A 0 Unresolved', one(('invokevirtual', M)), File('p/B', methods=[body(name='m', descriptor='(I)V', flags=PUBLIC)]))
row('invokeinterface of a method of an interface', 'ok', one(('invokeinterface', ('p/I', 'm', '()V'))), interface('p/I', methods=[abstract('m')]))
row('invokeinterface of a method of a class', 'profile p/A 0 WrongKind', one(('invokeinterface', M)), File('p/B', methods=[body(name='m', flags=PUBLIC)]))
row('invokevirtual of a method of an interface', 'profile p/A 0 WrongKind', one(('invokevirtual', ('p/I', 'm', '()V'))), interface('p/I', methods=[abstract('m')]))
row('invokevirtual of a method that an interface lacks', 'profile p/A 0 Unresolved', one(('invokevirtual', ('p/I', 'm', '()V'))), interface('p/I'))
row('a method of Object called through an interface', 'ok', one(('invokeinterface', ('p/I', 'equals', '(Ljava/lang/Object;)Z'))), interface('p/I'))
row('one that only may be known', 'profile p/A 0 LeftOutMember', one(('invokeinterface', ('p/I', 'hashCode', '()I'))), interface('p/I'))
TWO = [interface('p/I', methods=[abstract('m')]), interface('p/J', methods=[abstract('m')])]
row('a method of two superinterfaces of a class', 'ok', one(('invokevirtual', M)), File('p/B', flags=PUBLIC | SUPER | ABSTRACT, interfaces=['p/I', 'p/J']), *TWO)
row('a method of two superinterfaces of an interface', 'ok', one(('invokeinterface', ('p/K', 'm', '()V'))), interface('p/K', 'p/I', 'p/J'), *TWO)
row('a method of the superinterface of a superinterface', 'ok', one(('invokeinterface', ('p/K', 'm', '()V'))), interface('p/K', 'p/J'), interface('p/J', 'p/I'), TWO[0])
row('a private method of the own class', 'ok', one(('invokespecial', ('p/A', 'm', '()V')), methods=[body(name='m', flags=PRIVATE)]))
row('a private method of another class', 'profile p/A 0 Inaccessible', one(('invokestatic', M)), File('p/B', methods=[body(name='m', flags=PRIVATE | STATIC)]))
row('a method of the same package', 'ok', one(('invokestatic', M)), File('p/B', methods=[body(name='m', flags=STATIC)]))
row('a method of another package', 'profile p/A 0 Inaccessible', one(('invokestatic', ('q/B', 'm', '()V'))), File('q/B', methods=[body(name='m', flags=STATIC)]))
row('a protected method of the superclass in another package', 'ok', one(('invokestatic', ('q/B', 'm', '()V')), above='q/B'),
    File('q/B', methods=[body(name='m', flags=PROTECTED | STATIC)]))
row('a protected method of another class in another package', 'profile p/A 0 Inaccessible', one(('invokestatic', ('q/B', 'm', '()V'))),
    File('q/B', methods=[body(name='m', flags=PROTECTED | STATIC)]))
row('a protected method that is not static, through a subclass', 'ok', one(('invokevirtual', ('p/C', 'm', '()V')), above='q/B'),
    File('p/C', 'p/A'), File('q/B', methods=[body(name='m', flags=PROTECTED)]))
row('<clinit> called', 'profile p/A 0 WrongKind', one(('invokestatic', ('p/A', '<clinit>', '()V')), methods=[body(name='<clinit>', flags=STATIC)]))

subject('methods of the library')
row('equals of Object', 'ok', one(('invokevirtual', (OBJECT, 'equals', '(Ljava/lang/Object;)Z'))))
row('hashCode of Object', 'profile p/A 0 LeftOutMember', one(('invokevirtual', (OBJECT, 'hashCode', '()I'))))
row('hashCode of String', 'ok', one(('invokevirtual', ('java/lang/String', 'hashCode', '()I'))))
row('toString of Throwable', 'profile p/A 0 LeftOutMember', one(('invokevirtual', ('java/lang/Throwable', 'toString', '()Ljava/lang/String;'))))
row('toString of StringBuilder', 'ok', one(('invokevirtual', ('java/lang/StringBuilder', 'toString', '()Ljava/lang/String;'))))
row('append of an Object', 'profile p/A 0 Unresolved',
    one(('invokevirtual', ('java/lang/StringBuilder', 'append', '(Ljava/lang/Object;)Ljava/lang/StringBuilder;'))))
row('append of a String', 'ok', one(('invokevirtual', ('java/lang/StringBuilder', 'append', '(Ljava/lang/String;)Ljava/lang/StringBuilder;'))))
row('finalize called', 'profile p/A 0 LeftOutMember', one(('invokevirtual', (OBJECT, 'finalize', '()V'))))
row('run of Runnable', 'ok', one(('invokeinterface', ('java/lang/Runnable', 'run', '()V'))))
row('compareTo of Comparable', 'profile p/A 0 LeftOutMember', one(('invokeinterface', ('java/lang/Comparable', 'compareTo', '(Ljava/lang/Object;)I'))))
row('getMessage through a program class', 'ok', one(('invokevirtual', ('p/E', 'getMessage', '()Ljava/lang/String;'))), File('p/E', 'java/lang/RuntimeException'))
row('clone of an array', 'profile p/A 0 LeftOutMember', one(('invokevirtual', ('[I', 'clone', '()Ljava/lang/Object;'))))
row('clone of an array of a missing class', 'profile p/A 0 Unresolved', one(('invokevirtual', ('[Lm/M;', 'clone', '()Ljava/lang/Object;'))))
row('invokespecial on an array', 'profile p/A 0 WrongKind', one(('invokespecial', ('[I', 'clone', '()Ljava/lang/Object;'))))
row('invokeinterface on an array', 'profile p/A 0 WrongKind', one(('invokeinterface', ('[I', 'clone', '()Ljava/lang/Object;'))))

subject('invokespecial and new')
row('<init> of the class that is named', 'ok', one(('new', 'p/B'), ('invokespecial', ('p/B', '<init>', '()V'))), File('p/B', methods=[init()]))
row('<init> of a superclass of the class that is named', 'profile p/A 0 WrongKind', one(('new', 'p/B'), ('invokespecial', ('p/B', '<init>', '()V'))), File('p/B'))
row('<init> by invokevirtual', 'profile p/A 0 WrongKind', one(('invokevirtual', ('p/B', '<init>', '()V'))), File('p/B', methods=[init()]))
row('<init> that the library lacks', 'profile p/A 0 Unresolved', one(('new', 'java/lang/LinkageError'), ('invokespecial', ('java/lang/LinkageError', '<init>', '(I)V'))))
row('a method of the superclass', 'ok', one(('invokespecial', M), above='p/B'), File('p/B', methods=[body(name='m', flags=PUBLIC)]))
row('a method of the superclass of the superclass', 'ok', one(('invokespecial', ('p/C', 'm', '()V')), above='p/B'), File('p/B', 'p/C'),
    File('p/C', methods=[body(name='m', flags=PUBLIC)]))
row('a method of another class', 'profile p/A 0 WrongKind', one(('invokespecial', M)), File('p/B', methods=[body(name='m', flags=PUBLIC)]))
row('a method of a subclass', 'profile p/A 0 WrongKind', one(('invokespecial', M)), File('p/B', 'p/A', methods=[body(name='m', flags=PUBLIC)]))
row('a static method by invokespecial', 'profile p/A 0 WrongKind', one(('invokespecial', M), above='p/B'), File('p/B', methods=[body(name='m')]))
row('new of a class', 'ok', one(('new', 'p/B')), File('p/B'))
row('new of an abstract class', 'profile p/A 0 WrongKind', one(('new', 'p/B')), File('p/B', flags=PUBLIC | SUPER | ABSTRACT))
row('new of an interface', 'profile p/A 0 WrongKind', one(('new', 'p/I')), interface('p/I'))
row('new of an interface of the library', 'profile p/A 0 WrongKind', one(('new', 'java/lang/Runnable')))

subject('overriding')
FINAL_M = [body(name='m', flags=PUBLIC | FINAL)]
row('a method that overrides one', 'ok', File('p/A', 'p/B', methods=[body(name='m', flags=PUBLIC)]), File('p/B', methods=[body(name='m', flags=PUBLIC)]))
row('a method that overrides a final one', 'profile p/A 0 WrongKind', File('p/A', 'p/B', methods=[body(name='m', flags=PUBLIC)]), File('p/B', methods=FINAL_M))
row('one of a superclass further up', 'profile p/A 0 WrongKind', File('p/A', 'p/B', methods=[body(name='m', flags=PUBLIC)]), File('p/B', 'p/C'), File('p/C', methods=FINAL_M))
row('another descriptor', 'ok', File('p/A', 'p/B', methods=[body(name='m', descriptor='(I)V', flags=PUBLIC)]), File('p/B', methods=FINAL_M))
row('a private final method is not overridden', 'ok', File('p/A', 'p/B', methods=[body(name='m', flags=PUBLIC)]),
    File('p/B', methods=[body(name='m', flags=PRIVATE | FINAL)]))
row('a final method of the same package', 'profile p/A 0 WrongKind', File('p/A', 'p/B', methods=[body(name='m', flags=PUBLIC)]), File('p/B', methods=[body(name='m', flags=FINAL)]))
row('a final method of another package is not overridden', 'ok', File('p/A', 'q/B', methods=[body(name='m', flags=PUBLIC)]), File('q/B', methods=[body(name='m', flags=FINAL)]))
row('a protected final method of another package', 'profile p/A 0 WrongKind', File('p/A', 'q/B', methods=[body(name='m', flags=PUBLIC)]),
    File('q/B', methods=[body(name='m', flags=PROTECTED | FINAL)]))
row('a static method hides', 'ok', File('p/A', 'p/B', methods=[body(name='m')]), File('p/B', methods=FINAL_M))
row('constructors override nothing', 'ok', File('p/A', 'p/B', methods=[init(above='p/B')]), File('p/B', methods=[init()]))
row('toString overridden', 'ok', File('p/A', methods=[Method('toString', '()Ljava/lang/String;', PUBLIC, ['aconst_null', 'areturn'])]))
row('finalize overridden', 'profile p/A 0 LeftOutMember', File('p/A', methods=[body(name='finalize', flags=PROTECTED)]))
row('fillInStackTrace overridden', 'profile p/A 0 LeftOutMember',
    File('p/A', 'java/lang/Exception', methods=[Method('fillInStackTrace', '()Ljava/lang/Throwable;', PUBLIC, ['aload_0', 'areturn'])]))
row('an interface that declares finalize', 'ok', interface('p/A', methods=[abstract('finalize')]))

subject('interfaces')
row('a default method', 'profile p/A 0 LeftOutMember', interface('p/A', methods=[body(name='m', flags=PUBLIC)]))
row('a static method of an interface', 'profile p/A 0 LeftOutMember', interface('p/A', methods=[body(name='m')]))
row('<clinit> of an interface', 'ok', interface('p/A', fields=[(PUBLIC | STATIC | FINAL, 'x', 'I')], methods=[body(name='<clinit>', flags=STATIC)]))
HASH = interface('p/I', methods=[abstract('hashCode', '()I')])
ANSWER = Method('hashCode', '()I', PUBLIC, ['iconst_0', 'ireturn'])
row('the method of a superinterface is a library one that only may be known', 'profile p/A - LeftOutMember', File('p/A', interfaces=['p/I']), HASH)
row('a method of the class itself', 'ok', File('p/A', interfaces=['p/I'], methods=[ANSWER]), HASH)
row('a method of a superclass', 'ok', File('p/A', 'p/B', interfaces=['p/I']), File('p/B', methods=[ANSWER]), HASH)
row('an abstract class', 'ok', File('p/A', interfaces=['p/I'], flags=PUBLIC | SUPER | ABSTRACT), HASH)
row('the superinterface of a superclass that is abstract', 'profile p/A - LeftOutMember', File('p/A', 'p/B'),
    File('p/B', interfaces=['p/I'], flags=PUBLIC | SUPER | ABSTRACT), HASH)
row('the superinterface of a superinterface', 'profile p/A - LeftOutMember', File('p/A', interfaces=['p/J']), interface('p/J', 'p/I'), HASH)
row('a library method that may be called', 'ok', File('p/A', interfaces=['p/I']), interface('p/I', methods=[abstract('equals', '(Ljava/lang/Object;)Z')]))
row('a method that nothing has', 'ok', File('p/A', interfaces=['p/I']), TWO[0])
row('an interface that declares finalize, implemented', 'profile p/A - LeftOutMember', File('p/A', interfaces=['p/I']), interface('p/I', methods=[abstract('finalize')]))

subject('no set')
row('a path that is not the name', 'pool p/A NameMismatch', File('p/A'), paths={'p/A': 'p/a.class'})
row('a name of the library', 'pool java/util/A LibraryName', File('java/util/A'))
row('a name that begins like the library', 'ok', File('javax/A'))
row('a superclass that is missing', 'pool p/A SuperMissing', File('p/A', 'm/M'))
row('a superinterface that is missing', 'pool p/A SuperMissing', File('p/A', interfaces=['java/lang/Runnable', 'm/M']))
row('a superclass that is final', 'pool p/A SuperKind', File('p/A', 'p/B'), File('p/B', flags=PUBLIC | SUPER | FINAL))
row('a superclass that is an interface', 'pool p/A SuperKind', File('p/A', 'p/I'), interface('p/I'))
row('a superinterface that is a class', 'pool p/A SuperKind', File('p/A', interfaces=['p/B']), File('p/B'))
row('a class below itself', 'pool p/B Cycle', File('p/A'), File('p/B', 'p/C'), File('p/C', 'p/B'))
row('an interface below itself', 'pool p/I Cycle', File('p/A', interfaces=['p/I']), interface('p/I', 'p/J'), interface('p/J', 'p/I'))
row('names come before supertypes', 'pool p/B NameMismatch', File('p/A', 'm/M'), File('p/B'), paths={'p/B': 'p/b.class'})
row('supertypes come before cycles', 'pool p/C SuperMissing', File('p/A', 'p/B'), File('p/B', 'p/A'), File('p/C', 'm/M'))
row('what is no set comes before what breaks a rule', 'pool p/B SuperMissing', File('p/A', fields=[(PUBLIC, 'x', 'F')]), File('p/B', 'm/M'))


def lines():
    """The lines that ask, and those that answer: the subjects and titles stand in both."""
    for title, answer, files in ROWS:
        if answer is None:
            yield f'# ---- {title}', None
        else:
            yield f'# {title}', None
            yield ' '.join(f'{path}={data.hex()}' for path, data in files), answer


if __name__ == '__main__':
    with open('stdin', 'w') as asked, open('stdout', 'w') as told:
        for line, answer in lines():
            asked.write(line + '\n')
            told.write((answer or line) + '\n')
    print(sum(answer is not None for _, answer, _ in ROWS), 'sets')
