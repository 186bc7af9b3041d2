"""Whether an output belongs to an input by a mapping and rules, judged without the project's crates, for forge.py.

`judge` answers None where it does and else why not. It is told the rules as values (`Rule`), reads class files by classes.py,
and follows docs/MANUAL.md: what is kept, new names; docs/CHECKING.md; and, by passes.py, docs/PASSES.md. It judges no types: a
code that it takes is that of the input, after the acts of the witness, under new names. The library's methods are listed by name and descriptor as the JDK has them.
"""
import copy
import re
from dataclasses import dataclass

import passes
from classes import MAIN, Bad, Class, Code, Member, read_class, targets

OBJECT = 'java/lang/Object'
OBJECT_METHODS = {('hashCode', '()I'), ('equals', f'(L{OBJECT};)Z'), ('toString', '()Ljava/lang/String;'), ('clone', f'()L{OBJECT};'),
                  ('finalize', '()V')}
LIBRARY_METHODS = {
    OBJECT: OBJECT_METHODS, 'java/lang/Runnable': {('run', '()V')}, 'java/lang/Comparable': {('compareTo', f'(L{OBJECT};)I')},
    'java/lang/CharSequence': {('length', '()I'), ('charAt', '(I)C'), ('toString', '()Ljava/lang/String;')},
    'java/lang/Throwable': {('getMessage', '()Ljava/lang/String;'), ('getCause', '()Ljava/lang/Throwable;'),
                            ('toString', '()Ljava/lang/String;'), ('getLocalizedMessage', '()Ljava/lang/String;'),
                            ('printStackTrace', '()V'), ('initCause', '(Ljava/lang/Throwable;)Ljava/lang/Throwable;')},
}
LIBRARY_NAMES = {'<init>', '<clinit>', 'hashCode', 'equals', 'toString', 'clone', 'finalize', 'getClass', 'notify', 'notifyAll', 'wait',
                 'run', 'compareTo', 'length', 'charAt', 'getMessage', 'getCause', 'getLocalizedMessage', 'printStackTrace', 'initCause',
                 'isEmpty', 'substring', 'valueOf', 'append', 'print', 'println'}
CLASS_LINE = re.compile(r'(\S+) -> (\S+):')
MEMBER_LINE = re.compile(r'    (?:\d+:\d+:)?(\S+) ([^\s()]+)(?:\((\S*)\))?(?::\d+(?::\d+)?)? -> (\S+)')
PRIMITIVES = {'int': 'I', 'long': 'J', 'boolean': 'Z', 'char': 'C', 'byte': 'B', 'short': 'S', 'void': 'V', 'float': 'F', 'double': 'D'}


@dataclass
class Rule:
    """`main`: -keepclasseswithmembers of a main method. Of one class: `all` members, `class` (its <init>() alone), `public`
    methods, or `names` (they may go)."""
    what: str
    name: str = None

    def text(self):
        dotted = (self.name or '').replace('/', '.')
        return {'main': '-keepclasseswithmembers class * { public static void main(java.lang.String[]); }',
                'all': f'-keep class {dotted} {{ *; }}', 'class': f'-keep class {dotted}',
                'public': f'-keep class {dotted} {{ public <methods>; }}', 'names': f'-keepnames class {dotted} {{ *; }}'}[self.what]

    def matched(self, found):
        """The members that it matches of a class that it matches, or None."""
        methods = [it for it in found.methods if it.name != '<clinit>']
        if self.what == 'main':
            mains = [it for it in methods if it.key() == MAIN and it.flags & 9 == 9]
            return mains or None
        if found.name != self.name:
            return None
        if self.what == 'class':
            return [it for it in methods if it.key() == ('<init>', '()V')]
        if self.what == 'public':
            return [it for it in methods if it.flags & 1]
        return found.fields + methods


@dataclass
class Rules:
    rules: list
    shrink: bool = True
    obfuscate: bool = True
    lines: bool = False
    throws: bool = False
    optimise: bool = True

    def text(self):
        kept = ','.join(['SourceFile', 'LineNumberTable'] * self.lines + ['Exceptions'] * self.throws)
        return '\n'.join([it.text() for it in self.rules] + ['-dontshrink'] * (not self.shrink)
                         + ['-dontobfuscate'] * (not self.obfuscate) + ['-dontoptimize'] * (not self.optimise)
                         + [f'-keepattributes {kept}'] * bool(kept)) + '\n'

    def has_lines(self):
        return self.lines or not self.obfuscate

    def has_throws(self):
        return self.throws or not self.obfuscate


# ---- names

def descriptor_of(source):
    base, dims = source.split('[')[0], source.count('[]')
    return '[' * dims + PRIMITIVES.get(base, f'L{base.replace(".", "/")};')


class Names:
    def __init__(self):
        self.classes, self.members, self.fields, self.methods = {}, set(), {}, {}

    def type(self, name):
        if name.startswith('['):
            return self.descriptor(name)
        return self.classes.get(name, name)

    def descriptor(self, text):
        return re.sub(r'L([^;]*);', lambda it: f'L{self.classes.get(it[1], it[1])};', text)


def one_to_one(table, old, new):
    if table.setdefault(old, new) != new or any(a != old and b == new for a, b in table.items()):
        raise Bad(f'names {old} {new}')


def names_of(mapping, classes):
    """What the lines of the mapping say, each of a class or a member of the input."""
    names, at = Names(), None
    for line in mapping.decode('utf-8').split('\n'):
        line = line[:-1] if line.endswith('\r') else line
        if not line.strip(' \t') or line.startswith('#'):
            continue
        found = CLASS_LINE.fullmatch(line)
        if found:
            at, new = (it.replace('.', '/') for it in found.groups())
            if at not in classes or at in names.classes:
                raise Bad(f'class line {at}')
            one_to_one(names.classes, at, new)
            continue
        found = MEMBER_LINE.fullmatch(line)
        if not found or at is None:
            raise Bad(f'line {line}')
        type_, name, arguments, new = found.groups()
        is_method = arguments is not None
        text = descriptor_of(type_)
        if is_method:
            text = '(' + ''.join(descriptor_of(it) for it in arguments.split(',') if it) + ')' + text
        if not any(it.key() == (name, text) for it in (classes[at].methods if is_method else classes[at].fields)):
            raise Bad(f'member line {line}')
        item = (at, is_method, name, text)
        if item in names.members:
            raise Bad(f'line again {line}')
        names.members.add(item)
        one_to_one(names.methods if is_method else names.fields, name, new)
    return names


# ---- under new names

def renamed_ins(ins, names):
    if ins[0] == 'field':
        return ['field', ins[1], names.type(ins[2]), names.fields.get(ins[3], ins[3]), names.descriptor(ins[4])]
    if ins[0] == 'method':
        return ['method', ins[1], names.type(ins[2]), names.methods.get(ins[3], ins[3]), names.descriptor(ins[4]), ins[5]]
    if ins[0] == 'class':
        return [*ins[:2], names.type(ins[2])]
    return ['multi', names.type(ins[1]), ins[2]] if ins[0] == 'multi' else ins


def lines_of(code):
    """The line of each instruction."""
    rows = sorted(code.lines, key=lambda it: it[0])
    found, at, line = [], 0, None
    for number in range(len(code.ins)):
        while at < len(rows) and rows[at][0] <= number:
            line, at = rows[at][1], at + 1
        found.append(line)
    return found


def code_under(code, names, keeps_lines):
    """What is compared of a code: its instructions, its handlers and their order, and its lines."""
    return ([renamed_ins(it, names) for it in code.ins],
            [[*row[:3], row[3] and names.type(row[3])] for row in code.handlers],
            lines_of(code) if keeps_lines else [None] * len(code.ins))


FIELD_FLAGS, METHOD_FLAGS, CLASS_FLAGS = 0x50DF, 0x1DFF, 0x7631


def member_under(member, is_method, names, rules):
    table = names.methods if is_method else names.fields
    return (member.flags & (METHOD_FLAGS if is_method else FIELD_FLAGS), table.get(member.name, member.name),
            names.descriptor(member.descriptor), member.constant,
            member.code and code_under(member.code, names, rules.has_lines()),
            [names.type(it) for it in member.throws] if rules.has_throws() else [])


def class_under(found, names, rules):
    return (found.flags & CLASS_FLAGS, names.type(found.name), names.type(found.above), [names.type(it) for it in found.interfaces],
            [member_under(it, False, names, rules) for it in found.fields if (found.name, False, *it.key()) in names.members],
            [member_under(it, True, names, rules) for it in found.methods if (found.name, True, *it.key()) in names.members])


def as_it_is(found):
    nothing, whole = Names(), Rules([], lines=True, throws=True)
    nothing.members = {(found.name, False, *it.key()) for it in found.fields} | {(found.name, True, *it.key()) for it in found.methods}
    return class_under(found, nothing, whole)


# ---- what has to be kept

class Program:
    def __init__(self, classes):
        self.classes = classes

    def above(self, name):
        """A class and its superclasses, those of the input."""
        while name in self.classes:
            yield self.classes[name]
            name = self.classes[name].above

    def supers(self, name):
        """All supertypes of a class, itself among them, those of the library too."""
        waiting, seen = [name], []
        while waiting:
            name = waiting.pop()
            if name in seen:
                continue
            seen.append(name)
            if name in self.classes:
                waiting += [self.classes[name].above, *self.classes[name].interfaces]
            elif name.endswith(('Exception', 'Error')) and name.startswith('java/lang/'):
                waiting += ['java/lang/Throwable', OBJECT]
        return seen

    def resolve(self, holder, name, descriptor, is_method):
        order = [it.name for it in self.above(holder)] + self.supers(holder)
        for at in order:
            found = self.classes.get(at)
            for it in (found.methods if is_method else found.fields) if found else []:
                if it.key() == (name, descriptor):
                    return at, is_method, name, descriptor
        return None

    def instance(self, holder, name, descriptor):
        """The first instance method of a name and descriptor in a class and its superclasses."""
        for found in self.above(holder):
            for it in found.methods:
                if it.key() == (name, descriptor) and not it.flags & 8:
                    return found.name, True, name, descriptor
        return None

    def selected(self, low, high, method):
        """What runs on objects of a class for an instance method of a supertype (JVMS 5.4.6, overriding by 5.4.5)."""
        if self.classes[high].flags & 0x200:
            return self.instance(low, *method.key())
        line = []
        for found in self.above(low):
            if found.name == high:
                break
            line.append(found)
        overriding = [(high, method)]
        for found in reversed(line):
            for it in found.methods:
                if it.key() == method.key() and not it.flags & 0xA and any(
                        x.flags & 5 or at.rpartition('/')[0] == found.name.rpartition('/')[0] for at, x in overriding):
                    overriding.append((found.name, it))
        return overriding[-1][0], True, *method.key()


def named_classes(text):
    return re.findall(r'L([^;]*);', text) if text.startswith(('[', '(', 'L')) else [text]


def wants_of_code(program, holder, code):
    for ins in code.ins:
        if ins[0] in ('field', 'method'):
            yield from named_classes(ins[2])
            yield from re.findall(r'L([^;]*);', ins[4])
            item = program.resolve(ins[2], ins[3], ins[4], ins[0] == 'method')
            if item:
                yield item
                if ins[1] == 183 and ins[3] != '<init>':
                    above = program.classes[holder].above if ins[2] != holder else holder
                    yield program.instance(above, ins[3], ins[4]) or item
        elif ins[0] in ('class', 'multi'):
            yield from named_classes(ins[2] if ins[0] == 'class' else ins[1])
    yield from (row[3] for row in code.handlers if row[3])
    def types(row):
        for it in row:
            if isinstance(it, list):
                if it[:1] == ['object']:
                    yield from named_classes(it[1])
                else:
                    yield from types(it)
    for row in code.frames:
        yield from types(row)


def wants(program, item, rules):
    if isinstance(item, str):
        found = program.classes[item]
        yield from [found.above, *found.interfaces]
        yield from ((item, True, *it.key()) for it in found.methods if it.name == '<clinit>')
        if not found.flags & 0x200:
            for above in program.supers(item):
                for name, descriptor in LIBRARY_METHODS.get(above, ()):
                    yield program.instance(item, name, descriptor)
        return
    holder, is_method, name, descriptor = item
    yield holder
    yield from re.findall(r'L([^;]*);', descriptor)
    if is_method:
        member = next(it for it in program.classes[holder].methods if it.key() == (name, descriptor))
        yield from wants_of_code(program, holder, member.code) if member.code else ()
        yield from member.throws if rules.has_throws() else ()


def lacking(classes, kept, rules):
    """Something that has to be kept and isn't, or None. Kept are names of classes, and members with their class."""
    program = Program(classes)
    for found in classes.values():
        if not rules.shrink:
            needed = [found.name] + [(found.name, False, *it.key()) for it in found.fields]
            needed += [(found.name, True, *it.key()) for it in found.methods]
        else:
            needed = []
            for rule in rules.rules:
                matched = rule.matched(found) if rule.what != 'names' else None
                if matched is not None:
                    needed += [found.name] + [(found.name, it.descriptor[0] == '(', *it.key()) for it in matched]
        for item in needed:
            if item not in kept:
                return f'seed {item}'
    for item in kept:
        for other in wants(program, item, rules):
            if other and (other in classes or not isinstance(other, str)) and other not in kept:
                return f'{item} needs {other}'
    for low in classes.values():
        if low.name not in kept or low.flags & 0x200:
            continue
        for high in program.supers(low.name)[1:]:
            for it in classes[high].methods if high in classes else ():
                if (high, True, *it.key()) in kept and not it.flags & 0xA and it.name[0] != '<':
                    other = program.selected(low.name, high, it)
                    if other and other not in kept:
                        return f'{low.name} and {high}.{it.name} need {other}'
    return None


# ---- edited codes

ENTRY = re.compile(r'method (\S+) (\S+) ([^\s()]+)\((\S*)\)')


def entries_of(witness):
    """The methods that a witness names, by class, name and descriptor, each with its acts by steps."""
    entries, steps, acts = {}, None, None
    for line in witness.replace('\r\n', '\n').split('\n'):
        words = line.split()
        if not words or line.startswith('#') or words[0] == 'witness':
            continue
        found = ENTRY.fullmatch(line)
        if found:
            holder, type_, name, arguments = found.groups()
            text = '(' + ''.join(descriptor_of(it) for it in arguments.split(',') if it) + ')' + descriptor_of(type_)
            steps = entries.setdefault((holder.replace('.', '/'), name, text), {})
        elif words[0] == 'step' and steps is not None:
            acts = steps.setdefault(int(words[1]), [])
        elif acts is not None:
            acts.append((words[0], *map(int, words[1:])))
        else:
            raise Bad(f'witness line {line}')
    return entries


def after_edits(classes, witness, members):
    """The classes of the input with their codes after the acts of a witness, which names kept methods alone."""
    edited = dict(classes)
    for (holder, name, descriptor), steps in entries_of(witness).items():
        if (holder, True, name, descriptor) not in members:
            raise Bad(f'stray entry {holder} {name}')
        edited[holder] = found = copy.copy(edited[holder])
        at = next(k for k, it in enumerate(found.methods) if it.key() == (name, descriptor))
        if not found.methods[at].code:
            raise Bad(f'entry without a code {holder} {name}')
        body = passes.after_steps(passes.body_of(holder, found.methods[at]), steps)
        if body is None:
            raise Bad(f'illegal edit {holder} {name}')
        found.methods = [copy.deepcopy(it) if k == at else it for k, it in enumerate(found.methods)]
        passes.put(body, found.methods[at].code)
    return edited


# ---- the judgement

def judge(classes, files, mapping, rules, witness):
    """Classes of the input by their names, files of the output by their paths; None or why they don't belong together."""
    try:
        names = names_of(mapping, classes)
        output = {path: read_class(data) for path, data in files.items() if path.endswith('.class')}
    except (Bad, UnicodeDecodeError, IndexError) as fault:
        return f'unreadable: {fault}'
    wanted = {new + '.class' for new in names.classes.values()}
    if wanted != set(output):
        return f'files {sorted(wanted ^ set(output))}'
    for old, new in names.classes.items():
        if old.rpartition('/')[0] != new.rpartition('/')[0]:
            return f'package {old}'
    matched = [(rule, found, rule.matched(found)) for rule in rules.rules for found in classes.values()]
    fixed = {found.name for rule, found, members in matched if members is not None}
    stay = {(it.descriptor[0] == '(', it.name) for rule, found, members in matched for it in members or ()}
    for old, new in names.classes.items():
        if old != new and (not rules.obfuscate or old in fixed or new in fixed or new.startswith('java/')):
            return f'fixed class {old} {new}'
    for is_method, table in ((False, names.fields), (True, names.methods)):
        for old, new in table.items():
            library = LIBRARY_NAMES if is_method else {'out'}
            if old != new and (not rules.obfuscate or {(is_method, old), (is_method, new)} & stay or {old, new} & library):
                return f'fixed member {old} {new}'
    try:
        edited = after_edits(classes, witness, names.members)
    except (Bad, ValueError, IndexError, KeyError) as fault:
        return f'witness: {fault}'
    for old, new in names.classes.items():
        if class_under(edited[old], names, rules) != as_it_is(output[new + '.class']):
            return f'class {old}'
    return lacking(classes, set(names.classes) | names.members, rules)
