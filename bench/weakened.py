#!/usr/bin/env python3
"""Weakens rules of the type checker's definition, one at a time, and tells which proofs then fail.

    python3 bench/weakened.py FOLDER              the laws as they are, and each of WEAKENINGS below
    python3 bench/weakened.py FOLDER NAME ..      those with these names; `none` is the laws as they are

The code of type_verifier is proved against its definition, so a weaker definition alone makes the proofs of its own
bodies fail, which shows nothing. So FOLDER, which this makes where it isn't there, is a repository of stubs: the crates
between the class model and the laws have their types and definitions alone in it, and those lemmas that the laws cite;
no function and no body is left. The laws stand in it as they are, and the libraries below the stubs with what is proved
of them (links to the files of out/; what isn't proved is proved there first).

Over this `rt` proves the rows of `needed_rules` and then the crates of laws, with one weakening in place at a time. A
line is written for each: the rows that fail, and the first crate of laws that does, with its lemmas in the order in
which rt told them. Where all laws stand, the machine can't tell. `adjusted` has lemmas of a weakening that say the rule
again, word by word: without the new clause they fail for their words and not for the rule's sake. What rt said is kept
in FOLDER/said. A weakening takes two to four minutes of one processor, and FOLDER itself five.
"""
import os
import re
import shutil
import subprocess
import sys

TOP = os.path.realpath(os.path.join(os.path.dirname(os.path.abspath(__file__)), '..'))

# Crates that are taken whole: what the definitions stand on, and the laws.
BOTTOM = ['jv_base', 'format_reading', 'class_model', 'lib_table', 'jvm_model']
LAWS = ['fit_laws', 'image_laws', 'type_sound']
ROWS = 'needed_rules'

PATH = re.compile(r'\bRattle((?:\.[A-Za-z_][A-Za-z_0-9]*)+)')
CRATE_PATH = re.compile(r'^use ([a-z_]+)(?:::|;)', re.M)
ITEM = re.compile(r'(?:pub(?:\([a-z]+\))? )?(struct|enum|type) ([A-Za-z]+)|impl Model for ([A-Za-z]+)')


def read(path):
    with open(path, encoding='utf-8') as file:
        return file.read()


def write(path, text):
    os.makedirs(os.path.dirname(path), exist_ok=True)
    with open(path, 'w', encoding='utf-8') as file:
        file.write(text)


def crate_lines():
    """The libraries that each crate stands on, by the names of crates."""
    below = {}
    for line in read(f'{TOP}/crates.txt').splitlines():
        if line.strip() and not line.startswith('#'):
            name, _, rest = line.partition(':')
            below[name.split()[0]] = rest.split()
    return below


def items(text):
    """The items of a file that is in rt fmt's layout, each with the comments and attributes before it."""
    found, lines = [], []
    for line in text.splitlines():
        lines.append(line)
        if line.startswith('}') or (line.endswith(';') and not line.startswith((' ', '//'))) or (
                re.match(r'(?:pub(?:\([a-z]+\))? )?(?:struct|enum|fn|impl).*\{\}$', line)):
            found.append('\n'.join(lines).strip('\n'))
            lines = []
    return found


def head(item):
    """The item without the comments and attributes before it."""
    lines = item.splitlines()
    return '\n'.join(lines[next(n for n, it in enumerate(lines) if it and not it.startswith(('//', '#', ' '))):])


def type_words(text):
    """The names in a text, comments aside, that can be those of types."""
    return set(re.findall(r'\b[A-Z]\w*', '\n'.join(it for it in text.splitlines() if not it.lstrip().startswith('//'))))


def kept_names(line, words):
    """A use line with those of its names alone that stand among these words, or nothing."""
    before, opened, rest = line.replace('\n', ' ').partition('{')
    if not opened:
        name = re.split(r'::|\.', line.rstrip(';'))[-1].split(' as ')[-1].strip()
        return line if name in words else ''
    names = [it.strip() for it in rest.rstrip(' ;').rstrip('}').split(',') if it.strip()]
    kept = [it for it in names if it.split(' as ')[-1].split('::')[-1].strip() in words]
    return f'{before}{{{", ".join(kept)}}};' if kept else ''


def cut_lemmas(text, names):
    """A file of lemmas with those alone that have these names, and what they need of the file."""
    blocks = [it for it in re.split(r'\n\n+', text) if not it.startswith('module ')]
    uses = [line for line in blocks[0].splitlines() if line.startswith('use ')]
    blocks = [re.sub(r'^--.*\n', '', it, flags=re.M) for it in blocks[1:]]
    named = {re.sub(r'^(?:pub |abbrev )*', '', it).split(' ')[0]: it for it in blocks if re.match(r'[a-z]', it)}
    wanted, todo = [], sorted(names)
    while todo:
        name = todo.pop()
        if name not in wanted:
            wanted.append(name)
            todo += [it for it in re.findall(r"[\w'-]+", named[name]) if it in named]
    kept = [it for name, it in named.items() if name in wanted]
    text = '\n'.join(kept)
    words = set(re.findall(r"[^\s(){},.]+", text))
    words |= {it for use in uses for it in re.findall(r'[^\s{},.]*◌[^\s{},.]*', use)
              if all(part in text for part in it.split('◌'))}
    imports = [it for it in (kept_names(use, words).rstrip(';') for use in uses) if it]
    return '\n'.join(imports) + '\n\n' + '\n\n'.join(kept) + '\n'


# Lemmas of type_verifier that the laws cite: the rest of their files is about code.
CUT = {
    'type_verifier/proofs/Handled.antt': ['is_true'],
    'type_verifier/proofs/Lists.antt': ['map_reversed', 'reverse_cons'],
}


class Stubs:
    """The types, definitions and lemmas of the crates between the bottom and the laws that the laws cite."""

    def __init__(self):
        self.texts = {}      # definitions and lemmas, by their paths below crates/
        self.types = {}      # for each source file the items that are kept, by their numbers
        self.todo = []

    def crate_of(self, path):
        return path.split('/')[0]

    def is_stub(self, crate):
        return os.path.isdir(f'{TOP}/crates/{crate}') and crate not in BOTTOM and crate not in [*LAWS, ROWS]

    def want(self, dotted):
        """Takes the file or the type that a path of definitions names."""
        parts = dotted.split('.')[1:]
        if not self.is_stub(parts[0]):
            return
        if parts[1:3] == ['specs', 'declared']:
            at = next((n for n, it in enumerate(parts[3:], 3) if it[0].isupper()), None)
            self.want_type(parts[0], '/'.join(parts[3:at]), parts[at])
            return
        for end in range(len(parts), 1, -1):
            path = '/'.join(parts[:end]) + '.antt'
            if os.path.isfile(f'{TOP}/crates/{path}'):
                if path not in self.texts:
                    text = read(f'{TOP}/crates/{path}')
                    self.texts[path] = cut_lemmas(text, CUT[path]) if path in CUT else text
                    self.todo.append(self.texts[path])
                return

    def want_type(self, crate, module, name):
        """Takes a type, with what its model says."""
        path = f'{crate}/src/{module}.rt'
        file = items(read(f'{TOP}/crates/{path}'))
        numbers = self.types.setdefault(path, set())
        for number, item in enumerate(file):
            match = ITEM.match(head(item))
            if not match or name not in match.groups() or number in numbers:
                continue
            numbers.add(number)
            self.todo.append(item)
            words = type_words(item)
            for line in (head(it) for it in file if head(it).startswith('use ')):
                for used in re.findall(r'[A-Z]\w*', kept_names(line, words)):
                    self.want_used(crate, line, used)
            for other in words - {name}:
                if any(other == (ITEM.match(head(it)) or [0] * 4)[2] for it in file):
                    self.want_type(crate, module, other)

    def want_used(self, crate, line, name):
        """Takes a type that a use line names, where it is one of a stub."""
        begun = re.match(r'use ([a-z_:]+)', line).group(1).strip(':').split('::')
        owner = crate if begun[0] == 'crate' else begun[0]
        if not self.is_stub(owner):
            return
        for at, _, files in os.walk(f'{TOP}/crates/{owner}/src'):
            for file in files:
                text = read(f'{at}/{file}')
                if re.search(rf'^pub(?:\([a-z]+\))? (?:struct|enum) {name}\b', text, re.M):
                    self.want_type(owner, os.path.relpath(f'{at}/{file}', f'{TOP}/crates/{owner}/src')[:-3], name)

    def close(self):
        for crate in [*LAWS, ROWS]:
            for at, folders, files in os.walk(f'{TOP}/crates/{crate}'):
                folders[:] = [it for it in folders if it != 'out']
                self.todo += [read(f'{at}/{it}') for it in files if it.endswith(('.antt', '.rt'))]
        while self.todo:
            for match in PATH.finditer(self.todo.pop()):
                self.want(match.group(0))

    def sources(self):
        """The source files that declare the types, by their paths below crates/."""
        made = {}
        crates = {self.crate_of(it) for it in [*self.texts, *self.types]}
        for crate in crates:
            modules = {'lib': []}
            for path in (it for it in self.types if self.crate_of(it) == crate):
                module = path[len(crate) + 5:-3]
                for end in range(1, module.count('/') + 2):
                    part = '/'.join(module.split('/')[:end])
                    modules.setdefault(part, [])
                    above = modules.setdefault('/'.join(module.split('/')[:end - 1]) or 'lib', [])
                    if part not in above:
                        above.append(part)
            exports = []
            for module, inner in modules.items():
                path, lines = f'{crate}/src/{module}.rt', []
                if path in self.types:
                    file = items(read(f'{TOP}/crates/{path}'))
                    kept = [re.sub(r'^#\[.*\]\n', '', file[number], flags=re.M) for number in sorted(self.types[path])]
                    words = type_words('\n'.join(kept))
                    uses = [kept_names(head_of, words) for head_of in
                            (it for it in file if re.match(r'use ', head(it)))]
                    lines = [it for it in uses if it] + kept
                    for item in kept:
                        match = ITEM.match(head(item))
                        if head(item).startswith('pub ') and match.group(2):
                            exports.append(f'pub use {module.replace("/", "::")}::{match.group(2)};')
                made[path] = '\n'.join([f'pub mod {it.split("/")[-1]};' for it in sorted(inner)] + lines) + '\n'
            made[f'{crate}/src/lib.rt'] = (
                f'//! The types and definitions of {crate}.\n#![tactic(auto)]\n\n' + made[f'{crate}/src/lib.rt'] +
                '\n'.join(sorted(exports)) + '\n')
        return made

    def modules(self):
        """The lists of definitions and lemmas, by their paths below crates/."""
        made = {}
        for path in self.texts:
            parts = path[:-5].split('/')
            for end in range(2, len(parts)):
                above = '/'.join(parts[:end]) + ('/Lib' if end == 2 else '') + '.antt'
                made.setdefault(above, [])
                if parts[end] not in made[above] and parts[end] != 'Lib':
                    made[above].append(parts[end])
        return {path: ''.join(f'pub mod {it}\n' for it in sorted(names)) for path, names in made.items()}


def copy_whole(crate, folder):
    """A crate as it is; one below the stubs with what is proved of it, by links to the same files."""
    source, made = f'{TOP}/crates/{crate}', f'{folder}/crates/{crate}'
    shutil.copytree(source, made, ignore=shutil.ignore_patterns('out', 'must-fail'))
    if crate in BOTTOM and os.path.isdir(f'{source}/out'):
        shutil.copytree(f'{source}/out', f'{made}/out', copy_function=os.link)


def named_libraries(folder, crate, known):
    """The libraries that the files of a crate name, in the order of `known`."""
    named = set()
    for at, folders, files in os.walk(f'{folder}/crates/{crate}'):
        folders[:] = [it for it in folders if it != 'out']
        for file in files:
            if file.endswith(('.antt', '.rt')):
                text = read(f'{at}/{file}')
                named |= {it.split('.')[1] for it in PATH.findall(text)} | set(CRATE_PATH.findall(text))
    return [it for it in known if it in named and it != crate]


def make(folder):
    """The repository of stubs."""
    stubs = Stubs()
    stubs.close()
    below = crate_lines()
    known = [it for it in below] + sorted({lib for libs in below.values() for lib in libs if lib not in below})
    os.makedirs(folder)
    subprocess.run(['git', 'init', '-q', folder], check=True)
    write(f'{folder}/HANDLES', read(f'{TOP}/HANDLES'))
    for crate in [*BOTTOM, *LAWS, ROWS]:
        copy_whole(crate, folder)
    for path, text in {**stubs.modules(), **stubs.texts, **stubs.sources()}.items():
        write(f'{folder}/crates/{path}', text)
    lines = []
    for crate in (it for it in known if os.path.isdir(f'{folder}/crates/{it}')):
        libraries = below[crate] if crate in BOTTOM else named_libraries(folder, crate, known)
        lines.append(f'{crate}: {" ".join(libraries)}\n')
    write(f'{folder}/crates.txt', ''.join(lines))


# ---- weakenings

ASSIGNABLE, ENVIRONMENT = 'specs/Assignable.antt', 'specs/Environment.antt'
EFFECTS, RULES, WALK = 'specs/Effects.antt', 'specs/Rules.antt', 'specs/Walk.antt'
SLOTS = 'fit_laws/proofs/Slots.antt'
ACTING, RULING = 'image_laws/proofs/TypedImage/Acting.antt', 'image_laws/proofs/TypedImage/Ruling.antt'
ASSIGNING, ORDER = 'image_laws/proofs/TypedImage/Assigning.antt', 'type_sound/proofs/Order.antt'


class Weakening:
    """A rule that lets more through: a text of a file of type_verifier in place of one that stands there once.

    `adjusted` has clauses of lemmas that say the rule again and have to be told anew: file, how it begins, the new one.
    """

    def __init__(self, name, section, says, file, old, new, adjusted=(), imports=''):
        self.name, self.section, self.says, self.file = name, section, says, file
        self.old, self.new, self.adjusted, self.imports = old, new, adjusted, imports

    def weakened(self, text):
        """The file with the weaker rule in it."""
        if text.count(self.old) != 1:
            raise ValueError(f'the text of {self.name} stands {text.count(self.old)} times')
        return text.replace(self.old, self.new).replace('\nuse ', f'\n{self.imports}use ', 1)


WEAKENINGS = [
    Weakening(
        'locals_after_store', '4.10.1.7', 'a store into the second word of a long leaves the long', EFFECTS,
        """cut_before slot locals =
    if not (slot == 0) && option_map_or (λ ty. words_of_type ty == 2) (slice_get locals (slot - 1)) false
    then slice_set locals (slot - 1) vtype.Top else locals""", 'cut_before slot locals = locals',
        [(SLOTS, 'set = value_set', 'set = value_set (cut_before slot ts) slot t v locals x y'),
         (ACTING, 'cut_renamed slot tys =', 'cut_renamed slot tys = refl'),
         (ACTING, 'cut_named slot tys all =', 'cut_named slot tys all = all')]),
    Weakening(
        'handler_stack', '4.10.1.6', 'what is caught counts as null where its handler begins', WALK,
        '&& fits_at (with_stack f (caught_type h ∷ [])) h.entry', '&& fits_at (with_stack f (vtype.Null ∷ [])) h.entry',
        imports='use Rattle.class_model.specs.declared.frame.VType.TheVariants as vtype\n'),
    Weakening(
        'return_type', '4.10.1.9.areturn', 'any reference is returned by a method that returns one', EFFECTS,
        'then popped env.classes (Assignable (vtype_of ty)) f', 'then popped env.classes (moved k) f'),
    Weakening(
        'array_element', '4.10.1.9.aaload', 'what is read from an array of references counts as null', EFFECTS,
        'element (vtype.Object ty) = vtype.Object (element_type ty)', 'element (vtype.Object ty) = vtype.Null'),
    Weakening(
        'protected_access', '4.10.1.8', 'a protected member is used on any object of the class that is named', EFFECTS,
        """guarded_use guarded ty =
      if guarded && not (is_assignable env.classes ty (own_type env)) then Err Protected else Ok tt""",
        'guarded_use guarded ty = Ok tt', [(RULING, 'guarding = by', 'guarding = (refl, (named.0, all.1))')]),
    Weakening(
        'uninitialised_object', '4.10.1.2', 'what a new made fits each class, whether or not a constructor was called',
        ASSIGNABLE, 'is_assignable (vtype.Uninit from) (vtype.Uninit to) = from == to',
        """is_assignable (vtype.Uninit from) (vtype.Uninit to) = from == to
  is_assignable (vtype.Uninit from) (vtype.Object to) = true"""),
    Weakening(
        'constructor_left_early', '4.10.1.9.return', 'a constructor returns before it called another one', EFFECTS,
        'constructor_returned f = if in_constructor env && f.marked then Err Uninit else Ok f',
        'constructor_returned f = Ok f',
        [(RULING, 'constructor_follows f named =', 'constructor_follows f named = (refl, named)')]),
    Weakening(
        'interface_argument', '4.10.1.2', 'a value of an interface fits each class', ASSIGNABLE,
        'reaches (Some from) (Some to) = is_interface_in classes to ||',
        'reaches (Some from) (Some to) = is_interface_in classes to || is_interface_in classes from ||',
        [(ASSIGNING, 'reaches_moved (Some x) (Some y) k h =', """reaches_moved (Some x) (Some y) k h =
      ap (λ (t : Bool). t || is_interface_in b (i.moved x) || is_class_below b (i.moved x) (i.moved y))
      (i.interface_moved y h)
      ∙ ap (λ (t : Bool). is_interface_in a y || t || is_class_below b (i.moved x) (i.moved y)) (i.interface_moved x k)
      ∙ ap (λ (t : Bool). is_interface_in a y || is_interface_in a x || t) (class_below_moved a b i x y k h)"""),
         (ORDER, 'assignable_below a b x y e f h =', """assignable_below a b x y e f h =
      ap (λ o. is_text a b || reaches classes o (class_named classes b)) e
      ∙ ap (λ o. is_text a b || reaches classes (Some x) o) f
      ∙ ap (λ c. is_text a b || (is_interface_in classes y || is_interface_in classes x || c)) h
      ∙ ends (is_text a b) (is_interface_in classes y || is_interface_in classes x)
    where
      ends : (p q : Bool) → (p || (q || true)) ≡ true
      ends true q = refl
      ends false true = refl
      ends false false = refl""")]),
    Weakening(
        'wide_condition', '4.10.1.9.if<cond>', 'a branch tests a long, or anything', RULES,
        'rule_of (op.IfZero c to) = Some (Takes (Assignable vtype.Int ∷ []) None)',
        'rule_of (op.IfZero c to) = Some (Takes (Assignable vtype.Top ∷ []) None)'),
    Weakening(
        'switch_default', '4.10.1.9.tableswitch', 'nothing is asked of where a switch leads otherwise', ENVIRONMENT,
        'targets (op.TableSwitch low other cases) = other ∷ cases', 'targets (op.TableSwitch low other cases) = cases'),
    Weakening(
        'special_receiver', '4.10.1.9.invokespecial', 'the object is of the class that is named, not of the own one',
        RULES,
        'else Uses (arguments ty) (Assignable (own_type env)) false (returned ty)',
        'else Uses (arguments ty) (receiver r) false (returned ty)'),
    Weakening(
        'reference_into_longs', '4.10.1.9.aastore', 'a reference is stored into any array', RULES,
        'array_store e = Takes (Assignable (element_moved e)',
        """array_store elem.Ref = Takes (Assignable object ∷ Assignable vtype.Int ∷ AnyArray ∷ []) None
array_store e = Takes (Assignable (element_moved e)"""),
]


# ---- trying them

def rt(folder, crate, verb):
    """Whether a crate of the stubs is proved, and what was said."""
    done = subprocess.run(['rt', verb, '--jobs', '1'], cwd=f'{folder}/crates/{crate}', stdout=subprocess.PIPE,
                          stderr=subprocess.STDOUT, text=True)
    return done.returncode == 0, done.stdout


def lemma_at(path, number):
    """The lemma of a file in which this line stands."""
    names = [re.match(r' *(?:(?:pub|abbrev|unfoldable) )*([^\s:]+) :', it) for it in read(path).splitlines()[:number]]
    return next((it.group(1) for it in reversed(names) if it), '?')


def failed_lemmas(folder, crate, said):
    """The lemmas of which rt said that they aren't proved, in the order in which it said so."""
    found = []
    for file, number in re.findall(r'^\.?/?(\S+\.antt):(\d+):\d+:\s+error', said, re.M):
        lemma = f'{os.path.basename(file)[:-5]}.{lemma_at(f"{folder}/crates/{crate}/{file}", int(number))}'
        found += [] if lemma in found else [lemma]
    return f'{crate} {", ".join(found) or "fails, and no lemma is told"}'


def laws_failed(folder, name):
    """The first crate of the laws that isn't proved, with the lemmas that fail, or nothing."""
    for crate in LAWS:
        proved, said = rt(folder, crate, 'lib')
        write(f'{folder}/said/{name}.{crate}', said)
        if not proved:
            return failed_lemmas(folder, crate, said)
    return ''


def with_clause(text, begun, clause):
    """A file in which the clause that begins so is another one, up to the next blank line."""
    found = re.compile(rf'^( *){re.escape(begun)}(?:.|\n)*?(?=\n\n)', re.M)
    if len(found.findall(text)) != 1:
        raise ValueError(f'{begun} stands {len(found.findall(text))} times')
    return found.sub(lambda match: match.group(1) + clause, text)


def try_weakening(folder, it):
    """What is to be said of a weakening; the files are put back."""
    path = f'{folder}/crates/type_verifier/{it.file}'
    changed = [path, *(f'{folder}/crates/{file}' for file, _, _ in it.adjusted)]
    paths = {file: read(file) for file in changed}
    try:
        write(path, it.weakened(paths[path]))
        for file, begun, clause in it.adjusted:
            write(f'{folder}/crates/{file}', with_clause(read(f'{folder}/crates/{file}'), begun, clause))
        proved, said = rt(folder, 'type_verifier', 'lib')
        if not proved:
            write(f'{folder}/said/{it.name}.type_verifier', said)
            return 'the definition itself is refused'
        proved, said = rt(folder, ROWS, 'check')
        write(f'{folder}/said/{it.name}.{ROWS}', said)
        row = 'no row fails' if proved else failed_lemmas(folder, ROWS, said)
        return f'{row}; {laws_failed(folder, it.name) or "all laws stand"}'
    finally:
        for path, text in paths.items():
            write(path, text)


def main(words):
    folder, names = os.path.abspath(words[0]), words[1:]
    if not os.path.isdir(folder):
        make(folder)
    if not names or 'none' in names:
        proved, said = rt(folder, ROWS, 'check')
        failed = laws_failed(folder, 'none') if proved else failed_lemmas(folder, ROWS, said)
        print(f'none: {failed or "all rows and laws stand"}', flush=True)
        if failed:
            return 1
    for it in WEAKENINGS:
        if not names or it.name in names:
            print(f'{it.name} (JVMS {it.section}: {it.says}): {try_weakening(folder, it)}', flush=True)
    return 0


if __name__ == '__main__':
    if len(sys.argv) < 2:
        sys.exit(__doc__)
    sys.exit(main(sys.argv[1:]))
