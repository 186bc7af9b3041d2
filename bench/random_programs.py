#!/usr/bin/env python3
"""Java sources of small random programs that the shrinker takes, for forge.py.

    python3 bench/random_programs.py SEED COUNT DIR      writes COUNT programs in packages r0, r1 .. below DIR

Each has a main class rN.Main that prints, and classes below rN.x and rN.y: interfaces, superclasses and what overrides them,
also with package access, fields with and without constants, exceptions, loops, switches, handlers, arrays, longs and texts.
A method calls those of classes before its own alone, so each program ends.
"""
import os
import random
import sys

OPERATORS = ['+', '-', '*', '&', '|', '^']
COMPARED = ['<', '<=', '>', '>=', '==', '!=']


class Kind:
    """A class: its name, what it extends and which names and methods it has."""

    def __init__(self, number, package, above, face):
        self.number, self.package, self.above, self.face = number, package, above, face
        self.name = f'{package}.C{number}'


class Writer:
    def __init__(self, rng, top):
        self.rng, self.top, self.kinds, self.depth = rng, top, [], 0
        self.locals = []

    def number(self):
        return str(self.rng.choice([0, 1, 2, 3, 5, 7, 10, 100, 127, 128, 300, 32767, 40000, 1234567]))

    def value(self, deep=2):
        """An int."""
        rng = self.rng
        plain = [self.number(), *self.locals]
        if deep == 0:
            return rng.choice(plain)
        pick = rng.randrange(10)
        if pick < 4:
            return f'({self.value(deep - 1)} {rng.choice(OPERATORS)} {self.value(deep - 1)})'
        if pick == 4:
            return f'({self.value(deep - 1)} {rng.choice(COMPARED)} {self.value(deep - 1)} ? {self.value(deep - 1)} : {self.value(0)})'
        if pick == 5:
            return f'(int) (({self.value(0)} + 5000000000L) {rng.choice(["/ 3L", "% 1000L", ">> 7", "* 2L"])})'
        if pick < 9 and self.kinds:
            kind = rng.choice(self.kinds)
            made = f'new {kind.name}({self.value(0)})'
            return rng.choice([f'{kind.name}.s{kind.number}({self.value(0)}, {self.value(0)})', f'{kind.name}.total{kind.number}',
                               f'{made}.m{rng.randrange(3)}({self.value(0)})', f'{made}.value', f'{kind.name}.LIMIT{kind.number}'])
        return rng.choice(plain)

    def statement(self, deep=2):
        rng = self.rng
        pick = rng.randrange(9 if deep else 3)
        aim = rng.choice([it for it in self.locals if it[0] == 'v'])
        if pick == 0:
            return f'{aim} = {self.value()};'
        if pick == 1:
            return f'{aim} += {rng.choice(["3", "-2", "200"])};'
        if pick == 2:
            return f'if ({self.value(1)} {rng.choice(COMPARED)} {self.value(1)}) {{ {aim} = {self.value(1)}; }}'
        if pick == 3:
            self.depth += 1
            name = f'i{self.depth}'
            self.locals.append(name)
            text = f'for (int {name} = 0; {name} < {rng.randrange(1, 5)}; {name}++) {{ {self.statement(deep - 1)} }}'
            self.locals.remove(name)
            return text
        if pick == 4:
            rows = ' '.join(f'case {k}: {aim} = {self.value(1)}; break;' for k in rng.choice([[0, 1, 2], [3, 90, 1000], [1, 2, 3, 7]]))
            return f'switch ({self.value(1)} & 7) {{ {rows} default: {aim}++; }}'
        if pick == 5:
            return (f'try {{ {aim} = {self.value(1)} / ({self.value(0)} & 3); }} catch (ArithmeticException e) {{ {aim} = {self.value(0)}; '
                    f'{self.top}.Main.note(e.getMessage()); }}')
        if pick == 6:
            return f'{{ int[] row = new int[4]; row[{aim} & 3] = {self.value(1)}; {aim} = row[2] + row.length; }}'
        if pick == 7:
            return f'try {{ if ({aim} > {self.number()}) throw new {self.top}.x.Broken("b" + {aim}, {aim}); {self.statement(0)} }} ' \
                   f'catch ({self.top}.x.Broken e) {{ {aim} = e.code; }} finally {{ {aim} ^= 1; }}'
        return f'{{ {self.statement(deep - 1)} {self.statement(deep - 1)} }}'

    def body(self, result='v0'):
        self.locals, self.depth = ['a', 'v0', 'v1'], 0
        lines = [f'int v0 = {self.number()};', 'int v1 = a;'] + [f'{{ {self.statement()} }}' for _ in range(self.rng.randrange(1, 4))]
        return ' '.join(lines) + f' return {result} + v1;'

    def source(self, kind):
        rng, n = self.rng, kind.number
        below = f' extends {kind.above.name}' if kind.above else ''
        face = f' implements {kind.face}' if kind.face else ''
        first = f'super({self.number()} + v);' if kind.above else ''
        parts = [f'package {kind.package};', f'public class C{n}{below}{face} {{',
                 f'public static final int LIMIT{n} = {self.number()}; static final String NAME = "n{n}"; static final long BIG = {n + 3}L;',
                 f'public static int total{n} = {self.number()};', 'private C%d other;' % n,
                 *(['public int value; protected String text;'] if not kind.above else []),
                 f'public C{n}(int v) {{ {first} value = v * {n + 2}; text = "t" + v; }}',
                 f'public static int s{n}(int a, int b) {{ {self.body("v0 + b")} }}']
        for k in range(3):
            if not kind.above or rng.random() < 0.6:
                call = f'super.m{k}(a) + ' if kind.above and rng.random() < 0.5 else ''
                parts.append(f'public int m{k}(int a) {{ {self.body(call + "v0 + value")} }}')
        for k in range(2):
            if rng.random() < 0.7:
                parts.append(f'int p{k}(int a) {{ {self.body()} }}')
        if not kind.above:
            parts.append('public int through(int a) { return near(a) + m0(a); } int near(int a) { return a + value; }')
        elif rng.random() < 0.6:
            parts.append(f'public int near(int a) {{ return a * {n + 2}; }}')
        if kind.face:
            parts.append(f'public int apply(int a) {{ {self.body()} }}')
        if rng.random() < 0.4:
            parts.append('public String toString() { return "C%d:" + value; }' % n)
        if rng.random() < 0.5:
            parts.append('private int own(int a) { return a - 1; } public int mine(int a) { return own(a) + own(2); }')
        if rng.random() < 0.3:
            parts.append(f'static int lost{n}(int a) throws {self.top}.x.Lost {{ if (a > 3) throw new {self.top}.x.Lost(); return a; }}')
        return ' '.join(parts) + ' }'

    def main(self):
        lines = [f'package {self.top};', 'public class Main {', 'static int count; static String[] WORDS = {"one", "two", "three"};',
                 'public static void note(String text) { count++; if (count < 30) System.out.println(text); }',
                 'static void twice(Runnable what) { what.run(); what.run(); }',
                 'public static void main(String[] args) {']
        for kind in self.kinds:
            self.locals = ['count']
            made = f'new {kind.name}({self.number()})'
            lines += self.rng.sample([f'note("s {kind.number} " + {kind.name}.s{kind.number}({self.value(0)}, 3));',
                                      f'note("m " + {made}.m{self.rng.randrange(3)}({self.value(1)}));',
                                      f'note("t " + {made}.through({self.value(0)}));',
                                      f'{{ Object o = {made}; note(o instanceof {self.kinds[0].name} ? "yes" : "no"); }}'],
                                     self.rng.randrange(1, 4))
            if kind.face and self.rng.random() < 0.8:
                lines.append(f'{{ {kind.face} f = {made}; note("f " + f.apply({self.value(0)})); }}')
        lines.append('twice(new Runnable() { public void run() { note("run " + WORDS[count % 3] + count); } });')
        lines.append(f'{self.top}.x.Broken broken = new {self.top}.x.Broken("last", count); broken.more(broken);')
        return ' '.join(lines) + ' note(WORDS[count & 1]); } }'


def program(rng, top, of=Writer):
    """The sources of one program by their paths, its bodies by a writer."""
    writer, files = of(rng, top), {}
    faces = [f'{top}.{place}.I{k}' for k, place in enumerate('xy')]
    for name in faces:
        package, _, short = name.rpartition('.')
        files[name] = f'package {package}; public interface {short} {{ int FIRST = {rng.randrange(9)}; int apply(int a); }}'
    files[f'{top}.x.Broken'] = (f'package {top}.x; public class Broken extends RuntimeException {{ public final int code; '
                                'public Broken(String text, int code) { super(text); this.code = code; } '
                                'public void more(Throwable cause) { Main.note("more"); } }').replace('Main.', f'{top}.Main.')
    files[f'{top}.x.Lost'] = f'package {top}.x; public class Lost extends Exception {{ }}'
    for number in range(rng.randrange(4, 8)):
        above = rng.choice(writer.kinds) if writer.kinds and rng.random() < 0.7 else None
        kind = Kind(number, f'{top}.{rng.choice("xxy")}', above, rng.choice(faces) if rng.random() < 0.5 else None)
        files[kind.name] = writer.source(kind)
        writer.kinds.append(kind)
    files[f'{top}.Main'] = writer.main()
    return files


def write(seed, count, top, of=Writer):
    rng, paths = random.Random(seed), []
    for k in range(count):
        for name, text in program(rng, f'r{k}', of).items():
            path = os.path.join(top, name.replace('.', '/') + '.java')
            os.makedirs(os.path.dirname(path), exist_ok=True)
            with open(path, 'w') as out:
                out.write(text)
            paths.append(path)
    return paths


if __name__ == '__main__':
    if len(sys.argv) != 4:
        sys.exit(__doc__)
    write(int(sys.argv[1]), int(sys.argv[2]), sys.argv[3])
