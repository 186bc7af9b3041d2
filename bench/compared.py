#!/usr/bin/env python3
"""Runs programs by `run` and by `java`, before and after they were shrunk, and holds `compare` against both.

    python3 bench/compared.py PROGRAM examples
    python3 bench/compared.py PROGRAM random [--programs N] [--seed N] [--keep DIR]

PROGRAM is a built program (bin/cixorradde's, or one of .try).

`examples` takes the examples with a few words each. `random` writes N small programs (200 unless said otherwise) by
random_programs.py, the second half of them by folding.py, and takes their main methods, and static methods of two ints of their
classes with ints at random. Each program is shrunk, every third one under -dontoptimize. What `run` prints and how it says
that the run ended has to be what HotSpot does, of the input and of the output, read through the mapping; `compare` has to say
`same`. Then an int that some code of the output pushes is changed, in a few outputs of each program, and `compare` has to say
`same` where HotSpot does the same by both, and `error 13 differs` where it doesn't; of exceptions HotSpot doesn't tell which object
was thrown, so where both throw one of the same class any answer will do. What differs is told, and the status is 1 then; with --keep
the programs stay below DIR.
"""
import argparse
import collections
import random
import re
import shutil
import subprocess
import sys
import tempfile
from pathlib import Path

sys.dont_write_bytecode = True
sys.path.insert(0, str(Path(__file__).resolve().parent))
import folding
import random_programs
from both import put, tree
from classes import Bad, read_class, write_class

TOP = Path(__file__).resolve().parent.parent
STEPS = 2_000_000
MAIN = 'main(java.lang.String[])'
CONFIG = ('-injars in\n-outjars out\n-printmapping map.txt\n-keepclasseswithmembers class * { public static void main(java.lang.String[]); }\n'
          '-keep,allowobfuscation class * { static int s*(int, int); }\n')
EXAMPLES = {'minimal': ('Hello', [[], ['you'], ['\u00fc \u20ac \U0001f600'], ['']]),
            'app': ('Main', [[], ['2*n'], ['1+2*3', '(4-n)*7'], ['1/0'], ['2*(3'], ['n*n*n-7']]),
            'railway': ('Railway', [[], ['Harbour Hill changes'], ['Harbour Abbey minutes', 'Market Hill changes'], ['Mill Moon minutes'], ['x']]),
            'vending': ('Vending', [[], ['c200p1'], ['c50c50p2r', 'kkc100'], ['p9', 'x1'], ['c']])}

# Runs a method of the classes of a folder, in a loader of its own: `FOLDER CLASS METHOD WORD..`, each in hex. Answers how it ended,
# as the command says it, and what it printed, in hex; `end running` where it hasn't ended after forty seconds.
JAVA = '''
import java.io.*; import java.lang.reflect.*; import java.net.*; import java.util.*;
public class Ran {
    static Method method(Class<?> of, String name) {
        for (Method it : of.getDeclaredMethods()) if (it.getName().equals(name) && fits(it)) { it.setAccessible(true); return it; }
        throw new RuntimeException(name);
    }
    static boolean fits(Method it) {
        if (it.getName().equals("main")) return Arrays.equals(it.getParameterTypes(), new Class<?>[] {String[].class});
        return Arrays.equals(it.getParameterTypes(), new Class<?>[] {int.class, int.class});
    }
    static String end(Method it, Object value) {
        if (it.getReturnType() == void.class) return "returned";
        return "returned " + (value == null ? "null" : value instanceof Integer ? value.toString() : "ref");
    }
    @SuppressWarnings({"deprecation", "removal"})
    static String run(String folder, String of, String name, List<String> words) throws Exception {
        ByteArrayOutputStream bytes = new ByteArrayOutputStream();
        PrintStream before = System.out;
        System.setOut(new PrintStream(bytes, true, "UTF-8"));
        String[] end = {"running"};
        try (URLClassLoader loader = new URLClassLoader(new URL[] {new File(folder).toURI().toURL()}, null)) {
            Thread thread = new Thread(() -> {
                try {
                    Method it = method(Class.forName(of, false, loader), name);
                    Object[] given = {words.toArray(new String[0])};
                    if (!name.equals("main")) given = words.stream().map(Integer::valueOf).toArray();
                    end[0] = end(it, it.invoke(null, given));
                } catch (InvocationTargetException e) { end[0] = "threw " + e.getCause().getClass().getName();
                } catch (LinkageError e) { end[0] = "threw " + e.getClass().getName();
                } catch (Throwable e) { end[0] = "fault " + e; }
            });
            thread.setDaemon(true); thread.start(); thread.join(40000);
            if (thread.isAlive()) thread.stop();
        } finally { System.setOut(before); }
        StringBuilder hex = new StringBuilder("-");
        for (byte it : bytes.toByteArray()) hex.append(String.format("%02x", it));
        return "end " + end[0] + "\\t" + hex;
    }
    static String text(String hex) throws Exception {
        byte[] bytes = new byte[hex.length() / 2];
        for (int k = 0; k < bytes.length; k++) bytes[k] = (byte) Integer.parseInt(hex.substring(2 * k, 2 * k + 2), 16);
        return new String(bytes, "UTF-8");
    }
    public static void main(String[] none) throws Exception {
        BufferedReader in = new BufferedReader(new InputStreamReader(System.in));
        PrintStream out = System.out;
        for (String line; (line = in.readLine()) != null; ) {
            List<String> part = new ArrayList<>();
            for (String hex : line.split(" ")) part.add(text(hex.substring(1)));
            out.println(run(part.get(0), part.get(1), part.get(2), part.subList(3, part.size())));
        }
        System.exit(0);
    }
}
'''


class Hotspot:
    """Calls that are to be run by `java`, all at once, and their answers."""

    def __init__(self, room):
        self.room, self.asked, self.answers = room, [], []
        Path(room, 'Ran.java').write_text(JAVA)
        subprocess.run(['javac', '-d', str(room), f'{room}/Ran.java'], check=True)

    def ask(self, folder, call):
        """The number of the answer."""
        of, name = call.entry.split('(')[0].rsplit('.', 1)
        self.asked.append(' '.join('-' + it.encode().hex() for it in [str(folder), of, name, *call.words]))
        return len(self.asked) - 1

    def run(self):
        done = subprocess.run(['java', '-Xverify:all', '-cp', str(self.room), 'Ran'], input='\n'.join(self.asked) + '\n',
                              capture_output=True, text=True)
        for line in done.stdout.splitlines():
            end, printed = line.split('\t')
            self.answers.append((end, bytes.fromhex(printed[1:])))
        if len(self.answers) != len(self.asked):
            sys.exit(f'java: {done.stderr[-2000:]}')


class Call:
    """An entry, as the command has it, and its words."""

    def __init__(self, entry, words):
        self.entry, self.words = entry, words

    def through(self, names):
        """The same in an output with these names."""
        of, name = self.entry.split('(')[0].rsplit('.', 1)
        new, members = names.get(of, (of, {}))
        kind = '(' + self.entry.split('(')[1]
        return Call(f'{new}.{members.get(name + kind, name)}{kind}', self.words)

    def spelled(self):
        return [self.entry, str(STEPS), *('~' + it[1:] if re.fullmatch(r'-\d+', it) else it for it in self.words)]


def names_of(mapping):
    """What a mapping calls classes, and their methods, by their old names."""
    found, members = {}, {}
    for line in mapping.read_text().splitlines():
        old, _, new = line.strip().rpartition(' -> ')
        if not line.startswith(' '):
            members = {}
            found[old] = (new.rstrip(':'), members)
        elif '(' in old:
            members[re.sub(r'^(\d+:)*', '', old).split(' ')[1]] = new
    return found


def ran(program, folder, call):
    """What `run` says: its last line, and what is before it."""
    done = subprocess.run([program, 'run', str(folder), *call.spelled()], capture_output=True)
    if done.returncode:
        return done.stdout.decode(), b''
    *lines, last, _ = done.stdout.split(b'\n')
    return last.decode(), b''.join(it + b'\n' for it in lines)


def compared(program, top, call):
    done = subprocess.run([program, 'compare', 'c.pro', *call.spelled()], cwd=top, capture_output=True, text=True)
    return done.stdout.strip()


def is_shown(said, answer, names=None):
    """Whether `run` said what HotSpot did; with names, what it did of the input, where `run` ran the output."""
    (last, printed), (end, whole) = said, answer
    shown = whole if not whole or whole.endswith(b'\n') else whole + b'\n'
    if names and end.startswith('end threw '):
        end = 'end threw ' + names.get(end[10:], (end[10:], {}))[0]
    return last == end and printed == shown


class Tried:
    """What was tried, with counts, and what went wrong."""

    def __init__(self, program, room):
        self.program, self.hotspot, self.counts, self.wrong = program, Hotspot(room), collections.Counter(), 0
        self.later = []

    def told(self, word, good, why):
        self.counts[word, bool(good)] += 1
        if not good:
            self.wrong += 1
            print(f'{word}: {why}', flush=True)

    def pair(self, top, calls):
        """Calls of a pair as it was shrunk."""
        names = names_of(top / 'map.txt')
        for call in calls:
            before, after = self.hotspot.ask(top / 'in', call), self.hotspot.ask(top / 'out', call.through(names))
            said = ran(self.program, top / 'in', call), ran(self.program, top / 'out', call.through(names))
            self.later.append((top, call, names, before, after, said, compared(self.program, top, call)))

    def changed(self, top, calls, rng, times):
        """The same where an int of the output was changed."""
        names, whole = names_of(top / 'map.txt'), tree(top / 'out')
        for k in range(times):
            files = dict(whole)
            if not change(rng, files):
                continue
            other = top / f'other{k}'
            put(other / 'out', files)
            for name in ('c.pro', 'map.txt'):
                shutil.copy(top / name, other / name)
            (other / 'in').symlink_to(top / 'in')
            for call in calls:
                before, after = self.hotspot.ask(top / 'in', call), self.hotspot.ask(other / 'out', call.through(names))
                self.later.append((other, call, names, before, after, None, compared(self.program, other, call)))

    def ended(self):
        """Looks at all that was asked for."""
        self.hotspot.run()
        for top, call, names, before, after, said, same in self.later:
            before, after = self.hotspot.answers[before], self.hotspot.answers[after]
            where = f'{call.entry} {call.words} in {top}'
            if said:
                self.told('run of an input', is_shown(said[0], before), f'{where}: {said[0]} and {before}')
                self.told('run of an output', is_shown(said[1], before, names), f'{where}: {said[1]} and {before}')
                self.told('compare', same == 'same', f'{where}: {same}')
                self.counts[before[0].split()[1] + ' by HotSpot'] += 1
            else:
                mapped = 'end threw ' + names.get(before[0][10:], (before[0][10:], {}))[0] if before[0].startswith('end threw ') else before[0]
                alike = (mapped, before[1]) == after
                due = ['same'] if alike else ['error 13 differs']
                due += ['error 13 differs'] * (alike and ' threw ' in mapped)
                self.told(f'compare, an int changed: {due[0]}', same in due, f'{where}: {same}, {before} and {after}')

    def summary(self):
        for word in sorted(it for it in self.counts if isinstance(it, str)):
            print(f'{word}: {self.counts[word]}')
        for word in sorted({it[0] for it in self.counts if not isinstance(it, str)}):
            good = self.counts[word, True]
            print(f'{word}: {good} of {good + self.counts[word, False]}')
        print(f'{self.wrong} wrong')
        return 1 if self.wrong else 0


def change(rng, files):
    """Changes an int that a code pushes; whether there is one."""
    paths = sorted(it for it in files if it.endswith('.class'))
    rng.shuffle(paths)
    for path in paths:
        found = read_class(files[path])
        places = [(code, k) for code in (it.code for it in found.methods if it.code) for k, ins in enumerate(code.ins) if ins[0] == 'int']
        if places:
            code, k = rng.choice(places)
            code.ins[k] = ['int', code.ins[k][1] + rng.choice([1, -1, 7])]
            try:
                files[path] = write_class(found)
            except (Bad, OverflowError, ValueError):
                continue
            return True
    return False


def shrink(program, top, more=''):
    (top / 'c.pro').write_text(CONFIG + more)
    done = subprocess.run([program, 'shrink', 'c.pro', 'wit.txt'], cwd=top, capture_output=True, text=True)
    if done.returncode:
        sys.exit(f'shrink in {top}: {done.stdout}')


def examples(program, room):
    tried = Tried(program, room)
    for name, (main, words) in EXAMPLES.items():
        top = room / name
        put(top / 'in', tree(TOP / 'examples' / name / 'in'))
        shrink(program, top)
        tried.pair(top, [Call(f'{main}.{MAIN}', it) for it in words])
    tried.ended()
    return tried.summary()


def some_calls(rng, top):
    """The main method of a random program, and a few calls of its static methods."""
    sources = (top / 'in').rglob('C*.class')
    found = sorted(str(it.relative_to(top / 'in'))[:-6].replace('/', '.') for it in sources)
    calls = [Call(f'{top.name}.Main.{MAIN}', rng.choice([[], ['a', 'b c']]))]
    for of in rng.sample(found, min(3, len(found))):
        number = re.search(r'\d+$', of)[0]
        words = [str(rng.choice([0, 1, -1, 2, 7, 127, -128, 40000, 2147483647, -2147483648])) for _ in range(2)]
        calls.append(Call(f'{of}.s{number}(int,int)', words))
    return calls


def programs(room, seed, count, of):
    """Writes and compiles random programs, each to a folder of its own. An exception that the machine makes has no message, so none is printed."""
    room.mkdir()
    for path in random_programs.write(seed, count, str(room / 'sources'), of):
        text = Path(path).read_text()
        Path(path).write_text(text.replace('note(e.getMessage())', 'note("caught")'))
    folding.compiled(room, count)
    return [room / f'r{k}' for k in range(count)]


def random_ones(program, room, count, seed):
    rng, tried = random.Random(seed), Tried(program, room)
    tops = programs(room / 'plain', seed, count - count // 2, random_programs.Writer)
    tops += programs(room / 'folded', seed, count // 2, folding.Folding)
    for k, top in enumerate(tops):
        shrink(program, top, '-dontoptimize\n' if k % 3 == 0 else '')
        calls = some_calls(rng, top)
        tried.pair(top, calls)
        tried.changed(top, calls[:2], rng, 3)
    tried.ended()
    return tried.summary()


def main():
    parser = argparse.ArgumentParser(usage=__doc__)
    parser.add_argument('program', type=lambda path: str(Path(path).resolve()))
    parser.add_argument('what', choices=['examples', 'random'])
    parser.add_argument('--programs', type=int, default=200)
    parser.add_argument('--seed', type=int, default=1)
    parser.add_argument('--keep')
    words = parser.parse_args()
    with tempfile.TemporaryDirectory(prefix='compared-') as folder:
        room = Path(words.keep or folder)
        room.mkdir(parents=True, exist_ok=True)
        if words.what == 'examples':
            return examples(words.program, room)
        return random_ones(words.program, room, words.programs, words.seed)


if __name__ == '__main__':
    sys.exit(main())
