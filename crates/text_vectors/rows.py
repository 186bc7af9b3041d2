"""Makes stdin and stdout: rows of mappings, witnesses and traces with what is said of them. Run it in this folder: python3 rows.py

A row is a title, a text, and what is said of it: SAME where the text is written again as it is, a text where it is
written otherwise, or 'LINE KIND'. The answers are written by hand, but those of traces.
"""

from traces import TRACES

SAME = object()
Q = 'a -> b:\n'


def ints(count, word='int'):
    return ','.join([word] * count)


def member(line):
    return Q + '    ' + line + '\n'


MAPPINGS = [
    ('a member line first', '    int f -> g\n', '1 NoClass'),
    ('a member line before any class, at fault', '    int f g\n', '1 BadLine'),
    ('no colon', 'a -> b\n', '1 BadLine'),
    ('no arrow', 'a b:\n', '1 BadLine'),
    ('two blanks', 'a  -> b:\n', '1 BadLine'),
    ('a type as a class', 'a -> int:\n', '1 BadLine'),
    ('a type as an old class', 'void -> b:\n', '1 BadLine'),
    ('a type in a package is a class', 'p.int -> p.b:\n', SAME),
    ('slashes', 'a/b -> c:\n', '1 BadLine'),
    ('an empty part', 'a..b -> c:\n', '1 BadLine'),
    ('an array', 'a[] -> c:\n', '1 BadLine'),
    ('a blank at the end', 'a -> b: \n', '1 BadLine'),
    ('a tab', '\ta -> b:\n', '1 BadLine'),
    ('three blanks before a member', 'a -> b:\n   int f -> g\n', '2 BadLine'),
    ('five blanks before a member', 'a -> b:\n     int f -> g\n', '2 BadLine'),
    ('a tab before a member', 'a -> b:\n\tint f -> g\n', '2 BadLine'),
    ('the old name twice', 'a -> b:\na -> c:\n', '2 Repeated'),
    ('the new name twice', 'a -> b:\n\n# x\nc -> b:\n', '4 Repeated'),
    ('a new name that is an old one', 'a -> b:\nb -> c:\n', SAME),
    ('a field with lines', member('1:2:int f -> g'), '2 BadLine'),
    ('a method with lines', member('1:2:int f() -> g'), SAME),
    ('one line number', member('1:int f() -> g'), '2 BadLine'),
    ('a leading zero', member('01:2:int f() -> g'), '2 BadLine'),
    ('a number past 65535', member('1:65536:int f() -> g'), '2 BadLine'),
    ('0 and 65535', member('0:65535:int f() -> g'), SAME),
    ('the first above the last', member('9:2:int f() -> g'), SAME),
    ('original lines', member('1:2:int f():3:4 -> g'), '2 BadLine'),
    ('one original line', member('1:2:int f():3 -> g'), '2 BadLine'),
    ('no type', member('f() -> g'), '2 BadLine'),
    ('a void field', member('void f -> g'), '2 BadLine'),
    ('a void argument', member('void f(void) -> g'), '2 BadLine'),
    ('blanks between arguments', member('void f(int, int) -> g'), '2 BadLine'),
    ('an argument too few', member('void f(int,) -> g'), '2 BadLine'),
    ('arrays and classes', Q + '    p.Q[][] f(long[],p.R) -> g\n    int[] x -> y\n',
     Q + '    int[] x -> y\n    p.Q[][] f(long[],p.R) -> g\n'),
    ('a field named <init>', member('int <init> -> g'), '2 BadLine'),
    ('a method named <init>', Q + '    void <init>() -> <init>\n    void <clinit>() -> <clinit>\n', SAME),
    ('another name in angles', member('void <x>() -> g'), '2 BadLine'),
    ('a new name with a dot', member('int f -> g.h'), '2 BadLine'),
    ('no arrow in a member line', member('int f g'), '2 BadLine'),
    ('fields after methods', Q + '    int f() -> g\n    int f -> g\n', Q + '    int f -> g\n    int f() -> g\n'),
    ('a method twice', Q + '    int f() -> g\n    int f() -> h\n', SAME),
    ('no UTF-8', b'a -> b:\n    int \xff -> g\n', '2 NotUtf8'),
    ('no UTF-8 in a comment', b'# \xff\na -> b:\n', '1 NotUtf8'),
    ('the first line at fault', 'a -> b:\nx\na -> c:\n', '2 BadLine'),
    ('a # after a blank', 'a -> b:\n # x\n', '2 BadLine'),
    ('double is a type', member('double f(float[]) -> g'), SAME),
    ('255 argument words', member(f'void f({ints(255)}) -> g'), SAME),
    ('256 argument words', member(f'void f({ints(128, "long")}) -> g'), '2 BadLine'),
    # beside those of other readers
    ('no line', '', SAME),
    ('blank lines and comments alone', '\n \t \n#\n# x\r\n', ''),
    ('the last line without its end', 'a -> b:', Q),
    ('a CR before the end of a line', 'a -> b:\r\n    int f -> g\r\n', Q + '    int f -> g\n'),
    ('two CR before the end of a line', 'a -> b:\r\r\n', '1 BadLine'),
    ('a CR before the end of the text', 'a -> b:\r', '1 BadLine'),
    ('a CR alone is no line end', 'a -> b:\rc -> d:\n', '1 BadLine'),
    ('a member that belongs to the second class', Q + 'c -> d:\n    int f -> g\n', SAME),
    ('characters past ASCII', 'p.É -> p.a:\n    p.É ñ -> a\n', SAME),
    ('a character that ends too soon', b'p.\xc3 -> p.a:\n', '1 NotUtf8'),
    ('a name of digits', '1 -> 2:\n    1 3 -> 4\n    1:2:1 3(1,1) -> 4\n', SAME),
    ('a name with a minus', 'a-b -> -:\n    - -> -> -\n', '2 BadLine'),
    ('names of a minus', 'a-b -> -:\n    - - -> -\n', SAME),
    ('256 dimensions', member('int' + '[]' * 256 + ' f -> g'), '2 BadLine'),
    ('255 dimensions', member('int' + '[]' * 255 + ' f -> g'), SAME),
    ('254 words and a long', member(f'void f({ints(254)},long) -> g'), '2 BadLine'),
    ('two words of a long array are one', member(f'void f({ints(254)},long[]) -> g'), SAME),
    ('text behind the parameters', member('void f()x -> g'), '2 BadLine'),
    ('two open parentheses', member('void f(() -> g'), '2 BadLine'),
    ('a parenthesis that isn\'t closed', member('void f( -> g'), '2 BadLine'),
    ('a sign before a line number', member('+1:2:int f() -> g'), '2 BadLine'),
    ('lines without a type', member('1:2:f() -> g'), '2 BadLine'),
]

W = 'witness 1\n'
M = 'method a int f(int)\n'


def acts(step, *lines):
    return W + M + f'step {step}\n' + ''.join(line + '\n' for line in lines)


WITNESSES = [
    ('no method', W, SAME),
    ('no line', '', '1 BadLine'),
    ('blank lines and comments alone', '# x\n\n', '3 BadLine'),
    ('another version', 'witness 2\n', '1 BadLine'),
    ('the version twice', W + W, '2 BadLine'),
    ('a method before the version', M, '1 BadLine'),
    ('comments and blank lines', '# x\n' + W + '\n \t\n#\n', W),
    ('the last line without its end', 'witness 1', W),
    ('a CR before the end of a line', 'witness 1\r\n', W),
    ('a CR before the end of the text', 'witness 1\r', '1 BadLine'),
    ('a blank before the version', ' witness 1\n', '1 BadLine'),
    ('a drop', acts(1, 'drop 0 4294967295'), SAME),
    ('facts and a fold', acts(2, 'fact 2 7 1 5', 'fact 8 8 0 -2147483648', 'fact 9 9 0 2147483647', 'fold 3 4'), SAME),
    ('a drop in the third step', acts(3, 'drop 1 1', 'drop 3 4'), SAME),
    ('a cut', acts(4, 'cut 12'), SAME),
    ('an aim and a skip', acts(5, 'aim 1 0 4', 'skip 7'), SAME),
    ('a drop in the last step', acts(6, 'drop 1 1'), SAME),
    ('all steps', acts(1, 'drop 1 1', 'step 2', 'fold 1 1', 'step 3', 'drop 0 1', 'step 4', 'cut 1', 'step 5', 'skip 1',
                       'step 6', 'drop 2 2'), SAME),
    ('a range from above', acts(1, 'drop 4 1'), SAME),
    ('minus zero', acts(2, 'fact 1 1 0 -0'), acts(2, 'fact 1 1 0 0')),
    ('a value with a plus', acts(2, 'fact 1 1 0 +1'), '4 BadLine'),
    ('a value with a leading zero', acts(2, 'fact 1 1 0 01'), '4 BadLine'),
    ('minus and a leading zero', acts(2, 'fact 1 1 0 -01'), '4 BadLine'),
    ('minus alone', acts(2, 'fact 1 1 0 -'), '4 BadLine'),
    ('a value past the greatest', acts(2, 'fact 1 1 0 2147483648'), '4 BadLine'),
    ('a value past the least', acts(2, 'fact 1 1 0 -2147483649'), '4 BadLine'),
    ('a place with a sign', acts(1, 'drop -1 1'), '4 BadLine'),
    ('a place with a leading zero', acts(1, 'drop 01 1'), '4 BadLine'),
    ('a place past 32 bits', acts(1, 'drop 1 4294967296'), '4 BadLine'),
    ('a drop with one place', acts(1, 'drop 1'), '4 BadLine'),
    ('a drop with three places', acts(1, 'drop 1 1 1'), '4 BadLine'),
    ('a fold with one place', acts(2, 'fold 1'), '4 BadLine'),
    ('a fact without a value', acts(2, 'fact 1 1 0'), '4 BadLine'),
    ('a cut with two places', acts(4, 'cut 1 1'), '4 BadLine'),
    ('an aim without a target', acts(5, 'aim 1 0'), '4 BadLine'),
    ('a skip without a place', acts(5, 'skip'), '4 BadLine'),
    ('two blanks', acts(1, 'drop 1  1'), '4 BadLine'),
    ('a tab', acts(1, 'drop 1\t1'), '4 BadLine'),
    ('a blank at the end', acts(1, 'drop 1 1 '), '4 BadLine'),
    ('another word', acts(1, 'keep 1 1'), '4 BadLine'),
    ('a drop among facts', acts(2, 'drop 1 1'), '4 BadLine'),
    ('a fact in the first step', acts(1, 'fact 1 1 0 0'), '4 BadLine'),
    ('a fold in the fourth step', acts(4, 'fold 1 1'), '4 BadLine'),
    ('a cut in the fifth step', acts(5, 'cut 1'), '4 BadLine'),
    ('an aim in the fourth step', acts(4, 'aim 1 0 1'), '4 BadLine'),
    ('a skip in the sixth step', acts(6, 'skip 1'), '4 BadLine'),
    ('a step of no number', acts(0), '3 BadLine'),
    ('a seventh step', acts(7), '3 BadLine'),
    ('a step with a leading zero', W + M + 'step 01\ndrop 1 1\n', '3 BadLine'),
    ('a step out of order', acts(5, 'skip 1', 'step 4', 'cut 1'), '5 BadOrder'),
    ('a step twice', acts(5, 'skip 1', 'step 5', 'skip 2'), '5 BadOrder'),
    ('a step right behind a step', acts(3, 'step 2'), '4 BadLine'),
    ('a later step right behind a step', acts(3, 'step 4'), '4 BadLine'),
    ('a step before a method', W + 'step 1\n', '2 BadLine'),
    ('an act before a method', W + 'drop 1 1\n', '2 BadLine'),
    ('an act before a step', W + M + 'drop 1 1\n', '3 BadLine'),
    ('a method right behind a method', W + M + M, '3 BadLine'),
    ('a method right behind a step', acts(1, 'method a int g(int)'), '4 BadLine'),
    ('the text ends behind a method', W + M, '3 BadLine'),
    ('the text ends behind a step', acts(1), '4 BadLine'),
    ('the text ends behind a step and comments', acts(1) + '# x\n\n', '6 BadLine'),
    ('two methods of one class', acts(1, 'drop 1 1', 'method a int e(int)', 'step 4', 'cut 0'), SAME),
    ('a method twice', acts(1, 'drop 1 1', 'method a int f(int)', 'step 4', 'cut 0'), '5 BadOrder'),
    ('another result', acts(1, 'drop 1 1', 'method a long f(int)', 'step 4', 'cut 0'), SAME),
    ('another parameter', acts(1, 'drop 1 1', 'method a int f(long)', 'step 4', 'cut 0'), SAME),
    ('two classes', acts(1, 'drop 1 1', 'method b int f(int)', 'step 4', 'cut 0'), SAME),
    ('a class that comes before', W + 'method b void f()\nstep 4\ncut 0\nmethod a void f()\n', '5 BadOrder'),
    ('a class in between', acts(1, 'drop 1 1', 'method b int f(int)', 'step 1', 'drop 1 1', 'method a int g(int)'),
     '8 BadOrder'),
    ('paths are compared, not names', W + 'method a-b void f()\nstep 4\ncut 0\nmethod a void f()\nstep 4\ncut 0\n', SAME),
    ('a name that is longer', W + 'method a void f()\nstep 4\ncut 0\nmethod a-b void f()\nstep 4\ncut 0\n', '5 BadOrder'),
    ('paths have slashes', W + 'method a$ void f()\nstep 4\ncut 0\nmethod a.b void f()\nstep 4\ncut 0\n', SAME),
    ('types of all kinds', W + 'method p.Q p.R[][] <init>(boolean,byte,char,short,int,long,float,double,p.S[])\nstep 4\n'
     'cut 0\n', SAME),
    ('no result', W + 'method a void <clinit>()\nstep 4\ncut 0\n', SAME),
    ('no descriptor', W + 'method a f()\n', '2 BadLine'),
    ('a field', W + 'method a int f\n', '2 BadLine'),
    ('text behind the parameters', W + 'method a int f() \n', '2 BadLine'),
    ('a void parameter', W + 'method a int f(void)\n', '2 BadLine'),
    ('256 argument words', W + f'method a void f({ints(128, "long")})\n', '2 BadLine'),
    ('a class with slashes', W + 'method a/b int f()\n', '2 BadLine'),
    ('a type as a class', W + 'method int int f()\n', '2 BadLine'),
    ('another name in angles', W + 'method a int <f>()\n', '2 BadLine'),
    ('no UTF-8', b'witness 1\n# \xff\n', '2 NotUtf8'),
    ('no UTF-8 before the version', b'\xff\nx\n', '1 NotUtf8'),
    ('characters past ASCII', W + 'method É void ñ()\nstep 4\ncut 0\n', SAME),
]


def written(name):
    return open(f'proguard/{name}.txt').read()


# what ProGuard 6.2.2 wrote: proguard/README.md tells how
MAPPINGS += [
    ('ProGuard 6.2.2 with optimisation: the original lines of an inlined call', written('optimised'), '7 BadLine'),
    ('ProGuard 6.2.2 without optimisation', written('shrunk'), SAME),
    ('ProGuard 6.2.2 without line numbers, one name for all that may share it', written('renamed'), SAME),
]


def spelled(text):
    if isinstance(text, str):
        text = text.encode()
    names = {10: '\\n', 13: '\\r', 9: '\\t', 92: '\\\\'}
    return ''.join(names.get(b) or (chr(b) if 32 <= b < 127 else f'\\x{b:02x}') for b in text)


def main():
    asked, said = [], []
    for word, rows in (('mapping', MAPPINGS), ('witness', WITNESSES)):
        for title, text, answer in rows:
            asked += [f'# {title}', f'{word} {spelled(text)}']
            is_fault = isinstance(answer, str) and answer[:1].isdigit() and '\n' not in answer
            said += [f'# {title}', answer if is_fault else 'ok ' + spelled(text if answer is SAME else answer)]
    for title, mapping, trace, answer in TRACES:
        asked += [f'# {title}', f'retrace {spelled(mapping).replace(" ", chr(92) + "s")} {spelled(trace)}']
        said += [f'# {title}', answer if isinstance(answer, str) else 'ok ' + spelled(answer)]
    open('stdin', 'w').write('\n'.join(asked) + '\n')
    open('stdout', 'w').write('\n'.join(said) + '\n')


main()
