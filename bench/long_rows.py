#!/usr/bin/env python3
"""Writes rows for the program of crates/run_vectors: runs that print as much as may be said, and a unit more.

    python3 bench/long_rows.py IN OUT        appends the lines of standard input to IN, the answers to OUT

Answers are worked out by hand: of 67,108,863 units without an LF at the end an LF makes 67,108,864 bytes, which is the limit;
so one row has a put that fails in place of a text of that size. `javac` has to be there.
"""
import subprocess
import sys
import tempfile
from pathlib import Path

SOURCE = '''package t;
class Wide {
    static void f(int tail) {
        String s = "0123456789abcdef";
        for (int i = 0; i < 12; i++) s = s + s;
        for (int i = 0; i < 1023; i++) System.out.print(s);
        System.out.print(s.substring(0, tail));
    }
}
'''
# what fails, the units of the last print, and the answer
ROWS = [('as much is printed as may be said, and it cannot be put', '0', 65535, r'7 error\s7\sdevice\n'),
        ('as much is printed as may be said, and nothing can be put', '0,1', 65535, r'7 \e'),
        ('a unit more is printed', '-', 65536, r'6 error\s6\slimit\stext\s67108864\n'),
        ('a unit more is printed, and the first put fails', '0', 65536, r'6 \e')]


def main():
    with tempfile.TemporaryDirectory() as top:
        Path(top, 'Wide.java').write_text(SOURCE)
        subprocess.run(['javac', '--release', '8', '-g:none', '-Xlint:-options', '-d', top, f'{top}/Wide.java'], check=True)
        data = Path(top, 't/Wide.class').read_bytes().hex()
    with open(sys.argv[1], 'a') as asked, open(sys.argv[2], 'a') as answered:
        for title, puts, tail, answer in ROWS:
            asked.write(f'# run: {title}\nfails - {puts} run\\sin\\st.Wide.f(int)\\s100000\\s{tail} in/t/Wide.class={data}\n')
            answered.write(f'# run: {title}\n{answer}\n')


if __name__ == '__main__':
    main()
