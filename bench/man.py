#!/usr/bin/env python3
"""Makes a man page of docs/MANUAL.md, on standard output: bench/man.py >cixorradde.1 && man ./cixorradde.1

Headings, paragraphs, lists, code and tables are what the manual has. A row of a table becomes its first cell with the
others behind it.
"""

import re
import subprocess
from pathlib import Path

TOP = Path(__file__).resolve().parent.parent


def plain(text):
    """A text with what stands as code in bold, and without links."""
    text = re.sub(r"\[([^\]]*)\]\([^)]*\)", r"\1", text.replace("\\|", "|")).replace("\\", "\\e").replace("-", "\\-")
    text = re.sub(r"`([^`]*)`", r"\\fB\1\\fR", text)
    text = re.sub(r"\*\*([^*]+)\*\*", r"\\fB\1\\fR", text)
    return "\\&" + text if text.startswith((".", "'")) else text


def rows(lines):
    """The rows of a table, each a tagged paragraph; the head and the rule below it are left out."""
    for line in lines[2:]:
        cells = [plain(it.strip()) for it in re.split(r"(?<!\\)\|", line.strip().strip("|"))]
        tag, rest = cells[0], ". ".join(it for it in cells[1:] if it)
        if tag:
            yield f".TP\n{tag}\n{rest}"
        else:
            yield f".IP\n{rest}"


def block(lines):
    first = lines[0]
    if first.startswith("```"):
        body = "\n".join("\\&" + it.replace("\\", "\\e").replace("-", "\\-") for it in lines[1:-1])
        return f".PP\n.in +4n\n.nf\n{body}\n.fi\n.in"
    if first.startswith("#"):
        level, title = first.split(" ", 1)
        return f".S{'S' if len(level) > 2 else 'H'} {plain(title)}" if len(level) > 1 else ""
    if first.startswith("|"):
        return "\n".join(rows(lines))
    if re.match(r"\d+\. |- ", first):
        return "\n".join(f".IP {it.split(' ', 1)[0] if it[0].isdigit() else chr(92) + '(bu'} 4\n{plain(it.split(' ', 1)[1])}" for it in lines)
    return ".PP\n" + "\n".join(plain(it) for it in lines)


def blocks(text):
    """Pieces between blank lines; a piece of code is one."""
    piece, is_code = [], False
    for line in text.split("\n") + [""]:
        if line.startswith("```"):
            is_code = not is_code
            if is_code and piece:
                yield piece
                piece = []
        if line.strip() or is_code:
            piece.append(line)
        elif piece:
            yield piece
            piece = []


def main():
    source = (TOP / "crates/shrink_cli/src/main.rt").read_text()
    version = re.search(r'VERSION: &\[u8\] = b"(.*)\\n"', source)[1]
    day = subprocess.run(["git", "log", "-1", "--format=%cs"], cwd=TOP, capture_output=True, text=True).stdout.strip()
    print(f'.TH CIXORRADDE 1 "{day}" "{version}"\n.SH NAME\ncixorradde \\- shrinks Java class files, and checks what was shrunk')
    for it in blocks((TOP / "docs/MANUAL.md").read_text()):
        text = block(it)
        if text:
            print(text)


main()
