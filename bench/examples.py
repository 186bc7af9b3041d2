#!/usr/bin/env python3
"""Runs the programs of docs/CRATES.md before any proof, each in a repository of its own, and compares what they print with the page.

    examples.py [WORD..]    those whose heading has one of the words; all without one. Needs rt and javac.
"""

import re
import subprocess
import sys
import tempfile
from pathlib import Path

TOP = Path(__file__).resolve().parent.parent
PAGE = (TOP / "docs/CRATES.md").read_text()
MAPPING = b"demo.Main -> a:\ndemo.Shop -> b:\n    int count -> a\n"
TRACE = b"java.lang.RuntimeException: no\n\tat a.a(SourceFile:4)\n"


def class_file(room):
    """The class file of the page's Java text."""
    (Path(room) / "Adder.java").write_text(re.search(r"```java\n(.*?)```", PAGE, re.S)[1])
    subprocess.run(["javac", "--release", "8", "-g:none", "-Xlint:-options", "Adder.java"], cwd=room, check=True)
    return (Path(room) / "Adder.class").read_bytes()


def examples():
    """Each example: its title, the crates that it names, its text, and what it prints."""
    form = r"\*\*`(\w+)`: ([^*]*)\*\* With(?: the crates)? `([a-z_ ]+)`.*?```rust\n(.*?)```.*?```text\n(.*?)```"
    return [it.groups() for it in re.finditer(form, PAGE, re.S)]


def printed(room, crates, text, given):
    """What the program prints in a new repository."""
    subprocess.run([sys.executable, TOP / "bench/closure.py", "--copy", room, *crates.split()], check=True, stdout=subprocess.DEVNULL)
    source = Path(room) / "crates/example/src"
    source.mkdir(parents=True)
    (source / "main.rt").write_text(text)
    with open(Path(room) / "crates.txt", "a") as it:
        it.write(f"example: {crates}\n")
    ran = subprocess.run(["rt", "try"], cwd=source.parent, input=given, capture_output=True)
    return ran.stdout.decode(), ran.stderr.decode()


def main(words):
    bad = 0
    for crate, title, crates, text, wanted in examples():
        if words and not any(it in f"{crate} {title}" for it in words):
            continue
        with tempfile.TemporaryDirectory() as room:
            given = MAPPING if crate == "mapping_file" else TRACE if crate == "retrace_core" else class_file(room)
            out, said = printed(room, crates, text, given)
        print(f"{crate}: {'ok' if out == wanted else 'DIFFERS'}", flush=True)
        if out != wanted:
            bad += 1
            print(out, said[-2000:], sep="\n")
    return 1 if bad else 0


sys.exit(main(sys.argv[1:]))
