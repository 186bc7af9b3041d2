#!/usr/bin/env python3
"""Runs the program on words, configs, class files and texts that it refuses, and on rows of the manual that it takes.

    messages.py PROGRAM [WORD]     PROGRAM is bin/try, or a built program; with WORD only cases whose name has it

Each case has the line that standard output begins with, and for a refusal a word of the sentence on standard error; the
last line counts them. It needs javac, which makes the class files.
"""

import os
import shutil
import subprocess
import sys
import tempfile
from pathlib import Path

TOP = Path(__file__).resolve().parent.parent
KEEP = "-keepclasseswithmembers class * { public static void main(java.lang.String[]); }\n"
BASE = "-injars in\n-outjars out\n-printmapping map.txt\n"
HELLO = TOP / "examples/minimal/in"

# Configs that are refused, each behind a line with what is read and written, by the line and a word of the advice.
CONFIGS = [
    ("-frobnicate", "UnknownOption", "PROGUARD"), ("foo", "UnknownOption", ""),
    ("-injars b", "Repeated -injars", "once"),
    ("-dontshrink now", "UnknownOption", ""), ("-if class A", "LeftOut -if", "PROGUARD"),
    ("@other.pro", "LeftOut @other.pro", ""),
    ("-include x.pro", "LeftOut -include", ""),
    ("-target 8", "LeftOut -target", ""),
    ("-optimizations x", "LeftOut -optimizations", ""), ("-dump", "LeftOut -dump", ""),
    ("-basedirectory x", "LeftOut -basedirectory", ""),
    ("-printconfiguration", "LeftOut -printconfiguration", ""),
    ("-assumenosideeffects class A", "LeftOut -assumenosideeffects", ""),
    ("-overloadaggressively", "LeftOut -overloadaggressively", ""),
    ("-repackageclasses x", "LeftOut -repackageclasses", ""),
    ("-keep", "MissingName", "value is missing"), ("-keep class", "MissingName", ""), ("-keep,", "MissingName", ""),
    ("-printseeds", "MissingName", "file"), ("-printusage", "MissingName", ""),
    ("-renamesourcefileattribute", "MissingName", ""),
    ("-keepattributes SourceFile,", "MissingName", ""),
    ("-keepattributes Exceptions InnerClasses", "UnknownOption", ""),
    ("-printseeds ./s", "BadValue -printseeds", "./"), ("-printusage u/", "BadValue -printusage", ""),
    ("-keep,includecode class A", "BadValue -keep", "allowshrinking"), ("-keep,foo class A", "BadValue -keep", ""),
    ("-keepattributes ,", "BadValue -keepattributes", "filter"),
    ("-keep klass A", "BadClassSpec", "class specification"),
    ("-keep class A foo", "BadClassSpec", ""), ("-keep interface class A", "BadClassSpec", ""),
    ("-keep class A extends", "MissingName", ""),
    ("-keep class A { int x }", "BadMemberSpec", "semicolon"), ("-keep class A { int f(int,); }", "BadMemberSpec", ""),
    ("-keep class A { static int x = 1; }", "BadMemberSpec", ""), ("-keep class A { *; ", "BadMemberSpec", ""),
    ("-keep class A { int; }", "BadMemberSpec", ""), ("-keep class A { void f(; }", "BadMemberSpec", ""),
    ("-keep class @Kept", "LeftOut @Kept", ""), ("-keep class A { @Kept *; }", "LeftOut @Kept", ""),
    ("-keep class 'A", "QuoteOpen", "quote"),
    ("-printseeds s -printusage s", "SamePath", "own place"), ("-printseeds out/s", "SamePath", ""),
    ("-printseeds in/s", "SamePath", ""),
    ("-printseeds map.txt", "SamePath", ""), ("-printseeds out.wit", "SamePath", ""),
    ("-printseeds s -printseeds t", "Repeated -printseeds", ""),
    ("-dontpreverify", "UnknownOption", ""), ("-flattenpackagehierarchy x", "UnknownOption", ""),
    ("-adaptclassstrings", "UnknownOption", ""),
    ("-keep class demo.Mian", "NothingKept", "dots"), ("-keep class demo/Main", "NothingKept", "dots"),
    ("-keepnames class *", "NothingKept", "-keepnames"),
    ("-keepclassmembers class * { *; }", "NothingKept", "-keepclassmembers"),
    ("-keep,allowshrinking class *", "NothingKept", "allowshrinking"),
    ("-keep enum *", "NothingKept", ""), ("-keep class Hello extends Greeting", "NothingKept", ""),
]
# Whole configs.
WHOLE = [
    ("-injars in\n-printmapping map.txt\n" + KEEP, "error 3 rules 0 MissingOption -outjars", "-outjars DIRECTORY"),
    (KEEP, "error 3 rules 0 MissingOption -injars", ""), ("", "error 3 rules 0 MissingOption -injars", ""),
    ("-injars in -outjars out\n" + KEEP, "error 3 rules 0 MissingOption -printmapping", ""),
    ("-injars in other", "error 3 rules 1 UnknownOption", "one directory"),
    ("-injars in(!x)", "error 3 rules 1 UnknownOption", ""),
    ("-injars ./in", "error 3 rules 1 BadValue -injars", "./in"),
    ("-injars ../in", "error 3 rules 1 BadValue -injars", ""),
    ("-injars in//", "error 3 rules 1 BadValue -injars", ""), ("-injars /", "error 3 rules 1 BadValue -injars", ""),
    ("-injars in -outjars ./out", "error 3 rules 1 BadValue -outjars", ""),
    ("-injars -outjars out", "error 3 rules 1 MissingName", ""),
    ("-injars in -outjars out -printmapping", "error 3 rules 1 MissingName", ""),
    ("-printmapping map/", "error 3 rules 1 BadValue -printmapping", ""),
    ("-injars 'in", "error 3 rules 1 QuoteOpen", ""),
    ("-injars in -outjars in/out -printmapping m\n" + KEEP, "error 3 rules 0 SamePath", ""),
    ("-injars in -outjars in -printmapping m\n" + KEEP, "error 3 rules 0 SamePath", ""),
    ("-injars out/in -outjars out -printmapping m\n" + KEEP, "error 3 rules 0 SamePath", ""),
    (b"-injars caf\xe9 -outjars out", "error 3 rules 0 NotUtf8", "UTF-8"),
        ("\ufeff" + BASE + KEEP, "error 3 rules 1 UnknownOption", "byte-order mark"),
    (BASE.replace("in\n", "nowhere\n", 1) + KEEP, "error 3 rules 0 NothingKept", "unpacked"),
        (BASE.replace("in\n", "in:lib\n", 1) + KEEP, "error 3 rules 0 NothingKept", "no file"),
    (BASE.replace("in\n", "empty\n", 1) + KEEP, "error 3 rules 0 NothingKept", "no file"),
        (BASE.replace("in\n", "hello.jar\n", 1) + KEEP, "error 7 device", "hello.jar"),
    (BASE.replace("in\n", "nowhere\n", 1) + "-dontshrink\n", "classes 0 0", "no file"),
        (BASE.replace("out\n", "full\n") + KEEP, "error 8 not-empty full", "nothing but folders"),
    (BASE.replace("out\n", "a-file\n") + KEEP, "error 7 device", "a-file"),
        (BASE.replace("map.txt", "a-file/map.txt") + KEEP, "error 7 device", "a-file/map.txt"),
    (BASE.replace("map.txt", "empty") + KEEP, "error 7 device", "empty"),
        (BASE.replace("in\n", "in/Hello.class\n", 1) + KEEP, "error 7 device", "directory"),
]
# Lines of configs that are taken, behind what is read and written and the rule that keeps main; and rules of their own.
TAKEN = [
    "-dontoptimize", "-dontobfuscate", "-dontshrink\n-dontshrink", "-keepattributes", "-keepattributes *", "-keepattributes SourceFile,LineNumberTable",
    "-keepattributes !Exceptions,*", "-keepattributes *Table", "-keepattributes Exceptions,InnerClasses,Signature", "-renamesourcefileattribute Source",
    "-renamesourcefileattribute ''", "-keepattributes SourceFile -renamesourcefileattribute Source", "-printseeds seeds.txt", "-printusage usage.txt",
    "-printseeds 'my seeds.txt'", "-libraryjars <java.home>/lib/rt.jar", "-dontwarn javax.**", "-dontwarn", "-dontnote", "-verbose", "-ignorewarnings",
    "-dontusemixedcaseclassnames", "-dontskipnonpubliclibraryclasses", "-useuniqueclassmembernames", "-optimizationpasses 5", "-allowaccessmodification",
    "# a comment", "-keep class Hello", "-keep class Hello { *; }", "-keep class Hello { <fields>; <methods>; }", "-keep class Greeting { <init>(java.lang.String); }",
    "-keep class Greeting { int size(); }", "-keep class Greeting { private final java.lang.String front; }", "-keep class Gr* { *** *(...); }", "-keep public class *",
    "-keep !public class * { int %; }", "-keep !interface ** { % *; }", "-keep final class *", "-keep class * extends java.lang.Object { ** to(**); }",
    "-keep class Hello { public static void main(java.lang.String[]); }", "-keep,allowobfuscation class Hello { *; }", "-keep,allowshrinking class Unused",
    "-keep,allowoptimization class Unused", "-keep,includedescriptorclasses class Hello { <fields>; }", "-keepnames class **", "-keepclassmembers class * { int s???(); }",
    "-keepclasseswithmembers class * { int count; }", "-keepclasseswithmembernames class * { int count; }", "-keepclassmembernames class * { *; }",
    "-keep class demo.Mian { *; }", "-keep enum *", "-keep interface *", "-keep class !Hello,* { *; }", "-keep class Hello {}", "-keep class Greeting { <init>(...); }",
    "-keep class Greeting { !private *; }", "-keep class Hello { public protected *; }",
]
WORDS = [
    ("", "usage"), ("shrink s.pro", ""), ("shrink s.pro out.wit more", ""), ("gen 4001 out", ""), ("gen 1", ""),
    ("why s.pro", ""), ("run in", ""), ("run in Hello.main 100", ""), ("run in Hello.none() x", ""), ("run in Hello.none() 100000001", ""),
    ("compare s.pro Hello.none()", ""), ("compare ./s.pro Hello.none() 100", ""),
    ("shrink s.pro/ out.wit", ""), ("shrink ./s.pro out.wit", "./s.pro"),
    ("shrink ../s.pro out.wit", ""), ("shrink a//b out.wit", ""), ("shrink s.pro out.wit --workers=65", ""),
    ("shrink s.pro out.wit --workers 0", ""),
    ("shrink s.pro out.wit --wrong", ""), ("shrnk s.pro out.wit", "shrink CONFIG"), ("check s.pro", ""),
    ("retrace map.txt", ""), ("help", ""), ("--help more", ""),
]
# Sources that aren't taken, with the kind.
SOURCES = [
    ("class T extends Thread { }", "T - SuperMissing", "survey"),
    ("class T { float f; }", "T float f LeftOutType", "float"),
    ("class T { double f() { return 1.5; } }", "T - LeftOutConstant", "float"),
    ("class T { double f(int x) { return x; } }", "T double f(int) LeftOutOpcode", "float"),
    ("class T { Runnable r() { return () -> { }; } }", "T - LeftOutConstant", "lambda"),
    ("class T { Object o() { return T.class; } }", "T java.lang.Object o() LeftOutConstant", "A.class"),
    ("enum T { A }", "T - SuperMissing", "survey"), ("@interface T { }", "T - SuperMissing", ""),
    ("class T { native void n(); }", "T void n() LeftOutFlag", "native"),
    ("class T { void s() { synchronized (this) { } } }", "T void s() LeftOutOpcode", "synchronized"),
    ("interface T { default int d() { return 1; } }", "T int d() LeftOutMember", "interface"),
    ("interface T { static int d() { return 1; } }", "T int d() LeftOutMember", ""),
    ("class T { protected void finalize() { } }", "T void finalize() LeftOutMember", "finalize"),
    ("class T { Object c(int[] a) { return a.clone(); } }", "T java.lang.Object c(int[]) LeftOutMember", "clone"),
    ("class T { int h(Object o) { return o.hashCode(); } }", "T int h(java.lang.Object) LeftOutMember",
    "survey"), ("class T { java.util.List l() { return null; } }", "T java.util.List l() Unresolved", "survey"),
    ("class T { String t(String s) { return s.trim(); } }",
    "T java.lang.String t(java.lang.String) Unresolved", "library"),
        ("class T { void e() { System.err.println(); } }", "T void e() Unresolved", ""),
    ("class T { int m() { return Math.abs(1); } }", "T int m() Unresolved", ""),
    ("class T { int i(String s) { return s.indexOf(s); } }", "T int i(java.lang.String) Unresolved", ""),
    ("class T { int i(String s) { return Integer.parseInt(s); } }", "T int i(java.lang.String) Unresolved",
    ""), ("class T { Integer i() { return 3; } }", "T java.lang.Integer i() Unresolved", ""),
    ("class T { void x(int y) { assert y > 0; } }", "T void x(int) Unresolved", "library"),
]
MAIN = "Hello.main(java.lang.String[])"
# What commands answer on an input and an output, behind `shrink`.
RUNS = [
    (["gen", "1", "set"], "classes 3", ""), (["gen", "1", "full"], "error 8 not-empty full", "nothing but folders"),
    (["why", "s.pro", "Greeting"], "depth ", ""), (["why", "s.pro", "Unused"], "none", ""),
    (["why", "s.pro", "Nothing"], "error 14 item Nothing", "-printseeds"),
    (["run", "in", MAIN, "1000", "you"], "hello you", ""), (["run", "in", MAIN, "0"], "end running", ""),
    (["run", "in", "Hello.unused()", "100"], "end returned 1", ""), (["run", "in", "Hello.unused()", "100", "1"], "error 12 entry Hello.unused()", "spelled"),
    (["run", "in", "Greeting.size()", "100"], "error 12 entry Greeting.size()", "static"), (["run", "empty", MAIN, "100"], f"error 12 entry {MAIN}", ""),
    (["run", "in/Hello.class", MAIN, "100"], "error 7 device", "directory"),
    (["compare", "s.pro", MAIN, "1000", "you"], "same", ""), (["compare", "s.pro", "Hello.unused()", "100"], "error 12 entry Hello.unused()", "rules keep"),
    (["compare", "x.pro", MAIN, "1000"], "error 2 absent x.pro", "folder"),
]
LINES = [
    ("demo.A -> a", "error 11 text 1 BadLine", "old -> new"),
    ("    int f() -> a", "error 11 text 1 NoClass", "first line"),
    ("A -> a:\nB -> a:", "error 11 text 2 Repeated", "two mappings"),
    (b"A\xff -> a:", "error 11 text 1 NotUtf8", "UTF-8"),
        ("A -> a:\n    1:2:int f():3:4 -> a", "error 11 text 2 BadLine", ""), ]
WITNESSES = [("", "error 11 text 1 BadLine", "witness out.wit"),
    ("witness 2\n", "error 11 text 1 BadLine", "witness out.wit"),
    (b"\xff", "error 11 text 1 NotUtf8", "witness out.wit"),
    ("witness 1\nmethod Hello int none(int)\nstep 1\ndrop 0 0\n", "error 9 no WitnessStray Hello int none(int)", "isn't kept"),
    ("witness 1\nmethod Hello void main(java.lang.String[])\nstep 1\ndrop 0 0\n",
     "error 9 no EditIllegal Hello void main(java.lang.String[])", "docs/PASSES.md")]


class Room:
    """A folder with class files and other files, in which the program is called."""

    def __init__(self, program, room):
        self.program, self.room, self.wrong, self.counts = program, room, [], {}
        shutil.copytree(HELLO, room / "in")
        for name in ("empty", "full"):
            (room / name).mkdir()
        for name in ("full/x", "a-file", "hello.jar"):
            (room / name).write_text("x")

    def put(self, name, content):
        (self.room / name).write_bytes(content.encode() if isinstance(content, str) else content)

    def run(self, words):
        return subprocess.run([self.program, *words], cwd=self.room, capture_output=True, timeout=600)

    def case(self, group, name, words, line, advice=""):
        if len(sys.argv) > 2 and sys.argv[2] not in f"{group} {name}":
            return
        shutil.rmtree(self.room / "out", ignore_errors=True)
        done = self.run(words)
        said, told = done.stdout.decode(errors="replace"), done.stderr.decode(errors="replace")
        sentence = "\n".join(it for it in told.split("\n") if it.startswith("cixorradde:"))
        first = said.split("\n")[0]
        number, right = self.counts.get(group, (0, 0))
        good = first.startswith(line) and advice.lower() in sentence.lower() and bool(sentence) == line.startswith(("error", "classes 0"))
        self.counts[group] = (number + 1, right + good)
        if not good:
            self.wrong.append(f"{group}: {name!r}: {first!r} for {line!r}; {sentence!r} for {advice!r}")

    def shrink(self, group, name, config, line, advice=""):
        self.put("s.pro", config)
        self.case(group, name, ["shrink", "s.pro", "out.wit"], line, advice)


def pairs(room):
    """Faults of a mapping, of a witness and of an output, on an output that the program wrote."""
    room.put("s.pro", BASE + KEEP)
    room.run(["shrink", "s.pro", "out.wit"])
    shutil.copytree(room.room / "out", room.room / "kept")
    mapping, check = (room.room / "map.txt").read_text(), ["check", "s.pro", "out.wit"]

    def case(group, name, line, advice, words=check):
        for folder in ("out", "set"):
            shutil.rmtree(room.room / folder, ignore_errors=True)
        shutil.copytree(room.room / "kept", room.room / "out", dirs_exist_ok=True)
        done = room.run(words)
        first, told = done.stdout.decode().split("\n")[0], done.stderr.decode()
        good = first.startswith(line) and advice.lower() in told.lower() and ("cixorradde:" in told) == line.startswith("error")
        number, right = room.counts.get(group, (0, 0))
        room.counts[group] = (number + 1, right + good)
        if not good:
            room.wrong.append(f"{group}: {name!r}: {first!r} for {line!r}; {told!r} for {advice!r}")

    case("pairs", "as written", "ok", "")
    for text, line, advice in LINES:
        room.put("map.txt", text)
        case("pairs", text, line, "mapping map.txt")
    room.put("map.txt", mapping)
    room.put("map.txt", "\ufeff" + mapping)
    case("pairs", "a mark before the mapping", "error 9 no MapShape", "byte-order mark")
    room.put("map.txt", mapping)
    for text, line, advice in WITNESSES:
        room.put("out.wit", text)
        case("pairs", text, line, advice)
    for words, line, advice in RUNS:
        case("runs", " ".join(words), line, advice, words)
    compare = ["compare", "s.pro", MAIN, "1000"]
    for text, line, advice in LINES:
        room.put("map.txt", text)
        case("runs", f"compare by {text!r}", line, "mapping map.txt", compare)
    room.put("map.txt", "Hello -> Other:\n")
    case("runs", "compare with another class", "error 13 differs", "both directories", compare)
    room.put("map.txt", mapping)
    room.put("out.wit", "witness 1\n")
    first = mapping.split("\n")
    method = next(it for it in first if it.endswith("-> main"))
    edits = [("SeedLost", [it for it in first if it != method]),
        ("FixedName", [it.replace("-> main", "-> other") for it in first]),
             ("MapShape", [*first[:-1], "Nothing -> x:", ""]), ("NotClosed", [it for it in first if " to(" not in it]),
             ("Package", [it.replace("Greeting -> a:", "Greeting -> p.a:") for it in first])]
    for clause, lines in edits:
        room.put("map.txt", "\n".join(lines))
        case("pairs", clause, "error 9 no ", "cixorradde:")
    (room.room / "map.txt").unlink()
    case("pairs", "no mapping", "error 2 absent map.txt", "folder")
    room.put("map.txt", mapping)
    for name, content, clause in [("cut", b"\xca\xfe", "OutputFormat"),
        ("other", (HELLO / "Unused.class").read_bytes(), "OutputProfile")]:
        target = room.room / "kept/a.class"
        old = target.read_bytes()
        target.write_bytes(content)
        case("pairs", name, f"error 9 no {clause}", "output")
        target.write_bytes(old)


def damaged():
    """A class file with one thing wrong, and the kind that is told."""
    good = (HELLO / "Hello.class").read_bytes()
    return [("Cut", good[:-1]), ("Cut", good[:100]), ("Cut", b""), ("BadMagic", b"abcdefghijkl"),
        ("BadVersion", good[:7] + b"\x3d" + good[8:]),
            ("Trailing", good + b"x"), ("BadTag", good[:10] + b"\x63" + good[11:]),
            ("BadVersion", good[:4] + b"\0\1" + good[6:])]


def main():
    program = str(Path(sys.argv[1]).resolve())
    with tempfile.TemporaryDirectory() as name:
        room = Room(program, Path(name))
        for words, advice in WORDS:
            room.case("words", words, words.split(), "error 1 words", advice)
        for name, words in [("no config", ["shrink", "x.pro", "out.wit"]),
            ("no mapping", ["retrace", "x.txt", "y.txt"]), ("no trace", ["retrace", "a-file", "y.txt"]),
                ("no config to check", ["check", "x.pro", "o.wit"])]:
            room.case("absent", name, words, "error 2 absent", "folder")
        for config, line, advice in CONFIGS:
            room.shrink("config", config,
                f"{BASE}{config}\n" + ("" if "NothingKept" in line or "{" in config else KEEP),
                    "error 3 rules " + ("" if line in ("SamePath",
                        "NothingKept") else "4 ") + ("0 " if line in ("SamePath", "NothingKept") else "") + line, advice)
        for config, line, advice in WHOLE:
            room.shrink("config", config, config, line, advice)
        for config in TAKEN:
            room.shrink("taken", config, f"{BASE}{KEEP}{config}\n", "classes 3 ")
        room.shrink("taken", "a slash", BASE.replace("in\n", "in/\n", 1) + KEEP, "classes 3 2")
        for words in ("--workers 1", "--workers=64", "--workers 4"):
            room.case("taken", words, ["shrink", "s.pro", "out.wit", *words.split()], "classes 3 2")
            room.case("taken", f"{words} first", [*words.split(), "shrink", "s.pro", "out.wit"], "classes 3 2")
        for word in ("--help", "-h"):
            room.case("taken", word, [word], "Shrinks class files")
        for word in ("--version", "-V"):
            room.case("taken", word, [word], "cixorradde ")
        room.case("device", "a directory as the config", ["shrink", "empty", "out.wit"], "error 7 device", "empty")
        for number, (kind, content) in enumerate(damaged()):
            room.put("in/Hello.class", content)
            room.shrink("class files", f"{kind} {number}", BASE + KEEP, "error 4 format in/Hello.class",
                "javac" if kind == "BadVersion" else "")
        shutil.copy(HELLO / "Hello.class", room.room / "in/Hello.class")
        (room.room / "in/sub").mkdir()
        shutil.copy(HELLO / "Unused.class", room.room / "in/sub/Unused.class")
        room.shrink("sets", "one level off", BASE + KEEP, "error 5 profile Unused - NameMismatch", "one level")
        shutil.rmtree(room.room / "in/sub")
        for source, line, advice in SOURCES:
            target = room.room / "t"
            shutil.rmtree(target, ignore_errors=True)
            target.mkdir()
            (target / "T.java").write_text(source)
            if not shutil.which("javac") or subprocess.run(["javac", "--release", "8", "-nowarn", "-d",
                "classes", "T.java"], cwd=target, capture_output=True).returncode:
                sys.exit(f"messages.py: javac doesn't take {source}")
            room.shrink("sets", source, BASE.replace("in\n",
                "t/classes\n", 1) + "-keep class *\n", f"error 5 profile {line}", advice)
        for text, line, advice in LINES:
            room.put("map.txt", text)
            room.put("trace.txt", "x\n")
            room.case("retrace", str(text), ["retrace", "map.txt", "trace.txt"], line, advice)
        shutil.rmtree(room.room / "out", ignore_errors=True)
        if len(sys.argv) < 3:
            pairs(room)
        for it in room.wrong:
            print(it)
        total = [sum(it) for it in zip(*room.counts.values())]
        print(", ".join(f"{group} {right} of {number}" for group, (number, right) in room.counts.items()))
        print(f"{total[1]} of {total[0]} as they are to be")
        sys.exit(1 if room.wrong else 0)


main()
