#!/usr/bin/env python3
"""What goes wrong outside: files, rights, devices, memory and kills, and what the command says and leaves then.

    python3 bench/failing.py PROGRAM [table|memory|calls|limits] [--write] [--only PATTERN]

`table` makes each situation of docs/FAILURES.md, runs the command there, and compares its line, its status and the files
afterwards with the row; with --write it prints the rows as they are. The other three take each line of COMMANDS: a command
more is a line more. `memory` refuses each request for memory in turn, once alone and once with all that follow. `calls` lets
each system call that opens, reads, writes, lists, asks or makes a folder, and each start of a thread, fail in turn, moves a part
of a write, and kills the program at each write. `limits` runs under limits of memory (ulimit -v) from too little to enough.
Without a word all four are run; with --only of the commands those whose name has the pattern in it. Each run has to end with a
status that docs/MANUAL.md has for it, and the files have to stand as it says; the counts are printed, and the status is 1 where one
run doesn't.

`memory` and `calls` put a library between the program and the system's C library, which wants `cc`. Rows about rights are run
as nobody, those with file systems of their own in a mount namespace: both want root, and are passed over without it.
"""
import ctypes
import os
import re
import resource
import shutil
import socket
import subprocess
import sys
import tempfile
import time
from pathlib import Path
from string import ascii_lowercase
from typing import Callable, NamedTuple

TOP = Path(__file__).resolve().parent.parent
HELLO = TOP / 'examples/minimal/in'
KEEP = '-keepclasseswithmembers class * { public static void main(java.lang.String[]); }\n'
CONFIG = '-injars in\n-outjars out\n-printmapping map.txt\n-printseeds seeds.txt\n-printusage usage.txt\n' + KEEP
FILES = ['out/Hello.class', 'out/a.class', 'map.txt', 'seeds.txt', 'usage.txt', 'o.wit']  # in the order in which they are written
SHRINK, CHECK, RETRACE = ['shrink', 's.pro', 'o.wit'], ['check', 's.pro', 'o.wit'], ['retrace', 'map.txt', 'trace.txt']
MAIN = 'Hello.main(java.lang.String[])'
TRACE = 'Exception in thread "main" a: x\n\tat a.a(SourceFile:3)\n\tat Hello.main(SourceFile:9)\n'
OLD = b'what stood here before\n'
LIMIT = 64 * 1024 * 1024

SHIM = r'''
#define _GNU_SOURCE
#include <dlfcn.h>
#include <errno.h>
#include <fcntl.h>
#include <pthread.h>
#include <signal.h>
#include <stdarg.h>
#include <stdlib.h>
#include <string.h>
#include <sys/stat.h>
#include <unistd.h>
/* FAIL is KIND:NUMBER:HOW. The call of that kind and number fails: once, on (it and all that follow), part (half of a write
   is moved), kill (half is moved, and then the program is killed). Without a number its calls are counted into descriptor 9. */
static char kind[16]; static long number = -1, counted; static char how;
__attribute__((constructor)) static void begin(void) {
    char *text = getenv("FAIL"), *colon;
    if (!text || !(colon = strchr(text, ':')) || colon - text > 15) return;
    memcpy(kind, text, colon - text);
    number = strtol(colon + 1, &colon, 10);
    how = *colon ? colon[1] : 'o';
}
static void end(void) {
    if (kind[0] && number == 0) {
        char text[24]; int at = 24; long left = counted;
        do text[--at] = '0' + left % 10; while (left /= 10);
        ssize_t (*put)(int, const void *, size_t) = dlsym(RTLD_NEXT, "write");
        put(9, text + at, 24 - at);
    }
}
void _exit(int status) { void (*next)(int) = dlsym(RTLD_NEXT, "_exit"); end(); next(status); for (;;); }
static int fails(const char *name) {
    if (strcmp(kind, name)) return 0;
    long now = __atomic_add_fetch(&counted, 1, __ATOMIC_SEQ_CST);
    return number > 0 && (how == 'f' ? now >= number : now == number);
}
#define NEXT(type, name) static type (*next)(); if (!next) next = (type (*)())dlsym(RTLD_NEXT, name)
void *malloc(size_t n) { NEXT(void *, "malloc"); if (fails("memory")) { errno = ENOMEM; return 0; } return next(n); }
void *realloc(void *p, size_t n) { NEXT(void *, "realloc"); if (fails("memory")) { errno = ENOMEM; return 0; } return next(p, n); }
int open(const char *path, int flags, ...) { NEXT(int, "open"); va_list a; va_start(a, flags); int mode = va_arg(a, int); va_end(a);
    if (fails("open")) { errno = EIO; return -1; } return next(path, flags, mode); }
int openat(int at, const char *path, int flags, ...) { NEXT(int, "openat"); va_list a; va_start(a, flags); int mode = va_arg(a, int); va_end(a);
    if (fails("open")) { errno = EIO; return -1; } return next(at, path, flags, mode); }
ssize_t read(int f, void *to, size_t n) { NEXT(ssize_t, "read"); if (fails("read")) { errno = EIO; return -1; } return next(f, to, n); }
ssize_t write(int f, const void *from, size_t n) { NEXT(ssize_t, "write");
    if (f == 2) return next(f, from, n);
    if (fails("write")) {
        if (how == 'p') return next(f, from, n > 1 ? n / 2 : n);
        if (how == 'k') { next(f, from, n / 2); kill(getpid(), SIGKILL); }
        errno = ENOSPC; return -1;
    }
    return next(f, from, n); }
int mkdir(const char *path, mode_t mode) { NEXT(int, "mkdir"); if (fails("mkdir")) { errno = EIO; return -1; } return next(path, mode); }
ssize_t getdents64(int f, void *to, size_t n) { NEXT(ssize_t, "getdents64"); if (fails("list")) { errno = EIO; return -1; } return next(f, to, n); }
int statx(int at, const char *path, int flags, unsigned mask, struct statx *to) { NEXT(int, "statx");
    if (fails("ask")) { errno = EIO; return -1; } return next(at, path, flags, mask, to); }
int pthread_create(pthread_t *to, const pthread_attr_t *how, void *(*run)(void *), void *with) { NEXT(int, "pthread_create");
    if (fails("thread")) return EAGAIN; return next(to, how, run, with); }
'''


# ---- a room with an input, and what stands in it

class Room:
    def __init__(self, program, top):
        self.top, self.program, self.at = Path(top), Path(top, 'program'), Path(top, 'at')
        shutil.copy(program, self.program)
        os.chmod(top, 0o755)
        os.chmod(self.program, 0o755)
        self.wrong, self.counts, self.many = [], {}, {}
        self.fresh()
        self.run(SHRINK)
        self.whole = {it: Path(self.at, it).read_bytes() for it in FILES}

    def fresh(self, shrunk=False):
        """An input, and old files where the mapping, the lists and the witness are to be written; or a whole output."""
        for path in sorted(self.at.rglob('*'), reverse=True) if self.at.exists() else []:
            if path.is_dir() and not path.is_symlink():
                path.chmod(0o755)
        shutil.rmtree(self.at, ignore_errors=True)
        (self.at / 'in').mkdir(parents=True)
        for path in HELLO.iterdir():
            shutil.copy(path, self.at / 'in')
        self.put('s.pro', CONFIG)
        self.put('trace.txt', TRACE)
        for path in FILES[2:]:
            self.put(path, OLD)
        if shrunk:
            for path, data in self.whole.items():
                self.put(path, data)

    def put(self, path, data):
        target = self.at / path
        target.parent.mkdir(parents=True, exist_ok=True)
        target.write_bytes(data if isinstance(data, bytes) else data.encode())

    def run(self, words, user=None, before=None, out=subprocess.PIPE, environment=None, pass_fds=()):
        def begin():
            if before:
                before()
            if user:
                os.setgroups([])
                os.setgid(user)
                os.setuid(user)
        return subprocess.run([str(self.program), *words], cwd=self.at, stdout=out, stderr=subprocess.PIPE, timeout=60,
                              preexec_fn=begin if user or before else None, env=environment or {}, pass_fds=pass_fds)

    def stands(self):
        """What stands: the path of each entry with its kind or its bytes."""
        found = {}
        for folder, folders, names in os.walk(os.fsencode(self.at)):
            for name in folders + names:
                path = os.path.join(folder, name)
                said = os.fsdecode(os.path.relpath(path, os.fsencode(self.at)))
                if os.path.islink(path):
                    found[said] = 'link ' + os.fsdecode(os.readlink(path))
                elif os.path.isfile(path):
                    with open(path, 'rb') as file:
                        found[said] = file.read()
                elif not os.path.isdir(path):
                    found[said] = 'other'
        return found

    def folders(self):
        return {folder for folder, _, _ in os.walk(self.at)}

    def back(self, before, folders):
        """Makes all as it was: these files, of which none is a link, and these folders."""
        now = self.stands()
        for path in set(now) - set(before):
            (self.at / path).unlink()
        for path, data in before.items():
            if now.get(path) != data:
                self.put(path, data)
        for folder, _, _ in os.walk(self.at, topdown=False):
            if folder not in folders:
                os.rmdir(folder)

    def look(self, files=FILES, at=lambda it: it):
        """The bytes of each file that is to be written, where there are some, also behind links."""
        found = {}
        for path in files:
            try:
                found[path] = Path(self.at, at(path)).read_bytes() if Path(self.at, at(path)).is_file() else None
            except OSError:
                found[path] = None
        return found

    def left(self, before, olds, at=lambda it: it, files=FILES, whole=None):
        """In words: which of the files to be written are new, in their order, and whether anything else changed."""
        after, now, whole = self.stands(), self.look(files, at), whole or self.whole
        known = {at(it) for it in files}
        strange = [it for it in sorted({*before, *after}) if before.get(it) != after.get(it) and it not in known]
        if strange:
            return f'CHANGED {strange}'
        states = ['new' if now[it] == whole[it] != olds[it] else 'old' if now[it] == olds[it] else 'part' for it in files]
        first = next((k for k, it in enumerate(states) if it != 'new'), len(states))
        rest, number = states[first:], len(states)
        if set(rest) <= {'old'}:
            return 'all are written' if first == number else f'{first} of {number}' if first else 'none is written'
        if rest[0] == 'part' and set(rest[1:]) <= {'old'}:
            return f'{first} of {number}, and a part of the next' if first else f'a part of the first of {number}'
        return f'CHANGED {states}'

    def count(self, group, good, told):
        number, right = self.counts.get(group, (0, 0))
        self.counts[group] = (number + 1, right + bool(good))
        if not good:
            self.wrong.append(f'{group}: {told}')
            print(f'failing.py: {self.wrong[-1]}', file=sys.stderr, flush=True)


# ---- the situations of docs/FAILURES.md

SITUATIONS = {}
NOBODY = 65534


def situation(name, words=SHRINK, **more):
    """Registers a setting up: made(room) is called in a fresh room, with a whole output where `shrunk`."""
    def outer(made):
        SITUATIONS[name] = (made, words, more)
        return made
    return outer


def simple(name, words=SHRINK, **more):
    return situation(name, words, **more)


def link(room, path, to):
    target = room.at / path
    if target.is_dir() and not target.is_symlink():
        shutil.rmtree(target)
    elif target.exists() or target.is_symlink():
        target.unlink()
    target.parent.mkdir(parents=True, exist_ok=True)
    target.symlink_to(to)


def instead(room, path, made):
    """Something else in place of a file."""
    target = room.at / path
    if target.is_dir():
        shutil.rmtree(target)
    elif target.exists():
        target.unlink()
    made(target)


def socket_at(target):
    # the path of a socket may have 108 bytes
    here = os.open('.', os.O_RDONLY)
    os.chdir(target.parent)
    socket.socket(socket.AF_UNIX).bind(target.name)
    os.fchdir(here)
    os.close(here)


def long_file(target):
    with open(target, 'wb') as out:
        out.truncate(LIMIT + 1)


def limited(size):
    resource.setrlimit(resource.RLIMIT_AS, (size, size))


def runs_within(room, words, size):
    """A run under a limit of memory, or None where the system doesn't start the program."""
    try:
        ran = room.run(words, before=lambda: limited(size))
    except (OSError, subprocess.SubprocessError):
        return None
    # the loader's own refusals
    return None if ran.returncode == 127 or ran.returncode < 0 and b'cixorradde' not in ran.stderr and not ran.stdout else ran


def least_memory(room):
    """The least limit of memory, in steps of 16 KiB, under which the system starts the program."""
    return next(it for it in range(2 << 20, 64 << 20, 16 << 10) if runs_within(room, ['--version'], it))


LEAST_MEMORY = [0]


def configured(old, new):
    return lambda room: room.put('s.pro', CONFIG.replace(old, new))


# the config
simple('the config isn\'t there')(lambda room: (room.at / 's.pro').unlink())
simple('the config is a directory')(lambda room: instead(room, 's.pro', os.mkdir))
simple('the config is a link to a file')(lambda room: (room.put('other', CONFIG), link(room, 's.pro', 'other')))
simple('the config is a link that leads nowhere')(lambda room: link(room, 's.pro', 'nowhere'))
simple('the config is a pipe that nobody writes to')(lambda room: instead(room, 's.pro', os.mkfifo))
simple('the config is a socket')(lambda room: instead(room, 's.pro', socket_at))
simple('the config is a device', ['shrink', '/dev/zero', 'o.wit'])(lambda room: None)
simple('the config may not be read', user=NOBODY)(lambda room: (room.at / 's.pro').chmod(0))
simple('the config is empty')(lambda room: room.put('s.pro', ''))
simple('the config has 64 MiB and a byte')(lambda room: instead(room, 's.pro', long_file))
simple('the config\'s folder is a file', ['shrink', 's.pro/x', 'o.wit'])(lambda room: None)
simple('the config\'s name has 300 letters', ['shrink', 'x' * 300, 'o.wit'])(lambda room: None)
simple('a word isn\'t UTF-8', ['shrink', b's\xff.pro', 'o.wit'])(lambda room: None)


@situation('the config is a pipe that somebody writes to')
def _(room):
    instead(room, 's.pro', os.mkfifo)
    room.put('text', CONFIG)
    subprocess.Popen(['sh', '-c', 'exec 3<>s.pro && cat text >&3 && sleep 1'], cwd=room.at)
    time.sleep(0.3)


# the earlier mapping
def earlier(made=lambda room: None):
    return lambda room: (room.put('s.pro', CONFIG + '-applymapping old.txt\n'), made(room))


simple('the earlier mapping isn\'t there')(earlier())
simple('the earlier mapping is a directory')(earlier(lambda room: (room.at / 'old.txt').mkdir()))
simple('the earlier mapping is a link to a file')(earlier(lambda room: (room.put('real', ''), link(room, 'old.txt', 'real'))))
simple('the earlier mapping is a pipe that nobody writes to')(earlier(lambda room: os.mkfifo(room.at / 'old.txt')))
simple('the earlier mapping may not be read', user=NOBODY)(
    earlier(lambda room: (room.put('old.txt', ''), (room.at / 'old.txt').chmod(0))))
simple('the earlier mapping has 64 MiB and a byte')(earlier(lambda room: long_file(room.at / 'old.txt')))
simple('the earlier mapping isn\'t one')(earlier(lambda room: room.put('old.txt', 'x\n')))
simple('the earlier mapping is the file of the new one, and isn\'t one')(
    lambda room: room.put('s.pro', CONFIG + '-applymapping map.txt\n'))
simple('the earlier mapping lies below the output directory')(
    lambda room: (room.put('s.pro', CONFIG + '-applymapping out/old.txt\n'), room.put('out/old.txt', '')))


# the input
simple('the input directory isn\'t there')(lambda room: shutil.rmtree(room.at / 'in'))
simple('the input directory is a file')(lambda room: instead(room, 'in', lambda it: it.write_text('x')))
simple('the input directory is a link to one')(lambda room: ((room.at / 'in').rename(room.at / 'real'), link(room, 'in', 'real')))
simple('the input directory may not be read', user=NOBODY)(lambda room: (room.at / 'in').chmod(0o111))
simple('a folder below the input directory may not be read', user=NOBODY)(lambda room: (room.at / 'in/more').mkdir(mode=0))
simple('a class file may not be read', user=NOBODY)(lambda room: (room.at / 'in/Unused.class').chmod(0))
simple('another file of the input may not be read', user=NOBODY)(lambda room: (room.put('in/x.txt', 'x'), (room.at / 'in/x.txt').chmod(0)))
simple('a class file is a link to one')(
    lambda room: ((room.at / 'in/Hello.class').rename(room.at / 'h'), link(room, 'in/Hello.class', '../h')))
simple('a class file is a link that leads nowhere')(lambda room: link(room, 'in/Other.class', 'nowhere'))
simple('a class file is a link to itself')(lambda room: link(room, 'in/Other.class', 'Other.class'))
simple('a class file is a pipe that nobody writes to')(lambda room: os.mkfifo(room.at / 'in/Other.class'))
simple('a folder has the name of a class file')(lambda room: (room.at / 'in/Other.class').mkdir())
simple('a class file is empty')(lambda room: room.put('in/Hello.class', b''))
simple('a class file lacks its last byte')(lambda room: room.put('in/Hello.class', (HELLO / 'Hello.class').read_bytes()[:-1]))
simple('a link to a folder with classes stands below the input directory')(
    lambda room: ((room.at / 'far').mkdir(), room.put('far/Bad.class', b'x'), link(room, 'in/far', '../far')))
simple('a link to the input directory stands below it')(lambda room: link(room, 'in/loop', '.'))
simple('a file below the input directory has a name that isn\'t UTF-8')(
    lambda room: open(os.fsencode(room.at / 'in') + b'/\xff.txt', 'w').close())
simple('a folder below the input directory has a name that isn\'t UTF-8')(lambda room: os.mkdir(os.fsencode(room.at / 'in') + b'/\xff'))
simple('a class file has a name with a blank')(lambda room: room.put('in/a b.class', (HELLO / 'Unused.class').read_bytes()))

# the output directory
simple('the output directory has a file')(lambda room: room.put('out/x', 'x'))
simple('the output directory has a file far below')(lambda room: room.put('out/a/b/c/.x', ''))
simple('the output directory has a link that leads nowhere')(lambda room: ((room.at / 'out').mkdir(), link(room, 'out/x', 'nowhere')))
simple('the output directory has a pipe')(lambda room: ((room.at / 'out').mkdir(), os.mkfifo(room.at / 'out/x')))
simple('the output directory has empty folders')(lambda room: (room.at / 'out/a/b').mkdir(parents=True))
simple('the output directory is a file')(lambda room: room.put('out', 'x'))
simple('the output directory is a link to an empty folder')(lambda room: ((room.at / 'real').mkdir(), link(room, 'out', 'real')))
simple('the output directory is a link to the input directory')(lambda room: link(room, 'out', 'in'))
simple('the output directory is a link that leads nowhere')(lambda room: link(room, 'out', 'nowhere'))
simple('the output directory may not be written', user=NOBODY)(lambda room: (room.at / 'out').mkdir(mode=0o555))
simple('the output directory may not be read', user=NOBODY)(lambda room: (room.at / 'out').mkdir(mode=0o333))
simple('the folder of the output directory may not be written', user=NOBODY)(lambda room: room.at.chmod(0o555))
simple('a folder stands at the path of a class file')(lambda room: (room.at / 'out/a.class').mkdir(parents=True))

# the other files that are written
simple('the mapping is a directory')(lambda room: instead(room, 'map.txt', os.mkdir))
simple('the mapping isn\'t there, and its folder neither')(configured('map.txt', 'new/folder/map.txt'))
simple('the mapping\'s folder is a file')(configured('map.txt', 'trace.txt/map.txt'))
simple('the mapping is a link to a file')(lambda room: (room.put('real', OLD), link(room, 'map.txt', 'real')))
simple('the mapping is a link that leads nowhere')(lambda room: link(room, 'map.txt', 'nowhere'))
simple('the mapping is a pipe that nobody reads')(lambda room: instead(room, 'map.txt', os.mkfifo))
simple('the mapping may not be written', user=NOBODY)(lambda room: (room.at / 'map.txt').chmod(0o444))
simple('the mapping is /dev/full')(configured('map.txt', '/dev/full'))
simple('the mapping is /dev/null')(configured('map.txt', '/dev/null'))
simple('the list of seeds is a directory')(lambda room: instead(room, 'seeds.txt', os.mkdir))
simple('the witness is a directory', ['shrink', 's.pro', 'folder'])(lambda room: (room.at / 'folder').mkdir())
simple('the witness is the config', ['shrink', 's.pro', 's.pro'])(lambda room: None)
simple('the mapping is the config')(configured('map.txt', 's.pro'))
simple('the mapping is a link to the config')(lambda room: link(room, 'map.txt', 's.pro'))
simple('the witness lies below the input directory', ['shrink', 's.pro', 'in/Hello.class'])(lambda room: None)
simple('the witness is a link to a class file of the input', ['shrink', 's.pro', 'w'])(lambda room: link(room, 'w', 'in/Hello.class'))


# devices, limits and printing
def mounted(room, path, options):
    target = room.at / path
    target.mkdir(exist_ok=True)
    subprocess.run(['mount', '-t', 'tmpfs', '-o', options, 'none', str(target)], check=True)


simple('the disk of the output directory has 4 KiB', mounts=['out'])(lambda room: mounted(room, 'out', 'size=4k'))
simple('the disk of the output directory has no more files', mounts=['out'])(lambda room: mounted(room, 'out', 'size=1m,nr_inodes=2'))
simple('the disk of the output directory is read-only', mounts=['out'])(
    lambda room: (mounted(room, 'out', 'size=1m'), subprocess.run(['mount', '-o', 'remount,ro', str(room.at / 'out')], check=True)))
simple('a file may have 500 bytes (ulimit -f), and the signal kills', before=lambda: resource.setrlimit(resource.RLIMIT_FSIZE, (500, 500)))(
    lambda room: None)
simple('a file may have 500 bytes (ulimit -f), and the signal is ignored', before=lambda: (
    __import__('signal').signal(__import__('signal').SIGXFSZ, __import__('signal').SIG_IGN),
    resource.setrlimit(resource.RLIMIT_FSIZE, (500, 500))))(lambda room: None)
simple('one file may be open at a time (ulimit -n 4)', before=lambda: resource.setrlimit(resource.RLIMIT_NOFILE, (4, 4)))(lambda room: None)
simple('hardly more memory than it takes to start (ulimit -v)', before=lambda: limited(LEAST_MEMORY[0]))(
    lambda room: LEAST_MEMORY.append(least_memory(room)) or LEAST_MEMORY.pop(0))
simple('no thread can be started (ulimit -u)', user=NOBODY, before=lambda: resource.setrlimit(resource.RLIMIT_NPROC, (1, 1)))(lambda room: None)
simple('standard output is closed', before=lambda: os.close(1))(lambda room: None)
simple('standard output and standard error are closed', before=lambda: (os.close(1), os.close(2)))(lambda room: None)
simple('standard input is closed', before=lambda: os.close(0))(lambda room: None)
simple('standard output is /dev/full', out='/dev/full')(lambda room: None)
simple('standard output is a pipe that nobody reads', out='gone')(lambda room: None)
simple('standard output is /dev/full, and the config is refused', out='/dev/full')(lambda room: room.put('s.pro', '-frobnicate\n'))
simple('killed while the mapping is written', environment='write:3:kill')(lambda room: None)
simple('killed while the first class file is written', environment='write:1:kill')(lambda room: None)
simple('killed while the summary is printed', environment='write:7:kill')(lambda room: None)

# check
simple('check: the mapping isn\'t there', CHECK, shrunk=True)(lambda room: (room.at / 'map.txt').unlink())
simple('check: the witness isn\'t there', CHECK, shrunk=True)(lambda room: (room.at / 'o.wit').unlink())
simple('check: the witness is a directory', CHECK, shrunk=True)(lambda room: instead(room, 'o.wit', os.mkdir))
simple('check: the mapping may not be read', CHECK, shrunk=True, user=NOBODY)(lambda room: (room.at / 'map.txt').chmod(0))
simple('check: the mapping has 64 MiB and a byte', CHECK, shrunk=True)(lambda room: instead(room, 'map.txt', long_file))
simple('check: the output directory isn\'t there', CHECK, shrunk=True)(lambda room: shutil.rmtree(room.at / 'out'))
simple('check: the output directory is a file', CHECK, shrunk=True)(lambda room: instead(room, 'out', lambda it: it.write_text('x')))
simple('check: a class file of the output may not be read', CHECK, shrunk=True, user=NOBODY)(
    lambda room: (room.at / 'out/a.class').chmod(0))
simple('check: a class file of the output is a link that leads nowhere', CHECK, shrunk=True)(
    lambda room: link(room, 'out/a.class', 'nowhere'))
simple('check: a class file of the output is a link to one', CHECK, shrunk=True)(
    lambda room: ((room.at / 'out/a.class').rename(room.at / 'real'), link(room, 'out/a.class', '../real')))
simple('check: nothing may be written', CHECK, shrunk=True, user=NOBODY)(lambda room: room.at.chmod(0o555))
simple('check: standard output is /dev/full', CHECK, shrunk=True, out='/dev/full')(lambda room: None)

# retrace
simple('retrace: the mapping isn\'t there', RETRACE, shrunk=True)(lambda room: (room.at / 'map.txt').unlink())
simple('retrace: the trace isn\'t there', RETRACE, shrunk=True)(lambda room: (room.at / 'trace.txt').unlink())
simple('retrace: the trace is a directory', RETRACE, shrunk=True)(lambda room: instead(room, 'trace.txt', os.mkdir))
simple('retrace: the trace has 64 MiB and a byte', RETRACE, shrunk=True)(lambda room: instead(room, 'trace.txt', long_file))
simple('retrace: the trace isn\'t UTF-8', RETRACE, shrunk=True)(lambda room: room.put('trace.txt', b'\xff\n'))
simple('retrace: the trace is empty', RETRACE, shrunk=True)(lambda room: room.put('trace.txt', b''))
simple('retrace: standard output is /dev/full', RETRACE, shrunk=True, out='/dev/full')(lambda room: None)

PLACES = {'the output directory is a link to an empty folder': lambda it: it.replace('out/', 'real/'),
          'the output directory is a link that leads nowhere': lambda it: it.replace('out/', 'nowhere/'),
          'the mapping isn\'t there, and its folder neither': lambda it: it.replace('map.txt', 'new/folder/map.txt'),
          'the mapping is a link to a file': lambda it: it.replace('map.txt', 'real'),
          'the mapping is a link that leads nowhere': lambda it: it.replace('map.txt', 'nowhere'),
          'the witness is a directory': lambda it: it.replace('o.wit', 'folder'),
          'the mapping\'s folder is a file': lambda it: it.replace('map.txt', 'trace.txt/map.txt'),
          'the mapping is /dev/full': lambda it: it.replace('map.txt', 'absent'),
          'the mapping is a link to the config': lambda it: it.replace('map.txt', 's.pro'),
          'the mapping is the config': lambda it: it.replace('map.txt', 's.pro'),
          'the witness is the config': lambda it: it.replace('o.wit', 's.pro'),
          'the witness is a link to a class file of the input': lambda it: it.replace('o.wit', 'in/Hello.class'),
          'the witness lies below the input directory': lambda it: it.replace('o.wit', 'in/Hello.class')}


def told(room, name, shim):
    """The row of a situation: what is printed first, the status, and what stands afterwards."""
    made, words, more = SITUATIONS[name]
    if (more.get('user') or more.get('mounts')) and os.getuid():
        return None
    if more.get('mounts') and not room.may_mount or more.get('environment') and not shim:
        return None
    room.fresh(more.get('shrunk', False))
    if more.get('user'):
        for path in [room.at, *room.at.rglob('*')]:
            path.chmod(0o777 if path.is_dir() else 0o666)
    made(room)
    at = PLACES.get(name, lambda it: it)
    before, olds = room.stands(), room.look(FILES, at)
    out = subprocess.PIPE
    if more.get('out') == 'gone':
        reader, out = os.pipe()
        os.close(reader)
    elif more.get('out'):
        out = os.open(more['out'], os.O_WRONLY)
    environment = {'LD_PRELOAD': shim, 'FAIL': more['environment']} if more.get('environment') else None
    ran = room.run(words, more.get('user'), more.get('before'), out, environment)
    if out != subprocess.PIPE:
        os.close(out)
    files = [it for it in FILES if it != 'map.txt'] if name == 'the mapping is /dev/null' else FILES
    after = room.left(before, olds, at, files) if words[0] == 'shrink' else \
        'no file changes' if room.stands() == before else 'CHANGED'
    for path in more.get('mounts', []):
        subprocess.run(['umount', str(room.at / path)], check=True)
    line = (ran.stdout or b'').decode('utf-8', 'replace').split('\n')[0]
    status = str(ran.returncode) if ran.returncode >= 0 else f'signal {-ran.returncode}'
    return f'`{line}`' if line else 'nothing', status, after


def documented():
    rows = {}
    for line in (TOP / 'docs/FAILURES.md').read_text().split('\n'):
        cells = [it.strip() for it in line.strip('|').split('|')]
        if line.startswith('|') and len(cells) == 4:
            rows[cells[0]] = tuple(cells[1:])
    return rows


def table(room, shim, write):
    rows = {} if write else documented()
    for name in SITUATIONS:
        row = told(room, name, shim)
        if row is None:
            print(f'failing.py: passed over: {name}', file=sys.stderr)
            continue
        row = tuple(it if len(it) < 90 else it[:60] + '..`' for it in row)
        if write:
            print(f'| {name} | {" | ".join(row)} |', flush=True)
        else:
            room.count('situations', rows.get(name) == row and 'CHANGED' not in row[2], f'{name}: {row}, and the row has {rows.get(name)}')
    if not write:
        for name in set(rows) - set(SITUATIONS) - {'Situation', '---'}:
            room.count('situations', False, f'{name} is in the document and not tried')


# ---- each call in turn

class Command(NamedTuple):
    """A line of the table: the words, whether a whole output stands there, what else is made, the files that a run which ends
    well writes, in their order, and of how many requests for memory one is refused."""
    words: list
    shrunk: bool = False
    made: Callable = lambda room: None
    writes: tuple = ()
    step: int = 1


def row_files(title):
    """The files of the row behind a title of the stored run of the commands, and of them those that are written."""
    def read(text):
        escapes = {'n': '\n', 's': ' ', '\\': '\\', 'e': ''}
        return re.sub(r'\\([ns\\e])', lambda it: escapes[it[1]], text).encode()

    folder = TOP / 'crates/run_vectors'
    asked, answered = ((folder / it).read_text().split('\n') for it in ('stdin', 'stdout'))
    at = asked.index(title) + 1
    found = []
    for line in (asked[at], answered[at]):
        words = [re.fullmatch(r'([^=:]+)(=|:)(.*)', it) for it in line.split(' ')[2:]]
        found.append({it[1]: bytes.fromhex(it[3]) if it[2] == '=' else read(it[3]) for it in words if it})
    return found


ROW = row_files('# a class that is called gets a new name, and lines are kept')


def two_classes(room):
    """Another input, with lines, and without a list of seeds."""
    shutil.rmtree(room.at / 'in')
    shutil.rmtree(room.at / 'out', ignore_errors=True)
    for path, data in ROW[0].items():
        room.put('s.pro' if path == 'shrink.pro' else path, data)


def two_classes_shrunk(room):
    two_classes(room)
    for path, data in ROW[1].items():
        room.put('o.wit' if path == 'wit.txt' else path, data)


# So many of them, and of their methods, that four workers share them: what is kept are a first class and 45 with new names.
MANY = (*sorted(f'out/g/{it}.class' for it in ['C0', *ascii_lowercase, *(f'a{it}' for it in ascii_lowercase[:19])]), 'map.txt', 'o.wit')


def many_classes(room):
    """A generated set, of whose methods some are edited."""
    shutil.rmtree(room.at / 'in')
    shutil.rmtree(room.at / 'out', ignore_errors=True)
    if not room.many:
        room.run(['gen', '45', 'in'])
        room.many = {it.name: it.read_bytes() for it in (room.at / 'in/g').iterdir()}
    for name, data in room.many.items():
        room.put(f'in/g/{name}', data)
    room.put('s.pro', '-injars in\n-outjars out\n-printmapping map.txt\n-keep class g.C0 { public static int f(int); }\n')


BATCH = ['batch', 'list.txt']
JOBS = (*FILES, 'out2/Hello.class', 'out2/a.class', 'map2.txt', 'u.wit')


def two_jobs(room):
    """A list of two jobs on one input."""
    room.put('list.txt', 's.pro o.wit\nt.pro u.wit\n')
    room.put('t.pro', '-injars in\n-outjars out2\n-printmapping map2.txt\n' + KEEP)


COMMANDS = {
    'shrink': Command(SHRINK, writes=FILES),
    'check': Command(CHECK, True),
    'retrace': Command(RETRACE, True),
    'shrink, two classes': Command(
        SHRINK, made=two_classes, writes=('out/demo/Main.class', 'out/demo/a.class', 'map.txt', 'use.txt', 'o.wit')),
    'check, two classes': Command(CHECK, made=two_classes_shrunk),
    'shrink, many classes, four workers': Command([*SHRINK, '--workers=4'], made=many_classes, writes=MANY, step=16),
    'check, a pair that is refused': Command(
        CHECK, True, lambda room: room.put('map.txt', room.whole['map.txt'].replace(b') -> main', b') -> b'))),
    'check, a witness that is refused': Command(CHECK, True, lambda room: room.put('o.wit', 'witness 2\n')),
    'retrace, a mapping that is refused': Command(RETRACE, True, lambda room: room.put('map.txt', 'x\n')),
    'shrink, a config that is refused': Command(SHRINK, made=lambda room: room.put('s.pro', CONFIG + '-frobnicate\n')),
    'shrink, a class file that is refused': Command(SHRINK, made=lambda room: room.put('in/Hello.class', b'abc')),
    'shrink, a class that is missing': Command(SHRINK, made=lambda room: (room.at / 'in/Greeting.class').unlink()),
    'shrink, an output directory that isn\'t empty': Command(SHRINK, made=lambda room: room.put('out/x', 'x')),
    'shrink, wrong words': Command(['shrink', 's.pro']),
    'gen': Command(['gen', '1', 'set'], writes=('set/g/C0.class', 'set/g/D0.class', 'set/g/I.class')),
    'gen, a directory that isn\'t empty': Command(['gen', '1', 'in']),
    'why': Command(['why', 's.pro', 'Greeting: java.lang.String to(java.lang.String)']),
    'why, an item that goes': Command(['why', 's.pro', 'Unused']),
    'why, no such item': Command(['why', 's.pro', 'Nothing']),
    'run': Command(['run', 'in', MAIN, '1000', 'you']),
    'run, no such method': Command(['run', 'in', 'Hello.none()', '1000']),
    'run, a class file that is refused': Command(
        ['run', 'in', MAIN, '1000', 'you'], made=lambda room: room.put('in/Hello.class', b'abc')),
    'compare': Command(['compare', 's.pro', MAIN, '1000', 'you'], True),
    'compare, an output that differs': Command(
        ['compare', 's.pro', MAIN, '1000', 'you'], True, lambda room: (room.at / 'out/Hello.class').unlink()),
    'compare, a mapping that is refused': Command(
        ['compare', 's.pro', MAIN, '1000', 'you'], True, lambda room: room.put('map.txt', 'x\n')),
    'batch': Command(BATCH, made=two_jobs, writes=JOBS),
    'batch, a job that is refused': Command(
        BATCH, made=lambda room: (two_jobs(room), room.put('t.pro', CONFIG + '-frobnicate\n')), writes=FILES),
    'batch, jobs that meet': Command(BATCH, made=lambda room: room.put('list.txt', 's.pro o.wit\ns.pro u.wit\n')),
    '--help': Command(['--help']),
    '--version': Command(['--version']),
}


def ready(room, command):
    room.fresh(command.shrunk)
    command.made(room)


def counted(room, command, kind, shim):
    """How many calls of a kind the command makes, what it says, and the files that it writes."""
    ready(room, command)
    before = room.stands()
    reader, writer = os.pipe()
    ran = room.run(command.words, environment={'LD_PRELOAD': shim, 'FAIL': f'{kind}:0'}, before=lambda: os.dup2(writer, 9),
                   pass_fds=(writer, 9))
    os.close(writer)
    text = os.read(reader, 100)
    os.close(reader)
    after = room.stands()
    changed = {path for path in {*before, *after} if before.get(path) != after.get(path)}
    room.count('commands', changed == set(command.writes), f'{" ".join(command.words)} writes {sorted(changed)}')
    return int(text or 0), ran, room.look(command.writes)


def is_as_due(ran, whole, after, kind, command):
    """Whether a run in which something failed ended as it may, by the run in which nothing does."""
    status, first = ran.returncode, ran.stdout.decode('utf-8', 'replace')
    if status == whole.returncode and status != -9:
        same = whole.stdout.startswith(ran.stdout) if kind == 'write' else ran.stdout == whole.stdout
        return same and after == 'all are written'
    if status == 10:
        # --help says nothing where its text can't be made
        return (first == 'error 10 memory\n' or command.words == ['--help'] and not first) and 'a part' not in after
    if status == 7:
        return whole.stdout.startswith(ran.stdout) or first.endswith('error 7 device\n')
    return first.startswith('error 2 absent ') if status == 2 else status == -9


def in_turn(room, shim, kind, how, allowed, step=1):
    for name, command in COMMANDS.items():
        number, whole, news = counted(room, command, kind, shim)
        fine, statuses = 0, {}
        ready(room, command)
        before, folders, olds = room.stands(), room.folders(), room.look(command.writes)
        for k in range(1, number + 1, step * command.step if kind == 'memory' else step):
            ran = room.run(command.words, environment={'LD_PRELOAD': shim, 'FAIL': f'{kind}:{k}:{how}'})
            after, status = room.left(before, olds, files=command.writes, whole=news), ran.returncode
            statuses[status] = statuses.get(status, 0) + 1
            good = (not after.startswith('CHANGED') and status in {*allowed, whole.returncode}
                    and is_as_due(ran, whole, after, kind, command))
            fine += good
            room.count(f'{kind} {how}', good, f'{name}, call {k}: status {status}, {ran.stdout!r}, {after}')
            room.back(before, folders)
        said = ', '.join(f'{count} end with {status}' for status, count in sorted(statuses.items()))
        print(f'{kind} {how}: {name}: {number} calls, {fine} as they are to be: {said}', flush=True)


def limits(room):
    """Limits of memory (ulimit -v) in steps of 16 KiB, from where the system can't start the program to where it ends well."""
    for name, command in COMMANDS.items():
        if ',' in name or name.startswith('--'):
            continue
        ready(room, command)
        room.run(command.words)
        news = room.look(command.writes)
        status, size, statuses = None, 2 << 20, {}
        while status != 0 and size < 64 << 20:
            ready(room, command)
            before, olds = room.stands(), room.look(command.writes)
            ran = runs_within(room, command.words, size)
            size += 16 << 10
            if not ran:
                statuses['not started'] = statuses.get('not started', 0) + 1
                continue
            status, after = ran.returncode, room.left(before, olds, files=command.writes, whole=news)
            statuses[status] = statuses.get(status, 0) + 1
            room.count('limits', status in (0, 10) and (status == 0 or ran.stdout == b'error 10 memory\n') and 'a part' not in after
                       and not after.startswith('CHANGED'), f'{name}, {size} bytes: {status}, {ran.stdout!r}, {after}')
        print(f'limits: {name}: ' + ', '.join(f'{count} end with {it}' if it != 'not started' else f'{count} not started by the system'
                                              for it, count in statuses.items()), flush=True)


def private_mounts():
    """A mount namespace of its own, where root may have one."""
    libc = ctypes.CDLL(None, use_errno=True)
    return os.getuid() == 0 and libc.unshare(0x20000) == 0 and libc.mount(b'none', b'/', None, 0x4000 | 0x40000, None) == 0


def main():
    words = [it for it in sys.argv[1:] if it != '--write']
    if '--only' in words:
        at = words.index('--only')
        for name in [it for it in COMMANDS if not re.search(words[at + 1], it)]:
            del COMMANDS[name]
        del words[at:at + 2]
    if not words or not set(words[1:]) <= {'table', 'memory', 'calls', 'limits'}:
        sys.exit(__doc__)
    asked = set(words[1:]) or {'table', 'memory', 'calls', 'limits'}
    with tempfile.TemporaryDirectory(dir='/dev/shm' if os.path.isdir('/dev/shm') else None) as top:
        may_mount = private_mounts()
        room = Room(words[0], top)
        room.may_mount = may_mount
        shim = None
        if shutil.which('cc'):
            shim = f'{top}/shim.so'
            Path(top, 'shim.c').write_text(SHIM)
            subprocess.run(['cc', '-shared', '-fPIC', '-O1', '-w', '-o', shim, f'{top}/shim.c', '-ldl'], check=True)
        if 'table' in asked:
            table(room, shim, '--write' in sys.argv)
        if shim and 'memory' in asked:
            in_turn(room, shim, 'memory', 'once', {10})
            in_turn(room, shim, 'memory', 'following', {10}, 3)
        if shim and 'calls' in asked:
            for kind in ('open', 'read', 'list', 'ask', 'mkdir', 'write'):
                in_turn(room, shim, kind, 'once', {7})
            in_turn(room, shim, 'write', 'part', {0})
            in_turn(room, shim, 'write', 'kill', {-9})
            in_turn(room, shim, 'thread', 'once', {0})
            in_turn(room, shim, 'thread', 'following', {0})
        if 'limits' in asked:
            limits(room)
        room.fresh()
        print(', '.join(f'{group}: {right} of {number}' for group, (number, right) in room.counts.items()) or 'rows as they are')
        sys.exit(1 if room.wrong else 0)


if __name__ == '__main__':
    main()
