#!/usr/bin/env python3
"""gate_seconds.py [COMMAND..]: runs the gate (`rt ci`, or the command given) in this folder, and prints at its end what it took:
a row for each crate with the processor seconds of its proof, its tests and its must-fail edits, and of all else.

Linux alone: twice a second it reads from /proc what each process below the command has used so far, so a process that lives
shorter than that is counted by its parent's row, or not at all.
"""
import collections, os, subprocess, sys, time

TICK = os.sysconf("SC_CLK_TCK")


def processes():
    """The processes that run: number, parent, start, and processor seconds of its own."""
    for name in os.listdir("/proc"):
        if name.isdigit():
            try:
                head, tail = open(f"/proc/{name}/stat").read().rsplit(")", 1)
                fields = tail.split()
                yield int(name), int(fields[1]), fields[19], (int(fields[11]) + int(fields[12])) / TICK
            except (OSError, IndexError):
                pass


def kind_of(pid):
    """Which crate a process works for, and on what."""
    try:
        words = open(f"/proc/{pid}/cmdline").read().split("\0")
        folder = os.readlink(f"/proc/{pid}/cwd")
    except OSError:
        return None
    if "--crate-name" not in words:
        return "all else", "else"
    crate = words[words.index("--crate-name") + 1]
    if "rt-edits-" in folder or any("rt-edits-" in word for word in words):
        return crate, "edits"
    return crate, "tests" if "--test" in words else "proof"


def main():
    gate = subprocess.Popen(sys.argv[1:] or ["rt", "ci"])
    begun, used, kinds = time.time(), {}, {}
    while gate.poll() is None:
        table = list(processes())
        below = {gate.pid}
        for _ in range(8):
            below |= {pid for pid, parent, _, _ in table if parent in below}
        for pid, _, start, seconds in table:
            if pid in below:
                used[pid, start] = seconds
                if (pid, start) not in kinds or kinds[pid, start] in (None, ("all else", "else")):
                    kinds[pid, start] = kind_of(pid)
        time.sleep(0.5)
    rows = collections.defaultdict(collections.Counter)
    for key, seconds in used.items():
        crate, kind = kinds.get(key) or ("all else", "else")
        rows[crate][kind] += seconds
    print("\n| crate | proof | tests | must-fail edits | else | all |\n|---|---|---|---|---|---|")
    total = collections.Counter()
    for crate, row in sorted(rows.items(), key=lambda it: -sum(it[1].values())):
        total += row
        print(f"| `{crate}` | " + " | ".join(f"{row[kind]:.0f}" for kind in ("proof", "tests", "edits", "else")) + f" | {sum(row.values()):.0f} |")
    print("| all | " + " | ".join(f"{total[kind]:.0f}" for kind in ("proof", "tests", "edits", "else")) + f" | {sum(total.values()):.0f} |")
    print(f"\nProcessor seconds; {(time.time() - begun) / 60:.0f} minutes passed.")
    return gate.returncode


if __name__ == "__main__":
    sys.exit(main())
