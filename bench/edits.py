#!/usr/bin/env python3
"""edits.py [--in-gate] [CRATE..]: tries the edits of crates that stand beside the gate, `must-fail/NAME.edit.md`, or with
--in-gate those that `rt ci` tries too, `must-fail/NAME.edit`. With no crate it tries none, and tells of all crates which can't be
applied to the text that stands there.

Each puts a wrong body in place of a right one, and the prover has to refuse it. A crate is proved once for its first edit,
and each further one takes the seconds of what it changes; the libraries below have to be built (`rt lib`). The status is 1
where an edit isn't refused or can't be applied. Run it where a public contract of a crate has changed.
"""
import importlib.machinery, importlib.util, os, resource, shutil, sys, time

sys.dont_write_bytecode = True


def kit():
    """The kit's own command as a module, since what it does to an edit shall be done here."""
    wrapper = shutil.which("rt") or sys.exit("edits.py: no rt is found")
    found = [os.path.realpath(wrapper), *(word for word in open(wrapper, errors="replace").read().split() if word.endswith("/bin/rt"))]
    path = next((it.strip("\"'") for it in found if os.path.isfile(os.path.dirname(it.strip("\"'")) + "/rtlib.py")), None)
    loader = importlib.machinery.SourceFileLoader("rt", path or sys.exit("edits.py: no rtlib.py stands beside rt"))
    module = importlib.util.module_from_spec(importlib.util.spec_from_loader("rt", loader))
    sys.modules["rt"] = module
    loader.exec_module(module)
    return module


def edits_in(crate, ending):
    folder = f"{crate.folder}/must-fail"
    return sorted(f"{folder}/{it}" for it in os.listdir(folder) if it.endswith(ending)) if os.path.isdir(folder) else []


def seconds():
    used = resource.getrusage(resource.RUSAGE_CHILDREN)
    return used.ru_utime + used.ru_stime


def tried(rt, crate, edits):
    """Whether each edit is refused, and what is said of it, over what one check of the crate as it stands proved."""
    flags, start = ["--jobs", "1"], f"{crate.folder}/out/incremental"
    room = rt.seeded(crate, flags, start if os.path.isdir(start) else None)
    try:
        for number, edit in enumerate(edits):
            over = f"{room}/{number}" if room else None
            if room:
                rt.linked(f"{room}/seed", over)
            came_to, text = rt.must_fail(crate, edit, flags, over)
            yield came_to in (rt.REFUSED, rt.AT_LIMIT), text
    finally:
        shutil.rmtree(room or "", ignore_errors=True)


def main(words):
    ending = ".edit" if "--in-gate" in words else ".edit.md"
    names = [word for word in words if not word.startswith("--")]
    rt = kit()
    rt.rtlib.guarded()
    crates = {it.name: it for it in rt.rtlib.crates_below(os.getcwd())}
    failed = [f"{name}: there is no such crate" for name in names if name not in crates]
    if not names:
        for crate in crates.values():
            whys = ((os.path.basename(it), rt.read_edit(it, crate.folder)[1]) for it in edits_in(crate, ending))
            failed += [f"{crate.name}/{edit}: {why}" for edit, why in whys if why]
    for crate in (crates[name] for name in names if name in crates):
        edits = edits_in(crate, ending)
        if edits and any(below.build_rlib(["--jobs", "1"], anew=False) for below in crate.below()):
            return 1
        used, begun = seconds(), time.time()
        for refused, text in tried(rt, crate, edits):
            print(text, flush=True)
            failed += [] if refused else [text.partition(": ")[0]]
        print(f"{crate.name}: {len(edits)} edits, {seconds() - used:.0f} processor seconds, {time.time() - begun:.0f} s", flush=True)
    print("\n".join(failed) if failed else "ok")
    return 1 if failed else 0


if __name__ == "__main__":
    sys.exit(main(sys.argv[1:]))
