#!/usr/bin/env python3
"""Runs the gate, and then prints the processor time that it took: of each crate, the proof, its tests and its wrong bodies.

What an earlier run on this machine passed is taken as it is, where the kit's gate does so; with `--anew` all is done
again, which is what a gate without that word always does. With `--again NAME..` the gate runs over these crates and
those below them alone, and does again what is of these. The table goes to standard error, in seconds of user and system
time of the processes that the gate waited for.
"""

import collections
import importlib.machinery
import importlib.util
import os
import shutil
import subprocess
import sys
import threading


def load(path):
    """The command `rt` as a module."""
    sys.dont_write_bytecode = True
    sys.path.insert(0, os.path.dirname(path))
    spec = importlib.util.spec_from_loader("rt", importlib.machinery.SourceFileLoader("rt", path))
    module = importlib.util.module_from_spec(spec)
    sys.modules["rt"] = module
    sys.argv = [path, "ci", *sys.argv[1:]]
    spec.loader.exec_module(module)
    return module


seconds = collections.Counter()
edit = threading.local()
lock = threading.Lock()


def wait_for(process, flags):
    """As subprocess waits for a process, with what it took."""
    try:
        pid, status, usage = os.wait4(process.pid, flags)
    except ChildProcessError:
        return process.pid, 0
    words = [str(it) for it in process.args] if isinstance(process.args, (list, tuple)) else []
    if pid and "--crate-name" in words:
        crate = words[words.index("--crate-name") + 1]
        part = "edits" if getattr(edit, "tried", False) else "tests" if "--test" in words else "proof"
        with lock:
            seconds[crate, part] += usage.ru_utime + usage.ru_stime
    return pid, status


def noting_edits(in_lanes):
    """The gate's tasks, each of which says whether it tries wrong bodies: those wait for their processes themselves."""

    def noting(key, call):
        def run(given, jobs):
            edit.tried = key[1] not in ("proof", "tests")
            return call(given, jobs)

        return run

    return lambda tasks: in_lanes({key: (*task[:3], noting(key, task[3])) for key, task in tasks.items()})


def table():
    """The rows, in the order in which the crates were begun."""
    parts = ("proof", "tests", "edits")
    for crate in dict.fromkeys(crate for crate, _ in seconds):
        yield crate, *(round(seconds[crate, part]) for part in parts)
    yield "all", *(round(sum(taken for (_, of), taken in seconds.items() if of == part)) for part in parts)


def forget(rt, crates):
    """Has the gate take nothing of these crates from earlier runs."""
    give, of_edit, keep_tried = rt.Kept.give, rt.Kept.of_edit, rt.Kept.keep_tried

    def name_of(kept, edit, of):
        crate = os.path.basename(os.path.dirname(os.path.dirname(edit)))
        return "" if crate in crates else of_edit(kept, edit, of)

    rt.Kept.give = lambda kept, crate, *of: crate.name not in crates and give(kept, crate, *of)
    rt.Kept.of_edit = name_of
    rt.Kept.keep_tried = lambda kept, name, *of: keep_tried(kept, name, *of) if name else None


def main():
    path = os.path.realpath(shutil.which("rt"))
    with open(path, encoding="utf-8") as file:
        if "--anew" not in file.read():
            sys.argv = [it for it in sys.argv if it != "--anew"]
    again = "--again" in sys.argv
    sys.argv = [it for it in sys.argv if it != "--again"]
    names = sys.argv[1:]
    rt = load(path)
    if again:
        forget(rt, names)
    subprocess.Popen._try_wait = wait_for
    rt.in_lanes = noting_edits(rt.in_lanes)
    status = rt.main(sys.argv[1:])
    sys.stdout.flush()
    print("crate, and processor seconds of its proof, its tests and its wrong bodies", file=sys.stderr)
    for row in table():
        print("{:24}{:8}{:8}{:8}".format(*row), file=sys.stderr)
    return status


if __name__ == "__main__":
    sys.exit(main())
