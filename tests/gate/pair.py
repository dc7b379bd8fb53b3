#!/usr/bin/env python3
"""Checks crates of two checkouts from nothing, each crate of both at once, and prints what each check took.

    pair.py OTHER NAME..

It is called at the top of one checkout; OTHER is the top of another. In both `rt ci` was run before, so that the
libraries below are there. The same check takes a fifth more or less from one hour to the next, and other machines
differ by more: only what is checked side by side can be compared. Seconds are of user and system time; the text of
this checkout is `new`, and of the other `old`.
"""

import os
import shutil
import subprocess
import sys

from times import load


def crates_at(rt, root):
    """The crates of a checkout by their names, as the gate sees them."""
    os.chdir(root)
    rt.Crate.allowed = rt.handles_of(root)
    return {crate.name: crate for crate in rt.crates_of(root)}


def start(rt, crate, root):
    """Starts a check from nothing with one job."""
    os.chdir(root)
    words = [rt.rtlib.RATTLE, "check", *crate.words(["--jobs", "1"], keeps=False)]
    how = {"cwd": crate.folder, "stdin": subprocess.DEVNULL, "stdout": subprocess.DEVNULL, "stderr": subprocess.DEVNULL}
    return subprocess.Popen([*rt.rtlib.guarded(), *words], **how)


def main():
    other, *names = sys.argv[1:] or sys.exit(__doc__)
    roots = {"old": os.path.realpath(other), "new": os.getcwd()}
    sys.argv[1:] = []
    rt = load(os.path.realpath(shutil.which("rt")))
    rt.Crate.cuts_libraries = True
    crates = {text: crates_at(rt, root) for text, root in roots.items()}
    failed = False
    for name in names:
        checks = {text: start(rt, crates[text][name], root) for text, root in roots.items()}
        for text, check in checks.items():
            _, status, usage = os.wait4(check.pid, 0)
            failed |= status != 0
            print(f"{name:24}{text:6}{usage.ru_utime + usage.ru_stime:8.1f}{'' if not status else '  not proved'}", flush=True)
    return failed


if __name__ == "__main__":
    sys.exit(main())
