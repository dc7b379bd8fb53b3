#!/usr/bin/env python3
"""Prints how much text the prover makes of each function of a crate, in kilobytes, and how much in all.

    sizes.py NAME [N] [--test]

It is called at the top of a checkout in which `rt ci` was run before, so that the libraries below are there; with
`--test` the crate is read with its tests. The first N functions are printed (20), those with the most `Lts` first: it
lists each local at each statement, and is what most functions take longest for. It takes as long as a check, but these
sizes don't vary from run to run, so they show which of two forms of a function is shorter where seconds don't. They say
less of what `Tie` takes, and nothing of searches.
"""

import collections
import os
import re
import shutil
import subprocess
import sys
import tempfile

from pair import crates_at
from times import load

KINDS = ("Lts", "Tie", "Mir", "Named", "Proof")


def made(rt, crate, tests, folder):
    """Writes the modules that are made of a crate, and says whether it could."""
    words = [rt.rtlib.RATTLE, "check", *crate.words(["--generated", folder], tests=tests, keeps=False)]
    how = {"cwd": crate.folder, "stdin": subprocess.DEVNULL, "stdout": subprocess.DEVNULL, "stderr": subprocess.PIPE}
    return b"generated=" in subprocess.run([*rt.rtlib.guarded(), *words], **how).stderr


def sizes(folder):
    """The kilobytes of each function, by the kinds of its modules."""
    found = collections.defaultdict(collections.Counter)
    for at, _, names in os.walk(folder):
        for name in names:
            inside = os.path.relpath(at, folder).split(os.sep)
            kind = re.sub(r"-.*|\.antt$", "", name)
            if kind in KINDS and inside[0].endswith("-proofs") and "Lts" not in inside:
                function = ".".join(it for it in inside[1:] if it != "Code")
                found[function][kind] += os.path.getsize(f"{at}/{name}") / 1000
    return found


def main():
    tests = "--test" in sys.argv
    name, *number = [it for it in sys.argv[1:] if it != "--test"] or sys.exit(__doc__)
    sys.argv[1:] = []
    rt = load(os.path.realpath(shutil.which("rt")))
    rt.Crate.cuts_libraries = True
    crate = crates_at(rt, os.getcwd()).get(name) or sys.exit(f"crates.txt has no crate {name}")
    with tempfile.TemporaryDirectory(prefix="sizes-") as folder:
        if not made(rt, crate, tests, folder):
            sys.exit(f"the modules of {name} could not be made: rt check says why")
        found = sizes(folder)
    line = "{:50}" + "{:>9}" * len(KINDS)
    print(line.format("KB", *KINDS))
    print(line.format("all", *(round(sum(it[kind] for it in found.values())) for kind in KINDS)))
    for function, each in sorted(found.items(), key=lambda it: -it[1]["Lts"])[: int(*number or ["20"])]:
        print(line.format(function, *(round(each[kind]) for kind in KINDS)))


if __name__ == "__main__":
    main()
