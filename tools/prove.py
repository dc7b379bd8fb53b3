#!/usr/bin/env python3
"""Proves a program and all that it stands on, builds it, and tells once a minute how far it is.

Use: tools/prove.py CRATE TO, with the kit's command in RT if it isn't `rt`. The program is put into the file TO.

Each crate is proved by the kit's `rattle build` over what the crates below it state, as the gate proves it. The gate,
`rt ci`, asks for more: that the code keeps to HANDLES, that the contracts can be met, that wrong bodies are refused, that
tests pass. A crate's result stands in its out/proved under a sum of all that it was proved from, so that the next call
proves just what has changed and what stands on that.
"""

import fcntl
import hashlib
import os
import queue
import shutil
import signal
import subprocess
import sys
import threading
import time

sys.dont_write_bytecode = True
TOP = os.path.dirname(os.path.dirname(os.path.realpath(__file__)))
RT = shutil.which(os.environ.get("RT", "rt"))
if RT is None:
    sys.exit("prove.py: the kit's command isn't found: name it in RT")
sys.path.insert(0, os.path.dirname(os.path.realpath(RT)))
import rtlib

# The most that a check holds, in bytes.
MEMORY = 4 << 30

# What a crate costs apart from its lines, in lines: a check reads the libraries before it proves anything.
CRATE_COST = 300


def most_jobs():
    """How many jobs to run at once: one more than there are processors, as a check with two jobs often has work for one,
    if there is memory."""
    free = 1024 * rtlib.number_in("/proc/meminfo", r"MemAvailable:\s+(\d+)")
    return max(1, min(len(os.sched_getaffinity(0)) + 1, free // MEMORY))


def key(crate):
    """The sum of all that a crate is proved from: its text, and the libraries below it as they were built."""
    text = [(os.path.relpath(it, crate.folder), rtlib.sum_of(it)) for it in rtlib.files_of(crate.folder)]
    # a library's format has the sums of its files
    below = [rtlib.sum_of(f"{it.rlib}/format") for it in crate.below()]
    return hashlib.sha256(repr((crate.said, rtlib.sum_of(f"{rtlib.KIT}/WHAT"), text, below)).encode()).hexdigest()


def made_by(crate):
    return f"{crate.folder}/out/proved/{crate.name}" if crate.is_program else crate.rlib


def call(crate, words):
    """Runs a command of the kit in the crate's folder; gives its status and what it said."""
    how = {"stdin": subprocess.DEVNULL, "stdout": subprocess.PIPE, "stderr": subprocess.STDOUT, "errors": "replace"}
    ran = subprocess.run([*rtlib.guarded(), *words], cwd=crate.folder, **how)
    return ran.returncode, ran.stdout


def prove(crate, jobs):
    """Proves a crate whose libraries are built, and makes its library or program; gives the status and what was said."""
    made, begun = made_by(crate), key(crate)
    room = os.path.dirname(made)
    if os.path.exists(made) and rtlib.text_of(f"{room}/key") == begun:
        return 0, ""
    shutil.rmtree(room, ignore_errors=True)
    os.makedirs(room)
    words = [rtlib.RATTLE, "build", *crate.words(["--jobs", str(jobs)], keeps=False)]
    if crate.is_program:
        toolchain = ["--toolchain", f"{rtlib.KIT}/toolchain"]
        status, said = call(crate, [*words, *toolchain, "--backend", "llvm", "-o", f"{made}.o"])
        if status == 0:
            link = [f"{rtlib.KIT}/bin/rattle-link", "--target", "x86_64-unknown-linux-gnu", *toolchain, "-o", made]
            code = [f"{made}.o", f"{rtlib.KIT}/c/libos_c.a", f"{rtlib.KIT}/c/liblibc_c.a"]
            status, more = call(crate, [*link, *code])
            said += more
    else:
        status, said = call(crate, [*words, "--statements", "-o", made])
    if status == -signal.SIGKILL and jobs > 1:
        # most likely for memory
        return prove(crate, 1)
    if status == 0 and key(crate) == begun:
        with open(f"{room}/key", "w") as file:
            file.write(begun)
    return status, said


def prove_and_tell(crate, jobs, ended):
    try:
        ended.put((crate, *prove(crate, jobs)))
    except (OSError, SystemExit) as error:
        ended.put((crate, 1, f"{error}\n"))


def prove_all(crates, at_once):
    """Proves crates, each after those below it. First, and by several jobs, come those with most to prove above them."""
    cost = {it: CRATE_COST + it.count(b"\n") for it in crates}
    chain = dict(cost)
    for crate in reversed(crates):
        for it in crate.below():
            chain[it] = max(chain[it], cost[it] + chain[crate])
    left = sorted(crates, key=lambda it: -chain[it])
    running, ended = {}, queue.SimpleQueue()
    tell = Progress(len(crates))
    while left or running:
        unproved = {*left, *running}
        head = max(unproved, key=lambda it: chain[it])
        ready = [it for it in left if unproved.isdisjoint(it.below())]
        for at, crate in enumerate(ready):
            idle = at_once - sum(running.values())
            if idle <= 0:
                break
            # the longest chain gets what no other crate can use, and two jobs at any time
            jobs = max(min(2, at_once), idle - len(ready[at + 1 :])) if crate is head else 1
            left.remove(crate)
            running[crate] = jobs
            threading.Thread(target=prove_and_tell, args=(crate, jobs, ended), daemon=True).start()
        crate, status, said = ended.get()
        del running[crate]
        if status:
            print(said, end="", file=sys.stderr)
            sys.exit(f"prove.py: {crate.name} isn't proved")
        tell.proved += 1


class Progress:
    """Tells once a minute how many crates are proved."""

    def __init__(self, all):
        self.all, self.proved = all, 0
        threading.Thread(target=self.each_minute, daemon=True).start()

    def each_minute(self):
        while True:
            time.sleep(60)
            print(time.strftime("%H:%M:%S"), f"{self.proved} of {self.all} crates proved", flush=True)


def main(name, to):
    # another call in this tree waits, and finds its crates proved
    top = os.open(TOP, os.O_RDONLY)
    fcntl.flock(top, fcntl.LOCK_EX)
    program = rtlib.Crate(f"{TOP}/crates/{name}", TOP, {})
    crates = [*program.below(), program]
    for crate in crates:
        crate.rlib = f"{crate.folder}/out/proved/{crate.name}.rlib"
        # of what the kit says of its own choices
        crate.out = sys.stderr
    rtlib.guarded()
    prove_all(crates, most_jobs())
    os.makedirs(os.path.dirname(to), exist_ok=True)
    shutil.copy(made_by(program), to)
    print(time.strftime("%H:%M:%S"), f"all of {len(crates)} crates proved, and the program built")


if __name__ == "__main__":
    if len(sys.argv) != 3:
        sys.exit("use: tools/prove.py CRATE TO")
    main(*sys.argv[1:])
