#!/usr/bin/env python3
"""Prints where a check of a crate spent its time: the seconds of each function, by its modules.

    modules.py FOLDER [N]

FOLDER is what the check kept (`crates/NAME/out`, or the folder that was given to `--incremental`), and the check has to be
one from nothing with one job: then the prover writes each module as it ends with it, and the time between two files is
what the later one took. The first N functions are printed (20). Of a function's modules, `Lts` and `Tie` grow with the
types, bounds and drops of its code, `Proof` with the goals that have no written answer, and `Answers` with what these leave
to be found.
"""

import collections
import os
import re
import sys


def modules(folder):
    """The modules' names and seconds, in the order in which they were checked."""
    files = [f"{at}/{name}" for at, _, names in os.walk(folder) for name in names if name.endswith(".oantt")]
    times = sorted((os.lstat(it).st_mtime, os.path.basename(it)[: -len(".oantt")]) for it in files if "/records/" not in it)
    for (before, _), (after, name) in zip(times, times[1:]):
        yield re.sub(r"^Rattle-\w+-(proofs|specs)\.(contracts\.)?", "", name), after - before


def main():
    taken = list(modules(sys.argv[1]))
    functions = sorted((name[: -len(".Lts")] for name, _ in taken if name.endswith(".Lts")), key=len, reverse=True)
    kinds, by_function = collections.Counter(), collections.defaultdict(collections.Counter)
    for name, seconds in taken:
        kind = name.rpartition(".")[2]
        kinds[kind] += seconds
        function = next((it for it in functions if name == it or name.startswith(f"{it}.")), None)
        if function:
            by_function[function]["contract" if name == function else kind] += seconds

    def told(counter):
        return " ".join(f"{kind}={seconds:.1f}" for kind, seconds in counter.most_common(5))

    print(f"{sum(seconds for _, seconds in taken):6.1f} all  {told(kinds)}")
    dearest = sorted(by_function.items(), key=lambda it: -sum(it[1].values()))
    for function, counter in dearest[: int(sys.argv[2]) if len(sys.argv) > 2 else 20]:
        print(f"{sum(counter.values()):6.1f} {function}  {told(counter)}")


if __name__ == "__main__":
    main()
