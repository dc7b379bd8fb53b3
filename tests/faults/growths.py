#!/usr/bin/env python3
"""Refuses each growth in compiled tests and in commands of the router, one a run, alone and with all after it.

A growth is a call by which a program asks for memory or for a thread. This script stands over the program as a debugger
does: it puts an address where nothing is in place of each of these functions, so that the program stops at each call,
and lets it go on, or answers in the function's place that there is none. It needs python3 and Linux on x86-64, and a
system that lets a program trace those that it starts: where that is forbidden it says so, and its status is 77.

Each run has to end by itself within PATIENCE seconds, by no signal, with what TRIALS lists for it. A panic is no answer.

Use: tests/faults/growths.py [NAME..]: the trials of TRIALS that are made; without names, all. The programs are those of
crates/*/out.
"""

import contextlib
import ctypes
import errno
import os
import re
import resource
import signal
import struct
import subprocess
import sys

TOP = os.path.dirname(os.path.dirname(os.path.dirname(os.path.abspath(__file__))))
PATIENCE = 20
MOST_SHOWN = 3

# The functions by which a program grows, and what each answers where it is refused.
GROWTHS = {
    "malloc": 0,
    "calloc": 0,
    "realloc": 0,
    "aligned_alloc": 0,
    "posix_memalign": errno.ENOMEM,
    "pthread_create": errno.EAGAIN,
}

# The system's numbers for x86-64.
TRACE_ME, CONTINUE, GET_REGISTERS, SET_REGISTERS, SET_OPTIONS = 0, 7, 12, 13, 0x4200
TRACE_THREADS, KILL_AT_EXIT, ANY_THREAD = 0x08, 0x100000, 0x40000000
ENTRY, HEADERS = 9, 3  # in the program's auxiliary vector
RAX, RIP, RSP, REGISTERS = 10, 16, 19, 27
RELOCATIONS, DYNAMIC_SYMBOLS = 4, 11

# How a run ends that is refused nothing, and the status of a test that returns an error.
WELL, RETURNED = "well", 101

# The status where the system forbids tracing, as test harnesses use it for a test that was skipped.
FORBIDDEN = 77

# No address of a program begins so: a call of the function at place k stops at this plus k.
NOWHERE = 0x1000

libc = ctypes.CDLL(None, use_errno=True)
libc.ptrace.argtypes = [ctypes.c_long, ctypes.c_long, ctypes.c_void_p, ctypes.c_void_p]
libc.ptrace.restype = ctypes.c_long


def trace(request, pid=0, data=None):
    if libc.ptrace(request, pid, None, data) < 0:
        raise OSError(ctypes.get_errno(), "ptrace")


def slots_of(program):
    """Where the program keeps the addresses of these functions of the C library, each with its function's name."""
    with open(program, "rb") as file:
        text = file.read()
    start, size, count = struct.unpack_from("<Q", text, 40)[0], *struct.unpack_from("<HH", text, 58)
    sections = [struct.unpack_from("<IIQQQQIIQQ", text, start + k * size) for k in range(count)]
    found = []
    for kind, offset, length, link in [(it[1], it[4], it[5], it[6]) for it in sections]:
        if kind != RELOCATIONS or sections[link][1] != DYNAMIC_SYMBOLS:
            continue
        symbols, names = sections[link][4], sections[sections[link][6]][4]
        for at in range(offset, offset + length, 24):
            slot, info, _ = struct.unpack_from("<QQq", text, at)
            begin = names + struct.unpack_from("<I", text, symbols + 24 * (info >> 32))[0]
            name = text[begin : text.index(b"\0", begin)].decode()
            if name in GROWTHS:
                found.append((name, slot))
    return found


class Run:
    """A run of a program, in which the growth at this place is refused, or also all after it; at 0, none is."""

    def __init__(self, program, words, given, at=0, lasts=False):
        self.at, self.lasts = at, lasts
        self.growths, self.refused, self.hangs = 0, 0, False
        self.slots, self.real = program.slots, []
        self.registers = (ctypes.c_ulonglong * REGISTERS)()
        streams = [os.memfd_create(name) for name in ("input", "output", "errors")]
        os.pwrite(streams[0], given, 0)
        self.pid = os.fork()
        if not self.pid:
            self.begin([program.path, *words], streams)
        try:
            self.status = self.follow()
        finally:
            self.output, self.errors = (self.read(it) for it in streams[1:])
            os.close(streams[0])

    @staticmethod
    def begin(words, streams):
        """Becomes the program, once the parent traces it."""
        try:
            for at, descriptor in enumerate(streams):
                os.dup2(descriptor, at)
            trace(TRACE_ME)
            # all functions are found before the program begins
            os.execve(words[0], words, {"LD_BIND_NOW": "1"})
        finally:
            os._exit(126)

    @staticmethod
    def read(descriptor):
        text = os.pread(descriptor, 1 << 20, 0)
        os.close(descriptor)
        return text.decode(errors="replace")

    def follow(self):
        """The exit status, or minus the signal."""
        if not os.WIFSTOPPED(os.waitpid(self.pid, 0)[1]):
            print("no growth was refused: this system lets no program trace those that it starts", file=sys.stderr)
            sys.exit(FORBIDDEN)
        trace(SET_OPTIONS, self.pid, TRACE_THREADS | KILL_AT_EXIT)
        self.to_its_entry()
        self.take_slots()
        signal.alarm(PATIENCE)
        try:
            trace(CONTINUE, self.pid)
            return self.to_its_end()
        except TimeoutError:
            self.hangs = True
            os.kill(self.pid, signal.SIGKILL)
            return self.to_its_end()
        finally:
            signal.alarm(0)

    def memory(self):
        return open(f"/proc/{self.pid}/mem", "r+b", buffering=0)

    def to_its_entry(self):
        """Lets the C library be loaded."""
        entry = self.auxiliary()[ENTRY]
        with self.memory() as memory:
            memory.seek(entry)
            there = memory.read(1)
            memory.seek(entry)
            memory.write(b"\xcc")
            trace(CONTINUE, self.pid)
            os.waitpid(self.pid, 0)
            memory.seek(entry)
            memory.write(there)
        self.read_registers(self.pid)
        self.registers[RIP] = entry
        self.write_registers(self.pid)

    def auxiliary(self):
        with open(f"/proc/{self.pid}/auxv", "rb") as file:
            return dict(struct.iter_unpack("<QQ", file.read()))

    def take_slots(self):
        """Puts addresses where nothing is in place of the functions'."""
        base = self.auxiliary()[HEADERS] - 64
        with self.memory() as memory:
            for place, (_, slot) in enumerate(self.slots):
                memory.seek(base + slot)
                self.real += struct.unpack("<Q", memory.read(8))
                memory.seek(base + slot)
                memory.write(struct.pack("<Q", NOWHERE + place))

    def read_registers(self, thread):
        trace(GET_REGISTERS, thread, ctypes.addressof(self.registers))

    def write_registers(self, thread):
        trace(SET_REGISTERS, thread, ctypes.addressof(self.registers))

    def to_its_end(self):
        while True:
            thread, status = os.waitpid(-1, ANY_THREAD)
            if os.WIFSTOPPED(status):
                # a thread may have been killed meanwhile
                with contextlib.suppress(ProcessLookupError):
                    trace(CONTINUE, thread, self.answered(thread, os.WSTOPSIG(status), status >> 16))
            elif thread == self.pid:
                return -os.WTERMSIG(status) if os.WIFSIGNALED(status) else os.WEXITSTATUS(status)

    def answered(self, thread, stopped, event):
        """The signal with which a thread that stopped goes on; none for a call of a growth, which is answered."""
        if stopped == signal.SIGSEGV:
            self.read_registers(thread)
            place = self.registers[RIP] - NOWHERE
            if 0 <= place < len(self.slots):
                self.answer(thread, place)
                return None
        # a thread begins with a stop
        return None if event or stopped in (signal.SIGSTOP, signal.SIGTRAP) else stopped

    def answer(self, thread, place):
        self.growths += 1
        if self.growths == self.at or self.lasts and 0 < self.at < self.growths:
            self.refused += 1
            with self.memory() as memory:
                memory.seek(self.registers[RSP])
                self.registers[RIP] = struct.unpack("<Q", memory.read(8))[0]
            self.registers[RSP] += 8
            self.registers[RAX] = GROWTHS[self.slots[place][0]]
        else:
            self.registers[RIP] = self.real[place]
        self.write_registers(thread)

    def ending(self):
        """How the program ended, as TRIALS names it: by an error that a test returned, by a fault that the router told,
        well, or otherwise."""
        if self.hangs:
            return "it hangs"
        if not self.status and not self.errors:
            return WELL
        returned = re.fullmatch(r"Error: (\w+)\nthe test failed: its result gives status 1\n", self.errors)
        if returned and self.status == RETURNED:
            return returned[1]
        told = re.fullmatch(r"fault: ([a-z]+(?: \d+)?)(?:: [^\n]+)?\n", self.errors)
        if told and self.status == 1:
            return told[1]
        if re.fullmatch(r"[^\n]*memory: \w+(?: \{ \.\. \})?\n", self.errors) and self.status == -signal.SIGABRT:
            return "unprepared"
        return f"status {self.status}, standard error: {self.errors.strip() or '-'}"


class Program:
    """A program that the gate built."""

    def __init__(self, crate, name):
        self.path = os.path.join(TOP, "crates", crate, "out", name)
        if not os.access(self.path, os.X_OK):
            sys.exit(f"there is no program {self.path}: `rt test`, or `rt run`, builds it in crates/{crate}")
        self.slots = slots_of(self.path)

    def tests(self):
        """The names of its tests."""
        listed = subprocess.run([self.path, "--list"], capture_output=True, check=True, text=True).stdout
        return re.findall(r"^(.*): test$", listed, re.MULTILINE)


class Trial:
    """Runs of a program with words and an input, in each of which a growth is refused; how they have to end, each way at
    least once, and how they may end too. Where it is a command, it writes a beginning of what it writes with none
    refused. Where `lasts` is false, a growth is refused alone, and never all after it too."""

    def __init__(self, program, words, needs, may=(), given=b"", lasts=True, writes=False):
        self.program, self.words, self.given, self.writes = program, words, given, writes
        self.needs, self.may = set(needs), set(needs) | set(may)
        self.modes = (False, True) if lasts else (False,)

    def run(self, at, lasts):
        return Run(self.program, self.words, self.given, at, lasts)

    def runs(self, lasts):
        """Each run in which a growth is refused."""
        at = 1
        while (run := self.run(at, lasts)).refused:
            yield run
            at += 1

    def is_good(self, run, whole):
        if self.writes and not whole.output.startswith(run.output):
            return False
        return run.ending() in self.may and (run.ending() != WELL or run.output == whole.output)

    def make(self, name):
        """Refuses each growth in turn. Whether all runs ended as they should."""
        whole, counts, failed = self.run(0, False), {}, 0
        if whole.ending() != WELL:
            print(f"{name}: with no growth refused: {whole.ending()}")
            return False
        for run in (run for lasts in self.modes for run in self.runs(lasts)):
            counts[run.ending()] = counts.get(run.ending(), 0) + 1
            if self.is_good(run, whole):
                continue
            failed += 1
            if failed <= MOST_SHOWN:
                print(f"  growth {run.at}{' and all after it' if run.lasts else ''}: {run.ending()}")
        ends = [f"{ending}: {counts[ending]}" for ending in sorted(counts) if ending in self.may]
        missing = [f"never {ending}" for ending in sorted(self.needs - set(counts))]
        print(f"{name}: {sum(counts.values())} growths refused, {failed} failed;", ", ".join(ends + missing), flush=True)
        return not failed and not missing


# What is tried.


def of_tests(crate, begin, *needs, **how):
    """The tests of a crate whose names begin so."""
    program = Program(crate, f"{crate}_tests")
    names = [name for name in program.tests() if name.startswith(begin)]
    if not names:
        sys.exit(f"{crate} has no tests {begin}..")
    return {name: Trial(program, [name], needs, **how) for name in names}


def of_router(command, words, *needs, name=None, **how):
    """A command of the router."""
    program = Program("router_program", "router_program")
    return {f"router {name or command}": Trial(program, [command, *words], needs, writes=True, **how)}


def file_of(*path):
    return os.path.join(TOP, *path)


SAMPLE = ["--config", file_of("examples", "border-router.toml")]
ON_LOOPBACK = ["--config", file_of("tests", "faults", "router.toml")]
AND_SHOWN = [*ON_LOOPBACK, "--metrics", "127.0.0.1:43020"]
THREE_ASES = [file_of("examples", "three-ases", f"{name}.toml") for name in ("first", "core-1", "core-2", "last")]
IMPORTED = ["--topology", file_of("examples", "scionproto", "topology.json"), "--router", "br1-ff00_0_110-1"]
IMPORTED += ["--keys", file_of("examples", "scionproto", "keys"), "--port-range"]
FIRST_ON_LINK_1 = [*SAMPLE, "--link", "1", "--now", "1694499816"]


def bytes_of(*path):
    with open(file_of(*path), "rb") as file:
        return file.read()


def datagrams():
    """The first datagram, and one with a wrong MAC, which is answered."""
    first = bytes_of("examples", "first-datagram.hex")
    return first + first.replace(b"0e66d2974536", b"0e66d2974537")


# A configuration can't be read, or the command's own text has no room.
LACKS = ("config 9", "memory")

TRIALS = {
    "check": lambda: of_router("check", SAMPLE, "config 9", may=LACKS),
    "check-net": lambda: of_router("check", ["--net", *THREE_ASES], "memory"),
    "import": lambda: of_router("import", IMPORTED, *LACKS),
    "route": lambda: of_router("route", FIRST_ON_LINK_1, *LACKS, given=datagrams()),
    "replay": lambda: of_router("replay", SAMPLE, *LACKS, given=bytes_of("examples", "replay.txt")),
    "run": lambda: of_router("run", ON_LOOPBACK, "start 1", "start 3", *LACKS),
    "run-metrics": lambda: of_router("run", AND_SHOWN, "start 1", "start 3", *LACKS, name="run --metrics"),
    # The engines check what they wrote and that they answer want of memory, and return well.
    "engine_tests": lambda: {
        name: trial
        for begin in ("route::ends_w", "run::ends_w", "replay::replays_w", "config::answers_w")
        for name, trial in of_tests("engine_tests", begin, WELL).items()
    },
    # Another pipeline makes the steps before the one that was refused a growth.
    "pipeline_tests": lambda: of_tests("pipeline_tests", "runs::goes_on", "Setup", "Run", lasts=False),
    # One that is refused once the router runs would let it return well.
    "run_tests": lambda: of_tests("run_tests", "pool::a_thousand", "Setup", "Start", "Thread"),
    # Only the sink takes memory while the workers run. Refused, it fails at that call, which the test sees.
    "stages_tests": lambda: of_tests("stages_tests", "turns::", WELL, "unprepared"),
    # A walk has no right to stop the program, so what stops is the test, which tells of it and of its own nets alike.
    "packet_tests": lambda: of_tests("packet_tests", "walks::", "unprepared"),
}


def main():
    def times_out(*_):
        raise TimeoutError

    signal.signal(signal.SIGALRM, times_out)
    # a test that stops would leave a core file
    resource.setrlimit(resource.RLIMIT_CORE, (0, 0))
    names = sys.argv[1:] or list(TRIALS)
    for unknown in set(names) - set(TRIALS):
        sys.exit(f"there is no trial {unknown}; there are {', '.join(TRIALS)}")
    results = [trial.make(name) for each in names for name, trial in TRIALS[each]().items()]
    sys.exit(0 if all(results) else 1)


main()
