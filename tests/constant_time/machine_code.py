#!/usr/bin/env python3
"""Reads the machine code of functions, and tells where time could depend on data.

    machine_code.py PROGRAM FUNCTION..

FUNCTION is a regular expression that one or more names of functions in PROGRAM match, as `objdump` shows them. Each of
these is read, and each function that it calls. What a function is given in registers counts as public: addresses,
lengths and counters. All that is read from memory counts as data, but for what the function itself put there of public
values. Whatever is computed from data is data. It is told of

- each read and each write at an address that is computed from data,
- each jump that depends on data, and each jump or call to a computed place,
- each division of data, and each instruction that isn't known here.

Exit status 0: none was found. 1: some were, one a line. 2: something is missing.
"""

import re
import subprocess
import sys

ARGUMENTS = ["rdi", "rsi", "rdx", "rcx", "r8", "r9"]
KEPT = ["rbx", "rbp", "r12", "r13", "r14", "r15"]
LETTERED = {"a": "rax", "b": "rbx", "c": "rcx", "d": "rdx"}

# The calls outside the program whose time depends on addresses and lengths alone.
KNOWN = re.compile(r"^(memcpy|memmove|memset)(@plt)?$")

PUBLIC, DATA = "public", "data"

MOVES = re.compile(r"^mov([bwlq]|abs|abs[bwlq])?$|^mov[sz][bwlq]{1,2}$|^mov(s|z)x?d?$|^movslq$|^cltq$|^cltd$|^cqto$|^cwtl$")
SUMS = re.compile(
    r"^(add|adc|sub|sbb|and|or|xor|shl|shr|sar|sal|rol|ror|neg|inc|dec|imul|andn|shld|shrd)[bwlq]?$"
)
TESTS = re.compile(r"^(cmp|test|bt)[bwlq]?$")
LANES = re.compile(
    r"^v?(mov(aps|apd|ups|upd|dqa|dqu|q|d|ss|sd|hlps|lhps|lps|hps|lpd|hpd|ddup|shdup|sldup|nti|ntdq)|lddqu"
    r"|p(and|andn|or|xor|add[bwdq]|sub[bwdq]|shufb|shufd|shuflw|shufhw|sll[wdq]|srl[wdq]|sra[wd]|slldq|srldq|alignr"
    r"|unpck[lh](bw|wd|dq|qdq)|blendw|blendvb|cmpeq[bwdq]|cmpgt[bwdq]|min\w+|max\w+|insr[bwdq]|extr[bwdq]|mul\w+|madd\w+"
    r"|movmskb|mov[sz]x\w+|ackus\w+|ackss\w+|abs[bwd]|sign[bwd])"
    r"|(and|andn|or|xor)p[sd]|unpck[lh]p[sd]|shufp[sd]|blendp[sd]|movmskp[sd]|insertps|extractps)$"
)


def stop(words):
    print(words, file=sys.stderr)
    sys.exit(2)


class Instruction:
    def __init__(self, address, text):
        self.address = address
        self.text = text
        words = text.split(None, 1)
        while words[0] in ("lock", "rep", "repz", "repnz", "data16", "cs", "bnd", "notrack") and len(words) > 1:
            words = words[1].split(None, 1)
        self.name = words[0]
        rest = words[1].split("#")[0].strip() if len(words) > 1 else ""
        self.target = None
        at = re.match(r"^([0-9a-f]+) <(.*)>$", rest)
        if at:
            self.target, self.target_name = int(at.group(1), 16), at.group(2)
            rest = ""
        rest = re.sub(r"<[^>]*>", "", rest)
        self.operands = [it.strip() for it in re.split(r",(?![^()]*\))", rest)] if rest else []


class Function:
    def __init__(self, name):
        self.name, self.code = name, []


def functions(program):
    """The functions of the program, by their addresses."""
    run = subprocess.run(
        ["objdump", "-d", "--no-show-raw-insn", "-w", program], capture_output=True, text=True
    )
    if run.returncode != 0:
        stop(run.stderr.strip())
    found = {}
    for line in run.stdout.splitlines():
        head = re.match(r"^([0-9a-f]+) <(.*)>:$", line)
        if head:
            function = found.setdefault(int(head.group(1), 16), Function(head.group(2)))
        at = re.match(r"^\s+([0-9a-f]+):\t(.*)$", line)
        if at:
            function.code.append(Instruction(int(at.group(1), 16), at.group(2).strip()))
    return found


def register(operand):
    """The whole register of which a register's name is a part, or nothing."""
    name = operand.lstrip("*").lstrip("%")
    if not operand.lstrip("*").startswith("%"):
        return None
    if re.match(r"^[xy]mm\d+$", name):
        return name
    numbered = re.match(r"^(r\d+)[bwd]?$", name)
    if numbered:
        return numbered.group(1)
    lettered = re.match(r"^[re]?([abcd])[xlh]$", name)
    if lettered:
        return LETTERED[lettered.group(1)]
    other = re.match(r"^[re]?(si|di|bp|sp)l?$", name)
    if other:
        return "r" + other.group(1)
    return name


def is_whole(operand):
    """Whether a write of this register leaves nothing of what it held."""
    return not re.match(r"^%([abcd][xlh]|r\d+[bw]|(si|di|bp|sp)l?)$", operand)


class Place:
    """A place in memory, as an operand names it."""

    def __init__(self, operand):
        operand = re.sub(r"^\*?%[cdefgs]s:", "", operand.lstrip("*"))
        parts = re.match(r"^(-?0x[0-9a-f]+|-?\d+)?\(([^)]*)\)$", operand)
        self.is_constant = parts is None
        self.offset = int(parts.group(1) or "0", 0) if parts else 0
        names = parts.group(2).split(",") if parts else []
        self.base = register(names[0].strip()) if names and names[0].strip() else None
        self.index = register(names[1].strip()) if len(names) > 1 else None

    def registers(self):
        return [it for it in (self.base, self.index) if it and it != "rip"]


def is_place(operand):
    return not operand.startswith("%") and not operand.startswith("$")


class State:
    """What registers, flags and the function's own stack hold: `public`, `data`, or a place of the stack."""

    def __init__(self, registers, flags, stack):
        self.registers, self.flags, self.stack = registers, flags, stack

    @staticmethod
    def at_entry(public):
        registers = {name: PUBLIC for name in list(public) + KEPT}
        registers["rsp"] = 0
        return State(registers, DATA, {})

    def copy(self):
        return State(dict(self.registers), self.flags, dict(self.stack))

    def of(self, name):
        return self.registers.get(name, DATA)

    def kind(self, name):
        return DATA if self.of(name) == DATA else PUBLIC

    def joined(self, other):
        """What holds in both, or nothing if that is this state."""
        registers = {
            name: held if other.of(name) == held else PUBLIC
            for name, held in self.registers.items()
            if held != DATA and other.of(name) != DATA
        }
        flags = DATA if DATA in (self.flags, other.flags) else PUBLIC
        stack = {at: held for at, held in self.stack.items() if other.stack.get(at) == held}
        same = registers == {n: h for n, h in self.registers.items() if h != DATA}
        if same and flags == self.flags and stack == self.stack:
            return None
        return State(registers, flags, stack)

    def stack_place(self, place):
        """The offset in the function's stack, if the place is surely there."""
        if place.is_constant or place.index or place.base is None:
            return None
        held = self.of(place.base)
        return held + place.offset if isinstance(held, int) else None

    def load(self, place, size):
        if place.is_constant or place.base == "rip" and not place.index:
            return PUBLIC
        at = self.stack_place(place)
        if at is None or at % 8 or size > 8:
            return DATA
        return self.stack.get(at, DATA)

    def store(self, place, held, size):
        at = self.stack_place(place)
        if at is None:
            return
        for k in range(at - 7, at + size):
            self.stack.pop(k, None)
        if size == 8 and at % 8 == 0 and held != DATA:
            self.stack[at] = held


class Reader:
    def __init__(self, found):
        self.found = found
        self.done = set()
        self.faults = []
        self.read = set()

    def function(self, start, public):
        """Reads a function whose arguments in these registers are public."""
        key = (start, tuple(sorted(public)))
        if key in self.done:
            return
        self.done.add(key)
        self.read.add(start)
        name, code = self.found[start].name, self.found[start].code
        places = {it.address: k for k, it in enumerate(code)}
        states, todo, faults = {0: State.at_entry(public)}, [0], {}
        while todo:
            k = todo.pop()
            state = states[k].copy()
            told = []
            ways = self.step(code[k], places, state, told)
            faults[k] = told
            for way in ways:
                to = k + 1 if way == "next" else places[way]
                if to == len(code):
                    faults[k] = told + ["an end that isn't known"]
                elif to not in states:
                    states[to] = state
                    todo.append(to)
                else:
                    joined = states[to].joined(state)
                    if joined:
                        states[to] = joined
                        todo.append(to)
        for k in sorted(faults):
            for fault in faults[k]:
                self.faults.append(f"{name} {code[k].address:x}: {fault}: {' '.join(code[k].text.split())}")

    def call(self, it, state, told):
        public = [name for name in ARGUMENTS if state.kind(name) == PUBLIC]
        if KNOWN.match(it.target_name):
            # memset is given the byte that it writes
            wanted = {"rdi", "rdx"} if it.target_name.startswith("memset") else {"rdi", "rsi", "rdx"}
            if not wanted <= set(public):
                told.append("a copy at a place or of a length that depends on data")
        elif it.target in self.found and "@plt" not in it.target_name:
            self.function(it.target, public)
        else:
            told.append("a call that isn't known")
        for register_name in list(state.registers):
            if register_name not in KEPT + ["rsp"]:
                del state.registers[register_name]
        state.flags = DATA

    def step(self, it, places, state, told):
        """Does one instruction, and gives the ways on: addresses in the function, or `next`."""
        name, operands = it.name, it.operands
        if name in ("nop", "nopw", "nopl", "endbr64") or it.text == "xchg %ax,%ax":
            return ["next"]
        if name in ("ud2", "hlt", "int3", "ret", "retq"):
            return []
        for operand in operands:
            if is_place(operand) and name not in ("lea", "leaq", "leal"):
                place = Place(operand)
                if any(state.kind(held) == DATA for held in place.registers()):
                    told.append("a place in memory that depends on data")
        if name in ("jmp", "jmpq"):
            if it.target is None:
                told.append("a jump to a computed place")
                return []
            if it.target in places:
                return [it.target]
            self.call(it, state, told)
            return []
        if name.startswith("j"):
            if name in ("jrcxz", "jecxz"):
                depends = state.kind("rcx") == DATA
            else:
                depends = state.flags == DATA
            if depends:
                told.append("a jump that depends on data")
            if it.target in places:
                return [it.target, "next"]
            self.call(it, state.copy(), told)
            return ["next"]
        if name in ("call", "callq"):
            if it.target is None:
                told.append("a call of a computed place")
            else:
                self.call(it, state, told)
            return ["next"]
        if not self.compute(name, operands, state, told):
            told.append("an instruction that isn't known")
        return ["next"]

    def value(self, operand, state, size=8):
        if operand.startswith("$"):
            return PUBLIC
        if operand.startswith("%"):
            return state.of(register(operand))
        return state.load(Place(operand), size)

    def put(self, operand, held, state, size):
        if is_place(operand):
            state.store(Place(operand), held, size)
            return
        name = register(operand)
        if not is_whole(operand) and state.of(name) == DATA:
            held = DATA
        if isinstance(held, int) and name.startswith(("xmm", "ymm")):
            held = PUBLIC
        if held == DATA:
            state.registers.pop(name, None)
        else:
            state.registers[name] = held

    def size(self, name, operands):
        for operand in operands:
            if operand.startswith("%"):
                if re.match(r"^%[xy]mm", operand):
                    return 16
                if re.match(r"^%(r\d+d|e\w\w)$", operand):
                    return 4
                if re.match(r"^%(r\d+w|[abcd]x|si|di|bp|sp)$", operand):
                    return 2
                if re.match(r"^%(r\d+b|[abcd][lh]|(si|di|bp|sp)l)$", operand):
                    return 1
                return 8
        return {"b": 1, "w": 2, "l": 4, "q": 8}.get(name[-1], 8)

    def compute(self, name, operands, state, told):
        size = self.size(name, operands)
        held = [self.value(operand, state, size) for operand in operands]
        kinds = [DATA if it == DATA else PUBLIC for it in held]
        all_of = DATA if DATA in kinds else PUBLIC
        if name in ("push", "pushq"):
            state.registers["rsp"] -= 8
            state.store(Place("0(%rsp)"), held[0], 8)
        elif name in ("pop", "popq"):
            self.put(operands[0], state.load(Place("0(%rsp)"), 8), state, 8)
            state.registers["rsp"] += 8
        elif name in ("leave", "leaveq"):
            state.registers["rsp"] = state.of("rbp")
            self.put("%rbp", state.load(Place("0(%rsp)"), 8), state, 8)
            state.registers["rsp"] += 8
        elif name in ("lea", "leaq", "leal"):
            place = Place(operands[0])
            at = state.stack_place(place)
            kind = DATA if any(state.kind(it) == DATA for it in place.registers()) else PUBLIC
            self.put(operands[1], at if at is not None else kind, state, 8)
        elif name in ("cltq", "cqto", "cltd", "cwtl"):
            if state.kind("rax") == DATA:
                state.registers.pop("rdx" if name in ("cqto", "cltd") else "rax", None)
            elif name in ("cqto", "cltd"):
                state.registers["rdx"] = PUBLIC
        elif MOVES.match(name) and not any(re.match(r"^%[xy]mm", it) for it in operands):
            whole = name in ("mov", "movq", "movabs") and size == 8
            self.put(operands[1], held[0] if whole else kinds[0], state, size)
        elif TESTS.match(name):
            state.flags = all_of
        elif SUMS.match(name):
            if name[:3] in ("adc", "sbb") and state.flags == DATA:
                all_of = DATA
            if name[:3] in ("xor", "sub") and len(operands) == 2 and operands[0] == operands[1]:
                all_of = PUBLIC
            old = state.of("rsp") if register(operands[-1]) == "rsp" else None
            if isinstance(old, int):
                moved = re.match(r"^\$(-?0x[0-9a-f]+|-?\d+)$", operands[0])
                if moved and name[:3] in ("add", "sub"):
                    amount = int(moved.group(1), 0)
                    state.registers["rsp"] = old + amount if name[:3] == "add" else old - amount
                elif moved and name[:3] == "and":
                    # how far below isn't known, so these are other places
                    state.registers["rsp"] = old - 2**32
                else:
                    return False
            elif len(operands) == 1 and name.startswith("imul"):
                self.product(operands[0], state)
            else:
                self.put(operands[-1], all_of, state, size)
            state.flags = all_of
        elif re.match(r"^mul[bwlq]?$", name):
            self.product(operands[0], state)
        elif re.match(r"^i?div[bwlq]?$", name):
            if all_of == DATA or DATA in (state.kind("rax"), state.kind("rdx")):
                told.append("a division of data")
            for it in ("rax", "rdx"):
                state.registers.pop(it, None)
        elif re.match(r"^not[bwlq]?$", name):
            self.put(operands[0], kinds[0], state, size)
        elif re.match(r"^bswap[lq]?$", name):
            self.put(operands[0], kinds[0], state, size)
        elif re.match(r"^set\w+$", name):
            self.put(operands[0], state.flags, state, 1)
        elif re.match(r"^cmov\w+$", name):
            self.put(operands[1], DATA if DATA in (all_of, state.flags) else PUBLIC, state, size)
        elif re.match(r"^v?(ptest|u?comis[sd])$", name):
            state.flags = all_of
        elif LANES.match(name) or re.match(r"^mov[qd]$", name):
            if len(operands) == 2 and operands[0] == operands[1] and re.match(r"^v?(pxor|xorp[sd])$", name):
                all_of = PUBLIC
            elif len(operands) == 2 and re.match(r"^v?(mov|lddqu)", name):
                all_of = kinds[0]
            self.put(operands[-1], all_of, state, 16 if size == 16 else size)
        else:
            return False
        return True

    def product(self, operand, state):
        kinds = [self.value(operand, state), state.kind("rax")]
        for name in ("rax", "rdx"):
            if DATA in kinds:
                state.registers.pop(name, None)
            else:
                state.registers[name] = PUBLIC
        state.flags = DATA if DATA in kinds else PUBLIC


def main():
    if len(sys.argv) < 3:
        stop(__doc__.split("\n\n")[1].strip())
    found = functions(sys.argv[1])
    reader = Reader(found)
    for wanted in sys.argv[2:]:
        starts = [start for start in found if re.search(wanted, found[start].name)]
        if not starts:
            stop(f"{sys.argv[1]} has no function {wanted}")
        for start in starts:
            reader.function(start, ARGUMENTS)
    for fault in reader.faults:
        print(fault)
    for start in sorted(reader.read):
        print(f"read: {found[start].name}, {len(found[start].code)} instructions")
    sys.exit(1 if reader.faults else 0)


main()
