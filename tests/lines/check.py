#!/usr/bin/env python3
"""Gives the built program words, configurations and lines, and compares what it writes and how it ends with tables.

The tables are the files beside this one. Each says at its head what its rows are; lines that begin with `# ` are
comments. Besides, `router route` is given each beginning of the first datagram, of two one-hop packets and of BFD, and each
datagram that differs from one of them in one byte, and packets for a host with each byte behind their header turned. What
comes of BFD and to which port a host's packets go is compared with the model of tests/scion.py. No router is started, and
no network is needed.

Use: tests/lines/check.py [PROGRAM], where PROGRAM is bin/router if it isn't named.
"""

import os
import re
import struct
import subprocess
import sys
import tempfile
import tomllib

HERE = os.path.dirname(os.path.abspath(__file__))
TOP = os.path.dirname(os.path.dirname(HERE))
sys.path.insert(0, os.path.join(TOP, "tests"))

import scion  # noqa: E402

SECONDS = 60
MOST_SHOWN = 20

# By link 1, at a second at which the first datagram is sent on. The configuration is always the file `c`.
ROUTE = ["route", "--config", "c", "--link", "1", "--now", "1694499816"]
REPLAY = ["replay", "--config", "c"]
CHECK = ["check", "--config", "c"]
RUN = ["run", "--config", "c"]
IMPORT = ["import", "--topology", "t", "--router", "br1-ff00_0_110-1", "--keys", "."]
SCIONPROTO = os.path.join(TOP, "examples", "scionproto")

# The routers of examples/three-ases, in the order of a path.
NET = ["first.toml", "core-1.toml", "core-2.toml", "last.toml"]


# Tables.


def rows_of(name):
    """The lines of a file that are neither empty nor comments."""
    with open(os.path.join(HERE, name), encoding="utf-8") as file:
        rows = [line for line in file.read().split("\n") if line and line != "#" and not line.startswith("# ")]
    if not rows:
        sys.exit(f"{name} has no rows")
    return rows


def text_of(name):
    """The text of a configuration, without its comments: a fault tells of a line by its number."""
    return "".join(f"{row}\n" for row in rows_of(name))


def bytes_of(name):
    return bytes.fromhex("".join(rows_of(name)))


def changed(text, old, new):
    """The text with a part replaced. In both parts `⏎` stands for the end of a line."""
    old, new = old.replace("⏎", "\n"), new.replace("⏎", "\n")
    if old not in text:
        sys.exit(f"there is no {old!r} to be changed")
    return text.replace(old, new, 1)


def unescaped(text):
    """The bytes of a text in which `\\r` and `\\x..` stand for some."""
    return text.encode("ascii").decode("unicode_escape").encode("latin-1")


# The program.


def writes(output):
    """The end of a command that does all it was asked for: status, output, and a pattern of standard error."""
    return 0, output, b""


def faults(words, output=b""):
    """The end of a command by a fault, after this output."""
    return 1, output, re.escape(b"fault: " + words + b"\n")


class Trial:
    """Runs of the program in a folder of its own, and how many rows came out as they should."""

    def __init__(self, program, folder):
        self.program, self.folder = program, folder
        self.passed, self.failed = 0, 0

    def run(self, words, config, given=b""):
        """The status, the output and standard error of a command, where `c` has this text, or isn't there for None."""
        path = os.path.join(self.folder, "c")
        if config is not None:
            with open(path, "w", encoding="utf-8") as file:
                file.write(config)
        elif os.path.exists(path):
            os.remove(path)
        try:
            done = subprocess.run(
                [self.program, *words], cwd=self.folder, input=given, capture_output=True, timeout=SECONDS
            )
        except subprocess.TimeoutExpired:
            return -1, b"", f"(no end within {SECONDS} seconds)".encode()
        if words[:1] == ["import"] and re.search(rb"[0-9a-f]{32}", done.stderr):
            return -1, b"", b"(a key on standard error)"
        return done.returncode, done.stdout, done.stderr

    def count(self, row, is_good, *told):
        """Counts a row, and tells of the first ones that came out otherwise."""
        if is_good:
            self.passed += 1
            return
        self.failed += 1
        if self.failed <= MOST_SHOWN:
            print(row[:160])
            for line in told:
                print(f"  {line[:400]}")

    def compare(self, row, wanted, words, config, given=b"", first_line=False):
        """Counts a row by how a command ends; where just the first line of the output counts, by that one."""
        status, output, errors = self.run(words, config, given)
        output = output[: output.find(b"\n") + 1] if first_line else output
        is_good = (status, output) == wanted[:2] and re.fullmatch(wanted[2], errors, re.DOTALL) is not None
        self.count(row, is_good, f"wanted {wanted}", f"came   {(status, output, errors)}")


# Words and configurations.


# The ends of a command line that are tried where there is no file `c`.
NO_FILE = ("no file", "unread", "unread topology", "refused")


def try_words(trial):
    config = changed(text_of("router.toml"), "{id=3,", "{id=65535,")
    links = b"".join(b"link %d sent -\n" % link for link in (0, 1, 2, 65535))
    ends = {
        "nothing": writes(b""),
        "report": writes(links + b"received 0\nsent 0\nanswered 0\nwaiting 0\n"),
        "ok": writes(b"ok\n"),
        "no file": faults(b"file"),
        "no link": faults(b"link"),
        "unread": (1, b"", b"fault: file: [^\n]+\n"),
        "unread topology": (1, b"", b"fault: topology: [^\n]+\n"),
        "refused": (2, b"", b".+"),
    }
    for row in rows_of("words.txt"):
        end, words = row.split(":", 1)
        # where words are wrongly taken, a missing `c` shows it, and starts no router
        trial.compare(row, ends[end], words.split(), None if end in NO_FILE else config)


def try_addresses(trial):
    config = text_of("router.toml")
    for row in rows_of("no-addresses.txt"):
        # the text tells that a value is refused: without it, the same words are taken
        refused = (2, b"", b".*ADDR an address and port.*")
        trial.compare(row, refused, [*ROUTE, f"--from={row[1:-1]}"], config)


def try_configs(trial):
    sound = text_of("router.toml")
    for row in rows_of("configs.txt"):
        told, change = row.split(": ", 1)
        config = changed(sound, *change.split(" -> ", 1))
        if told == "ok":
            # what is good may hurt all the same
            trial.compare(row, (0, b"ok\n", b"(warning: [^\n]+\n)*"), CHECK, config)
            continue
        trial.compare(row, (1, b"", f"fault: config {told}: [^\n]+\n".encode()), CHECK, config)
        for words in (ROUTE, REPLAY, RUN):
            trial.compare(f"{words[0]}: {row}", faults(b"config " + told.encode()), words, config)


def try_fault_words(trial):
    sound = text_of("router.toml")
    for row in rows_of("fault-words.txt"):
        old, new, words = row.split(" -> ", 2)
        pattern = re.escape(words[:-2]) + "[^\n]*" if words.endswith("..") else re.escape(words)
        fault = (1, b"", f"fault: config [1-8]: {pattern}\n".encode())
        trial.compare(row, fault, CHECK, changed(sound, old, new))


def try_warnings(trial):
    sound, cores = text_of("router.toml"), os.cpu_count() or 1
    for row in rows_of("warnings.txt"):
        old, new, words = row.split(" -> ", 2)
        if "`processors`" in words and cores >= 16:
            continue
        pattern = re.escape(words[:-2]) + "[^\n]*" if words.endswith("..") else re.escape(words)
        warned = f"warning: {pattern}\n".encode()
        config = changed(sound, old, new)
        trial.compare(row, (0, b"ok\n", warned), CHECK, config)
        trial.compare(f"--strict: {row}", (1, b"", warned + b"fault: warnings\n"), [*CHECK, "--strict"], config)


# The import of scionproto's topology and key.


def example(name):
    with open(os.path.join(SCIONPROTO, name), encoding="utf-8") as file:
        return file.read()


def put(trial, name, given):
    """Writes a file beside the configuration."""
    with open(os.path.join(trial.folder, name), "wb") as file:
        file.write(given)


def like(words):
    """A pattern of words, of which `..` at the end stands for the rest of the line."""
    return re.escape(words[:-2]) + "[^\n]*" if words.endswith("..") else re.escape(words)


def try_imports(trial):
    topology, config = example("topology.json"), example("router.toml")
    put(trial, "master0.key", example("keys/master0.key").encode())
    for row in rows_of("imports.txt"):
        old, new, words = row.split(" -> ", 2)
        put(trial, "t", changed(topology, old, new).encode())
        trial.compare(f"import: {row}", (1, b"", f"fault: {like(words)}\n".encode()), IMPORT, None)
    for row in rows_of("imported.txt"):
        old, new, part, instead = f"{row} ".split(" -> ", 3)
        put(trial, "t", changed(topology, old, new).encode())
        wanted = changed(config, part, instead.rstrip(" "))
        trial.compare(f"import: {row}", writes(wanted.encode()), [*IMPORT, "--port-range", "--strict"], None)
        trial.compare(f"check: {row}", writes(b"ok\n"), [*CHECK, "--strict"], wanted)
    for row in rows_of("import-warnings.txt"):
        old, new, words = row.split(" -> ", 2)
        warned = f"warning: {like(words)}\n".encode()
        put(trial, "t", changed(topology, old, new).encode())
        trial.compare(f"import: {row}", (0, b"version = 2\n", warned), [*IMPORT, "--port-range"], None, first_line=True)
        strict = (1, b"", warned + b"fault: warnings\n")
        trial.compare(f"import --strict: {row}", strict, [*IMPORT, "--port-range", "--strict"], None)


def try_import_files(trial):
    """Where the import's files are, and where they aren't."""
    config = example("router.toml")
    put(trial, "t", example("topology.json").encode())
    put(trial, "master0.key", example("keys/master0.key").encode())
    left_out = b"warning: `dispatched_ports` 31000-32767 is left out: --port-range carries it\n"
    bare = changed(config, "dispatched_ports = [31000, 32767]\n", "")
    trial.compare("import without ports", (0, bare.encode(), left_out), IMPORT, None)
    strict = (1, b"", left_out + b"fault: warnings\n")
    trial.compare("import --strict without ports", strict, [*IMPORT, "--strict"], None)
    trial.compare("no topology", (1, b"", b"fault: topology: [^\n]+\n"), [*IMPORT[:2], "none", *IMPORT[3:]], None)
    trial.compare("no keys", (1, b"", b"fault: master key: [^\n]+\n"), [*IMPORT[:-1], "none"], None)
    trial.compare("no folder", (1, b"", b"fault: out: [^\n]+\n"), [*IMPORT, "--port-range", "--out", "none/o"], None)
    path = os.path.join(trial.folder, "o")
    os.symlink("t", path)
    for special in (".", "/dev/null", "o"):
        wanted = faults(b"out: it is there, and no regular file")
        trial.compare(f"--out {special}", wanted, [*IMPORT, "--port-range", "--out", special], None)
    os.remove(path)
    for before in (None, 0o644, 0o400):
        if before:
            os.chmod(path, before)
        trial.compare("import --out", writes(b""), [*IMPORT, "--port-range", "--out", "o"], None)
        with open(path, encoding="utf-8") as file:
            trial.count("what --out wrote", file.read() == config)
        trial.count("the mode of --out", os.stat(path).st_mode & 0o777 == 0o600, oct(os.stat(path).st_mode))
    beside = [name for name in os.listdir(trial.folder) if name.startswith("o")]
    trial.count("files beside --out", beside == ["o"], beside)


def try_part_files(trial):
    """What has the name of a file of --out that isn't whole yet stays, and nothing is written."""
    put(trial, "t", example("topology.json").encode())
    put(trial, "master0.key", example("keys/master0.key").encode())
    path = os.path.join(trial.folder, "p.part")
    makers = {
        "a file": lambda: put(trial, "p.part", b"another text"),
        "a link to a file": lambda: os.symlink("p", path),
        "a link to nothing": lambda: os.symlink("nothing", path),
    }
    for what, make in makers.items():
        put(trial, "p", b"an old text")
        make()
        before = os.lstat(path)
        wanted = faults(b'out: "p.part" already exists')
        trial.compare(f"--out beside {what}", wanted, [*IMPORT, "--port-range", "--out", "p"], None)
        trial.count(f"{what} stays", os.lstat(path) == before, os.lstat(path))
        names = sorted(name for name in os.listdir(trial.folder) if name.startswith(("p", "nothing")))
        trial.count(f"files beside {what}", names == ["p", "p.part"], names)
        with open(os.path.join(trial.folder, "p"), "rb") as file:
            trial.count("what was at --out", file.read() == b"an old text")
        os.remove(path)
    os.remove(os.path.join(trial.folder, "p"))


def try_master_keys(trial):
    config = example("router.toml")
    put(trial, "t", example("topology.json").encode())
    for row in rows_of("master-keys.txt"):
        told, text = row.split(" <- ", 1)
        put(trial, "master0.key", unescaped(text))
        if told.startswith("="):
            wanted = writes(changed(config, "014f838b9e1db547479909e7710bc7c8", told[1:]).encode())
        else:
            wanted = (1, b"", f"fault: master key: {like(told)}\n".encode())
        trial.compare(f"master key: {row}", wanted, [*IMPORT, "--port-range"], None)


def try_malicious_imports(trial):
    """A topology cut at each length, and with each byte turned: one line and status 1, or a configuration."""
    put(trial, "master0.key", example("keys/master0.key").encode())
    whole = "".join(line.strip() for line in example("topology.json").split("\n")).encode()
    given = [whole[:end] for end in range(len(whole))]
    given += [turned(whole, at, 1 << at % 8) for at in range(len(whole))]
    for text in given:
        put(trial, "t", text)
        status, output, errors = trial.run([*IMPORT, "--port-range"], None)
        refused = status == 1 and output == b"" and re.fullmatch(b"(warning: [^\n]+\n)*fault: [^\n]+\n", errors)
        taken = status == 0 and output.startswith(b"version = 2\n") and re.fullmatch(b"(warning: [^\n]+\n)*", errors)
        trial.count(f"import: {text!r}", bool(refused or taken), (status, output, errors))


def try_sockets(trial):
    # addresses of documentation, which no machine has
    config = re.sub(r'"10\.(\d)\.0\.(\d)', r'"192.0.2.1\1\2', text_of("router.toml"))
    lines = "".join(f"socket {link} at 192\\.0\\.2\\.1{link}1:[34]0000: [^\n]+\n" for link in range(4))
    unbound = (1, b"", f"{lines}fault: socket 0\n".encode())
    trial.compare("--bind", unbound, [*CHECK, "--bind"], config)


# Nets of configurations.


def net_of(changes):
    """The texts of the four configurations of examples/three-ases, with changes."""
    texts = {}
    for name in NET:
        with open(os.path.join(TOP, "examples", "three-ases", name), encoding="utf-8") as file:
            texts[name] = file.read()
    texts["copy.toml"] = texts["core-1.toml"]
    for change in [] if changes == "-" else changes.split(" & "):
        name, change = change.split(": ", 1)
        old, _, new = change.partition(" ->")
        texts[name] = changed(texts[name], old, new.removeprefix(" "))
    return texts


def try_nets(trial):
    for row in rows_of("nets.txt"):
        told, end = row.split(" => ", 1)
        files, _, changes = told[1:].partition("] ") if told.startswith("[") else (" ".join(NET), "", told)
        for name, text in net_of(changes).items():
            with open(os.path.join(trial.folder, name), "w", encoding="utf-8") as file:
                file.write(text)
        first, *others = end.split("⏎")
        if first == "ok":
            wanted = 0, b"ok\n", re.escape("".join(f"{line}\n" for line in others).encode())
        else:
            pattern = re.escape(first[:-2]) + "[^\n]*" if first.endswith("..") else re.escape(first)
            wanted = 1, b"", f"fault: net: {pattern}\n".encode()
        trial.compare(row, wanted, ["check", "--net", *files.split()], None)


# Worked datagrams.


def made(base, length, changes):
    """The bytes of the base, cut or filled with zeros to this length, with changes, each told as `offset=hex`."""
    found = bytearray(base[:length].ljust(length, b"\0"))
    for change in changes.split():
        at, digits = change.split("=")
        at, put = int(at), bytes.fromhex(digits)
        found.extend(bytes(max(0, at + len(put) - len(found))))
        found[at : at + len(put)] = put
    return bytes(found)


def quoting(answer, datagram):
    """The answer with the datagram after its message's first bytes, as far as its payload length tells."""
    end = 4 * answer[5] + int.from_bytes(answer[6:8], "big")
    return (answer + datagram)[:end].ljust(end, b"\0")


def try_worked(trial, name, link, now, source, config, datagram, line):
    """Counts a worked datagram by the line that is written for it."""
    words = ["route", "--config", "c", "--link", link, "--now", now, *([] if source == "-" else ["--from", source])]
    trial.compare(name, writes(f"{line}\n".encode()), words, config, f"{datagram.hex()}\n".encode())


def try_datagrams(trial):
    config, first, answer = text_of("router.toml"), bytes_of("first.hex"), bytes_of("answer.hex")
    for row in rows_of("datagrams.txt"):
        name, link, now, source, length, changes, begins, leaves = (column.strip() for column in row.split(";"))
        datagram = made(first, int(length), changes)
        if begins.startswith("send "):
            begins += " " + made(datagram, len(datagram), leaves).hex()
        elif begins.startswith("answer "):
            begins += " " + quoting(made(answer, len(answer), leaves), datagram).hex()
        try_worked(trial, name, link, now, source, config, datagram, begins)


def without_neighbors(config, links):
    """The configuration in which these links have no `neighbor`."""
    for link in links:
        config = re.sub(rf'(\{{id={link},.*), neighbor="[^"]*"', r"\1", config)
    return config


def try_one_hops(trial):
    sound, leaving, entering = text_of("router.toml"), bytes_of("one-hop-out.hex"), bytes_of("one-hop-in.hex")
    for row in rows_of("one-hops.txt"):
        name, bare, link, now, source, length, changes, line, leaves = (column.strip() for column in row.split(";"))
        config = sound if bare == "-" else without_neighbors(sound, bare.split())
        datagram = made(leaving if link == "0" else entering, int(length), changes)
        if line.startswith("send "):
            line += " " + made(datagram, len(datagram), leaves).hex()
        try_worked(trial, f"one hop: {name}", link, now, source, config, datagram, line)


# BFD, and the ports of hosts.


def with_bfd(config, links):
    """The configuration in which these links have `bfd`."""
    for link in links:
        config = re.sub(rf"(\{{id={link},[^}}]*)\}}", r"\1, bfd=true}", config)
    return config


def router_of(config):
    """The router of a configuration, for the model."""
    keys = tomllib.loads(config)
    links = {}
    for it in keys["link"]:
        local, remote = scion.underlay_of(it["local"]), scion.underlay_of(it["remote"])
        links[it["id"]] = scion.Link(it["id"], local, remote, scion.isd_as_of(it["neighbor"]), it.get("bfd", False))
    services = {it["number"]: it["at"] for it in keys["service"]}
    isd_as, key = scion.isd_as_of(keys["isd_as"]), bytes.fromhex(keys["key"])
    return scion.Router(isd_as, key, keys["host_port"], keys.get("dispatched_ports"), links, services)


def try_bfd(trial):
    sound, asked, answer = with_bfd(text_of("router.toml"), "12"), bytes_of("bfd-in.hex"), bytes_of("bfd-answer.hex")
    for row in rows_of("bfd.txt"):
        name, change, link, now, source, length, changes, line, leaves = (column.strip() for column in row.split(";"))
        old, _, new = change.partition(" ->")
        config = sound if change == "-" else changed(sound, old, new.strip())
        datagram = made(asked, int(length), changes)
        if line.startswith("answer "):
            line += " " + quoting(made(answer, len(answer), leaves), b"").hex()
        elif line.startswith("send "):
            line += " " + made(datagram, len(datagram), leaves).hex()
        try_worked(trial, f"BFD: {name}", link, now, source, config, datagram, line)


# Packets for hosts and a service of this AS, each with no byte behind its header: what it is, the file and what it has in
# place of its bytes, and what it has in place of them when it is sent.
FOR_HOSTS = [
    ("an IPv4 host", "first.hex", 84, "19=10 29=00004d 36=02 66=c0c1c2c3c4c5 75=01 78=f45c25cfe94d", "", "10.0.0.77"),
    (
        "an IPv6 host",
        "first.hex",
        96,
        "5=18 9=30 19=10 28=fd0000000000000000000000000000770a010005020030000100123465000000 63=000011a0a1a2a3a4a5 "
        "75=010002c0c1c2c3c4c5003f00010000f45c25cfe94d",
        "",
        "[fd00:0:0:0:0:0:0:77]",
    ),
    ("a service", "first.hex", 84, "9=40 19=10 28=00 31=00 36=02 66=c0c1c2c3c4c5 75=01 78=f45c25cfe94d", "", None),
    ("a host, over one hop", "one-hop-in.hex", 68, "9=00 28=0a00004d", "57=3f00010000f0821ddd927c", "10.0.0.77"),
]


def behind_header(text):
    """The bytes of a column of ports.txt."""
    found = b""
    for word in text.split():
        if word.startswith("quote:"):
            found += made(bytes_of("sent.hex"), 84, f"4={word[6:]}")
        else:
            found += bytes.fromhex(word)
    return found


def for_host(kind, next_header, behind, port):
    """A packet for a host with these bytes behind its header, and its line where the host listens at this port."""
    _, file, length, changes, leaves, host = kind
    datagram = made(bytes_of(file), length, f"{changes} 4={next_header:02x} 6={len(behind):04x}") + behind
    left, to = made(datagram, len(datagram), leaves).hex(), f"{host}:{port}" if host else "10.0.0.9:30252"
    return datagram, "drop 21" if (file, next_header) == ("one-hop-in.hex", scion.BFD) else f"send 0 {to} {left}"


def with_ports(config, within):
    return changed(config, "seed = 0", f"seed = 0⏎dispatched_ports = [{within}]") if within else config


def try_for_hosts(trial, name, within, cases, kinds=FOR_HOSTS):
    """Counts packets for hosts of these kinds, given together. A case has its name, next header, bytes and port."""
    config = with_ports(text_of("router.toml"), within)
    for kind in kinds:
        made_so = [for_host(kind, next_header, behind, port) for _, next_header, behind, port in cases]
        lines = lines_for(trial, name, ROUTE, [datagram for datagram, _ in made_so], config)
        for case, (_, wanted), line in zip(cases, made_so, lines):
            told = f"wanted {wanted}", f"came   {line}"
            trial.count(f"{name}: {case[0]}, to {kind[0]}", line == wanted.encode(), *told)


def try_ports(trial):
    by_range = {}
    for row in rows_of("ports.txt"):
        name, within, next_header, behind, port = (column.strip() for column in row.split(";"))
        case = name, int(next_header, 16), behind_header(behind), int(port)
        by_range.setdefault(within, []).append(case)
    for within, cases in by_range.items():
        try_for_hosts(trial, f"ports {within}", within, cases)
        try_for_hosts(trial, "no ports", None, [(*case[:3], 30041) for case in cases])


def try_malicious_ports(trial):
    """Packets for a host with each byte behind their header turned, and each beginning of them."""
    within, router = "31000, 32767", router_of(with_ports(text_of("router.toml"), "31000, 32767"))
    asked = ["11 75317b0c00080000", "c8 c90000001100000075317b0c00080000", "ca 810000007b0c0007"]
    asked.append("ca 0500000000000000000000000000000000000000 quote:c8 1101000000000000 7b0c753100080000")
    for text in asked:
        next_header, whole = int(text[:2], 16), behind_header(text[3:])
        cases = [(f"{end} bytes", next_header, whole[:end]) for end in range(len(whole))]
        for at, turn in turns_of(whole):
            cases.append((f"byte {at} turned by {turn:02x}", next_header, turned(whole, at, turn)))
        ports = [scion.port_of(router, next_header, behind) for _, next_header, behind in cases]
        try_for_hosts(trial, text, within, [(*case, port) for case, port in zip(cases, ports)], FOR_HOSTS[:1])


def try_malicious_bfd(trial):
    """BFD that comes by a link, cut at each length and turned in each byte, before and after it knows this end."""
    config = with_bfd(text_of("router.toml"), "12")
    router, now = router_of(config), 1694499816
    for changes in ("", "69=c0 79=01", "1=8bfda0"):
        whole = made(bytes_of("bfd-in.hex"), 92, changes)
        given = [whole[:end] for end in range(12, len(whole))]
        given += [turned(whole, at, turn) for at, turn in turns_of(whole) if at != 8]
        link = router.links[1]
        for datagram, line in zip(given, lines_for(trial, "BFD", ROUTE, given, config)):
            wanted = scion.entering(router, link, now, link.remote, datagram)
            trial.count(f"BFD: {datagram.hex()}", line == wanted.encode(), f"wanted {wanted}", f"came   {line}")


def try_longest(trial):
    config, header, answer = text_of("router.toml"), bytes_of("long-header.hex"), bytes_of("long-answer.hex")
    for length, line in ((9216, f"answer 1 - {answer.hex()}\n"), (9217, "drop 11\n")):
        given = header.ljust(length, b"\x5a").hex().encode()
        trial.compare(f"{length} bytes", writes(line.encode()), ROUTE, config, given)


# Lines of `route` and of `replay`.


def cases_of(name):
    """The cases of a table: each with its name, changes of the configuration, its input, its output and its fault."""
    rest_of_first, found = bytes_of("first.hex")[4:].hex(), []
    for row in rows_of(name):
        mark, _, text = row.partition(" ")
        if mark == "=":
            found.append({"name": text, "changes": [], "given": b"", "output": b"", "fault": None})
        elif mark == ":":
            found[-1]["changes"].append(text.split(" -> ", 1))
        elif mark in ("<", "<."):
            line = text[:-2] + rest_of_first if text.endswith("..") else text
            found[-1]["given"] += unescaped(line) + (b"\n" if mark == "<" else b"")
        elif mark == ">":
            found[-1]["output"] += text.encode() + b"\n"
        elif mark == "!":
            found[-1]["fault"] = text.encode()
        else:
            sys.exit(f"{name}: no line of a case begins with {mark}")
    return found


def try_cases(trial, name, words, config):
    for case in cases_of(name):
        text = config
        for old, new in case["changes"]:
            text = changed(text, old, new)
        wanted = faults(case["fault"], case["output"]) if case["fault"] else writes(case["output"])
        trial.compare(f"{name}: {case['name']}", wanted, words, text, case["given"])


def try_replay_faults(trial):
    config = text_of("replay.toml")
    for row in rows_of("replay-faults.txt"):
        place, line = row.split(" ", 1)
        line = unescaped(line[1:-1])
        if place == "step":
            # the lines before it are noted, and the one after it isn't read
            given, noted = b"receive 1\n" + line + b"\nreceive 1\n", b"not now 1\n"
        else:
            given, noted = b"arrive 1 - 0 00\n" + line + b"\n", b""
        trial.compare(row, faults(b"line 2", noted), REPLAY, config, given)


# Malicious datagrams.


def parts_of(datagram):
    """The addresses, the path and the payload of a datagram whose header docs/FORMATS.md doesn't refuse, else None."""
    if len(datagram) < 12 or datagram[0] >> 4 != 0 or datagram[8] != 1:
        return None
    hosts = 4 * ((datagram[9] >> 4 & 3) + 1) + 4 * ((datagram[9] & 3) + 1)
    begin, end = 28 + hosts, 4 * datagram[5]
    if not begin <= end <= len(datagram):
        return None
    return datagram[12:begin], datagram[begin:end], datagram[end:]


def is_path(path):
    """Whether docs/FORMATS.md doesn't refuse a path."""
    if len(path) < 4:
        return False
    meta = int.from_bytes(path[:4], "big")
    segment, hop = meta >> 30, meta >> 24 & 63
    lengths = [meta >> 12 & 63, meta >> 6 & 63, meta & 63]
    segments, hops = sum(length > 0 for length in lengths), sum(lengths)
    if 0 in lengths[:segments] or not 1 <= hops <= 64 or len(path) != 4 + 8 * segments + 12 * hops:
        return False
    if segment >= segments or not sum(lengths[:segment]) <= hop < sum(lengths[: segment + 1]):
        return False
    return not any(path[4 + 8 * k] & 2 for k in range(segments))


def is_checksum_right(addresses, message):
    """Whether the words of an SCMP message and its pseudo header sum up to a multiple of 65,535."""
    summed = addresses + struct.pack(">II", len(message), 202) + message + bytes(len(message) % 2)
    return sum(struct.unpack(f">{len(summed) // 2}H", summed)) % 65535 == 0


def message_of(line):
    """The message of a line that is an answer by link 1, if it reads back and has the right checksum; else None."""
    found = re.fullmatch(rb"answer 1 - ((?:[0-9a-f]{2})+)", line)
    answer = bytes.fromhex(found[1].decode()) if found else b""
    parts = parts_of(answer)
    if not parts or answer[4] != 202:
        return None
    addresses, path, message = parts
    is_whole = int.from_bytes(answer[6:8], "big") == len(message)
    return message if is_whole and is_path(path) and is_checksum_right(addresses, message) else None


def is_cut_well(line, cut, payload_at):
    """Whether a datagram that is cut within its header is dropped as too short, and the sender of another is told that
    the payload length is wrong, with all of it as the quote."""
    if len(cut) < payload_at:
        return line == b"drop 1"
    message = message_of(line)
    return message is not None and (message[:2], message[4:8], message[8:]) == (b"\x04\x13", bytes(4), cut)


def is_good(line):
    """Whether a line is one that docs/FORMATS.md has, and reads back where it is an answer."""
    return re.fullmatch(rb"drop \d+|send \d+ \S+ (?:[0-9a-f]{2})+", line) or message_of(line) is not None


def turns_of(datagram):
    """The places of a datagram, each with each way to turn its byte."""
    return [(at, turn) for at in range(len(datagram)) for turn in range(1, 256)]


def turned(datagram, at, turn):
    return datagram[:at] + bytes([datagram[at] ^ turn]) + datagram[at + 1 :]


def lines_for(trial, name, words, datagrams, config=None):
    """The line that `route` writes for each datagram: one for each, all of them ended, and nothing else. Otherwise no
    line is known to be of its datagram."""
    given = "".join(f"{datagram.hex()}\n" for datagram in datagrams).encode()
    status, output, errors = trial.run(words, config or text_of("router.toml"), given)
    lines = output.split(b"\n")
    if (status, errors, lines.pop(), len(lines)) != (0, b"", b"", len(datagrams)):
        print(f"{name}: {len(lines)} lines, status {status}, {errors[:160]}")
        lines = [b""] * len(datagrams)
    return lines


def try_malicious(trial):
    first = bytes_of("first.hex")
    payload_at, cuts, turns = 4 * first[5], [first[:end] for end in range(len(first))], turns_of(first)
    lines = lines_for(trial, "malicious datagrams", ROUTE, cuts + [turned(first, at, turn) for at, turn in turns])
    for cut, line in zip(cuts, lines):
        trial.count(f"the first {len(cut)} bytes", is_cut_well(line, cut, payload_at), f"came   {line}")
    for (at, turn), line in zip(turns, lines[len(cuts) :]):
        trial.count(f"byte {at} turned by {turn:02x}", is_good(line), f"came   {line}")


def is_one_hop_good(line, datagram, places):
    """Whether a one-hop packet is dropped, or sent with no other bytes changed than those at these places."""
    found = re.fullmatch(rb"send \d+ \S+ ((?:[0-9a-f]{2})+)", line)
    if not found:
        return re.fullmatch(rb"drop \d+", line) is not None
    left = bytes.fromhex(found[1].decode())
    return len(left) == len(datagram) and all(a == b or at in places for at, (a, b) in enumerate(zip(datagram, left)))


def try_malicious_one_hop(trial, file, link, places):
    """A one-hop packet that comes by a link, cut at each length and turned in each byte. `places` are those of the bytes
    that the router changes in it. None is answered."""
    packet = bytes_of(file)
    payload_at, cuts, turns = 4 * packet[5], [packet[:end] for end in range(len(packet))], turns_of(packet)
    words = ["route", "--config", "c", "--link", link, "--now", "1694499816"]
    given = cuts + [turned(packet, at, turn) for at, turn in turns]
    lines = lines_for(trial, file, words, given)
    for cut, line in zip(cuts, lines):
        wanted = b"drop 1" if len(cut) < payload_at else b"drop 4"
        trial.count(f"{file}: the first {len(cut)} bytes", line == wanted, f"came   {line}")
    for (at, turn), datagram, line in zip(turns, given[len(cuts) :], lines[len(cuts) :]):
        good = is_one_hop_good(line, datagram, places)
        trial.count(f"{file}: byte {at} turned by {turn:02x}", good, f"came   {line}")


def main():
    program = os.path.abspath(sys.argv[1] if len(sys.argv) > 1 else os.path.join(TOP, "bin", "router"))
    if not os.access(program, os.X_OK):
        sys.exit(f"there is no program {program}: `make` builds it")
    with tempfile.TemporaryDirectory() as folder:
        trial = Trial(program, folder)
        try_words(trial)
        try_addresses(trial)
        try_configs(trial)
        try_fault_words(trial)
        try_warnings(trial)
        try_sockets(trial)
        try_nets(trial)
        try_imports(trial)
        try_import_files(trial)
        try_part_files(trial)
        try_master_keys(trial)
        try_malicious_imports(trial)
        try_datagrams(trial)
        try_one_hops(trial)
        try_bfd(trial)
        try_ports(trial)
        try_longest(trial)
        try_cases(trial, "routes.txt", ROUTE, text_of("router.toml"))
        try_cases(trial, "replays.txt", REPLAY, text_of("replay.toml"))
        try_replay_faults(trial)
        try_malicious(trial)
        try_malicious_one_hop(trial, "one-hop-out.hex", "0", range(38, 40))
        try_malicious_one_hop(trial, "one-hop-in.hex", "1", range(56, 68))
        try_malicious_bfd(trial)
        try_malicious_ports(trial)
    print(f"{trial.passed} passed, {trial.failed} failed")
    sys.exit(1 if trial.failed else 0)


main()
