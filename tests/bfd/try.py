#!/usr/bin/env python3
"""Tries how a running router answers BFD, against a speaker of its own after RFC 5880 (speaker.py).

    tests/bfd/try.py [--program bin/router] [--seconds 60] [--rate 20000]

The speaker is the neighbour of a link with `bfd`. Its session must come up, stay up for these seconds while as many other
packets a second come by the same link, go down when the router ends, and come up when it runs again. Each answer must be
byte for byte the model's of tests/scion.py, and what isn't to be answered must not be. Last, two routers that both answer
are given a forged packet over their link, which must not set them bouncing.
"""

import argparse
import collections
import os
import random
import select
import signal
import struct
import subprocess
import sys
import tempfile
import time

ROOT = os.path.dirname(os.path.dirname(os.path.dirname(os.path.abspath(__file__))))
sys.path.insert(0, os.path.join(ROOT, "tests"))

import scion  # noqa: E402
from speaker import ADMINISTRATIVELY_DOWN, NO_DIAGNOSTIC, TIME_EXPIRED, Speaker, address_of, bound  # noqa: E402

HERE, THERE, BEYOND = (scion.isd_as_of(f"1-ff00:0:11{it}") for it in range(3))
KEY, FAR_KEY = bytes(range(16)), bytes(range(16, 32))
KEY_LINE = f'key = "{KEY.hex()}"'
MINE = 0x5EED0111

ROUTER = f"""version = 2
isd_as = "1-ff00:0:110"
{KEY_LINE}
internal = "127.71.0.1:43200"
internal_bands = 1
host_port = 43299
processors = 1
capacity = 1024
seed = 0
buffers = 2048
link = [
{{id=1, kind="parent", local="127.71.1.1:43201", remote="127.71.1.2:43202", bands=2, neighbor="1-ff00:0:111", bfd=true}},
{{id=2, kind="child", local="127.71.2.1:43203", remote="127.71.2.2:43204", bands=1, neighbor="1-ff00:0:112"}}]
"""

PAIR = """version = 1
isd_as = "{own}"
key = "{key}"
internal = "127.71.{number}.1:43200"
host_port = 43299
processors = 1
capacity = 64
seed = 0
link = [{{id={id}, kind="core", local="{local}", remote="{remote}", neighbor="{far}", bfd=true}}]
"""


class Trial:
    """What was seen, and how much of it was wrong."""

    def __init__(self):
        self.failed = 0

    def see(self, is_good, text):
        self.failed += not is_good
        print(f"{'ok    ' if is_good else 'FAILED'} {text}", flush=True)


class Running:
    """A router that runs, until its end."""

    def __init__(self, program, config, folder, name):
        path = os.path.join(folder, f"{name}.toml")
        with open(path, "w", encoding="utf-8") as file:
            file.write(config)
        # a pipe for its output: it writes no more than a report
        words = [program, "run", "--config", path]
        self.process = subprocess.Popen(words, stdin=subprocess.PIPE, stdout=subprocess.PIPE, text=True)
        if not select.select([self.process.stdout], [], [], 60)[0] or self.process.stdout.readline() != "ready\n":
            self.kill()
            sys.exit("the router isn't ready")

    def ask_to_end(self):
        self.process.stdin.write("end\n")
        self.process.stdin.flush()

    def end(self):
        """Ends it, and gives the counts of its report."""
        output, _ = self.process.communicate("end\n", timeout=60)
        counts = collections.Counter()
        for line in output.splitlines():
            words = line.split()
            counts[" ".join(words[:-2]) if words[0] == "link" else " ".join(words[:-1])] = int(words[-1])
        return counts

    def kill(self):
        if self.process.poll() is None:
            self.process.kill()
            self.process.wait()


def as_link(id, local, remote, neighbor):
    return scion.Link(id, scion.underlay_of(local), scion.underlay_of(remote), neighbor, True)


# Other traffic on the link.


def crossing(count):
    """Packets of as many flows from the neighbour to the AS beyond, over a segment of three hops at the second one."""
    timestamp, beta, found = int(time.time()) - 60, 0x1234, []
    mac = scion.mac_of(KEY, beta, timestamp, 63, 1, 2)
    hops = [scion.Hop(0, 63, 0, 17, bytes(6)), scion.Hop(0, 63, 1, 2, mac), scion.Hop(0, 63, 18, 0, bytes(6))]
    path = struct.pack("!IBBHI", 1 << 24 | 3 << 12, 1, 0, beta, timestamp) + b"".join(it.bytes() for it in hops)
    addresses = BEYOND.bytes() + THERE.bytes() + bytes([10, 2, 0, 7, 10, 1, 0, 5])
    for flow in range(count):
        payload = struct.pack("!HHHH", 40000, 40000, 8, 0) + bytes(flow % 1000)
        head = struct.pack("!IBBHBBH", flow, scion.UDP, (12 + len(addresses) + len(path)) // 4, len(payload), 1, 0, 0)
        found.append(head + addresses + path + payload)
    return found


def flood(sock, to, rate):
    """Sends packets at this rate, until a signal; then tells how many on standard output."""
    packets, sent, begin, is_over = crossing(500), 0, time.monotonic(), []
    signal.signal(signal.SIGTERM, lambda *_: is_over.append(True))
    while not is_over:
        for _ in range(min(200, int((time.monotonic() - begin) * rate) - sent)):
            try:
                sock.sendto(packets[sent % 500], to)
            except OSError:
                pass
            sent += 1
        time.sleep(0.0005)
    return sent, time.monotonic() - begin


def drain(sock):
    """Takes what comes, until a signal and nothing more comes."""
    count, is_over = 0, []
    signal.signal(signal.SIGTERM, lambda *_: is_over.append(True))
    while True:
        if select.select([sock], [], [], 0.2)[0]:
            sock.recv(65536)
            count += 1
        elif is_over:
            return count, 0.0


class Aside:
    """A process of its own that does something until it is stopped, and tells two numbers then."""

    def __init__(self, work, *given):
        self.answer, writes = os.pipe()
        self.pid = os.fork()
        if self.pid == 0:
            try:
                os.close(self.answer)
                os.write(writes, struct.pack("!qd", *work(*given)))
            finally:
                os._exit(0)
        os.close(writes)

    def stop(self):
        os.kill(self.pid, signal.SIGTERM)
        found = os.read(self.answer, 16)
        os.close(self.answer)
        os.waitpid(self.pid, 0)
        return struct.unpack("!qd", found)


# The trial.


def comes_up(trial, speaker, what):
    """Two intervals of a session that isn't up are two seconds."""
    took = speaker.run(2, lambda: speaker.session.state == scion.UP)
    trial.see(speaker.session.state == scion.UP, f"{what}: Up after {took:.3f} s, of two intervals of 1 s")


def try_packets(trial, speaker):
    """Single packets, beside any session: what is answered, and what isn't."""
    control = scion.Control(scion.DOWN, MINE, 0)
    for state, yours in ((scion.DOWN, 0), (scion.DOWN, 1), (scion.INIT, 1), (scion.UP, 1), (scion.ADMIN_DOWN, 1)):
        for flags in (0, scion.POLL):
            answer = speaker.ask(control._replace(state=state, yours=yours, flags=flags))
            told = scion.control_of(answer) if answer else None
            wanted = {scion.DOWN: scion.INIT, scion.ADMIN_DOWN: scion.DOWN}.get(state, scion.UP)
            good = told and told.state == wanted and bool(told.flags & scion.FINAL) == bool(flags)
            name, by = scion.STATES[state] + (" with P" if flags else ""), "nothing"
            if told:
                by = scion.STATES[told.state] + (" with F" if told.flags & scion.FINAL else "")
            trial.see(bool(good), f"{name} is answered by {by}")
    up = control._replace(state=scion.UP, yours=1)
    refused = [
        ("an answer, as its flow identifier says", up, scion.ANSWER_FLOW),
        ("an answer with P", up._replace(flags=scion.POLL), scion.ANSWER_FLOW),
        ("a packet for another discriminator", up._replace(yours=2), 1),
        ("a packet for its sender's discriminator", up._replace(yours=MINE), 1),
        ("Up without a discriminator", up._replace(yours=0), 1),
        ("an authenticated packet", up._replace(flags=scion.AUTHENTICATION), 1),
        ("a multipoint packet", up._replace(flags=scion.MULTIPOINT), 1),
        ("a packet of version 0", up._replace(version=0), 1),
        ("a packet with detect multiplier 0", up._replace(multiplier=0), 1),
        ("a packet without a discriminator of its own", up._replace(mine=0), 1),
    ]
    for name, packet, flow in refused:
        speaker.sock.sendto(speaker.datagram(packet, flow), address_of(speaker.link.local))
        trial.see(speaker.next_datagram(0.15) is None, f"{name} isn't answered")
    return len(refused)


def stays_up(trial, speaker, beyond, seconds, rate):
    """The session beside a flood on its link. Tells how many packets of the flood were sent."""
    session = speaker.session
    speaker.run(3, lambda: not session.is_polling)
    trial.see(not session.is_polling, "the poll of the faster interval is ended by a final")
    drained, flooding = Aside(drain, beyond), Aside(flood, speaker.sock, address_of(speaker.link.local), rate)
    sent, heard, speaker.gaps, speaker.changes = speaker.sent, speaker.heard, [], []
    speaker.run(seconds)
    sent, heard = speaker.sent - sent, speaker.heard - heard
    (flooded, took), (crossed, _) = flooding.stop(), drained.stop()
    changes = ", ".join(scion.STATES[state] for _, state in speaker.changes)
    trial.see(session.state == scion.UP and not speaker.changes, f"Up for {seconds} s{changes and ': ' + changes}")
    trial.see(heard > 0, f"{sent} BFD packets, {heard} answers; {max(speaker.gaps, default=0):.3f} s at most between two"
              f" answers, where the detection time is {session.detection_time():.1f} s")
    trial.see(flooded > 0.8 * rate * took, f"{flooded / took:.0f} other packets a second beside them, {flooded} in all")
    trial.see(crossed > 0.5 * flooded, f"{crossed} of them crossed")
    return flooded


def is_put_down(trial, speaker):
    """A session that is administratively down, and then begins anew."""
    session = speaker.session
    session.enter(scion.ADMIN_DOWN, ADMINISTRATIVELY_DOWN)
    speaker.next_at, speaker.last = 0.0, None
    speaker.run(2, lambda: speaker.last is not None and speaker.last.state == scion.DOWN)
    told = scion.STATES[speaker.last.state] if speaker.last else "nothing"
    trial.see(told == "Down", f"AdminDown is answered by {told}")
    trial.see(session.state == scion.ADMIN_DOWN, "and stays AdminDown")
    session.enter(scion.DOWN, NO_DIAGNOSTIC)
    speaker.next_at = 0.0
    comes_up(trial, speaker, "again")


def goes_down(trial, speaker, router):
    """A session whose router ends. Gives the report."""
    session = speaker.session
    speaker.run(1)
    detection = session.detection_time()
    router.ask_to_end()
    speaker.run(30, lambda: session.state == scion.DOWN)
    took = time.monotonic() - (session.heard_at or 0)
    is_down = session.state == scion.DOWN and session.diagnostic == TIME_EXPIRED
    trial.see(is_down, "the router ended: Down, for want of answers")
    good = detection <= took <= detection + 0.1
    trial.see(good, f"that was {took:.3f} s after the last answer, where the detection time is {detection:.1f} s")
    return router.end()


def told(counts):
    return ", ".join(f"{key} {counts[key]}" for key in counts if counts[key])


def try_session(trial, program, folder, seconds, rate):
    link = as_link(1, "127.71.1.1:43201", "127.71.1.2:43202", THERE)
    model = scion.Router(HERE, KEY, 43299, None, {1: link}, {})
    speaker, beyond = Speaker(model, link, random.Random(1), MINE, FAR_KEY), bound(scion.underlay_of("127.71.2.2:43204"))
    router = Running(program, ROUTER, folder, "router")
    try:
        refused = try_packets(trial, speaker)
        comes_up(trial, speaker, "the session")
        flooded = stays_up(trial, speaker, beyond, seconds, rate)
        is_put_down(trial, speaker)
        counts = goes_down(trial, speaker, router)
        print("       " + told(counts))
        trial.see(counts["dropped 21"] == refused, f"{counts['dropped 21']} drops for cause 21, of {refused} packets")
        unheard = counts["answered"] - speaker.heard - 10
        trial.see(unheard in (0, 1), f"{counts['answered']} answered, {speaker.heard + 10} of them heard")
        trial.see(counts["sent"] == counts["link 2"] <= flooded, f"{counts['sent']} sent, of {flooded} of the flood")
        summed = counts["sent"] + counts["answered"] + sum(it for key, it in counts.items() if key.startswith("dropped"))
        trial.see(counts["received"] == summed, "what was received is the sum of the rest")
        router = Running(program, ROUTER, folder, "router")
        comes_up(trial, speaker, "the router runs again")
        trial.see(not speaker.strangers, f"{len(speaker.strangers)} datagrams came that answer nothing")
        router.end()
    finally:
        router.kill()
        speaker.sock.close()
        beyond.close()


def forged(key, own, far, id, now, control):
    """BFD as if a router had sent it by its link of this number, given to it from within."""
    mac = scion.mac_of(key, 0, now, 63, 0, id)
    hosts = bytes([127, 71, 4, 9]), bytes([127, 71, 3, 9])
    hops = scion.Hop(0, 63, 0, id, mac), scion.NO_HOP
    return scion.OneHopPacket(far, own, *hosts, 0, now, hops, scion.BFD, control.bytes(), 0xB8).bytes()


def try_pair(trial, program, folder):
    """Two routers with `bfd` at both ends of a link, and a host that forges a packet of one to the other."""
    ends = [("1-ff00:0:110", KEY, 3, 5, "127.71.5.1:43205"), ("1-ff00:0:111", FAR_KEY, 4, 6, "127.71.5.2:43206")]
    routers = []
    try:
        for (own, key, number, id, local), (far, _, _, _, remote) in (ends, ends[::-1]):
            given = {"own": own, "key": key.hex(), "number": number, "id": id}
            config = PAIR.format(local=local, remote=remote, far=far, **given)
            routers.append(Running(program, config, folder, f"pair-{number}"))
        host = bound((bytes([127, 71, 3, 9]), 43207))
        states = (scion.ADMIN_DOWN, scion.DOWN, scion.INIT, scion.UP)
        for state in states:
            control = scion.Control(state, 5, 6, scion.POLL)
            host.sendto(forged(KEY, HERE, THERE, 5, int(time.time()), control), ("127.71.3.1", 43200))
        time.sleep(0.5)
        host.close()
        one, other = (it.end() for it in routers)
    finally:
        for it in routers:
            it.kill()
    print(f"       {told(one)}\n       {told(other)}")
    is_over = (one["received"], one["sent"], one["answered"], one["dropped 21"]) == (8, 4, 0, 4)
    trial.see(is_over, "a router whose link forged packets left by drops the answers to them")
    trial.see((other["received"], other["answered"]) == (4, 4), "the other one answers each once, and hears no more")


def main():
    words = argparse.ArgumentParser(description=__doc__.split("\n")[0])
    words.add_argument("--program", default=f"{ROOT}/bin/router")
    words.add_argument("--seconds", type=int, default=60)
    words.add_argument("--rate", type=int, default=20000)
    given = words.parse_args()
    program, trial = os.path.abspath(given.program), Trial()
    if not os.access(program, os.X_OK):
        sys.exit(f"there is no program {program}: `make` builds it")
    with tempfile.TemporaryDirectory() as folder:
        try_session(trial, program, folder, given.seconds, given.rate)
        try_pair(trial, program, folder)
    print(f"{trial.failed} failed")
    return 1 if trial.failed else 0


if __name__ == "__main__":
    sys.exit(main())
