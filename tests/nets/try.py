#!/usr/bin/env python3
"""Runs random nets of routers over loopback, and compares what comes of packets with what `router route` says.

    tests/nets/try.py [--program bin/router] [--nets 20] [--packets 400] [--seed 1]

Each net has core ASes, their children and grandchildren, of one to three routers each, over IPv4 or IPv6. Hosts send
packets on beaconed paths of one to three segments, with other bytes here and there, traceroute requests, urgent ones
and such as have expired. Hosts and services also send beacons over the links, each way, on paths of one hop, and answers
to them. In most ASes applications of hosts listen at ports of their own. Neighbours that aren't run speak BFD over links
to them. `router route` says what each router on the way makes of a packet. What arrives at hosts, services and these
neighbours must be exactly that, byte for byte, each flow in order, and each router's report must count exactly that. The
port at a host, what a beacon arrives as and what BFD is answered by must also be what the model of tests/scion.py says.
"""

import argparse
import collections
import os
import random
import select
import socket
import struct
import subprocess
import sys
import tempfile
import time

ROOT = os.path.dirname(os.path.dirname(os.path.dirname(os.path.abspath(__file__))))
sys.path.insert(0, os.path.join(ROOT, "tests"))

import scion  # noqa: E402
from scion import mac_of  # noqa: E402


# Nets.


class Net:
    """ASes with routers and hosts, links between them, and all addresses."""

    def __init__(self, dice, number):
        self.dice, self.port = dice, 20000 + number % 10 * 4000
        self.is_v6 = dice.random() < 0.25
        self.ases, self.routers, self.hosts, self.speakers = [], [], {}, []
        cores = dice.randint(1, 3)
        levels = [[self.add_as(True) for _ in range(cores)]]
        levels += [[self.add_as(False) for _ in range(dice.randint(1, 3))] for _ in range(dice.randint(1, 2))]
        for at, one in enumerate(levels[0]):
            for other in levels[0][:at]:
                for _ in range(dice.randint(1, 2)):
                    self.add_link(one, other, "core", "core")
        for above, below in zip(levels, levels[1:]):
            for child in below:
                for parent in dice.sample(above, dice.randint(1, min(2, len(above)))):
                    self.add_link(parent, child, "child", "parent")
        for router in self.routers:
            if not router["links"]:
                # each router needs a link
                other = dice.choice([it for it in self.ases if it is not router["as"]])
                self.add_link(router["as"], other, "core", "core", router)
        for number in range(dice.randint(1, 3)):
            self.add_speaker(dice.choice(self.routers), number)

    def add_as(self, is_core):
        dice, number = self.dice, len(self.ases)
        one = {
            "isd": dice.choice([1, 1, 7]),
            "as": dice.choice([0xFF0000000110 + number, 64512 + number]),
            "key": dice.randbytes(16),
            "core": is_core,
            "number": number,
            "host_port": self.next_port(),
            "dispatched": [self.next_port() for _ in range(dice.choice([0, 1, 2, 3]))],
            "version": dice.choice([1, 2, 2]),
            "interfaces": set(),
            "links": [],
        }
        one["routers"] = [self.add_router(one, index) for index in range(dice.randint(1, 3))]
        one["hosts"] = [self.add_host(one, index) for index in range(1 if self.is_v6 else 2)]
        at = self.address(one, 60)
        one["service"] = (dice.choice([1, 2, 300]), (at, self.next_port()))
        self.hosts[one["service"][1]] = None
        self.ases.append(one)
        return one

    def next_port(self):
        self.port += 1
        return self.port

    def address(self, one, last):
        return "::1" if self.is_v6 else f"127.{30 + one['number']}.0.{last}"

    def add_router(self, one, index):
        router = {
            "as": one,
            "internal": (self.address(one, index + 1), self.next_port()),
            "processors": self.dice.choice([1, 2, 4]),
            "seed": self.dice.randrange(1 << 32),
            "bands": self.dice.choice([1, 2]),
            "links": [],
        }
        self.routers.append(router)
        return router

    def add_host(self, one, index):
        """A host by its address. It listens at `host_port` and at each of the AS's dispatched ports."""
        host = self.address(one, 40 + index)
        for port in (one["host_port"], *one["dispatched"]):
            self.hosts[host, port] = None
        return host

    def new_interface(self, one):
        while True:
            id = self.dice.choice([self.dice.randint(1, 20), self.dice.randint(1, 65535)])
            if id not in one["interfaces"]:
                one["interfaces"].add(id)
                return id

    def add_link(self, one, other, kind, back, router=None):
        """The other is to the one of the kind; the one is to the other of the kind back."""
        ends = []
        for at, to, is_first in ((one, kind, True), (other, back, False)):
            of = router if router and is_first else self.dice.choice(at["routers"])
            end = {"as": at, "id": self.new_interface(at), "kind": to, "router": of, "bands": self.dice.choice([1, 2])}
            end["named"] = self.dice.random() < 0.9
            end["bfd"] = end["named"] and self.dice.random() < 0.5
            ends.append(end)
        is_v6 = self.is_v6 or self.dice.random() < 0.2
        for end in ends:
            end["local"] = ("::1" if is_v6 else f"127.{30 + end['as']['number']}.1.{self.dice.randint(1, 9)}", self.next_port())
        for end, far in (ends, ends[::-1]):
            end["remote"], end["far"] = far["local"], far
            end["router"]["links"].append(end)
            end["as"]["links"].append(end)

    def add_speaker(self, router, number):
        """A neighbour of a router that speaks BFD, and isn't run. No path leads over its link."""
        one, v6 = router["as"], self.is_v6 or self.dice.random() < 0.2
        end = {"as": one, "id": self.new_interface(one), "kind": self.dice.choice(["core", "parent", "child"])}
        end |= {"router": router, "bands": self.dice.choice([1, 2]), "named": True, "bfd": self.dice.random() < 0.9}
        end["local"] = ("::1" if v6 else f"127.{30 + one['number']}.1.{self.dice.randint(1, 9)}", self.next_port())
        end["remote"] = ("::1" if v6 else f"127.90.1.{self.dice.randint(1, 9)}", self.next_port())
        end["far"] = {"as": {"isd": 9, "as": 0xFF0000000900 + number}, "speaker": self.dice.randrange(1, 1 << 32)}
        self.hosts[end["remote"]] = None
        router["links"].append(end)
        self.speakers.append(end)


def text_of(address):
    host, port = address
    if ":" in host:
        groups = struct.unpack("!8H", socket.inet_pton(socket.AF_INET6, host))
        return "[" + ":".join(f"{it:x}" for it in groups) + f"]:{port}"
    return f"{host}:{port}"


def address_of(text):
    host, port = text.rsplit(":", 1)
    if host.startswith("["):
        packed = struct.pack("!8H", *[int(it, 16) for it in host[1:-1].split(":")])
        host = socket.inet_ntop(socket.AF_INET6, packed)
    return host, int(port)


def isd_as_text(one):
    if one["as"] < 1 << 32:
        return f"{one['isd']}-{one['as']}"
    groups = [one["as"] >> 32, one["as"] >> 16 & 0xFFFF, one["as"] & 0xFFFF]
    return f"{one['isd']}-" + ":".join(f"{it:x}" for it in groups)


def config_of(router):
    one, lines = router["as"], []
    two = one["version"] == 2
    lines += [f"version = {one['version']}", f'isd_as = "{isd_as_text(one)}"', f'key = "{one["key"].hex()}"']
    lines += [f'internal = "{text_of(router["internal"])}"', f"host_port = {one['host_port']}"]
    lines += [f"dispatched_ports = [{min(one['dispatched'])}, {max(one['dispatched'])}]"] if one["dispatched"] else []
    lines += [f"internal_bands = {router['bands']}"] * two
    lines += [f"processors = {router['processors']}", "capacity = 256", "buffers = 256", f"seed = {router['seed']}"]
    for end in router["links"]:
        lines += ["[[link]]", f"id = {end['id']}", f'kind = "{end["kind"]}"']
        lines += [f'local = "{text_of(end["local"])}"', f'remote = "{text_of(end["remote"])}"']
        lines += [f"bands = {end['bands']}"] * two
        lines += [f'neighbor = "{isd_as_text(end["far"]["as"])}"'] * end["named"]
        lines += ["bfd = true"] * end["bfd"]
    for other in one["routers"]:
        for end in other["links"] if other is not router else []:
            lines += ["[[sibling]]", f"id = {end['id']}", f'kind = "{end["kind"]}"', f'at = "{text_of(other["internal"])}"']
    number, at = one["service"]
    lines += ["[[service]]", f"number = {number}", f'at = "{text_of(at)}"']
    return "\n".join(lines) + "\n"


# Paths and packets.


def some_expiry(dice, timestamp, now):
    expiry = 255 if dice.random() < 0.97 else dice.randint(0, 60)
    # not one that would expire while the routers run
    return 255 if 0 <= timestamp + (1 + expiry) * 337.5 - now < 300 else expiry


def beaconed(dice, now, ends):
    """The segment over these links, each by its end at the AS nearer the segment's beginning: hops in the order of construction."""
    stops = [ends[0]["as"], *[end["far"]["as"] for end in ends]]
    segment = {"timestamp": now - dice.randint(0, 20000), "hops": []}
    beta = dice.randrange(1 << 16)
    for at, one in enumerate(stops):
        ingress = ends[at - 1]["far"]["id"] if at else 0
        egress = ends[at]["id"] if at < len(ends) else 0
        expiry = some_expiry(dice, segment["timestamp"], now)
        mac = mac_of(one["key"], beta, segment["timestamp"], expiry, ingress, egress)
        segment["hops"].append({"as": one, "in": ingress, "out": egress, "expiry": expiry, "mac": mac, "beta": beta})
        beta ^= int.from_bytes(mac[:2], "big")
    return segment


def wandered(dice, start, kinds, most):
    """A walk over links of a kind that meets no AS twice."""
    ends, seen = [], {start["number"]}
    for _ in range(dice.randint(1, most)):
        ways = [it for it in start["links"] if it["kind"] in kinds and it["far"]["as"]["number"] not in seen]
        if not ways:
            break
        end = dice.choice(ways)
        ends.append(end)
        start = end["far"]["as"]
        seen.add(start["number"])
    return ends


def cut(segment, first, last):
    return {**segment, "hops": segment["hops"][first : last + 1]}


def travelled(segment, along):
    hops = segment["hops"] if along else segment["hops"][::-1]
    return {"along": along, "timestamp": segment["timestamp"], "hops": hops, "id": hops[0]["beta"]}


def some_path(dice, net, now):
    """A path of one to three segments, from an AS to another."""
    if dice.random() < 0.05:
        # the way of the answer to a beacon, whatever the link's kind
        end = dice.choice(dice.choice(net.ases)["links"])
        return [travelled(beaconed(dice, now, [end]), False)]
    cores = [it for it in net.ases if it["core"]]
    begin = dice.choice(cores)
    up = wandered(dice, begin, ["child"], 3)
    middle = wandered(dice, begin, ["core"], 2)
    top = middle[-1]["far"]["as"] if middle else begin
    down = wandered(dice, top, ["child"], 3)
    if dice.random() < 0.15 and len(up) > 1:
        # a shortcut: both segments leave the core by the same first links
        at = dice.randint(1, len(up) - 1)
        second = [*up[:at], *wandered(dice, up[at - 1]["far"]["as"], ["child"], 2)]
        one = cut(beaconed(dice, now, up), at, len(up))
        other = cut(beaconed(dice, now, second), at, len(second))
        parts = [travelled(one, False)] + ([travelled(other, True)] if len(other["hops"]) > 1 else [])
        return parts
    parts = []
    if up and dice.random() < 0.7:
        parts.append(travelled(beaconed(dice, now, up), False))
    if middle and dice.random() < 0.7:
        if dice.random() < 0.5:
            parts.append(travelled(beaconed(dice, now, middle), True))
        else:
            back = [it["far"] for it in middle[::-1]]
            parts.append(travelled(beaconed(dice, now, back), False))
        down = down if parts else []
    else:
        down = wandered(dice, begin, ["child"], 3)
    if down and (dice.random() < 0.7 or not parts):
        parts.append(travelled(beaconed(dice, now, down), True))
    return parts or some_path(dice, net, now)


def path_bytes(dice, parts, alert):
    lengths = [len(it["hops"]) for it in parts] + [0, 0]
    meta = dice.choice([0, 0, dice.randrange(64)]) << 18 | lengths[0] << 12 | lengths[1] << 6 | lengths[2]
    text = struct.pack("!I", meta)
    for it in parts:
        text += struct.pack("!BBHI", int(it["along"]) | dice.choice([0, 0, 0x80]), 0, it["id"], it["timestamp"])
    place = 0
    for it in parts:
        for hop in it["hops"]:
            flags = alert[1] if alert and alert[0] == place else 0
            text += struct.pack("!BBHH", flags, hop["expiry"], hop["in"], hop["out"]) + hop["mac"]
            place += 1
    return text


def host_bytes(host):
    is_v6 = ":" in host
    return (3 if is_v6 else 0), socket.inet_pton(socket.AF_INET6 if is_v6 else socket.AF_INET, host)


def address_bytes(one):
    return struct.pack("!HHI", one["isd"], one["as"] >> 32, one["as"] & 0xFFFFFFFF)


def some_port(dice, one):
    """A port of hosts of an AS, mostly a dispatched one, or another one."""
    others = [one["host_port"], dice.randrange(1 << 16)]
    others += [one["dispatched"][0] - 1, one["dispatched"][-1] + 1] if one["dispatched"] else []
    return dice.choice([*one["dispatched"] * 3, *others])


def quoting(dice, source, target, host):
    """An SCMP error message for a datagram of the target's host, mostly in part."""
    kind, own = host_bytes(host)
    path = dice.randbytes(4 * dice.randrange(8))
    length = 12 + 16 + 2 * len(own) + len(path)
    protocol, behind = 17, struct.pack("!HHHH", some_port(dice, target), some_port(dice, source), 8, 0)
    if dice.random() < 0.3:
        protocol = 202
        behind = struct.pack("!BBHHH", dice.choice([128, 130, 129, 4]), 0, 0, some_port(dice, target), 7)
    if dice.random() < 0.2:
        protocol, behind = 201, bytes([protocol, 1, *bytes(6)]) + behind
    head = struct.pack("!IBBHBBH", 1, protocol, length // 4, len(behind), dice.choice([0, 1, 2, 3]), kind << 4 | kind, 0)
    quote = head + address_bytes(source) + address_bytes(target) + own + own + path + behind
    type_of, at = dice.choice([(1, 8), (2, 8), (4, 8), (5, 20), (6, 28), (3, 8)])
    return bytes([type_of]).ljust(at, b"\0") + quote[: dice.choice([len(quote)] * 3 + [dice.randrange(len(quote))])]


def some_payload(dice, source, target, host, number):
    """The next header and what is behind the header of a packet to a host."""
    kind, data = dice.random(), struct.pack("!I", number) + dice.randbytes(dice.choice([0, 4, 60, 1200, 4000]))
    if kind < 0.75:
        head = struct.pack("!HHHH", some_port(dice, source), some_port(dice, target), 8 + len(data), 0)
        found = 17, head + data
    elif kind < 0.85:
        found = 202, struct.pack("!BBHHH", dice.choice([128, 129, 130, 131]), 0, 0, some_port(dice, target), 7) + data
    else:
        found = 202, quoting(dice, source, target, host)
    for extension in (201, 200):
        if dice.random() < 0.1:
            found = extension, bytes([found[0], 1, *bytes(6)]) + found[1]
    return found if dice.random() < 0.97 else (found[0], found[1][: dice.randrange(len(found[1]))])


def some_packet(dice, net, now, number):
    """A packet with its sender, the router that it is sent to, and what marks its flow."""
    parts = some_path(dice, net, now)
    hops = [hop for part in parts for hop in part["hops"]]
    source, target = hops[0]["as"], hops[-1]["as"]
    sender = dice.choice(source["hosts"]), dice.choice([source["host_port"], *source["dispatched"]])
    host_of_target = dice.choice(target["hosts"])
    kind, host = host_bytes(host_of_target)
    next_header, payload = some_payload(dice, source, target, host_of_target, number)
    if dice.random() < 0.15:
        service = target["service"][0] if dice.random() < 0.8 else dice.randrange(1 << 15)
        kind, host = 4, struct.pack("!HH", service, 0)
    alert = None
    if dice.random() < 0.2:
        alert = (dice.randrange(len(hops)), dice.choice([1, 2, 3]))
        next_header, identifier = 202, dice.choice([sender[1], number & 0xFFFF])
        payload = struct.pack("!BBHHHHHIQ", dice.choice([130, 130, 130, 128, 1]), 0, 0, identifier, 7, 0, 0, 0, 0)
    path = path_bytes(dice, parts, alert)
    flow, urgent = dice.randrange(8), dice.random() < 0.3
    traffic = 46 << 2 if urgent else dice.choice([0, 0, 8])
    kind_of_source, own = host_bytes(sender[0])
    addresses = address_bytes(target) + address_bytes(source) + host + own
    length = 12 + len(addresses) + len(path)
    if length % 4 or length // 4 > 255:
        return some_packet(dice, net, now, number)
    head = struct.pack("!IBBHBBH", traffic << 20 | flow, next_header, length // 4, len(payload), 1, kind << 4 | kind_of_source, 0)
    data = bytearray(head + addresses + path + payload)
    if dice.random() < 0.2:
        # not in the hosts, so that nothing is sent to strangers
        places = [*range(28), *range(12 + len(addresses), length)]
        for _ in range(dice.randint(1, 2)):
            data[dice.choice(places)] ^= 1 << dice.randrange(8)
    elif dice.random() < 0.03:
        data = data[: dice.randrange(len(data))]
    # mostly the router of the path's first link
    routers = source["routers"]
    first = parts[0]["hops"][0]["out" if parts[0]["along"] else "in"]
    owner = [it for it in routers if any(end["id"] == first for end in it["links"])]
    router = owner[0] if owner and dice.random() < 0.9 else dice.choice(routers)
    flow_key = (sender, id(router), bytes(data[:4]), bytes(data[12 : 12 + len(addresses)]))
    return {"sender": sender, "router": router, "data": bytes(data), "flow": flow_key, "number": number}


# What is wrong with a beacon, and nothing for most.
SLIPS = [None] * 20 + ["destination", "source", "egress", "ingress", "mac", "late", "early", "service", "bfd", "router", "bits"]


def first_hop(dice, end, slip, now):
    """The info field and the first hop field of a beacon over a link, and its identifier past this hop."""
    timestamp = now + 3000 if slip == "early" else now - 200000 if slip == "late" else now - dice.randint(-200, 20000)
    beta, expiry = dice.randrange(1 << 16), some_expiry(dice, timestamp, now)
    ingress = dice.randint(1, 65535) if slip == "ingress" else 0
    egress = dice.randint(0, 65535) if slip == "egress" else end["id"]
    mac = mac_of(end["as"]["key"], beta, timestamp, expiry, ingress, egress)
    if slip == "mac":
        mac = dice.randbytes(6)
    path = struct.pack("!BBHI", 1 | dice.choice([0, 0, 0x80]), 0, beta, timestamp)
    path += struct.pack("!BBHH", dice.choice([0, 0, 1, 2]), expiry, ingress, egress) + mac
    return path, beta ^ int.from_bytes(mac[:2], "big")


def is_alive(data, now):
    at = 4 * data[5] - 32
    return 2 * int.from_bytes(data[at + 4 : at + 8], "big") + 675 * (1 + data[at + 9]) >= 2 * now


def delivered(data, end, beta):
    """A lawful beacon as it arrives: the identifier past the first hop, and the second hop field."""
    at = 4 * data[5] - 32
    timestamp, expiry = int.from_bytes(data[at + 4 : at + 8], "big"), data[at + 9]
    far = end["far"]
    hop = struct.pack("!BBHH", 0, expiry, far["id"], 0) + mac_of(far["as"]["key"], beta, timestamp, expiry, far["id"], 0)
    return data[: at + 2] + struct.pack("!H", beta) + data[at + 4 : at + 20] + hop + data[at + 32 :]


def beacon_target(dice, slip, target):
    """The kind and the bytes of a beacon's host: mostly the service of its AS."""
    if slip != "service" and dice.random() < 0.3:
        return host_bytes(dice.choice(target["hosts"]))
    number = dice.randrange(400, 1 << 15) if slip == "service" else target["service"][0]
    return 4, struct.pack("!HH", number, 0)


def with_turned_bits(dice, data):
    """The data with bits turned, but not in what tells of hosts, so that nothing is sent to strangers."""
    data, end = bytearray(data), 4 * data[5]
    for _ in range(dice.randint(1, 2)):
        data[dice.choice([*range(9), *range(10, 28), *range(end - 32, end)])] ^= 1 << dice.randrange(8)
    return bytes(data)


def some_beacon(dice, net, now, number):
    """A beacon over a link, with what `some_packet` tells, and as what it must arrive if nothing is wrong with it."""
    end = dice.choice(dice.choice(net.ases)["links"])
    slip, others = dice.choice(SLIPS), [it for it in net.ases if it not in (end["as"], end["far"]["as"])] or net.ases
    target = dice.choice(others) if slip == "destination" else end["far"]["as"]
    source = dice.choice(others) if slip == "source" else end["as"]
    hosts = [(host, port) for host in end["as"]["hosts"] for port in (end["as"]["host_port"], *end["as"]["dispatched"])]
    sender = dice.choice([end["as"]["service"][1], *hosts])
    router = dice.choice(end["as"]["routers"]) if slip == "router" else end["router"]
    (kind, host), (own_kind, own) = beacon_target(dice, slip, target), host_bytes(sender[0])
    path, beta = first_hop(dice, end, slip, now)
    addresses, traffic, flow = address_bytes(target) + address_bytes(source) + host + own, dice.choice([0, 46 << 2]), dice.randrange(8)
    payload = struct.pack("!HHHHI", sender[1], some_port(dice, target), 72, 0, number) + dice.randbytes(60)
    if slip == "bfd":
        # as if it came from the router at this end of the link
        payload = some_control(dice, end["id"], end["far"]["id"]).bytes()
        flow = dice.choice([flow, flow, scion.ANSWER_FLOW])
    length = 12 + len(addresses) + 32
    head = struct.pack("!IBBHBBH", traffic << 20 | flow, 203 if slip == "bfd" else 17, length // 4, len(payload), 2, kind << 4 | own_kind, 0)
    data = head + addresses + path + dice.choice([bytes(12), dice.randbytes(12)]) + payload
    data = with_turned_bits(dice, data) if slip == "bits" else data
    flow_key = (sender, id(router), data[:4], data[12 : 12 + len(addresses)])
    lawful = slip is None and end["named"] and end["far"]["named"] and is_alive(data, now)
    wanted = delivered(data, end, beta) if lawful else None
    return {"sender": sender, "router": router, "data": data, "flow": flow_key, "number": number, "wanted": wanted}


# BFD.


def some_control(dice, mine, yours):
    """A BFD control packet, mostly one that is answered."""
    state = dice.randrange(4)
    known = yours if state in (scion.INIT, scion.UP) or dice.random() < 0.5 else 0
    flags = dice.choice([0, 0, scion.POLL, scion.FINAL, scion.CONTROL_PLANE, scion.DEMAND])
    control = scion.Control(state, mine, known, flags, dice.randint(1, 255), dice.choice([0, 200_000, 300_000, 1_000_000, 1 << 31]))
    slips = [{}] * 30 + [{"version": 0}, {"length": 25}, {"length": 23}, {"multiplier": 0}, {"mine": 0}, {"yours": yours ^ 1}]
    slips += [{"flags": flags | scion.AUTHENTICATION}, {"flags": flags | scion.MULTIPOINT}, {"state": scion.UP, "yours": 0}]
    return control._replace(**dice.choice(slips))


def some_bfd(dice, net, now, number):
    """BFD of a neighbour that isn't run, with what `some_packet` tells, its link, and its answer where there is one."""
    end = dice.choice(net.speakers)
    one, far = end["as"], end["far"]["as"]
    hosts = [host_bytes(address[0])[1] for address in (end["local"], end["remote"])]
    behind = dice.choice([b""] * 4 + [bytes(4)])
    packet = scion.OneHopPacket(
        target=scion.IsdAs(one["isd"], one["as"]),
        source=scion.IsdAs(far["isd"], far["as"]) if dice.random() < 0.95 else scion.IsdAs(9, 9),
        target_host=hosts[0],
        source_host=hosts[1],
        seg_id=dice.randrange(1 << 16),
        timestamp=now - dice.choice([0, 0, 100_000]),
        hops=(scion.Hop(0, 63, 0, dice.randrange(1 << 16), dice.randbytes(6)), scion.NO_HOP),
        next_header=scion.BFD,
        payload=some_control(dice, end["far"]["speaker"], end["id"]).bytes() + behind,
        traffic_class=0xB8,
        flow=dice.choice([dice.randrange(8)] * 8 + [scion.ANSWER_FLOW]),
    )
    data = packet.bytes()
    data = with_turned_bits(dice, data) if dice.random() < 0.1 else data
    sender = end["remote"]
    if dice.random() < 0.05:
        # from elsewhere than the link's other end
        sender = dice.choice([it["remote"] for it in net.speakers if (":" in it["local"][0]) == (":" in sender[0])])
    flow = (sender, id(end["router"]), data[:4], data[12 : 4 * data[5] - 32])
    found = {"sender": sender, "router": end["router"], "data": data, "flow": flow, "number": number, "link": end["id"]}
    return found | {"to": end["local"], "bfd": True}


def model_of(router):
    """The router of a net, for the model."""
    links = {}
    for end in router["links"]:
        local, remote = ((host_bytes(host)[1], port) for host, port in (end["local"], end["remote"]))
        neighbor = scion.IsdAs(end["far"]["as"]["isd"], end["far"]["as"]["as"]) if end["named"] else None
        links[end["id"]] = scion.Link(end["id"], local, remote, neighbor, end["bfd"])
    one = router["as"]
    ports = (one["dispatched"][0], one["dispatched"][-1]) if one["dispatched"] else None
    service, at = one["service"]
    return scion.Router(scion.IsdAs(one["isd"], one["as"]), one["key"], one["host_port"], ports, links, {service: text_of(at)})


def is_modelled(model, link, data):
    """Whether the model says what comes of a datagram: BFD and other one-hop packets that enter."""
    return link and model.links[link].neighbor and len(data) >= 12 and not data[0] >> 4 and data[8] == scion.ONE_HOP


def differs_from_model(model, link, source, now, data, line):
    """Why the line of a datagram isn't the one of the model, or None."""
    if is_modelled(model, link, data):
        wanted = scion.entering(model, model.links[link], now, (host_bytes(source[0])[1], source[1]), data)
        return None if line == wanted else f"wanted {wanted}, came {line} for {data.hex()}"
    words = line.split()
    if words[:2] == ["send", "0"] and data[12:20] == model.isd_as.bytes() and words[2] != scion.delivery(model, data):
        return f"wanted {scion.delivery(model, data)}, came {words[2]} for {data.hex()}"
    return None


def at_moment(net, address, data, now):
    """An answer to BFD as it were if it had been made at this moment, where it is right for its own; else the data."""
    ends = [it for it in net.speakers if it["remote"] == address]
    if not ends or data[1:4] != b"\x8b\xfd\xa0":
        return data
    end, at = ends[0], 4 * data[5] - 32
    timestamp = int.from_bytes(data[at + 4 : at + 8], "big")
    tags = [mac_of(end["as"]["key"], 0, it, 63, 0, end["id"]) for it in (timestamp, now)]
    if not 0 <= timestamp - now < 300 or data[at + 14 : at + 20] != tags[0] or data[at + 2 : at + 4] != tags[0][:2]:
        return data
    return data[: at + 2] + tags[1][:2] + struct.pack("!I", now) + data[at + 8 : at + 14] + tags[1] + data[at + 20 :]


# What `router route` says.


def routed(program, configs, router, link, source, now, datagrams):
    words = [program, "route", "--config", configs[id(router)], "--link", str(link), "--now", str(now), "--from", text_of(source)]
    text = "".join(it.hex() + "\n" for it in datagrams)
    done = subprocess.run(words, input=text, capture_output=True, text=True, timeout=60)
    if done.returncode:
        sys.exit(f"{' '.join(words)}: {done.stderr}")
    lines = done.stdout.splitlines()
    assert len(lines) == len(datagrams)
    return lines


def foretold(program, net, configs, packets, now):
    """What arrives where, by packet, what each router counts, and what the model says otherwise."""
    by_internal = {it["internal"]: it for it in net.routers}
    arrivals, counts = [None] * len(packets), {id(it): collections.Counter() for it in net.routers}
    models, differing = {id(it): model_of(it) for it in net.routers}, []
    flying = [(at, it["router"], it.get("link", 0), it["sender"], it["data"]) for at, it in enumerate(packets)]
    for it in packets:
        it["way"] = ()
    for _ in range(200):
        if not flying:
            return arrivals, counts, differing
        groups, flown = collections.defaultdict(list), []
        for at, router, link, source, data in flying:
            groups[id(router), link, source].append((at, router, data))
        for (_, link, source), members in groups.items():
            router = members[0][1]
            lines = routed(program, configs, router, link, source, now, [it[2] for it in members])
            for (at, _, data), line in zip(members, lines):
                difference = differs_from_model(models[id(router)], link, source, now, data, line)
                differing += [difference] if difference else []
                words, count = line.split(), counts[id(router)]
                count["received"] += 1
                if words[0] == "drop":
                    count[f"dropped {words[1]}"] += 1
                    continue
                out, to, data = int(words[1]), words[2], bytes.fromhex(words[3])
                if not out and (":" in address_of(to)[0]) != (":" in router["internal"][0]):
                    # the internal socket can't send to a host of the other IP version
                    count["dropped 17"] += 1
                    continue
                count["sent" if words[0] == "send" else "answered"] += 1
                packets[at]["way"] += ((id(router), link, words[0], words[1]),)
                count[f"link {out}"] += 1
                if out:
                    end = next(it for it in router["links"] if it["id"] == out)
                    if to != "-":
                        sys.exit(f"a link's packet goes to {to}")
                    if any(end is it for it in net.speakers):
                        arrivals[at] = (end["remote"], data)
                    else:
                        flown.append((at, end["far"]["router"], end["far"]["id"], end["local"], data))
                elif address_of(to) in by_internal:
                    flown.append((at, by_internal[address_of(to)], 0, router["internal"], data))
                else:
                    arrivals[at] = (address_of(to), data)
        flying = flown
    sys.exit("packets circle")


# The running routers.


def started(program, config, room, number):
    report = open(f"{room}/{number}.report", "w+", encoding="utf-8")
    fault = open(f"{room}/{number}.fault", "w+", encoding="utf-8")
    process = subprocess.Popen([program, "run", "--config", config], stdin=subprocess.PIPE, stdout=report, stderr=fault, text=True)
    return process, report, fault


def read_report(report):
    report.seek(0)
    lines = report.read().splitlines()
    counts = collections.Counter()
    for line in lines[1:]:
        words = line.split()
        if words[0] == "link":
            counts[f"link {words[1]}"] = int(words[3])
        else:
            counts[" ".join(words[:-1])] = int(words[-1])
    return lines[:1], counts


def bound(address):
    family = socket.AF_INET6 if ":" in address[0] else socket.AF_INET
    found = socket.socket(family, socket.SOCK_DGRAM)
    found.setsockopt(socket.SOL_SOCKET, socket.SO_RCVBUF, 1 << 22)
    found.bind(address)
    found.setblocking(False)
    return found


def taken(sockets, arrived, wait):
    """Reads what has arrived, until nothing does for that long."""
    by_number = {it.fileno(): address for address, it in sockets.items()}
    while True:
        ready, _, _ = select.select(list(by_number), [], [], wait)
        if not ready:
            return
        for number in ready:
            sock = sockets[by_number[number]]
            while True:
                try:
                    data, _ = sock.recvfrom(65536)
                except BlockingIOError:
                    break
                arrived[by_number[number]].append(data)


def differences(net, packets, arrivals, counts, arrived, reports):
    wanted = collections.defaultdict(list)
    for at, it in enumerate(arrivals):
        if it and it[0] in net.hosts:
            wanted[it[0]].append(it[1])
    for address in net.hosts:
        one, other = collections.Counter(wanted[address]), collections.Counter(arrived[address])
        for data in one - other:
            yield f"{text_of(address)} lacks {data.hex()[:400]}"
        for data in other - one:
            yield f"{text_of(address)} got {data.hex()[:400]}"
    for at, it in enumerate(packets):
        foretold_as = arrivals[at] and arrivals[at][1].hex()
        if it.get("wanted") and foretold_as != it["wanted"].hex():
            yield f"beacon {at} should arrive as {it['wanted'].hex()}, and `route` says {foretold_as}"
    for router in net.routers:
        first, found = reports[id(router)]
        if first != ["ready"]:
            yield f"{text_of(router['internal'])} began with {first}"
        want = +counts[id(router)]
        if +found != want:
            yield f"{text_of(router['internal'])} counts {dict(+found)}, wanted {dict(want)}"
    # packets of one flow that went one way, and the answers to them, in the order in which they were sent
    for address in net.hosts:
        places, last = collections.defaultdict(collections.deque), {}
        for place, data in enumerate(arrived[address]):
            places[data].append(place)
        for at, it in enumerate(arrivals):
            if it and it[0] == address and places[it[1]]:
                place, flow = places[it[1]].popleft(), (packets[at]["flow"], packets[at]["way"])
                if place < last.get(flow, -1):
                    yield f"{text_of(address)} got packet {at} before an earlier one of its flow"
                last[flow] = place


def try_net(program, seed, number, count):
    dice = random.Random(seed * 1000003 + number)
    net, now = Net(dice, number), int(time.time())
    kinds = dice.choices([some_packet, some_beacon, some_bfd], [6, 2, 1], k=count)
    packets = [it(dice, net, now, at) for at, it in enumerate(kinds)]
    with tempfile.TemporaryDirectory() as room:
        configs = {}
        for at, router in enumerate(net.routers):
            configs[id(router)] = f"{room}/{at}.toml"
            with open(configs[id(router)], "w", encoding="utf-8") as it:
                it.write(config_of(router))
        arrivals, counts, differing = foretold(program, net, configs, packets, now)
        sockets = {address: bound(address) for address in net.hosts}
        running = [started(program, configs[id(it)], room, at) for at, it in enumerate(net.routers)]
        try:
            for process, report, fault in running:
                for _ in range(1000):
                    report.seek(0)
                    if report.read().startswith("ready\n"):
                        break
                    if process.poll() is not None:
                        fault.seek(0)
                        sys.exit(f"net {number}: a router ended: {fault.read()}")
                    time.sleep(0.02)
                else:
                    sys.exit(f"net {number}: a router isn't ready")
            arrived = collections.defaultdict(list)
            for at, it in enumerate(packets):
                sockets[it["sender"]].sendto(it["data"], it.get("to", it["router"]["internal"]))
                if at % 16 == 15:
                    taken(sockets, arrived, 0.002)
            taken(sockets, arrived, 0.3)
            early = {address: len(arrived[address]) for address in net.hosts}
            for process, _, _ in running:
                process.stdin.close()
            status = [process.wait(30) for process, _, _ in running]
            taken(sockets, arrived, 0)
        finally:
            for process, _, _ in running:
                if process.poll() is None:
                    process.kill()
                    process.wait()
            for it in sockets.values():
                it.close()
        reports = {id(it): read_report(report) for it, (_, report, _) in zip(net.routers, running)}
        for _, report, fault in running:
            report.close()
            fault.close()
    found = [f"a router ended with {it}" for it in status if it]
    found += [f"{text_of(it)} got something only at the end" for it in net.hosts if early[it] < len(arrived[it])]
    arrived = {address: [at_moment(net, address, it, now) for it in arrived[address]] for address in net.hosts}
    found += [f"the model: {it}" for it in differing]
    found += differences(net, packets, arrivals, counts, arrived, reports)
    summary = sum((it for it in counts.values()), collections.Counter())
    summary["link beacons"] = sum("wanted" in it for it in packets)
    summary["link beacons arrived"] = sum("wanted" in it and arrivals[at] is not None for at, it in enumerate(packets))
    summary["link BFD"] = sum("bfd" in it for it in packets)
    summary["link BFD answered"] = sum("bfd" in it and arrivals[at] is not None for at, it in enumerate(packets))
    dispatched = {(host, port) for one in net.ases for host in one["hosts"] for port in one["dispatched"]}
    summary["link dispatched"] = sum(it is not None and it[0] in dispatched for it in arrivals)
    return found, len(net.routers), summary, sum(it is not None for it in arrivals)


def main():
    words = argparse.ArgumentParser(description=__doc__.split("\n")[0])
    words.add_argument("--program", default=f"{ROOT}/bin/router")
    words.add_argument("--nets", type=int, default=20)
    words.add_argument("--packets", type=int, default=400)
    words.add_argument("--seed", type=int, default=1)
    words.add_argument("--first", type=int, default=0)
    given = words.parse_args()
    failed, total, routers, arrived = 0, collections.Counter(), 0, 0
    for number in range(given.first, given.first + given.nets):
        found, count, summary, came = try_net(os.path.abspath(given.program), given.seed, number, given.packets)
        routers, total, arrived = routers + count, total + summary, arrived + came
        for line in found[:10]:
            print(f"net {number}: {line}")
        failed += bool(found)
    print(f"{given.nets} nets of {routers} routers, {given.nets * given.packets} packets, of which {arrived} arrived or were answered")
    print(f"{total['link beacons']} of them were beacons, of which {total['link beacons arrived']} arrived")
    print(f"{total['link BFD']} of them were BFD, of which {total['link BFD answered']} were answered")
    print(f"{total['link dispatched']} went to a host's port other than `host_port`")
    print("what the routers made of them: " + ", ".join(f"{it} {total[it]}" for it in sorted(total) if not it.startswith("link")))
    print(f"failed {failed}")
    return 1 if failed else 0


if __name__ == "__main__":
    sys.exit(main())
