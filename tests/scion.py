"""SCION packets, as far as trials need them to know what a router should make of them: MACs of hop fields, one-hop packets,
BFD over these and the answers to it, and the ports of end hosts. It follows docs/FORMATS.md and RFC 5880, and nothing
here was taken from the router's code.
"""

import functools
import ipaddress
import struct
import typing

ONE_HOP, UDP, SCMP, BFD = 2, 17, 202, 203
HOP_BY_HOP, END_TO_END = 200, 201

# The flow identifier of answers to BFD, and what a link's neighbour is told in them, in microseconds.
ANSWER_FLOW = 0xBFDA0
LEAST_INTERVAL, LEAST_INTERVAL_BEFORE_UP = 200_000, 1_000_000


# AES-128 and AES-CMAC of one block, as FIPS 197 and RFC 4493 have them.


def doubled(x):
    return (x << 1) ^ (0x11B if x & 0x80 else 0)


def made_s_box():
    box, p, q = [0x63] * 256, 1, 1
    while True:
        p = p ^ doubled(p)
        q ^= q << 1
        q ^= q << 2
        q ^= q << 4
        q &= 0xFF
        if q & 0x80:
            q ^= 0x09
        turned = [((q << n) | (q >> (8 - n))) & 0xFF for n in range(5)]
        box[p] = turned[0] ^ turned[1] ^ turned[2] ^ turned[3] ^ turned[4] ^ 0x63
        if p == 1:
            return box


S_BOX = made_s_box()


@functools.lru_cache
def expanded(key):
    words, constant = [list(key[at : at + 4]) for at in range(0, 16, 4)], 1
    for at in range(4, 44):
        last = words[-1]
        if at % 4 == 0:
            last = [S_BOX[it] for it in last[1:] + last[:1]]
            last[0] ^= constant
            constant = doubled(constant)
        words.append([one ^ other for one, other in zip(words[at - 4], last)])
    return [sum(words[at : at + 4], []) for at in range(0, 44, 4)]


def encrypt(keys, block):
    state = [one ^ other for one, other in zip(block, keys[0])]
    for number in range(1, 11):
        state = [S_BOX[it] for it in state]
        state = [state[(at + 4 * (at % 4)) % 16] for at in range(16)]
        if number < 10:
            mixed = []
            for at in range(0, 16, 4):
                a, b, c, d = state[at : at + 4]
                whole = a ^ b ^ c ^ d
                mixed += [a ^ whole ^ doubled(a ^ b), b ^ whole ^ doubled(b ^ c)]
                mixed += [c ^ whole ^ doubled(c ^ d), d ^ whole ^ doubled(d ^ a)]
            state = mixed
        state = [one ^ other for one, other in zip(state, keys[number])]
    return bytes(state)


def tag6(key, block):
    keys = expanded(key)
    zero = int.from_bytes(encrypt(keys, bytes(16)), "big")
    sub = ((zero << 1) ^ (0x87 if zero >> 127 else 0)) & ((1 << 128) - 1)
    return encrypt(keys, bytes(a ^ b for a, b in zip(block, sub.to_bytes(16, "big"))))[:6]


assert encrypt(expanded(bytes(range(16))), bytes.fromhex("00112233445566778899aabbccddeeff")) == bytes.fromhex(
    "69c4e0d86a7b0430d8cdb78070b4c55a"
)


@functools.lru_cache
def mac_of(key, beta, timestamp, expiry, ingress, egress):
    return tag6(key, struct.pack("!HHIBBHHH", 0, beta, timestamp, 0, expiry, ingress, egress, 0))


# Addresses.


class IsdAs(typing.NamedTuple):
    """The number of an ISD and that of an AS."""

    isd: int
    asn: int

    def bytes(self):
        return struct.pack("!HHI", self.isd, self.asn >> 32, self.asn & 0xFFFFFFFF)


def isd_as_of(text):
    """The numbers of a text as `1-ff00:0:110` or `1-64512`."""
    isd, number = text.split("-")
    if ":" not in number:
        return IsdAs(int(isd), int(number))
    high, middle, low = (int(it, 16) for it in number.split(":"))
    return IsdAs(int(isd), high << 32 | middle << 16 | low)


def underlay_of(text):
    """The IP address, packed, and the port of a text as `10.0.0.1:30000` or `[fd00:0:0:0:0:0:0:1]:30000`."""
    host, port = text.rsplit(":", 1)
    return ipaddress.ip_address(host.strip("[]")).packed, int(port)


def host_kind(packed):
    """The kind and the length code of a host with this IP address."""
    return 3 if len(packed) == 16 else 0


# One-hop packets.


class Hop(typing.NamedTuple):
    """A hop field."""

    flags: int
    expiry: int
    ingress: int
    egress: int
    mac: bytes

    def bytes(self):
        return struct.pack("!BBHH", self.flags, self.expiry, self.ingress, self.egress) + self.mac


NO_HOP = Hop(0, 0, 0, 0, bytes(6))


class OneHopPacket(typing.NamedTuple):
    """A one-hop packet whose hosts have IP addresses."""

    target: IsdAs
    source: IsdAs
    target_host: bytes
    source_host: bytes
    seg_id: int
    timestamp: int
    hops: tuple[Hop, Hop]
    next_header: int
    payload: bytes
    traffic_class: int = 0
    flow: int = 1

    def bytes(self):
        addresses = self.target.bytes() + self.source.bytes() + self.target_host + self.source_host
        kinds = host_kind(self.target_host) << 4 | host_kind(self.source_host)
        first = self.traffic_class << 20 | self.flow
        length = (12 + len(addresses) + 32) // 4
        head = struct.pack("!IBBHBBH", first, self.next_header, length, len(self.payload), ONE_HOP, kinds, 0)
        info = struct.pack("!BBHI", 1, 0, self.seg_id, self.timestamp)
        return head + addresses + info + self.hops[0].bytes() + self.hops[1].bytes() + self.payload


def path_at(data):
    """Where the path begins, or None where the header is cut, of another version, or doesn't cover the addresses."""
    if len(data) < 12 or data[0] >> 4:
        return None
    at = 28 + 4 * ((data[9] >> 4 & 3) + 1) + 4 * ((data[9] & 3) + 1)
    return at if at <= 4 * data[5] <= len(data) else None


# BFD control packets, RFC 5880, section 4.1.

ADMIN_DOWN, DOWN, INIT, UP = range(4)
STATES = ("AdminDown", "Down", "Init", "Up")
POLL, FINAL, CONTROL_PLANE, AUTHENTICATION, DEMAND, MULTIPOINT = 32, 16, 8, 4, 2, 1


class Control(typing.NamedTuple):
    """A BFD control packet without an authentication section. Intervals are in microseconds."""

    state: int
    mine: int
    yours: int
    flags: int = 0
    multiplier: int = 3
    desired_min_tx: int = 1_000_000
    required_min_rx: int = 200_000
    required_min_echo_rx: int = 0
    diagnostic: int = 0
    version: int = 1
    length: int = 24

    def bytes(self):
        first = self.version << 5 | self.diagnostic, self.state << 6 | self.flags, self.multiplier, self.length
        return struct.pack("!BBBB5I", *first, self.mine, self.yours, *self[5:8])


def control_of(data):
    """The control packet of at least 24 bytes."""
    one, two, multiplier, length, mine, yours, *intervals = struct.unpack("!BBBB5I", data[:24])
    return Control(two >> 6, mine, yours, two & 63, multiplier, *intervals, one & 31, one >> 5, length)


def is_received(own, data):
    """Whether RFC 5880's reception (section 6.8.6) doesn't discard a control packet for a session with this
    discriminator, without authentication."""
    if len(data) < 24:
        return False
    it = control_of(data)
    if it.version != 1 or not 24 <= it.length <= len(data) or it.flags & (AUTHENTICATION | MULTIPOINT):
        return False
    if it.multiplier == 0 or it.mine == 0 or it.yours not in (0, own):
        return False
    return it.yours != 0 or it.state in (ADMIN_DOWN, DOWN)


def next_state(own, received):
    """The state machine of RFC 5880, section 6.8.6."""
    if own == ADMIN_DOWN:
        return ADMIN_DOWN
    if received == ADMIN_DOWN:
        return DOWN
    if own == DOWN:
        return {DOWN: INIT, INIT: UP, UP: DOWN}[received]
    if own == INIT:
        return UP if received in (INIT, UP) else INIT
    return DOWN if received == DOWN else UP


# The answer of a router to BFD.


class Link(typing.NamedTuple):
    """A link of a router as its configuration has it, with underlay addresses."""

    id: int
    local: tuple[bytes, int]
    remote: tuple[bytes, int]
    neighbor: IsdAs | None
    bfd: bool


class Router(typing.NamedTuple):
    """What of a router's configuration decides about one-hop packets and ports."""

    isd_as: IsdAs
    key: bytes
    host_port: int
    dispatched_ports: tuple[int, int] | None
    links: dict[int, Link]
    services: dict[int, str]


def answered_control(own, data):
    """The control packet that answers one."""
    it = control_of(data)
    state = {DOWN: INIT, INIT: UP, UP: UP, ADMIN_DOWN: DOWN}[it.state]
    interval = max(it.desired_min_tx, LEAST_INTERVAL if state == UP else LEAST_INTERVAL_BEFORE_UP)
    flags = FINAL if it.flags & POLL else 0
    return Control(state, own, it.mine, flags, 3, interval, LEAST_INTERVAL)


def bfd_answer(router, link, now, control):
    """The datagram that answers a control packet that came by a link, or None where there is no answer."""
    if not is_received(link.id, control):
        return None
    timestamp = now & 0xFFFFFFFF
    mac = mac_of(router.key, 0, timestamp, 63, 0, link.id)
    return OneHopPacket(
        target=link.neighbor,
        source=router.isd_as,
        target_host=link.remote[0],
        source_host=link.local[0],
        seg_id=int.from_bytes(mac[:2], "big"),
        timestamp=timestamp,
        hops=(Hop(0, 63, 0, link.id, mac), NO_HOP),
        next_header=BFD,
        payload=answered_control(link.id, control).bytes(),
        traffic_class=0xB8,
        flow=ANSWER_FLOW,
    ).bytes()


# The ports of end hosts.


def upper_layer(next_header, data):
    """The protocol after at most one hop-by-hop and then one end-to-end extension, with its bytes; None where it's cut."""
    for extension in (HOP_BY_HOP, END_TO_END):
        if next_header == extension:
            if len(data) < 2 or len(data) < 4 * (data[1] + 1):
                return None, b""
            next_header, data = data[0], data[4 * (data[1] + 1) :]
    return next_header, data


def quoted_port(quote):
    """The port from which the datagram at the beginning of a quote was sent."""
    if path_at(quote) is None:
        return None
    protocol, data = upper_layer(quote[4], quote[4 * quote[5] :])
    if protocol == UDP and len(data) >= 2:
        return int.from_bytes(data[:2], "big")
    if protocol == SCMP and len(data) >= 6 and data[0] in (128, 130):
        return int.from_bytes(data[4:6], "big")
    return None


# Where the quote of an SCMP error message begins.
QUOTES = {1: 8, 2: 8, 4: 8, 5: 20, 6: 28}


def destination_port(next_header, data):
    """The port at which the application listens for which the bytes after a header are."""
    protocol, data = upper_layer(next_header, data)
    if protocol == UDP:
        return int.from_bytes(data[2:4], "big") if len(data) >= 8 else None
    if protocol != SCMP or not data:
        return None
    if data[0] in (129, 131):
        return int.from_bytes(data[4:6], "big") if len(data) >= 8 else None
    at = QUOTES.get(data[0])
    return quoted_port(data[at:]) if at else None


def port_of(router, next_header, data):
    """The underlay port to which a packet for a host with an IP address goes, by the bytes after its header."""
    port, within = destination_port(next_header, data), router.dispatched_ports
    return port if port is not None and within and within[0] <= port <= within[1] else router.host_port


def host_port(router, data):
    """The underlay port to which a datagram for a host with an IP address goes."""
    return port_of(router, data[4], data[4 * data[5] :])


# What a router makes of a one-hop packet that comes by a link.


def is_usable(data, at, now):
    """Whether the first hop field of a path is alive, and its timestamp at most 300 seconds ahead."""
    timestamp, expiry = int.from_bytes(data[at + 4 : at + 8], "big"), data[at + 9]
    return 2 * timestamp + 675 * (1 + expiry) >= 2 * now and timestamp <= now + 300


def one_hop_fault(data):
    """The cause for which a datagram of at most 9,216 bytes and of path type 2 is no one-hop packet, or None."""
    if len(data) < 12:
        return 1
    if data[0] >> 4:
        return 2
    at = 28 + 4 * ((data[9] >> 4 & 3) + 1) + 4 * ((data[9] & 3) + 1)
    if 4 * data[5] < at:
        return 4
    if len(data) < 4 * data[5]:
        return 1
    if 4 * data[5] != at + 32:
        return 4
    if data[at] & 2:
        return 6
    return None if data[at] & 1 else 5


def host_text(packed, port):
    """The text of an underlay address as the router prints it."""
    if len(packed) == 4:
        return f"{ipaddress.ip_address(packed)}:{port}"
    return "[" + ":".join(f"{it:x}" for it in struct.unpack("!8H", packed)) + f"]:{port}"


def delivery(router, data):
    """The address to which a datagram goes that is for this AS, or None where its host isn't there."""
    kind, host = data[9] >> 4, data[28 : 28 + 4 * ((data[9] >> 4 & 3) + 1)]
    if kind in (0, 3):
        return host_text(host, host_port(router, data))
    return router.services.get(int.from_bytes(host[:2], "big")) if kind == 4 else None


def entering(router, link, now, source, data):
    """The line of `router route` for a datagram of path type 2 that comes by a link with a `neighbor`."""
    if len(data) > 9216:
        return "drop 11"
    fault = one_hop_fault(data)
    if fault:
        return f"drop {fault}"
    at, payload = path_at(data), data[4 * data[5] :]
    if int.from_bytes(data[6:8], "big") != len(payload):
        return "drop 4"
    if source != link.remote:
        return "drop 7"
    if data[12:20] != router.isd_as.bytes() or data[20:28] != link.neighbor.bytes():
        return "drop 19"
    if data[4] == BFD:
        is_answer = int.from_bytes(data[1:4], "big") & 0xFFFFF == ANSWER_FLOW
        answer = bfd_answer(router, link, now, payload) if link.bfd and not is_answer else None
        return f"answer {link.id} - {answer.hex()}" if answer else "drop 21"
    if not is_usable(data, at, now):
        return "drop 20"
    to = delivery(router, data)
    if to is None:
        return "drop 21"
    seg_id, timestamp = struct.unpack("!HI", data[at + 2 : at + 8])
    mac = mac_of(router.key, seg_id, timestamp, data[at + 9], link.id, 0)
    left = data[: at + 20] + Hop(0, data[at + 9], link.id, 0, mac).bytes() + payload
    return f"send 0 {to} {left.hex()}"
