"""A BFD speaker in asynchronous mode after RFC 5880, over one-hop packets in UDP, as a neighbour of the router under trial.

`Session` is the protocol without sockets: states (section 6.8.6), intervals with jitter (6.8.2, 6.8.7), poll sequences
(6.5, 6.8.3) and the detection time (6.8.4). `Speaker` runs it over a link's socket, and takes no answer but the one that
the model of tests/scion.py gives for what was sent. Times are in seconds, and in packets in microseconds.
"""

import collections
import select
import socket
import time

import scion

SLOWEST_BEFORE_UP = 1_000_000
NO_DIAGNOSTIC, TIME_EXPIRED, NEIGHBOR_DOWN, ADMINISTRATIVELY_DOWN = 0, 1, 3, 7


class Session:
    """One end of a session. The other end is whoever answers."""

    def __init__(self, dice, mine, interval=200_000, multiplier=3):
        self.dice, self.mine, self.multiplier = dice, mine, multiplier
        self.wanted_interval, self.required_min_rx = interval, 200_000
        self.state, self.diagnostic = scion.DOWN, NO_DIAGNOSTIC
        self.is_polling, self.heard_at = False, None
        self.forget()

    def forget(self):
        """What is known of the other end before anything was heard."""
        self.yours, self.remote_min_rx, self.remote_min_tx, self.remote_multiplier = 0, 1, 0, 0

    def desired_min_tx(self):
        return self.wanted_interval if self.state == scion.UP else max(self.wanted_interval, SLOWEST_BEFORE_UP)

    def interval(self):
        """How long to the next packet: up to a quarter less than agreed, and a tenth at least with a multiplier of 1."""
        agreed = max(self.desired_min_tx(), self.remote_min_rx) / 1e6
        return agreed * self.dice.uniform(0.75, 0.9 if self.multiplier == 1 else 1)

    def detection_time(self):
        return self.remote_multiplier * max(self.required_min_rx, self.remote_min_tx) / 1e6

    def packet(self, is_final=False):
        flags = scion.FINAL if is_final else scion.POLL if self.is_polling else 0
        intervals = self.desired_min_tx(), self.required_min_rx
        return scion.Control(self.state, self.mine, self.yours, flags, self.multiplier, *intervals, 0, self.diagnostic)

    def enter(self, state, diagnostic):
        before = self.desired_min_tx()
        self.state, self.diagnostic = state, diagnostic
        if state == scion.UP and self.desired_min_tx() != before:
            self.is_polling = True
        elif state != scion.UP:
            self.is_polling = False

    def receive(self, now, data):
        """Takes a control packet, and tells whether a final is to be sent at once."""
        if not scion.is_received(self.mine, data):
            return False
        heard = scion.control_of(data)
        self.yours, self.heard_at = heard.mine, now
        self.remote_min_rx, self.remote_min_tx = heard.required_min_rx, heard.desired_min_tx
        self.remote_multiplier = heard.multiplier
        if heard.flags & scion.FINAL:
            self.is_polling = False
        state = scion.next_state(self.state, heard.state)
        if state != self.state:
            self.enter(state, NEIGHBOR_DOWN if state == scion.DOWN else NO_DIAGNOSTIC)
        return bool(heard.flags & scion.POLL) and self.state != scion.ADMIN_DOWN

    def expires_at(self):
        """When the session goes down unless something is heard, or None where it isn't up."""
        return self.heard_at + self.detection_time() if self.state in (scion.INIT, scion.UP) else None

    def expire(self):
        self.enter(scion.DOWN, TIME_EXPIRED)
        self.forget()


class Speaker:
    """A session over the far end of a link of a router."""

    def __init__(self, router, link, dice, mine, key):
        self.router, self.link, self.key, self.dice = router, link, key, dice
        self.session = Session(dice, mine)
        self.sock = bound(link.remote)
        self.outstanding = collections.deque(maxlen=1000)
        self.next_at, self.heard, self.gaps, self.changes = 0.0, 0, [], []
        self.sent, self.strangers, self.last = 0, [], None

    def datagram(self, control, flow=1):
        """A control packet as this end sends it. Its own AS's key makes the hop field's MAC."""
        timestamp = int(time.time())
        mac = scion.mac_of(self.key, 0, timestamp, 63, 0, 17)
        return scion.OneHopPacket(
            target=self.router.isd_as,
            source=self.link.neighbor,
            target_host=self.link.local[0],
            source_host=self.link.remote[0],
            seg_id=int.from_bytes(mac[:2], "big"),
            timestamp=timestamp,
            hops=(scion.Hop(0, 63, 0, 17, mac), scion.NO_HOP),
            next_header=scion.BFD,
            payload=control.bytes(),
            traffic_class=0xB8,
            flow=flow,
        ).bytes()

    def send(self, control, flow=1):
        self.outstanding.append(control.bytes())
        self.sent += 1
        self.sock.sendto(self.datagram(control, flow), address_of(self.link.local))

    def answered(self, data):
        """The control packet of an answer, which must be the model's to a packet that was sent and isn't answered yet.
        None for anything else."""
        at = scion.path_at(data)
        timestamp = int.from_bytes(data[at + 4 : at + 8], "big") if at is not None and len(data) >= at + 8 else 0
        if abs(timestamp - time.time()) <= 2:
            for place, control in enumerate(self.outstanding):
                if scion.bfd_answer(self.router, self.link, timestamp, control) == data:
                    del self.outstanding[place]
                    return data[4 * data[5] :]
        self.strangers.append(data)
        return None

    def take(self, now):
        data, source = self.sock.recvfrom(65536)
        control = self.answered(data) if source == address_of(self.link.local) else None
        if control is None:
            self.strangers += [data] if source != address_of(self.link.local) else []
            return
        self.gaps += [now - self.session.heard_at] if self.session.heard_at is not None else []
        self.heard, self.last = self.heard + 1, scion.control_of(control)
        before = self.session.state
        if self.session.receive(now, control):
            self.send(self.session.packet(is_final=True))
        self.note(now, before)

    def note(self, now, before):
        if self.session.state != before:
            self.changes.append((now, self.session.state))
            # a new state is told at once
            self.next_at = min(self.next_at, now + self.session.interval() * self.dice.random())

    def run(self, seconds, until=lambda: False):
        """Speaks for some seconds, or until something is so. Tells how long that took."""
        begin = time.monotonic()
        while not until():
            now = time.monotonic()
            if now - begin >= seconds:
                break
            expires = self.session.expires_at()
            if expires is not None and now > expires:
                before = self.session.state
                self.session.expire()
                self.note(now, before)
                continue
            if now >= self.next_at:
                self.send(self.session.packet())
                self.next_at = now + self.session.interval()
            wake = min(it for it in (self.next_at, expires, begin + seconds) if it is not None)
            if select.select([self.sock], [], [], max(0, wake - now))[0]:
                self.take(time.monotonic())
        return time.monotonic() - begin

    def ask(self, control, flow=1, wait=1.0):
        """Sends one control packet beside the session, and gives its answer, or None."""
        self.send(control, flow)
        data = self.next_datagram(wait)
        return None if data is None else self.answered(data)

    def next_datagram(self, wait):
        return self.sock.recv(65536) if select.select([self.sock], [], [], wait)[0] else None


def address_of(underlay):
    """An underlay address as sockets take it."""
    packed, port = underlay
    return socket.inet_ntop(socket.AF_INET6 if len(packed) == 16 else socket.AF_INET, packed), port


def bound(underlay):
    sock = socket.socket(socket.AF_INET6 if len(underlay[0]) == 16 else socket.AF_INET, socket.SOCK_DGRAM)
    sock.setsockopt(socket.SOL_SOCKET, socket.SO_RCVBUF, 1 << 22)
    sock.bind(address_of(underlay))
    return sock
