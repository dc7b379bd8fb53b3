//! Datagrams of all kinds, made from their parts, each with what is to become of it.

use crate::cipher::{BlockCmac, HopMac};
use crate::plain::{Cause, Decision, Underlay};
use std::net::IpAddr;

pub const KEY: [u8; 16] = [
    0x2b, 0x7e, 0x15, 0x16, 0x28, 0xae, 0xd2, 0xa6, 0xab, 0xf7, 0x15, 0x88, 0x09, 0xcf, 0x4f, 0x3c,
];

/// When the segments were made, and the moment of the decisions.
const MADE: u32 = 1694498816;
const NOW: u64 = 1694499816;

/// This AS, and those at the other ends of links 1 and 2.
const LOCAL: u64 = 0x0001_ff00_0000_0110;
pub const SENDER: u64 = 0x0001_ff00_0000_0111;
pub const RECEIVER: u64 = 0x0001_ff00_0000_0112;

/// The identifier of the first segment.
const FIRST_ID: u16 = 0x1234;

/// The address 10.NET.0.HOST with a port.
pub fn at(net: u8, host: u8, port: u16) -> Underlay {
    Underlay {
        ip: [10, net, 0, host].into(),
        port,
    }
}

#[derive(Clone)]
pub struct Datagram {
    pub name: &'static str,
    pub bytes: Vec<u8>,
    pub link: u16,
    pub source: Underlay,
    pub now: u64,
    pub wanted: Decision,
    /// Where the five bytes stand that a decision on a SCION path may change.
    pub places: [u16; 5],
}

/// A segment: its direction, how many hops it has, and the hops that this AS has in it, each by its
/// position and its construction ingress and egress.
#[derive(Clone)]
struct Segment {
    along: bool,
    len: usize,
    own: Vec<(usize, u16, u16)>,
}

#[derive(Clone)]
struct Parts {
    destination: u64,
    source: u64,
    /// Byte 9, and the destination host.
    kinds: u8,
    host: Vec<u8>,
    next_header: u8,
    payload: Vec<u8>,
    segments: Vec<Segment>,
    /// The number of the current hop, and its flags.
    current: usize,
    flags: u8,
    link: u16,
    from: Underlay,
}

fn segment(along: bool, len: usize, own: &[(usize, u16, u16)]) -> Segment {
    Segment {
        along,
        len,
        own: own.to_vec(),
    }
}

/// A datagram that came on the link by the router at its other end; on link 0 by the other router.
fn parts(link: u16, segments: &[Segment], current: usize) -> Parts {
    Parts {
        destination: RECEIVER,
        source: SENDER,
        kinds: 0,
        host: vec![10, 2, 0, 7],
        next_header: 17,
        payload: vec![0x75, 0x59, 0x75, 0x59, 0, 8, 0, 0],
        segments: segments.to_vec(),
        current,
        flags: 0,
        link,
        from: match link {
            0 => at(0, 2, 30000),
            link => at(link as u8, 2, 40000),
        },
    }
}

/// The MAC of a hop field under this AS's key, for an identifier of its segment.
fn mac(id: u16, hop: &[u8; 12]) -> [u8; 6] {
    let mut block = [0; 16];
    block[2..4].copy_from_slice(&id.to_be_bytes());
    block[4..8].copy_from_slice(&MADE.to_be_bytes());
    block[9..14].copy_from_slice(&hop[1..6]);
    BlockCmac::new(&KEY).mac(&block)
}

/// A hop field from one interface to another, with its MAC.
fn hop_field(id: u16, ingress: u16, egress: u16) -> [u8; 12] {
    let mut hop = [0; 12];
    hop[1] = 63;
    hop[2..4].copy_from_slice(&ingress.to_be_bytes());
    hop[4..6].copy_from_slice(&egress.to_be_bytes());
    let mac = mac(id, &hop);
    hop[6..].copy_from_slice(&mac);
    hop
}

/// An info field.
fn info_field(along: bool, id: u16) -> [u8; 8] {
    let mut info = [0; 8];
    info[0] = u8::from(along);
    info[2..4].copy_from_slice(&id.to_be_bytes());
    info[4..].copy_from_slice(&MADE.to_be_bytes());
    info
}

impl Parts {
    fn to(self, destination: u64) -> Parts {
        Parts {
            destination,
            ..self
        }
    }

    fn coming_from(self, source: u64) -> Parts {
        Parts { source, ..self }
    }

    fn for_host(self, kinds: u8, host: &[u8]) -> Parts {
        Parts {
            kinds,
            host: host.to_vec(),
            ..self.to(LOCAL)
        }
    }

    fn by(self, from: Underlay) -> Parts {
        Parts { from, ..self }
    }

    /// A traceroute request, with these flags of the current hop.
    fn asking(self, flags: u8) -> Parts {
        let mut payload = vec![0; 24];
        payload[..8].copy_from_slice(&[130, 0, 0, 0, 0, 7, 0, 3]);
        Parts {
            flags,
            next_header: 202,
            payload,
            ..self
        }
    }

    /// Where the path begins.
    fn path_at(&self) -> usize {
        28 + self.host.len() + 4
    }

    /// The two headers before a path of a type and a length.
    fn headers(&self, path_type: u8, path_len: usize) -> Vec<u8> {
        let end = self.path_at() + path_len;
        assert!(end <= 1020, "the header is too long");
        let mut bytes = vec![0, 0, 0, 1, self.next_header, (end / 4) as u8];
        bytes.extend((self.payload.len() as u16).to_be_bytes());
        bytes.extend([path_type, self.kinds, 0, 0]);
        bytes.extend(self.destination.to_be_bytes());
        bytes.extend(self.source.to_be_bytes());
        bytes.extend(&self.host);
        bytes.extend([10, 1, 0, 5]);
        bytes
    }

    /// The datagram on a path of one hop, from an interface of the AS where it begins. The second hop field is the one
    /// that is made where it comes in by its link.
    fn make_one_hop(self, name: &'static str, egress: u16, wanted: Decision) -> Datagram {
        let id_at = (self.path_at() + 2) as u16;
        let mut bytes = self.headers(2, 32);
        bytes.extend(info_field(true, FIRST_ID));
        bytes.extend(hop_field(FIRST_ID, 0, egress));
        bytes.extend(hop_field(FIRST_ID, self.link, 0));
        bytes.extend(&self.payload);
        Datagram {
            name,
            bytes,
            link: self.link,
            source: self.from,
            now: NOW,
            wanted,
            places: [id_at, id_at + 1, id_at, id_at + 1, id_at],
        }
    }

    /// The datagram on its SCION path.
    fn make(self, name: &'static str, wanted: Decision) -> Datagram {
        let hops: usize = self.segments.iter().map(|segment| segment.len).sum();
        let path_at = self.path_at();
        let mut bytes = self.headers(1, 4 + 8 * self.segments.len() + 12 * hops);

        let mut infos = Vec::new();
        let mut fields = Vec::new();
        let mut places = [path_at as u16; 5];
        let mut number = 0;
        let mut meta = (self.current as u32) << 24;
        for (j, segment) in self.segments.iter().enumerate() {
            meta |= (segment.len as u32) << (12 - 6 * j);
            let mut id = FIRST_ID + j as u16;
            for position in 0..segment.len {
                let mut hop = [0; 12];
                hop[1] = 63;
                hop[2] = position as u8;
                hop[4] = 0xa0;
                hop[6..].copy_from_slice(&[0xa0, 0xa1, 0xa2, number as u8, 0xa4, 0xa5]);
                if let Some((_, ingress, egress)) = segment.own.iter().find(|o| o.0 == position) {
                    hop = hop_field(id, *ingress, *egress);
                    if number == self.current {
                        hop[0] = self.flags;
                        if self.link != 0 && !segment.along {
                            id ^= u16::from_be_bytes([hop[6], hop[7]]);
                        }
                    }
                }
                if number == self.current {
                    meta |= (j as u32) << 30;
                    let id_at = (path_at + 4 + 8 * j + 2) as u16;
                    places[1] = id_at;
                    places[2] = id_at + 1;
                    let next = id_at + if j + 1 < self.segments.len() { 8 } else { 0 };
                    places[3] = next;
                    places[4] = next + 1;
                }
                fields.extend(hop);
                number += 1;
            }
            infos.extend(info_field(segment.along, id));
        }
        bytes.extend(meta.to_be_bytes());
        bytes.extend(infos);
        bytes.extend(fields);
        bytes.extend(&self.payload);
        Datagram {
            name,
            bytes,
            link: self.link,
            source: self.from,
            now: NOW,
            wanted,
            places,
        }
    }
}

fn sent(link: u16) -> Decision {
    Decision::Send { link, to: None }
}

fn sent_inside(ip: impl Into<IpAddr>, port: u16) -> Decision {
    let to = Underlay {
        ip: ip.into(),
        port,
    };
    Decision::Send {
        link: 0,
        to: Some(to),
    }
}

fn answered(kind: u8, code: u8, pointer: u16) -> Decision {
    Decision::Answer {
        kind,
        code,
        pointer,
    }
}

impl Datagram {
    /// The same with other bytes at a place.
    fn with(&self, name: &'static str, place: usize, bytes: &[u8], wanted: Decision) -> Datagram {
        let mut other = self.clone();
        other.name = name;
        other.bytes[place..place + bytes.len()].copy_from_slice(bytes);
        other.wanted = wanted;
        other
    }

    fn cut(&self, name: &'static str, len: usize, wanted: Decision) -> Datagram {
        let mut other = self.clone();
        other.name = name;
        other.bytes.truncate(len);
        other.wanted = wanted;
        other
    }

    fn moment(&self, name: &'static str, now: u64, wanted: Decision) -> Datagram {
        Datagram {
            name,
            now,
            wanted,
            ..self.clone()
        }
    }
}

/// Those that are timed.
pub fn timed() -> Vec<Datagram> {
    let along = parts(1, &[segment(true, 3, &[(1, 1, 2)])], 1);
    let against = parts(2, &[segment(false, 3, &[(1, 1, 2)])], 1);
    let switch = |len, other| {
        let first = segment(false, len, &[(len - 1, 0, 2)]);
        let second = segment(true, len, &[(0, 0, other)]);
        parts(2, &[first, second], len - 1)
    };
    let delivery = parts(1, &[segment(true, 3, &[(2, 1, 0)])], 2);
    let transit = along.clone().make("transit along, 3 hops", sent(2));
    vec![
        transit.clone(),
        against.make("transit against, 3 hops", sent(1)),
        parts(
            1,
            &[segment(true, 63, &[(31, 1, 2)]), segment(true, 1, &[])],
            31,
        )
        .make("transit along, 64 hops", sent(2)),
        parts(
            2,
            &[segment(false, 63, &[(31, 1, 2)]), segment(true, 1, &[])],
            31,
        )
        .make("transit against, 64 hops", sent(1)),
        switch(2, 2).make("segment switch, 4 hops", sent(2)),
        switch(32, 2).make("segment switch, 64 hops", sent(2)),
        switch(2, 4).make(
            "segment switch to a sibling",
            sent_inside([10, 0, 0, 2], 30000),
        ),
        delivery
            .clone()
            .for_host(0, &[10, 0, 0, 77])
            .make("delivery", sent_inside([10, 0, 0, 77], 30041)),
        parts(0, &[segment(true, 3, &[(0, 0, 2)])], 0)
            .coming_from(LOCAL)
            .make("from inside, first hop", sent(2)),
        parts(0, &[segment(true, 3, &[(1, 4, 2)])], 1).make("from inside, by a sibling", sent(2)),
        transit.with("problem: wrong MAC", 71, &[0], answered(4, 51, 60)),
        along.by(at(1, 3, 40000)).make(
            "drop: underlay source",
            Decision::Drop(Cause::UnderlaySource),
        ),
        parts(0, &[], 0)
            .coming_from(LOCAL)
            .make_one_hop("one hop, leaving", 2, sent(2)),
        parts(1, &[], 0).for_host(0, &[10, 0, 0, 77]).make_one_hop(
            "one hop, entering",
            17,
            sent_inside([10, 0, 0, 77], 30041),
        ),
    ]
}

/// One or more for each row of the table of one-hop paths.
fn one_hops() -> Vec<Datagram> {
    let dropped = Decision::Drop;
    let out = |egress: u16, name, wanted| {
        parts(0, &[], 0)
            .coming_from(LOCAL)
            .make_one_hop(name, egress, wanted)
    };
    let into = |name, kinds, host: &[u8], wanted| {
        parts(1, &[], 0)
            .for_host(kinds, host)
            .make_one_hop(name, 17, wanted)
    };
    let leaving = out(2, "one hop, out", sent(2));
    let to_host = sent_inside([10, 0, 0, 77], 30041);
    let entering = into("one hop, in", 0, &[10, 0, 0, 77], to_host);
    let from_inside =
        |name, place, bytes: &[u8], cause| leaving.with(name, place, bytes, dropped(cause));
    let from_outside =
        |name, place, bytes: &[u8], cause| entering.with(name, place, bytes, dropped(cause));
    let six = [0xfd, 0, 0, 0, 0, 0, 0, 0, 0, 0, 0, 0, 0, 0, 0, 0x77];
    let mut long = leaving.clone();
    long.name = "one hop, too long";
    long.bytes.resize(9217, 0);
    long.wanted = dropped(Cause::TooLong);
    vec![
        leaving.clone(),
        entering.clone(),
        entering.with("second hop field to be made", 56, &[0; 12], to_host),
        leaving.with("another second hop field", 56, &[0xff; 12], sent(2)),
        leaving.with("reserved bits", 36, &[0xfd, 0xff], sent(2)),
        entering.with("reserved bits, in", 44, &[0xfc], to_host),
        into("one hop, IPv6", 0x30, &six, sent_inside(six, 30041)),
        into(
            "one hop, service",
            0x40,
            &[0, 2, 0, 0],
            sent_inside([10, 0, 0, 9], 30252),
        ),
        into(
            "one hop, no such service",
            0x40,
            &[0, 9, 0, 0],
            dropped(Cause::OneHopHost),
        ),
        into(
            "one hop, no such kind of host",
            0x80,
            &[0, 2, 0, 0],
            dropped(Cause::OneHopHost),
        ),
        long,
        leaving.cut("one hop, 11 bytes", 11, dropped(Cause::Short)),
        leaving.cut("one hop, cut", 67, dropped(Cause::Short)),
        from_inside("one hop, version", 0, &[16], Cause::Version),
        from_inside("one hop, header length", 5, &[8], Cause::Header),
        from_inside("one hop, path length", 5, &[16], Cause::Header),
        from_inside("one hop, peering", 36, &[3], Cause::Peering),
        from_inside("one hop, peering and against", 36, &[2], Cause::Peering),
        from_inside("one hop, against", 36, &[0], Cause::Path),
        from_inside("one hop, payload length", 7, &[9], Cause::Header),
        Datagram {
            name: "one hop, no neighbour",
            link: 3,
            wanted: dropped(Cause::PathType),
            ..entering.clone()
        },
        Datagram {
            name: "one hop, by another router",
            source: at(1, 3, 40000),
            wanted: dropped(Cause::UnderlaySource),
            ..entering.clone()
        },
        from_outside(
            "one hop, for another AS",
            12,
            &SENDER.to_be_bytes(),
            Cause::OneHopEnds,
        ),
        from_outside(
            "one hop, from another AS",
            20,
            &RECEIVER.to_be_bytes(),
            Cause::OneHopEnds,
        ),
        from_inside(
            "one hop, from elsewhere",
            20,
            &SENDER.to_be_bytes(),
            Cause::OneHopEnds,
        ),
        from_outside("BFD", 4, &[203], Cause::OneHopHost),
        leaving.with("BFD from inside", 4, &[203], sent(2)),
        out(3, "out by no neighbour", dropped(Cause::OneHopField)),
        out(4, "out by a sibling", dropped(Cause::OneHopField)),
        out(9, "out by no link", dropped(Cause::OneHopField)),
        from_inside("comes from elsewhere", 47, &[1], Cause::OneHopField),
        out(1, "for the other neighbour", dropped(Cause::OneHopEnds)),
        leaving.moment("one hop, last second", 1694520416, sent(2)),
        leaving.moment("one hop, expired", 1694520417, dropped(Cause::OneHopField)),
        leaving.moment(
            "one hop, far too late",
            u64::MAX,
            dropped(Cause::OneHopField),
        ),
        leaving.moment("300 seconds ahead", u64::from(MADE) - 300, sent(2)),
        leaving.moment(
            "301 seconds ahead",
            u64::from(MADE) - 301,
            dropped(Cause::OneHopField),
        ),
        entering.moment(
            "expired on entering",
            1694520417,
            dropped(Cause::OneHopField),
        ),
        entering.moment(
            "ahead on entering",
            u64::from(MADE) - 301,
            dropped(Cause::OneHopField),
        ),
        from_inside("one hop, wrong MAC", 55, &[0], Cause::OneHopField),
    ]
}

/// Those that are compared: the timed ones, and one or more for each other row of the table.
pub fn compared() -> Vec<Datagram> {
    let mut all = timed();
    let transit = all[0].clone();
    let along = parts(1, &[segment(true, 3, &[(1, 1, 2)])], 1);
    let delivery = parts(1, &[segment(true, 3, &[(2, 1, 0)])], 2);
    let six = [0xfd, 0, 0, 0, 0, 0, 0, 0, 0, 0, 0, 0, 0, 0, 0, 0x77];
    let dropped = Decision::Drop;
    let drop = |name, place, bytes: &[u8], cause| transit.with(name, place, bytes, dropped(cause));
    let more = [
        delivery
            .clone()
            .for_host(0x30, &six)
            .make("delivery, IPv6", sent_inside(six, 30041)),
        delivery
            .clone()
            .for_host(0x40, &[0, 2, 0, 0])
            .make("delivery to a service", sent_inside([10, 0, 0, 9], 30252)),
        delivery
            .clone()
            .for_host(0x40, &[0, 9, 0, 0])
            .make("no such service", answered(1, 0, 0)),
        delivery
            .clone()
            .for_host(0x80, &[0, 2, 0, 0])
            .make("no such kind of host", answered(4, 21, 9)),
        transit.moment("last second", 1694520416, sent(2)),
        transit.moment("expired", 1694520417, answered(4, 52, 60)),
        transit.moment("far too late", u64::MAX, answered(4, 52, 60)),
        Datagram {
            name: "wrong link",
            link: 2,
            wanted: answered(4, 49, 60),
            ..transit.clone()
        },
        Datagram {
            name: "wrong link, against",
            link: 1,
            wanted: answered(4, 50, 60),
            ..all[1].clone()
        },
        transit.with("payload length", 7, &[9], answered(4, 19, 0)),
        transit.with(
            "local source",
            20,
            &LOCAL.to_be_bytes(),
            answered(4, 33, 20),
        ),
        transit.with(
            "local destination",
            12,
            &LOCAL.to_be_bytes(),
            answered(4, 34, 12),
        ),
        delivery.clone().make("ends elsewhere", answered(4, 34, 12)),
        parts(0, &[segment(true, 3, &[(0, 0, 2)])], 0)
            .make("starts inside with a source outside", answered(4, 33, 20)),
        parts(0, &[segment(true, 3, &[(0, 0, 2)])], 0)
            .coming_from(LOCAL)
            .to(LOCAL)
            .make("stays inside", answered(4, 34, 12)),
        parts(1, &[segment(true, 3, &[(1, 1, 9)])], 1).make("no such egress", answered(4, 50, 60)),
        parts(2, &[segment(false, 3, &[(1, 9, 2)])], 1)
            .make("no such egress, against", answered(4, 49, 60)),
        parts(1, &[segment(true, 3, &[(1, 1, 3)])], 1).make("no such pair", answered(4, 48, 60)),
        parts(
            1,
            &[
                segment(true, 2, &[(1, 1, 0)]),
                segment(true, 2, &[(0, 0, 3)]),
            ],
            1,
        )
        .make("no such pair at a switch", answered(4, 53, 48)),
        parts(
            3,
            &[
                segment(true, 2, &[(1, 3, 0)]),
                segment(true, 2, &[(0, 0, 2)]),
            ],
            1,
        )
        .make("core to child", sent(2)),
        parts(
            2,
            &[segment(false, 2, &[(1, 0, 2)]), segment(true, 2, &[])],
            1,
        )
        .make("wrong MAC behind a switch", answered(4, 51, 80)),
        parts(
            0,
            &[
                segment(false, 2, &[(1, 0, 4)]),
                segment(true, 2, &[(0, 0, 2)]),
            ],
            2,
        )
        .make("from inside, behind a switch", sent(2)),
        parts(
            0,
            &[
                segment(false, 2, &[(1, 0, 2)]),
                segment(true, 2, &[(0, 0, 2)]),
            ],
            2,
        )
        .make(
            "from inside, by another router",
            dropped(Cause::UnderlaySource),
        ),
        along
            .clone()
            .asking(2)
            .make("asked at the ingress", answered(131, 0, 1)),
        along
            .clone()
            .asking(1)
            .make("asked at the egress", answered(131, 0, 2)),
        along.clone().asking(0).make("asked elsewhere", sent(2)),
        parts(1, &[segment(true, 2, &[(1, 1, 2)])], 1)
            .to(LOCAL)
            .make("delivery with an egress", sent_inside([10, 2, 0, 7], 30041)),
        parts(0, &[segment(true, 2, &[(1, 4, 2)])], 1).make("path ends", dropped(Cause::PathEnd)),
        transit.cut("no byte", 0, dropped(Cause::Short)),
        transit.cut("11 bytes", 11, dropped(Cause::Short)),
        transit.cut("cut", 83, dropped(Cause::Short)),
        drop("version", 0, &[16], Cause::Version),
        drop("path type", 8, &[0], Cause::PathType),
        drop("header length", 5, &[8], Cause::Header),
        drop("path length", 5, &[20], Cause::Header),
        drop("empty segment", 36, &[1, 0, 0, 0xc0], Cause::Path),
        drop("other segment", 36, &[0x41], Cause::Path),
        drop("65 hops", 36, &[1, 3, 0xf0, 0x80], Cause::Path),
        drop("past the end", 36, &[3], Cause::Path),
        drop("peering", 40, &[3], Cause::Peering),
    ];
    all.extend(more);
    let mut long = transit;
    long.name = "too long";
    long.bytes.resize(9217, 0);
    long.wanted = dropped(Cause::TooLong);
    all.push(long);
    all.extend(one_hops());
    all
}
