//! The decision in plain Rust, with nothing proved: in place, with reads at offsets.

use crate::cipher::HopMac;
use std::net::IpAddr;

const LONGEST: usize = 9216;

/// The path types of SCION paths and of paths of one hop.
pub const SCION_PATH: u8 = 1;
pub const ONE_HOP_PATH: u8 = 2;

/// The protocol number of BFD messages.
const BFD: u8 = 203;

/// The most seconds by which the timestamp of a path of one hop may be ahead of the moment.
const MOST_AHEAD: u64 = 300;

#[derive(Clone, Copy, Debug, PartialEq, Eq)]
pub struct Underlay {
    pub ip: IpAddr,
    pub port: u16,
}

#[derive(Clone, Copy, Debug, PartialEq, Eq)]
pub enum LinkKind {
    Core,
    Parent,
    Child,
}

pub struct Link {
    pub id: u16,
    pub kind: LinkKind,
    pub remote: Underlay,
    /// The AS at its other end, the ISD in the upper 16 bits, if one-hop paths are carried over it.
    pub neighbor: Option<u64>,
}

pub struct Sibling {
    pub id: u16,
    pub kind: LinkKind,
    pub at: Underlay,
}

pub struct Service {
    pub number: u16,
    pub at: Underlay,
}

pub struct Config<M> {
    pub isd: u16,
    pub autonomous_system: u64,
    pub key: M,
    pub host_port: u16,
    pub links: Vec<Link>,
    pub siblings: Vec<Sibling>,
    pub services: Vec<Service>,
}

#[derive(Clone, Copy, Debug, PartialEq, Eq)]
#[repr(u8)]
pub enum Cause {
    Short = 1,
    Version,
    PathType,
    Header,
    Path,
    Peering,
    UnderlaySource,
    PathEnd,
    TooLong = 11,
    OneHopEnds = 19,
    OneHopField,
    OneHopHost,
}

#[derive(Clone, Copy, Debug, PartialEq, Eq)]
pub enum Decision {
    Send { link: u16, to: Option<Underlay> },
    Answer { kind: u8, code: u8, pointer: u16 },
    Drop(Cause),
}

fn u16_at(bytes: &[u8], at: usize) -> u16 {
    u16::from_be_bytes(bytes[at..at + 2].try_into().unwrap())
}

fn u32_at(bytes: &[u8], at: usize) -> u32 {
    u32::from_be_bytes(bytes[at..at + 4].try_into().unwrap())
}

/// An AS, the ISD in the upper 16 bits.
fn domain_at(bytes: &[u8], at: usize) -> u64 {
    u64::from_be_bytes(bytes[at..at + 8].try_into().unwrap())
}

fn problem(code: u8, pointer: usize) -> Decision {
    Decision::Answer {
        kind: 4,
        code,
        pointer: pointer as u16,
    }
}

/// A hop field with its info field.
#[derive(Clone, Copy)]
struct Hop {
    info_at: usize,
    at: usize,
    along: bool,
    segment_id: u16,
    timestamp: u32,
    alerts: u8,
    expiry: u8,
    construction_ingress: u16,
    construction_egress: u16,
    mac: [u8; 6],
}

impl Hop {
    fn read(bytes: &[u8], info_at: usize, at: usize) -> Hop {
        let info = &bytes[info_at..info_at + 8];
        let hop = &bytes[at..at + 12];
        Hop {
            info_at,
            at,
            along: info[0] & 1 != 0,
            segment_id: u16_at(info, 2),
            timestamp: u32_at(info, 4),
            alerts: hop[0] & 3,
            expiry: hop[1],
            construction_ingress: u16_at(hop, 2),
            construction_egress: u16_at(hop, 4),
            mac: hop[6..12].try_into().unwrap(),
        }
    }

    fn ingress(&self) -> u16 {
        if self.along {
            self.construction_ingress
        } else {
            self.construction_egress
        }
    }

    fn egress(&self) -> u16 {
        if self.along {
            self.construction_egress
        } else {
            self.construction_ingress
        }
    }

    fn ingress_alert(&self) -> bool {
        self.alerts & if self.along { 2 } else { 1 } != 0
    }

    fn egress_alert(&self) -> bool {
        self.alerts & if self.along { 1 } else { 2 } != 0
    }

    fn is_expired(&self, now: u64) -> bool {
        let end = 2 * u64::from(self.timestamp) + 675 * (1 + u64::from(self.expiry));
        // 2 * now may not fit; end is small
        now > end / 2
    }

    fn chained(&self) -> u16 {
        self.segment_id ^ u16::from_be_bytes([self.mac[0], self.mac[1]])
    }

    fn mac_by<M: HopMac>(&self, key: &M) -> [u8; 6] {
        let mut block = [0; 16];
        block[2..4].copy_from_slice(&self.segment_id.to_be_bytes());
        block[4..8].copy_from_slice(&self.timestamp.to_be_bytes());
        block[9] = self.expiry;
        block[10..12].copy_from_slice(&self.construction_ingress.to_be_bytes());
        block[12..14].copy_from_slice(&self.construction_egress.to_be_bytes());
        key.mac(&block)
    }

    fn is_authentic<M: HopMac>(&self, key: &M) -> bool {
        self.mac_by(key) == self.mac
    }

    /// The next hop field of a path of one hop, made where the packet comes in by a link.
    fn second<M: HopMac>(&self, link: u16, key: &M) -> [u8; 12] {
        let made = Hop {
            construction_ingress: link,
            construction_egress: 0,
            ..*self
        };
        let mut bytes = [0; 12];
        bytes[1] = made.expiry;
        bytes[2..4].copy_from_slice(&link.to_be_bytes());
        bytes[6..].copy_from_slice(&made.mac_by(key));
        bytes
    }
}

/// Behind an extension of this kind, if one is there; none where it is cut.
fn behind(kind: u8, next: u8, rest: &[u8]) -> Option<(u8, &[u8])> {
    if next != kind {
        return Some((next, rest));
    }
    let len = 4 * (usize::from(*rest.get(1)?) + 1);
    Some((rest[0], rest.get(len..)?))
}

fn is_trace_request(next_header: u8, payload: &[u8]) -> bool {
    let Some((next, rest)) = behind(200, next_header, payload) else {
        return false;
    };
    match behind(201, next, rest) {
        Some((202, message)) => message.len() >= 24 && message[0] == 130 && message[1] == 0,
        _ => false,
    }
}

fn may_pass(from: Option<LinkKind>, to: LinkKind, switched: bool) -> bool {
    use LinkKind::*;
    match from {
        None => !switched,
        Some(from) if switched => {
            matches!((from, to), (Core, Child) | (Child, Core) | (Child, Child))
        }
        Some(from) => matches!((from, to), (Core, Core) | (Child, Parent) | (Parent, Child)),
    }
}

impl<M> Config<M> {
    fn link(&self, id: u16) -> Option<&Link> {
        self.links.iter().find(|link| link.id == id)
    }

    fn sibling(&self, id: u16) -> Option<&Sibling> {
        self.siblings.iter().find(|sibling| sibling.id == id)
    }

    fn is_local(&self, bytes: &[u8], at: usize) -> bool {
        domain_at(bytes, at) == u64::from(self.isd) << 48 | self.autonomous_system
    }

    /// The AS at the other end of a link over which one-hop paths are carried.
    fn neighbor(&self, link: u16) -> Option<u64> {
        self.link(link).and_then(|own| own.neighbor)
    }

    /// Whether one-hop paths are taken from a link; 0 is the internal network.
    fn takes_one_hop(&self, link: u16) -> bool {
        if link == 0 {
            self.links.iter().any(|own| own.neighbor.is_some())
        } else {
            self.neighbor(link).is_some()
        }
    }

    /// Whether a datagram is decided as one on a path of one hop.
    pub fn is_one_hop(&self, link: u16, bytes: &[u8]) -> bool {
        bytes.len() > 8 && bytes[8] == ONE_HOP_PATH && self.takes_one_hop(link)
    }

    /// Where the destination is reached in this AS.
    fn host_at(&self, bytes: &[u8]) -> Option<Underlay> {
        let ip: IpAddr = match bytes[9] >> 4 {
            0b0000 => {
                let four: [u8; 4] = bytes[28..32].try_into().unwrap();
                four.into()
            }
            0b0011 => {
                let sixteen: [u8; 16] = bytes[28..44].try_into().unwrap();
                sixteen.into()
            }
            0b0100 => {
                let number = u16_at(bytes, 28);
                return self
                    .services
                    .iter()
                    .find(|service| service.number == number)
                    .map(|service| service.at);
            }
            _ => return None,
        };
        Some(Underlay {
            ip,
            port: self.host_port,
        })
    }

    fn delivered(&self, bytes: &[u8]) -> Decision {
        match self.host_at(bytes) {
            to @ Some(_) => Decision::Send { link: 0, to },
            None if bytes[9] >> 4 == 0b0100 => Decision::Answer {
                kind: 1,
                code: 0,
                pointer: 0,
            },
            None => problem(21, 9),
        }
    }
}

/// Where the addresses and the header of a datagram end, whose path is to be of this type.
#[inline(always)]
pub fn header_ends(path_type: u8, bytes: &[u8]) -> Result<(usize, usize), Cause> {
    if bytes.len() > LONGEST {
        return Err(Cause::TooLong);
    }
    if bytes.len() < 12 {
        return Err(Cause::Short);
    }
    if bytes[0] >> 4 != 0 {
        return Err(Cause::Version);
    }
    if bytes[8] != path_type {
        return Err(Cause::PathType);
    }
    let kinds = bytes[9];
    let path_at = 36 + 4 * usize::from(kinds >> 4 & 3) + 4 * usize::from(kinds & 3);
    let end = 4 * usize::from(bytes[5]);
    if end < path_at {
        return Err(Cause::Header);
    }
    if bytes.len() < end {
        return Err(Cause::Short);
    }
    Ok((path_at, end))
}

/// What is done with a datagram; where it is sent, its bytes are those that leave.
pub fn decide<M: HopMac>(
    config: &Config<M>,
    link: u16,
    source: Underlay,
    now: u64,
    bytes: &mut [u8],
) -> Decision {
    if config.is_one_hop(link, bytes) {
        return decide_one_hop(config, link, source, now, bytes).unwrap_or_else(Decision::Drop);
    }
    decide_scion(config, link, source, now, bytes)
}

/// The same on a path of one hop. It is never answered.
fn decide_one_hop<M: HopMac>(
    config: &Config<M>,
    link: u16,
    source: Underlay,
    now: u64,
    bytes: &mut [u8],
) -> Result<Decision, Cause> {
    let (path_at, end) = header_ends(ONE_HOP_PATH, bytes)?;
    if end - path_at != 32 {
        return Err(Cause::Header);
    }
    let flags = bytes[path_at];
    if flags & 2 != 0 {
        return Err(Cause::Peering);
    }
    if flags & 1 == 0 {
        return Err(Cause::Path);
    }
    if usize::from(u16_at(bytes, 6)) != bytes.len() - end {
        return Err(Cause::Header);
    }

    let external = link != 0;
    let hop = Hop::read(bytes, path_at, path_at + 8);
    if external {
        let own = config.link(link);
        if !own.is_some_and(|own| own.remote == source) {
            return Err(Cause::UnderlaySource);
        }
        if !config.is_local(bytes, 12) || config.neighbor(link) != Some(domain_at(bytes, 20)) {
            return Err(Cause::OneHopEnds);
        }
        if bytes[4] == BFD {
            return Err(Cause::OneHopHost);
        }
    } else {
        if !config.is_local(bytes, 20) {
            return Err(Cause::OneHopEnds);
        }
        let there = config.neighbor(hop.construction_egress);
        if there.is_none() || hop.construction_ingress != 0 {
            return Err(Cause::OneHopField);
        }
        if there != Some(domain_at(bytes, 12)) {
            return Err(Cause::OneHopEnds);
        }
    }
    if hop.is_expired(now) || u64::from(hop.timestamp) > now.saturating_add(MOST_AHEAD) {
        return Err(Cause::OneHopField);
    }

    if external {
        let to = config.host_at(bytes);
        if to.is_none() {
            return Err(Cause::OneHopHost);
        }
        bytes[end - 12..end].copy_from_slice(&hop.second(link, &config.key));
        return Ok(Decision::Send { link: 0, to });
    }
    if !hop.is_authentic(&config.key) {
        return Err(Cause::OneHopField);
    }
    bytes[path_at + 2..path_at + 4].copy_from_slice(&hop.chained().to_be_bytes());
    Ok(Decision::Send {
        link: hop.construction_egress,
        to: None,
    })
}

/// The same on a SCION path.
fn decide_scion<M: HopMac>(
    config: &Config<M>,
    link: u16,
    source: Underlay,
    now: u64,
    bytes: &mut [u8],
) -> Decision {
    let (path_at, end) = match header_ends(SCION_PATH, bytes) {
        Ok(ends) => ends,
        Err(cause) => return Decision::Drop(cause),
    };
    if end - path_at < 4 {
        return Decision::Drop(Cause::Header);
    }
    let meta = u32_at(bytes, path_at);
    let lengths = [12, 6, 0].map(|shift| (meta >> shift & 63) as usize);
    let hops = lengths[0] + lengths[1] + lengths[2];
    if lengths[0] == 0 || lengths[1] == 0 && lengths[2] != 0 || hops > 64 {
        return Decision::Drop(Cause::Path);
    }
    let segments = 1 + usize::from(lengths[1] != 0) + usize::from(lengths[2] != 0);
    let hops_at = path_at + 4 + 8 * segments;
    if end != hops_at + 12 * hops {
        return Decision::Drop(Cause::Header);
    }
    let mut number = (meta >> 24 & 63) as usize;
    let mut segment = (meta >> 30) as usize;
    if number >= hops {
        return Decision::Drop(Cause::Path);
    }
    let (its_segment, first) = if number < lengths[0] {
        (0, 0)
    } else if number < lengths[0] + lengths[1] {
        (1, lengths[0])
    } else {
        (2, lengths[0] + lengths[1])
    };
    if segment != its_segment {
        return Decision::Drop(Cause::Path);
    }
    for info in bytes[path_at + 4..hops_at].chunks_exact(8) {
        if info[0] & 2 != 0 {
            return Decision::Drop(Cause::Peering);
        }
    }

    let external = link != 0;
    let mut hop = Hop::read(bytes, path_at + 4 + 8 * segment, hops_at + 12 * number);
    if hop.is_expired(now) {
        return problem(52, hop.at);
    }
    if external && hop.ingress() != link {
        return problem(if hop.along { 49 } else { 50 }, hop.at);
    }
    if usize::from(u16_at(bytes, 6)) != bytes.len() - end {
        return problem(19, 0);
    }
    let came_by = if external { config.link(link) } else { None };
    let lawful = if external {
        came_by.is_some_and(|own| own.remote == source)
    } else if number == 0 {
        true
    } else {
        let entry = if number == first {
            Hop::read(bytes, hop.info_at - 8, hop.at - 12).ingress()
        } else {
            hop.ingress()
        };
        config
            .sibling(entry)
            .is_some_and(|sibling| sibling.at.ip == source.ip)
    };
    if !lawful {
        return Decision::Drop(Cause::UnderlaySource);
    }
    let source_local = config.is_local(bytes, 20);
    if external && source_local || number == 0 && !external && !source_local {
        return problem(33, 20);
    }
    let for_here = config.is_local(bytes, 12);
    if for_here != (external && number + 1 == hops) {
        return problem(34, 12);
    }

    // The identifiers that change are written at the very end.
    let mut turned = None;
    if external && !hop.along {
        hop.segment_id = hop.chained();
        turned = Some((hop.info_at + 2, hop.segment_id));
    }
    if !hop.is_authentic(&config.key) {
        return problem(51, hop.at);
    }
    if external && hop.ingress_alert() && is_trace_request(bytes[4], &bytes[end..]) {
        return Decision::Answer {
            kind: 131,
            code: 0,
            pointer: hop.ingress(),
        };
    }

    let mut decision;
    let mut chained = None;
    if external && for_here {
        decision = config.delivered(bytes);
    } else {
        let mut segment_end = first + lengths[segment];
        let switched = number + 1 == segment_end && segment + 1 < segments;
        if switched {
            number += 1;
            segment += 1;
            segment_end += lengths[segment];
            hop = Hop::read(bytes, hop.info_at + 8, hop.at + 12);
            if hop.is_expired(now) {
                return problem(52, hop.at);
            }
            if !hop.is_authentic(&config.key) {
                return problem(51, hop.at);
            }
        }

        let egress = hop.egress();
        let own = config.link(egress);
        let (kind, beyond) = if let Some(own) = own {
            (own.kind, None)
        } else if let Some(sibling) = config.sibling(egress) {
            (sibling.kind, Some(sibling.at))
        } else {
            return problem(if hop.along { 50 } else { 49 }, hop.at);
        };
        if !may_pass(came_by.map(|own| own.kind), kind, switched) {
            return if switched {
                problem(53, hop.info_at)
            } else {
                problem(48, hop.at)
            };
        }
        if beyond.is_none() && hop.egress_alert() && is_trace_request(bytes[4], &bytes[end..]) {
            return Decision::Answer {
                kind: 131,
                code: 0,
                pointer: egress,
            };
        }

        decision = Decision::Send {
            link: 0,
            to: beyond,
        };
        if beyond.is_none() {
            if number + 1 == hops {
                return Decision::Drop(Cause::PathEnd);
            }
            if hop.along {
                chained = Some((hop.info_at + 2, hop.chained()));
            }
            number += 1;
            if number == segment_end {
                segment += 1;
            }
            decision = Decision::Send {
                link: egress,
                to: None,
            };
        }
    }

    if let Decision::Send { .. } = decision {
        bytes[path_at] = (segment << 6 | number) as u8;
        for (at, id) in [turned, chained].into_iter().flatten() {
            bytes[at..at + 2].copy_from_slice(&id.to_be_bytes());
        }
    }
    decision
}
