//! Times the proved decision beside the one in plain Rust, over the same datagrams.

mod cipher;
mod datagrams;
#[cfg(openssl)]
mod openssl;
mod plain;
mod proved;
mod shuffles;

use cipher::{BlockCmac, HopMac};
use datagrams::{Datagram, KEY, RECEIVER, SENDER, at, compared, timed};
use plain::{Config, Decision, Link, LinkKind, Service, Sibling, decide};
use proved::{Arrived, Told};
use shuffles::ShuffleCmac;
use std::hint::black_box;
use std::net::IpAddr;
use std::time::{Duration, Instant};

/// How often each datagram stands in its set, how many decisions are timed at once, and how many times.
const COPIES: usize = 8;
const DECISIONS: usize = 9600;
const TRIES: usize = 150;

fn config<M: HopMac>() -> Config<M> {
    let link = |id, kind, neighbor| Link {
        id,
        kind,
        remote: at(id as u8, 2, 40000),
        neighbor,
    };
    Config {
        isd: 1,
        autonomous_system: 0xff00_0000_0110,
        key: M::new(&KEY),
        host_port: 30041,
        links: vec![
            link(1, LinkKind::Parent, Some(SENDER)),
            link(2, LinkKind::Child, Some(RECEIVER)),
            link(3, LinkKind::Core, None),
        ],
        siblings: vec![Sibling {
            id: 4,
            kind: LinkKind::Child,
            at: at(0, 2, 30000),
        }],
        services: vec![Service {
            number: 2,
            at: at(0, 9, 30252),
        }],
    }
}

impl Told {
    fn of(decision: Decision) -> Told {
        match decision {
            Decision::Send { link, to: None } => Told {
                kind: 1,
                what: u64::from(link),
                ..Told::default()
            },
            Decision::Send { link, to: Some(to) } => {
                let (high, low) = match to.ip {
                    IpAddr::V4(ip) => (0, u64::from(u32::from(ip))),
                    IpAddr::V6(ip) => ((u128::from(ip) >> 64) as u64, u128::from(ip) as u64),
                };
                Told {
                    kind: 2,
                    what: u64::from(link),
                    place: u64::from(to.port),
                    high,
                    low,
                }
            }
            Decision::Answer {
                kind,
                code,
                pointer,
            } => Told {
                kind: 3,
                what: u64::from(kind) * 256 + u64::from(code),
                place: u64::from(pointer),
                ..Told::default()
            },
            Decision::Drop(cause) => Told {
                kind: 4,
                what: cause as u64,
                ..Told::default()
            },
        }
    }

    fn sum(&self) -> u64 {
        [self.what, self.place, self.high, self.low]
            .iter()
            .fold(self.kind, |sum, number| sum.wrapping_add(*number))
    }
}

impl Arrived {
    fn source(&self) -> plain::Underlay {
        plain::Underlay {
            ip: self.address.to_be_bytes().into(),
            port: self.port,
        }
    }

    fn restore(&self, datagram: &mut [u8]) {
        for k in 0..5 {
            if let Some(byte) = datagram.get_mut(usize::from(self.places[k])) {
                *byte = self.values[k];
            }
        }
    }
}

/// The same loop as that of the proved library.
#[inline(never)]
fn plain_rounds<M: HopMac>(rounds: u64, arrivals: &[Arrived], bytes: &mut [u8]) -> u64 {
    let config = config::<M>();
    let mut sum = 0u64;
    for _ in 0..rounds {
        for arrived in arrivals {
            let Some(datagram) = bytes.get_mut(arrived.begin..arrived.end) else {
                continue;
            };
            let source = arrived.source();
            let decision = decide(&config, arrived.link, source, arrived.moment, datagram);
            arrived.restore(datagram);
            sum = sum.wrapping_add(Told::of(decision).sum());
        }
    }
    sum
}

/// The arrivals of these datagrams, and their bytes one behind the other.
fn laid_out(datagrams: &[&Datagram]) -> (Vec<Arrived>, Vec<u8>) {
    let mut bytes = Vec::new();
    let mut arrivals = Vec::new();
    for datagram in datagrams {
        let begin = bytes.len();
        bytes.extend(&datagram.bytes);
        let IpAddr::V4(ip) = datagram.source.ip else {
            panic!("datagrams come from IPv4 addresses");
        };
        let values = datagram
            .places
            .map(|place| datagram.bytes.get(usize::from(place)).copied().unwrap_or(0));
        arrivals.push(Arrived {
            begin,
            end: bytes.len(),
            moment: datagram.now,
            address: ip.into(),
            port: datagram.source.port,
            link: datagram.link,
            places: datagram.places,
            values,
        });
        // each datagram on cache lines of its own
        bytes.resize(bytes.len().next_multiple_of(64), 0);
    }
    (arrivals, bytes)
}

/// That the decision is the same one by MACs of another kind.
fn compare_mac<M: HopMac>(datagram: &Datagram, decision: &Decision, kind: &str) {
    let mut bytes = datagram.bytes.clone();
    let config = config::<M>();
    let other = decide(
        &config,
        datagram.link,
        datagram.source,
        datagram.now,
        &mut bytes,
    );
    assert_eq!(&other, decision, "{kind}, {}", datagram.name);
}

/// That both decisions are the wanted one, with the same bytes.
fn compare(datagram: &Datagram) {
    let name = datagram.name;
    let (arrivals, _) = laid_out(&[datagram]);
    let mut bytes = datagram.bytes.clone();
    let source = datagram.source;
    let decision = decide(
        &config::<BlockCmac>(),
        datagram.link,
        source,
        datagram.now,
        &mut bytes,
    );
    assert_eq!(decision, datagram.wanted, "plain Rust, {name}");
    let mut proved_bytes = datagram.bytes.clone();
    let told = proved::once(&arrivals[0], &mut proved_bytes);
    assert_eq!(told, Told::of(decision), "decision, {name}");
    assert_eq!(proved_bytes, bytes, "bytes, {name}");
    if !matches!(decision, Decision::Send { .. }) {
        assert_eq!(bytes, datagram.bytes, "bytes of a refused one, {name}");
    }
    compare_mac::<ShuffleCmac>(datagram, &decision, "shuffles");
    #[cfg(openssl)]
    compare_mac::<openssl::OpensslCmac>(datagram, &decision, "OpenSSL");
}

type Rounds = fn(u64, &[Arrived], &mut [u8]) -> u64;

/// The columns of the table.
fn columns() -> Vec<(&'static str, Rounds)> {
    vec![
        ("Rattle", proved::rounds),
        ("Rust", plain_rounds::<BlockCmac>),
        ("Rust with shuffles", plain_rounds::<ShuffleCmac>),
        #[cfg(openssl)]
        (
            "Rust with OpenSSL's CMAC",
            plain_rounds::<openssl::OpensslCmac>,
        ),
    ]
}

/// Datagrams that are timed together, and the least time of each column so far.
struct Set {
    name: &'static str,
    arrivals: Vec<Arrived>,
    bytes: Vec<u8>,
    before: Vec<u8>,
    best: Vec<Duration>,
}

impl Set {
    fn new(name: &'static str, datagrams: &[&Datagram], columns: usize) -> Set {
        let (arrivals, bytes) = laid_out(datagrams);
        Set {
            name,
            arrivals,
            before: bytes.clone(),
            bytes,
            best: vec![Duration::MAX; columns],
        }
    }

    fn rounds(&self) -> u64 {
        (DECISIONS / self.arrivals.len()) as u64
    }

    /// Times each column once.
    fn time(&mut self, columns: &[(&str, Rounds)]) {
        let rounds = self.rounds();
        let mut sums = Vec::new();
        for (k, (_, run)) in columns.iter().enumerate() {
            let begin = Instant::now();
            let sum = run(
                black_box(rounds),
                black_box(&self.arrivals),
                black_box(&mut self.bytes),
            );
            self.best[k] = self.best[k].min(begin.elapsed());
            sums.push(sum);
            assert_eq!(self.bytes, self.before, "restored bytes, {}", self.name);
        }
        assert!(
            sums.iter().all(|sum| *sum == sums[0]),
            "all columns decide alike, {}",
            self.name
        );
    }

    /// The least time of a decision in a column, in nanoseconds.
    fn least(&self, column: usize) -> f64 {
        let decisions = self.rounds() as f64 * self.arrivals.len() as f64;
        self.best[column].as_nanos() as f64 / decisions
    }
}

fn main() {
    let all = compared();
    for datagram in &all {
        compare(datagram);
    }
    println!(
        "{} datagrams: the same decisions, the same bytes",
        all.len()
    );

    let columns = columns();
    let datagrams = timed();
    let each: Vec<_> = datagrams.iter().collect();
    let mut sets: Vec<_> = datagrams
        .iter()
        .map(|datagram| Set::new(datagram.name, &[datagram; COPIES], columns.len()))
        .collect();
    sets.push(Set::new("all of these by turns", &each, columns.len()));
    for _ in 0..TRIES {
        for set in &mut sets {
            set.time(&columns);
        }
    }

    println!();
    print!("| ns per decision |");
    for (name, _) in &columns {
        print!(" {name} |");
    }
    println!(" Rattle/Rust | Rattle/shuffles |");
    println!("|---|{}", "---|".repeat(columns.len() + 2));
    for set in &sets {
        print!("| {} |", set.name);
        for column in 0..columns.len() {
            print!(" {:.1} |", set.least(column));
        }
        println!(
            " {:.2} | {:.2} |",
            set.least(0) / set.least(1),
            set.least(0) / set.least(2)
        );
    }

    // Rattle's transit, along and against.
    let transit = |hops: &str| -> f64 {
        sets.iter()
            .filter(|set| set.name.starts_with("transit") && set.name.ends_with(hops))
            .map(|set| set.least(0))
            .sum()
    };
    let mixed = &sets[sets.len() - 1];
    println!();
    println!("decision/rust {:.2}", mixed.least(0) / mixed.least(1));
    println!("decision/shuffles {:.2}", mixed.least(0) / mixed.least(2));
    println!(
        "hops64/hops3 {:.2}",
        transit(" 64 hops") / transit(" 3 hops")
    );
}
