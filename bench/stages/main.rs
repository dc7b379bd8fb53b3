//! Plain Rust beside the three workers: a receiver, a processor and a forwarder that take turns in one thread, over
//! queues of the same shape. It prints the tenths of a nanosecond that one packet took in the middle one of its tries,
//! and a sum of what left. Sizes, counts and devices are those of `crates/stages_tests` (`timing.rt`, `flows.rt`).

#[path = "../array_queue.rs"]
mod array_queue;
#[path = "../decision/cipher.rs"]
#[allow(dead_code)]
mod cipher;
#[path = "../decision/plain.rs"]
#[allow(dead_code)]
mod plain;
#[path = "../workers.rs"]
mod workers;

use cipher::{BlockCmac, HopMac};
use plain::{Config, Link, LinkKind, Service, Sibling, Underlay};
use std::sync::Arc;
use std::sync::atomic::AtomicU64;
use std::time::Instant;
use workers::{Forwarder, Outgoing, Pipe, Processor, ROOM, Receiver, Router, Sink, Source, Work};

const BATCHES: usize = 400;
const BATCH: usize = 64;
const TRIES: usize = 61;
const CAPACITY: usize = 256;

const FIRST: [u8; 92] = *b"\x00\x00\x00\x01\x11\x15\x00\x08\x01\x00\x00\x00\
    \x00\x01\xff\x00\x00\x00\x01\x12\x00\x01\xff\x00\x00\x00\x01\x11\x0a\x02\x00\x07\x0a\x01\x00\x05\
    \x01\x00\x30\x00\x01\x00\x12\x34\x65\x00\x00\x00\
    \x00\x3f\x00\x00\x00\x11\xa0\xa1\xa2\xa3\xa4\xa5\
    \x00\x3f\x00\x01\x00\x02\x0e\x66\xd2\x97\x45\x36\
    \x00\x3f\x00\x12\x00\x00\xb0\xb1\xb2\xb3\xb4\xb5\
    \x75\x59\x75\x59\x00\x08\x00\x00";
const IN_TIME: u64 = 1694499816;
const PATH_AT: usize = 36;

const KEY: [u8; 16] = [
    0x2b, 0x7e, 0x15, 0x16, 0x28, 0xae, 0xd2, 0xa6, 0xab, 0xf7, 0x15, 0x88, 0x09, 0xcf, 0x4f, 0x3c,
];

fn at(net: u8, host: u8, port: u16) -> Underlay {
    Underlay {
        ip: [10, net, 0, host].into(),
        port,
    }
}

fn router() -> Router {
    let link = |id, kind| Link {
        id,
        kind,
        remote: at(id as u8, 2, 40000),
        neighbor: None,
    };
    let config = Config {
        isd: 1,
        autonomous_system: 0xff00_0000_0110,
        key: BlockCmac::new(&KEY),
        host_port: 30041,
        links: vec![
            link(1, LinkKind::Parent),
            link(2, LinkKind::Child),
            link(3, LinkKind::Core),
        ],
        siblings: vec![Sibling {
            id: 4,
            kind: LinkKind::Child,
            at: at(0, 2, 30000),
        }],
        services: vec![Service {
            number: 2,
            at: at(0, 9, 30252),
        }],
    };
    Router {
        config,
        processors: 1,
        seed: 0,
        interfaces: vec![0, 1, 2, 3],
        bands: vec![false; 4],
    }
}

/// Gives the first datagram, of one flow after the other.
struct Flows {
    datagrams: [[u8; 92]; 64],
    flow: u8,
}

impl Flows {
    fn new() -> Flows {
        let mut datagrams = [FIRST; 64];
        for (flow, datagram) in datagrams.iter_mut().enumerate() {
            datagram[3] = flow as u8;
        }
        Flows { datagrams, flow: 0 }
    }
}

impl Source for Flows {
    fn next_into(&mut self, buffer: &mut [u8]) -> Option<(usize, Underlay, u64)> {
        let datagram = &self.datagrams[usize::from(self.flow % 64)];
        self.flow = self.flow.wrapping_add(1);
        buffer[..92].copy_from_slice(datagram);
        Some((92, at(1, 2, 40000), IN_TIME))
    }
}

/// Adds up the numbers, flows, cursors and segment identifiers of what it is handed.
struct Sums {
    sum: u64,
}

impl Sink for Sums {
    fn send(&mut self, out: &Outgoing, bytes: &[u8]) -> Result<(), ()> {
        let mut sum = self.sum.wrapping_add(out.number);
        for at in [3, PATH_AT, PATH_AT + 6, PATH_AT + 7] {
            if let Some(byte) = bytes.get(at) {
                sum = sum.wrapping_add(u64::from(*byte));
            }
        }
        self.sum = sum;
        Ok(())
    }
}

struct Stages {
    receiver: Receiver<Flows>,
    processor: Processor,
    forwarder: Forwarder<Sums>,
}

fn pipes<T>(count: usize) -> Vec<Arc<Pipe<T>>> {
    (0..count).map(|_| Pipe::new(CAPACITY, None)).collect()
}

impl Stages {
    fn new() -> Stages {
        let router = Arc::new(router());
        let free = pipes(4);
        for _ in 0..CAPACITY {
            let _ = free[1].offer(2, vec![0; ROOM]);
        }
        let inner = pipes(1);
        let links = pipes(8);
        let from = Arc::clone(&inner[0]);
        let slow = Pipe::new(CAPACITY, None);
        let (low, high) = (Arc::clone(&links[4]), Arc::clone(&links[5]));
        let stop = Arc::new(AtomicU64::new(0));
        let own = Arc::clone(&free[1]);
        let sums = Sums { sum: 0 };
        Stages {
            receiver: Receiver::new(Arc::clone(&router), stop, 1, Flows::new(), own, inner),
            processor: Processor::new(Arc::clone(&router), from, 0, links, slow, free.clone()),
            forwarder: Forwarder::new(router, 2, low, high, sums, 1, free),
        }
    }

    /// Each worker passes a batch of packets on.
    fn pass_batch(&mut self) {
        for _ in 0..BATCH {
            self.receiver.turn();
        }
        for _ in 0..BATCH {
            self.processor.turn();
        }
        for _ in 0..BATCH {
            self.forwarder.turn();
        }
    }
}

fn main() {
    let mut stages = Stages::new();
    let mut figures = Vec::with_capacity(TRIES);
    for _ in 0..TRIES {
        let start = Instant::now();
        for _ in 0..BATCHES {
            stages.pass_batch();
        }
        figures.push(start.elapsed().as_nanos() * 10 / (BATCHES * BATCH) as u128);
    }
    figures.sort();
    println!("{} {}", figures[TRIES / 2], stages.forwarder.sink.sum);
}
