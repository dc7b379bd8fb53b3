//! The running router in plain Rust: threads, sockets and waiting around the workers of `workers.rs`. `plain HOST LINKS
//! PROCESSORS` takes link k's datagrams at port 41000 + k of a loopback address, sends them on to port 42000 + k of it,
//! and prints `ready`; the internal network is port 41000. It runs until it is killed.

#[path = "../array_queue.rs"]
mod array_queue;
#[path = "../decision/cipher.rs"]
#[allow(dead_code)]
mod cipher;
#[path = "../decision/plain.rs"]
#[allow(dead_code)]
mod plain;
#[path = "../workers.rs"]
mod workers;

use cipher::{BlockCmac, HopMac};
use plain::{Config, Link, LinkKind, Underlay};
use std::env;
use std::net::{IpAddr, SocketAddr, UdpSocket};
use std::os::fd::AsRawFd;
use std::sync::Arc;
use std::sync::atomic::AtomicU64;
use std::thread::{self, Builder};
use std::time::{Duration, SystemTime, UNIX_EPOCH};
use workers::{
    Buffer, EgressPacket, Event, Forwarder, Outgoing, Packet, Pipe, Processor, ROOM, Receiver,
    Router, Sink, SlowPath, Source, Work,
};

const CAPACITY: usize = 1024;
const BUFFERS: usize = 2048;

const KEY: [u8; 16] = [
    0x2b, 0x7e, 0x15, 0x16, 0x28, 0xae, 0xd2, 0xa6, 0xab, 0xf7, 0x15, 0x88, 0x09, 0xcf, 0x4f, 0x3c,
];

unsafe extern "C" {
    fn setsockopt(fd: i32, level: i32, name: i32, value: *const i32, len: u32) -> i32;
}

/// A socket at a port, with the largest receive buffer that the system gives.
fn socket_at(host: IpAddr, port: u16) -> UdpSocket {
    let socket = UdpSocket::bind((host, port)).expect("a free port");
    let (level, receive_buffer) = (1, 8);
    unsafe { setsockopt(socket.as_raw_fd(), level, receive_buffer, &(1 << 30), 4) };
    socket
}

struct UdpSource {
    socket: UdpSocket,
}

impl Source for UdpSource {
    fn next_into(&mut self, buffer: &mut [u8]) -> Option<(usize, Underlay, u64)> {
        let (len, from) = self.socket.recv_from(buffer).ok()?;
        let now = SystemTime::now().duration_since(UNIX_EPOCH).ok()?.as_secs();
        let source = Underlay {
            ip: from.ip(),
            port: from.port(),
        };
        Some((len, source, now))
    }
}

struct UdpSink {
    socket: UdpSocket,
    remote: Option<SocketAddr>,
}

impl Sink for UdpSink {
    fn send(&mut self, out: &Outgoing, bytes: &[u8]) -> Result<(), ()> {
        let to = out.to.map(|to| SocketAddr::new(to.ip, to.port));
        match self.socket.send_to(bytes, to.or(self.remote).ok_or(())?) {
            Ok(count) if count == bytes.len() => Ok(()),
            _ => Err(()),
        }
    }
}

fn router(host: IpAddr, links: u16, processors: u32) -> Router {
    let link = |id| Link {
        id,
        kind: LinkKind::Core,
        remote: Underlay {
            ip: host,
            port: 42000 + id,
        },
        neighbor: None,
    };
    let config = Config {
        isd: 1,
        autonomous_system: 0xff00_0000_0110,
        key: BlockCmac::new(&KEY),
        host_port: 30041,
        links: (1..=links).map(link).collect(),
        siblings: vec![],
        services: vec![],
    };
    Router {
        config,
        processors,
        seed: 0,
        interfaces: (0..=links).collect(),
        bands: vec![false; usize::from(links) + 1],
    }
}

/// How often an idle worker spins, once, twice, four times and so on, before it sleeps.
const STEPS: u32 = 4;

/// Whether there is something to do while it spins.
fn spins(worker: &mut impl Work) -> bool {
    (0..STEPS).any(|step| {
        for _ in 0..1 << step {
            std::hint::spin_loop();
        }
        worker.turn()
    })
}

/// Makes turns for ever. Where there is nothing to do, it sleeps on the event of its pipes; after several items in
/// a row it naps once before, so that more gather.
fn work(mut worker: impl Work, event: Arc<Event>) {
    let mut several = 0;
    loop {
        if worker.turn() {
            several += 1;
        } else if several >= 2 {
            several = 0;
            thread::sleep(Duration::from_micros(1));
        } else {
            several = 0;
            if spins(&mut worker) {
                several = 1;
            } else {
                event.sleep_unless(|| worker.turn());
            }
        }
    }
}

/// The pipes of a number of consumers, each with its event.
fn pipes<T>(count: usize) -> Vec<(Arc<Pipe<T>>, Arc<Event>)> {
    (0..count)
        .map(|_| {
            let event = Arc::new(Event::default());
            (Pipe::new(CAPACITY, Some(Arc::clone(&event))), event)
        })
        .collect()
}

fn spawn(run: impl FnOnce() + Send + 'static) {
    Builder::new()
        .stack_size(512 * 1024)
        .spawn(run)
        .expect("a thread");
}

fn main() {
    let word = |at| env::args().nth(at).unwrap_or_default();
    let (Ok(host), Ok(links), Ok(processors)) = (
        word(1).parse::<IpAddr>(),
        word(2).parse::<u16>(),
        word(3).parse::<u16>(),
    ) else {
        panic!("plain HOST LINKS PROCESSORS");
    };
    let router = Arc::new(router(host, links, u32::from(processors)));
    let (links, processors) = (usize::from(links) + 1, usize::from(processors));
    let stop = Arc::new(AtomicU64::new(0));
    let inner = pipes::<Packet>(processors);
    let (slow, slow_event) = pipes::<Packet>(1).remove(0);
    let outer = pipes::<EgressPacket>(links);
    let both: Vec<_> = outer
        .iter()
        .flat_map(|(low, _)| [Arc::clone(low), Pipe::new(2, None)])
        .collect();
    let free: Vec<Arc<Pipe<Buffer>>> = (0..links).map(|_| Pipe::new(BUFFERS, None)).collect();
    for pipe in &free {
        for _ in 1..BUFFERS {
            let _ = pipe.offer(0, vec![0; ROOM]);
        }
    }
    let to_processors: Vec<_> = inner.iter().map(|(pipe, _)| Arc::clone(pipe)).collect();
    for link in 0..links {
        let socket = socket_at(host, 41000 + link as u16);
        let sink = UdpSink {
            socket: socket.try_clone().expect("a socket"),
            remote: (link > 0).then(|| SocketAddr::new(host, 42000 + link as u16)),
        };
        let mut receiver = Receiver::new(
            Arc::clone(&router),
            Arc::clone(&stop),
            link,
            UdpSource { socket },
            Arc::clone(&free[link]),
            to_processors.clone(),
        );
        spawn(move || {
            loop {
                receiver.turn();
            }
        });
        let event = Arc::clone(&outer[link].1);
        let forwarder = Forwarder::new(
            Arc::clone(&router),
            link,
            Arc::clone(&both[2 * link]),
            Arc::clone(&both[2 * link + 1]),
            sink,
            processors + 1 + link,
            free.clone(),
        );
        spawn(move || work(forwarder, event));
    }
    for (index, (pipe, event)) in inner.into_iter().enumerate() {
        let processor = Processor::new(
            Arc::clone(&router),
            pipe,
            index,
            both.clone(),
            Arc::clone(&slow),
            free.clone(),
        );
        spawn(move || work(processor, event));
    }
    let slow_path = SlowPath {
        from: slow,
        number: processors,
        free,
    };
    spawn(move || work(slow_path, slow_event));
    println!("ready");
    loop {
        thread::park();
    }
}
