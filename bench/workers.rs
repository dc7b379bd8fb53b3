//! The router's workers as a Rust programmer who proves nothing would write them: receivers, processors and forwarders
//! over bounded queues, each driven by `turn`. The benches put their own devices and threads around them.

use crate::array_queue::ArrayQueue;
use crate::cipher::BlockCmac;
use crate::plain::{
    Cause, Config, Decision, ONE_HOP_PATH, SCION_PATH, Underlay, decide, header_ends,
};
use std::sync::atomic::{AtomicBool, AtomicU64, Ordering, fence};
use std::sync::{Arc, OnceLock};
use std::thread::{self, Thread};

/// A buffer is one byte longer than the longest datagram, so that a longer one is seen.
pub const ROOM: usize = 9217;
/// What all workers share.
pub struct Router {
    pub config: Config<BlockCmac>,
    pub processors: u32,
    pub seed: u32,
    /// The links' interfaces, ascending, 0 first.
    pub interfaces: Vec<u16>,
    /// Whether each link has two bands.
    pub bands: Vec<bool>,
}

impl Router {
    fn place_of(&self, interface: u16) -> usize {
        self.interfaces
            .iter()
            .position(|own| *own == interface)
            .unwrap()
    }

    /// The processor of a datagram's flow, or why it is dropped.
    fn processor_of(&self, interface: u16, bytes: &[u8]) -> Result<usize, Cause> {
        let path_type = if self.config.is_one_hop(interface, bytes) {
            ONE_HOP_PATH
        } else {
            SCION_PATH
        };
        let (path_at, _) = header_ends(path_type, bytes)?;
        let mut hash = 2166136261 ^ self.seed;
        let mut add = |byte: u8| hash = (hash ^ u32::from(byte)).wrapping_mul(16777619);
        add(bytes[1] & 15);
        add(bytes[2]);
        add(bytes[3]);
        add(bytes[9]);
        for byte in &bytes[12..path_at] {
            add(*byte);
        }
        Ok((hash % self.processors) as usize)
    }
}

pub type Buffer = Vec<u8>;

pub struct Packet {
    link: usize,
    interface: u16,
    number: u64,
    source: Underlay,
    moment: u64,
    len: usize,
    bytes: Buffer,
}

pub struct EgressPacket {
    arrived: usize,
    came_by: u16,
    number: u64,
    answer: bool,
    to: Option<Underlay>,
    len: usize,
    bytes: Buffer,
}

/// What is sent, for the sink.
#[allow(dead_code)]
pub struct Outgoing {
    pub arrived: u16,
    pub number: u64,
    pub answer: bool,
    pub to: Option<Underlay>,
}

/// On which an idle worker sleeps until something was pushed to it.
#[derive(Default)]
pub struct Event {
    sleeps: AtomicBool,
    sleeper: OnceLock<Thread>,
}

#[allow(dead_code)]
impl Event {
    /// Sleeps, unless there is something to do after the sleep was announced.
    pub fn sleep_unless(&self, mut does: impl FnMut() -> bool) {
        self.sleeper.get_or_init(thread::current);
        self.sleeps.store(true, Ordering::SeqCst);
        fence(Ordering::SeqCst);
        if !does() {
            thread::park();
        }
        self.sleeps.store(false, Ordering::SeqCst);
    }

    fn notify(&self) {
        fence(Ordering::SeqCst);
        if self.sleeps.load(Ordering::SeqCst) && self.sleeps.swap(false, Ordering::SeqCst) {
            if let Some(sleeper) = self.sleeper.get() {
                sleeper.unpark();
            }
        }
    }
}

/// An item of a pipe, with its producer's number.
struct Entry<T> {
    from: usize,
    load: Load<T>,
}

/// A payload, or the producer's end.
enum Load<T> {
    Payload(T),
    #[allow(dead_code)]
    End,
}

/// A bounded queue, and the event of the worker that takes from it, where it sleeps on one.
pub struct Pipe<T> {
    queue: ArrayQueue<Entry<T>>,
    event: Option<Arc<Event>>,
}

impl<T> Pipe<T> {
    pub fn new(capacity: usize, event: Option<Arc<Event>>) -> Arc<Pipe<T>> {
        let queue = ArrayQueue::new(capacity);
        Arc::new(Pipe { queue, event })
    }

    pub fn offer(&self, from: usize, item: T) -> Result<(), T> {
        let load = Load::Payload(item);
        match self.queue.push(Entry { from, load }) {
            Ok(()) => {
                if let Some(event) = &self.event {
                    event.notify();
                }
                Ok(())
            }
            Err(Entry {
                load: Load::Payload(item),
                ..
            }) => Err(item),
            Err(_) => unreachable!(),
        }
    }

    fn take(&self, ends: &mut u64) -> Option<T> {
        match self.queue.pop()? {
            Entry {
                load: Load::Payload(item),
                ..
            } => Some(item),
            Entry { from, .. } => {
                *ends |= 1 << from;
                None
            }
        }
    }
}

#[derive(Default)]
#[allow(dead_code)]
struct Counts {
    received: u64,
    sent: u64,
    answered: u64,
    dropped: [u64; CAUSES],
}

impl Counts {
    fn drop_for(&mut self, cause: usize) {
        self.dropped[cause - 1] += 1;
    }
}

/// How many causes of drops the router has.
const CAUSES: usize = 21;

const PROCESSOR_FULL: usize = 12;
const LINK_FULL: usize = 13;
const ANSWER_FULL: usize = 14;
const NO_BUFFER: usize = 18;

/// Where datagrams come from.
pub trait Source {
    /// Reads a datagram: its length, its underlay source and the second in which it came.
    fn next_into(&mut self, buffer: &mut [u8]) -> Option<(usize, Underlay, u64)>;
}

/// Where they go.
pub trait Sink {
    fn send(&mut self, out: &Outgoing, bytes: &[u8]) -> Result<(), ()>;
}

/// Drives one worker.
#[allow(dead_code)]
pub trait Work {
    /// False where there was nothing to do.
    fn turn(&mut self) -> bool;
}

pub struct Receiver<S> {
    router: Arc<Router>,
    stop: Arc<AtomicU64>,
    link: usize,
    number: u64,
    source: S,
    room: Buffer,
    spare: Option<Buffer>,
    free: Arc<Pipe<Buffer>>,
    processors: Vec<Arc<Pipe<Packet>>>,
    counts: Counts,
    ended: bool,
}

impl<S: Source> Receiver<S> {
    pub fn new(
        router: Arc<Router>,
        stop: Arc<AtomicU64>,
        link: usize,
        source: S,
        free: Arc<Pipe<Buffer>>,
        processors: Vec<Arc<Pipe<Packet>>>,
    ) -> Receiver<S> {
        Receiver {
            router,
            stop,
            link,
            number: 0,
            source,
            room: vec![0; ROOM],
            spare: None,
            free,
            processors,
            counts: Counts::default(),
            ended: false,
        }
    }
}

impl<S: Source> Work for Receiver<S> {
    #[inline(never)]
    fn turn(&mut self) -> bool {
        if self.ended {
            return false;
        }
        let stopping = self.stop.load(Ordering::SeqCst) == 1;
        let Some((len, source, moment)) = self.source.next_into(&mut self.room) else {
            self.ended = stopping;
            return false;
        };
        self.number += 1;
        self.counts.received += 1;
        let interface = self.router.interfaces[self.link];
        let at = match self.router.processor_of(interface, &self.room[..len]) {
            Ok(at) => at,
            Err(cause) => {
                self.counts.drop_for(cause as usize);
                return true;
            }
        };
        let other = match self.spare.take() {
            Some(buffer) => buffer,
            None => match self.free.take(&mut 0) {
                Some(buffer) => buffer,
                None => {
                    self.counts.drop_for(NO_BUFFER);
                    return true;
                }
            },
        };
        let bytes = std::mem::replace(&mut self.room, other);
        let packet = Packet {
            link: self.link,
            interface,
            number: self.number,
            source,
            moment,
            len,
            bytes,
        };
        if let Err(packet) = self.processors[at].offer(self.link, packet) {
            self.spare = Some(packet.bytes);
            self.counts.drop_for(PROCESSOR_FULL);
        }
        true
    }
}

pub struct Processor {
    router: Arc<Router>,
    from: Arc<Pipe<Packet>>,
    ends: u64,
    /// The number among the producers.
    index: usize,
    /// Two of each link: that of its low band, and of its high one.
    links: Vec<Arc<Pipe<EgressPacket>>>,
    slow: Arc<Pipe<Packet>>,
    free: Vec<Arc<Pipe<Buffer>>>,
    counts: Counts,
}

impl Processor {
    pub fn new(
        router: Arc<Router>,
        from: Arc<Pipe<Packet>>,
        index: usize,
        links: Vec<Arc<Pipe<EgressPacket>>>,
        slow: Arc<Pipe<Packet>>,
        free: Vec<Arc<Pipe<Buffer>>>,
    ) -> Processor {
        Processor {
            router,
            from,
            ends: 0,
            index,
            links,
            slow,
            free,
            counts: Counts::default(),
        }
    }
}

impl Work for Processor {
    #[inline(never)]
    fn turn(&mut self) -> bool {
        let Some(mut packet) = self.from.take(&mut self.ends) else {
            return false;
        };
        let decision = decide(
            &self.router.config,
            packet.interface,
            packet.source,
            packet.moment,
            &mut packet.bytes[..packet.len],
        );
        match decision {
            Decision::Send { link, to } => self.send(link, to, packet),
            Decision::Answer { .. } => {
                if let Err(packet) = self.slow.offer(self.index, packet) {
                    self.drop_for(ANSWER_FULL, packet.link, packet.bytes);
                }
            }
            Decision::Drop(cause) => self.drop_for(cause as usize, packet.link, packet.bytes),
        }
        true
    }
}

impl Processor {
    fn drop_for(&mut self, cause: usize, link: usize, buffer: Buffer) {
        let _ = self.free[link].offer(self.index, buffer);
        self.counts.drop_for(cause);
    }

    fn send(&mut self, link: u16, to: Option<Underlay>, packet: Packet) {
        let place = self.router.place_of(link);
        // a traffic class of expedited forwarding
        let urgent =
            self.router.bands[place] && (packet.bytes[0] << 4 | packet.bytes[1] >> 4) >> 2 == 46;
        let leaving = EgressPacket {
            arrived: packet.link,
            came_by: packet.interface,
            number: packet.number,
            answer: false,
            to,
            len: packet.len,
            bytes: packet.bytes,
        };
        let pipe = &self.links[2 * place + usize::from(urgent)];
        if let Err(leaving) = pipe.offer(self.index, leaving) {
            self.drop_for(LINK_FULL, leaving.arrived, leaving.bytes);
        }
    }
}

/// It answers nothing: it gives the buffers of what would be answered back.
#[allow(dead_code)]
pub struct SlowPath {
    pub from: Arc<Pipe<Packet>>,
    pub number: usize,
    pub free: Vec<Arc<Pipe<Buffer>>>,
}

impl Work for SlowPath {
    fn turn(&mut self) -> bool {
        let Some(packet) = self.from.take(&mut 0) else {
            return false;
        };
        let _ = self.free[packet.link].offer(self.number, packet.bytes);
        true
    }
}

pub struct Forwarder<K> {
    router: Arc<Router>,
    link: usize,
    low: Arc<Pipe<EgressPacket>>,
    high: Arc<Pipe<EgressPacket>>,
    ends: u64,
    pub sink: K,
    /// The number among the producers of free buffers.
    number: usize,
    free: Vec<Arc<Pipe<Buffer>>>,
    counts: Counts,
}

impl<K: Sink> Work for Forwarder<K> {
    #[inline(never)]
    fn turn(&mut self) -> bool {
        if self.router.bands[self.link] {
            if let Some(packet) = self.high.take(&mut self.ends) {
                self.send(packet);
                return true;
            }
        }
        match self.low.take(&mut self.ends) {
            Some(packet) => {
                self.send(packet);
                true
            }
            None => false,
        }
    }
}

impl<K: Sink> Forwarder<K> {
    pub fn new(
        router: Arc<Router>,
        link: usize,
        low: Arc<Pipe<EgressPacket>>,
        high: Arc<Pipe<EgressPacket>>,
        sink: K,
        number: usize,
        free: Vec<Arc<Pipe<Buffer>>>,
    ) -> Forwarder<K> {
        Forwarder {
            router,
            link,
            low,
            high,
            ends: 0,
            sink,
            number,
            free,
            counts: Counts::default(),
        }
    }

    fn send(&mut self, packet: EgressPacket) {
        let out = Outgoing {
            arrived: packet.came_by,
            number: packet.number,
            answer: packet.answer,
            to: packet.to,
        };
        match self.sink.send(&out, &packet.bytes[..packet.len]) {
            Ok(()) if packet.answer => self.counts.answered += 1,
            Ok(()) => self.counts.sent += 1,
            Err(()) => self.counts.drop_for(17),
        }
        let _ = self.free[packet.arrived].offer(self.number, packet.bytes);
    }
}
