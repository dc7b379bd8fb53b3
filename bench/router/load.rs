//! The two neighbours: one sends to port 41001 from port 42001, the other one reads at port 42002.

use crate::cores::Cores;
use crate::datagrams::{FLOWS, PAYLOAD_AT, datagrams};
use crate::options::{cut_into, keep_all, refuse, refused, take_largest_buffer, wake_in_time};
use std::net::{Ipv4Addr, UdpSocket};
use std::sync::atomic::{AtomicBool, AtomicU64, Ordering};
use std::thread;
use std::time::{Duration, Instant};

/// How much the system cuts at once, in bytes.
const MOST_AT_ONCE: usize = 60_000;

/// What came of a steady pace.
pub struct Paced {
    /// Processor time a datagram, in nanoseconds.
    pub nanos: f64,
    /// Microseconds from sender to receiver: of the middle datagram, and of the one that 99 of 100 are before.
    pub middle: f64,
    pub late: f64,
    pub lost: f64,
}

pub struct Load {
    sender: UdpSocket,
    receiver: UdpSocket,
    size: usize,
    cores: Cores,
}

/// What came of a flood.
pub struct Flooded {
    /// Datagrams that were sent, and that came through, in so many seconds.
    sent: f64,
    came: f64,
    seconds: f64,
    /// Processor time for them, in nanoseconds.
    spent: f64,
}

impl Flooded {
    /// Datagrams a second that came through.
    pub fn rate(&self) -> f64 {
        self.came / self.seconds
    }

    /// Of a hundred that were sent, how many came through: about all of them where more could have been carried.
    pub fn share(&self) -> f64 {
        self.came * 100.0 / self.sent.max(1.0)
    }

    /// Processor time of each of them, in nanoseconds.
    pub fn nanos(&self) -> f64 {
        self.spent / self.came.max(1.0)
    }
}

/// How long a flood lasts before what comes through counts.
const WARM: Duration = Duration::from_millis(50);

/// Sends `flood` datagrams a second, flow by flow, until it is stopped, and counts them. Those that the system cuts out of
/// one send go at once, and it sleeps until the next send is due: so it leaves the cores to the programs.
fn send_all(socket: &UdpSocket, size: usize, flood: u64, count: &AtomicU64, stop: &AtomicBool) {
    wake_in_time();
    let all = datagrams(size).concat();
    let begin = Instant::now();
    let mut sent = 0;
    while !stop.load(Ordering::Relaxed) {
        for some in all.chunks(MOST_AT_ONCE / size * size) {
            let due = Duration::from_nanos(sent * 1_000_000_000 / flood);
            thread::sleep(due.saturating_sub(begin.elapsed()));
            let many = (some.len() / size) as u64;
            sent += many;
            if socket.send(some).is_ok() {
                count.fetch_add(many, Ordering::Relaxed);
            }
        }
    }
}

impl Load {
    /// The neighbours of the program at a loopback address.
    pub fn new(host: Ipv4Addr, size: usize, cores: Cores) -> Load {
        let sender = UdpSocket::bind((host, 42001)).expect("port 42001");
        sender.connect((host, 41001)).expect("an address");
        cut_into(&sender, size);
        let receiver = UdpSocket::bind((host, 42002)).expect("port 42002");
        take_largest_buffer(&receiver);
        let patience = Some(Duration::from_millis(100));
        receiver.set_read_timeout(patience).expect("a limit");
        Load {
            sender,
            receiver,
            size,
            cores,
        }
    }

    /// Sends `flood` datagrams a second for a while. `spent` is the processor time of the program that carries them. The
    /// reader's socket refuses what comes through, so that it is counted where it arrives and takes no thread.
    pub fn flood(&self, flood: u64, length: Duration, spent: impl Fn() -> u64) -> Flooded {
        refuse(&self.receiver, self.size);
        let (sent, stop) = (AtomicU64::new(0), AtomicBool::new(false));
        let flooded = thread::scope(|scope| {
            scope.spawn(|| {
                self.cores.keep_sender();
                send_all(&self.sender, self.size, flood, &sent, &stop);
            });
            thread::sleep(WARM);
            // the processor time comes last, since to read it takes the longest
            let so_far = || {
                let (moment, sent) = (Instant::now(), sent.load(Ordering::Relaxed));
                (moment, sent, refused(&self.receiver), spent())
            };
            let before = so_far();
            thread::sleep(length);
            let after = so_far();
            stop.store(true, Ordering::Relaxed);
            Flooded {
                sent: (after.1 - before.1) as f64,
                came: after.2.wrapping_sub(before.2) as f64,
                seconds: (after.0 - before.0).as_secs_f64(),
                spent: (after.3 - before.3) as f64,
            }
        });
        self.drain();
        flooded
    }

    /// Waits until nothing comes any more.
    fn drain(&self) {
        let mut before = None;
        while before != Some(refused(&self.receiver)) {
            before = Some(refused(&self.receiver));
            thread::sleep(Duration::from_millis(50));
        }
        keep_all(&self.receiver);
    }

    /// Sends `pace` datagrams a second. `spent` is the processor time of the program that carries them.
    pub fn pace(&self, pace: u64, length: Duration, spent: impl Fn() -> u64 + Sync) -> Paced {
        let warm = pace / 5;
        let total = warm + pace * length.as_secs();
        let begin = Instant::now();
        let mut before = 0;
        let mut delays = thread::scope(|scope| {
            let reading = scope.spawn(|| {
                self.cores.keep_reader();
                self.delays(begin, warm, total)
            });
            let sending = scope.spawn(|| {
                self.cores.keep_sender();
                self.send_paced(begin, pace, warm, total, &spent)
            });
            before = sending.join().expect("a time");
            reading.join().expect("delays")
        });
        let nanos = (spent() - before) as f64;
        let came = delays.len().max(1);
        delays.sort();
        delays.push(u64::MAX);
        Paced {
            nanos: nanos / came as f64,
            middle: delays[came / 2] as f64 / 1000.0,
            late: delays[came * 99 / 100] as f64 / 1000.0,
            lost: (total - warm - (delays.len() as u64 - 1)) as f64 * 1000.0
                / (total - warm) as f64,
        }
    }

    /// Sends at the pace, and answers the time that was spent before the datagrams that count.
    fn send_paced(
        &self,
        begin: Instant,
        pace: u64,
        warm: u64,
        total: u64,
        spent: &(impl Fn() -> u64 + Sync),
    ) -> u64 {
        let mut all = datagrams(self.size);
        let mut before = 0;
        for number in 0..total {
            if number == warm {
                before = spent();
            }
            let due = Duration::from_nanos(number * 1_000_000_000 / pace);
            while begin.elapsed() < due {
                std::hint::spin_loop();
            }
            let bytes = &mut all[number as usize % FLOWS];
            let moment = begin.elapsed().as_nanos() as u64;
            bytes[PAYLOAD_AT..][..8].copy_from_slice(&moment.to_be_bytes());
            bytes[PAYLOAD_AT + 8..][..8].copy_from_slice(&number.to_be_bytes());
            let _ = self.sender.send(bytes);
        }
        before
    }

    /// The delays of those datagrams that count, in nanoseconds, until nothing comes any more.
    fn delays(&self, begin: Instant, warm: u64, total: u64) -> Vec<u64> {
        let mut delays = Vec::with_capacity(total as usize);
        let mut room = [0; 2048];
        let mut quiet = 0;
        // the first one may take a while
        while quiet < 5 {
            let Ok(len) = self.receiver.recv(&mut room) else {
                quiet += 1;
                continue;
            };
            let now = begin.elapsed().as_nanos() as u64;
            let at = |at: usize| u64::from_be_bytes(room[at..at + 8].try_into().expect("eight"));
            let number = at(PAYLOAD_AT + 8);
            if len == self.size && number >= warm {
                delays.push(now - at(PAYLOAD_AT));
            }
            quiet = 0;
            if number + 1 == total {
                break;
            }
        }
        delays
    }
}
