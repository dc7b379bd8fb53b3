//! Plain Rust beside the ruled pipe: `plain mpsc|queue word|buffer PRODUCERS` prints the tenths of a
//! nanosecond that one item took in the middle one of its rounds. Rounds, counts, sizes and the way of
//! waiting are those of `crates/pipeline_tests` (`timing.rt`).
mod array_queue;

use array_queue::ArrayQueue;
use std::sync::atomic::{AtomicUsize, Ordering};
use std::sync::{mpsc, Arc};
use std::thread;
use std::time::Instant;

const CAPACITY: usize = 1024;
const ITEMS: usize = 8192;
const ROUNDS: usize = 61;
const BUFFER: usize = 9217;

/// Waits between looks as crossbeam's `Backoff::snooze` does, which the pipe's side uses.
struct Backoff(u32);

impl Backoff {
    fn snooze(&mut self) {
        if self.0 <= 6 {
            for _ in 0..1u32 << self.0 {
                std::hint::spin_loop();
            }
        } else {
            thread::yield_now();
        }
        if self.0 <= 10 {
            self.0 += 1;
        }
    }
}

/// Waits until so many threads have come, so that they run side by side from the first item on.
fn meet(come: &AtomicUsize, count: usize) {
    come.fetch_add(1, Ordering::SeqCst);
    while come.load(Ordering::SeqCst) < count {
        std::hint::spin_loop();
    }
}

/// Takes the items out, into one list for each producer. What comes back goes into the list that they came in,
/// whose memory the system has given already.
fn sources<T>(items: &mut Vec<T>, producers: usize) -> Vec<Vec<T>> {
    let each = items.len() / producers;
    let take = |_| {
        let mut source = Vec::with_capacity(each + 1);
        source.extend((0..each).filter_map(|_| items.pop()));
        source
    };
    (0..producers).map(take).collect()
}

fn round_queue<T: Send + 'static>(mut kept: Vec<T>, producers: usize) -> (Vec<T>, u128) {
    let queue = Arc::new(ArrayQueue::new(CAPACITY));
    let sources = sources(&mut kept, producers);
    let sent: usize = sources.iter().map(Vec::len).sum();
    let come = Arc::new(AtomicUsize::new(0));
    let mut children = Vec::with_capacity(producers);
    for source in sources {
        let (queue, come) = (Arc::clone(&queue), Arc::clone(&come));
        children.push(thread::spawn(move || {
            meet(&come, producers + 1);
            for mut item in source {
                let mut backoff = Backoff(0);
                while let Err(back) = queue.push(item) {
                    item = back;
                    backoff.snooze();
                }
            }
        }));
    }
    meet(&come, producers + 1);
    let start = Instant::now();
    while kept.len() < sent {
        let mut backoff = Backoff(0);
        let item = loop {
            match queue.pop() {
                Some(item) => break item,
                None => backoff.snooze(),
            }
        };
        kept.push(item);
    }
    let spent = start.elapsed().as_nanos();
    for child in children {
        child.join().unwrap();
    }
    (kept, spent)
}

fn round_mpsc<T: Send + 'static>(mut kept: Vec<T>, producers: usize) -> (Vec<T>, u128) {
    let (to, from) = mpsc::sync_channel(CAPACITY);
    let sources = sources(&mut kept, producers);
    let sent: usize = sources.iter().map(Vec::len).sum();
    let come = Arc::new(AtomicUsize::new(0));
    let mut children = Vec::with_capacity(producers);
    for source in sources {
        let (to, come) = (to.clone(), Arc::clone(&come));
        children.push(thread::spawn(move || {
            meet(&come, producers + 1);
            for item in source {
                to.send(item).unwrap();
            }
        }));
    }
    meet(&come, producers + 1);
    let start = Instant::now();
    while kept.len() < sent {
        kept.push(from.recv().unwrap());
    }
    let spent = start.elapsed().as_nanos();
    for child in children {
        child.join().unwrap();
    }
    (kept, spent)
}

fn tenths<T: Send + 'static>(round: fn(Vec<T>, usize) -> (Vec<T>, u128), mut items: Vec<T>, producers: usize) -> u128 {
    let mut figures = Vec::with_capacity(ROUNDS);
    for _ in 0..ROUNDS {
        let (kept, nanos) = round(items, producers);
        figures.push(nanos * 10 / (kept.len() as u128).max(1));
        items = kept;
    }
    figures.sort();
    figures[ROUNDS / 2]
}

fn main() {
    let words: Vec<String> = std::env::args().skip(1).collect();
    let producers = if words[2] == "2" { 2 } else { 1 };
    let numbers = || (0..ITEMS as u64).collect::<Vec<_>>();
    let buffers = || (0..ITEMS).map(|_| vec![0u8; BUFFER]).collect::<Vec<_>>();
    let spent = match (words[0].as_str(), words[1].as_str()) {
        ("mpsc", "word") => tenths(round_mpsc, numbers(), producers),
        ("mpsc", _) => tenths(round_mpsc, buffers(), producers),
        (_, "word") => tenths(round_queue, numbers(), producers),
        (_, _) => tenths(round_queue, buffers(), producers),
    };
    println!("{spent}");
}
