//! A bounded queue for many producers and many consumers, written with std's atomics as crossbeam's `ArrayQueue` is. It
//! holds any number of entries, as the pipe does, whose capacity an operator chooses.

use std::cell::UnsafeCell;
use std::mem::MaybeUninit;
use std::sync::atomic::{AtomicUsize, Ordering};

/// Alone on its cache lines.
#[repr(align(128))]
struct Apart<T>(T);

/// A bounded queue for many producers and many consumers: each slot has a stamp, which says whose turn
/// it is.
pub struct ArrayQueue<T> {
    slots: Box<[(AtomicUsize, UnsafeCell<MaybeUninit<T>>)]>,
    /// A power of two above the number of slots. A position is a slot and above it the number of laps, so that neither
    /// takes a division, which costs as much as the rest of a push.
    one_lap: usize,
    head: Apart<AtomicUsize>,
    tail: Apart<AtomicUsize>,
}

unsafe impl<T: Send> Sync for ArrayQueue<T> {}

impl<T> ArrayQueue<T> {
    pub fn new(capacity: usize) -> Self {
        assert!(capacity > 0);
        let slots = (0..capacity).map(|i| (AtomicUsize::new(i), UnsafeCell::new(MaybeUninit::uninit())));
        let one_lap = (capacity + 1).next_power_of_two();
        ArrayQueue { slots: slots.collect(), one_lap, head: Apart(AtomicUsize::new(0)), tail: Apart(AtomicUsize::new(0)) }
    }

    /// The slot of a position, and the position after it.
    fn step(&self, position: usize) -> (usize, usize) {
        let index = position & (self.one_lap - 1);
        if index + 1 < self.slots.len() {
            (index, position + 1)
        } else {
            (index, (position - index).wrapping_add(self.one_lap))
        }
    }

    pub fn push(&self, item: T) -> Result<(), T> {
        let mut tail = self.tail.0.load(Ordering::Relaxed);
        loop {
            let (index, next) = self.step(tail);
            let slot = unsafe { self.slots.get_unchecked(index) };
            let stamp = slot.0.load(Ordering::Acquire);
            if stamp == tail {
                match self.tail.0.compare_exchange_weak(tail, next, Ordering::SeqCst, Ordering::Relaxed) {
                    Ok(_) => {
                        unsafe { (*slot.1.get()).write(item) };
                        slot.0.store(tail + 1, Ordering::Release);
                        return Ok(());
                    }
                    Err(now) => tail = now,
                }
            } else if stamp.wrapping_add(self.one_lap) == tail + 1 {
                let head = self.head.0.load(Ordering::SeqCst);
                if head.wrapping_add(self.one_lap) == tail {
                    return Err(item);
                }
                std::hint::spin_loop();
                tail = self.tail.0.load(Ordering::Relaxed);
            } else {
                tail = self.tail.0.load(Ordering::Relaxed);
            }
        }
    }

    pub fn pop(&self) -> Option<T> {
        let mut head = self.head.0.load(Ordering::Relaxed);
        loop {
            let (index, next) = self.step(head);
            let slot = unsafe { self.slots.get_unchecked(index) };
            let stamp = slot.0.load(Ordering::Acquire);
            if stamp == head + 1 {
                match self.head.0.compare_exchange_weak(head, next, Ordering::SeqCst, Ordering::Relaxed) {
                    Ok(_) => {
                        let item = unsafe { (*slot.1.get()).assume_init_read() };
                        slot.0.store(head.wrapping_add(self.one_lap), Ordering::Release);
                        return Some(item);
                    }
                    Err(now) => head = now,
                }
            } else {
                if self.tail.0.load(Ordering::SeqCst) == head {
                    return None;
                }
                std::hint::spin_loop();
                head = self.head.0.load(Ordering::Relaxed);
            }
        }
    }
}
