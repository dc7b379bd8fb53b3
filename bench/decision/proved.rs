//! The proved decision: the static library of crates/decision_bench.

/// Where a datagram lies among the bytes, how it arrived, and its five bytes that a decision may
/// change, with their places in the datagram.
#[repr(C)]
pub struct Arrived {
    pub begin: usize,
    pub end: usize,
    pub moment: u64,
    pub address: u32,
    pub port: u16,
    pub link: u16,
    pub places: [u16; 5],
    pub values: [u8; 5],
}

/// A decision in numbers.
#[repr(C)]
#[derive(Debug, Default, PartialEq, Eq)]
pub struct Told {
    /// 1 and 2 are sent, 2 with an address; 3 is answered; 4 is dropped.
    pub kind: u64,
    /// The leaving link; of an answer its type and code; of a drop its cause's number.
    pub what: u64,
    /// The port; of an answer the pointer.
    pub place: u64,
    /// The address.
    pub high: u64,
    pub low: u64,
}

#[link(name = "decision_bench", kind = "static")]
unsafe extern "C" {
    fn decision_bench_rounds(
        rounds: u64,
        arrivals: *const Arrived,
        count: usize,
        bytes: *mut u8,
        len: usize,
    ) -> u64;

    fn decision_bench_once(arrived: *const Arrived, bytes: *mut u8, len: usize) -> Told;
}

pub fn rounds(rounds: u64, arrivals: &[Arrived], bytes: &mut [u8]) -> u64 {
    let (start, len) = (bytes.as_mut_ptr(), bytes.len());
    unsafe { decision_bench_rounds(rounds, arrivals.as_ptr(), arrivals.len(), start, len) }
}

pub fn once(arrived: &Arrived, bytes: &mut [u8]) -> Told {
    unsafe { decision_bench_once(arrived, bytes.as_mut_ptr(), bytes.len()) }
}
