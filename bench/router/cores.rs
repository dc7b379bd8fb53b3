//! Which cores the sender, the reader and the program between them run on.

use std::io;
use std::os::unix::process::CommandExt;
use std::process::Command;

unsafe extern "C" {
    fn sched_getaffinity(pid: i32, size: usize, mask: *mut u64) -> i32;
    fn sched_setaffinity(pid: i32, size: usize, mask: *const u64) -> i32;
}

/// A set of cores: bit k stands for core k.
type Mask = [u64; 16];

/// From this number of cores on sender and reader have one each, on which nothing else of the bench runs: the router needs one
/// for each of its busy threads, which are three with one processor.
const ENOUGH: usize = 6;

/// The cores of each.
#[derive(Clone, Copy)]
pub struct Cores {
    sender: Mask,
    reader: Mask,
    program: Mask,
    apart: bool,
}

fn keep(mask: &Mask) -> io::Result<()> {
    match unsafe { sched_setaffinity(0, size_of::<Mask>(), mask.as_ptr()) } {
        0 => Ok(()),
        _ => Err(io::Error::last_os_error()),
    }
}

impl Cores {
    /// Those that this process may use: the last one is the sender's and the one before it the reader's, where there are
    /// enough.
    pub fn new() -> Cores {
        let mut own: Mask = [0; 16];
        unsafe { sched_getaffinity(0, size_of::<Mask>(), own.as_mut_ptr()) };
        let numbers: Vec<usize> = (0..64 * own.len())
            .filter(|at| own[at / 64] >> (at % 64) & 1 == 1)
            .collect();
        let apart = numbers.len() >= ENOUGH;
        let of = |some: &[usize]| {
            let mut mask: Mask = [0; 16];
            some.iter().for_each(|at| mask[at / 64] |= 1 << (at % 64));
            mask
        };
        let (program, own) = numbers.split_at(numbers.len() - if apart { 2 } else { 0 });
        match own {
            [reader, sender] => Cores {
                sender: of(&[*sender]),
                reader: of(&[*reader]),
                program: of(program),
                apart,
            },
            _ => Cores {
                sender: of(&numbers),
                reader: of(&numbers),
                program: of(&numbers),
                apart,
            },
        }
    }

    /// Whether sender and reader have cores of their own.
    pub fn are_apart(&self) -> bool {
        self.apart
    }

    /// The calling thread runs where the sender does.
    pub fn keep_sender(&self) {
        keep(&self.sender).expect("the sender's core");
    }

    /// The calling thread runs where the reader does.
    pub fn keep_reader(&self) {
        keep(&self.reader).expect("the reader's core");
    }

    /// What the command starts runs where the program does.
    pub fn keep_program(&self, command: &mut Command) {
        let mask = self.program;
        unsafe { command.pre_exec(move || keep(&mask)) };
    }
}
