//! What std doesn't give of a socket and of a thread, by Linux's options.

use std::ffi::c_void;
use std::net::UdpSocket;
use std::os::fd::AsRawFd;

/// An instruction of a socket's filter.
#[repr(C)]
struct Instruction {
    code: u16,
    skip_if_true: u8,
    skip_if_false: u8,
    value: u32,
}

#[repr(C)]
struct Filter {
    count: u16,
    instructions: *const Instruction,
}

unsafe extern "C" {
    fn setsockopt(fd: i32, level: i32, name: i32, value: *const c_void, len: u32) -> i32;
    fn getsockopt(fd: i32, level: i32, name: i32, value: *mut c_void, len: *mut u32) -> i32;
    fn prctl(option: i32, ...) -> i32;
}

const SOCKET: i32 = 1;
const RECEIVE_BUFFER: i32 = 8;
const ATTACH_FILTER: i32 = 26;
const DETACH_FILTER: i32 = 27;
const MEMORY_INFO: i32 = 55;

/// Where the memory info has the count of datagrams that the socket refused.
const DROPS: usize = 8;

const UDP: i32 = 17;
const SEGMENT: i32 = 103;

const SET_TIMER_SLACK: i32 = 29;

/// Whether the system took the option.
fn sets<T>(socket: &UdpSocket, level: i32, name: i32, value: &T) -> bool {
    let (value, len): (*const T, _) = (value, size_of::<T>() as u32);
    unsafe { setsockopt(socket.as_raw_fd(), level, name, value.cast(), len) == 0 }
}

/// Asks for a larger receive buffer than the system allows, which so gives its largest.
pub fn take_largest_buffer(socket: &UdpSocket) {
    sets(socket, SOCKET, RECEIVE_BUFFER, &(1 << 30));
}

/// From now on the system cuts what is sent at once into datagrams of this size: so a send costs little for each of them.
pub fn cut_into(socket: &UdpSocket, size: usize) {
    let is_cut = sets(socket, UDP, SEGMENT, &(size as i32));
    assert!(
        is_cut,
        "the system cuts no datagrams: it has to be Linux 4.18 or later"
    );
}

/// From now on the socket refuses datagrams of this size as they come, so that they are counted and nobody reads them.
pub fn refuse(socket: &UdpSocket, size: usize) {
    const LOAD_LENGTH: u16 = 0x80;
    const SKIP_IF_EQUAL: u16 = 0x15;
    const KEEP: u16 = 0x06;
    let one = |code, skip_if_false, value| Instruction {
        code,
        skip_if_true: 0,
        skip_if_false,
        value,
    };
    let instructions = [
        one(LOAD_LENGTH, 0, 0),
        // a filter sees the header of UDP too
        one(SKIP_IF_EQUAL, 1, size as u32 + 8),
        one(KEEP, 0, 0),
        one(KEEP, 0, u32::MAX),
    ];
    let filter = Filter {
        count: instructions.len() as u16,
        instructions: instructions.as_ptr(),
    };
    assert!(sets(socket, SOCKET, ATTACH_FILTER, &filter), "no filter");
}

/// The socket refuses none any more.
pub fn keep_all(socket: &UdpSocket) {
    assert!(sets(socket, SOCKET, DETACH_FILTER, &0), "no filter");
}

/// How many datagrams the socket refused so far.
pub fn refused(socket: &UdpSocket) -> u32 {
    let mut info = [0u32; DROPS + 1];
    let mut len = size_of_val(&info) as u32;
    let place = info.as_mut_ptr().cast();
    let answer = unsafe { getsockopt(socket.as_raw_fd(), SOCKET, MEMORY_INFO, place, &mut len) };
    assert!(
        answer == 0 && len as usize == size_of_val(&info),
        "the system doesn't tell what a socket refused: it has to be Linux 4.12 or later"
    );
    info[DROPS]
}

/// The calling thread wakes from a sleep when it is due, where the system would let it sleep on for 50 us.
pub fn wake_in_time() {
    let nanos: usize = 1;
    unsafe { prctl(SET_TIMER_SLACK, nanos) };
}
