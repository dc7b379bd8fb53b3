//! Datagrams that cross the router from link 1 to link 2.

use crate::cipher::{BlockCmac, HopMac};
use std::time::{SystemTime, UNIX_EPOCH};

const KEY: [u8; 16] = [
    0x2b, 0x7e, 0x15, 0x16, 0x28, 0xae, 0xd2, 0xa6, 0xab, 0xf7, 0x15, 0x88, 0x09, 0xcf, 0x4f, 0x3c,
];

/// The header of one datagram: one segment of three hops, at the second one, with the path from byte 36 on.
const HEADER: [u8; 84] = *b"\x00\x00\x00\x00\x11\x15\x00\x00\x01\x00\x00\x00\
    \x00\x01\xff\x00\x00\x00\x01\x12\x00\x01\xff\x00\x00\x00\x01\x11\x0a\x02\x00\x07\x0a\x01\x00\x05\
    \x01\x00\x30\x00\x01\x00\x12\x34\x00\x00\x00\x00\
    \x00\x3f\x00\x00\x00\x11\xa0\xa1\xa2\xa3\xa4\xa5\
    \x00\x3f\x00\x01\x00\x02\x00\x00\x00\x00\x00\x00\
    \x00\x3f\x00\x12\x00\x00\xb0\xb1\xb2\xb3\xb4\xb5";

/// Where the payload begins: the moment of sending and a number, eight bytes each, come first.
pub const PAYLOAD_AT: usize = HEADER.len();

pub const FLOWS: usize = 64;

/// The second hop field's MAC, for a timestamp.
fn mac(timestamp: [u8; 4]) -> [u8; 6] {
    let mut block = [0; 16];
    block[2..4].copy_from_slice(&[0x12, 0x34]);
    block[4..8].copy_from_slice(&timestamp);
    block[9..14].copy_from_slice(&[0x3f, 0, 1, 0, 2]);
    BlockCmac::new(&KEY).mac(&block)
}

/// Datagrams of a size, one of each flow, which are good for hours from now on.
pub fn datagrams(size: usize) -> Vec<Vec<u8>> {
    let now = SystemTime::now()
        .duration_since(UNIX_EPOCH)
        .expect("a time");
    let timestamp = (now.as_secs() as u32 - 60).to_be_bytes();
    let of_flow = |flow: usize| {
        let mut bytes = HEADER.to_vec();
        bytes.resize(size, 0);
        bytes[3] = flow as u8;
        bytes[6..8].copy_from_slice(&((size - HEADER.len()) as u16).to_be_bytes());
        bytes[44..48].copy_from_slice(&timestamp);
        bytes[66..72].copy_from_slice(&mac(timestamp));
        bytes
    };
    (0..FLOWS).map(of_flow).collect()
}
