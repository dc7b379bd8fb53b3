//! AES-128 by byte shuffles and the MAC of one block, as in the proved cipher, written on its own over `std::arch`.
//!
//! Its tables are those of `crates/aes128_core/src/lane_tables.rt`, which says what they are.

use crate::cipher::HopMac;
use std::arch::x86_64::*;

type Table = [u8; 16];

const INVERSES: Table = [
    0x80, 0x01, 0x08, 0x0d, 0x0f, 0x06, 0x05, 0x0e, 0x02, 0x0c, 0x0b, 0x0a, 0x09, 0x03, 0x07, 0x04,
];
const RATIOS: Table = [
    0x80, 0x02, 0x01, 0x0c, 0x08, 0x0b, 0x0d, 0x0a, 0x04, 0x0e, 0x07, 0x05, 0x03, 0x06, 0x09, 0x0f,
];
const LOW_COORDINATES: Table = [
    0x00, 0x01, 0x37, 0x36, 0xd0, 0xd1, 0xe7, 0xe6, 0xd2, 0xd3, 0xe5, 0xe4, 0x02, 0x03, 0x35, 0x34,
];
const HIGH_COORDINATES: Table = [
    0x00, 0xbb, 0x7b, 0xc0, 0xbf, 0x04, 0xc4, 0x7f, 0xc8, 0x73, 0xb3, 0x08, 0x77, 0xcc, 0x0c, 0xb7,
];
const LAST: [Table; 2] = [
    [
        0x00, 0xfa, 0x6a, 0x35, 0xbb, 0x2b, 0x5f, 0x41, 0x8e, 0xcf, 0x1e, 0xe4, 0x90, 0x74, 0xd1,
        0xa5,
    ],
    [
        0x00, 0x81, 0x76, 0x99, 0xfd, 0x0a, 0xef, 0x7c, 0x64, 0x18, 0x93, 0x12, 0xf7, 0xe5, 0x8b,
        0x6e,
    ],
];
const SUBSTITUTED: [Table; 2] = [
    [
        0x00, 0x52, 0x21, 0x11, 0xec, 0x9f, 0x30, 0xbe, 0xfd, 0x43, 0x8e, 0xdc, 0x73, 0xaf, 0xcd,
        0x62,
    ],
    [
        0x00, 0xc9, 0x98, 0xa0, 0xb4, 0xe5, 0x38, 0x7d, 0x14, 0x69, 0x45, 0x8c, 0x51, 0xdd, 0x2c,
        0xf1,
    ],
];
const DOUBLED: [Table; 2] = [
    [
        0x00, 0x38, 0x1c, 0x21, 0xc7, 0xe3, 0x3d, 0xff, 0xe6, 0x19, 0xc2, 0xfa, 0x24, 0xde, 0xdb,
        0x05,
    ],
    [
        0x00, 0x68, 0x0e, 0xa8, 0x0d, 0x6b, 0xa6, 0x65, 0xa5, 0xc0, 0xc3, 0xab, 0x66, 0xcd, 0x03,
        0xce,
    ],
];

/// For each lane a place that is computed from its row and its column.
const fn places(rows: usize, columns: usize, turns: usize) -> Table {
    let mut table = [0; 16];
    let mut i = 0;
    while i < 16 {
        let (row, column) = (i % 4, i / 4);
        table[i] = ((row + rows) % 4 + 4 * ((column + columns + turns * row) % 4)) as u8;
        i += 1;
    }
    table
}

/// Which byte of the state each lane is after a number of rounds, and where the next row and the row before are.
const fn order(n: usize) -> Table {
    places(0, 0, 3 * n)
}

const fn below(n: usize) -> Table {
    places(1, n, 0)
}

const fn above(n: usize) -> Table {
    places(3, 3 * n, 0)
}

const ORDERS: [Table; 4] = [order(0), order(1), order(2), order(3)];
const BELOW: [Table; 4] = [below(0), below(1), below(2), below(3)];
const ABOVE: [Table; 4] = [above(0), above(1), above(2), above(3)];
const LAST_SHIFT: Table = places(0, 0, 2);

#[inline(always)]
fn vector(bytes: &Table) -> __m128i {
    unsafe { _mm_loadu_si128(bytes.as_ptr().cast()) }
}

#[inline(always)]
fn bytes_of(x: __m128i) -> Table {
    let mut bytes = [0; 16];
    unsafe { _mm_storeu_si128(bytes.as_mut_ptr().cast(), x) };
    bytes
}

#[inline(always)]
fn sum(x: __m128i, y: __m128i) -> __m128i {
    unsafe { _mm_xor_si128(x, y) }
}

#[inline(always)]
fn look_up(table: &Table, at: __m128i) -> __m128i {
    unsafe { _mm_shuffle_epi8(vector(table), at) }
}

#[inline(always)]
fn moved(x: __m128i, places: &Table) -> __m128i {
    unsafe { _mm_shuffle_epi8(x, vector(places)) }
}

#[inline(always)]
fn halves(x: __m128i) -> (__m128i, __m128i) {
    unsafe {
        let low = _mm_set1_epi8(15);
        (
            _mm_and_si128(x, low),
            _mm_and_si128(_mm_srli_epi16::<4>(x), low),
        )
    }
}

#[inline(always)]
fn coordinates(x: __m128i) -> __m128i {
    let (low, high) = halves(x);
    sum(
        look_up(&LOW_COORDINATES, low),
        look_up(&HIGH_COORDINATES, high),
    )
}

#[inline(always)]
fn inverse_parts(x: __m128i) -> (__m128i, __m128i) {
    let (k, i) = halves(x);
    let j = sum(i, k);
    let ratio = look_up(&RATIOS, k);
    let of_p = sum(look_up(&INVERSES, i), ratio);
    let of_q = sum(look_up(&INVERSES, j), ratio);
    (
        sum(look_up(&INVERSES, of_p), j),
        sum(look_up(&INVERSES, of_q), i),
    )
}

#[inline(always)]
fn sum_at(tables: &[Table; 2], p: __m128i, q: __m128i) -> __m128i {
    sum(look_up(&tables[0], p), look_up(&tables[1], q))
}

#[inline(always)]
fn last_substituted(x: __m128i) -> __m128i {
    let (p, q) = inverse_parts(x);
    sum_at(&LAST, p, q)
}

#[inline(always)]
fn round(x: __m128i, key: __m128i, n: usize) -> __m128i {
    let (p, q) = inverse_parts(x);
    let plain = sum_at(&SUBSTITUTED, p, q);
    let doubled = sum_at(&DOUBLED, p, q);
    let twice = sum(doubled, moved(plain, &BELOW[n % 4]));
    let others = sum(sum(moved(plain, &ABOVE[n % 4]), key), twice);
    sum(others, moved(twice, &BELOW[n % 4]))
}

fn substituted_word(word: u32) -> u32 {
    let mut bytes = [0; 16];
    bytes[..4].copy_from_slice(&word.to_le_bytes());
    let bytes = bytes_of(last_substituted(coordinates(vector(&bytes))));
    u32::from_le_bytes(bytes[..4].try_into().unwrap()) ^ 0x63636363
}

pub struct Aes128 {
    key: Table,
    inner: [Table; 9],
    last: Table,
}

impl Aes128 {
    pub fn new(key: &Table) -> Aes128 {
        let mut words = [0; 44];
        for (word, bytes) in words.iter_mut().zip(key.chunks_exact(4)) {
            *word = u32::from_le_bytes(bytes.try_into().unwrap());
        }
        let mut constant = 1u8;
        for i in 4..44 {
            let mut word = words[i - 1];
            if i % 4 == 0 {
                word = substituted_word(word.rotate_right(8)) ^ u32::from(constant);
                constant = (constant << 1) ^ ((constant >> 7) * 0x1b);
            }
            words[i] = words[i - 4] ^ word;
        }
        let round_key = |n: usize| {
            let mut bytes = [0; 16];
            for c in 0..4 {
                bytes[4 * c..4 * c + 4].copy_from_slice(&words[4 * n + c].to_le_bytes());
            }
            sum(vector(&bytes), vector(&[0x63; 16]))
        };
        let mut inner = [[0; 16]; 9];
        for (k, kept) in inner.iter_mut().enumerate() {
            *kept = bytes_of(moved(coordinates(round_key(k + 1)), &ORDERS[(k + 1) % 4]));
        }
        Aes128 {
            key: *key,
            inner,
            last: bytes_of(round_key(10)),
        }
    }

    pub fn encrypt(&self, block: &Table) -> Table {
        let keys = &self.inner;
        let x = coordinates(sum(vector(block), vector(&self.key)));
        let x = round(x, vector(&keys[0]), 1);
        let x = round(x, vector(&keys[1]), 2);
        let x = round(x, vector(&keys[2]), 3);
        let x = round(x, vector(&keys[3]), 4);
        let x = round(x, vector(&keys[4]), 5);
        let x = round(x, vector(&keys[5]), 6);
        let x = round(x, vector(&keys[6]), 7);
        let x = round(x, vector(&keys[7]), 8);
        let x = round(x, vector(&keys[8]), 9);
        bytes_of(sum(
            moved(last_substituted(x), &LAST_SHIFT),
            vector(&self.last),
        ))
    }
}

/// AES-CMAC of single blocks: the key, expanded, and the first subkey.
pub struct ShuffleCmac {
    cipher: Aes128,
    mask: u128,
}

impl HopMac for ShuffleCmac {
    fn new(key: &[u8; 16]) -> ShuffleCmac {
        let cipher = Aes128::new(key);
        let l = u128::from_be_bytes(cipher.encrypt(&[0; 16]));
        let mask = (l << 1) ^ ((l >> 127) * 0x87);
        ShuffleCmac { cipher, mask }
    }

    fn mac(&self, block: &[u8; 16]) -> [u8; 6] {
        let masked = u128::from_be_bytes(*block) ^ self.mask;
        let tag = self.cipher.encrypt(&masked.to_be_bytes());
        tag[..6].try_into().unwrap()
    }
}
