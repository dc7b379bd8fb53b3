//! AES-128 by column tables and the MAC of one block, as in the proved cipher, written on its own.

/// What makes the MAC of a hop field.
pub trait HopMac {
    fn new(key: &[u8; 16]) -> Self;

    /// The first six bytes of AES-CMAC of the block.
    fn mac(&self, block: &[u8; 16]) -> [u8; 6];
}

const fn times_x(b: u8) -> u8 {
    (b << 1) ^ ((b >> 7) * 0x1b)
}

const fn product(mut a: u8, mut b: u8) -> u8 {
    let mut sum = 0;
    while b != 0 {
        if b & 1 != 0 {
            sum ^= a;
        }
        a = times_x(a);
        b >>= 1;
    }
    sum
}

const fn s_box() -> [u8; 256] {
    let mut table = [0; 256];
    let mut b = 0;
    while b < 256 {
        // b to the 254th power is its inverse
        let mut inverse = 1;
        let mut k = 0;
        while k < 254 {
            inverse = product(inverse, b as u8);
            k += 1;
        }
        let i: u8 = inverse;
        table[b] =
            i ^ i.rotate_left(1) ^ i.rotate_left(2) ^ i.rotate_left(3) ^ i.rotate_left(4) ^ 0x63;
        b += 1;
    }
    table
}

/// Column `k` of the matrix times the S-box's value, row 0 in the lowest byte.
const fn column_table(k: u32) -> [u32; 256] {
    let mut table = [0; 256];
    let mut b = 0;
    while b < 256 {
        let s = S_BOX[b];
        table[b] = u32::from_le_bytes([times_x(s), s, s, times_x(s) ^ s]).rotate_left(8 * k);
        b += 1;
    }
    table
}

static S_BOX: [u8; 256] = s_box();
static T0: [u32; 256] = column_table(0);
static T1: [u32; 256] = column_table(1);
static T2: [u32; 256] = column_table(2);
static T3: [u32; 256] = column_table(3);

fn substituted(word: u32) -> u32 {
    u32::from_le_bytes(word.to_le_bytes().map(|b| S_BOX[b as usize]))
}

pub struct Aes128 {
    words: [u32; 44],
}

impl Aes128 {
    pub fn new(key: &[u8; 16]) -> Aes128 {
        let mut words = [0; 44];
        for (word, bytes) in words.iter_mut().zip(key.chunks_exact(4)) {
            *word = u32::from_le_bytes(bytes.try_into().unwrap());
        }
        let mut constant = 1;
        for i in 4..44 {
            let mut word = words[i - 1];
            if i % 4 == 0 {
                word = substituted(word.rotate_right(8)) ^ u32::from(constant);
                constant = times_x(constant);
            }
            words[i] = words[i - 4] ^ word;
        }
        Aes128 { words }
    }

    pub fn encrypt(&self, block: &[u8; 16]) -> [u8; 16] {
        let mut state = [0; 4];
        for c in 0..4 {
            let bytes = block[4 * c..4 * c + 4].try_into().unwrap();
            state[c] = u32::from_le_bytes(bytes) ^ self.words[c];
        }
        for keys in self.words[4..40].chunks_exact(4) {
            let mut next = [0; 4];
            for c in 0..4 {
                next[c] = T0[state[c] as u8 as usize]
                    ^ T1[(state[(c + 1) % 4] >> 8) as u8 as usize]
                    ^ T2[(state[(c + 2) % 4] >> 16) as u8 as usize]
                    ^ T3[(state[(c + 3) % 4] >> 24) as usize]
                    ^ keys[c];
            }
            state = next;
        }
        let mut out = [0; 16];
        for c in 0..4 {
            let column = [
                S_BOX[state[c] as u8 as usize],
                S_BOX[(state[(c + 1) % 4] >> 8) as u8 as usize],
                S_BOX[(state[(c + 2) % 4] >> 16) as u8 as usize],
                S_BOX[(state[(c + 3) % 4] >> 24) as usize],
            ];
            let word = u32::from_le_bytes(column) ^ self.words[40 + c];
            out[4 * c..4 * c + 4].copy_from_slice(&word.to_le_bytes());
        }
        out
    }
}

/// AES-CMAC of single blocks: the key, expanded, and the first subkey.
pub struct BlockCmac {
    cipher: Aes128,
    mask: u128,
}

impl HopMac for BlockCmac {
    fn new(key: &[u8; 16]) -> BlockCmac {
        let cipher = Aes128::new(key);
        let l = u128::from_be_bytes(cipher.encrypt(&[0; 16]));
        let mask = (l << 1) ^ ((l >> 127) * 0x87);
        BlockCmac { cipher, mask }
    }

    fn mac(&self, block: &[u8; 16]) -> [u8; 6] {
        let masked = u128::from_be_bytes(*block) ^ self.mask;
        let tag = self.cipher.encrypt(&masked.to_be_bytes());
        tag[..6].try_into().unwrap()
    }
}
