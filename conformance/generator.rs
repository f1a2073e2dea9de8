//! Pseudo-random inputs (xorshift), and the edges of each kind of input.
use crate::{reference, Key};

/// The bytes with the unused low bits of the final one set to 0. Of a u outside 1 to 8 none is unused.
pub fn cleaned(mut bytes: Vec<u8>, used: u32) -> Vec<u8> {
    if let (Some(last), 1..=8) = (bytes.last_mut(), used) {
        *last &= !(0xff_u32 >> used) as u8;
    }
    bytes
}

pub struct Generator(u64);

impl Generator {
    pub fn new(seed: u64) -> Self {
        Generator(seed * 2 + 1)
    }

    pub fn next(&mut self) -> u64 {
        self.0 ^= self.0 << 13;
        self.0 ^= self.0 >> 7;
        self.0 ^= self.0 << 17;
        self.0.wrapping_mul(0x9e37_79b9_7f4a_7c15)
    }

    pub fn below(&mut self, n: u64) -> u64 {
        self.next() % n
    }

    pub fn one_in(&mut self, n: u64) -> bool {
        self.below(n) == 0
    }

    pub fn bytes(&mut self, n: usize) -> Vec<u8> {
        (0..n).map(|_| self.next() as u8).collect()
    }

    /// A number below 2^k, for k from 1 to 64.
    pub fn residue(&mut self, k: u32) -> u64 {
        self.next() >> (64 - k)
    }

    pub fn of_degree(&mut self, k: u32) -> Key {
        Key { degree: k, word: self.residue(k) }
    }

    /// An irreducible polynomial of degree k.
    pub fn accepted(&mut self, k: u32) -> Key {
        loop {
            let key = Key { degree: k, word: self.residue(k) | 1 };
            if reference::irreducible(reference::polynomial(key)) {
                return key;
            }
        }
    }

    /// An irreducible polynomial of degree k whose coefficients below t^k stand in a random number of low places.
    pub fn accepted_with_low_part(&mut self, k: u32) -> Key {
        loop {
            let width = 1 + self.below(u64::from(k)) as u32;
            let key = Key { degree: k, word: self.residue(width) | 1 };
            if reference::irreducible(reference::polynomial(key)) {
                return key;
            }
        }
    }

    /// A degree of keys. Degree 64, whose fingerprints fill the word, is more frequent than others.
    pub fn degree(&mut self) -> u32 {
        if self.one_in(8) { 64 } else { 8 + self.below(57) as u32 }
    }

    /// A pair that number 1 is given for: another degree, or a bit of the word at t^k or above.
    pub fn outside(&mut self) -> Key {
        let (small, k) = (self.below(8) as u32, 8 + self.below(56) as u32);
        match self.below(5) {
            0 => Key { degree: small, word: self.residue(small + 1) >> 1 },
            1 => Key { degree: small, word: self.next() },
            2 => {
                let degree = [65, 66, 71, 72, 127, 128, 255, 256 + 8, 1 << 31, (1 << 31) + 61, u32::MAX];
                Key { degree: degree[self.below(11) as usize], word: self.next() }
            }
            3 => Key { degree: k, word: self.accepted(k).word | 1 << k },
            _ => Key { degree: k, word: self.next() | 1 << (63 - self.below(64 - u64::from(k))) },
        }
    }

    /// A key: mostly accepted, sometimes out of range or reducible.
    pub fn key(&mut self) -> Key {
        let k = self.degree();
        match self.below(8) {
            0 => self.outside(),
            1 => self.of_degree(k),
            _ => self.accepted(k),
        }
    }

    /// A mark under a key: mostly possible, sometimes too long or not reduced.
    pub fn mark(&mut self, key: Key) -> reference::Mark {
        let width = key.degree.clamp(1, 64);
        let fingerprint = match self.below(8) {
            0 => self.next(),
            1 => 1 << width.min(63),
            _ => self.residue(width),
        };
        let bits = match self.below(10) {
            0 => self.next(),
            1 => reference::LIMIT,
            2 => reference::LIMIT - self.below(800),
            3 => reference::LIMIT + 1,
            4 => u64::MAX,
            5 => self.below(300),
            _ => self.below(800_000),
        };
        reference::Mark { fingerprint, bits }
    }

    /// A mark under an accepted key to which up to n bytes can be fed.
    pub fn start(&mut self, key: Key, n: usize) -> reference::Mark {
        let fingerprint = self.residue(key.degree);
        reference::Mark { fingerprint, bits: self.below(reference::LIMIT - 8 * n as u64 + 1) }
    }

    /// The used bits of a final byte: mostly 8 or 1 to 7, sometimes a number outside.
    pub fn used(&mut self) -> u32 {
        match self.below(20) {
            0 => [0, 9, 16, 1 << 31, u32::MAX][self.below(5) as usize],
            1 => self.next() as u32,
            2..=9 => 8,
            _ => 1 + self.below(8) as u32,
        }
    }

    /// Random bytes whose final one has u used bits: mostly the others are 0.
    pub fn bytes_used(&mut self, n: usize, used: u32) -> Vec<u8> {
        let bytes = self.bytes(n);
        if self.one_in(10) { bytes } else { cleaned(bytes, used) }
    }

    /// A table under a key: mostly right, sometimes of another size or with one bit changed.
    pub fn table(&mut self, key: Key) -> Vec<u64> {
        let mut words = if reference::test_key(key) == Err(1) { vec![0; 1024] } else { reference::table(key) };
        match self.below(5) {
            0 => {
                let n = self.below(1024) as usize;
                words[n] ^= 1 << self.below(64);
            }
            1 => words.truncate([0, 1, 1023][self.below(3) as usize]),
            2 if self.one_in(3) => words.push(0),
            _ => {}
        }
        words
    }
}
