//! A second implementation, written from document 01's definitions, document 02's wishes and the equations that they name alone, and as they
//! read: long division bit by bit, trial comparisons, no tables. It shares no code and no method with the library that it is compared with.
//! `ByteSteps` alone has a table, of its own, for what is compared at many lengths. A polynomial is a number of up to 128 bits, called p; a key
//! is the pair that the calls take, a degree and a word.

use crate::Key;
use std::{cell::RefCell, collections::HashSet};

/// The longest file, in bits, and the same in bytes.
pub const LIMIT: u64 = 34_359_738_360;
pub const LIMIT_BYTES: u64 = LIMIT / 8;

/// The place of the highest one bit.
pub fn degree(p: u128) -> u32 {
    127 - p.leading_zeros()
}

/// The polynomial of a key whose degree is 64 at most: t^k, and the word's coefficients below.
pub fn polynomial(key: Key) -> u128 {
    (1 << key.degree) + u128::from(key.word)
}

/// The key that a polynomial is handed in as. The number 0, which has no degree, is handed in as degree 0 and word 0.
pub fn key_of(p: u128) -> Key {
    match p {
        0 => Key { degree: 0, word: 0 },
        _ => Key { degree: degree(p), word: (p - (1 << degree(p))) as u64 },
    }
}

/// Long division of a string of bits, the highest coefficient first, beginning with the residue `start`.
pub fn divide(p: u128, start: u64, bits: impl Iterator<Item = bool>) -> u64 {
    let top = 1u128 << degree(p);
    let mut rest = u128::from(start);
    for bit in bits {
        rest = rest << 1 | u128::from(bit);
        if rest & top != 0 {
            rest ^= p;
        }
    }
    rest as u64
}

fn bits_of(bytes: &[u8]) -> impl Iterator<Item = bool> + '_ {
    bytes.iter().flat_map(|b| (0..8).rev().map(move |i| b >> i & 1 == 1))
}

/// A part of a file, a page, or a file for a sheet: bytes, and u, the used bits of the final byte, at its high end.
#[derive(Clone, Copy, PartialEq, Eq)]
pub struct Part<'a> {
    pub bytes: &'a [u8],
    pub used: u32,
}

/// Whole bytes.
impl<'a, T: AsRef<[u8]> + ?Sized> From<&'a T> for Part<'a> {
    fn from(bytes: &'a T) -> Self {
        Part { bytes: bytes.as_ref(), used: 8 }
    }
}

impl<'a> Part<'a> {
    /// The length in bits: a u outside 1 to 8 counts as 8, and a part without bytes is 0 long.
    pub fn length(self) -> u128 {
        let used = if (1..=8).contains(&self.used) { self.used } else { 8 };
        match self.bytes.split_last() {
            Some((_, front)) => 8 * front.len() as u128 + u128::from(used),
            None => 0,
        }
    }

    /// The bits that belong to the part.
    pub fn bits(self) -> impl Iterator<Item = bool> + 'a {
        bits_of(self.bytes).take(self.length() as usize)
    }

    /// Number 19: u outside 1 to 8, or not 8 for a part without bytes, or unused low bits of the final byte not zero.
    pub fn misused(self) -> bool {
        let Some(last) = self.bytes.last() else {
            return self.used != 8;
        };
        !(1..=8).contains(&self.used) || (self.used..8).any(|place| last >> (7 - place) & 1 == 1)
    }
}

/// A string of bits as bytes and u.
pub struct Packed {
    bytes: Vec<u8>,
    used: u32,
}

impl Packed {
    pub fn part(&self) -> Part<'_> {
        Part { bytes: &self.bytes, used: self.used }
    }
}

/// The first bit stands at the high end of the first byte.
pub fn pack(bits: &[bool]) -> Packed {
    let byte = |bits: &[bool]| bits.iter().zip(0..8).fold(0u8, |b, (&bit, i)| b | u8::from(bit) << (7 - i));
    let used = if bits.len() % 8 == 0 { 8 } else { bits.len() as u32 % 8 };
    Packed { bytes: bits.chunks(8).map(byte).collect(), used }
}

impl std::fmt::Debug for Part<'_> {
    fn fmt(&self, f: &mut std::fmt::Formatter) -> std::fmt::Result {
        write!(f, "{} bytes ending in {:02x?} with u {}", self.bytes.len(), self.bytes.last(), self.used)
    }
}

/// The residue of start·t^n plus the n bits. Document 01 puts a 1 in front of a file's bits. A plain fingerprint (document 02, wish 9) is
/// that of 003's equations (3) and (4), with nothing in front: its division begins with 0.
pub fn fingerprint_from(start: u64, key: Key, bits: impl Iterator<Item = bool>) -> u64 {
    divide(polynomial(key), start, bits)
}

/// The residue of t^n plus the n bits.
pub fn fingerprint_of_bits(key: Key, bits: impl Iterator<Item = bool>) -> u64 {
    fingerprint_from(1, key, bits)
}

pub fn fingerprint<'a>(key: Key, file: impl Into<Part<'a>>) -> u64 {
    fingerprint_of_bits(key, file.into().bits())
}

/// The residue of a polynomial of up to 128 bits.
pub fn residue(p: u128, mut a: u128) -> u64 {
    let k = degree(p);
    for place in (k..128).rev() {
        if a >> place & 1 == 1 {
            a ^= p << (place - k);
        }
    }
    a as u64
}

/// Long division a byte at a time, for long parts: whatever byte stands at t^k and above is replaced by its residue. Suite feeding.rs
/// compares it with `feed`, which goes bit by bit.
pub struct ByteSteps {
    degree: u32,
    /// The residue of i·t^k for each byte i.
    residues: [u64; 256],
}

impl ByteSteps {
    pub fn new(key: Key) -> Self {
        let (p, degree) = (polynomial(key), key.degree);
        ByteSteps { degree, residues: std::array::from_fn(|i| residue(p, (i as u128) << degree)) }
    }

    /// The residue of f·t^8 plus the byte, where f is a residue.
    pub fn next(&self, f: u64, byte: u8) -> u64 {
        let value = u128::from(f) << 8 | u128::from(byte);
        let below = value & ((1 << self.degree) - 1);
        below as u64 ^ self.residues[(value >> self.degree) as usize]
    }

    /// The residue behind the whole part.
    pub fn divide(&self, start: u64, part: &[u8]) -> u64 {
        part.iter().fold(start, |f, &byte| self.next(f, byte))
    }

    /// The residue behind each front of the part: at place n the one behind its first n bytes.
    pub fn behind_each(&self, start: u64, part: &[u8]) -> Vec<u64> {
        let behind = part.iter().scan(start, |f, &byte| {
            *f = self.next(*f, byte);
            Some(*f)
        });
        std::iter::once(start).chain(behind).collect()
    }
}

pub fn multiply(a: u64, b: u64) -> u128 {
    (0..64).filter(|i| b >> i & 1 == 1).fold(0, |sum, i| sum ^ u128::from(a) << i)
}

pub fn multiply_modulo(p: u128, a: u64, b: u64) -> u64 {
    residue(p, multiply(a, b))
}

/// t^n modulo p, squaring from the lowest bit of n.
pub fn power_of_t(p: u128, mut n: u64) -> u64 {
    let mut square = residue(p, 2);
    let mut power = residue(p, 1);
    while n > 0 {
        if n & 1 == 1 {
            power = multiply_modulo(p, power, square);
        }
        square = multiply_modulo(p, square, square);
        n >>= 1;
    }
    power
}

fn gcd(mut a: u128, mut b: u128) -> u128 {
    while b != 0 {
        let rest = if b == 1 { 0 } else { residue(b, a) };
        a = b;
        b = rest.into();
    }
    a
}

/// Ben-Or's test: no irreducible polynomial of degree up to k/2 divides p.
pub fn irreducible(p: u128) -> bool {
    let mut x = residue(p, 2);
    for _ in 0..degree(p) / 2 {
        x = multiply_modulo(p, x, x);
        if gcd(p, u128::from(x ^ 2)) != 1 {
            return false;
        }
    }
    true
}

/// Rabin's test: p divides t^(2^k) − t, and has no factor in common with t^(2^(k/q)) − t for any prime q that divides k.
pub fn irreducible_by_rabin(p: u128) -> bool {
    let k = degree(p);
    let squared = |times: u32| (0..times).fold(residue(p, 2), |x, _| multiply_modulo(p, x, x));
    let divides = |q: &u32| k % q == 0 && (2..*q).all(|d| q % d != 0);
    squared(k) == residue(p, 2) && (2..=k).filter(divides).all(|q| gcd(p, u128::from(squared(k / q) ^ 2)) == 1)
}

/// Trial division by every polynomial of degree 1 to k/2.
pub fn irreducible_by_trial(p: u128) -> bool {
    (2..1u128 << (degree(p) / 2 + 1)).all(|d| residue(d, p) != 0)
}

/// The numbers that a call can be refused with, in the order of its tests; the first that applies is given.
pub type Answer<T> = Result<T, u32>;

fn refuse(tests: &[(u32, bool)]) -> Answer<()> {
    match tests.iter().find(|(_, applies)| *applies) {
        Some((number, _)) => Err(*number),
        None => Ok(()),
    }
}

thread_local! {
    /// The polynomials that `irreducible` has found to be so: most are asked for again and again.
    static FOUND: RefCell<HashSet<u128>> = RefCell::default();
}

fn known_irreducible(p: u128) -> bool {
    FOUND.with_borrow_mut(|found| found.contains(&p) || irreducible(p) && found.insert(p))
}

/// Number 1: a degree outside 8 to 64, or a word with a bit at or above t^k.
fn outside(key: Key) -> bool {
    !(8..=64).contains(&key.degree) || u128::from(key.word) >> key.degree != 0
}

pub fn test_key(key: Key) -> Answer<()> {
    if outside(key) {
        return Err(1);
    }
    refuse(&[(2, !known_irreducible(polynomial(key)))])
}

/// The stock list: for each degree 8 to 64 the smallest irreducible polynomial of that degree.
pub fn stock_key(k: u32) -> Option<Key> {
    (8..=64).contains(&k).then(|| key_of((1u128 << k..).find(|&p| irreducible(p)).expect("one of each degree")))
}

/// A fingerprint and a length in bits.
#[derive(Clone, Copy, Debug, PartialEq, Eq)]
pub struct Mark {
    pub fingerprint: u64,
    pub bits: u64,
}

/// The mark of a file: with start 1 ours, with start 0 the plain mark.
pub fn mark_from<'a>(start: u64, key: Key, file: impl Into<Part<'a>>) -> Mark {
    let file = file.into();
    Mark { fingerprint: fingerprint_from(start, key, file.bits()), bits: file.length() as u64 }
}

/// The mark of a file, ours.
pub fn mark_of<'a>(key: Key, file: impl Into<Part<'a>>) -> Mark {
    mark_from(1, key, file)
}

/// The mark of the empty file.
pub fn begin_from(start: u64, key: Key) -> Answer<Mark> {
    test_key(key)?;
    Ok(mark_from(start, key, &[]))
}

pub fn begin(key: Key) -> Answer<Mark> {
    begin_from(1, key)
}

fn too_long(lengths: &[u128]) -> bool {
    lengths.iter().any(|&n| n > u128::from(LIMIT))
}

/// Number 8, and 14 for a field of a sheet: not below 2^k. At degree 64 no fingerprint is that.
fn unreduced(key: Key, fingerprint: u64) -> bool {
    u128::from(fingerprint) >> key.degree != 0
}

fn sum_too_long(a: u128, b: u128) -> bool {
    too_long(&[a, b, a + b])
}

/// A plain mark becomes one of ours, or one of ours a plain mark: of n bits, the 1 in front stands at t^n, and is added or taken off.
pub fn turn(key: Key, mark: Mark) -> Answer<Mark> {
    test_key(key)?;
    refuse(&[(7, too_long(&[mark.bits.into()])), (8, unreduced(key, mark.fingerprint))])?;
    Ok(Mark { fingerprint: mark.fingerprint ^ power_of_t(polynomial(key), mark.bits), bits: mark.bits })
}

pub fn feed<'a>(key: Key, mark: Mark, part: impl Into<Part<'a>>) -> Answer<Mark> {
    let part = part.into();
    test_key(key)?;
    refuse(&[
        (7, sum_too_long(mark.bits.into(), part.length())),
        (8, unreduced(key, mark.fingerprint)),
        (19, part.misused()),
    ])?;
    let fingerprint = divide(polynomial(key), mark.fingerprint, part.bits());
    Ok(Mark { fingerprint, bits: mark.bits + part.length() as u64 })
}

/// Word 256·j + i: the residue of i·t^(k + 8j).
pub fn table_word(key: Key, n: usize) -> u64 {
    residue(polynomial(key), ((n % 256) as u128) << (key.degree as usize + 8 * (n / 256)))
}

pub fn table(key: Key) -> Vec<u64> {
    (0..1024).map(|n| table_word(key, n)).collect()
}

pub fn make_table(key: Key, words: &[u64]) -> Answer<Vec<u64>> {
    test_key(key)?;
    refuse(&[(5, words.len() != 1024)])?;
    Ok(table(key))
}

pub fn test_table(key: Key, words: &[u64]) -> Answer<()> {
    test_key(key)?;
    refuse(&[(5, words.len() != 1024)])?;
    refuse(&[(6, words.iter().enumerate().any(|(n, &w)| w != table_word(key, n)))])
}

pub fn feed_table<'a>(key: Key, mark: Mark, words: &[u64], part: impl Into<Part<'a>>) -> Answer<Mark> {
    test_table(key, words)?;
    feed(key, mark, part)
}

pub const HOUSE_KEY: Key = Key { degree: 61, word: 0x27 };

/// Feeding by the house key's words, whatever the key is.
pub fn feed_house<'a>(key: Key, mark: Mark, part: impl Into<Part<'a>>) -> Answer<Mark> {
    feed_table(key, mark, &table(HOUSE_KEY), part)
}

// ---- Site: joining, page change, search, page sheets

/// F·t^b + G + start·t^b, length a + b, where a and b are in bits. Plain marks, with start 0, are joined by 003's equation (10) as it stands.
fn joined(start: u64, key: Key, front: Mark, back: Mark) -> Mark {
    let p = polynomial(key);
    let power = power_of_t(p, back.bits);
    let fingerprint = multiply_modulo(p, front.fingerprint, power) ^ back.fingerprint ^ multiply_modulo(p, start, power);
    Mark { fingerprint, bits: front.bits + back.bits }
}

fn join_tests(key: Key, mark: Mark, other: Mark) -> Answer<()> {
    test_key(key)?;
    refuse(&[
        (7, sum_too_long(mark.bits.into(), other.bits.into())),
        (8, unreduced(key, mark.fingerprint) || unreduced(key, other.fingerprint)),
    ])
}

pub fn join_behind(start: u64, key: Key, mark: Mark, other: Mark) -> Answer<Mark> {
    join_tests(key, mark, other)?;
    Ok(joined(start, key, mark, other))
}

pub fn join_in_front(start: u64, key: Key, mark: Mark, other: Mark) -> Answer<Mark> {
    join_tests(key, mark, other)?;
    Ok(joined(start, key, other, mark))
}

/// The place is in bytes, the lengths are in bits.
pub fn replace_page<'a, 'b>(
    key: Key,
    mark: Mark,
    place: u64,
    old: impl Into<Part<'a>>,
    new: impl Into<Part<'b>>,
) -> Answer<Mark> {
    let (old, new): (Part, Part) = (old.into(), new.into());
    test_key(key)?;
    let end = 8 * u128::from(place) + old.length();
    refuse(&[
        (7, too_long(&[mark.bits.into(), old.length(), new.length()])),
        (8, unreduced(key, mark.fingerprint)),
        (9, old.length() != new.length()),
        (10, end > u128::from(mark.bits)),
        (19, old.misused() || new.misused()),
    ])?;
    let difference = fingerprint(key, old) ^ fingerprint(key, new);
    let p = polynomial(key);
    let after = power_of_t(p, mark.bits - end as u64);
    Ok(Mark { fingerprint: mark.fingerprint ^ multiply_modulo(p, difference, after), bits: mark.bits })
}

/// The places in bytes, and the number of windows with the pattern's fingerprint and other bytes.
pub fn search(key: Key, text: &[u8], pattern: &[u8]) -> Answer<(Vec<u32>, u64)> {
    test_key(key)?;
    let lengths = [text, pattern].map(|bytes| Part::from(bytes).length());
    refuse(&[(7, too_long(&lengths)), (11, pattern.is_empty())])?;
    let wanted = fingerprint(key, pattern);
    let mut places = Vec::new();
    let mut alarms = 0;
    for (at, window) in text.windows(pattern.len()).enumerate() {
        if window == pattern {
            places.push(at as u32);
        } else if fingerprint(key, window) == wanted {
            alarms += 1;
        }
    }
    Ok((places, alarms))
}

/// The bytes that a number of bits takes, an unfinished byte counted as one.
pub fn bytes_for(bits: u64) -> u64 {
    bits / 8 + u64::from(bits % 8 != 0)
}

/// The pages of a file of n bytes: n / s, rounded up.
fn pages(n: u64, s: u64) -> u64 {
    (u128::from(n) + u128::from(s) - 1).div_euclid(u128::from(s)) as u64
}

/// A version of page sheets: its number, whether its key field is a pair, the bytes of its length field, how many bits
/// that field counts as one, and whether a last page shorter than the page size is taken as filled up with zeros.
#[derive(Clone, Copy, Debug, PartialEq, Eq)]
pub struct Version {
    pub number: u64,
    pub pair: bool,
    pub width: usize,
    pub unit: u64,
    pub filled: bool,
}

impl Version {
    /// Where the length field begins: behind letters, version and key. A pair has a byte of degree and the word in 8; else the key is a
    /// number in 8 bytes.
    pub fn length_at(self) -> usize {
        3 + 2 + if self.pair { 1 + 8 } else { 8 }
    }

    /// Where the page fingerprints begin: behind length and page size.
    pub fn head(self) -> usize {
        self.length_at() + self.width + 2
    }

    /// The bytes of a sheet with c pages: 27 + 8c, 31 + 8c or 32 + 8c.
    pub fn total(self, c: u64) -> u64 {
        self.head() as u64 + 8 * c + 8
    }

    /// Whether the version has sheets under a key: a number in 8 bytes is no key of degree 64.
    pub fn holds(self, key: Key) -> bool {
        self.pair || key.degree < 64
    }

    /// The bytes of the key field.
    pub fn key_field(self, key: Key) -> Vec<u8> {
        assert!(self.holds(key), "{:x} in {self:?}", polynomial(key));
        if self.pair {
            [&[key.degree as u8], &key.word.to_be_bytes()[..]].concat()
        } else {
            (polynomial(key) as u64).to_be_bytes().to_vec()
        }
    }
}

/// The versions that are read.
pub const VERSIONS: [Version; 4] = [
    Version { number: 1, pair: false, width: 4, unit: 8, filled: true },
    Version { number: 2, pair: false, width: 4, unit: 8, filled: false },
    Version { number: 3, pair: false, width: 8, unit: 1, filled: false },
    Version { number: 4, pair: true, width: 8, unit: 1, filled: false },
];
/// The version that is written.
pub const WRITTEN: Version = VERSIONS[3];

/// The versions that have sheets under a key.
pub fn versions(key: Key) -> impl Iterator<Item = Version> {
    VERSIONS.into_iter().filter(move |version| version.holds(key))
}

/// The fingerprint of each page of a file: its bits, cut in pages of s bytes.
fn page_fingerprints(version: Version, key: Key, s: u64, file: Part) -> Vec<u64> {
    let bits: Vec<bool> = file.bits().collect();
    let size = 8 * s as usize;
    let page_fingerprint = |page: &[bool]| {
        let mut page = page.to_vec();
        if version.filled {
            page.resize(size, false);
        }
        fingerprint_of_bits(key, page.into_iter())
    };
    bits.chunks(size).map(page_fingerprint).collect()
}

/// The sheet of a file. Versions 1 and 2 have no sheet of a file that stops inside a byte, versions 1 to 3 none under a key of degree 64.
pub fn sheet<'a>(version: Version, key: Key, s: u64, file: impl Into<Part<'a>>) -> Vec<u8> {
    let file = file.into();
    let length = file.length() as u64;
    assert!(length % version.unit == 0, "no sheet of {length} bits in version {}", version.number);
    let mut bytes = b"GFP".to_vec();
    bytes.extend((version.number as u16).to_be_bytes());
    bytes.extend(version.key_field(key));
    bytes.extend(&(length / version.unit).to_be_bytes()[8 - version.width..]);
    bytes.extend((s as u16).to_be_bytes());
    for f in page_fingerprints(version, key, s, file) {
        bytes.extend(f.to_be_bytes());
    }
    bytes.extend(fingerprint(key, file).to_be_bytes());
    bytes
}

/// The lent buffer after the call.
pub fn write_sheet<'a>(key: Key, s: u64, file: impl Into<Part<'a>>, buffer: &[u8]) -> Answer<Vec<u8>> {
    let file = file.into();
    test_key(key)?;
    refuse(&[(7, too_long(&[file.length()])), (12, !(16..=4096).contains(&s))])?;
    let total = WRITTEN.total(pages(file.bytes.len() as u64, s));
    refuse(&[(13, (buffer.len() as u64) < total), (19, file.misused())])?;
    let mut after = sheet(WRITTEN, key, s, file);
    after.extend(&buffer[after.len()..]);
    Ok(after)
}

/// The bytes of the sheet of a file of n bytes, an unfinished byte counted as one.
pub fn sheet_length(n: u64, s: u64) -> Answer<u64> {
    refuse(&[(7, too_long(&[8 * u128::from(n)])), (12, !(16..=4096).contains(&s))])?;
    Ok(WRITTEN.total(pages(n, s)))
}

/// The length is in bits, the page size in bytes.
#[derive(Clone, Debug, PartialEq, Eq)]
pub struct Sheet {
    pub version: Version,
    pub key: Key,
    pub bits: u64,
    pub page_size: u64,
    pub pages: Vec<u64>,
    pub fingerprint: u64,
}

fn number(bytes: &[u8]) -> u64 {
    bytes.iter().fold(0, |n, &b| n << 8 | u64::from(b))
}

/// Page fingerprints joined behind f, each page b bits long: F·t^b + G + t^b. No length is limited.
fn joined_pages(key: Key, f: u64, pages: &[u64], b: u64) -> u64 {
    let p = polynomial(key);
    let power = power_of_t(p, b);
    pages.iter().fold(f, |f, g| multiply_modulo(p, f, power) ^ g ^ power)
}

/// Version 1: the page marks joined, each of length s, give the file's fingerprint times t^(8 × c × s − n), n being in
/// bits; no pages give 1.
fn joins_filled(x: &Sheet) -> bool {
    let p = polynomial(x.key);
    let whole = joined_pages(x.key, residue(p, 1), &x.pages, 8 * x.page_size);
    let behind = 8 * x.pages.len() as u64 * x.page_size - x.bits;
    whole == multiply_modulo(p, x.fingerprint, power_of_t(p, behind))
}

/// Versions 2 to 4: the page marks joined, each of its own length, give the file's fingerprint; no pages give 1.
fn joins_unfilled(x: &Sheet) -> bool {
    let one = residue(polynomial(x.key), 1);
    let Some((&last, front)) = x.pages.split_last() else {
        return x.fingerprint == one;
    };
    let front_joined = joined_pages(x.key, one, front, 8 * x.page_size);
    let last_length = x.bits - 8 * front.len() as u64 * x.page_size;
    joined_pages(x.key, front_joined, &[last], last_length) == x.fingerprint
}

/// The key in the key field: a number in versions 1 to 3, where 1 means below 256, and a pair in version 4.
fn key_in(version: Version, field: &[u8]) -> Answer<Key> {
    let key = if version.pair {
        Key { degree: field[0].into(), word: number(&field[1..]) }
    } else {
        refuse(&[(1, number(field) < 256)])?;
        key_of(number(field).into())
    };
    test_key(key)?;
    Ok(key)
}

pub fn read_sheet(bytes: &[u8]) -> Answer<Sheet> {
    if bytes.len() < 27 || bytes[..3] != *b"GFP" {
        return Err(14);
    }
    let version_number = number(&bytes[3..5]);
    let version = VERSIONS.into_iter().find(|v| v.number == version_number).ok_or(14u32)?;
    refuse(&[(14, (bytes.len() as u64) < version.total(0))])?;
    let (at, head) = (version.length_at(), version.head());
    let bits = u128::from(version.unit) * u128::from(number(&bytes[at..head - 2]));
    refuse(&[(14, too_long(&[bits]))])?;
    let key = key_in(version, &bytes[5..at])?;
    let (bits, page_size) = (bits as u64, number(&bytes[head - 2..head]));
    refuse(&[(12, !(16..=4096).contains(&page_size))])?;
    refuse(&[(14, bytes.len() as u64 != version.total(pages(bytes_for(bits), page_size)))])?;
    let fields: Vec<u64> = bytes[head..].chunks(8).map(number).collect();
    refuse(&[(14, fields.iter().any(|&f| unreduced(key, f)))])?;
    let (&fingerprint, page_marks) = fields.split_last().expect("the file's field");
    let sheet = Sheet { version, key, bits, page_size, pages: page_marks.to_vec(), fingerprint };
    let joins = if version.filled { joins_filled(&sheet) } else { joins_unfilled(&sheet) };
    refuse(&[(14, !joins)])?;
    Ok(sheet)
}

#[derive(Clone, Copy, Debug, PartialEq, Eq)]
pub enum Check {
    Same,
    Page(u64),
    OtherLength,
}

pub fn check_file<'a>(bytes: &[u8], file: impl Into<Part<'a>>) -> Answer<Check> {
    check_against(&read_sheet(bytes)?, file.into())
}

/// A check against a sheet that was read: 7, then 19, and only then the lengths are compared.
fn check_against(sheet: &Sheet, file: Part) -> Answer<Check> {
    refuse(&[(7, too_long(&[file.length()])), (19, file.misused())])?;
    if file.length() != u128::from(sheet.bits) {
        return Ok(Check::OtherLength);
    }
    let now = page_fingerprints(sheet.version, sheet.key, sheet.page_size, file);
    let changed = now.iter().zip(&sheet.pages).position(|(f, g)| f != g);
    Ok(changed.map_or(Check::Same, |i| Check::Page(i as u64)))
}

/// The bytes of the page that a check names: from its place to the next page's, or to the file's end. An unfinished
/// byte counts as one.
#[derive(Clone, Debug, PartialEq, Eq)]
pub enum Changed {
    Same,
    Bytes(std::ops::Range<u64>),
    OtherLength,
}

pub fn changed_range<'a>(bytes: &[u8], file: impl Into<Part<'a>>) -> Answer<Changed> {
    let file = file.into();
    let sheet = read_sheet(bytes)?;
    let s = sheet.page_size;
    Ok(match check_against(&sheet, file)? {
        Check::Same => Changed::Same,
        Check::Page(i) => Changed::Bytes(i * s..((i + 1) * s).min(file.bytes.len() as u64)),
        Check::OtherLength => Changed::OtherLength,
    })
}

// ---- Keyholder: drawing

pub const DRAWN_DEGREES: [u32; 14] = [11, 13, 17, 19, 23, 29, 31, 37, 41, 43, 47, 53, 59, 61];

/// The product of (x + c) over the conjugates c of the element: its minimal polynomial where the degree is prime.
pub fn draw(k: u32, element: u64) -> Answer<Key> {
    refuse(&[(3, !DRAWN_DEGREES.contains(&k))])?;
    refuse(&[(4, element < 2 || element >> k != 0)])?;
    let f = polynomial(stock_key(k).expect("a degree of the stock list"));
    // coefficients in the field, the lowest first
    let mut product = vec![1u64];
    let mut conjugate = element;
    for _ in 0..k {
        let mut next = vec![0u64; product.len() + 1];
        for (i, &c) in product.iter().enumerate() {
            next[i + 1] ^= c;
            next[i] ^= multiply_modulo(f, c, conjugate);
        }
        product = next;
        conjugate = multiply_modulo(f, conjugate, conjugate);
    }
    Ok(key_of(product.iter().enumerate().fold(0, |p, (i, &c)| {
        assert!(c < 2, "a coefficient outside the field of two elements");
        p | u128::from(c) << i
    })))
}
