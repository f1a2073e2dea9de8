//! Lengths in bits (document 02, wish 7): its readings; files of 0 to 40 bytes cut at every bit; every u, with final
//! bytes that are clean and dirty, in every call; the limit; places far away. Suite sheets.rs has the sheets of such
//! files.
use crate::generator::{cleaned, Generator};
use crate::kinds::{after, ours, outcome, Kind};
use crate::reference::{self, pack, Mark, Part};
use crate::{gfp, Key, Tally};

const KEY: Key = Key { degree: 8, word: 0x1b };

/// u inside and outside 1 to 8.
const USED: [u32; 12] = [0, 1, 2, 3, 4, 5, 6, 7, 8, 9, 1 << 31, u32::MAX];

fn part(bytes: &[u8], used: u32) -> Part<'_> {
    Part { bytes, used }
}

// ---- readings

/// Parts and their fingerprints under 0x11B.
const READINGS: [(&[u8], u32, u64); 6] = [
    (&[0x00], 1, 0x02),
    (&[0x80], 1, 0x03),
    (&[0x00], 7, 0x80),
    (&[0x41, 0x40], 3, 0xe4),
    (&[0x40], 3, 0x0a),
    (&[0x0a, 0x10], 5, 0x14),
];

/// A file's fingerprint: fed in every way, and by the second implementation.
pub fn reading<M: Kind>(tally: &mut Tally, key: &KeyTable, file: Part, fingerprint: u64) {
    let whole = M::from(Mark { fingerprint, bits: file.length() as u64 });
    let what = format!("reading, {:x}, {file:?}, {whole:?}", key.key);
    for way in key.ways() {
        let empty = M::begin(key.key).expect("an accepted key");
        tally.same(format_args!("{what}, fed by way {way}"), after(empty, |m| key.feed(way, m, file)), (whole, 0));
    }
    tally.same(&what, M::of(key.key, file), whole);
}

fn readings(tally: &mut Tally) {
    let empty = gfp::Mark { fingerprint: 1, bits: 0 };
    for (bytes, used, fingerprint) in READINGS {
        reading::<gfp::Mark>(tally, &KeyTable::new(KEY), part(bytes, used), fingerprint);
    }
    // 40 with u 3 and then 0A 10 with u 5 is 41 42
    let (front, back) = (gfp::Mark { fingerprint: 0x0a, bits: 3 }, gfp::Mark { fingerprint: 0x14, bits: 13 });
    let whole = gfp::Mark { fingerprint: 0x9d, bits: 16 };
    let (front_part, back_part) = (part(&[0x40], 3), part(&[0x0a, 0x10], 5));
    tally.same("reading, fed on", after(front, |m| m.feed(KEY, back_part)), (whole, 0));
    let fed = after(empty, |m| m.feed(KEY, front_part).and(m.feed(KEY, back_part)));
    tally.same("reading, fed in two parts", fed, (whole, 0));
    tally.same("reading, joined behind", after(front, |m| m.join_behind(KEY, back)), (whole, 0));
    tally.same("reading, joined in front", after(back, |m| m.join_in_front(KEY, front)), (whole, 0));
    // in 41 42 the first three bits of the second byte
    let changed = after(whole, |m| m.replace_page(KEY, 1, part(&[0x40], 3), part(&[0xa0], 3)));
    tally.same("reading, a page of 3 bits changed", changed, (gfp::Mark { fingerprint: 0x7d, bits: 16 }, 0));
    tally.same("reading, the file with that page", reference::mark_of(KEY, &[0x41, 0xa2]).fingerprint, 0x7d);
}

// ---- the limit

/// Marks and parts around the limit, and the number: a u outside 1 to 8 counts as 8, and 7 comes before 19.
fn limit(tally: &mut Tally) {
    let limit = reference::LIMIT;
    for (bits, bytes, used, number) in [
        (limit, &[][..], 8, 0),
        (limit, &[0], 1, 7),
        (limit, &[], 7, 19),
        (limit + 1, &[], 8, 7),
        (limit - 1, &[0], 1, 0),
        (limit - 1, &[0], 2, 7),
        (limit - 7, &[0], 7, 0),
        (limit - 7, &[0], 8, 7),
        (limit - 7, &[0], 0, 7),
        (limit - 7, &[0], 9, 7),
        (limit - 7, &[0], u32::MAX, 7),
        (limit - 7, &[1], 7, 19),
        (limit - 8, &[0], 8, 0),
        (limit - 8, &[0], 0, 19),
        (limit - 8, &[0], 9, 19),
        (limit - 11, &[0, 0], 3, 0),
        (limit - 11, &[0, 0], 4, 7),
        (limit - 11, &[0, 0], 0, 7),
        (u64::MAX, &[0], 1, 7),
        (u64::MAX - 6, &[0], 7, 7),
    ] {
        let mark = Mark { fingerprint: 0x5a, bits };
        let part = part(bytes, used);
        let answer = after(ours(mark), |m| m.feed(KEY, part));
        tally.same(&format!("the limit, {mark:?}, {part:?}"), answer.1, number);
        tally.same(&format!("the limit, {mark:?}, {part:?}"), answer, outcome(mark, reference::feed(KEY, mark, part)));
    }
    joins_at_limit::<gfp::Mark>(tally);
}

/// Marks joined at the limit and past it.
pub fn joins_at_limit<M: Kind>(tally: &mut Tally) {
    let limit = reference::LIMIT;
    for (a, b) in [(limit, 0), (limit - 3, 3), (0, limit)] {
        joined_at_limit::<M>(tally, a, b, 0);
    }
    for (a, b) in [(limit, 1), (limit - 3, 4), (limit + 1, 0), (0, limit + 1), (u64::MAX, 1), (1 << 63, 1 << 63)] {
        joined_at_limit::<M>(tally, a, b, 7);
    }
}

/// Marks of a and b bits joined, and the number.
fn joined_at_limit<M: Kind>(tally: &mut Tally, a: u64, b: u64, number: u32) {
    let (mark, other) = (Mark { fingerprint: 0x5a, bits: a }, Mark { fingerprint: 0x59, bits: b });
    let behind = after(M::from(mark), |m| m.join_behind(KEY, other.into()));
    let in_front = after(M::from(mark), |m| m.join_in_front(KEY, other.into()));
    let what = format!("the limit, {a} and {b} bits");
    tally.same(&what, (behind.1, in_front.1), (number, number));
    tally.same(&what, behind, outcome(mark, reference::join_behind(M::START, KEY, mark, other)));
    tally.same(&what, in_front, outcome(mark, reference::join_in_front(M::START, KEY, mark, other)));
}

/// A part of as many zero bytes as the limit has, fed to the empty mark under the house key: the fingerprint is a power
/// of t. One byte more passes the limit whatever u is.
fn longest_parts(tally: &mut Tally) {
    let bytes = vec![0; reference::LIMIT_BYTES as usize + 1];
    let empty = gfp::Mark { fingerprint: 1, bits: 0 };
    for used in [3, 8] {
        let n = reference::LIMIT - 8 + u64::from(used);
        let whole = gfp::Mark { fingerprint: reference::power_of_t(reference::polynomial(gfp::HOUSE_KEY), n), bits: n };
        let longest = part(&bytes[1..], used);
        tally.same("the longest part", after(empty, |m| m.feed_house(gfp::HOUSE_KEY, longest)), (whole, 0));
    }
    let mut sheet = [9; 40];
    let words = reference::table(KEY);
    for used in USED {
        let file = part(&bytes, used);
        let what = format!("one byte past the limit, u {used}");
        tally.same(&what, after(empty, |m| m.feed(KEY, file)), (empty, 7));
        tally.same(&what, after(empty, |m| m.feed_table(KEY, &words, file)), (empty, 7));
        tally.same(&what, after(empty, |m| m.feed_house(gfp::HOUSE_KEY, file)), (empty, 7));
        tally.same(&what, after(empty, |m| m.replace_page(KEY, 0, file, file)), (empty, 7));
        tally.same(&what, after(empty, |m| m.replace_page(KEY, 0, &[], file)), (empty, 7));
        tally.same(&what, gfp::write_sheet(KEY, 16, file, &mut sheet), Err(7));
        let right = reference::sheet(reference::WRITTEN, KEY, 16, b"AB");
        tally.same(&what, gfp::check_file(&right, file), Err(7));
    }
}

// ---- cuts

/// An accepted key with its table.
pub struct KeyTable {
    pub key: Key,
    words: Vec<u64>,
}

impl KeyTable {
    pub fn new(key: Key) -> Self {
        KeyTable { key, words: reference::table(key) }
    }

    /// The ways to feed, by number.
    pub fn ways(&self) -> std::ops::Range<u8> {
        0..if self.key == gfp::HOUSE_KEY { 3 } else { 2 }
    }

    pub fn feed(&self, way: u8, mark: &mut impl Kind, part: Part) -> Result<(), u32> {
        match way {
            0 => mark.feed(self.key, part),
            1 => mark.feed_table(self.key, &self.words, part),
            _ => mark.feed_house(self.key, part),
        }
    }

    /// A file cut in two at a bit: fed one part after the other, and both parts' marks joined.
    pub fn cut<M: Kind>(&self, tally: &mut Tally, file: &[bool], cut: usize, whole: M) {
        let parts = [pack(&file[..cut]), pack(&file[cut..])];
        let [front, back] = [parts[0].part(), parts[1].part()];
        let empty = M::from(Mark { fingerprint: M::START, bits: 0 });
        let what = format!("{:x}, {} bits cut at {cut}", self.key, file.len());
        for way in self.ways() {
            let fed = after(empty, |m| self.feed(way, m, front).and(self.feed(way, m, back)));
            tally.same(format_args!("{what}, fed by way {way}"), fed, (whole, 0));
        }
        let [first, last] = [front, back].map(|part| M::of(self.key, part));
        let behind = after(first, |m| m.join_behind(self.key, last));
        let in_front = after(last, |m| m.join_in_front(self.key, first));
        tally.same(format_args!("{what}, joined"), (behind, in_front), ((whole, 0), (whole, 0)));
    }
}

/// Files of 0 to 40 bytes and every u, cut at every bit.
fn cuts(tally: &mut Tally, generator: &mut Generator) {
    let k = generator.degree();
    let keys = [KEY, gfp::HOUSE_KEY, generator.accepted(k), generator.accepted(64)].map(KeyTable::new);
    for n in 0..=320 {
        let file: Vec<bool> = (0..n).map(|_| generator.one_in(2)).collect();
        for key in &keys {
            let whole = ours(reference::mark_of(key.key, pack(&file).part()));
            for cut in 0..=n {
                key.cut(tally, &file, cut, whole);
            }
        }
    }
}

/// A file of up to 2,000 bytes cut at random bits into several parts, each fed in a random way.
fn random_cuts(tally: &mut Tally, generator: &mut Generator) {
    let k = generator.degree();
    let key = KeyTable::new(if generator.one_in(3) { gfp::HOUSE_KEY } else { generator.accepted(k) });
    let n = generator.below(16_000) as usize;
    let file: Vec<bool> = (0..n).map(|_| generator.one_in(2)).collect();
    let start = generator.start(key.key, 2000);
    let (mut mark, mut at, mut numbers) = (ours(start), 0, Ok(()));
    while at < n {
        let most = [8, 30, 300, 16_000][generator.below(4) as usize];
        let to = (at + generator.below(most) as usize).min(n);
        let way = generator.below(key.ways().end.into()) as u8;
        numbers = numbers.and(key.feed(way, &mut mark, pack(&file[at..to]).part()));
        at = to;
    }
    let fingerprint = reference::divide(reference::polynomial(key.key), start.fingerprint, file.iter().copied());
    let whole = gfp::Mark { fingerprint, bits: start.bits + n as u64 };
    tally.same(format_args!("{:x}, {n} bits in parts", key.key), (mark, numbers), (whole, Ok(())));
}

// ---- u and the final byte

/// Parts of some bytes with every u: a final byte of zeros, of ones, clean, and with one unused bit that is 1.
fn parts(generator: &mut Generator) -> Vec<(Vec<u8>, u32)> {
    let mut all = Vec::new();
    for n in [0, 1, 2, 7, 8, 17, 64, 65] {
        for used in USED {
            let random = generator.bytes(n);
            let clean = cleaned(random.clone(), used);
            for i in 0..if n > 0 { 8 } else { 0 } {
                let mut dirty = clean.clone();
                dirty[n - 1] |= 1 << i;
                all.push((dirty, used));
            }
            all.extend([(random, used), (clean, used), (vec![0; n], used), (vec![0xff; n], used)]);
        }
    }
    all
}

/// Every call that takes one part or file.
fn one_part(tally: &mut Tally, key: &KeyTable, part: Part, generator: &mut Generator) {
    let mark = Mark { fingerprint: generator.residue(key.key.degree), bits: generator.below(100) };
    let what = format!("{:x}, {mark:?}, {part:?}", key.key);
    for way in key.ways() {
        let given = after(ours(mark), |m| key.feed(way, m, part));
        let second = outcome(mark, reference::feed(key.key, mark, part));
        tally.same(format_args!("{what}, fed by way {way}"), given, second);
    }
    let mut sheet = vec![9; 100];
    let number = gfp::write_sheet(key.key, 16, part, &mut sheet).err().unwrap_or(0);
    let second = reference::write_sheet(key.key, 16, part, &[9; 100]);
    tally.same(format_args!("{what}, sheet"), number, second.clone().err().unwrap_or(0));
    tally.same(format_args!("{what}, sheet"), sheet, second.unwrap_or(vec![9; 100]));
    for version in reference::versions(key.key) {
        let sheet = reference::sheet(version, key.key, 16, part.bytes);
        let numbers = (gfp::check_file(&sheet, part).err(), gfp::changed_range(&sheet, part).err());
        let number = reference::check_file(&sheet, part).err();
        tally.same(format_args!("{what}, checked, {version:?}"), numbers, (number, number));
        let same = gfp::check_file(&sheet, part) == Ok(gfp::Check::Same);
        tally.same(format_args!("{what}, same, {version:?}"), same, part.used == 8);
    }
}

fn used_bits(tally: &mut Tally, generator: &mut Generator) {
    for key in [KEY, gfp::HOUSE_KEY, generator.accepted(64)].map(KeyTable::new) {
        for (bytes, used) in parts(generator) {
            one_part(tally, &key, part(&bytes, used), generator);
        }
    }
}

// ---- pages

/// Pages of up to two bytes with every two u, clean and dirty, at every place of files of 0 to 20 bits.
fn small_pages(tally: &mut Tally) {
    let pages: [&[u8]; 6] = [b"", b"\0", b"\xff", b"\x80", b"A\0", b"A\xe0"];
    for (old, new) in pages.into_iter().flat_map(|old| pages.map(|new| (old, new))) {
        for (old_used, new_used) in USED.into_iter().flat_map(|old| USED.map(|new| (old, new))) {
            let (old, new) = (part(old, old_used), part(new, new_used));
            for (bits, place) in [(0, 0), (7, 0), (8, 0), (8, 1), (9, 1), (15, 1), (16, 0), (20, 1), (20, 3)] {
                let mark = Mark { fingerprint: 0x5a, bits };
                page_change(tally, KEY, mark, place, old, new);
            }
        }
    }
}

fn page_change(tally: &mut Tally, key: Key, mark: Mark, place: u64, old: Part, new: Part) {
    tally.same(
        format_args!("page at {place}, {old:?} by {new:?}, {key:x}, {mark:?}"),
        after(ours(mark), |m| m.replace_page(key, place, old, new)),
        outcome(mark, reference::replace_page(key, mark, place, old, new)),
    );
}

/// The mark's bits, the place, the u of two pages of one byte of zeros, and the number: a u of 0 whose 8 passes 9 or 10
/// gives that number, else 19.
const NUMBERS: [(u64, u64, u32, u32, u32); 15] = [
    (16, 1, 8, 8, 0),
    (16, 1, 0, 8, 19),
    (16, 1, 8, 9, 19),
    (16, 1, 0, u32::MAX, 19),
    (16, 1, 0, 7, 9),
    (16, 1, 7, 0, 9),
    (16, 1, 7, 9, 9),
    (15, 1, 7, 7, 0),
    (15, 1, 8, 8, 10),
    (15, 1, 0, 0, 10),
    (15, 1, 9, 8, 10),
    (15, 1, 0, 7, 9),
    (9, 1, 1, 1, 0),
    (8, 1, 1, 1, 10),
    (16, 2, 0, 0, 10),
];

fn page_numbers(tally: &mut Tally) {
    for (bits, place, old_used, new_used, number) in NUMBERS {
        let mark = gfp::Mark { fingerprint: 0x5a, bits };
        let given = after(mark, |m| m.replace_page(KEY, place, part(&[0], old_used), part(&[0], new_used)));
        let what = format!("pages of one byte with u {old_used} and {new_used} at {place}, {bits} bits");
        tally.same(&what, given, (mark, number));
    }
}

/// Places so far away that 8 times the place passes 2^64, with pages of no and of some bits: 10, and never 7.
fn far_places(tally: &mut Tally) {
    for place in [1 << 61, (1 << 61) + 1, 1 << 62, 1 << 63, (1 << 61) - 1, u64::MAX - 1, u64::MAX, reference::LIMIT] {
        for bits in [0, 8, 16, reference::LIMIT] {
            for page in [part(b"", 8), part(b"A", 8), part(b"A", 7), part(b"\0", 0), part(b"", 7), part(b"AB", 7)] {
                let mark = Mark { fingerprint: 0x5a, bits };
                let given = after(ours(mark), |m| m.replace_page(KEY, place, page, page));
                tally.same(&format!("place {place}, {page:?}, {bits} bits"), given, (ours(mark), 10));
                page_change(tally, KEY, mark, place, page, page);
            }
        }
    }
    // the last places at which a page fits
    let mark = Mark { fingerprint: 0x5a, bits: reference::LIMIT };
    for (page, last) in [(part(b"", 8), 0), (part(b"\0", 1), 1), (part(b"A", 8), 1), (part(b"A\0", 1), 2)] {
        let place = reference::LIMIT_BYTES - last;
        for (place, number) in [(place, 0), (place + 1, 10)] {
            let given = after(ours(mark), |m| m.replace_page(KEY, place, page, page));
            tally.same(&format!("page at {place} of the longest file, {page:?}"), given, (ours(mark), number));
        }
    }
}

/// Pages of every number of bits at every byte of files of some numbers of bits, changed: the mark of the changed file.
pub fn pages_anywhere<M: Kind>(tally: &mut Tally, generator: &mut Generator) {
    let k = generator.degree();
    for key in [KEY, gfp::HOUSE_KEY, generator.accepted(k), generator.accepted(64)] {
        for n in [0, 1, 7, 8, 9, 23, 40, 61] {
            let file: Vec<bool> = (0..n).map(|_| generator.one_in(2)).collect();
            let mark = M::of(key, pack(&file).part());
            for place in 0..=n / 8 {
                for size in 0..=n - 8 * place {
                    let mut changed = file.clone();
                    let page = &mut changed[8 * place..8 * place + size];
                    let old = pack(page);
                    page.iter_mut().for_each(|bit| *bit = generator.one_in(2));
                    let new = pack(page);
                    let whole = M::of(key, pack(&changed).part());
                    let given = after(mark, |m| m.replace_page(key, place as u64, old.part(), new.part()));
                    tally.same(format_args!("page of {size} bits at byte {place} of {n} bits"), given, (whole, 0));
                }
            }
        }
    }
}

pub fn run(tally: &mut Tally, rounds: u64) {
    let mut generator = Generator::new(10);
    readings(tally);
    limit(tally);
    longest_parts(tally);
    small_pages(tally);
    page_numbers(tally);
    far_places(tally);
    for _ in 0..rounds {
        cuts(tally, &mut generator);
        used_bits(tally, &mut generator);
        pages_anywhere::<gfp::Mark>(tally, &mut generator);
    }
    for _ in 0..rounds * 300 {
        random_cuts(tally, &mut generator);
    }
}
