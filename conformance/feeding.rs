//! Feeding at every length. The library may go another way for another key, call or length of the part; here every such change is crossed:
//! parts of every length up to 10,000, files up to 1 MiB cut at random, parts at every offset from an aligned address, and parts of equal bytes
//! and of a single bit around the lengths at which a way may change. What is expected is the second implementation's, one byte after another.
//! At the lengths at which a way may change, and at every ninth, the final byte also has less than 8 used bits. Suite
//! bits.rs cuts at every bit.
use crate::{generator::{cleaned, Generator}, gfp, kinds::{after, ours}, Key, Tally};
use crate::reference::{self, ByteSteps, Mark, Part};
use std::{collections::BTreeSet, fmt::Display};

/// Parts up to this length are fed at every length.
const EVERY: usize = 10_000;
/// The longest part.
const LONGEST: usize = 1 << 20;
/// The degrees whose keys are fed at every length: the least and the greatest, and those beside the widths of words and of groups of bytes.
const DEGREES: [u32; 9] = [8, 31, 32, 33, 55, 56, 61, 63, 64];
/// t^42 + t^5 + t^2 + t + 1: its table is the house key's.
const SHARES_HOUSE_TABLE: Key = Key { degree: 42, word: 0x27 };

/// The lengths beside which a way may change: the powers of two and the sizes of groups, words and blocks, up to n, and two on either side.
pub fn turning_lengths(n: usize) -> Vec<usize> {
    let powers = (0..32).map(|i| 1 << i);
    let sizes = powers.chain([7, 56, 122, 488, 496, 768, 4032, 4520, 8064]).filter(|&size| size <= n);
    let lengths: BTreeSet<usize> = sizes.flat_map(|size: usize| size.saturating_sub(2)..=size + 2).collect();
    lengths.into_iter().collect()
}

/// A call that feeds.
#[derive(Clone, Copy, Debug, PartialEq)]
enum Call {
    Feed,
    FeedTable,
    FeedHouse,
}
use Call::{Feed, FeedHouse, FeedTable};

/// An accepted key, with its table and the second implementation's steps.
struct KeyTable {
    key: Key,
    words: Vec<u64>,
    steps: ByteSteps,
}

impl KeyTable {
    fn new(key: Key) -> Self {
        KeyTable { key, words: reference::table(key), steps: ByteSteps::new(key) }
    }

    fn house() -> Self {
        KeyTable::new(gfp::HOUSE_KEY)
    }

    fn stock(k: u32) -> Self {
        KeyTable::new(reference::stock_key(k).expect("a degree of the stock list"))
    }

    /// The calls that are not refused under the key.
    fn calls(&self) -> &'static [Call] {
        if [gfp::HOUSE_KEY, SHARES_HOUSE_TABLE].contains(&self.key) {
            &[Feed, FeedTable, FeedHouse]
        } else {
            &[Feed, FeedTable]
        }
    }

    /// One call: the mark that it leaves has the expected fingerprint, and the part's length is added.
    fn compare<'a>(
        &self,
        tally: &mut Tally,
        call: Call,
        start: Mark,
        part: impl Into<Part<'a>>,
        what: impl Display,
        fingerprint: u64,
    ) {
        let part = part.into();
        let given = after(ours(start), |m| match call {
            Feed => m.feed(self.key, part),
            FeedTable => m.feed_table(self.key, &self.words, part),
            FeedHouse => m.feed_house(self.key, part),
        });
        let expected = gfp::Mark { fingerprint, bits: start.bits + part.length() as u64 };
        let name = format_args!("{call:?}, {:x}, start {start:?}, {what}, part of {part:?}", self.key);
        tally.same(name, given, (expected, 0));
    }

    /// A part with 1 to 7 used bits of the final byte, of which the others are 0 in the call; `before` is the residue
    /// behind all bytes but that one.
    fn compare_unfinished(&self, tally: &mut Tally, call: Call, start: Mark, part: &mut [u8], what: &str, before: u64) {
        let (used, end) = (1 + part.len() as u32 % 7, part.len() - 1);
        let whole = part[end];
        part[end] = cleaned(vec![whole], used)[0];
        let fingerprint = reference::divide(reference::polynomial(self.key), before, Part { bytes: &part[end..], used }.bits());
        self.compare(tally, call, start, Part { bytes: part, used }, what, fingerprint);
        part[end] = whole;
    }

    /// The fronts of a part, at each of the lengths.
    fn compare_fronts(&self, tally: &mut Tally, call: Call, start: Mark, part: &[u8], what: &str, lengths: impl Iterator<Item = usize>) {
        let expected = self.steps.behind_each(start.fingerprint, part);
        for n in lengths {
            self.compare(tally, call, start, &part[..n], what, expected[n]);
        }
    }

    /// The fronts of a part, at each of the lengths, with 1 to 7 used bits of the final byte.
    fn compare_unfinished_fronts(&self, tally: &mut Tally, call: Call, start: Mark, part: &[u8], lengths: &[usize]) {
        let expected = self.steps.behind_each(start.fingerprint, part);
        let mut bytes = part.to_vec();
        for &n in lengths.iter().filter(|&&n| n > 0) {
            self.compare_unfinished(tally, call, start, &mut bytes[..n], "unfinished", expected[n - 1]);
        }
    }
}

/// The second implementation itself: its byte steps are compared with its long division bit by bit, under two keys of each degree. A difference
/// stops the run.
fn byte_steps(generator: &mut Generator) {
    for k in 8..=64 {
        for key in [generator.accepted(k), generator.accepted_with_low_part(k)] {
            let n = generator.below(3000) as usize;
            let (start, part) = (generator.start(key, n), generator.bytes(n));
            let steps = ByteSteps::new(key);
            let by_bytes = (steps.divide(start.fingerprint, &part), steps.behind_each(start.fingerprint, &part)[n]);
            let by_bits = reference::feed(key, start, &part).expect("a mark that can be fed").fingerprint;
            assert_eq!(by_bytes, (by_bits, by_bits), "the second implementation by bytes and by bits, {key:x}, start {start:?}, part of {n} bytes");
        }
    }
}

/// Random bytes of every length up to 10,000, behind a random start for each call.
fn every_length(tally: &mut Tally, generator: &mut Generator, key: &KeyTable, calls: &[Call]) {
    for &call in calls {
        let (start, part) = (generator.start(key.key, EVERY), generator.bytes(EVERY));
        key.compare_fronts(tally, call, start, &part, "random bytes", 0..=EVERY);
        let every_ninth: Vec<usize> = (0..=EVERY).step_by(9).collect();
        key.compare_unfinished_fronts(tally, call, start, &part, &every_ninth);
    }
}

/// Random bytes of random lengths up to 10,000, by gfp_feed, which takes its time under a drawn key.
fn random_lengths(tally: &mut Tally, generator: &mut Generator, key: &KeyTable) {
    let (start, part) = (generator.start(key.key, EVERY), generator.bytes(EVERY));
    let lengths: Vec<usize> = (0..200).map(|_| generator.below(EVERY as u64 + 1) as usize).collect();
    key.compare_fronts(tally, Feed, start, &part, "random bytes", lengths.into_iter());
}

/// Zero bytes, bytes of ones and random bytes, behind a start of ones and a random one, at the lengths beside which a way may change.
fn at_turning_lengths(tally: &mut Tally, generator: &mut Generator, key: &KeyTable, calls: &[Call], longest: usize) {
    let lengths = turning_lengths(longest);
    let n = lengths.last().copied().unwrap_or(0);
    let ones = Mark { fingerprint: u64::MAX >> (64 - key.key.degree), bits: reference::LIMIT - 8 * n as u64 };
    for (what, part) in [("zero bytes", vec![0; n]), ("bytes of ones", vec![0xff; n]), ("random bytes", generator.bytes(n))] {
        for &call in calls {
            for start in [ones, generator.start(key.key, n)] {
                key.compare_fronts(tally, call, start, &part, what, lengths.iter().copied());
            }
            key.compare_unfinished_fronts(tally, call, ones, &part, &lengths);
        }
    }
}

/// The places of the bytes that are tried in a part of n bytes: all of them, or some random ones by gfp_feed.
fn tried_places(generator: &mut Generator, call: Call, n: usize) -> Vec<usize> {
    match call {
        Feed => (0..n.min(20)).map(|_| generator.below(n as u64) as usize).collect(),
        FeedTable | FeedHouse => (0..n).collect(),
    }
}

/// Parts of zero bits but one, at the lengths up to 10,000 beside which a way may change: a random bit of each byte of the part, in turn.
/// Where m bits stand behind it, the fingerprint is that of the zero bits plus t^m.
fn single_bits(tally: &mut Tally, generator: &mut Generator, key: &KeyTable) {
    let zero = |f: &u64| Some(reference::divide(reference::polynomial(key.key), *f, std::iter::once(false)));
    let powers_of_t: Vec<u64> = std::iter::successors(Some(1), zero).take(8 * EVERY).collect();
    for &call in key.calls() {
        let start = generator.start(key.key, EVERY);
        let zeros = key.steps.behind_each(start.fingerprint, &[0; EVERY]);
        for n in turning_lengths(EVERY) {
            let mut part = vec![0; n];
            for place in tried_places(generator, call, n) {
                let bit = generator.below(8) as usize;
                part[place] = 1 << bit;
                let what = format_args!("bit {bit} of byte {place} alone");
                key.compare(tally, call, start, &part, what, zeros[n] ^ powers_of_t[8 * (n - 1 - place) + bit]);
                part[place] = 0;
            }
        }
    }
}

/// Random bytes at each of 64 offsets from an aligned address.
fn offsets(tally: &mut Tally, generator: &mut Generator, key: &KeyTable) {
    let room = generator.bytes(EVERY + 128);
    let aligned = room.as_ptr().align_offset(64);
    for offset in 0..64 {
        for n in [1, 3, 7, 8, 15, 56, 61, 64, 100, 255, 500, 767, 1000, 1024, 2000, 4096, 4520, 9000] {
            let part = &room[aligned + offset..][..n];
            for &call in key.calls() {
                let start = generator.start(key.key, n);
                let fingerprint = key.steps.divide(start.fingerprint, part);
                key.compare(tally, call, start, part, format_args!("random bytes at offset {offset} from an aligned address"), fingerprint);
            }
        }
    }
}

/// The length of the next part of a file: nothing, a few bytes, or up to as many as are left.
fn next_length(generator: &mut Generator, left: usize) -> usize {
    let most = [0, 16, 600, EVERY, 100_000, left][generator.below(6) as usize];
    generator.below(most.min(left) as u64 + 1) as usize
}

/// A file of up to 1 MiB behind a random start, cut in random parts, each fed by a random call.
fn random_cuts(tally: &mut Tally, generator: &mut Generator, key: &KeyTable) {
    let size = generator.below(LONGEST as u64 + 1) as usize;
    let (start, file) = (generator.start(key.key, size), generator.bytes(size));
    let expected = key.steps.behind_each(start.fingerprint, &file);
    let mut at = 0;
    while at < size {
        let n = next_length(generator, size - at);
        let call = key.calls()[generator.below(key.calls().len() as u64) as usize];
        let mark = Mark { fingerprint: expected[at], bits: start.bits + 8 * at as u64 };
        let what = format_args!("from byte {at} of a file of {size} bytes");
        key.compare(tally, call, mark, &file[at..at + n], what, expected[at + n]);
        at += n;
    }
}

/// Keys of every degree: the stock key, a random one, and one with a short low part.
fn every_degree(tally: &mut Tally, generator: &mut Generator) {
    for k in 8..=64 {
        for key in [KeyTable::stock(k), KeyTable::new(generator.accepted(k)), KeyTable::new(generator.accepted_with_low_part(k))] {
            at_turning_lengths(tally, generator, &key, key.calls(), 5000);
            random_cuts(tally, generator, &key);
        }
    }
}

/// Stock and drawn keys of some degrees, at every length.
fn some_degrees(tally: &mut Tally, generator: &mut Generator) {
    for k in DEGREES {
        let stock = KeyTable::stock(k);
        every_length(tally, generator, &stock, &[Feed, FeedTable]);
        let drawn = KeyTable::new(generator.accepted(k));
        every_length(tally, generator, &drawn, &[FeedTable]);
        random_lengths(tally, generator, &drawn);
        for key in [stock, drawn] {
            at_turning_lengths(tally, generator, &key, &[FeedTable], LONGEST);
            offsets(tally, generator, &key);
        }
    }
}

/// The house key, and the key that shares its table.
fn house(tally: &mut Tally, generator: &mut Generator) {
    for key in [KeyTable::house(), KeyTable::new(SHARES_HOUSE_TABLE)] {
        every_length(tally, generator, &key, key.calls());
        at_turning_lengths(tally, generator, &key, key.calls(), LONGEST);
        single_bits(tally, generator, &key);
        offsets(tally, generator, &key);
        for _ in 0..60 {
            random_cuts(tally, generator, &key);
        }
    }
}

pub fn run(tally: &mut Tally, rounds: u64) {
    let mut generator = Generator::new(9);
    for _ in 0..rounds {
        byte_steps(&mut generator);
        house(tally, &mut generator);
        some_degrees(tally, &mut generator);
        for key in [KeyTable::new(generator.accepted(32)), KeyTable::new(generator.accepted(61)), KeyTable::stock(63), KeyTable::stock(64)] {
            single_bits(tally, &mut generator, &key);
        }
        every_degree(tally, &mut generator);
    }
}
