//! Beginning and feeding marks, by bits and by tables, and the tables themselves. Suite feeding.rs has long parts.
use crate::{generator::Generator, gfp, kinds::{after, ours, outcome, Kind}, reference::{self, Part}, Key, Tally};

/// t^8 + t^4 + t^3 + t + 1, and t^64 + t^4 + t^3 + t + 1.
const EIGHT: Key = Key { degree: 8, word: 0x1b };
const SIXTY_FOUR: Key = Key { degree: 64, word: 0x1b };

/// Document 01, "Bench readings": files and fingerprints under the key 0x11B.
const READINGS: [(&[u8], u64); 8] = [
    (&[], 0x01),
    (&[0x00], 0x1b),
    (&[0x1b], 0x00),
    (&[0x41], 0x5a),
    (&[0x42], 0x59),
    (&[0x41, 0x42], 0x9d),
    (&[0x00, 0x00], 0x5e),
    (&[0x01, 0x1b], 0x5e),
];

/// The same under the key of degree 64. Nine bytes 00, and 01, seven times 00 and 1B differ across 65 bits, one more than k.
const READINGS_64: [(&[u8], u64); 7] = [
    (&[], 0x01),
    (&[0x41, 0x42], 0x14142),
    (&[0; 8], 0x1b),
    (&[0, 0, 0, 0, 0, 0, 0, 0x1b], 0x00),
    (&[0xff; 8], 0xffff_ffff_ffff_ffe4),
    (&[0; 9], 0x1b00),
    (&[0x01, 0, 0, 0, 0, 0, 0, 0, 0x1b], 0x1b00),
];

fn readings_under(tally: &mut Tally, key: Key, table_words: &[(usize, u64)], files: &[(&[u8], u64)]) {
    let mut words = vec![0; gfp::TABLE_WORDS];
    tally.same(&format!("table of {key:x}"), gfp::make_table(key, &mut words), Ok(()));
    for &(n, word) in table_words {
        tally.same(&format!("reading, {key:x}, table word {n}"), words[n], word);
        tally.same(&format!("reading, {key:x}, table word {n}"), reference::table_word(key, n), word);
    }
    for &(file, fingerprint) in files {
        let empty = gfp::begin(key).expect("an accepted key");
        let whole = gfp::Mark { fingerprint, bits: 8 * file.len() as u64 };
        tally.same("reading, fed by bits", after(empty, |m| m.feed(key, file)), (whole, 0));
        tally.same("reading, fed by table", after(empty, |m| m.feed_table(key, &words, file)), (whole, 0));
        tally.same("reading, the second implementation", ours(reference::mark_of(key, file)), whole);
    }
    let long = gfp::Mark { fingerprint: 1, bits: reference::LIMIT };
    tally.same("reading, one byte past the limit", after(long, |m| m.feed(key, &[0])), (long, 7));
    tally.same("reading, nothing at the limit", after(long, |m| m.feed(key, &[])), (long, 0));
}

fn readings(tally: &mut Tally) {
    readings_under(tally, EIGHT, &[(1, 0x1b), (2, 0x36), (128, 0x2f), (257, 0x5e)], &READINGS);
    readings_under(tally, SIXTY_FOUR, &[(1, 0x1b), (128, 0xd80), (257, 0x1b00)], &READINGS_64);
}

/// Every call that takes a mark, with a mark and another one.
fn every_call<M: Kind>(key: Key, mark: reference::Mark, other: reference::Mark, part: &[u8]) -> [((M, u32), (M, u32)); 7] {
    let (words, [part, old, new]) = (reference::table(key), [part, &part[..2], &part[2..4]].map(Part::from));
    let (start, [x, y]) = (M::START, [mark, other].map(M::from));
    [
        (after(x, |m| m.feed(key, part)), outcome(mark, reference::feed(key, mark, part))),
        (after(x, |m| m.feed_table(key, &words, part)), outcome(mark, reference::feed(key, mark, part))),
        (after(x, |m| m.join_behind(key, y)), outcome(mark, reference::join_behind(start, key, mark, other))),
        (after(y, |m| m.join_behind(key, x)), outcome(other, reference::join_behind(start, key, other, mark))),
        (after(x, |m| m.join_in_front(key, y)), outcome(mark, reference::join_in_front(start, key, mark, other))),
        (after(y, |m| m.join_in_front(key, x)), outcome(other, reference::join_in_front(start, key, other, mark))),
        (after(x, |m| m.replace_page(key, 1, old, new)), outcome(mark, reference::replace_page(key, mark, 1, old, new))),
    ]
}

/// Fingerprints around 2^62 and 2^63 and of all ones: under keys of degree 64 all are residues, under keys of degree 62 and 63 those that are
/// not below 2^k give 8.
pub fn large_fingerprints<M: Kind>(tally: &mut Tally, generator: &mut Generator) {
    for k in [62, 63, 64] {
        let stock = reference::stock_key(k).expect("a degree of the stock list");
        for key in [stock, generator.accepted(k)] {
            for fingerprint in [1 << 62, 1 << 63, (1 << 63) - 1, (1 << 63) + 1, u64::MAX - 1, u64::MAX, generator.next() | 1 << 63] {
                let mark = reference::Mark { fingerprint, bits: 24 + generator.below(1000) };
                let small = reference::Mark { fingerprint: 5, bits: 77 };
                let number = if k < 64 && fingerprint >> k != 0 { 8 } else { 0 };
                let what = format!("{key:x}, fingerprint {fingerprint:#x}");
                for (i, (given, second)) in every_call::<M>(key, mark, small, &generator.bytes(11)).into_iter().enumerate() {
                    tally.same(format_args!("call {i}, {what}"), given, second);
                    tally.same(format_args!("call {i}, {what}"), given.1, number);
                }
                let turned = (M::from(mark).turn(key), reference::turn(key, mark).map(M::Other::from));
                tally.same(format_args!("turn, {what}"), turned.0, turned.1);
                tally.same(format_args!("turn, {what}"), turned.0.err().unwrap_or(0), number);
            }
        }
    }
}

/// A file fed whole, by bits, by tables, and in two parts cut at every place.
fn cuts(tally: &mut Tally, generator: &mut Generator) {
    let k = generator.degree();
    let key = generator.accepted(k);
    let words = reference::table(key);
    let n = generator.below(40) as usize;
    let file = generator.bytes(n);
    let whole = ours(reference::mark_of(key, &file));
    for cut in 0..=n {
        let (front, back) = file.split_at(cut);
        let by_bits = after(gfp::begin(key).expect("an accepted key"), |m| m.feed(key, front).and(m.feed(key, back)));
        let by_table = after(gfp::begin(key).expect("an accepted key"), |m| m.feed_table(key, &words, front).and(m.feed_table(key, &words, back)));
        tally.same(&format!("key {key:x}, file of {n} bytes cut at {cut}, by bits"), by_bits, (whole, 0));
        tally.same(&format!("key {key:x}, file of {n} bytes cut at {cut}, by table"), by_table, (whole, 0));
    }
}

/// A part fed by the house key's words under any key.
fn house<M: Kind>(tally: &mut Tally, key: Key, mark: reference::Mark, part: Part) {
    tally.same(
        &format!("feed by the house key's words, key {key:x}, {:?}, part of {part:?}", M::from(mark)),
        after(M::from(mark), |m| m.feed_house(key, part)),
        outcome(mark, reference::feed_house(key, mark, part)),
    );
}

/// A part fed in each way.
fn feeds<M: Kind>(tally: &mut Tally, key: Key, mark: reference::Mark, words: &[u64], part: Part) {
    let what = format!("key {key:x}, {:?}, part of {part:?}", M::from(mark));
    tally.same(
        &format!("feed, {what}"),
        after(M::from(mark), |m| m.feed(key, part)),
        outcome(mark, reference::feed(key, mark, part)),
    );
    tally.same(
        &format!("feed by table of {} words, {what}", words.len()),
        after(M::from(mark), |m| m.feed_table(key, words, part)),
        outcome(mark, reference::feed_table(key, mark, words, part)),
    );
    house::<M>(tally, key, mark, part);
}

/// Keys that share all words of their tables: both are fed by either table. t^42 + t^5 + t^2 + t + 1 shares those of the house key,
/// t^41 + t^4 + t^3 + t + 1 those of the stock key of degree 64.
fn shared_words(tally: &mut Tally, generator: &mut Generator) {
    let pair = |degree: u32, word: u64| Key { degree, word };
    for (one, other) in [(pair(60, 3), pair(63, 3)), (gfp::HOUSE_KEY, pair(42, 0x27)), (SIXTY_FOUR, pair(41, 0x1b))] {
        let words = reference::table(one);
        tally.same(&format!("tables of {one:x} and {other:x}"), reference::table(other), words.clone());
        for key in [one, other] {
            let (mut made, part) = (vec![0; gfp::TABLE_WORDS], generator.bytes(5000));
            tally.same(&format!("table of {key:x}"), (gfp::make_table(key, &mut made), made), (Ok(()), words.clone()));
            let whole = ours(reference::mark_of(key, &part));
            let empty = gfp::begin(key).expect("an accepted key");
            tally.same(&format!("shared table, key {key:x}"), after(empty, |m| m.feed_table(key, &words, &part)), (whole, 0));
            let expected = if one == gfp::HOUSE_KEY { (whole, 0) } else { (empty, 6) };
            tally.same(&format!("the house key's words, key {key:x}"), after(empty, |m| m.feed_house(key, &part)), expected);
        }
    }
}

/// One call of each kind on random input, good and bad.
fn calls(tally: &mut Tally, generator: &mut Generator) {
    let key = generator.key();
    let mark = generator.mark(key);
    let n = if generator.one_in(50) { 4000 + generator.below(9000) } else { generator.below(80) };
    let used = generator.used();
    let bytes = generator.bytes_used(n as usize, used);
    let part = Part { bytes: &bytes, used };
    let words = generator.table(key);
    let second_begin = reference::begin(key).map(ours);
    tally.same(&format!("begin, key {key:x}"), gfp::begin(key), second_begin);
    feeds::<gfp::Mark>(tally, key, mark, &words, part);
    feeds::<gfp::PlainMark>(tally, key, mark, &words, part);
    tally.same(&format!("test of table, key {key:x}"), gfp::test_table(key, &words), reference::test_table(key, &words));
    house::<gfp::Mark>(tally, gfp::HOUSE_KEY, generator.mark(gfp::HOUSE_KEY), part);
    house::<gfp::PlainMark>(tally, gfp::HOUSE_KEY, generator.mark(gfp::HOUSE_KEY), part);
    let mut made = words.clone();
    let number = gfp::make_table(key, &mut made).err().unwrap_or(0);
    let second = reference::make_table(key, &words);
    tally.same(&format!("make table, key {key:x}"), number, second.clone().err().unwrap_or(0));
    tally.same(&format!("words made, key {key:x}"), made, second.unwrap_or(words));
}

/// Each bit of each word of a table, changed: the table is refused.
fn damaged_tables(tally: &mut Tally, generator: &mut Generator) {
    for k in [8, 31, 61, 63, 64] {
        let key = generator.accepted(k);
        let words = reference::table(key);
        tally.same(&format!("table of {key:x}"), gfp::test_table(key, &words), Ok(()));
        for n in 0..1024 {
            let mut damaged = words.clone();
            damaged[n] ^= 1 << generator.below(64);
            tally.same(&format!("table of {key:x}, word {n} changed"), gfp::test_table(key, &damaged), Err(6));
        }
    }
}

pub fn run(tally: &mut Tally, rounds: u64) {
    let mut generator = Generator::new(4);
    readings(tally);
    large_fingerprints::<gfp::Mark>(tally, &mut generator);
    damaged_tables(tally, &mut generator);
    shared_words(tally, &mut generator);
    for _ in 0..rounds * 100 {
        cuts(tally, &mut generator);
    }
    for _ in 0..rounds * 2000 {
        calls(tally, &mut generator);
    }
}
