//! Plain marks (document 02, wish 9): the readings; turning at every bit of a file, both ways, fed to the end in every way; turning at every
//! length up to some and at the limit; marks that no file has, under keys of every degree. What is expected is the second implementation's:
//! long division from 0, and of ours from 1. Suites compose.rs and orders.rs have lists of plain calls and the order of their refusals.
use crate::bits::{self, KeyTable};
use crate::generator::Generator;
use crate::kinds::{after, begun_in_places, ours, outcome, turned_in_places, Kind};
use crate::reference::{self, pack, Mark, Part};
use crate::{gfp, marks, Key, Tally};

const KEY: Key = Key { degree: 8, word: 0x1b };
const KEY_64: Key = Key { degree: 64, word: 0x1b };

fn mark(fingerprint: u64, bits: u64) -> Mark {
    Mark { fingerprint, bits }
}

// ---- readings

/// Files, the used bits of their final byte, and their plain fingerprints under 0x11B. Four of them share 0.
const READINGS: [(&[u8], u32, u64); 8] = [
    (&[], 8, 0x00),
    (&[0x00], 8, 0x00),
    (&[0x00, 0x00], 8, 0x00),
    (&[0x01, 0x1b], 8, 0x00),
    (&[0x41], 8, 0x41),
    (&[0x41, 0x42], 8, 0xc3),
    (&[0x41, 0x40], 3, 0x3c),
    (&[0x40], 3, 0x02),
];

/// The same under t^64 + t^4 + t^3 + t + 1.
const READINGS_64: [(&[u8], u32, u64); 4] = [
    (&[], 8, 0x00),
    (&[0x41, 0x42], 8, 0x4142),
    (&[0; 9], 8, 0x00),
    (&[0x01, 0, 0, 0, 0, 0, 0, 0, 0x1b], 8, 0x00),
];

/// A key, a length, and two fingerprints: each turns into the other.
const TURNED: [(Key, u64, u64, u64); 10] = [
    (KEY, 16, 0xc3, 0x9d),
    (KEY, 8, 0x41, 0x5a),
    (KEY, 3, 0x02, 0x0a),
    (KEY, 0, 0x00, 0x01),
    (gfp::HOUSE_KEY, 0, 0x00, 0x01),
    (KEY_64, 0, 0x00, 0x01),
    (KEY_64, 72, 0x00, 0x1b00),
    (KEY, reference::LIMIT, 0x00, 0x01),
    (gfp::HOUSE_KEY, reference::LIMIT, 0x00, 0x10af_e820_511c_00ee),
    (KEY_64, reference::LIMIT, 0x00, 0x19b3_fcc2_ab36_99fd),
];

/// A key, a mark, and the number that turning it gives.
const REFUSED: [(Key, u64, u64, u32); 7] = [
    (KEY, 0x00, reference::LIMIT + 1, 7),
    (gfp::HOUSE_KEY, 0x00, reference::LIMIT + 1, 7),
    (KEY_64, 0x00, reference::LIMIT + 1, 7),
    (KEY, 0x100, 8, 8),
    (KEY, 0x100, reference::LIMIT + 1, 7),
    (Key { degree: 7, word: 0 }, 0x100, 8, 1),
    (Key { degree: 7, word: 0 }, 0x100, reference::LIMIT + 1, 1),
];

fn readings(tally: &mut Tally) {
    for (key, files) in [(KEY, &READINGS[..]), (KEY_64, &READINGS_64)] {
        let key = KeyTable::new(key);
        for &(bytes, used, fingerprint) in files {
            bits::reading::<gfp::PlainMark>(tally, &key, Part { bytes, used }, fingerprint);
        }
    }
    for (key, bits, f, g) in TURNED {
        for (from, to) in [(f, g), (g, f)] {
            let what = format!("reading, {key:x}, {from:x} of {bits} bits turned");
            tally.same(&what, turned_in_places(key, mark(from, bits)), (mark(to, bits), 0));
            tally.same(&what, reference::turn(key, mark(from, bits)), Ok(mark(to, bits)));
        }
    }
    for (key, fingerprint, bits, number) in REFUSED {
        let what = format!("reading, {key:x}, {fingerprint:x} of {bits} bits turned");
        tally.same(&what, turned_in_places(key, mark(fingerprint, bits)), (mark(fingerprint, bits), number));
        tally.same(&what, reference::turn(key, mark(fingerprint, bits)), Err(number));
    }
}

/// 41 42 under 0x11B in two parts, turned between them: after the first byte, and after three bits.
fn readings_between_parts(tally: &mut Tally) {
    let key = KeyTable::new(KEY);
    let part = |bytes, used| Part { bytes, used };
    for (front, back) in [(part(&[0x41], 8), part(&[0x42], 8)), (part(&[0x40], 3), part(&[0x0a, 0x10], 5))] {
        for way in key.ways() {
            let what = format!("reading, {front:?} turned, {back:?} fed behind by way {way}");
            tally.same(&what, turned_between::<gfp::PlainMark>(&key, way, front, back), Ok(ours(mark(0x9d, 16))));
            tally.same(&what, turned_between::<gfp::Mark>(&key, way, front, back), Ok(mark(0xc3, 16).into()));
        }
    }
}

/// Joins under 0x11B, and a page changed.
fn readings_in_calls(tally: &mut Tally) {
    let plain = |fingerprint, bits| gfp::PlainMark { fingerprint, bits };
    // the second is document 01's trap: marks of ours joined by 003's equation (10) as it stands
    for (front, back, joined) in [(0x41, 0x42, 0xc3), (0x5a, 0x59, 0x86)] {
        let behind = after(plain(front, 8), |m| m.join_behind(KEY, plain(back, 8)));
        let in_front = after(plain(back, 8), |m| m.join_in_front(KEY, plain(front, 8)));
        let what = format!("reading, plain join of {front:x} and {back:x}");
        tally.same(&what, (behind, in_front), ((plain(joined, 16), 0), (plain(joined, 16), 0)));
        let second = reference::join_behind(0, KEY, mark(front, 8), mark(back, 8));
        tally.same(&what, second, Ok(mark(joined, 16)));
    }
    let (old, new) = (Part { bytes: &[0x40], used: 3 }, Part { bytes: &[0xa0], used: 3 });
    let changed = after(plain(0xc3, 16), |m| m.replace_page(KEY, 1, old, new));
    tally.same("reading, a page of 3 bits changed", changed, (plain(0x23, 16), 0));
    tally.same("reading, the file with that page", reference::mark_from(0, KEY, &[0x41, 0xa2]), mark(0x23, 16));
}

// ---- turning in the middle of a file

/// A file begun as one kind, turned between two parts, and fed to its end as the other.
fn turned_between<M: Kind>(key: &KeyTable, way: u8, front: Part, back: Part) -> Result<M::Other, u32> {
    let mut begun = M::begin(key.key)?;
    key.feed(way, &mut begun, front)?;
    let mut turned = begun.turn(key.key)?;
    key.feed(way, &mut turned, back)?;
    Ok(turned)
}

/// A file turned at a bit: in every way the other kind's mark of the whole file.
fn turned_at<M: Kind>(tally: &mut Tally, key: &KeyTable, file: &[bool], cut: usize) {
    let parts = [pack(&file[..cut]), pack(&file[cut..])];
    let whole = M::Other::of(key.key, pack(file).part());
    for way in key.ways() {
        let what = format_args!("{:x}, {} bits turned at {cut}, fed by way {way}", key.key, file.len());
        tally.same(what, turned_between::<M>(key, way, parts[0].part(), parts[1].part()), Ok(whole));
    }
}

/// Files of some lengths, turned at every bit, both ways; and their plain marks, fed and joined at every bit.
fn turned_anywhere(tally: &mut Tally, generator: &mut Generator) {
    let k = generator.degree();
    for key in [KEY, gfp::HOUSE_KEY, generator.accepted(k), generator.accepted(64)].map(KeyTable::new) {
        for n in (0..=72).chain([127, 128, 129, 200, 320]) {
            let file: Vec<bool> = (0..n).map(|_| generator.one_in(2)).collect();
            let whole = gfp::PlainMark::of(key.key, pack(&file).part());
            for cut in 0..=n {
                turned_at::<gfp::PlainMark>(tally, &key, &file, cut);
                turned_at::<gfp::Mark>(tally, &key, &file, cut);
                key.cut(tally, &file, cut, whole);
            }
        }
    }
}

/// The rest of a file, fed in parts in any way and turned between them: in the end the mark of the kind that it then has. The ends are those of
/// a plain mark and of one of ours, neither of them ever turned.
fn in_turns<M: Kind>(tally: &mut Tally, generator: &mut Generator, key: &KeyTable, mark: M, rest: &[bool], ends: [Mark; 2]) {
    let to = generator.below(rest.len() as u64 + 1) as usize;
    let way = generator.below(key.ways().end.into()) as u8;
    let fed = after(mark, |m| key.feed(way, m, pack(&rest[..to]).part()));
    let what = format!("{:x}, fed and turned by turns, {ends:?}", key.key);
    if to == rest.len() {
        tally.same(&what, fed, (ends[M::START as usize].into(), 0));
        return;
    }
    match fed.0.turn(key.key) {
        Ok(turned) => in_turns(tally, generator, key, turned, &rest[to..], ends),
        Err(number) => tally.same(&what, number, 0),
    }
}

/// A plain mark of any fingerprint and length, fed and turned by turns: as if it had begun under the other rule.
fn random_turns(tally: &mut Tally, generator: &mut Generator, key: &KeyTable) {
    let start = generator.start(key.key, 500);
    let n = generator.below(4000);
    let file: Vec<bool> = (0..n).map(|_| generator.one_in(2)).collect();
    let begun = [Ok(start), reference::turn(key.key, start)].map(|mark| mark.expect("a mark that can be turned"));
    let ends = begun.map(|mark| reference::feed(key.key, mark, pack(&file).part()).expect("a mark that can be fed"));
    in_turns::<gfp::PlainMark>(tally, generator, key, start.into(), &file, ends);
    in_turns::<gfp::Mark>(tally, generator, key, begun[1].into(), &file, ends);
}

// ---- turning alone

/// A mark turned by gfp_turn and by both calls of the wrapper, and turned back.
fn turned(tally: &mut Tally, key: Key, mark: Mark, second: Result<Mark, u32>) {
    let what = format!("turn, {key:x}, {mark:?}");
    tally.same(&what, turned_in_places(key, mark), outcome(mark, second));
    tally.same(&what, gfp::PlainMark::from(mark).with_leading_one(key), second.map(ours));
    tally.same(&what, ours(mark).without_leading_one(key), second.map(gfp::PlainMark::from));
    if let Ok(other) = second {
        tally.same(format_args!("{what}, and back"), turned_in_places(key, other), (mark, 0));
    }
}

/// Every length up to some thousands, where t^n is that of a 1 and n zeros divided bit by bit, and lengths beside each power of two.
fn every_length(tally: &mut Tally, generator: &mut Generator) {
    let k = generator.degree();
    for key in [KEY, gfp::HOUSE_KEY, KEY_64, generator.accepted(k), generator.accepted(64)] {
        let mut power = 1;
        for n in 0..3000 {
            let fingerprint = generator.residue(key.degree);
            turned(tally, key, mark(fingerprint, n), Ok(mark(fingerprint ^ power, n)));
            power = reference::divide(reference::polynomial(key), power, std::iter::once(false));
        }
        let powers = (0..64).flat_map(|i| [(1 << i) - 1, 1 << i, (1 << i) + 1]);
        for n in powers.chain([reference::LIMIT - 1, reference::LIMIT, reference::LIMIT + 1, u64::MAX]) {
            let mark = mark(generator.residue(key.degree), n);
            tally.same(format_args!("turn, {n} bits"), turned_in_places(key, mark).1, if n > reference::LIMIT { 7 } else { 0 });
            turned(tally, key, mark, reference::turn(key, mark));
        }
    }
}

/// Beginning, and turning any mark under any key, good and bad.
fn calls(tally: &mut Tally, generator: &mut Generator) {
    let key = generator.key();
    let mark = generator.mark(key);
    let second = outcome(mark, reference::begin_from(0, key));
    tally.same(&format!("begin a plain mark, {key:x}, {mark:?}"), begun_in_places(key, mark), second);
    turned(tally, key, mark, reference::turn(key, mark));
}

// ---- marks that no file has

/// A mark of any fingerprint below 2^k, and of a length that leaves room for another such mark.
fn any_mark(generator: &mut Generator, key: Key) -> Mark {
    let half = reference::LIMIT / 2;
    let bits = match generator.below(4) {
        0 => generator.below(200),
        1 => half - generator.below(200),
        _ => generator.below(half + 1),
    };
    mark(generator.residue(key.degree), bits)
}

/// Two marks: each turned, both joined by 003's equation (10), and ours joined from the turned ones, which is the joined one turned.
fn any_marks(tally: &mut Tally, generator: &mut Generator, key: Key) {
    let [x, y] = [(); 2].map(|()| any_mark(generator, key));
    let what = format!("{key:x}, {x:?} and {y:?}");
    for mark in [x, y] {
        turned(tally, key, mark, reference::turn(key, mark));
    }
    let behind = after(gfp::PlainMark::from(x), |m| m.join_behind(key, y.into()));
    let in_front = after(gfp::PlainMark::from(x), |m| m.join_in_front(key, y.into()));
    tally.same(format_args!("plain join behind, {what}"), behind, outcome(x, reference::join_behind(0, key, x, y)));
    tally.same(format_args!("plain join in front, {what}"), in_front, outcome(x, reference::join_in_front(0, key, x, y)));
    let joined_and_turned = reference::join_behind(0, key, x, y).and_then(|m| reference::turn(key, m)).map(ours);
    tally.same(format_args!("turned and joined, {what}"), turned_and_joined(key, x, y), joined_and_turned);
}

/// Two plain marks turned, and then joined as ours.
fn turned_and_joined(key: Key, x: Mark, y: Mark) -> Result<gfp::Mark, u32> {
    let mut front = gfp::PlainMark::from(x).with_leading_one(key)?;
    front.join_behind(key, gfp::PlainMark::from(y).with_leading_one(key)?)?;
    Ok(front)
}

/// Keys of every degree: the stock key, a random one, and one with a short low part.
fn every_degree(tally: &mut Tally, generator: &mut Generator) {
    for k in 8..=64 {
        let stock = reference::stock_key(k).expect("a degree of the stock list");
        for key in [stock, generator.accepted(k), generator.accepted_with_low_part(k)] {
            for _ in 0..20 {
                any_marks(tally, generator, key);
            }
            let key = KeyTable::new(key);
            for _ in 0..6 {
                random_turns(tally, generator, &key);
            }
            let n = generator.below(100) as usize;
            bits::reading::<gfp::PlainMark>(tally, &key, (&vec![0; n]).into(), 0);
            let file = generator.bytes(n);
            bits::reading::<gfp::PlainMark>(tally, &key, (&file).into(), reference::mark_from(0, key.key, &file).fingerprint);
        }
    }
}

pub fn run(tally: &mut Tally, rounds: u64) {
    let mut generator = Generator::new(11);
    readings(tally);
    readings_between_parts(tally);
    readings_in_calls(tally);
    bits::joins_at_limit::<gfp::PlainMark>(tally);
    marks::large_fingerprints::<gfp::PlainMark>(tally, &mut generator);
    for _ in 0..rounds {
        turned_anywhere(tally, &mut generator);
        bits::pages_anywhere::<gfp::PlainMark>(tally, &mut generator);
        every_length(tally, &mut generator);
        every_degree(tally, &mut generator);
    }
    for _ in 0..rounds * 3000 {
        calls(tally, &mut generator);
    }
    let house = KeyTable::new(gfp::HOUSE_KEY);
    for _ in 0..rounds * 300 {
        random_turns(tally, &mut generator, &house);
    }
}
