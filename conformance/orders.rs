//! The order of refusals: for each call every combination of the faults that it can be refused for, alone and together.
use crate::kinds::{after, begun_in_places, ours, outcome, turned_in_places, Kind};
use crate::{gfp, reference::{self, Part}, Key, Tally};

const GOOD: Key = Key { degree: 8, word: 0x1b };
/// Accepted keys, of degree 8 and 64; keys of number 1, by their degree, by a bit of the word at t^k and by both; reducible ones.
const KEYS: [Key; 8] = [
    GOOD,
    Key { degree: 64, word: 0x1b },
    Key { degree: 7, word: 0x7f },
    Key { degree: 65, word: 0x1b },
    Key { degree: 8, word: 0x11b },
    Key { degree: u32::MAX, word: u64::MAX },
    Key { degree: 8, word: 0x01 },
    Key { degree: 64, word: 0 },
];

/// A part whose final byte is right, and parts whose final byte is not: u outside 1 to 8, an unused bit that is 1, and
/// u other than 8 without bytes.
const PARTS: [Part; 7] = [
    Part { bytes: b"AB", used: 8 },
    Part { bytes: b"AB", used: 0 },
    Part { bytes: b"AB", used: 9 },
    Part { bytes: b"AB", used: u32::MAX },
    Part { bytes: b"AB", used: 6 },
    Part { bytes: b"", used: 7 },
    Part { bytes: b"", used: 0 },
];

/// A file of more than 4,294,967,295 bytes: its length is judged, and its final byte at most is read.
fn too_long() -> Vec<u8> {
    vec![0; reference::LIMIT_BYTES as usize + 1]
}

/// The part, or one that is too long with as many used bits.
fn or_long<'a>(part: Part<'a>, is_long: bool, long: &'a [u8]) -> Part<'a> {
    Part { bytes: if is_long { long } else { part.bytes }, used: part.used }
}

/// Calls f with every choice of n yes-or-no faults.
fn each(n: u32, mut f: impl FnMut(&dyn Fn(u32) -> bool)) {
    for choice in 0u32..1 << n {
        f(&|fault| choice >> fault & 1 == 1);
    }
}

/// Feeding by bits and by a table, and the table's own calls, under a key.
fn marks_under(tally: &mut Tally, long: &[u8], key: Key, good: Part) {
    // faults: size, word, own length, part's length, sum, fingerprint
    each(6, |fault| {
        let mut words = reference::table(if reference::test_key(key).is_ok() { key } else { GOOD });
        if fault(1) {
            words[700] ^= 1;
        }
        if fault(0) {
            words.pop();
        }
        let bits = if fault(2) { reference::LIMIT + 1 } else if fault(4) { reference::LIMIT } else { 5 };
        let mark = reference::Mark { fingerprint: if fault(5) { 0x100 } else { 0x5a }, bits };
        let part = or_long(good, fault(3), long);
        let what = format!("order, {key:x}, mark {mark:?}, {} words, part of {part:?}", words.len());
        tally.same(
            &what,
            after(ours(mark), |m| m.feed(key, part)),
            outcome(mark, reference::feed(key, mark, part)),
        );
        tally.same(
            &what,
            after(ours(mark), |m| m.feed_table(key, &words, part)),
            outcome(mark, reference::feed_table(key, mark, &words, part)),
        );
        tally.same(&what, gfp::test_table(key, &words), reference::test_table(key, &words));
        tally.same(&what, gfp::make_table(key, &mut words.clone()), reference::make_table(key, &words).map(drop));
    });
}

/// Feeding by the house key's words under a key, with a fingerprint that is not below 2^above.
fn house_under(tally: &mut Tally, long: &[u8], key: Key, above: u32, good: Part) {
    // faults: own length, part's length, sum, fingerprint
    each(4, |fault| {
        let bits = if fault(0) { reference::LIMIT + 1 } else if fault(2) { reference::LIMIT } else { 5 };
        let mark = reference::Mark { fingerprint: if fault(3) { 1 << above } else { 0x5a }, bits };
        let part = or_long(good, fault(1), long);
        let what = format!("order, the house key's words, {key:x}, mark {mark:?}, part of {part:?}");
        let answer = after(ours(mark), |m| m.feed_house(key, part));
        tally.same(&what, answer, outcome(mark, reference::feed_house(key, mark, part)));
        if key == GOOD || key == KEYS[1] {
            tally.same(&what, answer, (ours(mark), 6));
        }
    });
}

/// A kind's beginning, as the wrapper gives it.
fn beginning<M: Kind>(tally: &mut Tally, key: Key) {
    tally.same(&format!("order, begin, {key:x}"), M::begin(key), reference::begin_from(M::START, key).map(M::from));
}

/// What both places hold behind gfp_begin_plain.
fn beginning_in_places(tally: &mut Tally, key: Key) {
    let places = reference::Mark { fingerprint: 7, bits: 9 };
    let second = outcome(places, reference::begin_from(0, key));
    tally.same(&format!("order, gfp_begin_plain, {key:x}"), begun_in_places(key, places), second);
}

/// Turning, either way, with lengths at the limit and past it. The number is told by hand too: no fingerprint gives 8 at degree 64.
fn turning(tally: &mut Tally, key: Key) {
    let lengths = [(5, false), (reference::LIMIT, false), (reference::LIMIT + 1, true), (1 << 63, true), (u64::MAX, true)];
    let fingerprints = [(0x5a, false), (0x100, key.degree < 64), (u64::MAX, key.degree < 64)];
    for ((bits, long), (fingerprint, above)) in lengths.into_iter().flat_map(|n| fingerprints.map(|f| (n, f))) {
        let mark = reference::Mark { fingerprint, bits };
        let what = format!("order, turn, {key:x}, {mark:?}");
        let second = reference::turn(key, mark);
        let of_mark = if long { 7 } else if above { 8 } else { 0 };
        tally.same(&what, second.err().unwrap_or(0), reference::test_key(key).err().unwrap_or(of_mark));
        tally.same(&what, turned_in_places(key, mark), outcome(mark, second));
        tally.same(&what, gfp::PlainMark::from(mark).with_leading_one(key), second.map(ours));
        tally.same(&what, ours(mark).without_leading_one(key), second.map(gfp::PlainMark::from));
    }
}

fn marks(tally: &mut Tally, long: &[u8]) {
    for key in KEYS {
        beginning::<gfp::Mark>(tally, key);
        beginning::<gfp::PlainMark>(tally, key);
        beginning_in_places(tally, key);
        turning(tally, key);
        for part in PARTS {
            marks_under(tally, long, key, part);
        }
    }
    // An accepted key whose table differs from the house key's, the house key, one that shares its table, and the refused ones.
    let accepted = [(gfp::HOUSE_KEY, 61), (Key { degree: 42, word: 0x27 }, 42)];
    for (key, above) in KEYS.map(|key| (key, key.degree.min(63))).into_iter().chain(accepted) {
        for part in PARTS {
            house_under(tally, long, key, above, part);
        }
    }
}

fn joining<M: Kind>(tally: &mut Tally, key: Key) {
    // faults: own length, other's length, sum, own fingerprint, other's fingerprint
    each(5, |fault| {
        let bits = if fault(0) { u64::MAX } else if fault(2) { reference::LIMIT } else { 5 };
        let mark = reference::Mark { fingerprint: if fault(3) { 0x100 } else { 0x5a }, bits };
        let other_bits = if fault(1) { 1 << 63 } else { 2 };
        let other = reference::Mark { fingerprint: if fault(4) { 0x1ff } else { 0x59 }, bits: other_bits };
        let what = format!("order, {key:x}, {:?}, other {other:?}", M::from(mark));
        tally.same(
            &what,
            after(M::from(mark), |m| m.join_behind(key, other.into())),
            outcome(mark, reference::join_behind(M::START, key, mark, other)),
        );
        tally.same(
            &what,
            after(M::from(mark), |m| m.join_in_front(key, other.into())),
            outcome(mark, reference::join_in_front(M::START, key, mark, other)),
        );
    });
}

/// Page change with given used bits of both pages' final bytes: with 6 the old page's is wrong, with 5 both are.
fn page_change(tally: &mut Tally, long: &[u8], key: Key, old_used: u32, new_used: u32) {
    // faults: own length, old page's length, new page's length, fingerprint, unequal pages, past the end
    each(6, |fault| {
        let bits = if fault(0) { reference::LIMIT + 1 } else { 72 };
        let mark = reference::Mark { fingerprint: if fault(3) { 0x100 } else { 0x5a }, bits };
        let old = or_long(Part { bytes: b"AB", used: old_used }, fault(1), long);
        let new_bytes: &[u8] = if fault(4) { b"A" } else { b"CD" };
        let new = or_long(Part { bytes: new_bytes, used: new_used }, fault(2), long);
        let place = if fault(5) { u64::MAX } else { 7 };
        let what = format!("order, {key:x}, mark {mark:?}, place {place}, {old:?} by {new:?}");
        tally.same(
            &what,
            after(ours(mark), |m| m.replace_page(key, place, old, new)),
            outcome(mark, reference::replace_page(key, mark, place, old, new)),
        );
    });
}

fn compose(tally: &mut Tally, long: &[u8]) {
    const USED: [u32; 6] = [8, 0, 9, u32::MAX, 6, 5];
    for key in KEYS {
        joining::<gfp::Mark>(tally, key);
        joining::<gfp::PlainMark>(tally, key);
        for (old_used, new_used) in USED.into_iter().flat_map(|old| USED.map(|new| (old, new))) {
            page_change(tally, long, key, old_used, new_used);
        }
    }
}

fn search(tally: &mut Tally, long: &[u8]) {
    for key in KEYS {
        // faults: text's length, pattern's length, empty pattern
        each(3, |fault| {
            let text = if fault(0) { long } else { b"AABA" };
            let pattern: &[u8] = if fault(1) { long } else if fault(2) { b"" } else { b"A" };
            let refused = reference::test_key(key).is_err() || fault(0) || fault(1) || fault(2);
            let mut words = [7; 2];
            let answer = gfp::search(key, text, pattern, &mut words);
            let what = format!("order, search, {key:x}, {} bytes in {}", pattern.len(), text.len());
            if refused {
                let number = reference::test_key(key).err().unwrap_or(if fault(0) || fault(1) { 7 } else { 11 });
                tally.same(&what, (answer.map(|c| c.places), words), (Err(number), [7; 2]));
            } else {
                tally.same(&what, (answer.map(|c| c.places), words), (Ok(3), [0, 1]));
            }
        });
    }
}

/// Writing a sheet; the number is told by hand, since every fault has its own.
fn writing(tally: &mut Tally, long: &[u8], key: Key, good: Part) {
    // faults: file's length, page size, buffer
    each(3, |fault| {
        let file = or_long(good, fault(0), long);
        let size = if fault(1) { 15 } else { 16 };
        let total = if good.bytes.is_empty() { 32 } else { 40 };
        let before = vec![9; if fault(2) { total - 1 } else { total }];
        let mut sheet = before.clone();
        let number = gfp::write_sheet(key, size, file, &mut sheet).err().unwrap_or(0);
        let faults = [(7, fault(0)), (12, fault(1)), (13, fault(2)), (19, good != PARTS[0])];
        let lowest = faults.into_iter().find(|(_, applies)| *applies).map_or(0, |(number, _)| number);
        let expected = reference::test_key(key).err().unwrap_or(lowest);
        let what = format!("order, write, {key:x}, {file:?}, page size {size}, {} lent", before.len());
        tally.same(&what, number, expected);
        tally.same(&what, sheet == before, expected != 0);
        tally.same(&what, number, reference::write_sheet(key, size, file, &before).err().unwrap_or(0));
    });
}

fn sheets(tally: &mut Tally, long: &[u8]) {
    for key in KEYS {
        for part in PARTS {
            writing(tally, long, key, part);
        }
        // a key that has a number in 8 bytes is tried in every version
        let as_number = key.degree < 64 && key.word >> key.degree == 0;
        for version in reference::VERSIONS.into_iter().filter(|version| version.pair || as_number) {
            sheet_faults(tally, long, key, version);
        }
    }
}

/// The sheet of 41 42 in a version, with the faults: letters, version, page size, total, a fingerprint, the joining,
/// the highest byte of the length field, under the version's total without pages, under 27 bytes.
fn faulty_sheet(key: Key, version: reference::Version, fault: &dyn Fn(u32) -> bool) -> Vec<u8> {
    let head = version.head();
    let of = if reference::test_key(key).is_ok() { key } else { GOOD };
    let mut sheet = reference::sheet(version, of, 16, b"AB");
    sheet[5..version.length_at()].copy_from_slice(&version.key_field(key));
    if fault(0) {
        sheet[1] = b'f';
    }
    if fault(1) {
        // 257 to 260: the version has two bytes
        sheet[3] = 1;
    }
    if fault(2) {
        sheet[head - 2] = 0x11;
    }
    if fault(4) {
        sheet[head + 6] = 1;
    }
    if fault(5) {
        sheet[head + 7] ^= 1;
    }
    if fault(6) {
        sheet[version.length_at()] = 1;
    }
    if fault(3) {
        sheet.push(0);
    }
    if fault(7) {
        sheet.truncate(version.total(0) as usize - 1);
    }
    if fault(8) {
        sheet.truncate(26);
    }
    sheet
}

/// Sheets of a version, read and checked with files that are right, too long, of another length, or whose final byte is
/// wrong.
fn sheet_faults(tally: &mut Tally, long: &[u8], key: Key, version: reference::Version) {
    let page = if key == KEYS[1] { 0x14142 } else if version.filled { 0xac } else { 0x9d };
    let whole_long = Part::from(long);
    let long_and_bad = Part { bytes: long, used: 9 };
    each(9, |fault| {
        let sheet = faulty_sheet(key, version, fault);
        let what = format!("order, sheet {sheet:02x?}");
        let second = reference::read_sheet(&sheet);
        let fingerprint = second.as_ref().map(|x| x.fingerprint).map_err(|&number| number);
        tally.same(&what, gfp::read_sheet(&sheet).map(|x| x.fingerprint), fingerprint);
        let mut words = [7; 2];
        let number = gfp::read_pages(&sheet, &mut words).err();
        tally.same(&what, (number, words), (fingerprint.err(), if second.is_ok() { [page, 7] } else { [7; 2] }));
        for file in PARTS.into_iter().chain([whole_long, long_and_bad]) {
            let number = reference::check_file(&sheet, file).err();
            tally.same(format_args!("{what}, file of {file:?}"), gfp::check_file(&sheet, file).err(), number);
            tally.same(format_args!("{what}, file of {file:?}"), gfp::changed_range(&sheet, file).err(), number);
            let of_file = if file.bytes.len() > 2 { Some(7) } else { (file != PARTS[0]).then_some(19) };
            tally.same(format_args!("{what}, file of {file:?}, by hand"), number, fingerprint.err().or(of_file));
        }
    });
}

/// The size of a sheet. Faults: the file's length, the page size.
fn lengths(tally: &mut Tally) {
    each(2, |fault| {
        let length = if fault(0) { reference::LIMIT_BYTES + 1 } else { 33 };
        let size = if fault(1) { 4097 } else { 16 };
        let expected = if fault(0) { Err(7) } else if fault(1) { Err(12) } else { Ok(56) };
        tally.same(&format!("order, length {length}, page size {size}"), gfp::sheet_length(length, size), expected);
    });
}

pub fn run(tally: &mut Tally, _rounds: u64) {
    lengths(tally);
    let long = too_long();
    marks(tally, &long);
    compose(tally, &long);
    search(tally, &long);
    sheets(tally, &long);
}
