//! Joining in any grouping (document 02, wish 12), with both kinds of marks: the readings; three marks, left first and right first; up to 20
//! marks joined by random trees; the empty mark; the exclusive or of equally long files. What is expected is the second implementation's:
//! marks joined one behind another from the empty one, and long division of strings of bits.
use crate::bits::{self, KeyTable};
use crate::generator::Generator;
use crate::kinds::Kind;
use crate::reference::{self, pack, Mark, Part, LIMIT};
use crate::{compose, gfp, Key, Tally};

const KEY: Key = Key { degree: 8, word: 0x1b };

const fn mark(fingerprint: u64, bits: u64) -> Mark {
    Mark { fingerprint, bits }
}

// ---- two and three neighbours

/// Whether each of two joinings is made in front from the right mark; else it is made behind from the left one.
const FORMS: [[bool; 2]; 4] = [[false, false], [false, true], [true, false], [true, true]];

fn joined<M: Kind>(key: Key, in_front: bool, mut left: M, mut right: M) -> Result<M, u32> {
    if in_front {
        right.join_in_front(key, left).map(|()| right)
    } else {
        left.join_behind(key, right).map(|()| left)
    }
}

fn second_joined<M: Kind>(key: Key, in_front: bool, left: Mark, right: Mark) -> Result<Mark, u32> {
    if in_front {
        reference::join_in_front(M::START, key, right, left)
    } else {
        reference::join_behind(M::START, key, left, right)
    }
}

/// Left first and right first. The function is told which of the two joinings it makes; a refused first one ends the grouping.
fn groupings<T: Copy>([a, b, c]: [T; 3], join: impl Fn(usize, T, T) -> Result<T, u32>) -> [Result<T, u32>; 2] {
    [join(0, a, b).and_then(|m| join(1, m, c)), join(0, b, c).and_then(|m| join(1, a, m))]
}

fn given_groupings<M: Kind>(key: Key, marks: [Mark; 3], forms: [bool; 2]) -> [Result<M, u32>; 2] {
    groupings(marks.map(M::from), |i, left, right| joined(key, forms[i], left, right))
}

// ---- readings

/// Three marks of ours under 0x11B, and the mark that both groupings give.
const OURS: [([Mark; 3], Mark); 2] = [
    ([mark(0x5a, 8), mark(0x59, 8), mark(0x58, 8)], mark(0x68, 24)),
    ([mark(0x5a, 8), mark(0x59, 34_359_738_344), mark(0x03, 8)], mark(0x20, 34_359_738_360)),
];

/// The same with plain marks.
const PLAIN: [([Mark; 3], Mark); 2] = [
    ([mark(0x41, 8), mark(0x42, 8), mark(0x43, 8)], mark(0xdb, 24)),
    ([mark(0x5a, 8), mark(0x59, 34_359_738_344), mark(0x03, 8)], mark(0xf7, 34_359_738_360)),
];

/// Marks of either kind that are refused left first and right first. Of the second three, one is not acceptable by itself: the numbers differ.
const REFUSED: [([Mark; 3], [u32; 2]); 2] = [
    ([mark(0x5a, 8), mark(0x59, 34_359_738_344), mark(0x03, 9)], [7, 7]),
    ([mark(0x100, 8), mark(0x01, 8), mark(0x01, 34_359_738_360)], [8, 7]),
];

/// Files, and their fingerprints under 0x11B, ours and plain.
const FILES: [(&[u8], u64, u64); 9] = [
    (&[0x41, 0x42], 0x9d, 0xc3),
    (&[0x00, 0x00], 0x5e, 0x00),
    (&[0x01, 0x1b], 0x5e, 0x00),
    (&[0x40, 0x59], 0x9d, 0xc3),
    (&[0x41], 0x5a, 0x41),
    (&[0x42], 0x59, 0x42),
    (&[0x43], 0x58, 0x43),
    (&[0x40], 0x5b, 0x40),
    (&[0x03], 0x18, 0x03),
];

/// Equally long files, their exclusive or, and that of their fingerprints, ours and plain.
const XORED: [(&[&[u8]], &[u8], u64, u64); 4] = [
    (&[&[0x41, 0x42], &[0x00, 0x00], &[0x01, 0x1b]], &[0x40, 0x59], 0x9d, 0xc3),
    (&[&[0x41, 0x42], &[0x01, 0x1b]], &[0x40, 0x59], 0xc3, 0xc3),
    (&[&[0x41], &[0x42], &[0x43]], &[0x40], 0x5b, 0x40),
    (&[&[0x41], &[0x42]], &[0x03], 0x03, 0x03),
];

fn readings_of_three<M: Kind>(tally: &mut Tally, joined: [([Mark; 3], Mark); 2]) {
    let joined = joined.map(|(marks, whole)| (marks, [Ok(whole); 2]));
    let refused = REFUSED.map(|(marks, numbers)| (marks, numbers.map(Err)));
    for (marks, answers) in joined.into_iter().chain(refused) {
        for forms in FORMS {
            let what = format_args!("reading, {:?}, in front {forms:?}", marks.map(M::from));
            tally.same(what, given_groupings::<M>(KEY, marks, forms), answers.map(|answer| answer.map(M::from)));
            let second = groupings(marks, |i, left, right| second_joined::<M>(KEY, forms[i], left, right));
            tally.same(what, second, answers);
        }
    }
}

fn readings_of_files(tally: &mut Tally) {
    let key = KeyTable::new(KEY);
    for (file, ours, plain) in FILES {
        bits::reading::<gfp::Mark>(tally, &key, file.into(), ours);
        bits::reading::<gfp::PlainMark>(tally, &key, file.into(), plain);
    }
    for (files, whole, ours, plain) in XORED {
        let files: Vec<Part> = files.iter().map(Part::from).collect();
        let what = format_args!("reading, the exclusive or of {files:?}");
        tally.same(what, &exclusive_or(&files)[..], whole);
        let fingerprints = (xored::<gfp::Mark>(tally, &key, &files), xored::<gfp::PlainMark>(tally, &key, &files));
        tally.same(what, fingerprints, (ours, plain));
    }
}

// ---- marks of any length

/// A mark of a length, with any fingerprint below 2^k.
fn any_mark(generator: &mut Generator, key: Key, bits: u64) -> Mark {
    let fingerprint = match generator.below(8) {
        0 => 0,
        1 => 1,
        2 => u64::MAX >> (64 - key.degree),
        _ => generator.residue(key.degree),
    };
    mark(fingerprint, bits)
}

/// How long marks are together: 0, few bits, any number, and below the limit, at it and past it.
fn sums(generator: &mut Generator) -> [u64; 9] {
    let [few, some, any, more] = [300, 2000, LIMIT, LIMIT / 2].map(|n| generator.below(n));
    [0, some, any, LIMIT - few, LIMIT - 1, LIMIT, LIMIT + 1, LIMIT + 2 + few, LIMIT + more]
}

/// n lengths with that sum, none past the limit. Some are 0, and some are few bits.
fn lengths(generator: &mut Generator, n: u64, sum: u64) -> Vec<u64> {
    loop {
        let mut cuts: Vec<u64> = (1..n).map(|_| cut(generator, sum)).chain([sum]).collect();
        cuts.sort();
        let lengths: Vec<u64> = cuts.iter().scan(0, |from, &to| Some(to - std::mem::replace(from, to))).collect();
        if lengths.iter().all(|&bits| bits <= LIMIT) {
            return lengths;
        }
    }
}

fn cut(generator: &mut Generator, sum: u64) -> u64 {
    let few = generator.below(sum.min(200) + 1);
    match generator.below(8) {
        0 => 0,
        1 => sum,
        2 => few,
        3 => sum - few,
        _ => generator.below(sum + 1),
    }
}

/// Lengths of three marks: of each of those sums, and where two of the marks, neighbours or not, already pass the limit.
fn three_lengths(generator: &mut Generator) -> Vec<[u64; 3]> {
    let all = sums(generator).map(|sum| lengths(generator, 3, sum).try_into().expect("three lengths"));
    let mut all = Vec::from(all);
    for sum in [LIMIT + 1, LIMIT + 2 + generator.below(300)] {
        let (x, most) = (lengths(generator, 2, sum)[0], [1, 200, LIMIT + 1][generator.below(3) as usize]);
        let (y, z) = (sum - x, generator.below(most));
        all.extend([[x, y, z], [z, x, y], [x, z, y]]);
    }
    all.push([LIMIT; 3]);
    all
}

/// The number that the lengths call for.
fn number(marks: &[Mark]) -> u32 {
    if marks.iter().map(|mark| mark.bits).sum::<u64>() > LIMIT { 7 } else { 0 }
}

/// Marks joined one behind another from the empty one, by the library and by the second implementation.
fn in_a_row<M: Kind>(key: Key, marks: &[M]) -> Result<M, u32> {
    marks.iter().try_fold(M::begin(key)?, |front, &back| joined(key, false, front, back))
}

fn second_in_a_row<M: Kind>(key: Key, marks: &[Mark]) -> Result<M, u32> {
    let empty = reference::begin_from(M::START, key)?;
    marks.iter().try_fold(empty, |front, &back| second_joined::<M>(key, false, front, back)).map(M::from)
}

/// Three marks, each joining in both forms: both groupings give the same.
fn three<M: Kind>(tally: &mut Tally, key: Key, marks: [Mark; 3]) {
    let second = second_in_a_row::<M>(key, &marks);
    for forms in FORMS {
        let what = format_args!("{key:x}, {:?}, in front {forms:?}", marks.map(M::from));
        let [left_first, right_first] = given_groupings::<M>(key, marks, forms);
        tally.same(format_args!("left first and right first, {what}"), [left_first, right_first], [second; 2]);
        tally.same(format_args!("number of three marks, {what}"), left_first.err().unwrap_or(0), number(&marks));
    }
}

/// Neighbours joined by a random tree, each two in a random form.
fn by_tree<M: Kind>(generator: &mut Generator, key: Key, marks: &[M]) -> Result<M, u32> {
    if let [mark] = marks {
        return Ok(*mark);
    }
    let (left, right) = marks.split_at(1 + generator.below(marks.len() as u64 - 1) as usize);
    let (left, right) = (by_tree(generator, key, left)?, by_tree(generator, key, right)?);
    joined(key, generator.one_in(2), left, right)
}

fn tree<M: Kind>(tally: &mut Tally, generator: &mut Generator, key: Key, marks: &[Mark]) {
    let of_kind: Vec<M> = marks.iter().map(|&mark| mark.into()).collect();
    let given = by_tree(generator, key, &of_kind);
    let what = format_args!("tree, {key:x}, {of_kind:?}");
    tally.same(format_args!("{what}, and in a row"), given, in_a_row(key, &of_kind));
    tally.same(what, given, second_in_a_row(key, marks));
    tally.same(format_args!("number of a {what}"), given.err().unwrap_or(0), number(marks));
}

/// Marks of files joined by a random tree: the mark of the files one behind another.
fn tree_of_files<M: Kind>(tally: &mut Tally, generator: &mut Generator, key: Key) {
    let n = 1 + generator.below(20);
    let files: Vec<Vec<bool>> = (0..n).map(|_| compose::bits(generator, 100)).collect();
    let marks: Vec<M> = files.iter().map(|file| M::of(key, pack(file).part())).collect();
    let whole = M::of(key, pack(&files.concat()).part());
    tally.same(format_args!("tree of files, {key:x}, {marks:?}"), by_tree(generator, key, &marks), Ok(whole));
}

/// The empty mark behind a mark and in front of it, in both forms: nothing changes.
fn beside_empty<M: Kind>(tally: &mut Tally, key: Key, mark: Mark) {
    let (given_empty, empty) = (M::begin(key).expect("an accepted key"), Mark { fingerprint: M::START, bits: 0 });
    let what = format_args!("the empty mark, {key:x}, {:?}", M::from(mark));
    tally.same(what, given_empty, empty.into());
    for in_front in [false, true] {
        tally.same(what, joined(key, in_front, mark.into(), given_empty), Ok(mark.into()));
        tally.same(what, joined(key, in_front, given_empty, mark.into()), Ok(mark.into()));
        tally.same(what, second_joined::<M>(key, in_front, mark, empty), Ok(mark));
        tally.same(what, second_joined::<M>(key, in_front, empty, mark), Ok(mark));
    }
}

fn any_marks<M: Kind>(tally: &mut Tally, generator: &mut Generator, key: Key) {
    for bits in three_lengths(generator) {
        three::<M>(tally, key, bits.map(|bits| any_mark(generator, key, bits)));
    }
    for sum in sums(generator).into_iter().flat_map(|sum| [sum; 4]) {
        let n = 2 + generator.below(19);
        let marks: Vec<Mark> = lengths(generator, n, sum).into_iter().map(|bits| any_mark(generator, key, bits)).collect();
        tree::<M>(tally, generator, key, &marks);
    }
    tree_of_files::<M>(tally, generator, key);
    for bits in [0, 1, generator.below(2000), generator.below(LIMIT), LIMIT - 1, LIMIT] {
        beside_empty::<M>(tally, key, any_mark(generator, key, bits));
    }
}

// ---- the exclusive or of files

fn any_file(generator: &mut Generator, n: u64) -> Vec<bool> {
    (0..n).map(|_| generator.one_in(2)).collect()
}

/// The exclusive or of equally long files, by bytes.
fn exclusive_or(files: &[Part]) -> Vec<u8> {
    (0..files[0].bytes.len()).map(|i| files.iter().fold(0, |sum, file| sum ^ file.bytes[i])).collect()
}

/// The same by strings of bits.
fn second_exclusive_or(files: &[Part]) -> Vec<bool> {
    let mut sum = vec![false; files[0].length() as usize];
    for file in files {
        sum.iter_mut().zip(file.bits()).for_each(|(sum, bit)| *sum = *sum != bit);
    }
    sum
}

/// A file's mark, fed in a way.
fn fed<M: Kind>(key: &KeyTable, way: u8, file: Part) -> Result<Mark, u32> {
    let mut mark = M::begin(key.key)?;
    key.feed(way, &mut mark, file)?;
    Ok(mark.into())
}

/// Equally long files: the fingerprint of their exclusive or, which is that of their fingerprints. Of three files one leading 1 is left; of two
/// none is, and the fingerprint is the plain one.
fn xored<M: Kind>(tally: &mut Tally, key: &KeyTable, files: &[Part]) -> u64 {
    if files.len() % 2 == 1 { xored_as::<M, M>(tally, key, files) } else { xored_as::<M, gfp::PlainMark>(tally, key, files) }
}

/// The same where the files' marks are of one kind, and that of their exclusive or is of another. The first two comparisons are of the second
/// implementation with itself: by bytes and by bits, and the sum of the fingerprints.
fn xored_as<M: Kind, X: Kind>(tally: &mut Tally, key: &KeyTable, files: &[Part]) -> u64 {
    let (bytes, packed) = (exclusive_or(files), pack(&second_exclusive_or(files)));
    let (whole, second_whole) = (Part { bytes: &bytes, used: files[0].used }, packed.part());
    let second = reference::mark_from(X::START, key.key, second_whole);
    let what = format_args!("exclusive or, {:x}, {files:?}, start {}", key.key, M::START);
    tally.same(what, whole, second_whole);
    let sum = files.iter().fold(0, |sum, &file| sum ^ reference::mark_from(M::START, key.key, file).fingerprint);
    tally.same(format_args!("{what}, the second implementation"), sum, second.fingerprint);
    for way in key.ways() {
        let given = fed::<X>(key, way, whole);
        let sum = files.iter().try_fold(0, |sum, &file| Ok(sum ^ fed::<M>(key, way, file)?.fingerprint));
        tally.same(format_args!("{what}, fed by way {way}"), sum, given.map(|mark| mark.fingerprint));
        tally.same(format_args!("{what}, fed by way {way}"), given, Ok(second));
    }
    second.fingerprint
}

/// Files of 0 to 320 bits, so that every u occurs, and some longer ones.
fn equally_long<M: Kind>(tally: &mut Tally, generator: &mut Generator, key: Key) {
    let key = KeyTable::new(key);
    for n in (0..=320).chain([2003, 5000, 70_001]) {
        let files = [(); 3].map(|()| pack(&any_file(generator, n)));
        let files = files.each_ref().map(|file| file.part());
        xored::<M>(tally, &key, &files);
        xored::<M>(tally, &key, &files[1..]);
    }
}

fn run_with<M: Kind>(tally: &mut Tally, generator: &mut Generator, rounds: u64) {
    for round in 0..rounds * 30 {
        for key in [8, 31, 61, 64].map(|k| generator.accepted(k)).into_iter().chain([gfp::HOUSE_KEY]) {
            any_marks::<M>(tally, generator, key);
            if round % 30 == 0 {
                equally_long::<M>(tally, generator, key);
            }
        }
    }
}

pub fn run(tally: &mut Tally, rounds: u64) {
    let mut generator = Generator::new(12);
    readings_of_three::<gfp::Mark>(tally, OURS);
    readings_of_three::<gfp::PlainMark>(tally, PLAIN);
    readings_of_files(tally);
    run_with::<gfp::Mark>(tally, &mut generator, rounds);
    run_with::<gfp::PlainMark>(tally, &mut generator, rounds);
}
