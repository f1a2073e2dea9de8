//! The test of a key: document 01's readings, counts, published irreducible polynomials, pairs of every degree and of degrees and words that are
//! none of a key's, and random keys of every degree; the stock list; keys written as numbers.
use crate::{generator::Generator, gfp, reference, Key, Tally};

fn number(key: Key) -> u32 {
    gfp::test_key(key).err().unwrap_or(0)
}

/// Document 01, "Bench readings", and keys of 65 bits and more: keys written as numbers.
const READINGS: [(u128, u32); 16] = [
    (0, 1),
    (0xff, 1),
    (0x100, 2),
    (0x101, 2),
    (0x405, 2),
    (0x1071f, 2),
    (0x11b, 0),
    (0x11d, 0),
    (0x203, 0),
    (0x409, 0),
    (0x2000_0000_0000_0027, 0),
    (0x1_0000_0000_0000_001b, 0),
    (0x1_0000_0000_0000_0000, 2),
    (0x2_0000_0000_0000_0000, 1),
    (0x2_0000_0000_0000_001b, 1),
    (0xf_ffff_ffff_ffff_ffff, 1),
];

/// Pairs: the degree decides, and not the word; a bit of the word at t^k or above gives 1 and not 2, though the number as a whole be a key.
const PAIRS: [(u32, u64, u32); 27] = [
    (0, 0, 1),
    (0, 0x11b, 1),
    (7, 0x03, 1),
    (7, 0x7f, 1),
    (7, 0x83, 1),
    (65, 0, 1),
    (65, 0x1b, 1),
    (65, 0x27, 1),
    (255, 0x1b, 1),
    (256 + 8, 0x1b, 1),
    (u32::MAX, 0x1b, 1),
    (u32::MAX, u64::MAX, 1),
    (8, 0x1b, 0),
    (8, 0x11b, 1),
    (8, 0x21b, 1),
    (8, 0x8000_0000_0000_001b, 1),
    (8, 0, 2),
    (8, 0xff, 2),
    (8, u64::MAX, 1),
    (61, 0x27, 0),
    (61, 0x2000_0000_0000_0027, 1),
    (63, 3, 0),
    (63, 0x8000_0000_0000_0003, 1),
    (64, 0x1b, 0),
    (64, 0, 2),
    (64, 1, 2),
    (64, u64::MAX, 2),
];

/// The number of irreducible polynomials of each degree over GF(2) (sequence A001037 of the OEIS).
const COUNTS: [(u32, u64); 7] = [(8, 30), (9, 56), (10, 99), (11, 186), (12, 335), (13, 630), (14, 1161)];

/// Low-weight irreducible polynomials of every degree, computed by NTL's BuildSparseIrred.
const LOW_WEIGHT: &str = include_str!("low_weight.txt");

/// The Conway polynomials of characteristic 2, a published list: one irreducible polynomial of each degree.
const CONWAY: &str = include_str!("conway.txt");

/// Words of degree 64, published and random ones, and whether they are irreducible by PARI and NTL.
const DEGREE_64: &str = include_str!("degree_64.txt");

/// Polynomials of degree 53, and whether they are irreducible: the cases of the tests of restic's chunker.
const RESTIC: [(u128, bool); 24] = [
    (0x38f1e565e288df, false),
    (0x3da3358b4dc173, true),
    (0x30a8295b9d5c91, false),
    (0x255f4350b962cb, false),
    (0x267f776110a235, false),
    (0x2f4dae10d41227, false),
    (0x2482734cacca49, true),
    (0x312daf4b284899, false),
    (0x29dfb6553d01d1, false),
    (0x3548245eb26257, false),
    (0x3199e7ef4211b3, false),
    (0x362f39017dae8b, false),
    (0x200d57aa6fdacb, false),
    (0x35e0a4efa1d275, false),
    (0x2ced55b026577f, false),
    (0x260b012010893d, false),
    (0x2df29cbcd59e9d, false),
    (0x3f2ac7488bd429, false),
    (0x3e5cb1711669fb, false),
    (0x226d8de57a9959, false),
    (0x3c8de80aaf5835, false),
    (0x2026a59efb219b, false),
    (0x39dfa4d13fb231, false),
    (0x3143d0464b3299, false),
];

/// The lines of a list that are no comment.
fn entries(list: &'static str) -> impl Iterator<Item = &'static str> {
    list.lines().filter(|line| !line.starts_with('#'))
}

/// The number of a key beside the second implementation's, by Ben-Or's test and by Rabin's.
fn compare(tally: &mut Tally, what: &str, key: Key) {
    let second = reference::test_key(key).err().unwrap_or(0);
    tally.same(format_args!("{what}, {key:x}"), number(key), second);
    if second != 1 {
        let by_rabin = reference::irreducible_by_rabin(reference::polynomial(key));
        tally.same(format_args!("{what}, {key:x}, by Rabin's test"), by_rabin, second == 0);
    }
}

fn readings(tally: &mut Tally) {
    for (written, refusal) in READINGS {
        tally.same(format_args!("reading, key {written:#x}"), number(Key::of(written)), refusal);
        compare(tally, "reading", reference::key_of(written));
    }
    for (degree, word, refusal) in PAIRS {
        let key = Key { degree, word };
        tally.same(format_args!("reading, {key:x}"), number(key), refusal);
        compare(tally, "reading", key);
    }
    for (k, count) in COUNTS {
        let accepted = (0..1 << k).filter(|&word| number(Key { degree: k, word }) == 0).count() as u64;
        tally.same(format_args!("accepted keys of degree {k}"), accepted, count);
    }
}

fn lists(tally: &mut Tally) {
    for line in entries(LOW_WEIGHT) {
        let written = line.split_whitespace().fold(1, |sum, n| sum | 1 << n.parse::<u32>().expect("an exponent"));
        tally.same(format_args!("low-weight polynomial {written:#x}"), number(Key::of(written)), 0);
    }
    for (line, degree) in entries(CONWAY).zip(8..) {
        let (k, written) = line.split_once(" 0x").expect("a degree and a number");
        let key = Key::of(u128::from_str_radix(written, 16).expect("a number"));
        tally.same(format_args!("degree of the Conway polynomial {key:x}"), (k.parse(), key.degree), (Ok(degree), degree));
        tally.same(format_args!("Conway polynomial {key:x}"), number(key), 0);
    }
    tally.same("Conway polynomials", (entries(CONWAY).count(), entries(LOW_WEIGHT).count()), (57, 57));
    for (written, irreducible) in RESTIC {
        tally.same(format_args!("restic's test, {written:#x}"), number(Key::of(written)), if irreducible { 0 } else { 2 });
    }
    for line in entries(DEGREE_64) {
        let (word, judgement) = line.split_once(' ').expect("a word and a judgement");
        let key = Key { degree: 64, word: u64::from_str_radix(word, 16).expect("a word") };
        tally.same(format_args!("list of degree 64, {key:x}"), number(key), if judgement == "irreducible" { 0 } else { 2 });
        compare(tally, "list of degree 64", key);
    }
    tally.same("words of degree 64", entries(DEGREE_64).count(), 46);
}

/// Degrees of every kind with words of every kind: none, low ones, the bit at t^k, one below and one above it, and all ones.
fn pairs(tally: &mut Tally) {
    let far = [127, 128, 255, 256, 256 + 8, 1 << 16, 1 << 31, (1 << 31) + 8, (1 << 31) + 64, u32::MAX - 1, u32::MAX];
    for degree in (0..=130).chain(far) {
        let bit = |place: u32| 1u64.checked_shl(place).unwrap_or(0);
        let (below, at, above) = (bit(degree.wrapping_sub(1)), bit(degree), bit(degree.wrapping_add(1)));
        for word in [0, 1, 2, 3, 0x1b, 0x27, 0x11b, below, below | 1, at, at | 0x1b, above, above | 0x1b, 1 << 63, u64::MAX] {
            let key = Key { degree, word };
            compare(tally, "pair", key);
            let range = (8..=64).contains(&degree) && u128::from(word) < 1 << degree;
            tally.same(format_args!("{key:x}, number 1"), number(key) == 1, !range);
        }
    }
}

/// Keys written as numbers, and back: 0, every bit, and every bit with all below it.
fn written(tally: &mut Tally, generator: &mut Generator) {
    let bits = (0..128).map(|place| 1u128 << place);
    let random = u128::from(generator.next()) << 64 | u128::from(generator.next());
    for number in bits.flat_map(|bit| [bit, bit | 1, bit | 0x1b, bit | bit - 1, bit | random % bit]).chain([0]) {
        let key = Key::of(number);
        tally.same(format_args!("the key written {number:#x}"), key, reference::key_of(number));
        let range = (256..1 << 65).contains(&number);
        tally.same(format_args!("{number:#x}, number 1"), gfp::test_key(key) == Err(1), !range);
        if range {
            tally.same("a key as a number", key.number(), number);
        }
    }
    tally.same("the house key", gfp::HOUSE_KEY, reference::HOUSE_KEY);
    tally.same("the house key as a number", gfp::HOUSE_KEY.number(), 0x2000_0000_0000_0027);
    let sheet = gfp::Sheet { key: gfp::HOUSE_KEY, ..Default::default() };
    let told = "Sheet { version: 0, key: Key(hidden), bits: 0, page_size: 0, pages: 0, fingerprint: 0 }";
    tally.same("a key as {:?} shows it", format!("{:?}, {:#?}", gfp::HOUSE_KEY, gfp::HOUSE_KEY), "Key(hidden), Key(hidden)".to_string());
    tally.same("a sheet as {:?} shows it", format!("{sheet:?}"), told.to_string());
    for (key, shown) in [
        (gfp::HOUSE_KEY, "2000000000000027"),
        (Key::of(0x11b), "11b"),
        (Key::of(0x1_0000_0000_0000_001b), "1000000000000001b"),
        (Key { degree: 8, word: 0x11b }, "degree 8, word 11b"),
        (Key { degree: 8, word: 0x21b }, "degree 8, word 21b"),
        (Key { degree: 7, word: 3 }, "degree 7, word 3"),
        (Key { degree: 200, word: 3 }, "degree 200, word 3"),
    ] {
        tally.same("a key as {:x} shows it", format!("{key:x}"), shown.to_string());
    }
}

fn stock(tally: &mut Tally) {
    for k in (0..130).chain([255, 256 + 8, 1 << 16, 1 << 31, (1 << 31) + 8, u32::MAX - 1, u32::MAX]) {
        tally.same(format_args!("stock key of degree {k}"), gfp::stock_key(k), reference::stock_key(k));
    }
    tally.same("stock keys", (0..130).filter(|&k| gfp::stock_key(k).is_some()).count(), 57);
    tally.same("stock key of degree 61", gfp::stock_key(61), Some(gfp::HOUSE_KEY));
    tally.same("stock key of degree 64", gfp::stock_key(64), Some(Key { degree: 64, word: 0x1b }));
    for word in 0..0x1b {
        tally.same("degree 64, below the stock key's word", number(Key { degree: 64, word }), 2);
    }
}

/// Products of two polynomials, and squares of irreducible ones.
fn products(tally: &mut Tally, generator: &mut Generator) {
    for k in [62, 63, 64] {
        for a in 1..=k / 2 {
            let [one, other] = [a, k - a].map(|n| reference::polynomial(Key { degree: n, word: generator.residue(n) | 1 }) as u64);
            let product = reference::key_of(reference::multiply(one, other));
            tally.same(format_args!("product of degrees {a} and {}, {product:x}", k - a), (product.degree, number(product)), (k, 2));
        }
        for _ in 0..20 {
            let root = reference::polynomial(generator.accepted(k / 2)) as u64;
            let square = reference::key_of(reference::multiply(root, root));
            tally.same(format_args!("the square of {root:#x}"), (square.degree, number(square)), (k / 2 * 2, 2));
        }
    }
}

pub fn run(tally: &mut Tally, rounds: u64) {
    let mut generator = Generator::new(3);
    readings(tally);
    lists(tally);
    pairs(tally);
    written(tally, &mut generator);
    stock(tally);
    products(tally, &mut generator);
    for number_below in 0..1u128 << 16 {
        let second = if number_below < 256 { 1 } else if reference::irreducible_by_trial(number_below) { 0 } else { 2 };
        tally.same(format_args!("every key below 2^16, {number_below:#x}"), number(Key::of(number_below)), second);
    }
    for round in 0..rounds * 57 * 400 {
        let k = 8 + (round % 57) as u32;
        let random = generator.of_degree(k);
        tally.same(format_args!("random {random:x}"), number(random), reference::test_key(random).err().unwrap_or(0));
        let odd = Key { degree: k, word: random.word | 1 };
        tally.same(format_args!("random {odd:x}"), number(odd), reference::test_key(odd).err().unwrap_or(0));
    }
    for _ in 0..rounds * 300 {
        compare(tally, "random key of degree 64", generator.accepted(64));
        compare(tally, "random key of degree 64", generator.of_degree(64));
        compare(tally, "random pair", generator.outside());
        compare(tally, "random key", generator.key());
    }
}
