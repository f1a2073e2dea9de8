//! Drawing: the readings, every element of degree 11, random elements of every listed degree, and other degrees, 64 among them.
use crate::{generator::Generator, gfp, reference, Key, Tally};
use std::collections::HashMap;

/// Document 01, "Bench readings": the degree, the element, and the key as a number or the refusal.
const READINGS: [(u32, u64, Result<u128, u32>); 9] = [
    (11, 2, Ok(0x805)),
    (11, 4, Ok(0x805)),
    (11, 3, Ok(0xf0b)),
    (11, 1, Err(4)),
    (11, 2048, Err(4)),
    (12, 2, Err(3)),
    (12, 0, Err(3)),
    (64, 2, Err(3)),
    (64, 0, Err(3)),
];

pub fn run(tally: &mut Tally, rounds: u64) {
    for (degree, element, answer) in READINGS {
        tally.same(&format!("reading, degree {degree}, element {element}"), gfp::draw(degree, element), answer.map(reference::key_of));
    }
    let mut drawn: HashMap<Key, u32> = HashMap::new();
    for element in 2..2048 {
        let key = gfp::draw(11, element);
        tally.same(&format!("degree 11, element {element}"), key, reference::draw(11, element));
        *drawn.entry(key.unwrap_or_default()).or_default() += 1;
    }
    tally.same("keys of degree 11", drawn.len(), 186);
    tally.same("each drawn 11 times", drawn.values().all(|&n| n == 11), true);
    tally.same("each accepted", drawn.keys().all(|&key| key.degree == 11 && gfp::test_key(key).is_ok()), true);
    let mut generator = Generator::new(8);
    for round in 0..rounds * 14 * 60 {
        let k = reference::DRAWN_DEGREES[(round % 14) as usize];
        let element = generator.residue(k);
        tally.same(&format!("degree {k}, element {element:#x}"), gfp::draw(k, element), reference::draw(k, element));
    }
    let far = [127, 128, 128 + 11, 255, 256 + 11, 1 << 16, (1 << 16) + 61, 1 << 31, (1 << 31) + 11, u32::MAX - 2, u32::MAX];
    for k in (0..70).chain(far) {
        for element in [0, 1, 2, 3, 1 << 8, (1 << 11) - 1, 1 << 11, (1 << 61) - 1, 1 << 61, u64::MAX] {
            tally.same(&format!("degree {k}, element {element:#x}"), gfp::draw(k, element), reference::draw(k, element));
        }
        if k > 61 {
            tally.same(&format!("degree {k}"), gfp::draw(k, 2), Err(3));
        }
    }
}
