//! The search: places, false alarms, and the lent words.
use crate::{generator::Generator, gfp, reference, Key, Tally};

fn compare(tally: &mut Tally, what: &str, key: Key, text: &[u8], pattern: &[u8], room: usize) {
    let before: Vec<u32> = (0..room as u32).map(|i| 0xffff_0000 + i).collect();
    let mut words = before.clone();
    let answer = gfp::search(key, text, pattern, &mut words).map(|c| (u64::from(c.places), u64::from(c.alarms)));
    let second = reference::search(key, text, pattern);
    let mut after = before;
    if let Ok((places, _)) = &second {
        for (word, place) in after.iter_mut().zip(places) {
            *word = *place;
        }
    }
    let what = format!("{what}, {key:x}, {} bytes in {}, {room} words", pattern.len(), text.len());
    tally.same(&what, answer, second.map(|(places, alarms)| (places.len() as u64, alarms)));
    tally.same(&format!("words, {what}"), words, after);
}

fn random(tally: &mut Tally, generator: &mut Generator) {
    let key = if generator.one_in(3) { generator.accepted(8) } else { generator.key() };
    let letters = [1, 2, 3, 256][generator.below(4) as usize];
    let n = generator.below(400) as usize;
    let text: Vec<u8> = (0..n).map(|_| generator.below(letters) as u8).collect();
    let m = match generator.below(5) {
        0 => generator.below(n as u64 + 3) as usize,
        1 => n,
        _ => generator.below(6) as usize,
    };
    let pattern: Vec<u8> = if n > 0 && m <= n && generator.one_in(2) {
        let at = [0, n - m, generator.below((n - m) as u64 + 1) as usize][generator.below(3) as usize];
        text[at..at + m].to_vec()
    } else {
        (0..m).map(|_| generator.below(letters) as u8).collect()
    };
    let room = [0, 1, 2, 500, generator.below(60) as usize][generator.below(5) as usize];
    compare(tally, "random", key, &text, &pattern, room);
}

pub fn run(tally: &mut Tally, rounds: u64) {
    let mut generator = Generator::new(6);
    for degree in [8, 64] {
        let key = Key { degree, word: 0x1b };
        compare(tally, "reading", key, b"aaa", b"aa", 2);
        compare(tally, "reading", key, b"aaa", b"aa", 1);
        compare(tally, "empty pattern", key, b"aaa", b"", 2);
        // 01, zero bytes and the word in zero bytes: no place, and a false alarm
        let k = degree as usize / 8;
        let pattern: Vec<u8> = (0..=k).map(|i| if i == 0 { 1 } else if i == k { 0x1b } else { 0 }).collect();
        compare(tally, "reading", key, &vec![0; k + 1], &pattern, 2);
        let counts = gfp::search(key, &vec![0; k + 1], &pattern, &mut []);
        tally.same("reading, a false alarm", counts, Ok(gfp::Counts { places: 0, alarms: 1 }));
    }
    for _ in 0..rounds * 3000 {
        random(tally, &mut generator);
    }
    // a long text: the expected places by comparing slices, the alarms of keys of degree 61 and 64 none
    let mut text = generator.bytes(16 << 20);
    let pattern = generator.bytes(16);
    let places: Vec<u32> = [0usize, 5, 1_000_000, 7_777_777, (16 << 20) - 16].into_iter().map(|p| p as u32).collect();
    for &p in &places {
        text[p as usize..p as usize + 16].copy_from_slice(&pattern);
    }
    let expected: Vec<u32> = text.windows(16).enumerate().filter(|(_, w)| *w == pattern).map(|(i, _)| i as u32).collect();
    for key in [gfp::HOUSE_KEY, generator.accepted(64)] {
        let mut words = vec![0; 8];
        let counts = gfp::search(key, &text, &pattern, &mut words);
        tally.same("16 MiB", counts.map(|c| c.places as usize), Ok(expected.len()));
        tally.same("places in 16 MiB", &words[..expected.len()], &expected[..]);
    }
}
