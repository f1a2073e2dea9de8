//! Joining and page change, singly, and lists of calls beside the plain book of document 01, each with both kinds of marks.
use crate::{generator::Generator, gfp, kinds::{after, outcome, Kind}, reference::{self, pack, Part}, Key, Tally};

/// The place of a page: random, or beside the last one at which the page fits.
fn place(generator: &mut Generator, mark: reference::Mark, old: Part) -> u64 {
    let last = mark.bits.wrapping_sub(old.length() as u64) / 8;
    match generator.below(9) {
        0 => u64::MAX,
        1 => generator.next(),
        2 => last,
        3 => last.wrapping_add(1),
        4 => [1 << 61, (1 << 61) + 1, 1 << 62, (1 << 61) - 1][generator.below(4) as usize],
        _ => generator.below(mark.bits.max(8) / 8),
    }
}

fn page_change<M: Kind>(tally: &mut Tally, generator: &mut Generator, key: Key, mark: reference::Mark) {
    let (n, old_used) = (generator.below(30) as usize, generator.used());
    let m = if generator.one_in(6) { generator.below(30) as usize } else { n };
    let new_used = if generator.one_in(4) { generator.used() } else { old_used };
    let (old, new) = (generator.bytes_used(n, old_used), generator.bytes_used(m, new_used));
    let (old, new) = (Part { bytes: &old, used: old_used }, Part { bytes: &new, used: new_used });
    let place = place(generator, mark, old);
    tally.same(
        &format!("replace page at {place}, {old:?} by {new:?}, {key:x}, mark {mark:?}"),
        after(M::from(mark), |m| m.replace_page(key, place, old, new)),
        outcome(mark, reference::replace_page(key, mark, place, old, new)),
    );
}

/// One call of each kind on random input, good and bad.
fn calls<M: Kind>(tally: &mut Tally, generator: &mut Generator) {
    let key = generator.key();
    let mark = generator.mark(key);
    let other = generator.mark(key);
    let what = format!("{key:x}, {:?}, other {other:?}", M::from(mark));
    tally.same(
        &format!("join behind, {what}"),
        after(M::from(mark), |m| m.join_behind(key, other.into())),
        outcome(mark, reference::join_behind(M::START, key, mark, other)),
    );
    tally.same(
        &format!("join in front, {what}"),
        after(M::from(mark), |m| m.join_in_front(key, other.into())),
        outcome(mark, reference::join_in_front(M::START, key, mark, other)),
    );
    page_change::<M>(tally, generator, key, mark);
}

/// The book: it holds a file as a string of bits, is told the calls and sees no mark. Refused calls leave the file.
struct Book<M> {
    key: Key,
    words: Vec<u64>,
    file: Vec<bool>,
    mark: M,
}

impl<M: Kind> Book<M> {
    fn true_mark<T: Kind>(&self, bits: &[bool]) -> T {
        T::of(self.key, pack(bits).part())
    }

    /// A call that is not refused.
    fn good_call(&mut self, generator: &mut Generator) -> Result<(), u32> {
        let bits = bits(generator, 200);
        let (packed, part_mark, key) = (pack(&bits), self.true_mark::<M>(&bits), self.key);
        match generator.below(5) {
            0 => {
                self.file.extend(&bits);
                self.mark.feed(key, packed.part())
            }
            1 => {
                self.file.extend(&bits);
                self.mark.feed_table(key, &self.words, packed.part())
            }
            2 => {
                self.file.extend(&bits);
                self.mark.join_behind(key, part_mark)
            }
            3 => {
                self.file.splice(0..0, bits);
                self.mark.join_in_front(key, part_mark)
            }
            _ => self.page_change(generator, &bits),
        }
    }

    /// The first of the bits, as many as fit, stand from some byte of the file on.
    fn page_change(&mut self, generator: &mut Generator, bits: &[bool]) -> Result<(), u32> {
        let size = bits.len().min(self.file.len());
        let place = generator.below((self.file.len() - size) as u64 / 8 + 1) as usize;
        let page = &mut self.file[8 * place..8 * place + size];
        let old = pack(page);
        page.copy_from_slice(&bits[..size]);
        self.mark.replace_page(self.key, place as u64, old.part(), pack(&bits[..size]).part())
    }

    /// A call that is refused, and its number; a damaged table may be right all the same.
    fn bad_call(&mut self, generator: &mut Generator) -> (Result<(), u32>, u32) {
        let bits = bits(generator, 200);
        let (packed, key) = (pack(&bits), self.key);
        let dirty = Part { bytes: &[0xff], used: 1 + generator.below(7) as u32 };
        match generator.below(5) {
            0 => (self.mark.feed(key, dirty), 19),
            1 => {
                let damaged = generator.table(key);
                let number = reference::test_table(key, &damaged).err().unwrap_or(0);
                if number == 0 {
                    self.file.extend(&bits);
                }
                (self.mark.feed_table(key, &damaged, packed.part()), number)
            }
            2 => {
                // at degree 64 every fingerprint is a residue, and the other mark is too long instead
                let (fingerprint, length, number) =
                    if key.degree < 64 { (1 << key.degree, bits.len() as u64, 8) } else { (u64::MAX, reference::LIMIT + 1, 7) };
                (self.mark.join_behind(key, reference::Mark { fingerprint, bits: length }.into()), number)
            }
            3 => {
                let place = reference::bytes_for(self.file.len() as u64) + 1;
                (self.mark.replace_page(key, place, packed.part(), packed.part()), 10)
            }
            _ => {
                let number = if (self.file.len() as u128) < dirty.length() { 10 } else { 19 };
                (self.mark.replace_page(key, 0, dirty, dirty), number)
            }
        }
    }
}

/// A random string of fewer bits than n.
pub fn bits(generator: &mut Generator, n: u64) -> Vec<bool> {
    (0..generator.below(n)).map(|_| generator.one_in(2)).collect()
}

/// A list of calls, from the empty file's mark or another true one: every answer, the mark it leaves, and that mark turned.
fn list<M: Kind>(tally: &mut Tally, generator: &mut Generator) {
    let k = generator.degree();
    let key = generator.accepted(k);
    let file = bits(generator, 160);
    let mark = if file.is_empty() { M::begin(key).expect("an accepted key") } else { M::of(key, pack(&file).part()) };
    let mut book = Book { key, words: reference::table(key), file, mark };
    let calls = generator.below(12);
    for _ in 0..calls {
        let bad = generator.one_in(4);
        let (given, number) = if bad { book.bad_call(generator) } else { (book.good_call(generator), 0) };
        tally.same(&format!("refusal in a list, {key:x}"), given.err().unwrap_or(0), number);
    }
    let what = format!("mark after a list of {calls} calls, {key:x}");
    tally.same(&what, book.mark, book.true_mark(&book.file));
    tally.same(format_args!("{what}, turned"), book.mark.turn(key), Ok(book.true_mark(&book.file)));
}

fn run_with<M: Kind>(tally: &mut Tally, generator: &mut Generator, rounds: u64) {
    for _ in 0..rounds * 3000 {
        calls::<M>(tally, generator);
    }
    for _ in 0..rounds * 10_000 {
        list::<M>(tally, generator);
    }
}

pub fn run(tally: &mut Tally, rounds: u64) {
    let mut generator = Generator::new(5);
    // 41 and 42 joined, under keys of degree 8 and 64
    for (degree, front, back, whole) in [(8, 0x5a, 0x59, 0x9d), (64, 0x141, 0x142, 0x14142)] {
        let (key, mark) = (Key { degree, word: 0x1b }, |fingerprint, bits| gfp::Mark { fingerprint, bits });
        let joined = after(mark(front, 8), |m| m.join_behind(key, mark(back, 8)));
        tally.same(&format!("reading, 41 and 42 joined, {key:x}"), joined, (mark(whole, 16), 0));
    }
    run_with::<gfp::Mark>(tally, &mut generator, rounds);
    run_with::<gfp::PlainMark>(tally, &mut generator, rounds);
}
