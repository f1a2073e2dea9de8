//! Both kinds of marks by one name for each call, so that a test is written once for both: ours, with the 1 in front of the file's bits
//! (document 01), and plain marks, without it (document 02, wish 9).
use crate::{gfp, reference::{self, Part}, Key};
use std::fmt::Debug;

/// A kind of marks. The second implementation tells the kinds apart by what the division of a file's bits begins with.
pub trait Kind: Copy + Debug + PartialEq + From<reference::Mark> + Into<reference::Mark> {
    const START: u64;
    /// The kind that turning gives.
    type Other: Kind<Other = Self>;

    fn begin(key: Key) -> Result<Self, u32>;
    fn turn(self, key: Key) -> Result<Self::Other, u32>;
    fn feed(&mut self, key: Key, part: Part) -> Result<(), u32>;
    fn feed_table(&mut self, key: Key, words: &[u64], part: Part) -> Result<(), u32>;
    fn feed_house(&mut self, key: Key, part: Part) -> Result<(), u32>;
    fn join_behind(&mut self, key: Key, other: Self) -> Result<(), u32>;
    fn join_in_front(&mut self, key: Key, other: Self) -> Result<(), u32>;
    fn replace_page(&mut self, key: Key, place: u64, old: Part, new: Part) -> Result<(), u32>;

    /// The true mark of a file, by the second implementation.
    fn of(key: Key, file: Part) -> Self {
        reference::mark_from(Self::START, key, file).into()
    }
}

macro_rules! kind {
    ($mark:ident, start $start:literal, begun by $begin:ident, turned into $other:ident by $turn:ident) => {
        impl From<reference::Mark> for gfp::$mark {
            fn from(mark: reference::Mark) -> Self {
                gfp::$mark { fingerprint: mark.fingerprint, bits: mark.bits }
            }
        }

        impl From<gfp::$mark> for reference::Mark {
            fn from(mark: gfp::$mark) -> Self {
                reference::Mark { fingerprint: mark.fingerprint, bits: mark.bits }
            }
        }

        impl Kind for gfp::$mark {
            const START: u64 = $start;
            type Other = gfp::$other;

            fn begin(key: Key) -> Result<Self, u32> {
                gfp::$begin(key)
            }
            fn turn(self, key: Key) -> Result<gfp::$other, u32> {
                self.$turn(key)
            }
            fn feed(&mut self, key: Key, part: Part) -> Result<(), u32> {
                self.feed(key, part)
            }
            fn feed_table(&mut self, key: Key, words: &[u64], part: Part) -> Result<(), u32> {
                self.feed_table(key, words, part)
            }
            fn feed_house(&mut self, key: Key, part: Part) -> Result<(), u32> {
                self.feed_house(key, part)
            }
            fn join_behind(&mut self, key: Key, other: Self) -> Result<(), u32> {
                self.join_behind(key, other)
            }
            fn join_in_front(&mut self, key: Key, other: Self) -> Result<(), u32> {
                self.join_in_front(key, other)
            }
            fn replace_page(&mut self, key: Key, place: u64, old: Part, new: Part) -> Result<(), u32> {
                self.replace_page(key, place, old, new)
            }
        }
    };
}

kind!(Mark, start 1, begun by begin, turned into PlainMark by without_leading_one);
kind!(PlainMark, start 0, begun by begin_plain, turned into Mark by with_leading_one);

impl<'a> From<Part<'a>> for gfp::Part<'a> {
    fn from(part: Part<'a>) -> Self {
        gfp::Part { bytes: part.bytes, used: part.used }
    }
}

/// The mark as one of ours.
pub fn ours(mark: reference::Mark) -> gfp::Mark {
    mark.into()
}

/// The state after a call, and the number: on refusal the state handed in.
pub fn outcome<M: From<reference::Mark>>(before: reference::Mark, answer: Result<reference::Mark, u32>) -> (M, u32) {
    match answer {
        Ok(mark) => (mark.into(), 0),
        Err(number) => (before.into(), number),
    }
}

pub fn after<M>(mut mark: M, call: impl FnOnce(&mut M) -> Result<(), u32>) -> (M, u32) {
    let number = call(&mut mark).err().unwrap_or(0);
    (mark, number)
}

// The wrapper hands a begun mark and a turned one back by value. Declared again here, both functions show what their places hold after a refusal.
unsafe extern "C" {
    fn gfp_begin_plain(degree: u32, word: u64, fingerprint: *mut u64, bits: *mut u64) -> u32;
    fn gfp_turn(degree: u32, word: u64, fingerprint: *mut u64, bits: *mut u64) -> u32;
}

/// Both places after gfp_begin_plain, and the number.
pub fn begun_in_places(key: Key, mut places: reference::Mark) -> (reference::Mark, u32) {
    let number = unsafe { gfp_begin_plain(key.degree, key.word, &mut places.fingerprint, &mut places.bits) };
    (places, number)
}

/// Both places after gfp_turn, and the number.
pub fn turned_in_places(key: Key, mut places: reference::Mark) -> (reference::Mark, u32) {
    let number = unsafe { gfp_turn(key.degree, key.word, &mut places.fingerprint, &mut places.bits) };
    (places, number)
}
