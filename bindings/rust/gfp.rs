//! Safe Rust over the C interface of include/gfp.h. Each function answers what the C function writes, or the refusal's
//! number. A part of a file, a page and a file for a sheet are a `Part`; whole bytes are passed as `&[u8]`, `&Vec<u8>`
//! or `&[u8; N]`. A mark is a `Mark` or a `PlainMark`; no function takes one for the other. A file with its mark gives
//! its key away, and so does a sheet or a table alone, and so do the mark and the plain mark of one file:
//! share/doc/gfp/SECURITY.md, which is installed with this file, says who may hold what. Compiles in editions 2021 and
//! 2024, from Rust 1.82 on.
#![allow(dead_code)]

mod raw {
    unsafe extern "C" {
        pub fn gfp_test_key(degree: u32, word: u64) -> u32;
        pub fn gfp_stock_key(degree: u32) -> u64;
        pub fn gfp_begin(degree: u32, word: u64, fingerprint: *mut u64, bits: *mut u64) -> u32;
        pub fn gfp_begin_plain(degree: u32, word: u64, fingerprint: *mut u64, bits: *mut u64) -> u32;
        pub fn gfp_feed(
            degree: u32, word: u64, fingerprint: *mut u64, bits: *mut u64, part: *const u8, part_length: usize,
            used: u32,
        ) -> u32;
        pub fn gfp_make_table(degree: u32, word: u64, words: *mut u64, words_length: usize) -> u32;
        pub fn gfp_test_table(degree: u32, word: u64, words: *const u64, words_length: usize) -> u32;
        pub fn gfp_feed_table(
            degree: u32, word: u64, fingerprint: *mut u64, bits: *mut u64, words: *const u64, words_length: usize,
            part: *const u8, part_length: usize, used: u32,
        ) -> u32;
        pub fn gfp_feed_house(
            degree: u32, word: u64, fingerprint: *mut u64, bits: *mut u64, part: *const u8, part_length: usize,
            used: u32,
        ) -> u32;
        pub fn gfp_turn(degree: u32, word: u64, fingerprint: *mut u64, bits: *mut u64) -> u32;
        pub fn gfp_join_behind(
            degree: u32, word: u64, fingerprint: *mut u64, bits: *mut u64, other_fingerprint: u64, other_bits: u64,
        ) -> u32;
        pub fn gfp_join_in_front(
            degree: u32, word: u64, fingerprint: *mut u64, bits: *mut u64, other_fingerprint: u64, other_bits: u64,
        ) -> u32;
        pub fn gfp_join_plain_behind(
            degree: u32, word: u64, fingerprint: *mut u64, bits: *mut u64, other_fingerprint: u64, other_bits: u64,
        ) -> u32;
        pub fn gfp_join_plain_in_front(
            degree: u32, word: u64, fingerprint: *mut u64, bits: *mut u64, other_fingerprint: u64, other_bits: u64,
        ) -> u32;
        pub fn gfp_replace_page(
            degree: u32, word: u64, fingerprint: *mut u64, bits: *mut u64, place: u64,
            old_page: *const u8, old_page_length: usize, old_used: u32,
            new_page: *const u8, new_page_length: usize, new_used: u32,
        ) -> u32;
        pub fn gfp_search(
            degree: u32, word: u64, text: *const u8, text_length: usize, pattern: *const u8, pattern_length: usize,
            places: *mut u32, places_length: usize, count: *mut u32, alarms: *mut u32,
        ) -> u32;
        pub fn gfp_sheet_length(file_length: u64, page_size: u64, sheet_length: *mut u64) -> u32;
        pub fn gfp_write_sheet(
            degree: u32, word: u64, page_size: u64, file: *const u8, file_length: usize, used: u32,
            sheet: *mut u8, sheet_length: usize,
        ) -> u32;
        pub fn gfp_read_sheet(
            sheet: *const u8, sheet_length: usize, version: *mut u32, degree: *mut u32, word: *mut u64,
            bits: *mut u64, page_size: *mut u64, pages: *mut u64, fingerprint: *mut u64,
        ) -> u32;
        pub fn gfp_read_pages(
            sheet: *const u8, sheet_length: usize, fingerprints: *mut u64, fingerprints_length: usize,
        ) -> u32;
        pub fn gfp_check_file(
            sheet: *const u8, sheet_length: usize, file: *const u8, file_length: usize, used: u32,
            outcome: *mut u32, page: *mut u32,
        ) -> u32;
        pub fn gfp_changed_range(
            sheet: *const u8, sheet_length: usize, file: *const u8, file_length: usize, used: u32,
            outcome: *mut u32, from: *mut u64, to: *mut u64,
        ) -> u32;
        pub fn gfp_draw(degree: u32, element: u64, word: *mut u64) -> u32;
    }
}

/// The number of a refusal, 1 to 14 or 19; `refusal` has their names.
pub type Refusal = u32;

/// The names of the refusals.
pub mod refusal {
    use super::Refusal;
    /// The degree is not 8 to 64, or a bit of the word stands at t^degree or above. To mend: `Key::of` splits a key
    /// that is written as one number.
    pub const KEY_RANGE: Refusal = 1;
    /// The key is a product of two of lower degree. To mend: check that it was copied whole; draw another, or take a
    /// stock key.
    pub const KEY_REDUCIBLE: Refusal = 2;
    /// No key of this degree is drawn. To mend: pass 11, 13, 17, 19, 23, 29, 31, 37, 41, 43, 47, 53, 59 or 61.
    pub const DEGREE_NOT_LISTED: Refusal = 3;
    /// The element is 0, 1, or not below 2^degree. To mend: take another random number with as many bits as the degree.
    pub const ELEMENT_OUT_OF_RANGE: Refusal = 4;
    /// The table does not have `TABLE_WORDS` words. To mend: lend so many.
    pub const TABLE_SIZE: Refusal = 5;
    /// A word of the table is not this key's. To mend: make the table again under this key. In `feed_house`: pass
    /// `HOUSE_KEY`, or feed by this key's own table.
    pub const TABLE_WORD: Refusal = 6;
    /// A length handed in, or the resulting one, passes 34,359,738,360 bits. To mend: split the file; check that bits
    /// were not multiplied by 8 once more.
    pub const TOO_LONG: Refusal = 7;
    /// A mark's fingerprint is not below 2^degree. To mend: check that the mark was taken under this key.
    pub const MARK_NOT_REDUCED: Refusal = 8;
    /// The old and the new page do not have the same number of bits. To mend: pass both with one length and one `used`.
    pub const PAGE_LENGTHS_DIFFER: Refusal = 9;
    /// The page ends past the file's end. To mend: check the place, which is in bytes, and the mark's length, in bits.
    pub const PAGE_PAST_END: Refusal = 10;
    /// The pattern has no bytes. To mend: search for at least one.
    pub const EMPTY_PATTERN: Refusal = 11;
    /// The page size is not 16 to 4,096 bytes. To mend: choose one in that range.
    pub const PAGE_SIZE: Refusal = 12;
    /// The lent bytes are fewer than the sheet's. To mend: lend as many as `sheet_length` gives.
    pub const BUFFER_SHORT: Refusal = 13;
    /// The bytes are no page sheet of a version that this library reads. To mend: fetch the sheet again; read a later
    /// version with a later library.
    pub const SHEET_MALFORMED: Refusal = 14;
    /// The final byte of a `Part`: `used` is not 1 to 8, or is not 8 and there are no bytes, or a low bit that is not
    /// used is 1. To mend: pass the bytes alone where all their bits count; else clear the 8 − `used` low bits of the
    /// final byte.
    pub const FINAL_BYTE: Refusal = 19;
}

/// The version of the C interface that this wrapper is for (`GFP_INTERFACE`).
pub const INTERFACE: u32 = 5;

/// The house key, which is that of the constant table (`GFP_HOUSE_DEGREE` and `GFP_HOUSE_WORD`).
pub const HOUSE_KEY: Key = Key { degree: 61, word: 0x27 };
pub const TABLE_WORDS: usize = 1024;

/// The version of the sheets that `write_sheet` writes (`GFP_SHEET_VERSION`); sheets of versions 1 to 3 are read and
/// checked too. The key field has 9 bytes in version 4, the degree and the word; in versions 1 to 3 it has 8, the key
/// as one number, so that these sheets have keys of degree 8 to 63. The length field is in bits and has 8 bytes in
/// versions 3 and 4; it is in bytes and has 4 in versions 1 and 2. A last page shorter than the page size is
/// fingerprinted in versions 2 to 4 over the bits it has, in version 1 filled up with zero bytes to the page size.
pub const SHEET_VERSION: u16 = 4;

/// A key: a polynomial of degree 8 to 64 over the field of two elements, as its degree and the word of its coefficients
/// below t^degree, bit i being that of t^i. Other pairs can be passed, and are refused with 1. `{:?}` shows no key;
/// whoever has to show one writes `{:x}`.
#[derive(Clone, Copy, Default, PartialEq, Eq, Hash)]
pub struct Key {
    pub degree: u32,
    pub word: u64,
}

impl Key {
    /// The key that is written as one number, say in hexadecimal: the degree is the place of its highest one bit, the
    /// word its 64 low bits without that one. `Key::of(0x11b)` is degree 8, word 0x1b, and
    /// `Key::of(0x1_0000_0000_0000_001b)` is degree 64, word 0x1b. Numbers below 256, and those of 2^65 or more, give a
    /// pair that is refused with 1; of 0 it is degree 0, word 0.
    pub const fn of(number: u128) -> Key {
        if number == 0 {
            return Key { degree: 0, word: 0 };
        }
        let degree = 127 - number.leading_zeros();
        Key { degree, word: (number ^ 1 << degree) as u64 }
    }

    /// The number that `of` makes the key from, for a key that `test_key` accepts.
    pub const fn number(self) -> u128 {
        let top = if self.degree < 128 { 1 << self.degree } else { 0 };
        top | self.word as u128
    }
}

/// Shows no key, so that none gets into a log: not here, and not in what holds one, as `Sheet` does.
impl std::fmt::Debug for Key {
    fn fmt(&self, f: &mut std::fmt::Formatter) -> std::fmt::Result {
        f.write_str("Key(hidden)")
    }
}

/// The key as one number, as `of` takes it; a pair that is no key's, which is refused with 1, as degree and word.
impl std::fmt::LowerHex for Key {
    fn fmt(&self, f: &mut std::fmt::Formatter) -> std::fmt::Result {
        let number = self.number();
        if (8..65).contains(&self.degree) && Key::of(number) == *self {
            std::fmt::LowerHex::fmt(&number, f)
        } else {
            write!(f, "degree {}, word {:x}", self.degree, self.word)
        }
    }
}

/// A fingerprint and a length in bits. The fingerprint is the residue of the file's bits with a leading 1, modulo the
/// key.
#[derive(Clone, Copy, Debug, PartialEq, Eq)]
pub struct Mark {
    pub fingerprint: u64,
    pub bits: u64,
}

/// A plain fingerprint and a length in bits. The fingerprint is the residue of the file's bits with no leading 1: an
/// archive that was made by equations (3) and (4) of Broder's paper holds these. Plain fingerprints of two files are
/// protected only where the files are equally long: the empty file and one zero byte both have 0, under every key. So
/// compare whole plain marks, not fingerprints alone.
#[derive(Clone, Copy, Debug, PartialEq, Eq)]
pub struct PlainMark {
    pub fingerprint: u64,
    pub bits: u64,
}

/// A part of a file, a page, or a file for a sheet: its bytes, and how many bits of the final byte belong to it, 1 to
/// 8, at that byte's high end. The low bits that are not used must be 0. A part without bytes has 8. Whole bytes become
/// a part by themselves: `mark.feed(key, &bytes)`; three bits, 010: `mark.feed(key, Part { bytes: &[0x40], used: 3 })`.
#[derive(Clone, Copy, Debug, PartialEq, Eq)]
pub struct Part<'a> {
    pub bytes: &'a [u8],
    pub used: u32,
}

/// Whole bytes.
impl<'a, T: AsRef<[u8]> + ?Sized> From<&'a T> for Part<'a> {
    fn from(bytes: &'a T) -> Self {
        Part { bytes: bytes.as_ref(), used: 8 }
    }
}

fn answer<T>(number: u32, value: T) -> Result<T, Refusal> {
    if number == 0 { Ok(value) } else { Err(number) }
}

/// Whether a key is accepted: its degree is 8 to 64, its word has no bit at t^degree or above, and it is irreducible.
pub fn test_key(key: Key) -> Result<(), Refusal> {
    let Key { degree, word } = key;
    answer(unsafe { raw::gfp_test_key(degree, word) }, ())
}

/// The stock key of a degree 8 to 64: the smallest accepted key of that degree. `None` for every other number.
pub fn stock_key(degree: u32) -> Option<Key> {
    match unsafe { raw::gfp_stock_key(degree) } {
        0 => None,
        word => Some(Key { degree, word }),
    }
}

/// The mark of the empty file.
pub fn begin(key: Key) -> Result<Mark, Refusal> {
    let Key { degree, word } = key;
    let mut mark = Mark { fingerprint: 0, bits: 0 };
    let number = unsafe { raw::gfp_begin(degree, word, &mut mark.fingerprint, &mut mark.bits) };
    answer(number, mark)
}

/// The plain mark of the empty file.
pub fn begin_plain(key: Key) -> Result<PlainMark, Refusal> {
    let Key { degree, word } = key;
    let mut mark = PlainMark { fingerprint: 0, bits: 0 };
    let number = unsafe { raw::gfp_begin_plain(degree, word, &mut mark.fingerprint, &mut mark.bits) };
    answer(number, mark)
}

/// The two numbers of a mark of either kind, for the calls that serve both kinds.
struct Places<'m> {
    fingerprint: &'m mut u64,
    bits: &'m mut u64,
}

impl Places<'_> {
    fn feed(self, key: Key, part: Part) -> Result<(), Refusal> {
        let Key { degree, word } = key;
        let (part, size, used) = (part.bytes.as_ptr(), part.bytes.len(), part.used);
        answer(unsafe { raw::gfp_feed(degree, word, self.fingerprint, self.bits, part, size, used) }, ())
    }

    fn feed_table(self, key: Key, words: &[u64], part: Part) -> Result<(), Refusal> {
        let Key { degree, word } = key;
        let Part { bytes, used } = part;
        let (table, size) = (words.as_ptr(), words.len());
        let (fingerprint, bits) = (self.fingerprint, self.bits);
        let number = unsafe {
            raw::gfp_feed_table(degree, word, fingerprint, bits, table, size, bytes.as_ptr(), bytes.len(), used)
        };
        answer(number, ())
    }

    fn feed_house(self, key: Key, part: Part) -> Result<(), Refusal> {
        let Key { degree, word } = key;
        let (part, size, used) = (part.bytes.as_ptr(), part.bytes.len(), part.used);
        answer(unsafe { raw::gfp_feed_house(degree, word, self.fingerprint, self.bits, part, size, used) }, ())
    }

    fn turn(self, key: Key) -> Result<(), Refusal> {
        let Key { degree, word } = key;
        answer(unsafe { raw::gfp_turn(degree, word, self.fingerprint, self.bits) }, ())
    }

    fn replace_page(self, key: Key, place: u64, old: Part, new: Part) -> Result<(), Refusal> {
        let Key { degree, word } = key;
        let (old_page, old_length) = (old.bytes.as_ptr(), old.bytes.len());
        let (new_page, new_length) = (new.bytes.as_ptr(), new.bytes.len());
        let (fingerprint, bits) = (self.fingerprint, self.bits);
        let number = unsafe {
            raw::gfp_replace_page(
                degree, word, fingerprint, bits, place, old_page, old_length, old.used, new_page, new_length, new.used,
            )
        };
        answer(number, ())
    }
}

impl Mark {
    fn places(&mut self) -> Places<'_> {
        Places { fingerprint: &mut self.fingerprint, bits: &mut self.bits }
    }

    /// Feeds the next part of a file, with no table, from the next bit on. On refusal the mark is unchanged.
    pub fn feed<'a>(&mut self, key: Key, part: impl Into<Part<'a>>) -> Result<(), Refusal> {
        self.places().feed(key, part.into())
    }

    /// Feeds the next part by a table.
    pub fn feed_table<'a>(&mut self, key: Key, words: &[u64], part: impl Into<Part<'a>>) -> Result<(), Refusal> {
        self.places().feed_table(key, words, part.into())
    }

    /// Feeds the next part by the table of `HOUSE_KEY`, which the library holds. Under another key its words are tested
    /// first.
    pub fn feed_house<'a>(&mut self, key: Key, part: impl Into<Part<'a>>) -> Result<(), Refusal> {
        self.places().feed_house(key, part.into())
    }

    /// The plain mark of the same file, from the length alone. Also between two parts: feeding goes on as if the file
    /// had begun with `begin_plain`. A mark that no file has is not refused.
    pub fn without_leading_one(mut self, key: Key) -> Result<PlainMark, Refusal> {
        self.places().turn(key)?;
        Ok(PlainMark { fingerprint: self.fingerprint, bits: self.bits })
    }

    /// The other mark's file goes behind this one's. Neighbouring marks may be joined in any grouping: the mark or the
    /// number is the same, where the key is accepted and neither 7 nor 8 applies to any of them by itself. The order of
    /// the files matters.
    pub fn join_behind(&mut self, key: Key, other: Mark) -> Result<(), Refusal> {
        let Key { degree, word } = key;
        let (fingerprint, bits) = (&mut self.fingerprint, &mut self.bits);
        answer(unsafe { raw::gfp_join_behind(degree, word, fingerprint, bits, other.fingerprint, other.bits) }, ())
    }

    /// The other mark's file goes in front of this one's.
    pub fn join_in_front(&mut self, key: Key, other: Mark) -> Result<(), Refusal> {
        let Key { degree, word } = key;
        let (fingerprint, bits) = (&mut self.fingerprint, &mut self.bits);
        answer(unsafe { raw::gfp_join_in_front(degree, word, fingerprint, bits, other.fingerprint, other.bits) }, ())
    }

    /// The new page stands where the old one stood, from the byte at `place` on. Both have the same number of bits; a
    /// page with `used` below 8 may stand anywhere in the file.
    pub fn replace_page<'a, 'b>(
        &mut self,
        key: Key,
        place: u64,
        old: impl Into<Part<'a>>,
        new: impl Into<Part<'b>>,
    ) -> Result<(), Refusal> {
        self.places().replace_page(key, place, old.into(), new.into())
    }
}

/// The calls of `Mark`, for plain marks.
impl PlainMark {
    fn places(&mut self) -> Places<'_> {
        Places { fingerprint: &mut self.fingerprint, bits: &mut self.bits }
    }

    /// Feeds the next part of a file, with no table, from the next bit on. On refusal the plain mark is unchanged.
    pub fn feed<'a>(&mut self, key: Key, part: impl Into<Part<'a>>) -> Result<(), Refusal> {
        self.places().feed(key, part.into())
    }

    /// Feeds the next part by a table, which is the same as for a `Mark`.
    pub fn feed_table<'a>(&mut self, key: Key, words: &[u64], part: impl Into<Part<'a>>) -> Result<(), Refusal> {
        self.places().feed_table(key, words, part.into())
    }

    /// Feeds the next part by the table of `HOUSE_KEY`, as `Mark::feed_house` does.
    pub fn feed_house<'a>(&mut self, key: Key, part: impl Into<Part<'a>>) -> Result<(), Refusal> {
        self.places().feed_house(key, part.into())
    }

    /// The mark of the same file, from the length alone. Also between two parts: feeding goes on as if the file had
    /// begun with `begin`. A plain mark that no file has is not refused.
    pub fn with_leading_one(mut self, key: Key) -> Result<Mark, Refusal> {
        self.places().turn(key)?;
        Ok(Mark { fingerprint: self.fingerprint, bits: self.bits })
    }

    /// The other plain mark's file goes behind this one's.
    pub fn join_behind(&mut self, key: Key, other: PlainMark) -> Result<(), Refusal> {
        let Key { degree, word } = key;
        let (fingerprint, bits) = (&mut self.fingerprint, &mut self.bits);
        let number =
            unsafe { raw::gfp_join_plain_behind(degree, word, fingerprint, bits, other.fingerprint, other.bits) };
        answer(number, ())
    }

    /// The other plain mark's file goes in front of this one's.
    pub fn join_in_front(&mut self, key: Key, other: PlainMark) -> Result<(), Refusal> {
        let Key { degree, word } = key;
        let (fingerprint, bits) = (&mut self.fingerprint, &mut self.bits);
        let number =
            unsafe { raw::gfp_join_plain_in_front(degree, word, fingerprint, bits, other.fingerprint, other.bits) };
        answer(number, ())
    }

    /// The new page stands where the old one stood, as in `Mark::replace_page`.
    pub fn replace_page<'a, 'b>(
        &mut self,
        key: Key,
        place: u64,
        old: impl Into<Part<'a>>,
        new: impl Into<Part<'b>>,
    ) -> Result<(), Refusal> {
        self.places().replace_page(key, place, old.into(), new.into())
    }
}

pub fn make_table(key: Key, words: &mut [u64]) -> Result<(), Refusal> {
    let Key { degree, word } = key;
    answer(unsafe { raw::gfp_make_table(degree, word, words.as_mut_ptr(), words.len()) }, ())
}

pub fn test_table(key: Key, words: &[u64]) -> Result<(), Refusal> {
    let Key { degree, word } = key;
    answer(unsafe { raw::gfp_test_table(degree, word, words.as_ptr(), words.len()) }, ())
}

/// The number of places and of false alarms.
#[derive(Clone, Copy, Debug, PartialEq, Eq)]
pub struct Counts {
    pub places: u32,
    pub alarms: u32,
}

/// The places of the pattern in the text, byte offsets, the first ones into `places`, as far as they reach.
pub fn search(key: Key, text: &[u8], pattern: &[u8], places: &mut [u32]) -> Result<Counts, Refusal> {
    let Key { degree, word } = key;
    let mut counts = Counts { places: 0, alarms: 0 };
    let (lent, room) = (places.as_mut_ptr(), places.len());
    let (count, alarms) = (&mut counts.places, &mut counts.alarms);
    let (text, text_length, pattern, pattern_length) = (text.as_ptr(), text.len(), pattern.as_ptr(), pattern.len());
    let number = unsafe {
        raw::gfp_search(degree, word, text, text_length, pattern, pattern_length, lent, room, count, alarms)
    };
    answer(number, counts)
}

/// The bytes of the page sheet of a file of the given length in bytes, an unfinished byte counted as one:
/// 32 + 8 × pages.
pub fn sheet_length(file_length: u64, page_size: u64) -> Result<u64, Refusal> {
    let mut bytes = 0;
    let number = unsafe { raw::gfp_sheet_length(file_length, page_size, &mut bytes) };
    answer(number, bytes)
}

/// Writes the page sheet of a file, of version `SHEET_VERSION`: 32 + 8 × pages bytes.
pub fn write_sheet<'a>(
    key: Key,
    page_size: u64,
    file: impl Into<Part<'a>>,
    sheet: &mut [u8],
) -> Result<(), Refusal> {
    let Key { degree, word } = key;
    let Part { bytes, used } = file.into();
    let (lent, room) = (sheet.as_mut_ptr(), sheet.len());
    answer(unsafe { raw::gfp_write_sheet(degree, word, page_size, bytes.as_ptr(), bytes.len(), used, lent, room) }, ())
}

/// The numbers of a page sheet: `bits` is the file's length in bits whatever the version, `page_size` is in bytes.
#[derive(Clone, Copy, Debug, Default, PartialEq, Eq)]
pub struct Sheet {
    pub version: u32,
    pub key: Key,
    pub bits: u64,
    pub page_size: u64,
    pub pages: u64,
    pub fingerprint: u64,
}

/// Reads a page sheet of version 1, 2, 3 or 4. The joining of number 14: in versions 2 to 4 the page marks joined, each
/// with its own length, must give the file's fingerprint; in version 1 the page marks joined, each as long as the page
/// size, must give that of the file with zero bytes behind it, as many as its last page is filled up with. Without
/// pages the file's fingerprint must be 1 in all.
pub fn read_sheet(sheet: &[u8]) -> Result<Sheet, Refusal> {
    let mut x = Sheet::default();
    let (lent, size) = (sheet.as_ptr(), sheet.len());
    let (version, degree, word, bits) = (&mut x.version, &mut x.key.degree, &mut x.key.word, &mut x.bits);
    let (page_size, pages, fingerprint) = (&mut x.page_size, &mut x.pages, &mut x.fingerprint);
    let number = unsafe {
        raw::gfp_read_sheet(lent, size, version, degree, word, bits, page_size, pages, fingerprint)
    };
    answer(number, x)
}

/// The page fingerprints of a page sheet, the first ones into `fingerprints`, as far as they reach. The last one is
/// that of the page filled up in version 1, and of the page as long as it is in versions 2 to 4.
pub fn read_pages(sheet: &[u8], fingerprints: &mut [u64]) -> Result<(), Refusal> {
    let (lent, room) = (fingerprints.as_mut_ptr(), fingerprints.len());
    answer(unsafe { raw::gfp_read_pages(sheet.as_ptr(), sheet.len(), lent, room) }, ())
}

/// The answer of a check.
#[derive(Clone, Copy, Debug, PartialEq, Eq)]
pub enum Check {
    Same,
    /// The first page whose fingerprint differs, counted from 0.
    Page(u32),
    OtherLength,
}

/// Checks a file against a page sheet. Lengths are compared in bits: against a sheet of version 1 or 2 a file with
/// `used` below 8 has another length. Against one of version 1 the file's last page is filled up with zero bytes to the
/// page size, against one of version 2, 3 or 4 it is not.
pub fn check_file<'a>(sheet: &[u8], file: impl Into<Part<'a>>) -> Result<Check, Refusal> {
    let Part { bytes, used } = file.into();
    let (mut outcome, mut page) = (0, 0);
    let (lent, size) = (sheet.as_ptr(), sheet.len());
    let number = unsafe {
        raw::gfp_check_file(lent, size, bytes.as_ptr(), bytes.len(), used, &mut outcome, &mut page)
    };
    answer(number, [Check::Same, Check::Page(page), Check::OtherLength][outcome as usize])
}

/// The answer of a check that names bytes.
#[derive(Clone, Debug, PartialEq, Eq)]
pub enum Changed {
    Same,
    /// The bytes of the first page whose fingerprint differs; an unfinished byte at the file's end counts as one.
    Bytes(std::ops::Range<u64>),
    OtherLength,
}

/// Checks a file as `check_file` does, and names the bytes of the page.
pub fn changed_range<'a>(sheet: &[u8], file: impl Into<Part<'a>>) -> Result<Changed, Refusal> {
    let Part { bytes, used } = file.into();
    let (mut outcome, mut from, mut to) = (0, 0, 0);
    let (lent, size) = (sheet.as_ptr(), sheet.len());
    let number = unsafe {
        raw::gfp_changed_range(lent, size, bytes.as_ptr(), bytes.len(), used, &mut outcome, &mut from, &mut to)
    };
    answer(number, [Changed::Same, Changed::Bytes(from..to), Changed::OtherLength][outcome as usize].clone())
}

/// The key of a degree that an element draws.
pub fn draw(degree: u32, element: u64) -> Result<Key, Refusal> {
    let mut word = 0;
    let number = unsafe { raw::gfp_draw(degree, element, &mut word) };
    answer(number, Key { degree, word })
}
