//! Page sheets: writing; reading and checking in all versions; other versions; sheets damaged in every byte; files that
//! stop inside a byte; keys as numbers and as pairs. The library writes version 4 alone, so sheets of versions 1 to 3
//! are the second implementation's.
use crate::generator::{cleaned, Generator};
use crate::reference::{self, pack, Part, Version, VERSIONS};
use crate::{feeding::turning_lengths, gfp, Key, Tally};

/// t^8 + t^4 + t^3 + t + 1, and t^64 + t^4 + t^3 + t + 1.
const EIGHT: Key = Key { degree: 8, word: 0x1b };
const SIXTY_FOUR: Key = Key { degree: 64, word: 0x1b };
/// Keys of degree 8, 31, 61, 63 and 64.
const KEYS: [Key; 5] = [EIGHT, Key { degree: 31, word: 9 }, gfp::HOUSE_KEY, Key { degree: 63, word: 3 }, SIXTY_FOUR];

fn numbers(x: &reference::Sheet) -> gfp::Sheet {
    gfp::Sheet {
        version: x.version.number as u32,
        key: x.key,
        bits: x.bits,
        page_size: x.page_size,
        pages: x.pages.len() as u64,
        fingerprint: x.fingerprint,
    }
}

fn check(sheet: &[u8], file: Part) -> Result<gfp::Check, u32> {
    reference::check_file(sheet, file).map(|c| match c {
        reference::Check::Same => gfp::Check::Same,
        reference::Check::Page(i) => gfp::Check::Page(i as u32),
        reference::Check::OtherLength => gfp::Check::OtherLength,
    })
}

fn range(sheet: &[u8], file: Part) -> Result<gfp::Changed, u32> {
    reference::changed_range(sheet, file).map(|c| match c {
        reference::Changed::Same => gfp::Changed::Same,
        reference::Changed::Bytes(range) => gfp::Changed::Bytes(range),
        reference::Changed::OtherLength => gfp::Changed::OtherLength,
    })
}

/// Writes a sheet on both sides, with room to spare or too little, and compares what was written.
fn write(tally: &mut Tally, key: Key, size: u64, file: Part, room: usize) -> Vec<u8> {
    let what = format!("sheet of {file:?}, page size {size}, {key:x}, {room} bytes lent");
    let before: Vec<u8> = (0..room).map(|i| i as u8 ^ 0xa5).collect();
    let mut ours = before.clone();
    let number = gfp::write_sheet(key, size, file, &mut ours).err().unwrap_or(0);
    let second = reference::write_sheet(key, size, file, &before);
    tally.same(&what, number, second.clone().err().unwrap_or(0));
    let n = file.bytes.len() as u64;
    tally.same(&format!("length, {what}"), gfp::sheet_length(n, size), reference::sheet_length(n, size));
    tally.same(&format!("bytes, {what}"), &ours, &second.unwrap_or(before));
    ours
}

/// The page fingerprints in as many words as lent, all of which hold 7 before.
fn pages(x: &reference::Sheet, lent: usize) -> Vec<u64> {
    let behind = std::iter::repeat(&7);
    x.pages.iter().chain(behind).take(lent).copied().collect()
}

fn judge<'a>(tally: &mut Tally, what: &str, sheet: &[u8], file: impl Into<Part<'a>>) {
    let file = file.into();
    let second = reference::read_sheet(sheet);
    let number = second.as_ref().err().copied().unwrap_or(0);
    tally.same(&format!("read, {what}"), gfp::read_sheet(sheet), second.as_ref().map(numbers).map_err(|_| number));
    for lent in [0, 1, sheet.len() / 8 + 1] {
        let mut words = vec![7; lent];
        let ours = gfp::read_pages(sheet, &mut words).err().unwrap_or(0);
        let after = second.as_ref().map_or(vec![7; lent], |x| pages(x, lent));
        tally.same(&format!("pages into {lent} words, {what}"), (ours, words), (number, after));
    }
    judge_check(tally, what, sheet, file);
}

fn judge_check(tally: &mut Tally, what: &str, sheet: &[u8], file: Part) {
    tally.same(&format!("check, {what}, file of {file:?}"), gfp::check_file(sheet, file), check(sheet, file));
    tally.same(&format!("range, {what}, file of {file:?}"), gfp::changed_range(sheet, file), range(sheet, file));
}

/// A sheet beside its file, and beside the file with a bit changed at each of the places, one byte and one bit shorter
/// and longer, and with another u.
fn judge_files(tally: &mut Tally, what: &str, sheet: &[u8], file: Part, places: &[usize]) {
    judge(tally, &format!("as written, {what}"), sheet, file);
    for &at in places {
        let mut changed = file.bytes.to_vec();
        changed[at] ^= 1 << (at % 8);
        let changed = Part { bytes: &changed, used: file.used };
        judge_check(tally, &format!("byte {at} of the file changed, {what}"), sheet, changed);
    }
    let used = file.used;
    if let Some((_, shorter)) = file.bytes.split_last() {
        judge_check(tally, &format!("file one byte shorter, {what}"), sheet, Part { bytes: shorter, used });
    }
    let longer = [file.bytes, &[0]].concat();
    judge_check(tally, &format!("file one byte longer, {what}"), sheet, Part { bytes: &longer, used });
    let mut bits: Vec<bool> = file.bits().collect();
    bits.push(false);
    judge_check(tally, &format!("file one bit longer, {what}"), sheet, pack(&bits).part());
    bits.truncate(bits.len().saturating_sub(2));
    judge_check(tally, &format!("file one bit shorter, {what}"), sheet, pack(&bits).part());
    for used in [0, 1, 4, 7, 8, 9] {
        judge_check(tally, &format!("another u, {what}"), sheet, Part { bytes: file.bytes, used });
    }
}

/// The sheets of a file in versions 1 to 3, where the key and the page size have one: of its bytes where the version
/// counts in bytes, or where the final byte is wrong.
fn in_older_versions(key: Key, size: u64, file: Part) -> Vec<Vec<u8>> {
    if reference::test_key(key).is_err() || reference::sheet_length(file.bytes.len() as u64, size).is_err() {
        return Vec::new();
    }
    let of = |version: Version| if version.unit == 8 || file.misused() { file.bytes.into() } else { file };
    let older = reference::versions(key).filter(|&version| version != reference::WRITTEN);
    older.map(|version| reference::sheet(version, key, size, of(version))).collect()
}

/// Writes the sheet of a file; judges it, and the sheets in versions 1 to 3.
fn judge_versions(tally: &mut Tally, key: Key, size: u64, file: Part, places: &[usize]) {
    let total = reference::sheet_length(file.bytes.len() as u64, size).map_or(0, |total| total as usize);
    let mut written = write(tally, key, size, file, total + 8);
    written.truncate(total);
    for sheet in in_older_versions(key, size, file).into_iter().chain([written]) {
        let what = format!("{file:?}, page size {size}, {key:x}, version {:?}", sheet.get(3..5));
        judge_files(tally, &what, &sheet, file, places);
    }
}

fn random_page_size(generator: &mut Generator) -> u64 {
    match generator.below(8) {
        0 => [0, 15, 4097, 65_552, u64::MAX, 1 << 32][generator.below(6) as usize],
        1 => [16, 17, 4095, 4096][generator.below(4) as usize],
        _ => 16 + generator.below(200),
    }
}

/// The bytes of a file: none to some pages of the size, and a last one that is full or not.
fn random_file_length(generator: &mut Generator, size: u64) -> usize {
    // pages are taken in blocks of 64 and joined in four runs from 64 on
    let many = 60 + generator.below(10) + [0, 64, 192][generator.below(3) as usize];
    let pages = if size < 100 && generator.below(2) == 0 { many } else { generator.below(6) };
    let last = [0, 1, size.min(4096) - 1, generator.below(16)][generator.below(4) as usize];
    (pages * size.min(4096)).wrapping_add(last).min(30_000) as usize
}

fn random(tally: &mut Tally, generator: &mut Generator) {
    let (key, size, used) = (generator.key(), random_page_size(generator), generator.used());
    let n = random_file_length(generator, size);
    let bytes = generator.bytes_used(n, used);
    let file = Part { bytes: &bytes, used };
    let total = 32 + 8 * (n as u64).div_ceil(size.clamp(16, 4096)) as usize;
    let room = [total, total, total - 1, total + 5, generator.below(32) as usize, 0][generator.below(6) as usize];
    let mut written = write(tally, key, size, file, room);
    written.truncate(total);
    let place = (n > 0).then(|| generator.below(n as u64) as usize);
    for mut sheet in in_older_versions(key, size, file).into_iter().chain([written]) {
        judge_files(tally, &format!("page size {size}, {key:x}"), &sheet, file, place.as_slice());
        if !sheet.is_empty() {
            let at = generator.below(sheet.len() as u64) as usize;
            sheet[at] ^= 1 << generator.below(8);
            judge(tally, &format!("byte {at} of the sheet changed"), &sheet, file);
            sheet.pop();
            judge(tally, "sheet one byte shorter", &sheet, file);
        }
    }
}

/// 8 or a random number below.
fn good_used(generator: &mut Generator) -> u32 {
    if generator.one_in(2) { 8 } else { 1 + generator.below(7) as u32 }
}

/// Pages of the lengths beside which feeding may go another way, and of random ones, under the house key and a random
/// one.
fn page_sizes(tally: &mut Tally, generator: &mut Generator) {
    let random: Vec<usize> = (0..50).map(|_| 16 + generator.below(4081) as usize).collect();
    let k = generator.degree();
    for key in [gfp::HOUSE_KEY, generator.accepted(k)] {
        for size in turning_lengths(4096).into_iter().chain(random.iter().copied()) {
            let pages = if generator.one_in(10) { 60 + generator.below(10) } else { generator.below(4) } as usize;
            let n = pages * size + generator.below(size as u64 + 1) as usize;
            let used = good_used(generator);
            let bytes = cleaned(generator.bytes(n + 1), used);
            let place = generator.below(n as u64 + 1) as usize;
            judge_versions(tally, key, size as u64, Part { bytes: &bytes, used }, &[place]);
        }
    }
}

/// Last pages of the lengths beside which feeding may go another way, alone or behind a whole page.
fn last_pages(tally: &mut Tally, generator: &mut Generator) {
    let k = generator.degree();
    for key in [gfp::HOUSE_KEY, generator.accepted(k)] {
        for size in [4096, 16 + generator.below(4081) as usize] {
            for last in turning_lengths(size).into_iter().filter(|&last| 0 < last && last <= size) {
                let before = if generator.one_in(2) { size } else { 0 };
                let used = good_used(generator);
                let bytes = cleaned(generator.bytes(before + last), used);
                let file = Part { bytes: &bytes, used };
                judge_versions(tally, key, size as u64, file, &[before, before + last - 1]);
            }
        }
    }
}

/// File sizes around no page, one and two, with random bytes and with zero bytes: whole, and with each u below 8 where
/// the pages are short, also where the bytes are full pages.
fn file_sizes(tally: &mut Tally, generator: &mut Generator) {
    for key in KEYS {
        for size in [16usize, 17, 100, 4096] {
            for n in [0, 1, size - 1, size, size + 1, 2 * size - 1, 2 * size] {
                let places: Vec<usize> = [0, size - 1, size, n.saturating_sub(1)].into_iter().filter(|&at| at < n).collect();
                let few = [8, 1 + generator.below(7) as u32];
                let used = if size < 20 { &[1, 2, 3, 4, 5, 6, 7, 8][..] } else { &few };
                for &used in used {
                    for bytes in [cleaned(generator.bytes(n), used), vec![0; n]] {
                        judge_versions(tally, key, size as u64, Part { bytes: &bytes, used }, &places);
                    }
                }
            }
        }
    }
}

/// The last page fingerprint that the library reads.
fn last_page(version: Version, sheet: &[u8]) -> Result<Option<u64>, u32> {
    let mut words = vec![0; (sheet.len() - version.total(0) as usize) / 8];
    gfp::read_pages(sheet, &mut words).map(|()| words.last().copied())
}

/// A file that ends in a zero, and the file without it, both with a last page that has bits: they are of another length
/// in every version. Where pages are filled up, the two last pages have equal fingerprints. Else they are f and f times
/// a power of t, which are equal only where f is 0.
fn lost_zero(tally: &mut Tally, version: Version, key: Key, size: usize, file: Part, shorter: Part) {
    let what = format!("zero lost, {file:?}, page size {size}, {key:x}, {version:?}");
    let sheets = [file, shorter].map(|file| reference::sheet(version, key, size as u64, file));
    for (sheet, other) in sheets.iter().zip([shorter, file]) {
        tally.same(&format!("check, {what}"), gfp::check_file(sheet, other), Ok(gfp::Check::OtherLength));
        tally.same(&format!("range, {what}"), gfp::changed_range(sheet, other), Ok(gfp::Changed::OtherLength));
    }
    let [whole, lost] = sheets.map(|sheet| last_page(version, &sheet));
    let equal = version.filled || lost == Ok(Some(0));
    tally.same(&format!("last page, {what}"), (whole.is_ok(), lost.is_ok(), whole == lost), (true, true, equal));
}

/// A zero byte lost, in every version.
fn lost_zero_byte(tally: &mut Tally, key: Key, size: usize, file: &[u8]) {
    for version in reference::versions(key) {
        lost_zero(tally, version, key, size, file.into(), (&file[..file.len() - 1]).into());
    }
}

fn lost_zero_bytes(tally: &mut Tally, generator: &mut Generator) {
    // one zero byte behind 1B, whose fingerprint under degree 8, word 1B is 0, and so behind seven zero bytes and 1B under degree 64
    lost_zero_byte(tally, EIGHT, 16, &[0x1b, 0]);
    lost_zero_byte(tally, SIXTY_FOUR, 16, &[0, 0, 0, 0, 0, 0, 0, 0x1b, 0]);
    for key in KEYS {
        for size in [16, 100] {
            for last in 2..=size {
                for before in [0, 2 * size] {
                    let mut file = generator.bytes(before + last);
                    file[before + last - 1] = 0;
                    lost_zero_byte(tally, key, size, &file);
                }
            }
        }
    }
}

/// A zero bit lost, in versions 3 and 4: last pages of every number of bits.
fn lost_zero_bits(tally: &mut Tally, generator: &mut Generator) {
    for key in KEYS {
        let size = 16;
        for last in 2..=8 * size {
            for before in [0, 8 * size] {
                let mut bits: Vec<bool> = (0..before + last).map(|_| generator.one_in(2)).collect();
                bits[before + last - 1] = false;
                let (file, shorter) = (pack(&bits), pack(&bits[..before + last - 1]));
                for version in reference::versions(key).filter(|version| version.unit == 1) {
                    lost_zero(tally, version, key, size, file.part(), shorter.part());
                }
            }
        }
    }
}

/// Every call that reads a sheet refuses it with the number.
fn refused(tally: &mut Tally, what: &str, sheet: &[u8], file: &[u8], number: u32) {
    let mut words = [7; 3];
    tally.same(&format!("read, {what}"), gfp::read_sheet(sheet), Err(number));
    tally.same(&format!("pages, {what}"), (gfp::read_pages(sheet, &mut words), words), (Err(number), [7; 3]));
    tally.same(&format!("check, {what}"), gfp::check_file(sheet, file), Err(number));
    tally.same(&format!("range, {what}"), gfp::changed_range(sheet, file), Err(number));
}

/// Sheets of thirteen other versions are refused with 14. The version has two bytes: 257 to 260 are 01 01 to 01 04.
fn other_versions(tally: &mut Tally) {
    for number in [0, 5, 6, 255, 256, 257, 258, 259, 260, 512, 513, 1024, 65_535] {
        for version in VERSIONS {
            for file in [&b""[..], b"AB", b"one page, whole.", b"one page and a bit"] {
                let sheet = reference::sheet(Version { number, ..version }, EIGHT, 16, file);
                judge(tally, &format!("version {number}"), &sheet, file);
                refused(tally, &format!("version {number}"), &sheet, file, 14);
            }
        }
    }
}

/// A sheet of version 1 or 2 with the other's number: right where the fields are the other's too, else refused with 14.
/// Of version 3 or 4 with another number, or the other way round: refused.
fn with_other_number(tally: &mut Tally, key: Key, size: usize, file: &[u8]) {
    let of = |version: Version| (version, reference::sheet(version, key, size as u64, file));
    let sheets: Sheets = reference::versions(key).map(of).collect();
    let fields_equal = sheets.len() > 1 && sheets[0].1[19..] == sheets[1].1[19..];
    for (version, sheet) in &sheets {
        for other in VERSIONS.into_iter().filter(|other| other != version) {
            let (from, to) = (version.number, other.number);
            let what = format!("number {from} changed to {to}, {} bytes, page size {size}, {key:x}", file.len());
            let mut sheet = sheet.clone();
            sheet[4] = to as u8;
            judge(tally, &what, &sheet, file);
            if from + to != 3 {
                tally.same(&what, gfp::read_sheet(&sheet).is_err(), true);
            } else if fields_equal {
                tally.same(&what, gfp::check_file(&sheet, file), Ok(gfp::Check::Same));
            } else {
                refused(tally, &what, &sheet, file, 14);
            }
        }
    }
}

fn with_other_numbers(tally: &mut Tally, generator: &mut Generator) {
    for key in KEYS {
        for size in [16, 17, 100] {
            for n in 0..=2 * size {
                with_other_number(tally, key, size, &generator.bytes(n));
            }
        }
    }
    // t^(8 × 51) is 1 modulo t^8 + t^4 + t^3 + t + 1: a page of 13 bytes filled up to 64 has the fingerprint that it has unfilled
    let file = generator.bytes(64 + 13);
    tally.same("51 zero bytes behind a page", reference::power_of_t(reference::polynomial(EIGHT), 8 * 51), 1);
    with_other_number(tally, EIGHT, 64, &file);
}

/// Sheets of a file, each with its version.
type Sheets = Vec<(Version, Vec<u8>)>;

/// The sheets of a file: in every version that has one under the key, but in versions 1 and 2 only where it does not stop
/// inside a byte.
fn sheets_of(key: Key, size: usize, file: Part) -> Sheets {
    let has_one = |version: &Version| file.length() % u128::from(version.unit) == 0;
    let versions = reference::versions(key).filter(has_one);
    versions.map(|version| (version, reference::sheet(version, key, size as u64, file))).collect()
}

/// A changed file of the same length: the library tells the first page on which the two files differ, or same where it
/// is None.
fn first_change(tally: &mut Tally, what: &str, sheets: &Sheets, file: Part, size: usize, page: Option<usize>) {
    let check = page.map_or(gfp::Check::Same, |i| gfp::Check::Page(i as u32));
    let end = |i: usize| (i * size + size).min(file.bytes.len()) as u64;
    let range = page.map_or(gfp::Changed::Same, |i| gfp::Changed::Bytes((i * size) as u64..end(i)));
    for (version, sheet) in sheets {
        tally.same(&format!("check, {what}, {version:?}"), gfp::check_file(sheet, file), Ok(check));
        tally.same(&format!("range, {what}, {version:?}"), gfp::changed_range(sheet, file), Ok(range.clone()));
    }
}

/// The file with the bits added from the bit at the place on, the highest first.
fn with_bits(file: &[u8], place: usize, bits: u128, width: usize) -> Vec<u8> {
    let mut changed = file.to_vec();
    for i in place..place + width {
        let bit = (bits >> (place + width - 1 - i) & 1) as u8;
        changed[i / 8] ^= bit << (7 - i % 8);
    }
    changed
}

/// Changes inside k neighbouring bits, beginning at each bit of a file: the first page that differs is told. What is expected comes from the
/// files and not from the second implementation's check.
fn bursts(tally: &mut Tally, generator: &mut Generator) {
    for key in KEYS {
        for (size, n, used) in [(16, 32, 8), (16, 53, 8), (20, 41, 8), (16, 32, 3), (16, 33, 1), (20, 41, 7)] {
            let bytes = cleaned(generator.bytes(n), used);
            bursts_in(tally, generator, key, size, Part { bytes: &bytes, used });
        }
    }
}

fn bursts_in(tally: &mut Tally, generator: &mut Generator, key: Key, size: usize, file: Part) {
    let (k, n) = (key.degree as usize, file.length() as usize);
    let sheets = sheets_of(key, size, file);
    for place in 0..n {
        for width in [1, 1 + generator.below(k as u64) as usize, k].map(|width| width.min(n - place)) {
            // the first and the last bit are changed
            let bits = generator.residue(width as u32) | 1 << (width - 1) | 1;
            let changed = with_bits(file.bytes, place, bits.into(), width);
            let page = file.bytes.iter().zip(&changed).position(|(a, b)| a != b).map(|at| at / size);
            let what = format!("{width} bits from {place} on, {file:?}, page size {size}, {key:x}");
            first_change(tally, &what, &sheets, Part { bytes: &changed, used: file.used }, size, page);
        }
    }
}

/// The key's own k + 1 bits added to a file, beginning at each bit. On one page they change no fingerprint, since the key divides them; on two
/// they are two changes inside k bits.
fn key_added(tally: &mut Tally, generator: &mut Generator) {
    for key in KEYS {
        let width = key.degree as usize + 1;
        for used in [8, 5] {
            let (size, bytes) = (16, cleaned(generator.bytes(45), used));
            let file = Part { bytes: &bytes, used };
            let sheets = sheets_of(key, size, file);
            for place in 0..=file.length() as usize - width {
                let (first, last) = (place / 8 / size, (place + width - 1) / 8 / size);
                let what = format!("{key:x} added from bit {place} on");
                let page = (first != last).then_some(first);
                let changed = with_bits(&bytes, place, reference::polynomial(key), width);
                first_change(tally, &what, &sheets, Part { bytes: &changed, used }, size, page);
            }
        }
    }
}

/// The sheet of n zero bits, whose fingerprints are powers of t.
fn sheet_of_zeros(version: Version, key: Key, size: u64, n: u64) -> Vec<u8> {
    let c = reference::bytes_for(n).div_ceil(size);
    let zeros = |count: u64| reference::power_of_t(reference::polynomial(key), count).to_be_bytes();
    // the head is that of a sheet without pages, but for the length
    let mut sheet = reference::sheet(version, key, size, b"")[..version.head()].to_vec();
    let field = (n / version.unit).to_be_bytes();
    sheet[version.length_at()..version.head() - 2].copy_from_slice(&field[8 - version.width..]);
    let whole = zeros(8 * size);
    (1..c).for_each(|_| sheet.extend(whole));
    sheet.extend(if version.filled { whole } else { zeros(n - 8 * (c - 1) * size) });
    sheet.extend(zeros(n));
    sheet
}

/// The longest file, of zero bits, in every version, and in version 4 one that is 3 bits shorter, and one under a key of
/// degree 64. Its pages of 4,096 bytes, filled up, are longer than the limit of number 7, which the joining does not
/// have.
fn longest(tally: &mut Tally) {
    let (house, size) = (gfp::HOUSE_KEY, 4096);
    let whole = VERSIONS.map(|version| (version, house, reference::LIMIT));
    let others = [(VERSIONS[3], house, reference::LIMIT - 3), (VERSIONS[3], SIXTY_FOUR, reference::LIMIT - 1)];
    for (version, key, n) in whole.into_iter().chain(others) {
        let mut sheet = sheet_of_zeros(version, key, size, n);
        let expected = gfp::Sheet {
            version: version.number as u32,
            key,
            bits: n,
            page_size: size,
            pages: reference::LIMIT_BYTES.div_ceil(size),
            fingerprint: reference::power_of_t(reference::polynomial(key), n),
        };
        let what = format!("the longest file, {n} bits, {key:x}, {version:?}");
        tally.same(&what, gfp::read_sheet(&sheet), Ok(expected));
        let last = sheet.len() - 9;
        sheet[last] ^= 1;
        tally.same(&format!("{what}, last page changed"), gfp::read_sheet(&sheet), Err(14));
        sheet[last] ^= 1;
        if version.number < 3 {
            sheet[4] ^= 3;
            tally.same(&format!("{what}, the other number"), gfp::read_sheet(&sheet), Err(14));
        }
    }
}

/// The longest file but 3 bits, itself: its sheet is written, and it is checked against that; so is a file with another
/// last bit.
fn longest_file(tally: &mut Tally) {
    let (key, size, n) = (gfp::HOUSE_KEY, 4096, reference::LIMIT - 3);
    let mut bytes = vec![0; reference::LIMIT_BYTES as usize];
    let expected = sheet_of_zeros(reference::WRITTEN, key, size, n);
    let mut sheet = vec![9; expected.len()];
    let number = gfp::write_sheet(key, size, Part { bytes: &bytes, used: 5 }, &mut sheet).err();
    tally.same("the longest file, its sheet", (number, sheet == expected), (None, true));
    let check = gfp::check_file(&sheet, Part { bytes: &bytes, used: 5 });
    tally.same("the longest file, checked", check, Ok(gfp::Check::Same));
    bytes[reference::LIMIT_BYTES as usize - 1] = 8;
    let range = gfp::changed_range(&sheet, Part { bytes: &bytes, used: 5 });
    let last_page = gfp::Changed::Bytes(reference::LIMIT_BYTES / size * size..reference::LIMIT_BYTES);
    tally.same("the longest file, its last bit changed", range, Ok(last_page));
}

/// Every byte of a sheet changed, in every bit.
fn damage<'a>(tally: &mut Tally, version: Version, key: Key, size: u64, file: impl Into<Part<'a>>) {
    let file = file.into();
    let sheet = reference::sheet(version, key, size, file);
    judge(tally, "undamaged", &sheet, file);
    for at in 0..sheet.len() {
        for bit in 0..8 {
            let mut damaged = sheet.clone();
            damaged[at] ^= 1 << bit;
            judge(tally, &format!("bit {bit} of byte {at} changed, {version:?}"), &damaged, file);
        }
    }
    for n in 0..sheet.len() {
        judge(tally, &format!("cut to {n} bytes, {version:?}"), &sheet[..n], file);
    }
}

/// The lengths of sheets around the edges of lengths and page sizes.
fn lengths(tally: &mut Tally, generator: &mut Generator) {
    let sizes = [0, 15, 16, 17, 4095, 4096, 4097, 1 << 32, (1 << 32) + 16, u64::MAX];
    let limit = reference::LIMIT_BYTES;
    let far = [limit - 1, limit, limit + 1, reference::LIMIT, 1 << 61, 1 << 63, u64::MAX, generator.below(1 << 32)];
    for n in [0, 1, 15, 16, 17].into_iter().chain(far) {
        for size in sizes.into_iter().chain([16 + generator.below(4081)]) {
            tally.same(&format!("length of a sheet of {n} bytes, page size {size}"), gfp::sheet_length(n, size), reference::sheet_length(n, size));
        }
    }
}

/// Key fields of a version, and their number. A number in 8 bytes: document 01's number 1. A degree and a word: a degree
/// outside 8 to 64, a bit of the word at t^k or above, and reducible ones.
fn key_fields(version: Version) -> Vec<(Vec<u8>, u32)> {
    let number = |(key, number): (u64, u32)| (key.to_be_bytes().to_vec(), number);
    let pair = |(degree, word, number): (u8, u64, u32)| ([&[degree], &word.to_be_bytes()[..]].concat(), number);
    if !version.pair {
        return [(0x11b, 0), (0, 1), (1, 1), (0xff, 1), (0x101, 2), (1 << 63, 2), (0x0800_0000_0000_001b, 2)].map(number).to_vec();
    }
    let outside = [(0, 0, 1), (0, 0x1b, 1), (7, 0x03, 1), (65, 0x1b, 1), (255, u64::MAX, 1), (8, 0x11b, 1), (63, 1 << 63, 1)];
    [(8, 0x1b, 0), (8, 0x01, 2), (63, 0, 2), (64, 0, 2)].into_iter().chain(outside).map(pair).collect()
}

/// The sheet of 41 42 under 0x11B with another key field.
fn with_key_field(version: Version, file: &[u8], field: &[u8]) -> Vec<u8> {
    let mut sheet = reference::sheet(version, EIGHT, 16, file);
    sheet[5..version.length_at()].copy_from_slice(field);
    sheet
}

/// Sheets of a version with each of some numbers in the length field, under good and bad keys and page sizes. A number
/// past the limit gives 14 whatever the key and the page size are; else the key's number comes first.
fn length_fields(tally: &mut Tally) {
    let limit = reference::LIMIT;
    let lengths = [0, 1, 15, 16, 17, 128, limit - 7, limit, limit + 1, 1 << 63, u64::MAX - 7, u64::MAX - 6, u64::MAX];
    for version in VERSIONS {
        let (at, head) = (version.length_at(), version.head());
        for (field, number) in key_fields(version) {
            for size in [0u16, 15, 16, 4096, 4097, 65_535] {
                for length in lengths {
                    let mut sheet = with_key_field(version, b"AB", &field);
                    sheet[at..head - 2].copy_from_slice(&length.to_be_bytes()[8 - version.width..]);
                    sheet[head - 2..head].copy_from_slice(&size.to_be_bytes());
                    let what = format!("length field {length}, key field {field:02x?}, page size {size}, {version:?}");
                    judge(tally, &what, &sheet, b"AB");
                    if version.unit == 1 && length > limit {
                        refused(tally, &what, &sheet, b"AB", 14);
                    } else if number > 0 {
                        refused(tally, &what, &sheet, b"AB", number);
                    }
                }
            }
        }
    }
}

/// Sheets cut to 26 to 32 bytes, under good and bad keys: shorter than the version's sheet without pages is 14 whatever
/// the key is.
fn short_sheets(tally: &mut Tally) {
    for version in VERSIONS {
        for (field, _) in key_fields(version) {
            for file in [&b""[..], b"AB", b"a page of 16 bytes, and a bit more"] {
                for n in 26..=32 {
                    let mut sheet = with_key_field(version, file, &field);
                    sheet.resize(n, 0);
                    let what = format!("cut to {n} bytes, key field {field:02x?}, {version:?}");
                    judge(tally, &what, &sheet, file);
                    if (n as u64) < version.total(0) {
                        refused(tally, &what, &sheet, file, 14);
                    }
                }
            }
        }
    }
}

/// Sheets of version 4 with each degree in the key field, and words of every kind: outside 8 to 64, or with a bit at t^k
/// or above, it is 1; else what the key and the rest of the sheet give.
fn degree_bytes(tally: &mut Tally) {
    for degree in 0..=255u8 {
        let at = 1u64.checked_shl(degree.into()).unwrap_or(0);
        for word in [0, 0x1b, 0x27, at, at | 0x1b, 1 << 63, u64::MAX] {
            for file in [&b""[..], b"AB"] {
                let field = [&[degree], &word.to_be_bytes()[..]].concat();
                let sheet = with_key_field(reference::WRITTEN, file, &field);
                let what = format!("degree {degree}, word {word:#x}");
                judge(tally, &what, &sheet, file);
                if !(8..=64).contains(&degree) || u128::from(word) >> degree != 0 {
                    refused(tally, &what, &sheet, file, 1);
                }
            }
        }
    }
}

/// Fields of a sheet that are 2^63 or more, where all else is right: 14 under a key of degree 63, and under one of
/// degree 64 a sheet like any other.
fn large_fields(tally: &mut Tally, generator: &mut Generator) {
    for _ in 0..50 {
        for k in [63, 64] {
            let key = generator.accepted(k);
            let bytes = generator.bytes(40);
            for version in reference::versions(key) {
                let sheet = reference::sheet(version, key, 16, &bytes);
                judge(tally, "large fields", &sheet, &bytes);
                for field in 0..4 {
                    let mut large = sheet.clone();
                    large[version.head() + 8 * field] |= 0x80;
                    judge(tally, "large fields", &large, &bytes);
                    if k == 63 {
                        refused(tally, "large fields", &large, &bytes, 14);
                    }
                }
            }
        }
    }
    // a file whose page fingerprint and own are 2^64 - 1
    let file = [&[0xff; 7][..], &[0xe4]].concat();
    tally.same("all ones", reference::fingerprint(SIXTY_FOUR, &file), u64::MAX);
    let mut sheet = vec![0; 40];
    let number = gfp::write_sheet(SIXTY_FOUR, 16, &file, &mut sheet);
    tally.same("all ones, written", (number, &sheet[24..]), (Ok(()), &[0xff; 16][..]));
    tally.same("all ones, read", gfp::read_sheet(&sheet).map(|x| x.fingerprint), Ok(u64::MAX));
    judge(tally, "all ones", &sheet, &file);
}

/// A check judges 7 and 19 after all of reading, and before it compares lengths.
fn final_bytes(tally: &mut Tally) {
    for version in VERSIONS {
        let sheet = reference::sheet(version, EIGHT, 16, b"AB");
        let file = |bytes: &'static [u8], used: u32| Part { bytes, used };
        for (file, answer) in [
            (file(b"AB", 8), Ok(gfp::Check::Same)),
            (file(b"AB", 7), Ok(gfp::Check::OtherLength)),
            (file(b"A", 8), Ok(gfp::Check::OtherLength)),
            (file(b"A", 7), Err(19)),
            (file(b"AB", 6), Err(19)),
            (file(b"AB", 0), Err(19)),
            (file(b"ABC", 9), Err(19)),
            (file(b"", 7), Err(19)),
            (file(b"", 8), Ok(gfp::Check::OtherLength)),
        ] {
            tally.same(&format!("check, {file:?}, {version:?}"), gfp::check_file(&sheet, file), answer);
        }
    }
}

/// The sheets of 41 42 with pages of 16 bytes under degree 8, word 1B: document 01's, wish 1's in version 2, wish 7's in
/// version 3 and wish 8's in version 4, byte for byte.
const AB: [&[u8]; 4] = [
    b"GFP\x00\x01\0\0\0\0\0\0\x01\x1b\0\0\0\x02\0\x10\0\0\0\0\0\0\0\xac\0\0\0\0\0\0\0\x9d",
    b"GFP\x00\x02\0\0\0\0\0\0\x01\x1b\0\0\0\x02\0\x10\0\0\0\0\0\0\0\x9d\0\0\0\0\0\0\0\x9d",
    b"GFP\x00\x03\0\0\0\0\0\0\x01\x1b\0\0\0\0\0\0\0\x10\0\x10\0\0\0\0\0\0\0\x9d\0\0\0\0\0\0\0\x9d",
    b"GFP\x00\x04\x08\0\0\0\0\0\0\0\x1b\0\0\0\0\0\0\0\x10\0\x10\0\0\0\0\0\0\0\x9d\0\0\0\0\0\0\0\x9d",
];
/// The same under degree 64, word 1B, in version 4.
const AB_64: &[u8] = b"GFP\x00\x04\x40\0\0\0\0\0\0\0\x1b\0\0\0\0\0\0\0\x10\0\x10\0\0\0\0\0\x01AB\0\0\0\0\0\x01AB";

/// The page fingerprints of the bytes 00 to 10 with pages of 16 bytes under degree 8, word 1B, in each version. The
/// file's is 45.
const SEVENTEEN: [[u64; 2]; 4] = [[0x6e, 0x90], [0x6e, 0x0b], [0x6e, 0x0b], [0x6e, 0x0b]];

/// A sheet of 41 42 as it is read and checked, and with its last byte changed.
fn reading(tally: &mut Tally, version: Version, key: Key, sheet: &[u8], fingerprint: u64) {
    let number = version.number as u32;
    let expected = gfp::Sheet { version: number, key, bits: 16, page_size: 16, pages: 1, fingerprint };
    let second = reference::sheet(version, key, 16, b"AB");
    let what = format!("reading, {key:x}, {version:?}");
    tally.same(&format!("{what}, by the second implementation"), &second[..], sheet);
    tally.same(&what, gfp::read_sheet(sheet), Ok(expected));
    tally.same(&format!("{what}, checked"), gfp::check_file(sheet, b"AB"), Ok(gfp::Check::Same));
    let mut damaged = sheet.to_vec();
    damaged[version.head() + 7] ^= 1;
    tally.same(&format!("{what}, damaged"), gfp::read_sheet(&damaged), Err(14));
}

fn readings(tally: &mut Tally) {
    for (key, sheet) in [(EIGHT, AB[3]), (SIXTY_FOUR, AB_64)] {
        let written = write(tally, key, 16, b"AB".into(), 40);
        tally.same("reading, the sheet of 41 42", &written[..], sheet);
        tally.same("reading, the version written", &written[3..5], &gfp::SHEET_VERSION.to_be_bytes()[..]);
    }
    for (version, sheet) in VERSIONS.into_iter().zip(AB) {
        reading(tally, version, EIGHT, sheet, 0x9d);
    }
    reading(tally, reference::WRITTEN, SIXTY_FOUR, AB_64, 0x14142);
    let file: Vec<u8> = (0..=0x10).collect();
    write(tally, EIGHT, 16, (&file).into(), 48);
    for (version, pages) in VERSIONS.into_iter().zip(SEVENTEEN) {
        let sheet = reference::sheet(version, EIGHT, 16, &file);
        let mut words = [7; 2];
        let what = format!("reading, 17 bytes, {version:?}");
        tally.same(&what, (gfp::read_pages(&sheet, &mut words), words), (Ok(()), pages));
        tally.same(&what, gfp::read_sheet(&sheet).map(|x| x.fingerprint), Ok(0x45));
        tally.same(&what, gfp::check_file(&sheet, &file), Ok(gfp::Check::Same));
    }
    // nine bytes 00, and 01, seven times 00 and 1B, differ across 65 bits: the one's sheet takes the other as same
    let mut sheet = vec![0; 40];
    tally.same("nine zero bytes", gfp::write_sheet(SIXTY_FOUR, 16, &[0; 9], &mut sheet), Ok(()));
    let other = [&[1][..], &[0; 7], &[0x1b]].concat();
    tally.same("nine zero bytes and others", gfp::check_file(&sheet, &other), Ok(gfp::Check::Same));
}

pub fn run(tally: &mut Tally, rounds: u64) {
    let mut generator = Generator::new(7);
    for _ in 0..rounds * 20 {
        lengths(tally, &mut generator);
    }
    readings(tally);
    other_versions(tally);
    length_fields(tally);
    short_sheets(tally);
    degree_bytes(tally);
    large_fields(tally, &mut generator);
    final_bytes(tally);
    longest(tally);
    longest_file(tally);
    for version in VERSIONS {
        damage(tally, version, EIGHT, 16, b"AB");
        damage(tally, version, gfp::HOUSE_KEY, 16, b"a file of two pages and a bit more");
        damage(tally, version, KEYS[1], 20, b"");
        damage(tally, version, EIGHT, 16, b"two pages of 16 bytes, all whole");
    }
    for file in [&b""[..], b"AB", b"a file of two pages and a bit more"] {
        damage(tally, reference::WRITTEN, SIXTY_FOUR, 16, file);
        damage(tally, reference::WRITTEN, generator.accepted(64), 16, file);
    }
    for used in 1..8 {
        for n in [1, 16, 17, 32] {
            let bytes = cleaned(b"two pages, the last of which is unfinished"[..n].to_vec(), used);
            for version in [VERSIONS[2], VERSIONS[3]] {
                damage(tally, version, gfp::HOUSE_KEY, 16, Part { bytes: &bytes, used });
            }
        }
    }
    for _ in 0..rounds {
        page_sizes(tally, &mut generator);
        last_pages(tally, &mut generator);
        file_sizes(tally, &mut generator);
        lost_zero_bytes(tally, &mut generator);
        lost_zero_bits(tally, &mut generator);
        with_other_numbers(tally, &mut generator);
        bursts(tally, &mut generator);
        key_added(tally, &mut generator);
    }
    for _ in 0..rounds * 600 {
        random(tally, &mut generator);
    }
}
