//! For tools/test-program: what document 01's printing program prints for standard input, by the second implementation of reference.rs.
//! Usage: printed < INPUT                       prints the text
//!        printed input DEGREE COUNT            writes an input: an accepted key of the degree, and COUNT pseudo-random bytes
//!        printed pieces MS SIZE.. < INPUT      copies the input in pieces of the sizes, over and over, MS milliseconds after each
#[allow(dead_code)]
mod generator;
#[allow(dead_code)]
mod reference;

use std::io::{Read, Result, Write};

/// A key: its degree, and the coefficients below t^degree.
#[derive(Clone, Copy, Debug, PartialEq, Eq)]
pub struct Key {
    degree: u32,
    word: u64,
}

/// The number that the first line gives, of up to 68 bits, and the file behind it.
fn key_line(input: &[u8]) -> Option<(u128, &[u8])> {
    let end = input.iter().position(|&b| b == b'\n')?;
    let line = &input[..end];
    let digit = |b: &u8| matches!(b, b'0'..=b'9' | b'a'..=b'f');
    if line.is_empty() || line.len() > 17 || !line.iter().all(digit) {
        return None;
    }
    let text = std::str::from_utf8(line).ok()?;
    Some((u128::from_str_radix(text, 16).ok()?, &input[end + 1..]))
}

fn printed(input: &[u8]) -> String {
    let Some((number, file)) = key_line(input) else {
        return "no key\n".to_string();
    };
    let key = reference::key_of(number);
    match reference::begin(key).and_then(|mark| reference::feed(key, mark, file)) {
        Ok(mark) => {
            let (degree, bytes, fingerprint) = (key.degree, mark.bits / 8, mark.fingerprint);
            format!("key {degree} {number:x}\nbytes {bytes}\nmark {fingerprint:x}\n")
        }
        Err(refusal) => format!("refused {refusal}\n"),
    }
}

fn input_of(degree: u64, count: u64) -> Vec<u8> {
    let mut generator = generator::Generator::new(degree);
    let key = generator.accepted(degree as u32);
    let mut input = format!("{:x}\n", reference::polynomial(key)).into_bytes();
    input.extend(generator.bytes(count as usize));
    input
}

fn in_pieces(input: &[u8], pause: u64, sizes: &[u64]) -> Result<()> {
    let mut rest = input;
    for size in sizes.iter().cycle() {
        let n = rest.len().min(*size as usize);
        std::io::stdout().write_all(&rest[..n])?;
        std::io::stdout().flush()?;
        rest = &rest[n..];
        if rest.is_empty() {
            break;
        }
        std::thread::sleep(std::time::Duration::from_millis(pause));
    }
    Ok(())
}

fn main() -> Result<()> {
    let words: Vec<String> = std::env::args().collect();
    let numbers: Vec<u64> = words.iter().skip(2).map(|n| n.parse().expect("a number")).collect();
    let mode = words.get(1).map_or("", String::as_str);
    if mode == "input" {
        return std::io::stdout().write_all(&input_of(numbers[0], numbers[1]));
    }
    let mut input = Vec::new();
    std::io::stdin().read_to_end(&mut input)?;
    match mode {
        "pieces" => in_pieces(&input, numbers[0], &numbers[1..]),
        _ => std::io::stdout().write_all(printed(&input).as_bytes()),
    }
}
