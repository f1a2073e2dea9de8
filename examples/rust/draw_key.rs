//! Draws a key of degree 61 with an element from the system's random source. It shows no key: keep one where nobody
//! else reads it. The exit status is 0 only where a key was drawn and the line was written. Keyholder level.
#[path = "../../bindings/rust/gfp.rs"]
mod gfp;
use std::error::Error;
use std::io::{Read, Write};

fn element(degree: u32) -> std::io::Result<u64> {
    let mut bytes = [0; 8];
    std::fs::File::open("/dev/urandom")?.read_exact(&mut bytes)?;
    Ok(u64::from_le_bytes(bytes) >> (64 - degree))
}

fn main() -> Result<(), Box<dyn Error>> {
    // elements 0 and 1 have no minimal polynomial of degree 61; they are refused, and another one is taken
    let key = loop {
        match gfp::draw(61, element(61)?) {
            Ok(key) => break key,
            Err(gfp::refusal::ELEMENT_OUT_OF_RANGE) => continue,
            Err(number) => return Err(format!("refused {number}").into()),
        }
    };
    gfp::test_key(key).map_err(|number| format!("refused {number}"))?;
    // println! would panic where standard output cannot be written
    let mut out = std::io::stdout();
    writeln!(out, "drew {key:?}, of degree {}, accepted", key.degree)?;
    out.flush()?;
    Ok(())
}
