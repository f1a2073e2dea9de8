//! A register of marks: each logger's file under the office's key, kept up to date by joining and page change:
//! register KEY, the key in hexadecimal, or the stock key of degree 47. The exit status is 0 only where each mark is as
//! read anew and every line was written. Other users of the machine can read KEY: do not pass a drawn one so. Site
//! level.
#[path = "../../bindings/rust/gfp.rs"]
mod gfp;
use gfp::{Key, Mark, begin};
use std::error::Error;
use std::io::Write;

fn mark_of(key: Key, file: &[u8]) -> Result<Mark, u32> {
    let mut mark = begin(key)?;
    mark.feed(key, file)?;
    Ok(mark)
}

fn register_of(key: Key) -> Result<Vec<(&'static str, Mark)>, u32> {
    let mut register =
        vec![("piezometer 3", mark_of(key, b"offset 183.2 kPa;")?), ("tilt 7", mark_of(key, b"offset 0.0125 mrad;")?)];
    // a day's entries arrive as a mark of their own, and go behind
    let day = mark_of(key, b" checked 2026-11-15;")?;
    for (_, mark) in &mut register {
        mark.join_behind(key, day)?;
    }
    // the offset of tilt 7 is changed in place: only the old and the new bytes are read
    register[1].1.replace_page(key, 7, b"0.0125", b"0.0130")?;
    Ok(register)
}

fn main() -> Result<(), Box<dyn Error>> {
    let key = match std::env::args().nth(1) {
        Some(text) => Key::of(u128::from_str_radix(&text, 16)?),
        None => gfp::stock_key(47).ok_or("a degree 8 to 64")?,
    };
    let refused = |number| format!("refused {number}");
    let register = register_of(key).map_err(refused)?;
    let whole: [&[u8]; 2] = [b"offset 183.2 kPa; checked 2026-11-15;", b"offset 0.0130 mrad; checked 2026-11-15;"];
    // println! would panic where standard output cannot be written
    let mut out = std::io::stdout();
    let mut differing = 0;
    for ((name, mark), file) in register.iter().zip(whole) {
        let same = *mark == mark_of(key, file).map_err(refused)?;
        let said = if same { "as read anew" } else { "differs" };
        writeln!(out, "{name}: {} bytes, fingerprint {:x}, {said}", mark.bits / 8, mark.fingerprint)?;
        differing += u32::from(!same);
    }
    out.flush()?;
    if differing == 0 { Ok(()) } else { Err(format!("{differing} marks differ").into()) }
}
