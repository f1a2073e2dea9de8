//! Compares every public C function with the second implementation of reference.rs, refusals and buffers included.
//! Usage: conformance [rounds]. The last line counts the comparisons: "N passed, 0 failed".
mod bits;
mod compose;
mod draw;
mod feeding;
mod generator;
#[path = "../bindings/rust/gfp.rs"]
mod gfp;
mod grouping;
mod keys;
mod kinds;
mod marks;
mod orders;
mod plain;
mod reference;
mod search;
mod sheets;

pub use gfp::Key;

/// Counts what was compared, and reports the first differences.
pub struct Tally {
    passed: u64,
    failed: u64,
}

impl Tally {
    pub fn same<T: PartialEq + std::fmt::Debug>(&mut self, what: impl std::fmt::Display, ours: T, second: T) {
        if ours == second {
            self.passed += 1;
            return;
        }
        self.failed += 1;
        if self.failed <= 20 {
            println!("{what}: the library gives {ours:?}, the second implementation {second:?}");
        }
    }
}

fn main() {
    let rounds = std::env::args().nth(1).map_or(1, |n| n.parse().expect("a number of rounds"));
    let mut tally = Tally { passed: 0, failed: 0 };
    let suites: [(&str, fn(&mut Tally, u64)); 11] = [
        ("keys", keys::run),
        ("marks and tables", marks::run),
        ("feeding at every length", feeding::run),
        ("lengths in bits", bits::run),
        ("joining, page change, lists of calls", compose::run),
        ("plain marks", plain::run),
        ("joining in any grouping", grouping::run),
        ("search", search::run),
        ("page sheets", sheets::run),
        ("drawing", draw::run),
        ("the order of refusals", orders::run),
    ];
    for (name, suite) in suites {
        let before = tally.passed + tally.failed;
        suite(&mut tally, rounds);
        println!("{name}: {} comparisons", tally.passed + tally.failed - before);
    }
    println!("{} passed, {} failed", tally.passed, tally.failed);
    std::process::exit(i32::from(tally.failed > 0));
}
