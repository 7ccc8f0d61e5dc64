// The lengths of request L13 as `crates/lengths_cases` and `host/lengths.c` print them.
use crate::judge::lengths;
use std::fmt::Write;

/// The six speeds, and one that is none of them.
const SPEEDS: [u32; 7] = [70, 90, 100, 130, 160, 200, 201];

/// Pairs far out of the tables.
const ODD: [(u32, u32); 6] = [(120, 0), (120, 69), (600, 326), (600, 65606), (600, u32::MAX), (u32::MAX, u32::MAX)];

/// A line: headway and speed asked for, answer, headway and speed of the record, and of each table the bits of its length and the length to the millimetre.
fn line(out: &mut String, headway: u32, speed: u32) {
    let (answer, (h, s, _, plain, _, stopping)) = lengths(headway as u64, speed as u64);
    write!(out, "{headway} {speed} {answer} {h} {s}").unwrap();
    for x in [plain, stopping] {
        write!(out, " {:016x} {:.3}", x.to_bits(), x).unwrap();
    }
    out.push('\n');
}

/// Every headway of 119 to 601 s with these speeds, and odd numbers.
pub fn lines() -> String {
    let mut out = String::new();
    for headway in (119..=601).chain([0, 65536, u32::MAX]) {
        for speed in SPEEDS {
            line(&mut out, headway, speed);
        }
    }
    for (headway, speed) in ODD {
        line(&mut out, headway, speed);
    }
    out
}
