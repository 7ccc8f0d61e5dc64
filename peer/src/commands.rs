// The commands of the stored cases, of the benchmarks, and of a program beside the peer.
use crate::lbox::Var;
use crate::level::LEVEL;
use crate::{bench, beside, cases, lengths, runs, slurp};

pub const USAGE: &str = "beside PROGRAM [FIRST-SEED [COUNT [LENGTH]]] [max] | layouts DATA EXPECTED [SEED] | answers DATA | runs DATA EXPECTED [SEED] | \
    played DATA | all-lengths | bench LAYOUT FITTED PREFIX EVENTS TURNS | bench-files FOLDER";

/// The number at a place of the words, or another where there is none.
pub fn number(words: &[&str], place: usize, other: u64) -> u64 {
    words.get(place).map_or(other, |w| w.parse().expect("a number"))
}

/// Does the command, if it is one of these, and says whether it was.
pub fn done(words: &[&str], v: &Var) -> bool {
    let makes = matches!(words.first(), Some(&("layouts" | "runs" | "bench-files")));
    assert!(!makes || v.n == LEVEL, "what is stored is made at level {LEVEL}");
    match words {
        ["beside", program, more @ ..] => beside::compare(program, more, v),
        ["layouts", data, expected, seed @ ..] => cases::store(data, expected, number(seed, 0, 1)),
        ["answers", data] => print!("{}", cases::answers(&slurp(data), v.n)),
        ["runs", data, expected, seed @ ..] => runs::store(data, expected, number(seed, 0, 1)),
        ["played", data] => print!("{}", runs::played(&slurp(data), v)),
        ["all-lengths"] => print!("{}", lengths::lines()),
        ["bench", layout, fitted, prefix, events, turns] => {
            println!("{}", bench::play([layout, fitted, prefix, events], number(&[turns], 0, 0), v));
        }
        ["bench-files", folder] => bench::files(folder),
        _ => return false,
    }
    true
}
