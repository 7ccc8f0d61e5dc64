// Stored layout files, and the answers that the peer's own loader gives them.
use crate::examples::*;
use crate::fuzz::{damage, gen_layout, Rng};
use crate::layout::{self, encode, Layout, Route};
use crate::level::LEVEL;
use crate::{distant_cases, number_cases, rule_cases};
use std::collections::{BTreeMap, HashSet};

/// What the peer answers to a layout file at a level.
fn answer(file: &[u8], level: u32) -> (u32, usize) {
    match layout::load(file, level) {
        Ok(_) => (0, 0),
        Err(fault) => fault,
    }
}

/// The files so far, each after its length in two bytes, and a line for each answer.
#[derive(Default)]
pub struct Cases {
    pub archive: Vec<u8>,
    pub expected: String,
    pub tally: BTreeMap<(u32, usize), usize>,
    seen: HashSet<Vec<u8>>,
}

impl Cases {
    /// A file with whatever the peer answers to it, unless it is there already.
    pub fn any(&mut self, file: &[u8]) {
        if !self.seen.insert(file.to_vec()) {
            return;
        }
        let (number, detail) = answer(file, LEVEL);
        let length = u16::try_from(file.len()).expect("a file of at most 65,535 bytes");
        self.archive.extend(length.to_le_bytes());
        self.archive.extend(file);
        self.expected += &format!("{number} {detail}\n");
        *self.tally.entry((number, if number == 25 { detail } else { 0 })).or_default() += 1;
    }

    /// A file that was made for one answer.
    pub fn made(&mut self, label: &str, file: &[u8], number: u32, detail: usize) {
        assert_eq!(answer(file, LEVEL), (number, detail), "{label}, {} bytes", file.len());
        self.any(file);
    }

    /// A layout that is sound.
    pub fn sound(&mut self, label: &str, l: &Layout) {
        self.made(label, &encode(l), 0, 0);
    }

    /// A layout of which this is the lowest rule broken.
    pub fn breaks(&mut self, label: &str, l: &Layout, rule: usize) {
        self.made(label, &encode(l), 25, rule);
    }
}

/// `l` with one change.
pub fn changed(l: &Layout, change: impl FnOnce(&mut Layout)) -> Layout {
    let mut m = l.clone();
    change(&mut m);
    m
}

// Branch T, each of its beginnings, and bytes left over after it.
fn branch_t(c: &mut Cases) {
    c.made("branch T", &BRANCH_T, 0, 0);
    for end in 0..49 {
        c.made("a beginning of branch T", &BRANCH_T[..end], 21, end);
    }
    for rest in [&[0][..], &[1], &[0x80], &[0xff, 0xff, 0xff], &[0x80, 0x00], &BRANCH_T] {
        c.made("bytes after branch T", &[&BRANCH_T, rest].concat(), 26, 49);
    }
}

// A layout with n inner routes that have nothing in common.
fn apart(n: usize) -> Layout {
    let route = |k: usize| Route { entry: k, path: vec![2 * k, 2 * k + 1], ..Route::default() };
    Layout { nsec: 2 * n, nsig: n, routes: (0..n).map(route).collect(), ..version_1() }
}

// Pairs of five routes: in order, out of order, of routes that don't exist, and cut short. Every number is one byte.
fn pairs(c: &mut Cases) {
    let with = |pairs: &[(usize, usize)]| encode(&changed(&apart(5), |l| l.conf = pairs.to_vec()));
    let all = every_pair(5);
    for listed in [&[][..], &[(0, 1)], &[(3, 4)], &[(0, 4), (1, 2)], &[(0, 1), (0, 2)], &[(0, 1), (3, 4)], &all] {
        c.made("pairs in order", &with(listed), 0, 0);
    }
    let out_of_order: [&[(usize, usize)]; 16] = [
        &[(0, 0)], &[(4, 4)], &[(1, 0)], &[(4, 0)], &[(0, 1), (1, 1)], &[(0, 1), (2, 1)], &[(0, 1), (0, 0)], &[(0, 1), (0, 1)],
        &[(0, 2), (0, 1)], &[(1, 2), (0, 1)], &[(1, 2), (0, 3)], &[(1, 2), (1, 2)], &[(3, 4), (3, 4)], &[(2, 3), (1, 4)],
        &[(0, 3), (1, 2), (0, 4)], &[(0, 1), (0, 3), (0, 2)],
    ];
    for listed in out_of_order {
        let file = with(listed);
        c.made("a pair out of order", &file, 23, file.len() - 1);
        c.made("the same, cut before its second number", &file[..file.len() - 1], 21, file.len() - 1);
    }
    for listed in [&[(0, 5)][..], &[(4, 5)], &[(0, 127)], &[(0, 1), (0, 5)], &[(1, 2), (0, 5)], &[(3, 4), (3, 5)]] {
        let file = with(listed);
        c.made("no such second route, in order or not", &file, 24, file.len() - 1);
    }
    for listed in [&[(5, 0)][..], &[(5, 5)], &[(5, 6)], &[(0, 1), (5, 6)], &[(3, 4), (127, 0)]] {
        let file = with(listed);
        c.made("no such first route", &file, 24, file.len() - 2);
        c.made("the same, cut before its second number", &file[..file.len() - 1], 24, file.len() - 2);
    }
    let file = with(&all);
    let count = file.len() - 21;
    for more in 1..4 {
        let longer = [&file[..count], &[10 + more], &file[count + 1..]].concat();
        c.made("fewer pairs than counted", &longer, 21, file.len());
        let shorter = [&file[..count], &[10 - more], &file[count + 1..]].concat();
        c.made("more pairs than counted", &shorter, 26, file.len() - 2 * more as usize);
    }
}

// The largest layouts, and faults at their far ends.
fn largest(c: &mut Cases) {
    let (all, few, none) = (all_must_conflict(), few_must_conflict(), none_must_conflict());
    assert_eq!((needed_pairs(&all).len(), needed_pairs(&few).len(), needed_pairs(&none).len()), (1128, 156, 0));
    c.sound("all pairs must conflict", &all);
    c.sound("few pairs must conflict, all are listed", &few);
    c.sound("few pairs must conflict, only those are listed", &changed(&few, |l| l.conf = needed_pairs(l)));
    c.sound("no pair must conflict, all are listed", &none);
    c.sound("no pair must conflict on eight lines", &none_must_conflict_on_lines());
    c.sound("62 blocks", &most_blocks());
    for n in [0, 1, 126, 127, 128, 129, 495] {
        c.sound("no pair must conflict, some are listed", &changed(&none, |l| l.conf.truncate(n)));
    }
    c.sound("the longest file of version 1", &longest_1());
    let file = encode(&longest_1());
    assert_eq!(file.len(), 4256);
    c.made("the same and a byte more", &[&file[..], &[0]].concat(), 26, 4256);
    let file = encode(&all);
    let end = file.len();
    c.made("the last byte missing", &file[..end - 1], 21, end - 1);
    c.made("a byte more", &[&file[..], &[0]].concat(), 26, end);
    c.made("a third byte with its top bit set at the end", &[&file[..end - 1], &[0xff, 0xff, 0xff]].concat(), 22, end - 1);
    c.made("the last pair once more", &encode(&changed(&all, |l| l.conf[1127] = l.conf[1126])), 23, end - 1);
    c.made("one pair too many", &encode(&changed(&all, |l| l.conf.push((46, 47)))), 23, end - 2258);
    for n in [0, 600, 1127] {
        c.breaks("a pair missing", &changed(&all, |l| _ = l.conf.remove(n)), 6);
    }
    c.breaks("the last pair that must be there missing", &changed(&few, |l| l.conf.retain(|p| *p != (46, 47))), 6);
    c.sound("a pair missing that need not be there", &changed(&few, |l| l.conf.retain(|p| *p != (6, 47))));
    c.breaks("the last line has a block of the first", &changed(&all, |l| l.lines[7].blocks[5] = l.lines[0].blocks[0].clone()), 1);
    c.breaks("the last route goes over a block", &changed(&few, |l| l.routes[47].path[7] = 63), 1);
    c.breaks("the last line's signal is the first's", &changed(&few, |l| l.lines[7].ent[1] = 0), 2);
    c.breaks("the last path ends where it began", &changed(&few, |l| l.routes[47].path[7] = l.routes[47].path[0]), 3);
    c.breaks("the last route's last point is its first", &changed(&all, |l| l.routes[47].points[7] = l.routes[47].points[0]), 3);
    c.breaks("the last line's last point is its first", &changed(&few, |l| l.lines[7].points[7].0 = l.lines[7].points[0].0), 3);
    c.breaks("the last exit route ends elsewhere", &changed(&all, |l| l.routes[46].path.swap(6, 7)), 5);
    c.breaks("the last route starts at an entrance signal", &changed(&all, |l| l.routes[47].entry = 15), 5);
}

// Sound and damaged files of the peer's generator.
fn random(c: &mut Cases, seed: u64) {
    let mut g = Rng(seed.wrapping_mul(0x2545F4914F6CDD1D));
    for n in 0..30 {
        let l = gen_layout(&mut g, n % 2 == 0, LEVEL);
        c.sound("a random sound layout", &l);
    }
    for _ in 0..80 {
        c.any(&damage(&mut g, LEVEL));
    }
}

/// All cases; the random ones hang on the seed.
pub fn all(seed: u64) -> Cases {
    let mut c = Cases::default();
    branch_t(&mut c);
    number_cases::all(&mut c);
    pairs(&mut c);
    rule_cases::all(&mut c);
    largest(&mut c);
    distant_cases::files(&mut c);
    random(&mut c, seed);
    c
}

/// Writes the stored layout files and their answers, and says how many there are of each answer.
pub fn store(data: &str, expected: &str, seed: u64) {
    let c = all(seed);
    std::fs::write(data, &c.archive).expect("write");
    std::fs::write(expected, &c.expected).expect("write");
    for ((answer, rule), count) in &c.tally {
        println!("{answer}{} {count}", if *rule > 0 { format!(" rule {rule}") } else { String::new() });
    }
    let answers = [0, 21, 22, 23, 24, 26].map(|number| (number, 0));
    let rules = (1..=7).map(|rule| (25, rule));
    assert!(answers.into_iter().chain(rules).all(|a| c.tally.contains_key(&a)), "every answer comes, and every rule");
    println!("{} files, {} bytes", c.tally.values().sum::<usize>(), c.archive.len());
}

/// A line for each file of an archive, with the peer's answer.
pub fn answers(archive: &[u8], level: u32) -> String {
    let (mut out, mut rest) = (String::new(), archive);
    while let [low, high, after @ ..] = rest {
        let (file, next) = after.split_at(u16::from_le_bytes([*low, *high]) as usize);
        let (number, detail) = answer(file, level);
        out += &format!("{number} {detail}\n");
        rest = next;
    }
    out
}
