// Stored runs: a layout file, changes by hand, events, and what the peer answers, with its state every sixteen events.
use crate::layout::{self, Layout};
use crate::lbox::{self, Var};
use crate::level::{ADDED, LEVEL};
use crate::num;
use crate::records::{change, heads_of, in_range, tables, with_readings, Change, Fields, Plan, HEADS, LAMP, READ};
use crate::{departure_cases, distant_cases, hand_cases, head_cases, lamp_cases, lowest_cases, run_cases};
use std::collections::BTreeMap;

pub type Event = [u32; 3];

/// A run: changes by hand are made to the layout that was loaded, with the fitted sections that its second file tells, and to the cold state.
pub struct Run {
    pub file: Vec<u8>,
    pub fitted: Vec<u8>,
    pub changes: Vec<Change>,
    pub events: Vec<Event>,
}

/// The file that tells these sections as fitted.
pub fn form(sections: &[usize]) -> Vec<u8> {
    let mut file = vec![];
    sections.iter().for_each(|&g| num::write(g as u32, &mut file));
    file
}

/// The numbers of a file of fitted sections, or its first fault with its offset.
pub fn told(file: &[u8], level: u32) -> Result<Vec<usize>, (u32, usize)> {
    let (mut sections, mut at) = (vec![], 0);
    while at < file.len() {
        let (section, next) = num::read(file, at, level).map_err(|fault| (fault.code, fault.at))?;
        sections.push(section as usize);
        at = next;
    }
    Ok(sections)
}

/// Where a run starts: what loading answered and, where sections are told as fitted, the answer to that; the records, and the layout, where both
/// are sound.
struct Start {
    loaded: String,
    plan: Plan,
    state: Fields,
    sound: Option<Layout>,
}

fn start(run: &Run, level: u32) -> Start {
    let (answer, mut l) = match layout::load(&run.file, level) {
        Ok(l) => ((0, 0), l),
        Err(fault) => (fault, Layout::default()),
    };
    let mut loaded = format!("{} {}", answer.0, answer.1);
    if !run.fitted.is_empty() {
        let (number, detail) = match told(&run.fitted, level) {
            Ok(sections) => {
                l.fitted = sections;
                (0, 0)
            }
            Err(fault) => fault,
        };
        loaded += &format!(" {number} {detail}");
    }
    let mut plan = Plan::of(&l);
    let mut state = tables(&l, &lbox::cold(&l));
    for c in &run.changes {
        change(&mut plan, &mut state, c);
    }
    let sound = if in_range(&state) { plan.sound() } else { None };
    Start { loaded, plan, state, sound }
}

// Each code in one digit or two.
fn digits(codes: &[u8], n: usize, two: bool) -> String {
    let digit = |x: u8| if x < 10 { (b'0' + x) as char } else { '?' };
    codes.iter().take(n).map(|&x| if two { format!("{}{}", digit(x / 10), digit(x % 10)) } else { digit(x).to_string() }).collect()
}

// The heads of a section: the counts of each, those that have come, the sum at the last reset and its proof.
fn shown_head(bytes: &[u8]) -> String {
    let x = heads_of(bytes);
    let count = |n: u16, has: bool| if has { n.to_string() } else { "-".to_string() };
    let counts: String = x.h.iter().map(|h| format!("{},{},", count(h.cin, h.got_in), count(h.cout, h.got_out))).collect();
    format!("{counts}{},{} ", x.base, x.reset as u8 + (x.reset && x.proved) as u8)
}

// A line with the heads of each section that has some, where there is one.
fn shown_heads(plan: &Plan, t: &Fields) -> String {
    let heads: String = plan.fitted().into_iter().map(|g| shown_head(&t[HEADS][16 * g..])).collect();
    if heads.is_empty() { heads } else { heads + "\n" }
}

// A line with what the lamps report, as far as the layout has signals.
fn shown_lamps(plan: &Plan, t: &Fields) -> String {
    digits(&t[LAMP], plan.signals(), false) + " \n"
}

// The tables of a state but for its heads and lamps, as far as the layout has objects.
fn shown(plan: &Plan, t: &Fields) -> String {
    let (sections, points, routes, lines) = (plan.sections(), plan.points(), plan.route_count(), plan.line_count());
    let counts = [sections, points, points, routes, routes, routes, lines, 8 * lines, 8 * lines];
    t.iter().zip(counts).enumerate().map(|(k, (codes, n))| digits(codes, n, k == 5) + " ").collect()
}

/// The answers to a run, and its text. A state that was changed by hand in other tables than those of `READ` is only asked for refusals.
pub fn play(run: &Run, v: &Var) -> (Vec<(u32, u32)>, String) {
    let Start { loaded, plan, state, sound } = start(run, v.n);
    let by_hand = run.changes.iter().any(|c| c.record == 1 && !READ.contains(&(c.field as usize)));
    let mut s = with_readings(&sound.clone().unwrap_or_default(), &state);
    let (mut answers, mut text, mut left) = (vec![], format!("{loaded}\n"), run.events.len());
    let now = |s: &lbox::State| match &sound {
        Some(l) if !by_hand => tables(l, s),
        _ => state.clone(),
    };
    let line = |s: &lbox::State| format!("| {}\n", shown(&plan, &now(s)));
    if left % 16 == 0 {
        text += &line(&s);
    }
    for event in &run.events {
        let (number, detail) = match &sound {
            None => (18, 0),
            Some(l) => {
                let (number, detail, next) = lbox::event(l, &s, *event, v);
                assert!(number != 0 || !by_hand, "a state that was changed by hand is only asked for refusals");
                s = next;
                (number, detail)
            }
        };
        text += &format!("{number}:{detail} ");
        answers.push((number, detail));
        left -= 1;
        if left % 16 == 0 {
            text += &line(&s);
        }
    }
    let last = now(&s);
    text += &shown_heads(&plan, &last);
    text += &shown_lamps(&plan, &last);
    (answers, text)
}

/// The runs so far, as the archive has them, and what the peer answers.
#[derive(Default)]
pub struct Runs {
    pub archive: Vec<u8>,
    pub expected: String,
    pub tally: BTreeMap<u32, usize>,
    pub all: Vec<Run>,
}

impl Runs {
    // A length or a number, in two bytes.
    fn count(&mut self, n: usize) {
        self.archive.extend(u16::try_from(n).expect("at most 65,535").to_le_bytes());
    }

    /// A run on a layout without heads, whatever the peer answers.
    pub fn any(&mut self, file: &[u8], changes: &[Change], events: &[Event]) -> Vec<(u32, u32)> {
        self.any_fitted(file, &[], changes, events)
    }

    /// A run on a layout of which a second file tells the sections with heads, whatever the peer answers.
    pub fn any_fitted(&mut self, file: &[u8], fitted: &[u8], changes: &[Change], events: &[Event]) -> Vec<(u32, u32)> {
        let run = Run { file: file.to_vec(), fitted: fitted.to_vec(), changes: changes.to_vec(), events: events.to_vec() };
        let (answers, text) = play(&run, &Var::at(LEVEL));
        for bytes in [file, fitted] {
            self.count(bytes.len());
            self.archive.extend(bytes);
        }
        self.count(changes.len());
        self.archive.extend(changes.iter().flat_map(|c| c.bytes()));
        self.count(events.len());
        self.archive.extend(events.iter().flatten().flat_map(|n| n.to_le_bytes()));
        self.expected += &text;
        for (number, _) in &answers {
            *self.tally.entry(*number).or_default() += 1;
        }
        self.all.push(run);
        answers
    }

    /// A run that was made for the answers to its last events.
    pub fn made(&mut self, label: &str, file: &[u8], events: &[Event], last: &[(u32, u32)]) {
        self.made_fitted(label, file, &[], events, last);
    }

    /// The same on a layout with heads.
    pub fn made_fitted(&mut self, label: &str, file: &[u8], fitted: &[u8], events: &[Event], last: &[(u32, u32)]) {
        let answers = self.any_fitted(file, fitted, &[], events);
        assert_eq!(&answers[answers.len() - last.len()..], last, "{label}");
    }
}

/// What an archive's bytes hold, one after another.
struct Read<'a>(&'a [u8]);

impl<'a> Read<'a> {
    fn take(&mut self, n: usize) -> &'a [u8] {
        let (taken, rest) = self.0.split_at(n);
        self.0 = rest;
        taken
    }

    // A length or a number, in two bytes.
    fn count(&mut self) -> usize {
        u16::from_le_bytes(self.take(2).try_into().expect("two bytes")) as usize
    }

    fn word(&mut self) -> u32 {
        u32::from_le_bytes(self.take(4).try_into().expect("four bytes"))
    }

    fn run(&mut self) -> Run {
        let [file, fitted] = [0; 2].map(|_| {
            let length = self.count();
            self.take(length).to_vec()
        });
        let changes = (0..self.count()).map(|_| Change::of(self.take(6))).collect();
        let events = (0..self.count()).map(|_| [self.word(), self.word(), self.word()]).collect();
        Run { file, fitted, changes, events }
    }
}

/// What the runs of an archive print.
pub fn played(archive: &[u8], v: &Var) -> String {
    let (mut rest, mut text) = (Read(archive), String::new());
    while !rest.0.is_empty() {
        text += &play(&rest.run(), v).1;
    }
    text
}

// Another reading of a request has its number, as l3_lamp_opens has; those of document 01 have none.
fn landed(name: &str) -> bool {
    let number = name.strip_prefix('l').and_then(|rest| rest.split('_').next()?.parse::<u32>().ok());
    number.map_or(true, |n| n <= LEVEL)
}

/// The other readings of the documents that no run tells from this one.
fn missed(runs: &Runs) -> Vec<&'static str> {
    let texts: Vec<String> = runs.all.iter().map(|r| play(r, &Var::at(LEVEL)).1).collect();
    let same = |name: &&str| {
        let mut v = Var::at(LEVEL);
        v.set(name);
        runs.all.iter().zip(&texts).all(|(r, text)| play(r, &v).1 == *text)
    };
    lbox::NAMES.iter().copied().filter(|name| landed(name)).filter(same).collect()
}

/// All runs; the random ones hang on the seed.
pub fn all(seed: u64) -> Runs {
    let mut runs = Runs::default();
    run_cases::all(&mut runs, seed);
    hand_cases::all(&mut runs, seed);
    head_cases::all(&mut runs);
    lamp_cases::all(&mut runs);
    distant_cases::runs(&mut runs);
    lowest_cases::all(&mut runs);
    departure_cases::all(&mut runs);
    runs
}

/// Writes the stored runs and what they print, and says how many answers there are of each number.
pub fn store(data: &str, expected: &str, seed: u64) {
    let runs = all(seed);
    std::fs::write(data, &runs.archive).expect("write");
    std::fs::write(expected, &runs.expected).expect("write");
    for (number, count) in &runs.tally {
        println!("{number} {count}");
    }
    assert!((0..=18).chain(ADDED).all(|n| runs.tally.contains_key(&n)), "every answer comes");
    println!("{} runs, {} events, {} bytes", runs.all.len(), runs.tally.values().sum::<usize>(), runs.archive.len());
    println!("other readings that no run tells apart: {}", missed(&runs).join(" "));
}
