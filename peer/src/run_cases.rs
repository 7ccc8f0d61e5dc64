// Runs for the stored archive: those of section 8, one for each refusal, odd numbers, and random ones with dead inputs, cancels and bars.
use crate::examples::*;
use crate::fuzz::{damage, gen_events, gen_layout, gen_max, Rng};
use crate::layout::{self, encode, Layout};
use crate::lbox::{self, Var};
use crate::level::{LAST_KIND, LEVEL};
use crate::runs::{form, Event, Runs};

/// Numbers at the ends of what one, two and four bytes hold, and such as have a small number in their lowest bytes.
pub const ODD: [u32; 20] = [
    0, 1, 2, 3, 4, 11, 127, 128, 255, 256, 257, 258, 65_535, 65_536, 65_537, 65_538, 16_777_217, 2_147_483_648, 4_294_967_041, 4_294_967_295,
];

/// Branch U: a line of two blocks with a point of its own, and four routes.
pub const BRANCH_U: [u8; 65] = [
    1, 6, 2, 4, 3, 4, 1, 2, 2, 3, 1, 4, 1, 2, 1, 1, 1, 4, 0, 2, 0, 0, 0, 1, 1, 0, 0, 2, 1, 0, 1, 0, 2, 4, 5, 0, 1, 0, 1, 1, 1, 0, 0, 1, 2, 1,
    0, 0, 0, 3, 2, 0, 1, 0, 1, 4, 0, 1, 0, 1, 2, 0, 2, 1, 3,
];

// Section 8, P1 with the report that L3 adds.
pub const P1: &str = "(4 0 0)(1 0 1)(1 1 1)(1 2 1)(1 3 1)(2 0 1)(6 0 1)(7 0 1)(15 2 1)(6 0 1)(4 1 0)(4 0 0)(4 2 0)";
const P3: &str = "(1 0 2)(1 1 2)(1 0 1)";
const P4: &str = "(1 2 2)(1 3 2)(1 1 1)";

// Branch U with all free, its points in position, its line released by hand, the lamp at B at stop, and the line secured from A to B.
const U0: &str = "(1 0 1)(1 1 1)(1 2 1)(1 3 1)(1 4 1)(1 5 1)(2 0 1)(2 1 1)(7 0 1)(15 2 1)(6 0 1)";

/// Events written as in document 01.
pub fn events(text: &str) -> Vec<Event> {
    let numbers: Vec<u32> = text.split(|c: char| !c.is_ascii_digit()).filter_map(|w| w.parse().ok()).collect();
    numbers.chunks(3).map(|e| [e[0], e[1], e[2]]).collect()
}

// The same events n times.
fn times(n: usize, text: &str) -> String {
    text.repeat(n)
}

/// The runs of section 8 on a file of branch T; the last event of each asks what became of route 0 or of the line.
pub fn section_8(c: &mut Runs, t: &[u8]) {
    let mut on_t = |label: &str, text: String, last: &[(u32, u32)]| c.made(label, t, &events(&text), last);
    let answers = [(8, 0), (0, 0), (0, 0), (0, 0), (0, 0), (0, 0), (10, 1), (0, 0), (0, 0), (0, 0), (0, 0), (0, 0), (5, 1)];
    on_t("P1", P1.to_string(), &answers);
    on_t("P3", format!("{P1}{P3}(5 0 0)"), &[(13, 0)]);
    on_t("P4", format!("{P1}{P3}{P4}(15 1 1)(6 0 2)"), &[(0, 0)]);
    on_t("P5", format!("{P1}{P3}(1 2 2)(1 3 2)(1 1 0)(1 1 1)(6 0 2)"), &[(12, 1)]);
    for (seconds, answer) in [(0, 14), (1, 14), (88, 14), (89, 14), (90, 13), (91, 13)] {
        on_t("P6", format!("{P1}(5 0 0){}(5 0 0)", times(seconds, "(10 0 0)")), &[(answer, 0)]);
    }
    let locked = [
        "(1 1 0)(1 0 2)(1 1 2)(1 0 1)", "(1 0 2)(1 1 0)(1 1 2)(1 0 1)", "(1 0 2)(1 0 1)(1 1 2)(1 0 1)", "(1 0 2)(1 1 2)(1 0 0)(1 0 1)",
        "(1 1 2)(1 0 2)(1 0 1)",
    ];
    for text in locked {
        on_t("still locked", format!("{P1}{text}(5 0 0)"), &[(0, 0)]);
    }
    let released = [
        "(1 1 2)(1 0 2)(1 1 2)(1 0 1)", "(1 0 2)(1 1 2)(1 1 1)(1 0 1)", "(5 0 0)(1 0 2)(1 1 2)(1 0 1)", "(1 0 2)(1 1 0)(1 1 1)(1 0 2)(1 1 2)(1 0 1)",
    ];
    for text in released {
        on_t("released", format!("{P1}{text}(5 0 0)"), &[(13, 0)]);
    }
}

/// Each refusal of an order, by a run made for it, on files of the branches T and U.
pub fn refusals(c: &mut Runs, t: &[u8], u: &[u8]) {
    let free = "(1 0 1)(1 1 1)(1 2 1)(1 3 1)";
    let mut on_t = |text: String, last: (u32, u32)| c.made("on branch T", t, &events(&text), &[last]);
    on_t(format!("{P1}(4 0 0)"), (4, 0));
    on_t(format!("{P1}(5 1 0)(4 2 0)"), (5, 1));
    on_t(format!("{free}(4 1 0)"), (6, 0));
    on_t(format!("{free}(1 0 2)(4 0 0)"), (7, 0));
    on_t("(5 0 0)".to_string(), (13, 0));
    on_t(format!("{P1}{P3}(1 2 2)(1 3 2)(1 2 1)(1 3 0)(1 1 1)(5 1 0)"), (13, 1));
    on_t(format!("{P1}(3 0 2)"), (15, 1));
    on_t(format!("{P1}(5 1 0)(3 0 2)"), (15, 1));
    on_t(format!("{P1}(7 0 1)"), (17, 0));
    on_t(format!("{P1}(5 0 0)(7 0 1)"), (17, 0));
    on_t(format!("{P1}(1 1 2)(1 2 2)(1 1 1)(6 0 2)"), (12, 1));
    on_t(format!("{P1}(5 0 0)(1 1 2)(1 2 2)(1 1 1)(6 0 2)"), (12, 1));
    on_t(format!("{free}(2 0 2)(3 0 2)(4 1 0)"), (6, 0));
    on_t(format!("{free}(2 0 1)(3 0 1)(4 1 0)"), (0, 0));
    on_t(format!("{free}(7 0 1)(6 0 1)"), (31, 2));
    let mut on_u = |text: String, last: (u32, u32)| c.made("on branch U", u, &events(&text), &[last]);
    on_u(format!("{U0}(8 0 1)(4 0 0)"), (0, 0));
    on_u(format!("{U0}(7 0 2)(4 0 0)"), (0, 0));
    on_u(format!("{U0}(4 3 0)"), (9, 0));
    on_u(format!("{U0}(2 1 2)(4 0 0)"), (6, 1));
    on_u(format!("{U0}(7 0 3)(2 1 0)(6 0 1)"), (6, 1));
    on_u(format!("{U0}(1 2 2)(4 0 0)"), (10, 2));
    on_u(format!("{U0}(1 2 2)(1 2 1)(7 0 1)(1 3 0)(6 0 2)"), (10, 3));
    on_u(format!("{U0}(8 0 0)(4 0 0)"), (11, 2));
    on_u(format!("{U0}(4 0 0)(8 0 0)(9 0 0)(4 0 0)"), (4, 0));
    on_u(format!("{U0}(7 0 1)(8 0 1)(6 0 1)"), (11, 3));
    on_u(format!("{U0}(6 0 2)"), (12, 1));
    on_u(format!("{U0}(7 0 1)(6 0 2)"), (31, 1));
    on_u(format!("{U0}(3 1 2)"), (16, 0));
    on_u(format!("{U0}(7 0 1)(1 3 3)(3 1 2)"), (8, 3));
    on_u(format!("{U0}(1 3 0)(7 0 1)"), (8, 3));
    on_u(format!("{U0}(4 0 0)(8 0 0)(9 0 0)(1 1 2)(1 2 2)(1 1 1)(5 0 0)"), (13, 0));
}

// Events of every kind, and of kinds that there are not, with odd numbers.
fn odd(c: &mut Runs, g: &mut Rng) {
    for (file, fitted) in [(&BRANCH_T[..], &[][..]), (&BRANCH_U, &[]), (&BRANCH_T, &[0, 1])] {
        let mut e = events(if file.len() == 49 { P1 } else { U0 });
        for _ in 0..250 {
            let small = |g: &mut Rng, n: usize| if g.pct(50) { g.below(n) as u32 } else { ODD[g.below(20)] };
            let kind = if g.pct(85) { g.below(LAST_KIND as usize + 2) as u32 } else { ODD[g.below(20)] };
            e.push([kind, small(g, 3), small(g, 3)]);
        }
        c.any_fitted(file, fitted, &[], &e);
    }
    let any = |g: &mut Rng| (g.next() >> g.below(64)) as u32;
    for _ in 0..10 {
        let e: Vec<Event> = (0..30).map(|_| [any(g), any(g), any(g)]).collect();
        c.any(&BRANCH_T, &[], &e);
    }
}

/// A run that is woven on, with the state that it has come to and the events that are to come later.
struct Weaver<'a> {
    g: &'a mut Rng,
    l: &'a Layout,
    state: lbox::State,
    run: Vec<Event>,
    later: Vec<(usize, Event)>,
}

impl Weaver<'_> {
    fn push(&mut self, e: Event) {
        self.state = lbox::event(self.l, &self.state, e, &Var::at(LEVEL)).2;
        self.run.push(e);
    }

    // Something that comes back after some events.
    fn until(&mut self, now: Event, then: Event) {
        self.push(now);
        self.soon(then);
    }

    // Of a number of objects one; now and then one that is not there.
    fn one(&mut self, n: usize) -> u32 {
        (if self.g.pct(97) { self.g.below(n) } else { n + self.g.below(300) }) as u32
    }

    // A code that is no reading.
    fn dead(&mut self) -> u32 {
        loop {
            let code = ODD[self.g.below(20)];
            if code != 1 && code != 2 {
                return code;
            }
        }
    }

    // Something that comes after some events.
    fn soon(&mut self, then: Event) {
        let at = self.run.len() + self.g.below(12);
        self.later.push((at, then));
    }

    // A section's wire dies and comes back; of one with heads a head falls silent, and tells its counts again.
    fn dies(&mut self, section: u32, way: u32) {
        if !self.l.fitted.contains(&(section as usize)) {
            let code = self.dead();
            self.until([1, section, code], [1, section, way]);
            return;
        }
        let which = self.g.below(2);
        let (head, told) = (2 * section + which as u32, self.state.ax[section as usize].h[which]);
        self.until([13, head, 0], [11, head, told.cin as u32]);
        self.soon([12, head, told.cout as u32]);
    }

    // A section with heads is reset, and two axles come in and go out at the other end.
    fn reset(&mut self) {
        let section = self.l.fitted[self.g.below(self.l.fitted.len())];
        let (told, head) = (self.state.ax[section].h, 2 * section as u32);
        self.until([14, section as u32, 0], [11, head, told[0].cin.wrapping_add(2) as u32]);
        self.soon([12, head + 1, told[1].cout.wrapping_add(2) as u32]);
    }

    // A route that is locked is cancelled, and some seconds pass.
    fn cancel(&mut self) {
        let locked: Vec<usize> = (0..self.l.routes.len()).filter(|&r| self.state.rt[r].st != 0).collect();
        if locked.is_empty() {
            return;
        }
        let r = locked[self.g.below(locked.len())] as u32;
        self.push([5, r, 0]);
        for _ in 0..[1, 2, 88, 89, 90, 91][self.g.below(6)] {
            self.push([10, 0, 0]);
        }
        self.push([5, r, 0]);
        self.push([10, 0, 0]);
        self.push([4, r, 0]);
    }

    fn episode(&mut self) {
        let (sections, points, lines) = (self.l.nsec, self.l.own.len(), self.l.lines.len());
        let way = 1 + self.g.below(2) as u32;
        match self.g.below(13) {
            0..=3 => {
                let section = self.one(sections);
                self.dies(section, way);
            }
            4 => {
                let (point, code) = (self.one(points), self.dead());
                self.until([2, point, code], [2, point, way]);
            }
            5 => {
                let point = self.one(points);
                self.until([3, point, way], [2, point, way]);
            }
            6 | 7 => {
                let line = self.one(lines);
                let block = self.g.below(4) as u32;
                self.until([8, line, block], [9, line, block]);
            }
            8 => {
                let (line, ground) = (self.one(lines), self.g.below(5) as u32);
                self.push([7, line, ground]);
            }
            9 if self.g.pct(25) => self.cancel(),
            10 => {
                let line = self.one(lines);
                self.push([6, line, way]);
            }
            11 if !self.l.fitted.is_empty() => self.reset(),
            12 => {
                let (signal, code) = (self.one(self.l.all_sigs()), self.dead());
                self.until([15, signal, code], [15, signal, way]);
            }
            _ => {
                let (first, second) = (ODD[self.g.below(20)], ODD[self.g.below(20)]);
                let kind = self.g.below(LAST_KIND as usize + 2) as u32;
                self.push([kind, first, second]);
            }
        }
    }
}

// A random run on a layout: trains and orders, with an episode before one event in so many.
fn woven(g: &mut Rng, l: &Layout, length: usize, each: usize) -> Vec<Event> {
    let base = gen_events(g, l, length, &Var::at(LEVEL));
    let mut w = Weaver { g, l, state: lbox::cold(l), run: vec![], later: vec![] };
    for e in base {
        w.push(e);
        let due: Vec<Event> = w.later.iter().filter(|d| d.0 <= w.run.len()).map(|d| d.1).collect();
        w.later.retain(|d| d.0 > w.run.len());
        due.into_iter().for_each(|d| w.push(d));
        if w.g.below(each) == 0 {
            w.episode();
        }
    }
    w.run
}

// Random layouts, and the largest ones.
fn random(c: &mut Runs, g: &mut Rng) {
    for n in 0..200 {
        let l = gen_layout(g, n % 3 == 0, LEVEL);
        let length = 10 + g.below(40);
        c.any_fitted(&encode(&l), &form(&l.fitted), &[], &woven(g, &l, length, 5));
    }
    for _ in 0..8 {
        let l = gen_layout(g, false, LEVEL);
        let length = 300 + g.below(200);
        c.any_fitted(&encode(&l), &form(&l.fitted), &[], &woven(g, &l, length, 10));
    }
    for l in [all_must_conflict(), few_must_conflict(), none_must_conflict(), none_must_conflict_on_lines(), most_blocks()] {
        c.any(&encode(&l), &[], &woven(g, &l, 120, 8));
    }
    let all_fitted = Layout { fitted: (0..64).collect(), ..most_blocks() };
    for l in [all_fitted, gen_max(g, LEVEL), gen_max(g, LEVEL)] {
        c.any_fitted(&encode(&l), &form(&l.fitted), &[], &woven(g, &l, 120, 8));
    }
}

// Files that are refused: every event on them gets 18.
fn refused(c: &mut Runs, g: &mut Rng) {
    let every_kind: Vec<Event> = (0..=LAST_KIND + 1).map(|kind| [kind, 0, 1]).collect();
    let mut files: Vec<Vec<u8>> = vec![vec![], BRANCH_T[..48].to_vec()];
    while files.len() < 12 {
        let file = damage(g, LEVEL);
        if layout::load(&file, LEVEL).is_err() {
            files.push(file);
        }
    }
    for file in files {
        c.any(&file, &[], &every_kind);
    }
}

/// All of them; the random ones hang on the seed.
pub fn all(c: &mut Runs, seed: u64) {
    let mut g = Rng(seed.wrapping_mul(0x2545F4914F6CDD1D));
    section_8(c, &BRANCH_T);
    refusals(c, &BRANCH_T, &BRANCH_U);
    odd(c, &mut g);
    random(c, &mut g);
    refused(c, &mut g);
}
