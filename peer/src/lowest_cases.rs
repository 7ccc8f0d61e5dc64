// Runs for the stored archive in which the lowest of several sections, points or blocks decides (6, 7, 8, 10 and 11; L4): each section and point that there
// can be, lists that are not in the order of their numbers, and more and fewer of them in the way.
use crate::examples::{one_section_each, version_1};
use crate::layout::{encode, Layout, Line, Route};
use crate::runs::{Event, Runs};

// 64 sections, each in the path of one of eight inner routes, and 32 points, each in one of them; lists go from both ends to the middle.
fn station() -> Layout {
    let inwards = |n: usize, most: usize, step: usize| -> Vec<usize> {
        let half = most / step / 2;
        (0..half).flat_map(|k| [most - step * (k + 1) + n, step * k + n]).collect()
    };
    let own = (0..32).map(|p| if p % 2 == 0 { p } else { 64 - p }).collect();
    let route = |n: usize| Route {
        entry: n,
        path: inwards(n, 64, 8),
        overlap: inwards((n + 3) % 8, 64, 16),
        points: inwards(n, 32, 8).into_iter().map(|p| (p, 1 + (p % 2) as u8)).collect(),
        ..Route::default()
    };
    Layout { nsec: 64, own, nsig: 8, routes: (0..8).map(route).collect(), ..version_1() }
}

// Eight lines over all sections but two, their blocks from the highest number down.
fn lines() -> Layout {
    let sections: Vec<usize> = (0..64).filter(|g| ![30, 31].contains(g)).collect();
    let line = |l: usize| Line {
        blocks: one_section_each(sections.iter().copied().skip(l).step_by(8).collect::<Vec<_>>().into_iter().rev()),
        inner: [30, 31],
        ent: [2 * l, 2 * l + 1],
        points: vec![],
    };
    Layout { nsec: 64, nsig: 16, lines: (0..8).map(line).collect(), ..version_1() }
}

// Every section free and every point in the position in which a route of `station` has it.
fn ready(l: &Layout) -> Vec<Event> {
    let sections = (0..l.nsec as u32).map(|g| [1, g, 1]);
    sections.chain((0..l.own.len() as u32).map(|p| [2, p, 1 + p % 2])).collect()
}

/// A run, with the answers that it must get.
#[derive(Default)]
struct Told {
    events: Vec<Event>,
    answers: Vec<(u32, u32)>,
}

/// An order and what can be in its way: the numbers that it asks for, two ways to put each there with the refusals that they get, and how it goes again.
struct Order<'a> {
    order: Event,
    asked: Vec<usize>,
    put: &'a dyn Fn(usize, usize) -> Event,
    refused: [u32; 2],
    away: &'a dyn Fn(usize) -> Vec<Event>,
}

impl Told {
    // Events that are accepted.
    fn done(&mut self, events: impl IntoIterator<Item = Event>) {
        for e in events {
            self.events.push(e);
            self.answers.push((0, 0));
        }
    }

    // The order, refused by x, which was put in its way in this way.
    fn refused(&mut self, o: &Order, x: usize, way: usize) {
        self.events.push(o.order);
        self.answers.push((o.refused[way], x as u32));
    }

    // x is put in the way, and is the lowest there.
    fn put(&mut self, o: &Order, x: usize, way: usize) {
        self.done([(o.put)(x, way)]);
        self.refused(o, x, way);
    }

    // Each alone in both ways; then all of them from the highest down, the two ways by turns.
    fn more(&mut self, o: &Order) {
        for &x in &o.asked {
            self.put(o, x, 0);
            self.put(o, x, 1);
            self.done((o.away)(x));
        }
        for (k, x) in sorted(o).into_iter().enumerate().rev() {
            self.put(o, x, k % 2);
        }
    }

    // From the lowest up they go again.
    fn fewer(&mut self, o: &Order) {
        for (k, x) in sorted(o).into_iter().enumerate() {
            self.refused(o, x, k % 2);
            self.done((o.away)(x));
        }
    }
}

// What an order asks for, in the order of the numbers.
fn sorted(o: &Order) -> Vec<usize> {
    let mut asked = o.asked.clone();
    asked.sort();
    asked
}

// The run from a cold start with everything ready, and its last order, which is granted.
fn made(c: &mut Runs, label: &str, l: &Layout, mut told: Told, granted: Event) {
    told.done([granted]);
    let mut events = ready(l);
    let mut answers = vec![(0, 0); events.len()];
    events.extend(told.events);
    answers.extend(told.answers);
    c.made(label, &encode(l), &events, &answers);
}

// A section that is occupied, 7, or none, 8, and free again.
const READ: &dyn Fn(usize, usize) -> Event = &|g, way| [1, g as u32, [2, 0][way]];
const FREE: &dyn Fn(usize) -> Vec<Event> = &|g| vec![[1, g as u32, 1]];

// Set route: points that read none or the other position, sections of path and overlap.
fn set(c: &mut Runs, l: &Layout) {
    for (r, a) in l.routes.iter().enumerate() {
        let order = [4, r as u32, 0];
        let points = a.points.iter().map(|&(p, _)| p).collect();
        let misread = |p: usize, way: usize| [2, p as u32, [0, 2 - p as u32 % 2][way]];
        let right = |p: usize| vec![[2, p as u32, 1 + p as u32 % 2]];
        let mut told = Told::default();
        for o in [
            Order { order, asked: points, put: &misread, refused: [6, 6], away: &right },
            Order { order, asked: [&a.path[..], &a.overlap].concat(), put: READ, refused: [7, 8], away: FREE },
        ] {
            told.more(&o);
            told.fewer(&o);
        }
        made(c, "set a route", l, told, order);
    }
}

// Throw: each point's own section.
fn throw(c: &mut Runs, l: &Layout) {
    let order = |p: usize| [3, p as u32, 1];
    let mut told = Told::default();
    for (p, &own) in l.own.iter().enumerate() {
        let o = Order { order: order(p), asked: vec![own], put: READ, refused: [7, 8], away: FREE };
        told.more(&o);
        told.fewer(&o);
    }
    made(c, "throw a point", l, told, order(31));
}

// Manual release: the sections of a line's blocks. Then secure: blocks that are barred, and blocks that are held, which a manual release opens together.
fn release_and_secure(c: &mut Runs, l: &Layout) {
    for (k, line) in l.lines.iter().enumerate() {
        let (release, secure, sections) = ([7, k as u32, 1], [6, k as u32, 1], line.blocks.concat());
        let bar = |g: usize, kind: u32| [kind, k as u32, sections.iter().position(|&s| s == g).expect("a block") as u32];
        let opens = |g: usize| vec![[1, g as u32, 1], release];
        let mut told = Told::default();
        let o = Order { order: release, asked: sections.clone(), put: READ, refused: [7, 8], away: FREE };
        told.more(&o);
        told.fewer(&o);
        told.done([release, [15, line.ent[1] as u32, 1]]);
        let o = Order { order: secure, asked: sections.clone(), put: &|g, _| bar(g, 8), refused: [11, 11], away: &|g| vec![bar(g, 9)] };
        told.more(&o);
        told.fewer(&o);
        let o = Order { order: secure, asked: sections.clone(), put: READ, refused: [10, 10], away: &opens };
        told.more(&o);
        told.done(sections.iter().map(|&g| [1, g as u32, 1]).chain([release]));
        made(c, "release a line by hand and secure it", l, told, secure);
    }
}

/// All of them.
pub fn all(c: &mut Runs) {
    let l = station();
    set(c, &l);
    throw(c, &l);
    release_and_secure(c, &lines());
}
