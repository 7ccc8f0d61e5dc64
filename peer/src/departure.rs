// What the runs with one order for departure (L5) are made of: layouts with a line that is left from either end, what can be in the way, and runs told with
// their answers.
use crate::examples::{needed_pairs, one_section_each, version_1};
use crate::layout::{encode, Layout, Line, Route};
use crate::lbox::{self, Var};
use crate::level::LEVEL;
use crate::run_cases::events;
use crate::runs::{Event, Runs};

/// A run on a layout, with the answers that it must get and the state that it comes to.
pub struct Told {
    l: Layout,
    events: Vec<Event>,
    answers: Vec<(u32, u32)>,
    pub state: lbox::State,
}

impl Told {
    /// From the cold start.
    pub fn on(l: &Layout) -> Told {
        Told { l: l.clone(), events: vec![], answers: vec![], state: lbox::cold(l) }
    }

    /// Events that all get this answer.
    pub fn get(&mut self, text: &str, answer: (u32, u32)) {
        for e in events(text) {
            self.state = lbox::event(&self.l, &self.state, e, &Var::at(LEVEL)).2;
            self.events.push(e);
            self.answers.push(answer);
        }
    }

    /// Events that are accepted.
    pub fn done(&mut self, text: &str) {
        self.get(text, (0, 0));
    }

    /// The run is stored.
    pub fn made(&self, c: &mut Runs, label: &str) {
        c.made(label, &encode(&self.l), &self.events, &self.answers);
    }
}

/// What is in the way of an order: the events that put it there, the answer that it gives, and the events that take it away.
pub struct Reason {
    pub put: String,
    pub answer: (u32, u32),
    pub away: String,
}

pub fn reason(put: String, number: u32, detail: usize, away: String) -> Reason {
    Reason { put, answer: (number, detail as u32), away }
}

/// Departure on line 0, of so many blocks, from end A (1) or from end B (2). For both ends: sections 0 and 1, the tracks; 2 and 3, the second tracks; 4 and
/// 5, the inner sections. Signals and routes likewise: exits; exits from the second tracks, with the block entered as overlap; entrances; inner ones from
/// the second track into the other. Then the blocks' sections, the first block's the highest and the second's the lowest; three blocks and two inner
/// sections of line 1, of which route 8 leaves end A. Points 0 and 2 are line 0's, 1 and 3 the stations'.
#[derive(Clone, Copy)]
pub struct Departure {
    pub blocks: usize,
    pub way: usize,
}

/// On lines of so many blocks, from either end.
pub fn departures(blocks: &[usize]) -> impl Iterator<Item = Departure> + '_ {
    blocks.iter().flat_map(|&blocks| [1, 2].map(|way| Departure { blocks, way }))
}

impl Departure {
    pub fn layout(self) -> Layout {
        let n = self.blocks;
        let route = |entry: usize, kind: u8, path: [usize; 2], position: u8| {
            let end = entry % 2;
            Route { entry, kind, end, div: position - 1, path: path.to_vec(), points: vec![(1 + 2 * end, position)], ..Route::default() }
        };
        let entered = |end: usize| Departure { blocks: n, way: 1 + end }.section(0);
        let ends = |made: &dyn Fn(usize) -> Route| [made(0), made(1)];
        let mut routes = ends(&|e| route(e, 2, [e, 4 + e], 1)).to_vec();
        routes.extend(ends(&|e| Route { overlap: vec![entered(e)], ..route(2 + e, 2, [2 + e, 4 + e], 2) }));
        routes.extend(ends(&|e| route(4 + e, 1, [4 + e, e], 1)));
        routes.extend(ends(&|e| route(6 + e, 0, [2 + e, e], 2)));
        routes.push(Route { entry: 10, kind: 2, line: 1, path: vec![9 + n], ..Route::default() });
        let blocks = one_section_each((0..n).map(|k| 6 + (k + n - 1) % n));
        let lines = vec![
            Line { blocks, inner: [4, 5], ent: [4, 5], points: vec![(2, 2), (0, 1)] },
            Line { blocks: one_section_each(6 + n..9 + n), inner: [9 + n, 10 + n], ent: [8, 9], points: vec![] },
        ];
        let l = Layout { nsec: 11 + n, own: vec![6, 4, 5, 1], nsig: 11, lines, routes, ..version_1() };
        Layout { conf: needed_pairs(&l), ..l }
    }

    /// The end that is left, 0 or 1, and the end that is reached.
    pub fn from(self) -> usize {
        self.way - 1
    }
    pub fn to(self) -> usize {
        2 - self.way
    }

    /// A block, counted in travel from 0 on: its place on the line, and its section.
    pub fn place(self, k: usize) -> usize {
        if self.way == 1 { k } else { self.blocks - 1 - k }
    }
    pub fn section(self, k: usize) -> usize {
        6 + (self.place(k) + self.blocks - 1) % self.blocks
    }

    /// The point of the station that is left: 1 for its track, 2 for its second track.
    pub fn point(self) -> usize {
        1 + 2 * self.from()
    }

    /// The one order, the same from the second track, and the one of the other end.
    pub fn order(self) -> String {
        format!("(4 {} 0)", self.from())
    }
    pub fn second(self) -> String {
        format!("(4 {} 0)", 2 + self.from())
    }
    pub fn opposite(self) -> String {
        format!("(4 {} 0)", self.to())
    }

    /// The line is secured the route's way, or the other way.
    pub fn secure(self) -> String {
        format!("(6 0 {})", self.way)
    }
    pub fn secure_other(self) -> String {
        format!("(6 0 {})", 3 - self.way)
    }

    /// A run after all of line 0 and of its stations reads free, points are in position, the line was released by hand, and the lamps of its entrance
    /// signals are at stop.
    pub fn ready(self) -> Told {
        let mut told = Told::on(&self.layout());
        let free: String = (0..6 + self.blocks).map(|g| format!("(1 {g} 1)")).collect();
        told.done(&format!("{free}(2 0 1)(2 1 1)(2 2 2)(2 3 1)(7 0 1)(15 4 1)(15 5 1)"));
        told
    }

    /// The refusals of securing: a bar, a line's point, a block that is held, the lamp of the arrival entrance signal.
    pub fn bar(self, k: usize) -> Reason {
        reason(format!("(8 0 {})", self.place(k)), 11, self.section(k), format!("(9 0 {})", self.place(k)))
    }
    pub fn astray(self, point: usize, code: u32) -> Reason {
        reason(format!("(2 {point} {code})"), 6, point, format!("(2 {point} {})", 1 + point / 2))
    }
    pub fn held(self, k: usize, code: u32) -> Reason {
        let g = self.section(k);
        reason(format!("(1 {g} {code})"), 10, g, format!("(1 {g} 1)(7 0 1)"))
    }
    pub fn dark(self, code: u32) -> Reason {
        let x = 4 + self.to();
        reason(format!("(15 {x} {code})"), 31, x, format!("(15 {x} 1)"))
    }

    /// All that can be in the way on a neutral line, as it is asked: a conflicting route, which its train releases, the station's point, the inner section,
    /// which has this code, the last block's bar, a line's point with a lower number, the first block, the lamp.
    pub fn reasons(self, code: u32) -> [Reason; 7] {
        let (e, p, inner) = (self.from(), self.point(), 4 + self.from());
        let train = format!("(1 {} 2)(1 {e} 2)(1 {} 1)(1 {e} 1)", 2 + e, 2 + e);
        [
            reason(format!("(2 {p} 2)(4 {} 0)(2 {p} 1)", 6 + e), 5, 6 + e, train),
            reason(format!("(2 {p} 2)"), 6, p, format!("(2 {p} 1)")),
            reason(format!("(1 {inner} {code})"), if code == 2 { 7 } else { 8 }, inner, format!("(1 {inner} 1)")),
            self.bar(self.blocks - 1),
            self.astray(0, 2),
            self.held(0, 2),
            self.dark(0),
        ]
    }

    /// The lamps of all far signals at stop.
    pub fn lamps(self) -> String {
        (0..self.blocks).map(|k| format!("(15 {} 1)", lbox::far_sig_no(&self.layout(), 0, k, self.way as u8))).collect()
    }

    /// A train leaves; it goes from a block into the next one, or past the entrance signal; it goes on into the station and away.
    pub fn leaves(self) -> String {
        let (e, inner) = (self.from(), 4 + self.from());
        format!("(1 {e} 2)(1 {inner} 2)(1 {e} 1)(1 {} 2)(1 {inner} 1)", self.section(0))
    }
    pub fn clears(self, k: usize) -> String {
        let next = if k + 1 < self.blocks { self.section(k + 1) } else { 4 + self.to() };
        format!("(1 {next} 2)(1 {} 1)", self.section(k))
    }
    pub fn arrives(self) -> String {
        format!("(1 {} 2)(1 {} 1)(1 {} 1)", self.to(), 4 + self.to(), self.to())
    }
}
