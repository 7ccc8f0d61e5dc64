// Records as the box holds them, tables of fixed size: one byte can be changed by hand to what no file and no event would bring there.
use crate::examples::one_section_each;
use crate::layout::{self, Layout, Line, Route};
use crate::lbox::{self, Axle, Head, State};
use crate::level::LEVEL;

/// The fields of one record, in the order in which the box declares them; one that is no table has one place.
pub type Fields = Vec<Vec<u8>>;

/// A change by hand: record 0 the layout, 1 the state, 2 a line, 3 a route; which line or route; field; place; byte.
#[derive(Clone, Copy)]
pub struct Change {
    pub record: u8,
    pub number: u8,
    pub field: u8,
    pub place: u16,
    pub byte: u8,
}

impl Change {
    /// The change that six bytes of the archive are.
    pub fn of(b: &[u8]) -> Change {
        Change { record: b[0], number: b[1], field: b[2], place: u16::from_le_bytes([b[3], b[4]]), byte: b[5] }
    }

    /// A change as the archive has it.
    pub fn bytes(&self) -> [u8; 6] {
        let [low, high] = self.place.to_le_bytes();
        [self.record, self.number, self.field, low, high, self.byte]
    }
}

// A table of n, the rest filled.
fn table(xs: impl Iterator<Item = usize>, n: usize, fill: u8) -> Vec<u8> {
    let mut t: Vec<u8> = xs.map(|x| x as u8).collect();
    t.resize(n, fill);
    t
}

fn line_fields(l: &Line) -> Fields {
    let points = table(l.points.iter().map(|p| p.0), 8, 0);
    let positions = table(l.points.iter().map(|p| p.1 as usize), 8, 0);
    let one = |x: usize| vec![x as u8];
    vec![
        one(l.blocks.len()), table(l.blocks.iter().flatten().copied(), 8, 0), one(l.inner[0]), one(l.inner[1]), one(l.ent[0]), one(l.ent[1]),
        one(l.points.len()), points, positions,
    ]
}

fn route_fields(r: &Route) -> Fields {
    let points = table(r.points.iter().map(|p| p.0), 8, 0);
    let positions = table(r.points.iter().map(|p| p.1 as usize), 8, 0);
    let one = |x: usize| vec![x as u8];
    vec![
        one(r.entry), one(r.kind as usize), one(r.line), one(r.end), one(r.div as usize), one(r.path.len()),
        table(r.path.iter().copied(), 8, 0), one(r.overlap.len()), table(r.overlap.iter().copied(), 8, 0), one(r.points.len()), points, positions,
    ]
}

/// The fields of a layout's record; 6 and 11 are its lines and its routes, records of their own.
#[derive(Clone, Copy)]
pub enum Part {
    Version,
    Sections,
    Points,
    PointSection,
    Signals,
    Lines,
    Distants = 7,
    Carrier,
    Announced,
    Routes,
    Conflict = 12,
    Fitted,
    Lacking,
}
use Part::*;

/// How many fields there are.
pub const PARTS: usize = Lacking as usize + 1;

/// A layout's record with those of its lines and routes.
pub struct Plan {
    own: Fields,
    lines: Vec<Fields>,
    routes: Vec<Fields>,
}

impl Plan {
    pub fn of(l: &Layout) -> Plan {
        let one = |x: usize| vec![x as u8];
        let mut conflict = vec![0; 48 * 48];
        for &(a, b) in &l.conf {
            conflict[48 * a + b] = 1;
            conflict[48 * b + a] = 1;
        }
        let mut lines: Vec<Fields> = l.lines.iter().map(line_fields).collect();
        let mut routes: Vec<Fields> = l.routes.iter().map(route_fields).collect();
        lines.resize(8, line_fields(&Line::default()));
        routes.resize(48, route_fields(&Route::default()));
        let own = vec![
            one(l.ver as usize), one(l.nsec), one(l.own.len()), table(l.own.iter().copied(), 32, 0), one(l.nsig), one(l.lines.len()), vec![],
            one(l.dist.len()), table(l.dist.iter().map(|d| d.0), 32, 0), table(l.dist.iter().map(|d| d.1), 32, 0), one(l.routes.len()), vec![],
            conflict, table((0..64).map(|g| l.fitted.contains(&g) as usize), 64, 0), one(!l.sound() as usize),
        ];
        Plan { own, lines, routes }
    }

    // A field that is a table, and one that is a number.
    fn table(&self, part: Part) -> &[u8] {
        &self.own[part as usize]
    }
    fn number(&self, part: Part) -> usize {
        self.own[part as usize][0] as usize
    }

    pub fn sections(&self) -> usize {
        self.number(Sections)
    }
    pub fn points(&self) -> usize {
        self.number(Points)
    }
    pub fn line_count(&self) -> usize {
        self.number(Lines)
    }
    pub fn route_count(&self) -> usize {
        self.number(Routes)
    }

    /// How many signals there are: main signals, and of each line one each way between each two blocks.
    pub fn signals(&self) -> usize {
        let blocks = |f: &Fields| f[0][0] as usize;
        let lines = self.lines.iter().take(self.line_count());
        self.number(Signals) + lines.map(|f| 2 * blocks(f).saturating_sub(1)).sum::<usize>()
    }

    /// The sections with heads, of those that the layout has.
    pub fn fitted(&self) -> Vec<usize> {
        (0..self.sections().min(64)).filter(|&g| self.table(Fitted)[g] == 1).collect()
    }

    // The distants (L2): carrier and announced signal. Version 1 has none.
    fn distants(&self) -> Option<Vec<(usize, usize)>> {
        let n = self.number(Distants);
        if self.number(Version) == 1 && n > 0 {
            return None;
        }
        Some(first(self.table(Carrier), n)?.into_iter().zip(first(self.table(Announced), n)?).collect())
    }

    // Each pair of routes is listed or not, the same both ways, and no route with itself.
    fn conflicts(&self) -> Option<Vec<(usize, usize)>> {
        let m = self.route_count();
        let listed = |a: usize, b: usize| self.table(Conflict)[48 * a + b];
        for a in 0..m {
            if listed(a, a) != 0 || (0..m).any(|b| listed(a, b) > 1 || listed(a, b) != listed(b, a)) {
                return None;
            }
        }
        Some((0..m).flat_map(|a| (a + 1..m).map(move |b| (a, b))).filter(|&(a, b)| listed(a, b) == 1).collect())
    }

    /// The layout, where the record is as section 2 has it, each section has heads or not, and none is lacking (L1).
    pub fn sound(&self) -> Option<Layout> {
        let (n, m) = (self.line_count(), self.route_count());
        if self.points() > 32 || n > 8 || m > 48 {
            return None;
        }
        if self.table(Fitted).iter().take(self.sections()).any(|&has| has > 1) || self.number(Lacking) != 0 {
            return None;
        }
        let l = Layout {
            ver: self.number(Version) as u32,
            nsec: self.sections(),
            own: first(self.table(PointSection), self.points())?,
            nsig: self.number(Signals),
            lines: self.lines[..n].iter().map(line_of).collect::<Option<_>>()?,
            dist: self.distants()?,
            routes: self.routes[..m].iter().map(route_of).collect::<Option<_>>()?,
            conf: self.conflicts()?,
            ..Layout::default()
        };
        let sound = layout::load(&layout::encode(&l), LEVEL).ok()?;
        Some(Layout { fitted: self.fitted(), ..sound })
    }
}

// The first n of a table, which it must have.
fn first(t: &[u8], n: usize) -> Option<Vec<usize>> {
    Some(t.get(..n)?.iter().map(|&x| x as usize).collect())
}

// The first n points with their positions.
fn placed(points: &[u8], positions: &[u8], n: usize) -> Option<Vec<(usize, u8)>> {
    Some(first(points, n)?.into_iter().zip(positions.iter().copied()).collect())
}

fn line_of(f: &Fields) -> Option<Line> {
    let one = |k: usize| f[k][0] as usize;
    Some(Line {
        blocks: one_section_each(first(&f[1], one(0))?),
        inner: [one(2), one(3)],
        ent: [one(4), one(5)],
        points: placed(&f[7], &f[8], one(6))?,
    })
}

fn route_of(f: &Fields) -> Option<Route> {
    let one = |k: usize| f[k][0] as usize;
    Some(Route {
        entry: one(0),
        kind: f[1][0],
        line: one(2),
        end: one(3),
        div: f[4][0],
        path: first(&f[6], one(5))?,
        overlap: first(&f[8], one(7))?,
        points: placed(&f[10], &f[11], one(9))?,
    })
}

/// The heads of a section in sixteen bytes: of each head axles in, axles out, and a flag for each; the sum at the last reset; 0 no reset, 1 not
/// proved since, 2 proved.
fn head_bytes(x: &Axle) -> [u8; 16] {
    let count = |n: u16, has: bool| if has { n.to_le_bytes() } else { [0, 0] };
    let head = |h: &Head| {
        let ([a, b], [c, d]) = (count(h.cin, h.got_in), count(h.cout, h.got_out));
        [a, b, c, d, h.got_in as u8, h.got_out as u8]
    };
    let proof = x.reset as u8 + (x.reset && x.proved) as u8;
    [&head(&x.h[0])[..], &head(&x.h[1]), &x.base.to_le_bytes(), &[proof, 0]].concat().try_into().expect("sixteen bytes")
}

/// The heads that sixteen bytes are. A flag that is not 1 says that the count has not come, and without a reset nothing is proved.
pub fn heads_of(b: &[u8]) -> Axle {
    let two = |k: usize| u16::from_le_bytes([b[k], b[k + 1]]);
    let head = |k: usize| Head { cin: two(k), cout: two(k + 2), got_in: b[k + 4] == 1, got_out: b[k + 5] == 1 };
    Axle { h: [head(0), head(6)], base: two(12), reset: [1, 2].contains(&two(14)), proved: two(14) == 2 }
}

/// The tables of a state: section, point, order, phase, step, second, direction, stage, bar, heads, lamps. A route at proceed is in phase 1, one locked
/// and fallen in 2, one cancelling in 3. Lamps past the signals that there are report none.
pub fn tables(l: &Layout, s: &State) -> Fields {
    let bytes = |xs: &[u8], n: usize, fill: u8| table(xs.iter().map(|&x| x as usize), n, fill);
    let phase = |r: usize| match s.rt[r].st {
        1 if s.sig[l.routes[r].entry] != 20 => 1,
        0 => 0,
        held => held as usize + 1,
    };
    let mut stage = vec![lbox::ST0; 64];
    let mut bar = vec![0; 64];
    for (k, line) in s.ln.iter().enumerate() {
        for (i, block) in line.blocks.iter().enumerate() {
            stage[8 * k + i] = block.st;
            bar[8 * k + i] = block.barred as u8;
        }
    }
    vec![
        bytes(&s.sec, 64, lbox::NONE), bytes(&s.pt, 32, lbox::NONE), bytes(&s.order, 32, 0), table((0..s.rt.len()).map(phase), 48, 0),
        table(s.rt.iter().map(|r| r.step as usize), 48, 0), table(s.rt.iter().map(|r| r.secs as usize), 48, 0),
        table(s.ln.iter().map(|x| x.dir as usize), 8, 0), stage, bar, table(s.ax.iter().flat_map(head_bytes).map(usize::from), 1024, 0),
        bytes(&s.lamp, LAMPS, lbox::NONE),
    ]
}

/// The state that the tables of `READ` are, where all else is as at the cold start. Every line is neutral, so no block signal is lit.
pub fn with_readings(l: &Layout, t: &Fields) -> State {
    let mut s = lbox::cold(l);
    for g in 0..l.nsec {
        s.sec[g] = t[SECTION][g];
        s.ax[g] = heads_of(&t[HEADS][16 * g..]);
    }
    for (k, line) in s.ln.iter_mut().enumerate() {
        for (i, block) in line.blocks.iter_mut().enumerate() {
            block.st = t[STAGE][8 * k + i];
        }
    }
    for (x, lamp) in s.lamp.iter_mut().enumerate() {
        *lamp = t[LAMP][x];
    }
    s
}

/// Tables of a state, and those of them that a run by hand may start from.
pub const SECTION: usize = 0;
pub const STAGE: usize = 7;
pub const HEADS: usize = 9;
pub const LAMP: usize = 10;
pub const READ: [usize; 4] = [SECTION, STAGE, HEADS, LAMP];

/// How many lamps a state has room for: 32 main signals, and of eight lines seven block signals each way.
pub const LAMPS: usize = 144;

/// The tables of a state with their places and the lowest and the highest code; of heads no value is out of range.
pub const CODES: [(usize, u16, u8, u8); 10] = [
    (SECTION, 64, 1, 3), (1, 32, 1, 3), (2, 32, 0, 2), (3, 48, 0, 3), (4, 48, 0, 3), (5, 48, 0, 89), (6, 8, 0, 2), (STAGE, 64, 0, 4), (8, 64, 0, 1),
    (LAMP, LAMPS as u16, 1, 3),
];

/// No code of a state is outside its range.
pub fn in_range(state: &Fields) -> bool {
    CODES.iter().all(|&(t, _, low, high)| state[t].iter().all(|&x| low <= x && x <= high))
}

/// A layout and a state with a change; one that there is no place for changes nothing, and a field that is no table has its one place.
pub fn change(plan: &mut Plan, state: &mut Fields, c: &Change) {
    let record = match c.record {
        0 => Some(&mut plan.own),
        1 => Some(state),
        2 => plan.lines.get_mut(c.number as usize),
        3 => plan.routes.get_mut(c.number as usize),
        _ => None,
    };
    let Some(field) = record.and_then(|r| r.get_mut(c.field as usize)) else { return };
    let place = if field.len() == 1 { 0 } else { c.place as usize };
    if let Some(byte) = field.get_mut(place) {
        *byte = c.byte;
    }
}
