// Faults 21 to 24 at each kind of number of a layout file, and counts at their limits.
use crate::cases::{changed, Cases};
use crate::examples::{one_section_each, version_1, BRANCH_T};
use crate::layout::{self, encode, Layout, Line, Route};
use crate::level::LEVEL;
use crate::num;
use std::collections::HashSet;

/// A number of a layout file: what it is, its value, its limits, and the fault beyond them.
struct Field {
    name: &'static str,
    value: usize,
    least: usize,
    most: usize,
    fault: u32,
}

/// The numbers of a layout file in order.
#[derive(Default)]
struct Fields(Vec<Field>);

impl Fields {
    // A version, count or code.
    fn code(&mut self, name: &'static str, value: usize, least: usize, most: usize) {
        self.0.push(Field { name, value, least, most, fault: 23 });
    }

    // A reference to one of n objects.
    fn refer(&mut self, name: &'static str, value: usize, n: usize) {
        self.0.push(Field { name, value, least: 0, most: n - 1, fault: 24 });
    }

    // A count and as many sections.
    fn sections(&mut self, names: [&'static str; 2], list: &[usize], least: usize, most: usize, n: usize) {
        self.code(names[0], list.len(), least, most);
        list.iter().for_each(|s| self.refer(names[1], *s, n));
    }

    // A count and as many points with their positions.
    fn points(&mut self, names: [&'static str; 3], list: &[(usize, u8)], n: usize) {
        self.code(names[0], list.len(), 0, 8);
        for (point, position) in list {
            self.refer(names[1], *point, n);
            self.code(names[2], *position as usize, 1, 2);
        }
    }

    // The numbers of a line.
    fn line(&mut self, l: &Layout, x: &Line) {
        self.sections(["blocks", "block"], &x.blocks.concat(), 1, 8, l.nsec);
        self.refer("inner section at A", x.inner[0], l.nsec);
        self.refer("inner section at B", x.inner[1], l.nsec);
        self.refer("entrance signal at A", x.ent[0], l.nsig);
        self.refer("entrance signal at B", x.ent[1], l.nsig);
        self.points(["line points", "line point", "line position"], &x.points, l.own.len());
    }

    // The numbers of the distants (L2).
    fn distants(&mut self, l: &Layout) {
        self.code("distants", l.dist.len(), 0, 32);
        for (carrier, announced) in &l.dist {
            self.refer("carrier", *carrier, l.all_sigs() + 1);
            self.refer("announced signal", *announced, l.all_sigs());
        }
    }

    // The numbers of a route.
    fn route(&mut self, l: &Layout, r: &Route) {
        self.refer("entry signal", r.entry, l.nsig);
        self.code("kind", r.kind as usize, 0, 2);
        if r.kind != 0 {
            self.refer("line", r.line, l.lines.len());
            self.code("end", r.end, 0, 1);
        }
        self.code("diverging", r.div as usize, 0, 1);
        self.sections(["path", "path section"], &r.path, 1, 8, l.nsec);
        self.sections(["overlap", "overlap section"], &r.overlap, 0, 4, l.nsec);
        self.points(["route points", "route point", "route position"], &r.points, l.own.len());
    }

    fn of(l: &Layout) -> Fields {
        let mut f = Fields::default();
        f.code("version", l.ver as usize, 1, layout::max_version(LEVEL) as usize);
        f.code("sections", l.nsec, 1, 64);
        f.sections(["points", "own section"], &l.own, 0, 32, l.nsec);
        f.code("signals", l.nsig, 0, 32);
        f.code("lines", l.lines.len(), 0, 8);
        l.lines.iter().for_each(|x| f.line(l, x));
        if l.ver >= 2 {
            f.distants(l);
        }
        f.code("routes", l.routes.len(), 0, 48);
        l.routes.iter().for_each(|r| f.route(l, r));
        f.code("conflicts", l.conf.len(), 0, 1128);
        for (a, b) in &l.conf {
            f.refer("first route", *a, l.routes.len());
            f.refer("second route", *b, l.routes.len());
        }
        f
    }

    // The bytes before number i.
    fn before(&self, i: usize) -> Vec<u8> {
        let mut bytes = vec![];
        self.0[..i].iter().for_each(|f| num::write(f.value as u32, &mut bytes));
        bytes
    }

    // The file up to number i, and these bytes in its place.
    fn ending(&self, i: usize, place: &[u8]) -> Vec<u8> {
        [&self.before(i), place].concat()
    }

    // The file with these bytes in place of number i.
    fn with(&self, i: usize, place: &[u8]) -> Vec<u8> {
        let rest = self.before(self.0.len()).split_off(self.before(i + 1).len());
        [&self.before(i), place, &rest].concat()
    }
}

// The form of a number.
fn form(value: usize) -> Vec<u8> {
    let mut bytes = vec![];
    num::write(value as u32, &mut bytes);
    bytes
}

// Branch T with a line point, a second own section and an overlap, so that it has every kind of number.
fn every_kind() -> Layout {
    let t = layout::load(&BRANCH_T, LEVEL).expect("branch T is sound");
    changed(&t, |l| {
        l.own.push(3);
        l.lines[0].points = vec![(1, 2)];
        l.routes[1].overlap = vec![0];
        l.routes[1].div = 1;
    })
}

// The same in version 2, with three distants (L2).
fn with_distants() -> Layout {
    changed(&every_kind(), |l| (l.ver, l.dist) = (2, vec![(2, 3), (0, 1), (4, 2)]))
}

// One number made badly, at the end of the file and inside, or cut.
fn bad_forms(c: &mut Cases, fields: &Fields, i: usize) {
    let (f, at) = (&fields.0[i], fields.before(i).len());
    let first = f.value as u8 | 0x80;
    for cut in [&[first][..], &[first, 0x80]] {
        c.made(f.name, &fields.ending(i, cut), 21, at);
    }
    c.made(f.name, &fields.ending(i, &[first, 0x80, 0x80]), 22, at);
    for form in [&[first, 0][..], &[first, 0x80, 0], &[first, 0x80, 0x80], &[0x80, 0x80, 4]] {
        c.made(f.name, &fields.with(i, form), 22, at);
    }
}

// One number at its limits, beside them and far beyond them.
fn limits(c: &mut Cases, fields: &Fields, i: usize) {
    let (f, at) = (&fields.0[i], fields.before(i).len());
    for value in [f.most + 1, 128, 65_535] {
        if value > f.most {
            c.made(f.name, &fields.with(i, &form(value)), f.fault, at);
        }
    }
    if f.least > 0 {
        c.made(f.name, &fields.with(i, &form(f.least - 1)), f.fault, at);
    }
    for value in [f.least, f.most.saturating_sub(1), f.most] {
        if value != f.value && value >= f.least {
            c.any(&fields.with(i, &form(value)));
        }
    }
}

// Each kind of number at its first place, then the limit at its last place; of a layout that has so many kinds those that are asked for.
fn each_number(c: &mut Cases, l: &Layout, kinds: usize, asked: impl Fn(&str) -> bool) {
    let fields = Fields::of(l);
    let file = fields.before(fields.0.len());
    assert_eq!(file, encode(l));
    let names: HashSet<&str> = fields.0.iter().map(|f| f.name).collect();
    assert_eq!(names.len(), kinds, "every kind of number");
    c.made("every kind of number", &file, 0, 0);
    for i in (0..fields.0.len()).filter(|&i| asked(fields.0[i].name)) {
        let f = &fields.0[i];
        let same = |g: &Field| g.name == f.name;
        if fields.0.iter().position(same) == Some(i) {
            bad_forms(c, &fields, i);
            limits(c, &fields, i);
        } else if fields.0.iter().rposition(same) == Some(i) {
            c.made(f.name, &fields.with(i, &form(f.most + 1)), f.fault, fields.before(i).len());
        }
    }
}

// Two faults in one file: the first met is told, whatever its number, and before bytes left over.
fn two_faults(c: &mut Cases) {
    let fields = Fields::of(&every_kind());
    let place = |name: &str| fields.0.iter().position(|f| f.name == name).expect(name);
    let [own, entrance, kind, position] = ["own section", "entrance signal at A", "kind", "route position"].map(place);
    let beyond = |i: usize| form(fields.0[i].most + 1);
    let early = [(own, vec![0x80, 0], 22), (entrance, beyond(entrance), 24), (kind, beyond(kind), 23)];
    for (i, bytes, fault) in early {
        let at = fields.before(i).len();
        let later = fields.before(position).len() + bytes.len() - 1;
        for late in [vec![0x80, 0x80, 0x80], beyond(position), vec![0]] {
            let mut file = fields.with(i, &bytes);
            file.splice(later..later + 1, late);
            c.made("two faults", &file, fault, at);
        }
        let file = fields.with(i, &bytes);
        c.made("a fault and a file that ends early", &file[..file.len() - 1], fault, at);
        c.made("a fault and bytes left over", &[&file[..], &[0]].concat(), fault, at);
    }
}

// A layout with counts of its own choice and nothing in its lists.
fn bare(sections: usize, points: usize, signals: usize) -> Layout {
    Layout { nsec: sections, own: (0..points).map(|p| p % sections).collect(), nsig: signals, ..version_1() }
}

// Sound layouts with one count at its limit or beside it, and references where there is nothing to refer to.
fn counts(c: &mut Cases) {
    for (sections, points, signals) in [(1, 0, 0), (2, 1, 1), (63, 31, 31), (64, 32, 32), (1, 32, 0), (64, 0, 32)] {
        c.sound("counts", &bare(sections, points, signals));
    }
    let line = |n: usize| Line { blocks: one_section_each([2 + n]), inner: [0, 1], ent: [2 * n, 2 * n + 1], points: vec![] };
    for lines in [1, 7, 8] {
        c.sound("lines", &changed(&bare(64, 0, 32), |l| l.lines = (0..lines).map(line).collect()));
    }
    for blocks in [2, 7, 8] {
        c.sound("blocks", &changed(&bare(64, 0, 32), |l| l.lines = vec![Line { blocks: one_section_each(2..2 + blocks), ..line(0) }]));
    }
    let points = |n: usize| (0..n).map(|p| (31 - p, 1 + (p % 2) as u8)).collect::<Vec<_>>();
    let route = Route { path: vec![0, 1], ..Route::default() };
    let routed = |r: Route| changed(&bare(64, 32, 32), |l| l.routes = vec![r]);
    for n in [1, 7, 8] {
        c.sound("line points", &changed(&bare(64, 32, 32), |l| l.lines = vec![Line { points: points(n), ..line(0) }]));
        c.sound("route points", &routed(Route { points: points(n), ..route.clone() }));
    }
    for n in [3, 7, 8] {
        c.sound("path", &routed(Route { path: (64 - n..64).collect(), ..route.clone() }));
    }
    for n in [1, 3, 4] {
        c.sound("overlap", &routed(Route { overlap: (64 - n..64).collect(), ..route.clone() }));
    }
    c.made("a line, no signal", &[1, 2, 0, 0, 1, 1, 0, 0, 1, 0], 24, 9);
    c.made("a route, no signal", &[1, 2, 0, 0, 0, 1, 0], 24, 6);
    c.made("an entrance route, no line", &[1, 2, 0, 1, 0, 1, 0, 1, 0], 24, 8);
    c.made("a route point, no point", &[1, 2, 0, 1, 0, 1, 0, 0, 0, 2, 0, 1, 0, 1, 0, 1], 24, 14);
    c.made("a pair, no route", &[1, 2, 0, 1, 0, 0, 1, 0, 1], 24, 7);
    c.made("a pair, one route", &[1, 2, 0, 1, 0, 1, 0, 0, 0, 2, 0, 1, 0, 0, 1, 0, 1], 24, 16);
}

pub fn all(c: &mut Cases) {
    each_number(c, &every_kind(), 31, |_| true);
    two_faults(c);
    counts(c);
    // of version 2 the numbers that it adds, with those before and after them
    each_number(c, &with_distants(), 34, |name| ["version", "distants", "carrier", "announced signal", "routes"].contains(&name));
}
