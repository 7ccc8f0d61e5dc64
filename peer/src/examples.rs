// Branch T, and the largest layouts: every count at its limit, or as near to it as the rules allow.
use crate::layout::{must_conflict, Layout, Line, Route};

/// Branch T, section 8.
pub const BRANCH_T: [u8; 49] = [
    1, 4, 1, 2, 4, 1, 1, 1, 0, 2, 1, 2, 0, 3, 0, 2, 0, 0, 0, 1, 0, 0, 0, 2, 1, 0, 1, 0, 2, 2, 3, 0, 1, 0, 1, 3, 2, 0, 1, 0, 1, 2, 0, 1,
    0, 1, 1, 1, 2,
];

/// A layout of no objects, in the file's first version.
pub fn version_1() -> Layout {
    Layout { ver: 1, ..Layout::default() }
}

/// Blocks of one section each.
pub fn one_section_each(sections: impl IntoIterator<Item = usize>) -> Vec<Vec<usize>> {
    sections.into_iter().map(|s| vec![s]).collect()
}

/// Every pair of n routes, in order.
pub fn every_pair(n: usize) -> Vec<(usize, usize)> {
    (0..n).flat_map(|a| (a + 1..n).map(move |b| (a, b))).collect()
}

/// The pairs of train routes that rule 6 asks for, in order.
pub fn needed_pairs(l: &Layout) -> Vec<(usize, usize)> {
    every_pair(l.routes.len()).into_iter().filter(|&(a, b)| must_conflict(l, a, b)).collect()
}

// Eight different points of 32, counted on from `first`, each in the position that the rule gives it.
pub fn eight_points(first: usize, position: impl Fn(usize) -> usize) -> Vec<(usize, u8)> {
    let point = |k: usize| (first + 5 * k) % 32;
    (0..8).map(|k| (point(k), 1 + (position(point(k)) % 2) as u8)).collect()
}

// Four sections of 64 for an overlap.
fn four_sections(first: usize) -> Vec<usize> {
    (0..4).map(|k| (first + 17 * k) % 64).collect()
}

// Eight lines, their blocks numbered last, and for each of their 16 ends an entrance, an exit and an inner route of full size.
// `way` gives a line's eight path sections from its inner section at A to the one at B.
pub fn full(blocks: usize, way: impl Fn(usize, usize) -> Vec<usize>, position: impl Fn(usize, usize) -> usize) -> Layout {
    let mut l = Layout { nsec: 64, own: (0..32).map(|p| 63 - 2 * p).collect(), nsig: 32, ..version_1() };
    for line in 0..8 {
        let first = 64 - 8 * blocks + line * blocks;
        l.lines.push(Line {
            blocks: one_section_each(first..first + blocks),
            inner: [way(line, 0)[0], way(line, 0)[7]],
            ent: [2 * line, 2 * line + 1],
            points: eight_points(line, |p| position(line, p)),
        });
    }
    for n in 0..48 {
        let (at, kind) = (n / 3, [1, 2, 0][n % 3]);
        let (line, end) = (at / 2, at % 2);
        let mut path = way(line, n);
        // An entrance route at B and an exit route at A travel from B to A.
        if (kind == 1) == (end == 1) {
            path.reverse();
        }
        l.routes.push(Route {
            entry: if kind == 1 { at } else { 16 + at },
            kind,
            line,
            end,
            div: (n % 2) as u8,
            path,
            overlap: four_sections(7 * n),
            points: eight_points(n, |p| position(n, p)),
        });
    }
    l.conf = every_pair(48);
    l
}

/// 48 full routes, each through the same two inner sections, so that all 1,128 pairs must conflict.
pub fn all_must_conflict() -> Layout {
    let way = |_line: usize, turn: usize| {
        let between = (0..6).map(|k| 1 + (turn + 2 * k) % 14);
        std::iter::once(0).chain(between).chain(std::iter::once(15)).collect()
    };
    full(6, way, |turn, point| turn + point)
}

/// 48 full routes over seven ways with nothing in common: all 1,128 pairs are listed, and 156 of them must be.
pub fn few_must_conflict() -> Layout {
    let way = |line: usize, _turn: usize| (8 * (line % 7)..8 * (line % 7) + 8).collect();
    full(1, way, |_turn, point| point)
}

// An inner route with four overlap sections and eight points that lie as everywhere else.
fn inner_route(n: usize, entry: usize, path: Vec<usize>) -> Route {
    Route { entry, path, overlap: four_sections(5 * n), points: eight_points(n, |p| p), ..Route::default() }
}

/// The most routes of which no two must conflict: one for each signal. All their 496 pairs are listed.
pub fn none_must_conflict() -> Layout {
    let routes = (0..32).map(|n| inner_route(n, n, vec![2 * n, 2 * n + 1])).collect();
    Layout { nsec: 64, own: (0..32).collect(), nsig: 32, routes, conf: every_pair(32), ..version_1() }
}

/// Eight lines and the most routes over them of which no two must conflict: 29, none of them listed.
pub fn none_must_conflict_on_lines() -> Layout {
    let mut l = Layout { nsec: 64, own: (0..32).collect(), nsig: 32, ..version_1() };
    for line in 0..8 {
        let ends = [2 * line, 2 * line + 1];
        l.lines.push(Line { blocks: one_section_each([56 + line]), inner: ends, ent: ends, points: eight_points(line, |p| p) });
    }
    for at in 0..16 {
        let (kind, entry, path) = if at < 3 { (2, 16 + at, vec![at]) } else { (1, at, vec![at, 13 + at]) };
        l.routes.push(Route { kind, line: at / 2, end: at % 2, ..inner_route(at, entry, path) });
    }
    for n in 0..13 {
        l.routes.push(inner_route(n, 19 + n, vec![29 + 2 * n, 30 + 2 * n]));
    }
    l
}

/// As many blocks as there can be: 62 on eight lines that share their two inner sections.
pub fn most_blocks() -> Layout {
    let mut l = Layout { nsec: 64, nsig: 32, ..version_1() };
    for line in 0..8 {
        let first = if line < 6 { 2 + 8 * line } else { 50 + 7 * (line - 6) };
        let count = if line < 6 { 8 } else { 7 };
        l.lines.push(Line { blocks: one_section_each(first..first + count), inner: [0, 1], ent: [2 * line, 2 * line + 1], points: vec![] });
    }
    for at in 0..16 {
        let (line, end) = (at / 2, at % 2);
        l.routes.push(Route { entry: at, kind: 1, line, end, path: vec![end, 1 - end], ..Route::default() });
        l.routes.push(Route { entry: 16 + at, kind: 2, line, end, path: vec![end], ..Route::default() });
    }
    l.conf = needed_pairs(&l);
    l
}

// So many lines with as many blocks each, 56 in all, and 48 exit routes over all eight sections that are left, everything else as long as it may be.
fn long(lines: usize, blocks: usize) -> Layout {
    let points = || (0..8).map(|p| (p, 1)).collect();
    let mut l = Layout { nsec: 64, own: vec![0; 32], nsig: 32, ..version_1() };
    for line in 0..lines {
        let first = 8 + blocks * line;
        l.lines.push(Line { blocks: one_section_each(first..first + blocks), inner: [0, 7], ent: [2 * line, 2 * line + 1], points: points() });
    }
    let route = || Route { entry: 16, kind: 2, end: 1, path: (0..8).collect(), overlap: (0..4).collect(), points: points(), ..Route::default() };
    l.routes = (0..48).map(|_| route()).collect();
    l.conf = every_pair(48);
    l
}

/// The layout whose file is the longest of version 1, 4,256 bytes: eight lines of seven blocks.
pub fn longest_1() -> Layout {
    long(8, 7)
}

/// The layout whose file is the longest, 4,363 bytes: seven lines of eight blocks, and so 130 signals, and 32 distants whose numbers take two bytes each.
pub fn longest() -> Layout {
    Layout { ver: 2, dist: vec![(130, 128); 32], ..long(7, 8) }
}
