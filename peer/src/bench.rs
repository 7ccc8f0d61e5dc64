// Events to be timed, and the sum over their answers that the box's own program prints too.
use crate::examples::{eight_points, full, most_blocks, needed_pairs, one_section_each, version_1, BRANCH_T};
use crate::layout::{self, encode, Layout, Line, Route};
use crate::lbox::{self, Var};
use crate::level::LEVEL;
use crate::head_cases::proved;
use crate::records::{tables, HEADS, STAGE};
use crate::run_cases::{events, P1};
use crate::runs::{form, told, Event};

/// The sum with one more number.
fn mixed(sum: u64, x: u32) -> u64 {
    31 * (sum % 1_000_000_007) + x as u64
}

fn read_events(path: &str) -> Vec<Event> {
    let file = std::fs::read(path).expect("an event file");
    let words: Vec<u32> = file.chunks_exact(4).map(|w| u32::from_le_bytes([w[0], w[1], w[2], w[3]])).collect();
    words.chunks_exact(3).map(|e| [e[0], e[1], e[2]]).collect()
}

/// Plays the events of PREFIX once and those of EVENTS so many times, and answers the sum over all answers and the last state but for its heads and lamps.
pub fn play([layout, fitted, prefix, run]: [&str; 4], turns: u64, v: &Var) -> u64 {
    let mut l = layout::load(&std::fs::read(layout).expect("a layout file"), v.n).expect("a sound layout");
    l.fitted = told(&std::fs::read(fitted).expect("a file of fitted sections"), v.n).expect("numbers");
    let (prefix, run) = (read_events(prefix), read_events(run));
    let (mut s, mut sum) = (lbox::cold(&l), 0);
    let mut one = |e: &Event| {
        let (number, detail, next) = lbox::event(&l, &s, *e, v);
        s = next;
        sum = mixed(mixed(sum, number), detail);
    };
    prefix.iter().for_each(&mut one);
    for _ in 0..turns {
        run.iter().for_each(&mut one);
    }
    tables(&l, &s)[..HEADS].iter().flatten().fold(sum, |sum, &code| mixed(sum, code as u32))
}

// A table of a state.
const PHASE: usize = 3;

/// A layout with events to be timed: those of the prefix come once.
struct Case {
    name: &'static str,
    layout: Vec<u8>,
    fitted: Vec<usize>,
    prefix: Vec<Event>,
    events: Vec<Event>,
    // How many routes are at proceed and how many blocks are held in stage 1 after them.
    at_proceed: usize,
    in_stage_1: usize,
}

// Branch T: a train leaves on route 0 and arrives on route 1, and all is set anew.
fn branch_t() -> Case {
    let train = "(1 0 2)(1 1 2)(1 0 1)(1 2 2)(1 3 2)(1 1 1)(1 2 1)(1 3 1)(6 0 1)(4 1 0)(4 0 0)";
    Case { name: "branch_t", layout: BRANCH_T.to_vec(), fitted: vec![], prefix: events(P1), events: events(train), at_proceed: 2, in_stage_1: 0 }
}

// The same readings by the heads of sections that two axles have proved: two more come in, and it is as if they had not.
fn by_counts(readings: &[Event]) -> Vec<Event> {
    readings.iter().map(|&[kind, g, code]| if kind == 1 { [11, 2 * g, 2 * code] } else { [kind, g, code] }).collect()
}

// Branch T with heads everywhere, and the same train.
fn branch_t_heads() -> Case {
    let Case { layout, events: train, .. } = branch_t();
    let mut prefix = proved(0..4);
    prefix.extend(events("(2 0 1)(7 0 1)(15 2 1)(6 0 1)(4 1 0)(4 0 0)"));
    Case { name: "t_heads", layout, fitted: (0..4).collect(), prefix, events: by_counts(&train), at_proceed: 2, in_stage_1: 0 }
}

// All sections free, all points in the positions that every list has them in, all lines released by hand, all lamps at stop.
fn made_ready(l: &Layout) -> Vec<Event> {
    let sections = (0..l.nsec).map(|g| [1, g as u32, 1]);
    let points = (0..l.own.len()).map(|p| [2, p as u32, 1 + (p % 2) as u32]);
    let lines = (0..l.lines.len()).map(|k| [7, k as u32, 1]);
    let lamps = (0..l.all_sigs()).map(|x| [15, x as u32, 1]);
    sections.chain(points).chain(lines).chain(lamps).collect()
}

// The largest layout of which five routes can be locked at once: 48 routes with paths of 8 over five ways with nothing in common, so that 24 of
// 64 sections are left for the blocks of eight lines. Overlaps and points are full too. All pairs are listed that must be.
fn full_layout() -> Layout {
    let mut l = full(3, |line, _| (8 * (line % 5)..8 * (line % 5) + 8).collect(), |_, point| point);
    for (n, r) in l.routes.iter_mut().enumerate() {
        r.overlap = (0..4).map(|k| (5 * n + 11 * k) % 40).collect();
    }
    l.conf = needed_pairs(&l);
    l
}

// The full layout with four lines secured and five routes locked at proceed.
fn five_locked(l: &Layout) -> Vec<Event> {
    let mut e = made_ready(l);
    e.extend((0..4).map(|k| [6, k, 1]));
    // Of line k the routes 6 k, 6 k + 1 and 6 k + 2 are those of end A: entrance, exit, inner; the next three those of end B.
    e.extend([1, 6 + 3, 2 * 6 + 1, 3 * 6 + 3, 4 * 6 + 2].map(|r| [4, r, 0]));
    e
}

// Blocks of the lines that are not secured are occupied and free in turn.
fn full_case() -> Case {
    let l = full_layout();
    let blocks: Vec<u32> = l.lines[4..].iter().flat_map(|x| x.blocks.iter().flatten().map(|&g| g as u32)).collect();
    let events = blocks.iter().flat_map(|&g| [[1, g, 2], [1, g, 1]]).collect();
    Case { name: "full", layout: encode(&l), fitted: vec![], prefix: five_locked(&l), events, at_proceed: 5, in_stage_1: 0 }
}

// The same with heads everywhere.
fn full_heads() -> Case {
    let Case { layout, prefix: ready, events: readings, .. } = full_case();
    let mut prefix = proved(0..64);
    prefix.extend(ready.iter().filter(|e| e[0] != 1));
    Case { name: "full_heads", layout, fitted: (0..64).collect(), prefix, events: by_counts(&readings), at_proceed: 5, in_stage_1: 0 }
}

// Orders of every kind on the same, granted and refused.
fn orders_case() -> Case {
    let l = full_layout();
    let order = "(4 1 0)(4 7 0)(4 37 0)(5 9 0)(4 9 0)(5 9 0)(3 0 2)(3 31 1)(6 0 1)(6 5 1)(7 5 1)(7 0 1)(8 6 0)(6 6 1)(9 6 0)(2 0 1)(10 0 0)(1 40 1)";
    Case { name: "orders", layout: encode(&l), fitted: vec![], prefix: five_locked(&l), events: events(order), at_proceed: 4, in_stage_1: 0 }
}

// A route of the largest size but for its path.
fn route(kind: u8, line: usize, end: usize, entry: usize, path: Vec<usize>) -> Route {
    let overlap = path.iter().copied().cycle().take(4).collect();
    Route { entry, kind, line, end, path, overlap, points: eight_points(entry, |p| p), ..Route::default() }
}

// Copies of the last routes until there are 48, with the pairs that must be listed.
fn filled(mut l: Layout) -> Layout {
    while l.routes.len() < 48 {
        l.routes.push(l.routes[l.routes.len() - 8].clone());
    }
    l.conf = needed_pairs(&l);
    l
}

// Held: the most blocks that there can be, 62 on eight lines with eight points each, all held in stage 1 on secured lines with the far section
// occupied, so that every far signal is asked in each event, those of the stations among 48 routes.
fn held_case() -> Case {
    let mut l = most_blocks();
    for (k, x) in l.lines.iter_mut().enumerate() {
        x.points = eight_points(k, |p| p);
    }
    l.own = vec![0; 32];
    let l = filled(l);
    let mut prefix = made_ready(&l);
    prefix.extend((0..8).map(|k| [6, k, 1]));
    prefix.push([1, 1, 2]);
    let blocks: Vec<Event> = l.lines.iter().flat_map(|x| x.blocks.iter().flatten().rev().map(|&g| [1, g as u32, 2])).collect();
    prefix.extend(&blocks);
    Case { name: "held", layout: encode(&l), fitted: vec![], prefix, events: blocks, at_proceed: 0, in_stage_1: 62 }
}

// Locked: the most routes that can be at proceed on eight secured lines of one block: 2 exit routes, 14 entrance routes, 13 inner ones.
fn locked_case() -> Case {
    let mut l = Layout { nsec: 64, own: vec![0; 32], nsig: 32, ..version_1() };
    for k in 0..8 {
        l.lines.push(Line { blocks: one_section_each([56 + k]), inner: [2 * k, 2 * k + 1], ent: [2 * k, 2 * k + 1], points: eight_points(k, |p| p) });
    }
    l.routes = (0..2).map(|k| route(2, k, 0, 16 + k, vec![2 * k])).collect();
    let entrances = [1, 3].into_iter().chain(4..16).enumerate();
    l.routes.extend(entrances.map(|(n, at)| route(1, at / 2, at % 2, at, vec![at, 16 + n])));
    l.routes.extend((0..13).map(|n| route(0, 0, 0, 18 + n, vec![30 + 2 * n, 31 + 2 * n])));
    let l = filled(l);
    let mut prefix = made_ready(&l);
    prefix.extend((0..8).map(|k| [6, k, 1]));
    prefix.extend((0..29).map(|r| [4, r, 0]));
    let events = (58..64).flat_map(|g| [[1, g, 2], [1, g, 1]]).collect();
    Case { name: "locked", layout: encode(&l), fitted: vec![], prefix, events, at_proceed: 29, in_stage_1: 0 }
}

// Mixed: eight secured lines of three blocks, each with an exit route and an entrance route at proceed, and eight inner routes; the second and the
// third block of each line held in stage 1.
fn mixed_case() -> Case {
    let mut l = Layout { nsec: 64, own: vec![0; 32], nsig: 32, ..version_1() };
    for k in 0..8 {
        let blocks = one_section_each(40 + 3 * k..43 + 3 * k);
        l.lines.push(Line { blocks, inner: [k, 8 + k], ent: [2 * k, 2 * k + 1], points: eight_points(k, |p| p) });
    }
    l.routes = (0..8).map(|k| route(2, k, 0, 16 + k, vec![k])).collect();
    l.routes.extend((0..8).map(|k| route(1, k, 1, 2 * k + 1, vec![8 + k, 16 + k])));
    l.routes.extend((0..8).map(|n| route(0, 0, 0, 24 + n, vec![24 + 2 * n, 25 + 2 * n])));
    let l = filled(l);
    let mut prefix = made_ready(&l);
    prefix.extend((0..8).map(|k| [6, k, 1]));
    prefix.extend((0..24).map(|r| [4, r, 0]));
    let held: Vec<Event> = l.lines.iter().flat_map(|x| [2, 1].map(|i| [1, x.blocks[i][0] as u32, 2])).collect();
    prefix.extend(&held);
    Case { name: "mixed", layout: encode(&l), fitted: vec![], prefix, events: held, at_proceed: 24, in_stage_1: 16 }
}

// Dark: a train over a line of eight blocks, no far signal's lamp at stop, so that each block waits in stage 3 until the entrance route is released, and
// all open in that event. Lamps report on its way.
fn dark_case() -> Case {
    let l = most_blocks();
    let mut prefix = made_ready(&l);
    prefix.extend((0..l.all_sigs()).map(|x| [15, x as u32, 2]));
    let train: String = (3..10).map(|g| format!("(15 {} 2)(1 {g} 2)(1 {} 1)", 29 + g, g - 1)).collect();
    let run = format!("(6 0 1)(4 1 0)(1 0 2)(1 2 2)(1 0 1){train}(4 2 0)(1 1 2)(1 9 1)(1 0 2)(1 1 1)(1 0 1)");
    Case { name: "dark", layout: encode(&l), fitted: vec![], prefix, events: events(&run), at_proceed: 0, in_stage_1: 0 }
}

fn words(events: &[Event]) -> Vec<u8> {
    events.iter().flatten().flat_map(|n| n.to_le_bytes()).collect()
}

/// Writes NAME.layout, NAME.fitted, NAME.prefix and NAME.events of each case, and prints its name and how many events it has.
pub fn files(folder: &str) {
    for c in [branch_t(), full_case(), orders_case(), locked_case(), mixed_case(), held_case(), branch_t_heads(), full_heads(), dark_case()] {
        let l = Layout { fitted: c.fitted.clone(), ..layout::load(&c.layout, LEVEL).expect("a sound layout") };
        let after = c.prefix.iter().chain(&c.events).fold(lbox::cold(&l), |s, e| lbox::event(&l, &s, *e, &Var::at(LEVEL)).2);
        let count = |table: usize, code: u8| tables(&l, &after)[table].iter().filter(|&&x| x == code).count();
        assert_eq!((count(PHASE, 1), count(STAGE, 2)), (c.at_proceed, c.in_stage_1), "{}", c.name);
        let write = |part: &str, bytes: &[u8]| std::fs::write(format!("{folder}/{}.{part}", c.name), bytes).expect("write");
        write("layout", &c.layout);
        write("fitted", &form(&c.fitted));
        write("prefix", &words(&c.prefix));
        write("events", &words(&c.events));
        println!("{} {}", c.name, c.events.len());
    }
}
