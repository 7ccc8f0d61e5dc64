// Records changed by hand: each field of a state and of a layout past its range, each rule of section 2 broken, and near misses.
use crate::distant_cases;
use crate::examples::BRANCH_T;
use crate::fuzz::{gen_layout, Rng};
use crate::layout::encode;
use crate::level::{LAST_KIND, LEVEL};
use crate::records::{Change, Part, Part::*, CODES, PARTS};
use crate::run_cases::BRANCH_U;
use crate::runs::{form, Event, Runs};

// Changes of the layout, of the state, of line 0, and of a route.
pub fn plan(part: Part, place: u16, byte: u8) -> Change {
    Change { record: 0, number: 0, field: part as u8, place, byte }
}
pub fn state(field: u8, place: u16, byte: u8) -> Change {
    Change { record: 1, number: 0, field, place, byte }
}
pub fn line(field: u8, place: u16, byte: u8) -> Change {
    Change { record: 2, number: 0, field, place, byte }
}
fn route(number: u8, field: u8, place: u16, byte: u8) -> Change {
    Change { record: 3, number, field, place, byte }
}

// An event of every kind, and of the kinds before and after them.
pub fn every_kind() -> Vec<Event> {
    (0..=LAST_KIND + 1).map(|kind| [kind, 0, 1]).collect()
}

// Records that are not sound: 18 for every event.
pub fn unsound(c: &mut Runs, label: &str, file: &[u8], changes: &[Change]) {
    let answers = c.any(file, changes, &every_kind());
    assert!(answers.iter().all(|a| *a == (18, 0)), "{label} is not sound");
}

// Records that are sound: 1 for an event of no kind.
pub fn sound(c: &mut Runs, label: &str, file: &[u8], changes: &[Change]) {
    let by_hand = changes.iter().any(|x| x.record == 1);
    let events = if by_hand { vec![[0, 0, 0], [LAST_KIND + 1, 0, 0]] } else { every_kind() };
    assert_eq!(c.any(file, changes, &events)[0], (1, 0), "{label} is sound");
}

// Each table of a state at its first and last place, just past its range, far past it, and at its ends.
fn states(c: &mut Runs) {
    for (field, places, low, high) in CODES {
        for place in [0, places - 1] {
            let code = |byte: u8| [state(field as u8, place, byte)];
            for byte in [high + 1, 255].into_iter().chain((low > 0).then_some(0)) {
                unsound(c, "a code past its range", &BRANCH_T, &code(byte));
            }
            for byte in [low, high] {
                sound(c, "a code at the end of its range", &BRANCH_T, &code(byte));
            }
        }
    }
}

// Counts, codes and references of a layout.
fn ranges(c: &mut Runs) {
    let too_many = [
        (Sections, 65), (Sections, 255), (Sections, 0), (Points, 33), (Points, 255), (Signals, 33), (Signals, 255), (Lines, 9), (Lines, 255),
        (Routes, 49), (Routes, 255),
    ];
    for (part, byte) in too_many {
        unsound(c, "a count of the layout", &BRANCH_T, &[plan(part, 0, byte)]);
    }
    for (part, byte) in [(Sections, 3), (Points, 0), (Signals, 3), (Lines, 0), (Lines, 2), (Routes, 4)] {
        unsound(c, "a count that leaves something out, or has nothing there", &BRANCH_T, &[plan(part, 0, byte)]);
    }
    unsound(c, "a point's section", &BRANCH_T, &[plan(PointSection, 0, 4)]);
    for (field, place, byte) in [(0, 0, 0), (0, 0, 9), (0, 0, 255), (1, 0, 4), (2, 0, 4), (3, 0, 255), (4, 0, 4), (5, 0, 4), (6, 0, 9), (6, 0, 1)] {
        unsound(c, "a number of the line", &BRANCH_T, &[line(field, place, byte)]);
    }
    for (field, byte) in [(7, 2), (7, 255), (8, 0), (8, 3)] {
        unsound(c, "a point of the line", &BRANCH_U, &[line(field, 0, byte)]);
    }
    let numbers = [(0, 4), (1, 3), (2, 1), (3, 2), (4, 2), (5, 0), (5, 9), (5, 255), (6, 4), (7, 5), (7, 9), (9, 9), (10, 1), (11, 0), (11, 3)];
    for (field, byte) in numbers {
        unsound(c, "a number of a route", &BRANCH_T, &[route(1, field, 0, byte)]);
    }
    unsound(c, "an overlap section", &BRANCH_T, &[route(2, 7, 0, 1), route(2, 8, 0, 4)]);
}

// Each rule, by one clause after the other.
fn rules(c: &mut Runs) {
    let mut broken = |rule: &str, file: &[u8], changes: &[Change]| unsound(c, rule, file, changes);
    broken("1, a block twice", &BRANCH_U, &[line(1, 1, 2)]);
    broken("1, a block in a path", &BRANCH_T, &[line(1, 0, 3)]);
    broken("1, a block in a path", &BRANCH_T, &[route(0, 6, 0, 1)]);
    broken("1, a block that is an inner section", &BRANCH_T, &[line(1, 0, 2)]);
    broken("2, the same inner sections", &BRANCH_T, &[line(2, 0, 2)]);
    broken("2, the same entrance signals", &BRANCH_T, &[line(4, 0, 2)]);
    broken("3, a path section twice", &BRANCH_T, &[route(1, 6, 1, 2)]);
    broken("3, a route's point twice", &BRANCH_T, &[route(1, 9, 0, 2), route(1, 11, 1, 1)]);
    broken("3, a line's point twice", &BRANCH_U, &[line(6, 0, 2), line(7, 1, 1), line(8, 1, 1)]);
    broken("4, a path of one section", &BRANCH_T, &[route(1, 5, 0, 1)]);
    broken("4, a path of one section", &BRANCH_T, &[route(2, 1, 0, 0)]);
    broken("5, an entrance route at another signal", &BRANCH_T, &[route(1, 0, 0, 1)]);
    broken("5, an entrance route over another section first", &BRANCH_U, &[route(1, 6, 0, 0)]);
    broken("5, an entrance route of the other end", &BRANCH_T, &[route(1, 3, 0, 0)]);
    broken("5, an exit route to another section", &BRANCH_T, &[route(0, 6, 0, 3)]);
    broken("5, an exit route at an entrance signal", &BRANCH_T, &[route(0, 0, 0, 1)]);
    broken("6, the same entry signal", &BRANCH_T, &[route(2, 0, 0, 0)]);
    broken("6, a common path section", &BRANCH_T, &[plan(Conflict, 48 + 2, 0), plan(Conflict, 2 * 48 + 1, 0)]);
    broken("6, a common point in different positions", &BRANCH_U, &[route(2, 9, 0, 1), route(2, 11, 0, 2)]);
}

// The table of conflicts: 0 or 1, the same both ways, none of a route with itself.
fn conflicts(c: &mut Runs) {
    let (one, other) = (48 + 2, 2 * 48 + 1);
    unsound(c, "listed one way", &BRANCH_T, &[plan(Conflict, one, 0)]);
    unsound(c, "listed one way", &BRANCH_T, &[plan(Conflict, other, 0)]);
    unsound(c, "listed one way", &BRANCH_T, &[plan(Conflict, 1, 1)]);
    unsound(c, "neither 0 nor 1", &BRANCH_T, &[plan(Conflict, one, 2), plan(Conflict, other, 2)]);
    unsound(c, "a route with itself", &BRANCH_T, &[plan(Conflict, 0, 1)]);
    sound(c, "another pair", &BRANCH_T, &[plan(Conflict, 1, 1), plan(Conflict, 48, 1)]);
    sound(c, "past the routes", &BRANCH_T, &[plan(Conflict, 2303, 9), plan(Conflict, 3, 7)]);
}

// Changes after which the layout is sound still.
fn near_misses(c: &mut Runs) {
    let within = [
        plan(Sections, 0, 64), plan(Signals, 0, 32), plan(Points, 0, 32), plan(Routes, 0, 2), plan(PointSection, 31, 255), plan(PointSection, 1, 200),
    ];
    for change in within {
        sound(c, "a count within its range, or past a count", &BRANCH_T, &[change]);
    }
    for change in [line(1, 1, 255), line(7, 0, 99), line(8, 7, 9), route(0, 6, 1, 200), route(1, 8, 0, 77), route(1, 10, 7, 50), route(40, 5, 0, 9)] {
        sound(c, "an entry past a count", &BRANCH_T, &[change]);
    }
    let inner = [route(2, 1, 0, 0), route(2, 5, 0, 2), route(2, 6, 1, 3), route(2, 2, 0, 9), route(2, 3, 0, 7)];
    sound(c, "what an inner route has of a line", &BRANCH_T, &inner);
    sound(c, "an overlap over a block, twice", &BRANCH_T, &[route(0, 7, 0, 2), route(0, 8, 0, 1), route(0, 8, 1, 1)]);
    unsound(c, "the layout of no objects, with a section", &[], &[plan(Sections, 0, 1)]);
}

// Random changes of random layouts and of states.
fn random(c: &mut Runs, g: &mut Rng) {
    for _ in 0..60 {
        let l = gen_layout(g, true, LEVEL);
        let changes: Vec<Change> = (0..1 + g.below(2)).map(|_| any_change(g, l.routes.len())).collect();
        c.any_fitted(&encode(&l), &form(&l.fitted), &changes, &every_kind());
    }
    for _ in 0..20 {
        let (field, places, ..) = CODES[g.below(CODES.len())];
        let place = g.below(places as usize) as u16;
        c.any(&BRANCH_T, &[state(field as u8, place, g.below(6) as u8)], &[[0, 0, 0], [LAST_KIND + 1, 0, 0]]);
    }
}

// A change of any field of a layout, mostly to a small number.
fn any_change(g: &mut Rng, routes: usize) -> Change {
    let byte = if g.pct(90) { g.below(12) } else { g.below(256) } as u8;
    let place = g.below(4) as u16;
    match g.below(5) {
        0 => Change { record: 0, number: 0, field: g.below(PARTS) as u8, place, byte },
        1 | 2 => line(g.below(9) as u8, place, byte),
        _ => route(g.below(routes.max(1)) as u8, g.below(12) as u8, place, byte),
    }
}

/// All of them; the random ones hang on the seed.
pub fn all(c: &mut Runs, seed: u64) {
    let mut g = Rng(seed.wrapping_mul(0x9E3779B97F4A7C15));
    states(c);
    ranges(c);
    rules(c);
    conflicts(c);
    near_misses(c);
    distant_cases::by_hand(c);
    random(c, &mut g);
}
