// Runs for the stored archive in which one order secures a neutral line and sets an exit route (L5): from both ends of lines of 1, 2, 3 and 8 blocks, each
// refusal alone and in its order; and what is as before: lines that are secured, routes that lead onto no line, cancelling, trains, another line's blocks.
use crate::departure::{departures, reason, Departure, Reason, Told};
use crate::examples::{most_blocks, none_must_conflict_on_lines, BRANCH_T};
use crate::hand_cases::{line, state};
use crate::layout::{self, Layout};
use crate::level::LEVEL;
use crate::records::{Change, LAMP, STAGE};
use crate::run_cases::{events, BRANCH_U};
use crate::runs::Runs;

// The one order, and the two: they come to the same state, the line secured and the signal at proceed. The lamp at the end that is left is dark.
fn granted(c: &mut Runs) {
    for d in departures(&[1, 2, 3, 8]) {
        let (e, way) = (d.from(), d.way as u32);
        let [mut one, mut two, mut second] = [(); 3].map(|_| d.ready());
        let dark = format!("(15 {} 0)", 4 + e);
        one.done(&(dark.clone() + &d.order()));
        two.done(&(dark + &d.secure() + &d.order()));
        one.get("(6 0 1)(6 0 2)", (12, way));
        one.get("(3 0 1)(3 0 2)(3 2 1)", (16, 0));
        one.get(&d.order(), (4, e as u32));
        one.get("(7 0 1)", (17, e as u32));
        one.get(&d.opposite(), (9, 0));
        one.made(c, "one order");
        two.made(c, "two orders");
        let s = &one.state;
        assert!(*s == two.state && s.ln[0].dir as u32 == way && s.sig[e] == 22, "one order does what two do");
        second.done(&format!("(15 {} 2)(2 {} 2){}", 4 + d.to(), d.point(), d.second()));
        second.get(&d.secure_other(), (12, way));
        second.made(c, "from the second track, the lamp at another light");
        assert_eq!(second.state.sig[2 + e], 21);
    }
}

// Of each block at once, by what is so of one: the lowest section is answered, which is 6.
fn of_all(d: Departure, one: &dyn Fn(usize) -> Reason, then: &str) -> Reason {
    let each: Vec<Reason> = (0..d.blocks).map(one).collect();
    let away: String = each.iter().map(|r| r.away.replace("(7 0 1)", "")).collect();
    reason(each.iter().map(|r| r.put.clone()).collect(), each[0].answer.0, 6, away + then)
}

// Each refusal of securing alone; of blocks the first, the last and some between. The line stays neutral: its point can be thrown, and it can be secured
// the other way, which a manual release ends.
fn alone(c: &mut Runs) {
    for d in departures(&[1, 2, 3, 8]) {
        let blocks = (0..d.blocks).filter(|k| d.blocks < 8 || [0, 1, 4, 7].contains(k));
        let mut reasons: Vec<Reason> = blocks.flat_map(|k| [d.bar(k), d.held(k, [2, 0][k % 2])]).collect();
        reasons.extend([(0, 2), (0, 0), (2, 1), (2, 0)].map(|(p, code)| d.astray(p, code)));
        reasons.push(reason("(2 2 1)(2 0 0)".to_string(), 6, 0, "(2 2 2)(2 0 1)".to_string()));
        reasons.extend([d.dark(0), d.dark(77), of_all(d, &|k| d.bar(k), ""), of_all(d, &|k| d.held(k, [0, 2][k % 2]), "(7 0 1)")]);
        let mut told = d.ready();
        for r in reasons {
            told.done(&r.put);
            told.get(&d.order(), r.answer);
            told.done(&format!("(3 2 2){}{}(7 0 1)", r.away, d.secure_other()));
        }
        told.done(&d.order());
        told.made(c, "each alone");
    }
}

// The order of the refusals: neighbours two by two, then all at once, the first of them taken away each time.
fn in_order(c: &mut Runs) {
    for d in departures(&[1, 3]) {
        let mut told = d.ready();
        let (some, all) = (d.reasons(2), d.reasons(0));
        for reasons in some.windows(2).chain([&all[..]]) {
            reasons.iter().for_each(|r| told.done(&r.put));
            for r in reasons {
                told.get(&d.order(), r.answer);
                told.done(&r.away);
            }
        }
        // the block entered is in the overlap of the second track's route: 7, where the first one gets 10
        let held = d.held(0, 2);
        told.done(&held.put);
        told.get(&d.order(), held.answer);
        told.done(&format!("(2 {} 2)", d.point()));
        told.get(&d.second(), (7, held.answer.1));
        told.done(&(held.away + &d.second()));
        told.get(&d.secure_other(), (12, d.way as u32));
        told.made(c, "the order of the refusals");
    }
}

// A line that is secured: the other way, 9 before all that is asked of the line; the route's way, 6, 11 and 10 of the block entered, and nothing of the
// other blocks and the lamp.
fn secured(c: &mut Runs) {
    for d in departures(&[1, 3, 8]) {
        let [mut against, mut along, mut open] = [(); 3].map(|_| d.ready());
        against.done(&d.secure_other());
        for r in [d.dark(0), d.bar(d.blocks - 1), d.bar(0), d.held(0, 0), d.astray(2, 0)] {
            against.done(&r.put);
            against.get(&d.order(), (9, 0));
        }
        against.made(c, "secured the other way");
        let others: String = (1..d.blocks).map(|k| d.bar(k).put + &d.held(k, 0).put).collect();
        let secured = d.secure() + &d.dark(0).put + &others;
        along.done(&secured);
        let own = [d.astray(0, 0), d.bar(0), d.held(0, 2)];
        own.iter().for_each(|r| along.done(&r.put));
        for r in &own {
            along.get(&d.order(), r.answer);
            along.done(&r.away.replace("(7 0 1)", ""));
        }
        along.made(c, "secured the route's way");
        open.done(&(secured + &d.order()));
        open.made(c, "secured the route's way, the block entered open");
    }
}

// Entrance routes and inner routes secure nothing and ask nothing of the line.
fn no_exit(c: &mut Runs) {
    for d in departures(&[1, 3]) {
        for routes in ["(4 4 0)(4 5 0)", "(2 1 2)(2 3 2)(4 6 0)(4 7 0)"] {
            let [bar, point] = [d.bar(0), d.astray(0, 0)];
            let mut told = d.ready();
            told.done(&(d.dark(0).put + &bar.put + &point.put + routes + "(3 0 1)" + &bar.away + &point.away));
            told.get(&d.secure(), d.dark(0).answer);
            told.done(&d.secure_other());
            told.made(c, "no exit route");
        }
    }
}

// A cancelled route leaves the line secured, in its 90 seconds and after them, and is then set as on any line that is secured its way.
fn cancelled(c: &mut Runs) {
    for d in [Departure { blocks: 1, way: 1 }, Departure { blocks: 3, way: 2 }] {
        let (e, way) = (d.from() as u32, d.way as u32);
        let mut told = d.ready();
        told.done(&format!("{}(5 {e} 0)", d.order()));
        for seconds in [89, 1] {
            told.get("(6 0 1)(6 0 2)", (12, way));
            told.get("(3 0 1)", (16, 0));
            told.get(&d.order(), (4, e));
            told.get("(7 0 1)", (17, e));
            told.done(&"(10 0 0)".repeat(seconds));
        }
        told.get("(6 0 1)(6 0 2)", (12, way));
        told.get("(3 0 1)", (16, 0));
        told.get(&d.opposite(), (9, 0));
        let bars: String = (1..d.blocks).map(|k| d.bar(k).put).collect();
        told.done(&(bars + &d.dark(0).put + &d.order()));
        told.made(c, "cancelled");
    }
    let mut told = Told::on(&of(&BRANCH_T));
    told.done(&format!("{FREE_T}(7 0 1)(15 2 1)(4 0 0)(5 0 0){}(7 0 1)(15 2 0)", "(10 0 0)".repeat(90)));
    told.get("(4 0 0)", (31, 2));
    told.done("(15 2 2)(4 0 0)");
    told.made(c, "cancelled, and the line released by hand");
}

// A train runs the whole way after one order, the entrance route set before that or after it. The line is then neutral, and the order of the other end
// is granted.
fn trains(c: &mut Runs) {
    for d in departures(&[1, 2, 3, 8]) {
        let (entrance, n) = (format!("(4 {} 0)", 4 + d.to()), d.blocks);
        let mut told = d.ready();
        told.done(&d.lamps());
        told.done(&if (n + d.way) % 2 == 0 { entrance + &d.order() } else { d.order() + &entrance });
        told.done(&d.leaves());
        told.get(&d.order(), (10, d.section(0) as u32));
        told.done(&((0..n).map(|k| d.clears(k)).collect::<String>() + "(3 0 1)" + &d.arrives() + &d.opposite()));
        told.get("(6 0 1)(6 0 2)", (12, 3 - d.way as u32));
        told.get(&d.order(), (9, 0));
        told.made(c, "a train, and then the other way");
    }
}

// A second exit route of the same end: 5 while the first is locked, then by the block alone, as the line is secured. The one of the other end gets 9.
fn second(c: &mut Runs) {
    for d in departures(&[1, 2, 8]) {
        let (first, n) = (d.section(0) as u32, d.blocks);
        let mut told = d.ready();
        told.done(&(d.lamps() + &d.order()));
        told.get(&d.second(), (5, d.from() as u32));
        told.done(&format!("{}(2 {} 2)", d.leaves(), d.point()));
        told.get(&d.second(), (7, first));
        told.get(&d.opposite(), (9, 0));
        told.done(&d.clears(0));
        if n == 1 {
            // no entrance signal fell: the block is held
            told.get(&d.second(), (10, first));
        } else {
            told.done(&(d.bar(n - 1).put + &d.dark(0).put + &d.second()));
        }
        told.get(&d.secure_other(), (12, d.way as u32));
        told.made(c, "a second exit route");
    }
}

// Blocks of another line in the stages 3, 2 and 1, and an entrance route of the other end: nothing of them moves, neither by an order that is refused nor
// by one that is granted.
fn beside(c: &mut Runs) {
    for d in departures(&[2, 3]) {
        let (b, inner) = (6 + d.blocks, 9 + d.blocks);
        let free: String = (b..b + 5).map(|g| format!("(1 {g} 1)")).collect();
        let mut told = d.ready();
        told.done(&format!("{free}(7 1 1)(15 9 2)(4 8 0)(1 {inner} 2)(1 {b} 2)(1 {inner} 1)(1 {} 2)(1 {b} 1)(1 {} 2)", b + 1, b + 2));
        told.done(&format!("(4 {} 0)", 4 + d.to()));
        let before = told.state.clone();
        told.done(&d.dark(0).put);
        told.get(&d.order(), d.dark(0).answer);
        told.done(&(d.dark(0).away + &d.order()));
        told.made(c, "beside another line");
        let stages: Vec<u8> = told.state.ln[1].blocks.iter().map(|x| x.st).collect();
        assert!(stages == [4, 3, 2] && told.state.ln[1] == before.ln[1] && told.state.rt[8..] == before.rt[8..]);
        assert_eq!((told.state.ln[0].dir as usize, told.state.sig[4 + d.to()]), (d.way, 22));
    }
}

// The layout of a file; all of branch T free, and its point in position.
fn of(file: &[u8]) -> Layout {
    layout::load(file, LEVEL).expect("a sound layout")
}
const FREE_T: &str = "(1 0 1)(1 1 1)(1 2 1)(1 3 1)(2 0 1)";

// 18, 2 and 3 as before; stages by hand, which are asked, and not what the block reads.
fn numbers(c: &mut Runs) {
    let d = Departure { blocks: 2, way: 1 };
    let mut told = d.ready();
    for (text, answer) in [("(4 9 0)", (2, 9)), ("(4 9 1)", (2, 9)), ("(4 0 1)(4 1 2)(4 0 4294967295)", (3, 0))] {
        told.get(text, answer);
    }
    told.done("(3 0 1)(6 0 2)");
    told.made(c, "numbers of the order");
    let by_hand: [Change; 2] = [line(2, 0, 2), state(6, 0, 3)];
    for change in by_hand {
        let answers = c.any(&BRANCH_T, &[change], &events("(4 0 0)(4 3 0)(4 0 1)"));
        assert!(answers.iter().all(|a| *a == (18, 0)));
    }
    for stage in 0..=4 {
        let answers = c.any(&BRANCH_T, &[state(STAGE as u8, 0, stage), state(LAMP as u8, 2, 2)], &events("(1 0 1)(4 0 0)(6 0 2)"));
        assert_eq!(answers[1..], if stage == 0 { [(0, 0), (12, 1)] } else { [(10, 1), (10, 1)] });
    }
}

// Layouts of others: branches T and U, eight lines of up to eight blocks, and a line with eight points.
fn elsewhere(c: &mut Runs) {
    let mut t = Told::on(&of(&BRANCH_T));
    t.get("(4 0 0)", (8, 0));
    t.done(FREE_T);
    t.get("(4 0 0)", (10, 1));
    t.done("(7 0 1)");
    t.get("(4 0 0)", (31, 2));
    t.done("(15 2 1)(4 1 0)(4 0 0)");
    t.made(c, "P1 by one order");
    for (first, other) in [(0, 3), (3, 0)] {
        let mut u = Told::on(&of(&BRANCH_U));
        u.done(&format!("(1 0 1)(1 1 1)(1 2 1)(1 3 1)(1 4 1)(1 5 1)(2 0 1)(2 1 1)(7 0 1)(15 1 2)(15 2 1)(4 {first} 0)"));
        u.get(&format!("(4 {other} 0)"), (9, 0));
        u.made(c, "branch U");
    }
    let free: String = (0..64).map(|g| format!("(1 {g} 1)")).collect();
    let mut eight = Told::on(&most_blocks());
    eight.done(&format!("{free}(7 7 1)"));
    eight.get("(4 31 0)", (31, 14));
    eight.done("(15 14 2)(4 31 0)");
    eight.get("(4 29 0)", (9, 7));
    eight.get("(4 1 0)", (10, 2));
    eight.done("(7 0 1)(15 1 1)(4 1 0)");
    eight.made(c, "the last line and the first");
    let l = none_must_conflict_on_lines();
    let points: String = (0..32).map(|p| format!("(2 {p} {})", 1 + p % 2)).collect();
    let mut told = Told::on(&l);
    told.done(&format!("{free}{points}(7 0 1)(7 1 1)(15 1 1)(15 3 1)"));
    for &(p, position) in &l.lines[1].points {
        told.done(&format!("(2 {p} {})", 3 - position));
        told.get("(4 2 0)", (6, p as u32));
        told.done(&format!("(2 {p} {position})"));
    }
    told.done("(4 2 0)(4 0 0)");
    told.get("(4 1 0)", (9, 0));
    told.made(c, "eight points of a line, and both ends of another");
}

/// All of them.
pub fn all(c: &mut Runs) {
    granted(c);
    alone(c);
    in_order(c);
    secured(c);
    no_exit(c);
    cancelled(c);
    trains(c);
    second(c);
    beside(c);
    numbers(c);
    elsewhere(c);
}
