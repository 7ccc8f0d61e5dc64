// Runs with axle counters (L1): every refusal and its place in the order, the ends of the counts and of the number, silence, resets and their proof,
// readings that are given again, sections told that there are not, and heads changed by hand.
use crate::examples::{most_blocks, BRANCH_T};
use crate::hand_cases::{plan, state};
use crate::layout::encode;
use crate::level::LAST_KIND;
use crate::records::{Change, Part::*};
use crate::run_cases::{events, BRANCH_U, P1};
use crate::runs::{form, Event, Runs};

const DONE: (u32, u32) = (0, 0);

// Branch T with its block, section 1, fitted: heads 2 and 3. All four counts come at 0; then they are reset; then two axles go in at the one end and out at
// the other, and the block reads free.
const WOKEN: &str = "(11 2 0)(12 2 0)(11 3 0)(12 3 0)";
const RESET: &str = "(11 2 0)(12 2 0)(11 3 0)(12 3 0)(14 1 0)";
const PROVED: &str = "(11 2 0)(12 2 0)(11 3 0)(12 3 0)(14 1 0)(11 2 2)(12 3 2)";

// The rest of branch T free, its point in position; the block, which reads free, released by hand, the lamps of both entrance signals at stop, the line
// secured, the routes into B and out of A set.
const READY: &str =
    "(11 2 0)(12 2 0)(11 3 0)(12 3 0)(14 1 0)(11 2 2)(12 3 2)(1 0 1)(1 2 1)(1 3 1)(2 0 1)(7 0 1)(15 1 1)(15 2 1)(6 0 1)(4 1 0)(4 0 0)";

/// What section 1 reads, told by what a manual release of its line says of it.
#[derive(Clone, Copy)]
enum Reads {
    Free,
    Occupied,
    Nothing,
}
use Reads::*;

impl Reads {
    fn told(self) -> (u32, u32) {
        match self {
            Free => DONE,
            Occupied => (7, 1),
            Nothing => (8, 1),
        }
    }
}

impl Runs {
    // A run on branch T with fitted sections, made for the answers to its last events.
    fn on_t(&mut self, label: &str, fitted: &[usize], text: &str, last: &[(u32, u32)]) {
        self.made_fitted(label, &BRANCH_T, &form(fitted), &events(text), last);
    }

    // A run on branch T with its block fitted, after which the block reads so.
    fn block(&mut self, label: &str, text: &str, reads: Reads) {
        self.on_t(label, &[1], &format!("{text}(7 0 1)"), &[reads.told()]);
    }
}

// 1, 2, 30, 34, 3 and 35, at the ends of the numbers and in their order.
fn refusals(c: &mut Runs) {
    let text = format!("(0 0 0)({} 2 1)", LAST_KIND + 1);
    c.on_t("no such kind", &[1], &text, &[(1, 0), (1, 0)]);
    c.on_t(
        "heads 7 and 8 of four sections", &[3],
        "(11 7 0)(11 8 0)(12 8 65536)(13 8 1)(14 4 1)(14 4 0)(14 3 0)(11 4294967295 0)(14 4294967295 0)(1 4 1)",
        &[DONE, (2, 8), (2, 8), (2, 8), (2, 4), (2, 4), (35, 3), (2, 4_294_967_295), (2, 4_294_967_295), (2, 4)],
    );
    c.made_fitted(
        "heads 126 to 128 of 64 sections", &encode(&most_blocks()), &form(&[63]), &events("(11 126 7)(11 127 0)(11 125 0)(11 128 0)(14 63 0)(14 64 0)(1 63 1)"),
        &[DONE, DONE, (30, 62), (2, 128), (35, 63), (2, 64), (34, 63)],
    );
    c.on_t(
        "no heads, whatever the second number", &[],
        "(11 0 0)(11 1 65536)(12 2 0)(12 7 4294967295)(13 3 0)(13 3 1)(14 0 0)(14 0 1)(14 3 65536)",
        &[(30, 0), (30, 0), (30, 1), (30, 3), (30, 1), (30, 1), (30, 0), (30, 0), (30, 3)],
    );
    c.on_t(
        "no heads beside one that has", &[1], "(11 1 0)(12 4 0)(13 1 0)(13 4 0)(14 0 0)(14 2 0)(14 0 1)",
        &[(30, 0), (30, 2), (30, 0), (30, 2), (30, 0), (30, 2), (30, 0)],
    );
    c.on_t(
        "a reading for a section with heads, whatever the code", &[1],
        "(1 1 0)(1 1 1)(1 1 2)(1 1 3)(1 1 255)(1 1 65535)(1 1 65536)(1 1 4294967295)(1 0 1)(1 2 1)(1 4 1)",
        &[(34, 1), (34, 1), (34, 1), (34, 1), (34, 1), (34, 1), (34, 1), (34, 1), DONE, DONE, (2, 4)],
    );
    c.on_t(
        "the second number", &[1],
        "(11 2 65535)(11 2 65536)(12 3 65535)(12 3 65536)(11 3 4294967295)(13 2 1)(13 3 65535)(14 1 1)(12 2 0)(11 3 0)(14 1 2)(14 1 4294967295)(14 1 0)",
        &[DONE, (3, 0), DONE, (3, 0), (3, 0), (3, 0), (3, 0), (3, 0), DONE, DONE, (3, 0), (3, 0), DONE],
    );
    c.on_t(
        "a reset while a head is silent", &[1],
        "(14 1 0)(11 2 0)(14 1 0)(12 2 0)(14 1 0)(11 3 0)(14 1 0)(12 3 0)(14 1 0)(13 3 0)(14 1 0)(14 1 1)(12 3 0)(14 1 0)(11 3 0)(14 1 0)",
        &[
            (35, 1), DONE, (35, 1), DONE, (35, 1), DONE, (35, 1), DONE, DONE, DONE, (35, 1), (3, 0), DONE, (35, 1), DONE, DONE,
        ],
    );
}

// The number's ends, each before the reset is proved and after.
fn numbers(c: &mut Runs) {
    let ends = [
        (0, Nothing, Free), (1, Occupied, Occupied), (2, Occupied, Occupied), (254, Occupied, Occupied), (255, Occupied, Occupied), (256, Nothing, Nothing),
        (257, Nothing, Nothing), (32_767, Nothing, Nothing), (32_768, Nothing, Nothing), (32_769, Nothing, Nothing), (65_280, Nothing, Nothing),
        (65_535, Nothing, Nothing),
    ];
    for (number, unproved, proved) in ends {
        c.block("a number right after a reset", &format!("{RESET}(11 2 {number})"), unproved);
        c.block("a number of a section that is proved", &format!("{PROVED}(12 3 0)(11 2 {number})"), proved);
        let out = (65_536 - number) % 65_536;
        c.block("the same by axles out", &format!("{RESET}(12 3 {out})"), unproved);
    }
    c.block("256 and back proves nothing", &format!("{RESET}(11 2 256)(11 2 0)"), Nothing);
    c.block("-1 and back proves nothing", &format!("{RESET}(12 2 1)(11 2 1)"), Nothing);
    c.block("255 and back is proof", &format!("{RESET}(11 3 255)(11 3 0)"), Free);
    c.block("256 leaves the proof", &format!("{PROVED}(11 2 258)(11 2 2)"), Free);
    c.block("-1 leaves the proof", &format!("{PROVED}(12 3 3)(11 3 1)"), Free);
    c.block("no reset yet", &format!("{WOKEN}(11 2 1)(12 2 1)"), Nothing);
}

// Counts that roll over, each of the four and all at once.
fn round(c: &mut Runs) {
    c.block("in at 65,535 at the reset, then 1", "(11 2 65535)(12 2 0)(11 3 0)(12 3 0)(14 1 0)(11 2 1)", Occupied);
    c.block("the same two out again", "(11 2 65535)(12 2 0)(11 3 0)(12 3 0)(14 1 0)(11 2 1)(12 3 2)", Free);
    c.block("and one too many", "(11 2 65535)(12 2 0)(11 3 0)(12 3 0)(14 1 0)(11 2 1)(12 3 3)", Nothing);
    c.block("out at 65,534 at the reset, then 0", "(11 2 0)(12 2 0)(11 3 0)(12 3 65534)(14 1 0)(11 2 2)(12 3 0)", Free);
    c.block("out first, one head over the other", "(11 2 7)(12 2 65535)(11 3 65535)(12 3 9)(14 1 0)(11 3 1)(12 2 1)", Free);
    c.block("both in, both out", "(11 2 65535)(12 2 65535)(11 3 65535)(12 3 65535)(14 1 0)(11 2 0)(11 3 0)(12 3 1)", Free);
    c.block("255 around", "(11 2 65400)(12 2 0)(11 3 0)(12 3 0)(14 1 0)(11 2 119)", Occupied);
    c.block("256 around", "(11 2 65400)(12 2 0)(11 3 0)(12 3 0)(14 1 0)(11 2 120)", Nothing);
    c.block("a sum of more than 65,535", "(11 2 40000)(12 2 1)(11 3 40000)(12 3 2)(14 1 0)(11 3 40001)", Occupied);
}

// Silence, and what comes back after it.
fn silence(c: &mut Runs) {
    for head in [2, 3] {
        // what the head has told after two axles in and out
        let (told_in, told_out) = if head == 2 { (2, 0) } else { (0, 2) };
        c.block("silent", &format!("{PROVED}(13 {head} 0)"), Nothing);
        c.block("one count back", &format!("{PROVED}(13 {head} 0)(11 {head} {told_in})"), Nothing);
        c.block("the other back", &format!("{PROVED}(13 {head} 0)(12 {head} {told_out})"), Nothing);
        c.block("both back", &format!("{PROVED}(13 {head} 0)(12 {head} {told_out})(11 {head} {told_in})"), Free);
        c.block("twice silent", &format!("{PROVED}(13 {head} 0)(13 {head} 0)(11 {head} {told_in})(12 {head} {told_out})"), Free);
        c.block("silent again between", &format!("{PROVED}(13 {head} 0)(11 {head} {told_in})(13 {head} 0)(12 {head} {told_out})"), Nothing);
        c.block("back with an axle more", &format!("{PROVED}(13 {head} 0)(11 {head} {})(12 {head} {told_out})", told_in + 1), Occupied);
        c.block("back from its own start", &format!("{PROVED}(13 {head} 0)(11 {head} 0)(12 {head} 0)"), if head == 2 { Nothing } else { Occupied });
        c.block("back, reset again", &format!("{PROVED}(13 {head} 0)(11 {head} 0)(12 {head} 0)(14 1 0)"), Nothing);
    }
    c.block("both silent, both back", &format!("{PROVED}(13 2 0)(13 3 0)(11 2 2)(12 2 0)(11 3 0)(12 3 2)"), Free);
    c.block("both silent, one back", &format!("{PROVED}(13 2 0)(13 3 0)(11 2 2)(12 2 0)(11 3 0)"), Nothing);
    c.block("silent with axles in, back", "(11 2 0)(12 2 0)(11 3 0)(12 3 0)(14 1 0)(11 2 2)(13 3 0)(11 3 0)(12 3 0)", Occupied);
    c.block("a silence keeps a reset without proof", &format!("{RESET}(13 2 0)(11 2 0)(12 2 0)"), Nothing);
    c.block("and a number with a silent head proves nothing", &format!("{RESET}(13 3 0)(11 2 2)(11 2 0)(11 3 0)(12 3 0)"), Nothing);
    c.block("the event that ends the silence proves", &format!("{RESET}(13 3 0)(11 2 2)(11 3 0)(12 3 0)(12 3 2)"), Free);
}

// Resets: the section reads none until a train proves it.
fn resets(c: &mut Runs) {
    c.block("of a section that reads free", &format!("{PROVED}(14 1 0)"), Nothing);
    c.block("and proved again", &format!("{PROVED}(14 1 0)(11 3 1)(12 2 1)"), Free);
    c.block("of one that reads occupied", &format!("{RESET}(11 2 2)(14 1 0)"), Nothing);
    c.block("the axles then go out", &format!("{RESET}(11 2 2)(14 1 0)(12 3 2)"), Nothing);
    c.block("and others come in", &format!("{RESET}(11 2 2)(14 1 0)(12 3 2)(11 2 5)"), Occupied);
    c.block("of one with a number that is none", &format!("{RESET}(11 2 300)(14 1 0)(11 2 301)"), Occupied);
    c.block("twice", &format!("{RESET}(14 1 0)(14 1 0)(11 2 1)(12 2 1)"), Free);
    c.on_t("refused, it changes nothing", &[1], &format!("{PROVED}(14 1 1)(7 0 1)"), &[(3, 0), DONE]);
}

// Every accepted event of heads gives its section its reading, also one that it had.
fn given(c: &mut Runs) {
    let route_0 = |c: &mut Runs, label: &str, fitted: &[usize], text: &str, answer: (u32, u32)| {
        c.on_t(label, fitted, &format!("{READY}{text}(5 0 0)"), &[answer]);
    };
    route_0(c, "one more axle into the block releases route 0", &[1], "(11 2 4)(1 0 2)(11 2 5)(1 0 1)", (13, 0));
    route_0(c, "the same count again too", &[1], "(11 2 4)(1 0 2)(11 2 4)(1 0 1)", (13, 0));
    route_0(c, "and one axle out", &[1], "(11 2 4)(1 0 2)(12 2 1)(1 0 1)", (13, 0));
    route_0(c, "no count", &[1], "(11 2 4)(1 0 2)(1 0 1)", DONE);
    route_0(c, "a reading is refused and gives nothing", &[1], "(11 2 4)(1 0 2)(1 1 2)(1 0 1)", DONE);
    route_0(c, "a count above 65,535 gives nothing", &[1], "(11 2 4)(1 0 2)(11 2 65536)(1 0 1)", DONE);
    route_0(c, "none in between starts it afresh", &[1], "(11 2 4)(1 0 2)(11 2 5)(13 3 0)(11 3 0)(12 3 2)(1 0 1)", DONE);
    let other = "(11 6 0)(12 6 0)(11 7 0)(12 7 0)(14 3 0)(11 6 1)(12 6 1)";
    let both = format!("{PROVED}{other}(1 0 1)(1 2 1)(2 0 1)(7 0 1)(15 2 1)(6 0 1)(4 1 0)(4 0 0)(11 2 4)(1 0 2)(11 6 2)(1 0 1)(5 0 0)");
    c.on_t("a count of another section gives the block nothing", &[1, 3], &both, &[DONE]);
    let of_block = |c: &mut Runs, label: &str, text: &str, last: &[(u32, u32)]| c.on_t(label, &[1], &format!("{READY}{text}"), last);
    of_block(c, "a train by counts", "(1 0 2)(11 2 4)(1 0 1)(1 2 2)(12 3 3)(1 3 2)(12 3 4)(6 0 2)", &[DONE]);
    of_block(c, "free before the far section", "(1 0 2)(11 2 4)(12 3 4)(1 0 1)(1 2 2)(6 0 2)", &[(12, 1)]);
    of_block(c, "a wire lost under the train", "(1 0 2)(11 2 4)(1 0 1)(13 3 0)(1 2 2)(11 3 0)(12 3 4)(6 0 2)(7 0 3)", &[(12, 1), DONE]);
    of_block(c, "a reset under the train", "(1 0 2)(11 2 4)(1 0 1)(14 1 0)(1 2 2)(12 3 4)(6 0 2)(7 0 3)", &[(12, 1), (8, 1)]);
    of_block(c, "none again while none", "(13 2 0)(13 2 0)(11 2 2)(5 0 0)", &[DONE]);
    of_block(c, "an axle seen too often keeps the block held", "(1 0 2)(11 2 4)(1 0 1)(1 2 2)(12 3 5)(6 0 2)", &[(12, 1)]);
}

/// Woken, reset and proved, each of these sections by two axles in at its first end and out at its second.
pub fn proved(sections: impl Iterator<Item = u32>) -> Vec<Event> {
    let of = |g: u32| [[11, 2 * g, 0], [12, 2 * g, 0], [11, 2 * g + 1, 0], [12, 2 * g + 1, 0], [14, g, 0], [11, 2 * g, 2], [12, 2 * g + 1, 2]];
    sections.flat_map(of).collect()
}

// Every section has heads.
fn everywhere(c: &mut Runs) {
    let mut run = proved(0..4);
    run.extend(events("(2 0 1)(7 0 1)(15 1 1)(15 2 1)(6 0 1)(4 1 0)(4 0 0)(11 0 4)(11 2 4)(12 1 4)(11 4 4)(12 3 4)(11 6 4)(12 5 4)(5 0 0)(5 1 0)(6 0 2)"));
    c.made_fitted("a train over branch T", &BRANCH_T, &form(&[0, 1, 2, 3]), &run, &[(13, 0), (13, 1), DONE]);
    let mut run = proved(0..6);
    run.extend(events("(2 0 1)(2 1 1)(7 0 1)(15 2 1)(15 4 1)(6 0 1)(4 0 0)(11 2 4)(11 4 4)(12 3 4)(13 4 0)(11 6 4)(11 4 4)(12 4 0)(12 5 4)(6 0 2)(1 1 1)"));
    c.made_fitted("a train over branch U", &BRANCH_U, &form(&[5, 4, 3, 2, 1, 0]), &run, &[(12, 1), (34, 1)]);
    let mut run = proved([0, 1, 2, 9, 62, 63].into_iter());
    run.extend(events("(7 7 1)(7 0 1)(14 62 0)(13 127 0)(14 63 0)"));
    let every: Vec<usize> = (0..64).collect();
    c.made_fitted("64 sections", &encode(&most_blocks()), &form(&every), &run, &[(8, 57), (8, 3), DONE, DONE, (35, 63)]);
}

// What is told: in any order, more than once, of sections that there are not, and files that are no numbers.
fn told(c: &mut Runs) {
    let every_kind: Vec<Event> = (0..=LAST_KIND + 1).map(|kind| [kind, 0, 0]).collect();
    let lacking: [&[usize]; 8] = [&[4], &[5], &[63], &[64], &[65_535], &[1, 4], &[4, 1], &[0, 1, 2, 3, 64]];
    for fitted in lacking {
        let answers = c.any_fitted(&BRANCH_T, &form(fitted), &[], &every_kind);
        assert!(answers.iter().all(|a| *a == (18, 0)), "{fitted:?} are not all there");
    }
    let answers = c.any_fitted(&encode(&most_blocks()), &form(&[64]), &[], &every_kind);
    assert!(answers.iter().all(|a| *a == (18, 0)), "64 is lacking of 64");
    c.any_fitted(&BRANCH_T[..48], &form(&[0]), &[], &every_kind);
    let asked = events("(1 1 1)(11 2 0)(1 3 1)(11 6 0)(1 0 1)");
    let heads = [(34, 1), DONE, (34, 3), DONE, DONE];
    for fitted in [&[1, 3][..], &[3, 1], &[1, 1, 3], &[3, 3, 1, 3]] {
        c.made_fitted("in any order, told more than once", &BRANCH_T, &form(fitted), &asked, &heads);
    }
    let none = [DONE, (30, 1), DONE, (30, 3), DONE];
    let bad: [&[u8]; 9] = [
        &[0x80], &[1, 0x81], &[1, 0x80, 0x80], &[0x81, 0], &[3, 0x80, 0x80, 0], &[1, 0x80, 0x80, 4], &[0xff, 0xff, 0x7f], &[1, 3, 0x80, 0x80, 0x80, 1],
        &[1, 0xff, 0xff, 0xff],
    ];
    for file in bad {
        c.made_fitted("no number: the layout as it was", &BRANCH_T, file, &asked, &none);
    }
}

// The sixteen bytes of section g's heads by hand: axles in and out of both, whether they have come, the sum at the last reset, and its proof.
fn heads(g: u16, counts: [u16; 4], come: [u8; 4], sum: u16, proof: u16) -> Vec<Change> {
    let [a, b, d, e] = counts.map(u16::to_le_bytes);
    let [s, p] = [sum, proof].map(u16::to_le_bytes);
    let bytes = [a[0], a[1], b[0], b[1], come[0], come[1], d[0], d[1], e[0], e[1], come[2], come[3], s[0], s[1], p[0], p[1]];
    bytes.into_iter().enumerate().map(|(k, byte)| state(9, 16 * g + k as u16, byte)).collect()
}

// Records by hand. What a section reads need not be what its heads say: no code is outside its range, and the next event of the heads gives what they say.
fn by_hand(c: &mut Runs) {
    let mut made = |label: &str, fitted: &[usize], changes: &[Change], text: &str, last: &[(u32, u32)]| {
        let answers = c.any_fitted(&BRANCH_T, &form(fitted), changes, &events(text));
        assert_eq!(&answers[answers.len() - last.len()..], last, "{label}");
    };
    let free = [state(0, 1, 1)];
    made("free by hand with silent heads", &[1], &free, "(7 0 1)(14 1 0)(11 2 0)(7 0 1)", &[DONE, (35, 1), DONE, (8, 1)]);
    let occupied: Vec<Change> = heads(1, [5, 1, 0, 4], [1; 4], 0, 2).into_iter().chain([state(0, 1, 2)]).collect();
    made("occupied by hand, its number 0", &[1], &occupied, "(7 0 1)(11 2 5)(7 0 1)", &[(7, 1), DONE, DONE]);
    made("none by hand, its number 1", &[1], &heads(1, [6, 1, 0, 4], [1; 4], 0, 2), "(7 0 1)(12 3 4)(7 0 1)(12 3 5)(7 0 1)", &[(8, 1), DONE, (7, 1), DONE, DONE]);
    made("the sum of a reset that was not", &[1], &heads(1, [7, 0, 0, 0], [1; 4], 9, 0), "(12 3 1)(7 0 1)(14 1 0)(11 2 8)(7 0 1)", &[DONE, (8, 1), DONE, DONE, (7, 1)]);
    for flag in [0, 2, 255] {
        for k in 0..4 {
            let mut come = [1; 4];
            come[k] = flag;
            made("a flag that is not 1", &[1], &heads(1, [1; 4], come, 0, 2), "(14 1 0)(7 0 1)", &[(35, 1), (8, 1)]);
        }
    }
    for proof in [0, 1, 3, 258, 65_535] {
        let reads = if proof == 1 { DONE } else { (8, 1) };
        let text = "(11 2 1)(7 0 1)(14 1 0)(11 2 2)(7 0 1)(12 2 1)(7 0 1)";
        let last = if proof == 1 { (7, 1) } else { reads };
        made("a proof by hand", &[1], &heads(1, [0; 4], [1; 4], 0, proof), text, &[last, DONE, DONE, (7, 1), DONE, DONE]);
    }
    let others: Vec<Change> = heads(0, [65_535; 4], [1, 255, 7, 1], 65_535, 2).into_iter().chain(heads(63, [1; 4], [9; 4], 1, 77)).collect();
    made("heads of a section without heads, and past the sections", &[1], &others, &format!("{PROVED}(11 0 0)(14 0 0)(1 0 1)(7 0 1)"), &[(30, 0), (30, 0), DONE, DONE]);
    made("the same with no section fitted", &[], &others, P1, &[(5, 1)]);
}

// The layout's table of heads by hand: 0 or 1 for each of its sections, and whether one is lacking.
fn tables_by_hand(c: &mut Runs) {
    let asked = events("(0 0 0)(1 3 1)(11 6 0)(11 8 0)(14 0 0)");
    let mut made = |label: &str, changes: &[Change], last: &[(u32, u32)]| {
        assert_eq!(c.any_fitted(&BRANCH_T, &form(&[1]), changes, &asked), last, "{label}");
    };
    let unsound = [(18, 0); 5];
    let heads = [(0, 2), (3, 2), (3, 255), (1, 2)].map(|(place, byte)| plan(Fitted, place, byte));
    for change in heads.into_iter().chain([1, 2, 255].map(|byte| plan(Lacking, 0, byte))) {
        made("neither 0 nor 1, or lacking", &[change], &unsound);
    }
    made("fitted by hand", &[plan(Fitted, 3, 1)], &[(1, 0), (34, 3), DONE, (2, 8), (30, 0)]);
    made("its heads taken by hand", &[plan(Fitted, 1, 0)], &[(1, 0), DONE, (30, 3), (2, 8), (30, 0)]);
    made("past the sections", &[plan(Fitted, 4, 1), plan(Fitted, 63, 255)], &[(1, 0), DONE, (30, 3), (2, 8), (30, 0)]);
    made("past the sections, which are then more", &[plan(Fitted, 4, 2), plan(Sections, 0, 5)], &unsound);
    made("and fitted", &[plan(Fitted, 4, 1), plan(Sections, 0, 5)], &[(1, 0), DONE, (30, 3), DONE, (30, 0)]);
}

/// All of them.
pub fn all(c: &mut Runs) {
    refusals(c);
    numbers(c);
    round(c);
    silence(c);
    resets(c);
    given(c);
    everywhere(c);
    told(c);
    by_hand(c);
    tables_by_hand(c);
}
