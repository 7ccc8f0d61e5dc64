// Runs with lamps (L3): their numbers and codes, 31 and its place in the order, stage 3 and each way into it and out of it, openings that pass back, and
// lamps and stages by hand.
use crate::examples::{most_blocks, needed_pairs, one_section_each, version_1, BRANCH_T};
use crate::hand_cases::state;
use crate::layout::{encode, Layout, Line, Route};
use crate::lbox::{self, Var};
use crate::level::LEVEL;
use crate::records::{tables, Change, LAMP, STAGE};
use crate::run_cases::{events, BRANCH_U, P1};
use crate::runs::{form, Event, Runs};

const DONE: (u32, u32) = (0, 0);

// Codes that are no report, and such as have 1 or 2 in their lowest bytes.
const NONE: [u32; 12] = [0, 3, 4, 255, 256, 257, 258, 65_535, 65_536, 65_537, 65_538, 4_294_967_295];

// So many seconds.
fn seconds(n: usize) -> String {
    "(10 0 0)".repeat(n)
}

/// Travel on a line of so many blocks, from A to B (1) or from B to A (2). Sections: the station and the inner section at A, the blocks, the inner section
/// and two tracks of the station at B. Signals: exit and entrance at A, entrance and exit at B, then the block signals. Routes in the same order, and the
/// entrance route into the second track.
#[derive(Clone, Copy)]
struct Travel {
    blocks: usize,
    way: u8,
}

impl Travel {
    fn layout(self) -> Layout {
        let b = self.blocks + 2;
        let route = |entry: usize, kind: u8, end: usize, path: &[usize]| Route { entry, kind, end, path: path.to_vec(), ..Route::default() };
        let mut l = Layout {
            nsec: b + 3,
            nsig: 4,
            lines: vec![Line { blocks: one_section_each(2..b), inner: [1, b], ent: [1, 2], points: vec![] }],
            routes: vec![route(0, 2, 0, &[1]), route(1, 1, 0, &[1, 0]), route(2, 1, 1, &[b, b + 1]), route(3, 2, 1, &[b]), route(2, 1, 1, &[b, b + 2])],
            ..version_1()
        };
        l.conf = needed_pairs(&l);
        l
    }

    // One thing for travel from A, another for travel from B.
    fn by<T>(self, from_a: T, from_b: T) -> T {
        if self.way == 1 { from_a } else { from_b }
    }

    // The section of a block, counted in travel from 0 on; the inner section there and the one left behind; the track of the station.
    fn section(self, k: usize) -> usize {
        self.by(2 + k, 1 + self.blocks - k)
    }
    fn arrival(self) -> usize {
        self.by(self.blocks + 2, 1)
    }
    fn departure(self) -> usize {
        self.by(1, self.blocks + 2)
    }
    fn station(self) -> usize {
        self.by(self.blocks + 3, 0)
    }

    // The exit and entrance routes of the travel, and the entrance route of the end that it leaves.
    fn exit(self) -> usize {
        self.by(0, 3)
    }
    fn entrance(self) -> usize {
        self.by(2, 1)
    }
    fn behind(self) -> usize {
        self.by(1, 2)
    }

    // The far signal of a block, by its number.
    fn far(self, k: usize) -> usize {
        let last = self.blocks - 1;
        if k == last { self.by(2, 1) } else { 4 + self.by(k, last + last - 1 - k) }
    }

    // A block occupied and free; a lamp that reports.
    fn enters(self, k: usize) -> String {
        format!("(1 {} 2)", self.section(k))
    }
    fn frees(self, k: usize) -> String {
        format!("(1 {} 1)", self.section(k))
    }
    fn lamp(self, k: usize, code: u32) -> String {
        format!("(15 {} {code})", self.far(k))
    }

    // All free, the line released by hand and secured, the exit and the entrance route set. The arrival entrance signal shows another light.
    fn ready(self) -> String {
        let free: String = (0..self.blocks + 5).map(|g| format!("(1 {g} 1)")).collect();
        format!("{free}(7 0 1)(15 {} 2)(6 0 {})(4 {} 0)(4 {} 0)", self.far(self.blocks - 1), self.way, self.entrance(), self.exit())
    }

    // A train leaves into the first block, and its exit route is released.
    fn leaves(self) -> String {
        format!("(1 {} 2){}(1 {} 1)", self.departure(), self.enters(0), self.departure())
    }

    // It goes from a block into the next one, or past the arrival entrance signal; the block then reads free.
    fn goes_on(self, k: usize) -> String {
        if k + 1 < self.blocks { self.enters(k + 1) } else { format!("(1 {} 2)", self.arrival()) }
    }
    fn clears(self, k: usize) -> String {
        self.goes_on(k) + &self.frees(k)
    }

    // A train over the first blocks, so many of them.
    fn over(self, blocks: usize) -> String {
        self.leaves() + &(0..blocks).map(|k| self.clears(k)).collect::<String>()
    }

    // The train, past the arrival entrance signal, goes on into the station.
    fn arrives(self) -> String {
        format!("(1 {} 2)(1 {} 1)", self.station(), self.arrival())
    }

    // Lamps of the first blocks, in travel.
    fn lamps(self, codes: &[u32]) -> String {
        codes.iter().enumerate().map(|(k, &code)| self.lamp(k, code)).collect()
    }

    // A run after all is ready, made for the line's direction and for the stages of its blocks in travel, as the panel has them.
    fn shows(self, c: &mut Runs, label: &str, text: &str, secured: bool, stages: &str) {
        let l = self.layout();
        let run = events(&(self.ready() + text));
        c.any(&encode(&l), &[], &run);
        let s = run.iter().fold(lbox::cold(&l), |s, e| lbox::event(&l, &s, *e, &Var::at(LEVEL)).2);
        let mut held: Vec<u8> = s.ln[0].blocks.iter().map(|b| b.st).collect();
        if self.way == 2 {
            held.reverse();
        }
        let digits: String = held.iter().map(|x| x.to_string()).collect();
        let direction = if secured { self.way } else { 0 };
        assert_eq!((s.ln[0].dir, digits.as_str()), (direction, stages), "{label}, {} blocks, way {}", self.blocks, self.way);
    }

    // The same for the answers to the last events.
    fn answers(self, c: &mut Runs, label: &str, text: &str, last: &[(u32, u32)]) {
        c.made(label, &encode(&self.layout()), &events(&(self.ready() + text)), last);
    }
}

// Every travel over lines of so many blocks.
fn travels(blocks: &[usize]) -> impl Iterator<Item = Travel> + '_ {
    blocks.iter().flat_map(|&blocks| [1, 2].map(|way| Travel { blocks, way }))
}

// Signals by their numbers, the last and those past it, and codes, each told by what securing says.
fn reports(c: &mut Runs) {
    for (file, n) in [(BRANCH_T.to_vec(), 4), (BRANCH_U.to_vec(), 6), (encode(&most_blocks()), 140)] {
        let past = [n, n + 1, 144, 255, 256, 257, 258, 65_536, 65_538, 4_294_967_295].into_iter().filter(|&x| x >= n);
        let run: Vec<Event> = [0, 1, n - 1].into_iter().chain(past.clone()).map(|x| [15, x, 1]).collect();
        let last: Vec<(u32, u32)> = [DONE; 3].into_iter().chain(past.map(|x| (2, x))).collect();
        c.made("the signals that there are", &file, &run, &last);
    }
    c.made("no signal", &[1, 1, 0, 0, 0, 0, 0], &events("(15 0 1)(15 0 0)"), &[(2, 0), (2, 0)]);
    let free = "(1 0 1)(1 1 1)(1 2 1)(1 3 1)(2 0 1)(7 0 1)";
    let mut on_t = |label: &str, text: &str, last: &[(u32, u32)]| c.made(label, &BRANCH_T, &events(&format!("{free}{text}")), last);
    for code in [1, 2] {
        on_t("a lamp that reports", &format!("(15 2 {code})(6 0 1)"), &[DONE, DONE]);
    }
    for code in NONE {
        on_t("no report", &format!("(15 2 {code})(6 0 1)"), &[DONE, (31, 2)]);
        on_t("no report any more", &format!("(15 2 1)(15 2 {code})(6 0 1)(15 2 2)(6 0 1)"), &[DONE, (31, 2), DONE, DONE]);
    }
    let every: Vec<Event> = (0..140).map(|x| [15, x, [1, 2, 0, 2, 1][x as usize % 5]]).collect();
    c.any(&encode(&most_blocks()), &[], &every);
}

// 31 and its place: the arrival entrance signal's lamp alone, after 12, 11, 6 and 10.
fn dark(c: &mut Runs) {
    let free = "(1 0 1)(1 1 1)(1 2 1)(1 3 1)(1 4 1)(1 5 1)(2 0 1)(2 1 1)(7 0 1)";
    let mut on_u = |label: &str, text: &str, last: &[(u32, u32)]| c.made(label, &BRANCH_U, &events(&format!("{free}{text}")), last);
    on_u("no lamp reports", "(6 0 1)(6 0 2)", &[(31, 2), (31, 1)]);
    on_u("all but B's", "(15 0 1)(15 1 1)(15 3 1)(15 4 1)(15 5 1)(6 0 1)(6 0 2)", &[(31, 2), DONE]);
    on_u("all but A's", "(15 0 1)(15 2 2)(15 3 1)(15 4 1)(15 5 1)(6 0 2)(6 0 1)", &[(31, 1), DONE]);
    on_u("secured already, no lamp", "(15 2 1)(6 0 1)(15 2 0)(6 0 1)(6 0 2)", &[DONE, (12, 1), (12, 1)]);
    on_u("a bar first", "(8 0 1)(6 0 1)(9 0 1)(6 0 1)", &[(11, 3), DONE, (31, 2)]);
    on_u("a point first", "(2 1 0)(6 0 2)(2 1 1)(6 0 2)", &[(6, 1), DONE, (31, 1)]);
    on_u("a held block first", "(1 3 2)(6 0 1)(1 3 1)(7 0 1)(6 0 1)", &[(10, 3), DONE, DONE, (31, 2)]);
    on_u("all of them", "(8 0 0)(1 2 2)(2 1 2)(6 0 1)(9 0 0)(6 0 1)(2 1 1)(6 0 1)(1 2 1)(7 0 1)(6 0 1)", &[(6, 1), DONE, (10, 2), DONE, DONE, (31, 2)]);
    on_u("the second number first", "(6 0 0)(6 0 3)(6 1 1)", &[(3, 0), (3, 0), (2, 1)]);
    on_u("securing asks the lamp as it is then", "(15 2 1)(6 0 1)(7 0 1)(6 0 1)(7 0 1)(15 2 3)(6 0 1)", &[DONE, DONE, DONE, DONE, DONE, (31, 2)]);
    let free: String = (0..64).map(|g| format!("(1 {g} 1)")).chain((0..8).map(|k| format!("(7 {k} 1)"))).collect();
    let mut on_eight = |label: &str, text: &str, last: &[(u32, u32)]| c.made(label, &encode(&most_blocks()), &events(&format!("{free}{text}")), last);
    on_eight("the last line", "(15 14 1)(6 7 1)(15 15 2)(6 7 1)", &[DONE, (31, 15), DONE, DONE]);
    on_eight("the last line, from B", "(15 15 1)(6 7 2)(15 14 2)(6 7 2)", &[DONE, (31, 14), DONE, DONE]);
}

// A train over a line: all lamps dark, each alone dark, each alone at stop, all at stop.
fn trains(c: &mut Runs) {
    for t in travels(&[1, 2, 3, 4, 8]) {
        let n = t.blocks;
        let all = |code: &str| code.repeat(n);
        t.shows(c, "no lamp: every block waits", &t.over(n), true, &all("4"));
        t.shows(c, "until the entrance route is released", &(t.over(n) + &t.arrives()), false, &all("0"));
        t.shows(c, "all lamps at stop", &(t.lamps(&vec![1; n]) + &t.over(n)), false, &all("0"));
        t.shows(c, "all lamps at another light", &(t.lamps(&vec![2; n]) + &t.over(n)), true, &all("4"));
        for k in 0..n {
            let but = |k: usize, one: u32, others: u32| t.lamps(&(0..n).map(|i| if i == k { one } else { others }).collect::<Vec<_>>());
            // the block without its lamp waits for the next one, the block with its lamp opens those before it
            let (waits, opens) = (but(k, 0, 1), but(k, 1, 2));
            let after = |stages: String, blocks: usize| stages + if blocks < n { "2" } else { "" } + &"0".repeat(n.saturating_sub(blocks + 1));
            let last = k + 1 == n;
            t.shows(c, "one lamp dark", &(waits.clone() + &t.over(k + 1)), true, &after("0".repeat(k) + "4", k + 1));
            if !last {
                let before_last = k + 2 == n;
                let then = if before_last { all("0") } else { after("0".repeat(k + 2), k + 2) };
                t.shows(c, "and the next block opens", &(waits + &t.over(k + 2)), !before_last, &then);
            }
            t.shows(c, "one lamp at stop", &(opens + &t.over(k + 1)), !last, &if last { all("0") } else { after("0".repeat(k + 1), k + 1) });
        }
    }
}

// A block in stage 3 that is the last: what opens it and what does not.
fn last_block(c: &mut Runs) {
    for t in travels(&[1, 2]) {
        let (before, n) = ("4".repeat(t.blocks - 1), t.blocks);
        let end = |code: &str| before.clone() + code;
        let waits = t.over(n);
        let mut after = |label: &str, text: &str, secured: bool, code: &str| t.shows(c, label, &(waits.clone() + text), secured, &end(code));
        let far = t.far(n - 1);
        after("its lamp at stop later", &format!("(15 {far} 1)"), true, "4");
        after("free again", &t.frees(n - 1), true, "4");
        after("its lamp at stop, and free again", &format!("(15 {far} 1){}", t.frees(n - 1)), true, "4");
        after("occupied again", &t.enters(n - 1), true, "2");
        after("and free", &format!("(15 {far} 1){}{}", t.enters(n - 1), t.frees(n - 1)), true, "1");
        after("none", &format!("(1 {} 0)", t.section(n - 1)), true, "1");
        after("none, and free", &format!("(15 {far} 1)(1 {} 0){}", t.section(n - 1), t.frees(n - 1)), true, "1");
        after("seconds", &seconds(91), true, "4");
        after("the far section none", &format!("(1 {} 0)", t.arrival()), true, "4");
        after("a bar", "(8 0 0)(9 0 0)", true, "4");
        let cancelled = format!("(5 {} 0)", t.entrance());
        after("the entrance route cancelled", &cancelled, true, "4");
        after("89 seconds", &(cancelled.clone() + &seconds(89)), true, "4");
        let other = format!("(4 {} 0)(5 {} 0)", t.behind(), t.behind());
        after("the entrance route of the other end", &(other.clone() + &seconds(90)), true, "4");
        let gone = t.enters(n - 1) + &t.arrives();
        after("occupied, and the entrance route waits for it", &gone, true, "2");
        after("released when it reads free, the block in stage 0", &(gone + &t.frees(n - 1)), true, "1");
        after("none, and the entrance route released by its 90th second", &format!("(1 {} 0){cancelled}{}", t.section(n - 1), seconds(90)), true, "1");
        let mut opens = |label: &str, text: &str, secured: bool| t.shows(c, label, &(waits.clone() + text), secured, &"0".repeat(n));
        opens("the entrance route's 90th second", &(cancelled.clone() + &seconds(90)), false);
        opens("cancelling, and its train arrives", &(cancelled + &seconds(30) + &t.arrives()), false);
        opens("released by hand", "(7 0 3)", false);
        opens("a bar keeps the line", &format!("(8 0 0){}", t.arrives()), true);
        opens("and does so when it is cleared", &format!("(8 0 0){}(9 0 0)", t.arrives()), true);
        // the entrance route goes in the event that gives the block free
        let together = t.over(n - 1) + &t.goes_on(n - 1) + &t.arrives() + &t.frees(n - 1);
        t.shows(c, "the route released in the event that gives it free", &together, false, &"0".repeat(n));
        // the entrance route went before; another one is set and goes
        let early = format!("{}{}(5 {} 0){}{}", t.over(n - 1), t.goes_on(n - 1), t.entrance(), seconds(90), t.frees(n - 1));
        t.shows(c, "the route released before it reads free", &early, true, &end("4"));
        let again = format!("{early}(1 {} 1)(4 {} 0)(5 {} 0){}", t.arrival(), t.entrance(), t.entrance(), seconds(90));
        t.shows(c, "and another one released later", &again, false, &"0".repeat(n));
        let lit_early = format!("{}{}(15 {far} 1)(15 {far} 3){}", t.over(n - 1), t.goes_on(n - 1), t.frees(n - 1));
        t.shows(c, "a lamp that was at stop before", &lit_early, true, &end("4"));
        let lit_then = format!("{}{}(15 {far} 1){}", t.over(n - 1), t.goes_on(n - 1), t.frees(n - 1));
        t.shows(c, "a lamp that is at stop just then", &lit_then, false, &"0".repeat(n));
        let others: String = (0..4 + 2 * (n - 1)).filter(|&x| x != far).map(|x| format!("(15 {x} 1)")).collect();
        t.shows(c, "every other lamp at stop", &(others + &t.over(n)), true, &("0".repeat(n - 1) + "4"));
        for code in NONE.into_iter().chain([2]) {
            t.shows(c, "a lamp that is not at stop", &(t.lamp(n - 1, code) + &t.over(n)), true, &end("4"));
        }
        t.answers(c, "held", &format!("{waits}(6 0 1)(4 {} 0)", t.exit()), &[(12, t.way as u32), (10, t.section(0) as u32)]);
        t.answers(c, "then neutral", &format!("{waits}{}(15 1 1)(15 2 1)(6 0 {})", t.arrives(), 3 - t.way), &[DONE]);
    }
    // both entrance routes of end B, the one set and the other
    let t = Travel { blocks: 1, way: 1 };
    t.shows(c, "the route into the second track", &format!("(5 2 0){}(4 4 0){}(1 5 2)(1 3 1)", seconds(90), t.over(1)), false, "0");
    let second = format!("{}(5 2 0){}{}(1 3 1)(4 4 0)", t.leaves() + &t.goes_on(0), seconds(90), t.frees(0));
    t.shows(c, "set after the first was released", &second, true, "4");
    t.shows(c, "and released", &format!("{second}(5 4 0){}", seconds(90)), false, "0");
    let exit = format!("{}(4 0 0)", t.over(1));
    t.answers(c, "an exit route is not set", &exit, &[(10, 2)]);
}

// Openings that pass back, and where they end.
fn passing_back(c: &mut Runs) {
    for t in travels(&[2, 3]) {
        let n = t.blocks;
        // the last block opens while the train still stands in the first: that one then waits for a later opening
        let long = t.leaves() + &(0..n).map(|k| t.goes_on(k)).collect::<String>();
        let lit = t.lamps(&(0..n).map(|k| (k > 0) as u32).collect::<Vec<_>>());
        let open_first = format!("{lit}{long}{}{}", (1..n).map(|k| t.frees(k)).collect::<String>(), t.frees(0));
        t.shows(c, "the next block is open already", &open_first, true, &("4".to_string() + &"0".repeat(n - 1)));
        t.shows(c, "the entrance route released then", &(open_first.clone() + &t.arrives()), true, &("4".to_string() + &"0".repeat(n - 1)));
        // a second passage of the next block: out of the last one past the entrance signal, which is set again
        let ready = if n == 2 { format!("{}(1 {} 1)(4 {} 0)", t.arrives(), t.station(), t.entrance()) } else { String::new() };
        let later = open_first.clone() + &ready + &t.enters(1) + &t.clears(1);
        t.shows(c, "a later opening of the next", &later, n > 2, if n == 2 { "00" } else { "002" });
        t.answers(c, "no train is let in", &format!("{open_first}(4 {} 0)(7 0 1)", t.exit()), &[(10, t.section(0) as u32), DONE]);
    }
    for t in travels(&[3]) {
        let to = |codes: &[u32]| t.lamps(codes) + &t.over(3);
        t.shows(c, "from the last over all", &to(&[2, 2, 1]), false, "000");
        // first and second block occupied; the second opens by its lamp, then the first comes to stage 3
        let gap = t.lamps(&[2, 1, 2]) + &t.leaves() + &t.goes_on(0) + &t.goes_on(1) + &t.frees(1) + &t.frees(0);
        t.shows(c, "an open block before one in stage 3", &(gap.clone() + &t.clears(2)), true, "404");
        t.shows(c, "the opening of the last ends at the open block", &(gap.clone() + &t.clears(2) + &t.arrives()), true, "400");
        // the second block's wire dies in stage 3
        let dead = format!("{}(1 {} 0)", t.over(2), t.section(1));
        t.shows(c, "a block in stage 0 between", &(dead.clone() + &t.clears(2) + &t.arrives()), true, "410");
        t.shows(c, "and free again", &format!("{dead}{}{}{}", t.frees(1), t.clears(2), t.arrives()), true, "410");
        let in_1 = format!("{}{}", t.over(2), t.enters(1));
        t.shows(c, "a block in stage 1 between", &(in_1 + &t.clears(2) + &t.lamp(2, 1) + &t.arrives()), true, "420");
        // the second block still occupied in stage 2 when the last opens, then free with its lamp
        let in_2 = t.lamps(&[2, 1, 1]) + &t.leaves() + &t.clears(0) + &t.goes_on(1) + &t.clears(2);
        t.shows(c, "a block in stage 2 between", &in_2, true, "430");
        t.shows(c, "and opens by its lamp", &(in_2 + &t.frees(1)), true, "000");
    }
    for t in travels(&[4]) {
        let held = t.over(4);
        t.shows(c, "the first block occupied again", &(held.clone() + &t.enters(0) + &t.arrives()), true, "2000");
        t.shows(c, "the third none", &format!("{held}(1 {} 0){}", t.section(2), t.arrives()), true, "4410");
        let gap = t.lamps(&[2, 2, 1, 2]) + &t.over(1) + &t.goes_on(1) + &t.goes_on(2) + &t.frees(2) + &t.frees(1) + &t.clears(3);
        t.shows(c, "two before an open block", &gap, true, "4404");
        t.shows(c, "stay when the last opens", &(gap + &t.arrives()), true, "4400");
    }
    // a second train is let into the first block while the last one waits: the line stays secured when it opens
    for t in travels(&[2]) {
        let second = format!("{}{}(4 {} 0)", t.lamps(&[1, 2]), t.over(2), t.exit());
        t.shows(c, "an exit route locked", &second, true, "04");
        t.shows(c, "and the last block opens", &(second + &t.arrives()), true, "00");
    }
}

// Lines of a full layout: eight blocks, the last lamp that there is, and another line's routes.
fn lines(c: &mut Runs) {
    let l = most_blocks();
    let free: String = (0..64).map(|g| format!("(1 {g} 1)")).chain((0..8).map(|k| format!("(7 {k} 1)"))).collect();
    let lit: String = (0..16).map(|x| format!("(15 {x} 2)")).collect();
    let mut made = |label: &str, text: String, line: usize, direction: u8, stages: &str| {
        let run = events(&format!("{free}{lit}{text}"));
        c.any(&encode(&l), &[], &run);
        let s = run.iter().fold(lbox::cold(&l), |s, e| lbox::event(&l, &s, *e, &Var::at(LEVEL)).2);
        let digits: String = s.ln[line].blocks.iter().map(|b| b.st.to_string()).collect();
        assert_eq!((s.ln[line].dir, digits.as_str()), (direction, stages), "{label}");
    };
    // line 0 from A, its routes 2 into B and 1 out of A; a train over all eight blocks, and past the entrance signal
    let train: String = (3..10).map(|g| format!("(1 {g} 2)(1 {} 1)", g - 1)).collect();
    let over = format!("(6 0 1)(4 1 0)(1 0 2)(1 2 2)(1 0 1){train}(4 2 0)(1 1 2)(1 9 1)");
    made("eight blocks wait", over.clone(), 0, 1, "44444444");
    made("all eight open", format!("{over}(1 0 2)(1 1 1)"), 0, 0, "00000000");
    let other = format!("{over}(5 2 0)(1 1 1)(6 1 1)");
    made("the entrance route goes by its 90th second", format!("{other}{}", seconds(90)), 0, 0, "00000000");
    // route 6 is line 1's into B: it conflicts with route 2 until that is gone
    let early = format!("(6 0 1)(4 1 0)(1 0 2)(1 2 2)(1 0 1){train}(4 2 0)(1 1 2)(5 2 0){}(1 9 1)(1 1 1)(6 1 1)", seconds(90));
    made("waiting with no entrance route", early.clone(), 0, 1, "44444444");
    made("another line's entrance route goes", format!("{early}(4 6 0)(5 6 0){}", seconds(90)), 0, 1, "44444444");
    made("its own goes", format!("{early}(4 2 0)(5 2 0){}", seconds(90)), 0, 0, "00000000");
    // line 7 from B, its route 31 out of B: the far signal of its first block in travel is the last signal, 139
    let first = |lamp: &str| format!("{lamp}(6 7 2)(4 31 0)(1 1 2)(1 63 2)(1 1 1)(1 62 2)(1 63 1)");
    made("the last lamp", first("(15 139 1)"), 7, 2, "0000020");
    made("the last but one", first("(15 138 1)"), 7, 2, "0000024");
    made("a lamp that there is not", first("(15 140 1)"), 7, 2, "0000024");
    let train: String = (57..62).rev().map(|g| format!("(1 {g} 2)(1 {} 1)", g + 1)).collect();
    let over = format!("{}{train}(4 28 0)(1 0 2)(1 57 1)", first(""));
    made("seven blocks wait", over.clone(), 7, 2, "4444444");
    made("all seven open", format!("{over}(1 1 2)(1 0 1)"), 7, 0, "0000000");
}

// A block with heads (L1).
fn heads(c: &mut Runs) {
    let ready = "(11 2 0)(12 2 0)(11 3 0)(12 3 0)(14 1 0)(11 2 2)(12 3 2)(1 0 1)(1 2 1)(1 3 1)(2 0 1)(7 0 1)(15 2 2)(6 0 1)(4 1 0)(4 0 0)";
    let waits = format!("{ready}(1 0 2)(11 2 4)(1 0 1)(1 2 2)(12 3 4)");
    let mut made = |label: &str, text: &str, last: &[(u32, u32)]| {
        c.made_fitted(label, &BRANCH_T, &form(&[1]), &events(&format!("{waits}{text}")), last);
    };
    made("waits, held", "(4 0 0)(6 0 1)", &[(10, 1), (12, 1)]);
    made("opens by the entrance route", "(1 3 2)(1 2 1)(6 0 1)(4 0 0)", &[DONE, DONE]);
    made("an axle more: stage 1", "(11 2 5)(12 3 5)(1 3 2)(1 2 1)(4 0 0)", &[(10, 1)]);
    made("a silent head: stage 0", "(13 3 0)(11 3 0)(12 3 4)(1 3 2)(1 2 1)(4 0 0)", &[(10, 1)]);
    made("the same count again leaves it", "(12 3 4)(15 2 1)(12 3 4)(4 0 0)(1 3 2)(1 2 1)(6 0 2)", &[(10, 1), DONE, DONE, (31, 1)]);
}

// Lamps and stages by hand.
fn by_hand(c: &mut Runs) {
    let lamp = |x: u16, byte: u8| state(LAMP as u8, x, byte);
    let stage = |byte: u8| state(STAGE as u8, 0, byte);
    let mut made = |label: &str, changes: &[Change], text: &str, last: &[(u32, u32)], held: u8| {
        let run = events(text);
        let answers = c.any(&BRANCH_T, changes, &run);
        assert_eq!(&answers[answers.len() - last.len()..], last, "{label}");
        let l = crate::layout::load(&BRANCH_T, LEVEL).expect("a sound layout");
        let mut t = tables(&l, &lbox::cold(&l));
        changes.iter().for_each(|x| t[x.field as usize][x.place as usize] = x.byte);
        let s = run.iter().fold(crate::records::with_readings(&l, &t), |s, e| lbox::event(&l, &s, *e, &Var::at(LEVEL)).2);
        assert_eq!(s.ln[0].blocks[0].st, held, "{label}");
    };
    let free = "(1 0 1)(1 1 1)(1 2 1)(1 3 1)(2 0 1)";
    made("a lamp at stop", &[lamp(2, 1)], &format!("{free}(7 0 1)(6 0 1)(6 0 2)"), &[DONE, DONE, (12, 1)], 0);
    made("a lamp at another light", &[lamp(1, 2)], &format!("{free}(7 0 1)(6 0 1)(6 0 2)"), &[DONE, (31, 2), DONE], 0);
    made("lamps past the signals", &[lamp(4, 1), lamp(143, 2)], &format!("{free}(15 4 1)(7 0 1)(6 0 1)"), &[(2, 4), DONE, (31, 2)], 0);
    made("stage 2 on a neutral line", &[stage(3)], "(1 1 1)(6 0 1)", &[DONE, (10, 1)], 4);
    let lit: Vec<Change> = (0..4).map(|x| lamp(x, 1)).chain([stage(3)]).collect();
    made("the same with all lamps at stop", &lit, "(1 1 1)(6 0 1)", &[DONE, (10, 1)], 4);
    made("stage 2 on a neutral line, occupied", &lit, "(1 1 2)(1 2 0)(6 0 1)", &[DONE, DONE, (10, 1)], 3);
    made("stage 2 on a neutral line, none", &lit, "(1 1 0)", &[DONE], 1);
    made("stage 3 on a neutral line, free", &[stage(4), lamp(2, 1)], "(1 1 1)(6 0 1)", &[DONE, (10, 1)], 4);
    made("stage 3 on a neutral line, occupied", &[stage(4)], "(1 1 2)", &[DONE], 2);
    made("stage 3 on a neutral line, none", &[stage(4)], "(1 1 3)", &[DONE], 1);
    let released = format!("{free}(4 1 0)(5 1 0){}(6 0 1)", seconds(90));
    made("an entrance route released on a neutral line", &[stage(4), lamp(2, 1)], &released, &[(10, 1)], 4);
    made("stage 3 released by hand", &[stage(4)], &format!("{free}(7 0 1)(6 0 1)"), &[DONE, (31, 2)], 0);
    made("P1 from stage 3", &[stage(4)], P1, &[(5, 1)], 0);
}

/// All of them.
pub fn all(c: &mut Runs) {
    reports(c);
    dark(c);
    trains(c);
    last_block(c);
    passing_back(c);
    lines(c);
    heads(c);
    by_hand(c);
}
