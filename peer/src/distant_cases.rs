// Distants (L2): the ends of the list and of its numbers in a layout file, records with distants by hand, and runs on layouts that have some.
use crate::cases::{changed, Cases};
use crate::examples::*;
use crate::hand_cases::{every_kind, line, plan, sound, unsound};
use crate::layout::{self, encode, Layout, Line};
use crate::level::LEVEL;
use crate::records::{Change, Part::*};
use crate::run_cases::{refusals, section_8, BRANCH_U};
use crate::runs::{form, Runs};

// A layout in version 2 with these distants: carrier and announced signal.
fn with(l: &Layout, distants: &[(usize, usize)]) -> Layout {
    changed(l, |l| (l.ver, l.dist) = (2, distants.to_vec()))
}

// The layout of a file.
fn of(file: &[u8]) -> Layout {
    layout::load(file, LEVEL).expect("a sound layout")
}

// Lines with so many blocks each, so many signals, and no routes.
fn lines(blocks: &[usize], signals: usize) -> Layout {
    let mut l = Layout { nsec: 2 + blocks.iter().sum::<usize>(), nsig: signals, ..version_1() };
    let mut first = 2;
    for (k, n) in blocks.iter().enumerate() {
        l.lines.push(Line { blocks: one_section_each(first..first + n), inner: [0, 1], ent: [2 * k, 2 * k + 1], points: vec![] });
        first += n;
    }
    l
}

// Where the list of distants begins in a layout's file: nothing but the numbers of distants, routes and pairs stands behind that place, where there are none.
fn place(l: &Layout) -> usize {
    encode(&changed(l, |l| (l.ver, l.dist, l.routes, l.conf) = (2, vec![], vec![], vec![]))).len() - 3
}

// A file with these distants, of which the last has a carrier (0) or announces a signal (1) that there is not.
fn no_signal(c: &mut Cases, l: &Layout, distants: &[(usize, usize)], which: usize) {
    let numbers: Vec<usize> = distants.iter().flat_map(|d| [d.0, d.1]).collect();
    let before = form(&numbers[..numbers.len() - 2 + which]).len();
    c.made("no such signal", &encode(&with(l, distants)), 24, place(l) + 1 + before);
}

// Carrier and announced signal at the first and last main signal, the first and last block signal, and past them, alone and as the last of 32.
fn ends(c: &mut Cases, l: &Layout) {
    let n = l.all_sigs();
    for others in [0, 31] {
        let last = |carrier: usize, announced: usize| [vec![(0, 0); others], vec![(carrier, announced)]].concat();
        for carrier in [0, 1, l.nsig, l.nsig + 1, n].into_iter().filter(|&x| x <= n) {
            c.sound("a carrier", &with(l, &last(carrier, if carrier == 1 { n - 1 } else { 0 })));
        }
        for announced in [0, l.nsig - 1, l.nsig, n - 1].into_iter().filter(|&x| x < n) {
            c.sound("an announced signal", &with(l, &last(0, announced)));
        }
        for more in [0, 1, 256 - n, 65_535 - n] {
            no_signal(c, l, &last(0, n + more), 1);
        }
        for more in [1, 2, 256 - n, 65_535 - n] {
            no_signal(c, l, &last(n + more, 0), 0);
        }
    }
}

// How many distants there are, and that the list is read to its end before what follows.
fn list(c: &mut Cases) {
    let t = of(&BRANCH_T);
    for n in [0, 1, 2, 31, 32] {
        c.sound("so many distants", &with(&t, &vec![(1, 3); n]));
    }
    c.made("33 distants", &encode(&with(&t, &[(1, 3); 33])), 23, place(&t));
    let long = with(&most_blocks(), &[(140, 128), (0, 139)]);
    let (file, start) = (encode(&long), place(&long));
    for (end, at) in [(0, 0), (1, 1), (2, 1), (3, 3), (4, 3), (5, 5), (6, 6), (7, 6), (8, 8)] {
        c.made("cut in the list", &file[..start + end], 21, start + at);
    }
    let file = encode(&with(&t, &[(0, 2), (1, 2)]));
    for count in [0, 1, 3, 4, 32] {
        c.any(&[&file[..place(&t)], &[count], &file[place(&t) + 1..]].concat());
    }
    no_signal(c, &t, &[(0, 2), (5, 4)], 0);
    let bad_route = changed(&t, |l| l.routes[0].entry = 9);
    no_signal(c, &bad_route, &[(0, 2), (0, 4)], 1);
    c.made("a fault of a route after the list", &encode(&with(&bad_route, &[(0, 2)])), 24, place(&t) + 4);
}

// The shortest files: no signal to carry or to be announced, one signal, and files that have the list of the other version.
fn shortest(c: &mut Cases) {
    c.made("no signal and no distant", &[2, 1, 0, 0, 0, 0, 0, 0], 0, 0);
    c.made("no signal that a free-standing distant could announce", &[2, 1, 0, 0, 0, 1, 0, 0, 0, 0], 24, 7);
    c.made("the same, cut before the announced signal", &[2, 1, 0, 0, 0, 1, 0], 21, 7);
    c.made("no signal that could carry one", &[2, 1, 0, 0, 0, 1, 1, 0, 0, 0], 24, 6);
    c.made("one signal", &[2, 1, 0, 1, 0, 1, 0, 0, 0, 0], 0, 0);
    c.made("one signal that announces itself", &[2, 1, 0, 1, 0, 1, 1, 0, 0, 0], 25, 7);
    c.made("version 2 without the list", &[2, 1, 0, 0, 0, 0, 0], 21, 7);
    c.made("version 1 with the list", &[1, 1, 0, 0, 0, 0, 0, 0], 26, 7);
    c.made("version 3", &[3, 1, 0, 0, 0, 0, 0, 0], 23, 0);
}

// The longest file, and faults at the far end of its list.
fn far_end(c: &mut Cases) {
    let l = longest();
    let file = encode(&l);
    assert_eq!((file.len(), l.all_sigs()), (4363, 130));
    c.made("the longest file", &file, 0, 0);
    c.made("the longest file and a byte more", &[&file[..], &[0]].concat(), 26, 4363);
    c.made("its last byte missing", &file[..4362], 21, 4362);
    c.breaks("its last distant announces its own carrier", &changed(&l, |l| l.dist[31].1 = 129), 7);
    no_signal(c, &l, &[&l.dist[..31], &[(130, 130)]].concat(), 1);
    no_signal(c, &l, &[&l.dist[..31], &[(131, 128)]].concat(), 0);
}

/// Layout files.
pub fn files(c: &mut Cases) {
    // Signals: 4; 6 and of three lines 4, 0 and 2; 127 and 128, the last of one byte and the first of two; 140, the most.
    let eight = [8; 6];
    let most = [&eight[..], &[7, 7]].concat();
    let less = [&eight[..], &[7, 1]].concat();
    for l in [of(&BRANCH_T), lines(&[3, 1, 2], 6), lines(&less, 31), lines(&less, 32), lines(&most, 32)] {
        ends(c, &l);
    }
    list(c);
    shortest(c);
    far_end(c);
}

// Whether records are sound.
type Test = fn(&mut Runs, &str, &[u8], &[Change]);

// Version 2 by hand with so many distants, some of them with place, carrier and announced signal; the others stand free and announce signal 0.
fn listed(count: u8, some: &[(u16, u8, u8)]) -> Vec<Change> {
    let entries = some.iter().flat_map(|&(place, carrier, announced)| [plan(Carrier, place, carrier), plan(Announced, place, announced)]);
    [plan(Version, 0, 2), plan(Distants, 0, count)].into_iter().chain(entries).collect()
}

// Versions, and how many distants there are.
fn counts_by_hand(c: &mut Runs) {
    for version in [0, 3, 255] {
        unsound(c, "no such version", &BRANCH_T, &[plan(Version, 0, version)]);
    }
    for count in [1, 32, 255] {
        unsound(c, "version 1 with distants", &BRANCH_T, &[plan(Distants, 0, count)]);
    }
    for count in [33, 255] {
        unsound(c, "more than 32 distants", &BRANCH_T, &listed(count, &[]));
    }
    for count in [0, 1, 31, 32] {
        sound(c, "so many distants", &BRANCH_T, &listed(count, &[]));
    }
    for (count, place) in [(0, 0), (0, 31), (1, 1), (31, 31)] {
        sound(c, "entries past the count", &BRANCH_T, &listed(count, &[(place, 255, 255)]));
    }
    sound(c, "entries of version 1", &BRANCH_T, &[plan(Carrier, 0, 1), plan(Announced, 31, 99)]);
    let loaded = encode(&with(&of(&BRANCH_T), &[(0, 2), (1, 2)]));
    sound(c, "one distant less", &loaded, &[plan(Distants, 0, 1)]);
    sound(c, "no distant and version 1", &loaded, &[plan(Distants, 0, 0), plan(Version, 0, 1)]);
    unsound(c, "version 1 with the distants of a file", &loaded, &[plan(Version, 0, 1)]);
    for version in [1, 2] {
        sound(c, "the layout of no objects, with a version and a section", &[], &[plan(Version, 0, version), plan(Sections, 0, 1)]);
    }
    unsound(c, "the layout of no objects, with a version", &[], &[plan(Version, 0, 1)]);
}

// Carriers and announced signals by hand, at the first and last entry, on layouts with so many signals; and rule 7.
fn numbers_by_hand(c: &mut Runs) {
    for (file, n) in [(BRANCH_T.to_vec(), 4), (BRANCH_U.to_vec(), 6), (encode(&most_blocks()), 140)] {
        for place in [0, 31] {
            let mut one = |carrier: u8, announced: u8, is: bool| {
                let test: Test = if is { sound } else { unsound };
                test(c, "a carrier and an announced signal", &file, &listed(32, &[(place, carrier, announced)]));
            };
            for (carrier, announced) in [(n, 0), (n, n - 2), (0, n - 1), (n - 1, n - 1), (1, 1)] {
                one(carrier, announced, true);
            }
            for (carrier, announced) in [(n + 1, 0), (n + 1, n), (255, 0), (0, n), (n, n), (0, 255), (1, 0), (n, n - 1), (n / 2, n / 2 - 1)] {
                one(carrier, announced, false);
            }
        }
    }
    let announces = |signal: u8| listed(1, &[(0, 0, signal)]);
    for (signal, test) in [(3, sound as Test), (4, unsound), (5, unsound)] {
        test(c, "one block less", &BRANCH_U, &[&announces(signal)[..], &[line(0, 0, 1)]].concat());
        test(c, "no line", &BRANCH_U, &[&announces(signal)[..], &[plan(Lines, 0, 0), plan(Routes, 0, 0)]].concat());
    }
    for (signal, test) in [(6, sound as Test), (7, unsound)] {
        test(c, "one main signal more", &BRANCH_U, &[&announces(signal)[..], &[plan(Signals, 0, 5)]].concat());
    }
}

/// Records by hand.
pub fn by_hand(c: &mut Runs) {
    counts_by_hand(c);
    numbers_by_hand(c);
}

/// Runs on layouts with distants: what is answered is what is answered without them.
pub fn runs(c: &mut Runs) {
    let t = encode(&with(&of(&BRANCH_T), &[(0, 2), (1, 2), (0, 3), (3, 0)]));
    let u = encode(&with(&of(&BRANCH_U), &[(0, 1), (1, 4), (5, 1), (6, 0), (3, 5)]));
    section_8(c, &t);
    refusals(c, &t, &u);
    for distant in [(1, 0), (7, 0), (0, 6)] {
        let file = encode(&with(&of(&BRANCH_U), &[distant]));
        let answers = c.any(&file, &[], &every_kind());
        assert!(answers.iter().all(|a| *a == (18, 0)), "a file that is refused");
    }
}
