// Each clause of rules 1 to 7 broken, rules broken together, and near misses that are sound.
use crate::cases::{changed, Cases};
use crate::examples::{every_pair, needed_pairs, one_section_each, version_1};
use crate::layout::{encode, Layout, Line, Route};

// Two lines end to end over a station between them, with a route of each kind at each end, and a third line without routes.
// Line 0: inner 0, blocks 1 2, inner 3. Line 1: inner 6, blocks 7 8 9, inner 10. Line 2: inner 13, blocks 15 16, inner 14.
// Station tracks: 11 west, 4 and 5 between the lines, 12 east. 17 and 18 lie beyond. Entrance signals are 0 to 5.
fn two_lines() -> Layout {
    let line = |blocks: &[usize], inner, ent, points: &[(usize, u8)]| Line {
        blocks: one_section_each(blocks.to_vec()),
        inner,
        ent,
        points: points.to_vec(),
    };
    let route = |entry, kind, line, end, path: &[usize], points: &[(usize, u8)]| Route {
        entry,
        kind,
        line,
        end,
        path: path.to_vec(),
        points: points.to_vec(),
        ..Route::default()
    };
    let mut l = Layout { nsec: 20, own: vec![0, 3, 6, 10, 13, 17], nsig: 16, ..version_1() };
    l.lines = vec![
        line(&[1, 2], [0, 3], [0, 1], &[(4, 2)]),
        line(&[7, 8, 9], [6, 10], [2, 3], &[]),
        line(&[15, 16], [13, 14], [4, 5], &[(4, 1), (5, 2)]),
    ];
    l.routes = vec![
        route(0, 1, 0, 0, &[0, 11], &[(0, 1)]),
        route(6, 2, 0, 0, &[0], &[(0, 1)]),
        route(1, 1, 0, 1, &[3, 4], &[(1, 1)]),
        route(1, 1, 0, 1, &[3, 5], &[(1, 2)]),
        route(7, 2, 0, 1, &[4, 3], &[(1, 1)]),
        route(2, 1, 1, 0, &[6, 4], &[(2, 1)]),
        route(8, 2, 1, 0, &[5, 6], &[(2, 2)]),
        route(3, 1, 1, 1, &[10, 12], &[(3, 1)]),
        route(9, 2, 1, 1, &[10], &[]),
        route(10, 0, 0, 0, &[11, 17], &[]),
        route(11, 0, 0, 0, &[12, 18], &[(5, 1)]),
    ];
    l.conf = needed_pairs(&l);
    l
}

// The two lines with one change that breaks a rule, and none before it.
fn broken(c: &mut Cases, rule: usize, label: &str, change: impl FnOnce(&mut Layout)) {
    c.breaks(label, &changed(&two_lines(), change), rule);
}

// The two lines with one change that breaks no rule.
fn sound(c: &mut Cases, label: &str, change: impl FnOnce(&mut Layout)) {
    c.sound(label, &changed(&two_lines(), change));
}

// The two lines with one change, and the pairs listed that it asks for.
fn listed(c: &mut Cases, label: &str, change: impl FnOnce(&mut Layout)) {
    let l = changed(&two_lines(), change);
    c.sound(label, &changed(&l, |m| m.conf = needed_pairs(m)));
}

fn rule_1(c: &mut Cases) {
    for blocks in [[7, 7, 9], [7, 8, 7], [7, 8, 8]] {
        broken(c, 1, "a block twice in one line", |l| l.lines[1].blocks = one_section_each(blocks));
    }
    for (line, place, block) in [(2, 0, 1), (2, 1, 2), (2, 0, 9), (0, 1, 16), (1, 2, 15), (0, 0, 7)] {
        broken(c, 1, "a block of two lines", |l| l.lines[line].blocks[place] = vec![block]);
    }
    let over_blocks = [(9, vec![15, 17]), (9, vec![11, 16]), (9, vec![11, 2, 17]), (7, vec![10, 15]), (6, vec![15, 6]), (4, vec![9, 4, 3])];
    for (route, path) in over_blocks {
        broken(c, 1, "a block in a path", |l| l.routes[route].path = path);
    }
    for inner in [[15, 14], [16, 14], [13, 15], [13, 16], [1, 14], [9, 14], [13, 2], [13, 7]] {
        broken(c, 1, "a block as inner section, of its own line or another", |l| l.lines[2].inner = inner);
    }
    for (line, block) in [(0, 13), (0, 14), (1, 0), (1, 3), (2, 6), (2, 10)] {
        broken(c, 1, "an inner section as block of another line", |l| l.lines[line].blocks[0] = vec![block]);
    }
}

fn rule_2(c: &mut Cases) {
    broken(c, 2, "inner sections the same", |l| l.lines[2].inner = [13, 13]);
    broken(c, 2, "inner sections the same at the first line", |l| l.lines[0].inner = [3, 3]);
    for signals in [[4, 4], [0, 5], [1, 5], [4, 0], [4, 1], [2, 5], [4, 3]] {
        broken(c, 2, "an entrance signal twice", |l| l.lines[2].ent = signals);
    }
    sound(c, "entrance signals the other way round", |l| l.lines[2].ent = [15, 14]);
    sound(c, "an inner section of two lines", |l| l.lines[2].inner = [13, 0]);
    sound(c, "both inner sections of two lines", |l| l.lines[2].inner = [10, 6]);
}

fn rule_3(c: &mut Cases) {
    for path in [vec![11, 11], vec![11, 17, 11], vec![11, 17, 17], vec![11, 17, 18, 19, 4, 5, 12, 11]] {
        broken(c, 3, "a section twice in an inner route's path", |l| l.routes[9].path = path);
    }
    for (route, path) in [(0, [0, 11, 11]), (0, [0, 11, 0]), (7, [10, 10, 12]), (6, [5, 5, 6]), (4, [3, 4, 3])] {
        broken(c, 3, "a section twice in a path", |l| l.routes[route].path = path.to_vec());
    }
    let twice = [vec![(4, 1), (4, 1)], vec![(4, 1), (4, 2)], vec![(4, 2), (5, 1), (4, 1)], vec![(5, 1), (4, 2), (4, 2)]];
    for points in twice {
        let again = points.clone();
        broken(c, 3, "a point twice in an inner route", |l| l.routes[9].points = points.clone());
        broken(c, 3, "a point twice in an exit route", |l| l.routes[8].points = points.clone());
        broken(c, 3, "a point twice in a line", |l| l.lines[2].points = points);
        broken(c, 3, "a point twice in the first line", |l| l.lines[0].points = again);
    }
}

fn rule_4(c: &mut Cases) {
    for (route, section) in [(0, 0), (2, 3), (5, 6), (7, 10)] {
        broken(c, 4, "an entrance route with one path section", |l| l.routes[route].path = vec![section]);
    }
    for (route, section) in [(9, 17), (10, 18)] {
        broken(c, 4, "an inner route with one path section", |l| l.routes[route].path = vec![section]);
    }
    sound(c, "an exit route with one path section", |l| l.routes[4].path = vec![3]);
}

fn rule_5(c: &mut Cases) {
    for (route, entry) in [(0, 1), (0, 2), (0, 4), (0, 12), (7, 2), (7, 1), (7, 5), (7, 12)] {
        broken(c, 5, "an entrance route starts at another signal", |l| l.routes[route].entry = entry);
    }
    let starts = [(0, [11, 0]), (0, [3, 11]), (0, [6, 11]), (0, [17, 11]), (7, [12, 10]), (7, [6, 12]), (7, [3, 12]), (7, [18, 12])];
    for (route, path) in starts {
        broken(c, 5, "an entrance route starts at another section", |l| l.routes[route].path = path.to_vec());
    }
    let ends = [(6, [6, 5]), (6, [5, 10]), (6, [5, 3]), (6, [5, 17]), (4, [3, 4]), (4, [4, 0]), (4, [4, 6]), (4, [4, 18])];
    for (route, path) in ends {
        broken(c, 5, "an exit route ends at another section", |l| l.routes[route].path = path.to_vec());
    }
    for (route, section) in [(1, 3), (1, 11), (8, 6), (8, 12)] {
        broken(c, 5, "an exit route over one other section", |l| l.routes[route].path = vec![section]);
    }
    for route in [0, 1, 6, 7] {
        broken(c, 5, "the other end", |l| l.routes[route].end = 1 - l.routes[route].end);
        broken(c, 5, "another line", |l| l.routes[route].line = 2);
    }
    for entry in 0..6 {
        broken(c, 5, "an inner route starts at an entrance signal", |l| l.routes[9].entry = entry);
        broken(c, 5, "an exit route at A starts at an entrance signal", |l| l.routes[6].entry = entry);
        broken(c, 5, "an exit route at B starts at an entrance signal", |l| l.routes[8].entry = entry);
    }
    broken(c, 5, "an entrance route made an inner route", |l| l.routes[0].kind = 0);
    broken(c, 5, "an entrance route made an exit route", |l| l.routes[7].kind = 2);
    broken(c, 5, "an exit route made an entrance route", |l| l.routes[4].kind = 1);
    sound(c, "an exit route made an inner route", |l| l.routes[4].kind = 0);
    listed(c, "entrance routes from end to end", |l| {
        l.routes[9] = Route { entry: 4, kind: 1, line: 2, end: 0, path: vec![13, 14], ..Route::default() };
        l.routes[10] = Route { entry: 5, kind: 1, line: 2, end: 1, path: vec![14, 13], ..Route::default() };
    });
}

fn rule_6(c: &mut Cases) {
    for n in 0..two_lines().conf.len() {
        broken(c, 6, "a pair missing", |l| _ = l.conf.remove(n));
    }
    broken(c, 6, "no pair listed", |l| l.conf.clear());
    broken(c, 6, "the same entry signal", |l| l.routes[10].entry = 10);
    for path in [vec![12, 17], vec![17, 12], vec![12, 18, 11], vec![12, 18, 19, 17], vec![11, 18]] {
        broken(c, 6, "a common path section", |l| l.routes[10].path = path);
    }
    for points in [vec![(5, 2)], vec![(4, 1), (5, 2)], vec![(5, 2), (4, 1)], vec![(3, 2)], vec![(0, 1), (5, 2)]] {
        broken(c, 6, "a common point in another position", |l| l.routes[9].points = points);
    }
    broken(c, 6, "a common point, last in both", |l| {
        l.routes[9].points = vec![(0, 1), (5, 1), (4, 1)];
        l.routes[10].points = vec![(3, 1), (5, 1), (4, 2)];
    });
    listed(c, "the same entry signal, listed", |l| l.routes[10].entry = 10);
    listed(c, "a common path section, listed", |l| l.routes[10].path = vec![12, 17]);
    listed(c, "a common point in another position, listed", |l| l.routes[9].points = vec![(5, 2)]);
    sound(c, "every pair listed", |l| l.conf = every_pair(11));
}

// Two routes of full size with nothing in common but, in turn, one section or one point at the first or last place of each.
fn rule_6_places(c: &mut Cases) {
    let route = |n: usize| {
        let eight = 8 * n..8 * n + 8;
        Route { entry: n, path: eight.clone().collect(), points: eight.map(|p| (p, 1)).collect(), ..Route::default() }
    };
    let l = Layout { nsec: 16, own: vec![0; 16], nsig: 2, routes: vec![route(0), route(1)], ..version_1() };
    c.sound("nothing in common", &l);
    for (i, j) in [(0, 0), (0, 7), (7, 0), (7, 7)] {
        c.breaks("one common section", &changed(&l, |l| l.routes[1].path[j] = l.routes[0].path[i]), 6);
        c.breaks("one common point", &changed(&l, |l| l.routes[1].points[j] = (l.routes[0].points[i].0, 2)), 6);
        c.sound("one common point in the same position", &changed(&l, |l| l.routes[1].points[j] = l.routes[0].points[i]));
    }
}

// The two lines in version 2 with these distants. Its block signals are 16 and 17, 18 to 21, 22 and 23.
fn with_distants(distants: &[(usize, usize)]) -> Layout {
    changed(&two_lines(), |l| (l.ver, l.dist) = (2, distants.to_vec()))
}

fn rule_7(c: &mut Cases) {
    for signal in 0..24 {
        c.breaks("a distant announces its own carrier", &with_distants(&[(signal + 1, signal)]), 7);
    }
    let distants: Vec<(usize, usize)> = (0..32).map(|n| (n % 25, (n + 7) % 24)).collect();
    c.sound("32 distants", &with_distants(&distants));
    for place in [0, 1, 15, 31] {
        c.breaks("one of 32 announces its own carrier", &changed(&with_distants(&distants), |l| l.dist[place] = (24, 23)), 7);
    }
    for signal in [0, 15, 16, 17, 22, 23] {
        c.sound("a free-standing distant", &with_distants(&[(0, signal)]));
        c.sound("the signal before the carrier", &with_distants(&[(signal + 1, (signal + 23) % 24)]));
        c.sound("the signal after the carrier", &with_distants(&[(signal + 1, (signal + 1) % 24)]));
    }
    c.sound("two distants on a mast", &with_distants(&[(7, 16), (7, 18)]));
    c.sound("the same distant twice", &with_distants(&[(7, 16), (7, 16)]));
    c.sound("two distants of a signal, one on a mast", &with_distants(&[(0, 1), (17, 1)]));
    c.sound("each announces the carrier of the other", &with_distants(&[(3, 7), (8, 2)]));
    c.sound("a signal of another line", &with_distants(&[(17, 18), (20, 22), (24, 0)]));
    c.sound("a signal for the other direction", &with_distants(&[(17, 17), (18, 16), (2, 0)]));
    c.sound("no distant", &with_distants(&[]));
    c.breaks("and no pair listed", &changed(&with_distants(&[(1, 0)]), |l| l.conf.clear()), 6);
}

fn near_misses(c: &mut Cases) {
    c.sound("two lines", &two_lines());
    sound(c, "a common point in the same position", |l| l.routes[9].points = vec![(0, 1), (5, 1)]);
    sound(c, "a route's point in another position than a line's", |l| l.routes[9].points = vec![(4, 1)]);
    sound(c, "a point's own section a block, and of two points", |l| l.own = vec![1, 1, 16, 10, 13, 17]);
    sound(c, "a block in an overlap", |l| l.routes[9].overlap = vec![1, 16]);
    sound(c, "an overlap that repeats a section", |l| l.routes[9].overlap = vec![18, 19, 18, 18]);
    sound(c, "an overlap over its own path", |l| l.routes[9].overlap = vec![17, 11]);
    sound(c, "an overlap over another route's path", |l| l.routes[9].overlap = vec![12, 18, 0]);
    sound(c, "an overlap over inner sections", |l| l.routes[10].overlap = vec![0, 3, 13, 14]);
    sound(c, "a common overlap", |l| l.routes.iter_mut().for_each(|r| r.overlap = vec![19, 2]));
    sound(c, "a path over an inner section of another line", |l| l.routes[9].path = vec![11, 13, 17]);
    sound(c, "a path of eight sections, listed", |l| {
        l.routes[9].path = vec![13, 17, 14, 19, 11, 0, 12, 18];
        l.conf = every_pair(11);
    });
    sound(c, "all diverging", |l| l.routes.iter_mut().for_each(|r| r.div = 1));
    sound(c, "no line and no route", |l| (l.lines, l.routes, l.conf) = (vec![], vec![], vec![]));
    sound(c, "no route", |l| (l.routes, l.conf) = (vec![], vec![]));
}

// Breaks this rule and no other.
fn break_alone(l: &mut Layout, rule: usize) {
    match rule {
        1 => l.lines[2].blocks[1] = l.lines[2].blocks[0].clone(),
        2 => l.lines[2].inner[1] = l.lines[2].inner[0],
        3 => l.lines[2].points[1].0 = l.lines[2].points[0].0,
        4 => l.routes[9].path = vec![17],
        5 => l.routes[8].entry = l.lines[2].ent[1],
        6 => l.conf.retain(|pair| *pair != (2, 3)),
        _ => (l.ver, l.dist) = (2, vec![(0, 6), (7, 6)]),
    }
}

// Every choice of rules broken together: the lowest is told, but bytes left over and a missing end come before it.
fn together(c: &mut Cases) {
    for choice in 1..128u32 {
        let rules: Vec<usize> = (1..8).filter(|rule| choice >> (rule - 1) & 1 == 1).collect();
        let l = changed(&two_lines(), |l| rules.iter().for_each(|rule| break_alone(l, *rule)));
        c.breaks("rules broken together", &l, rules[0]);
        let file = encode(&l);
        if rules.len() == 1 {
            c.made("a rule broken and a byte left over", &[&file[..], &[0x80]].concat(), 26, file.len());
            c.made("a rule broken and the last byte missing", &file[..file.len() - 1], 21, file.len() - 1);
        }
    }
}

pub fn all(c: &mut Cases) {
    near_misses(c);
    rule_1(c);
    rule_2(c);
    rule_3(c);
    rule_4(c);
    rule_5(c);
    rule_6(c);
    rule_6_places(c);
    together(c);
    rule_7(c);
}
