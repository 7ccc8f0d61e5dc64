mod bench;
mod beside;
mod cases;
mod commands;
mod departure;
mod departure_cases;
mod distant_cases;
mod examples;
mod fuzz;
mod hand_cases;
mod head_cases;
mod judge;
mod lamp_cases;
mod layout;
mod lbox;
mod lengths;
mod level;
mod lowest_cases;
mod num;
mod number_cases;
mod records;
mod rule_cases;
mod run_cases;
mod runs;

use std::io::Write;

/// A panel's bytes, each after a space.
fn spaced(p: &[u8]) -> String {
    p.iter().map(|x| format!(" {x}")).collect()
}

fn slurp(p: &str) -> Vec<u8> {
    match std::fs::read(p) {
        Ok(b) => b,
        Err(e) => {
            eprintln!("{}: {}", p, e);
            std::process::exit(2);
        }
    }
}

/// An event file: (old, offset of the first event). From L11 a file that opens
/// with a single 0 is new; all others, and all before L11, are old.
fn opening(ef: &[u8], n: u32) -> (bool, usize) {
    if n >= 11 && ef.first() == Some(&0) {
        (false, 1)
    } else {
        (true, 0)
    }
}

fn walk(lf: &[u8], ef: &[u8], trace: bool, fitted: &[usize], v: &lbox::Var, out: &mut dyn Write) -> std::io::Result<()> {
    let mut l = match layout::load(lf, v.n) {
        Ok(l) => l,
        Err((a, d)) => return writeln!(out, "layout {} {}", a, d),
    };
    l.fitted = fitted.to_vec();
    let mut s = lbox::cold(&l);
    if trace {
        writeln!(out, "0 0 0 |{}", spaced(&lbox::panel(&l, &s, v)))?;
    } else {
        writeln!(out, "event answer detail")?;
    }
    let (old, mut pos) = opening(ef, v.n);
    let mut v = v.clone();
    v.old = old;
    let mut n = 0u64;
    while pos < ef.len() {
        let mut e = [0u32; 3];
        for q in e.iter_mut() {
            match num::read(ef, pos, v.n) {
                Ok((x, p)) => {
                    *q = x;
                    pos = p;
                }
                Err(f) => return writeln!(out, "events {} {}", f.code, f.at),
            }
        }
        n += 1;
        let (a, d, t) = lbox::event(&l, &s, e, &v);
        s = t;
        let mark = if v.n >= 11 && old && e[0] == 7 && e[2] == 2 && (a == 0 || !v.l11_old_only_done) && !((a == 2 || a == 18) && v.l11_old_reached) { " old" } else { "" };
        if trace {
            writeln!(out, "{} {} {}{} |{}", n, a, d, mark, spaced(&lbox::panel(&l, &s, &v)))?;
        } else {
            writeln!(out, "{} {} {}{}", n, a, d, mark)?;
        }
    }
    Ok(())
}

/// "1 2 300 x80" -> bytes; plain decimals in the number form, xHH a raw byte;
/// anything else (parentheses, commas) separates.
fn pack(t: &str) -> Vec<u8> {
    let mut o = vec![];
    for w in t.split(|c: char| !(c.is_ascii_alphanumeric())) {
        if w.is_empty() {
            continue;
        }
        if let Some(h) = w.strip_prefix('x') {
            o.push(u8::from_str_radix(h, 16).expect("hex"));
        } else {
            num::write(w.parse().expect("number"), &mut o);
        }
    }
    o
}

/// The generator of a seed.
fn seeded(seed: u64) -> fuzz::Rng {
    fuzz::Rng(seed.wrapping_mul(0x2545F4914F6CDD1D))
}

/// A random sound layout, or one at the limits, and the event file of a random run on it.
fn drawn(g: &mut fuzz::Rng, max: bool, len: usize, v: &lbox::Var) -> (layout::Layout, Vec<u8>) {
    let l = if max { fuzz::gen_max(g, v.n) } else { fuzz::gen_layout(g, false, v.n) };
    let mut b = vec![];
    let old = if v.n >= 11 && g.pct(60) {
        b.push(0);
        false
    } else {
        true
    };
    let mut w = v.clone();
    w.old = old;
    let e = fuzz::gen_events(g, &l, len, &w);
    for x in e.iter().flatten() {
        num::write(*x, &mut b);
    }
    (l, b)
}

fn main() {
    let mut args: Vec<String> = std::env::args().skip(1).collect();
    let mut v = lbox::Var::at(level::LEVEL);
    let mut fitted: Vec<usize> = vec![];
    let mut k = 0;
    while k < args.len() {
        match args[k].as_str() {
            "-v" if k + 1 < args.len() => {
                if !v.set(&args[k + 1]) {
                    eprintln!("no variant {}; there are: {}", args[k + 1], lbox::NAMES.join(" "));
                    std::process::exit(2);
                }
                args.drain(k..k + 2);
            }
            "-L" if k + 1 < args.len() => {
                v.n = args[k + 1].parse().expect("-L number");
                args.drain(k..k + 2);
            }
            "-fitted" if k + 1 < args.len() => {
                fitted = args[k + 1].split(',').filter(|x| !x.is_empty()).map(|x| x.parse().expect("section")).collect();
                args.drain(k..k + 2);
            }
            _ => k += 1,
        }
    }
    if v.n < 1 {
        fitted.clear();
    }
    let a: Vec<&str> = args.iter().map(|x| x.as_str()).collect();
    if commands::done(&a, &v) {
        return;
    }
    let so = std::io::stdout();
    let mut out = std::io::BufWriter::new(so.lock());
    let seed = |x: &str| seeded(x.parse().unwrap());
    match a.as_slice() {
        ["run", l, e] => walk(&slurp(l), &slurp(e), false, &fitted, &v, &mut out).unwrap(),
        ["trace", l, e] => walk(&slurp(l), &slurp(e), true, &fitted, &v, &mut out).unwrap(),
        ["load", l] => {
            let (a, d) = match layout::load(&slurp(l), v.n) {
                Ok(_) => (0, 0),
                Err(f) => f,
            };
            writeln!(out, "layout {} {}", a, d).unwrap();
        }
        ["pack", text, file] => std::fs::write(file, pack(text)).expect("write"),
        ["unpack", file] => {
            // the numbers of a file, for people
            let b = slurp(file);
            let mut pos = 0;
            while pos < b.len() {
                match num::read(&b, pos, v.n) {
                    Ok((x, p)) => {
                        write!(out, "{} ", x).unwrap();
                        pos = p;
                    }
                    Err(f) => {
                        write!(out, "fault {} at {}", f.code, f.at).unwrap();
                        break;
                    }
                }
            }
            writeln!(out).unwrap();
        }
        ["judge", f, limit] => {
            let j = judge::judge(&slurp(f), limit.parse().unwrap(), &fitted, &v);
            writeln!(out, "judge {} {} {} {}", j.answer, j.detail, j.judged, j.part).unwrap();
        }
        ["log", lf, ef] | ["log", lf, ef, _] => {
            let mut l = match layout::load(&slurp(lf), v.n) {
                Ok(l) => l,
                Err((a, d)) => {
                    eprintln!("layout {} {}", a, d);
                    std::process::exit(1);
                }
            };
            l.fitted = fitted.clone();
            let b = slurp(ef);
            let (_, mut pos) = opening(&b, v.n);
            let mut ev = vec![];
            'all: while pos < b.len() {
                let mut e = [0u32; 3];
                for q in e.iter_mut() {
                    match num::read(&b, pos, v.n) {
                        Ok((x, p)) => {
                            *q = x;
                            pos = p;
                        }
                        Err(_) => break 'all,
                    }
                }
                ev.push(e);
            }
            // live: ground 2 gets 3 from L11 on, also when the events come from an old file
            let o = judge::log(&l, &ev, &v);
            match a.get(3) {
                Some(f) => std::fs::write(f, o).expect("write"),
                None => out.write_all(&o).unwrap(),
            }
        }
        ["lengths", h, s] => {
            let (a, r) = judge::lengths(h.parse().unwrap(), s.parse().unwrap());
            writeln!(
                out,
                "lengths {} {} {} 7.1 {}/60 {:?} x{:016x} 7.2 {}/60 {:?} x{:016x}",
                a, r.0, r.1, r.2, r.3, r.3.to_bits(), r.4, r.5, r.5.to_bits()
            )
            .unwrap();
        }
        [gen @ ("gen" | "genmax"), sd, len, lfile, efile] => {
            // a random sound layout (genmax: at the limits) and a random run on it; the fitted sections go to stdout
            let (l, b) = drawn(&mut seed(sd), *gen == "genmax", len.parse().unwrap(), &v);
            std::fs::write(lfile, layout::encode(&l)).unwrap();
            std::fs::write(efile, b).unwrap();
            let f: Vec<String> = l.fitted.iter().map(|x| x.to_string()).collect();
            writeln!(out, "{}", f.join(",")).unwrap();
        }
        ["genlog", sd, len, file] => {
            // a random log, right or spoilt in 0 to 2 places; the fitted sections go to stdout
            let mut g = seed(sd);
            let l = fuzz::gen_layout(&mut g, false, v.n);
            let e = fuzz::gen_events(&mut g, &l, len.parse().unwrap(), &v);
            let mut b = judge::log(&l, &e, &v);
            fuzz::spoil(&mut g, &mut b);
            std::fs::write(file, b).unwrap();
            let f: Vec<String> = l.fitted.iter().map(|x| x.to_string()).collect();
            writeln!(out, "{}", f.join(",")).unwrap();
        }
        ["genbad", sd, lfile] => {
            // a sound layout damaged in 0, 1 or 2 places
            let mut g = seed(sd);
            std::fs::write(lfile, fuzz::damage(&mut g, v.n)).unwrap();
        }
        ["check", sd, runs] => {
            drop(out);
            fuzz::check(sd.parse().unwrap(), runs.parse().unwrap(), &v)
        }
        ["compare", name, sd, runs] => {
            drop(out);
            if *name == "all" {
                for n in lbox::NAMES {
                    fuzz::compare(n, sd.parse().unwrap(), runs.parse().unwrap(), v.n);
                }
            } else {
                fuzz::compare(name, sd.parse().unwrap(), runs.parse().unwrap(), v.n);
            }
        }
        _ => {
            eprintln!("peer [-L N] [-v VARIANT].. [-fitted a,b,..] run|trace LAYOUT EVENTS | load LAYOUT | judge LOG LIMIT | log LAYOUT EVENTS [OUT] | lengths HEADWAY SPEED | pack TEXT FILE | unpack FILE | gen|genmax SEED LEN LFILE EFILE | genlog SEED LEN FILE | genbad SEED LFILE | check SEED RUNS | compare VARIANT|all SEED RUNS | {}", commands::USAGE);
            std::process::exit(2);
        }
    }
}
