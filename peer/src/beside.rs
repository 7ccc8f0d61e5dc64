// An event program beside the peer: both get the same random layouts and runs, and must print the same lists.
use crate::commands::number;
use crate::lbox::Var;
use crate::{drawn, fuzz, layout, num, seeded, walk};
use std::path::{Path, PathBuf};
use std::process::{exit, Command, Stdio};
use std::sync::atomic::{AtomicU64, Ordering};
use std::sync::Mutex;

/// What a program is given.
struct Files {
    layout: Vec<u8>,
    events: Vec<u8>,
    fitted: Vec<usize>,
}

// Those of a seed: of every fourth the layout is damaged, of every seventh the events are cut.
fn files(seed: u64, max: bool, length: usize, v: &Var) -> Files {
    let mut g = seeded(seed);
    let (l, mut events) = drawn(&mut g, max, length, v);
    let mut file = layout::encode(&l);
    match (seed % 4, max) {
        (0, false) => file = fuzz::damage(&mut seeded(seed), v.n),
        (0, true) => fuzz::spoil(&mut g, &mut file),
        _ => {}
    }
    if seed % 7 == 0 {
        events.truncate(events.len().saturating_sub((seed % 3 + 1) as usize));
    }
    Files { layout: file, events, fitted: l.fitted }
}

// The peer's list of a run, with the panels or without.
fn wanted(f: &Files, panels: bool, v: &Var) -> Vec<u8> {
    let mut list = vec![];
    walk(&f.layout, &f.events, panels, &f.fitted, v, &mut list).expect("a list");
    list
}

/// A program, and the folder in which the files that it is given lie.
struct Player<'a> {
    program: &'a str,
    folder: PathBuf,
}

impl Player<'_> {
    fn put(&self, name: &str, bytes: &[u8]) -> PathBuf {
        let path = self.folder.join(name);
        std::fs::write(&path, bytes).expect("write");
        path
    }

    // The program's list of a run, or why it cannot be started.
    fn got(&self, layout: &Path, events: &Path, fitted: Option<&Path>, panels: bool) -> Vec<u8> {
        let mut call = Command::new(self.program);
        call.arg(layout).arg(events).args(panels.then_some("panel"));
        if let Some(sections) = fitted {
            call.arg("fitted").arg(sections);
        }
        call.stderr(Stdio::null()).output().map_or_else(|e| e.to_string().into_bytes(), |o| o.stdout)
    }

    // The first lines in which the lists of a run differ, without panels and then with them.
    fn difference(&self, f: &Files, v: &Var) -> Option<String> {
        let (layout, events) = (self.put("layout", &f.layout), self.put("events", &f.events));
        let mut form = vec![];
        f.fitted.iter().for_each(|&s| num::write(s as u32, &mut form));
        let fitted = (!form.is_empty()).then(|| self.put("fitted", &form));
        [false, true].into_iter().find_map(|panels| first_difference(&wanted(f, panels, v), &self.got(&layout, &events, fitted.as_deref(), panels)))
    }
}

fn first_difference(want: &[u8], got: &[u8]) -> Option<String> {
    if want == got {
        return None;
    }
    let (want, got) = (String::from_utf8_lossy(want), String::from_utf8_lossy(got));
    let (mut ours, mut theirs) = (want.lines(), got.lines());
    loop {
        match (ours.next(), theirs.next()) {
            (None, None) => return Some("the same lines, but other line ends".to_string()),
            (a, b) if a == b => {}
            (a, b) => return Some(format!("peer `{}`, program `{}`", cut(a), cut(b))),
        }
    }
}

fn cut(line: Option<&str>) -> String {
    line.map_or("no line".to_string(), |l| l.chars().take(150).collect())
}

/// Holds a program to the peer on so many seeds, as many at a time as there are processors, and prints each difference. The words are the first seed,
/// how many there are, how many events each has, and `max` for layouts at the limits.
pub fn compare(program: &str, words: &[&str], v: &Var) {
    let (max, words) = match words {
        [numbers @ .., "max"] => (true, numbers),
        numbers => (false, numbers),
    };
    let (first, count, length) = (number(words, 0, 1), number(words, 1, 2000), number(words, 2, 200) as usize);
    let (next, different) = (AtomicU64::new(first), Mutex::new(vec![]));
    let top = std::env::temp_dir().join(format!("peer-{}", std::process::id()));
    std::thread::scope(|threads| {
        for n in 0..std::thread::available_parallelism().map_or(1, |n| n.get()) {
            let (next, different, folder) = (&next, &different, top.join(n.to_string()));
            std::fs::create_dir_all(&folder).expect("a folder");
            threads.spawn(move || {
                let player = Player { program, folder };
                loop {
                    let seed = next.fetch_add(1, Ordering::Relaxed);
                    if seed >= first + count {
                        return;
                    }
                    if let Some(text) = player.difference(&files(seed, max, length, v), v) {
                        different.lock().expect("the list of differences").push((seed, text));
                    }
                }
            });
        }
    });
    let _ = std::fs::remove_dir_all(&top);
    let mut different = different.into_inner().expect("the list of differences");
    different.sort();
    for (seed, text) in &different {
        println!("seed {seed}: {text}");
    }
    println!("{} the same, {} different", count - different.len() as u64, different.len());
    if !different.is_empty() {
        exit(1);
    }
}
