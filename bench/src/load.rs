// Times the loading of layout files by the box's library and by the peer.
#[allow(dead_code)]
#[path = "../../peer/src/examples.rs"]
mod examples;
#[allow(dead_code)]
#[path = "../../peer/src/layout.rs"]
mod layout;
#[path = "../../peer/src/level.rs"]
mod level;
#[allow(dead_code)]
#[path = "../../peer/src/num.rs"]
mod num;

use std::hint::black_box;
use std::time::Instant;

extern "C" {
    // The answer in the lowest byte, then 16 bits of the detail, then the overlap section at a place of a route.
    fn load_bench_answer(bytes: *const u8, length: usize, route: u8, place: u8) -> u64;
}

/// What the box answers, with an overlap section of its layout.
fn by_box(file: &[u8], route: u8, place: u8) -> u64 {
    // SAFETY: the library reads these bytes during the call and keeps nothing.
    unsafe { load_bench_answer(file.as_ptr(), file.len(), route, place) }
}

/// The same by the peer.
fn by_peer(file: &[u8], route: u8, place: u8) -> u64 {
    match black_box(layout::load(file, level::LEVEL)) {
        Ok(l) => {
            let section = l.routes.get(route as usize).and_then(|r| r.overlap.get(place as usize));
            *section.unwrap_or(&0) as u64 * 16_777_216
        }
        Err((number, detail)) => number as u64 + 256 * (detail as u64 % 65_536),
    }
}

/// Microseconds that one call takes, over this many calls.
fn time(load: fn(&[u8], u8, u8) -> u64, file: &[u8], calls: u32) -> f64 {
    let start = Instant::now();
    for _ in 0..calls {
        black_box(load(black_box(file), black_box(1), black_box(0)));
    }
    start.elapsed().as_secs_f64() * 1e6 / calls as f64
}

/// As many calls as the slower of the two makes in some five milliseconds.
fn calls_for(file: &[u8]) -> u32 {
    let once = time(by_box, file, 10).max(time(by_peer, file, 10));
    ((5000.0 / once) as u32).max(1)
}

/// Sees that both load the file, with the same overlaps, and answer alike where it is cut.
fn answer_alike(name: &str, file: &[u8]) {
    for route in 0..=48 {
        for place in 0..=8 {
            assert_eq!(by_box(file, route, place), by_peer(file, route, place), "{name}, overlap of route {route}");
        }
    }
    assert_eq!(by_box(file, 0, 0) % 16_777_216, 0, "{name} is sound");
    for end in (0..file.len()).step_by(file.len() / 100 + 1) {
        assert_eq!(by_box(&file[..end], 0, 0), by_peer(&file[..end], 0, 0), "{name}, the first {end} bytes");
    }
}

fn main() {
    let rounds: u32 = std::env::args().nth(1).map_or(40, |n| n.parse().expect("a number of rounds"));
    let files = [
        ("branch T", examples::BRANCH_T.to_vec()),
        ("48 routes, all pairs must conflict", layout::encode(&examples::all_must_conflict())),
        ("48 routes, 156 of 1,128 pairs must conflict", layout::encode(&examples::few_must_conflict())),
        ("32 routes, no pair must conflict", layout::encode(&examples::none_must_conflict())),
        ("the longest file, with 32 distants", layout::encode(&examples::longest())),
    ];
    println!("{:44} {:>6} {:>9} {:>9} {:>9}", "layout", "bytes", "box us", "peer us", "box/peer");
    for (name, file) in &files {
        answer_alike(name, file);
        let calls = calls_for(file);
        let (mut ours, mut peer) = (f64::MAX, f64::MAX);
        for _ in 0..rounds {
            peer = peer.min(time(by_peer, file, calls));
            ours = ours.min(time(by_box, file, calls));
        }
        println!("{name:44} {:6} {ours:9.3} {peer:9.3} {:9.2}", file.len(), ours / peer);
    }
}
