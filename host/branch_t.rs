//! Branch T (section 8) from Rust: power on, load its layout, run P1, and print event number, answer, detail.
#[allow(dead_code)]
mod hiruketawha;

use hiruketawha::Cabinet;

const BRANCH_T: [u8; 49] = [
    1, 4, 1, 2, 4, 1, 1, 1, 0, 2, 1, 2, 0, 3, 0, 2, 0, 0, 0, 1, 0, 0, 0, 2, 1, //
    0, 1, 0, 2, 2, 3, 0, 1, 0, 1, 3, 2, 0, 1, 0, 1, 2, 0, 1, 0, 1, 1, 1, 2,
];

const P1: [[u32; 3]; 13] = [
    [4, 0, 0],
    [1, 0, 1],
    [1, 1, 1],
    [1, 2, 1],
    [1, 3, 1],
    [2, 0, 1],
    [6, 0, 1],
    [7, 0, 1],
    [15, 2, 1],
    [6, 0, 1],
    [4, 1, 0],
    [4, 0, 0],
    [4, 2, 0],
];

fn main() {
    let mut cabinet = Cabinet::power_on();
    let loaded = cabinet.load(&BRANCH_T);
    if loaded.number != 0 {
        println!("layout {} {}", loaded.number, loaded.detail);
        std::process::exit(1);
    }
    println!("event answer detail");
    for (i, [kind, first, second]) in P1.into_iter().enumerate() {
        let reply = cabinet.event(kind, first, second);
        println!("{} {} {}", i + 1, reply.number, reply.detail);
    }
}
