//! The board's plain rival: a mutex of Rust's standard library for each module.
//!
//! Built by `rustc -O -o turns turns.rs`. It prints the nanoseconds of a turn, as turns.sh prints them for the board.

use std::hint::black_box;
use std::sync::Mutex;
use std::thread;
use std::time::Instant;

const TURNS: usize = 1_000_000;

fn measure(threads: usize, modules: usize) {
    let start = Instant::now();
    let made: Vec<Mutex<Vec<(u32, u64)>>> = (0..modules).map(|_| Mutex::new(Vec::new())).collect();
    thread::scope(|scope| {
        for _ in 0..threads {
            scope.spawn(|| {
                for turn in 0..TURNS / threads {
                    let rows = made[turn % modules].lock().unwrap();
                    black_box(rows.len());
                }
            });
        }
    });
    let took = start.elapsed().as_nanos() as usize / TURNS;
    println!("Mutex: {threads} threads, {modules} modules: {took} ns a turn");
}

fn main() {
    for modules in [1, 4] {
        for threads in [1, 2, 4] {
            measure(threads, modules);
        }
    }
}
