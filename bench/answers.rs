//! What an answer's order and text are measured beside: std's sort of the bare keys, and the same records made and written.
//!
//! Built by `rustc -O -o answers answers.rs`; answers.sh runs it. It prints microseconds of processor time.

use std::ffi::c_long;
use std::fs::File;
use std::io::Write;

const MANY: usize = 1_000_000;

fn next(state: u64) -> u64 {
    state.wrapping_mul(6364136223846793005).wrapping_add(1442695040888963407)
}

fn number(state: u64) -> i64 {
    (state / 4_294_967_296 % 1_000_000) as i64
}

extern "C" {
    fn clock() -> c_long;
}

// Microseconds of the processor time of this program, by C's clock.
fn processor_time() -> c_long {
    unsafe { clock() }
}

fn states() -> Vec<u64> {
    let mut state = 1u64;
    (0..MANY)
        .map(|_| {
            state = next(state);
            state
        })
        .collect()
}

fn main() {
    for long in [true, false] {
        let mut keys: Vec<(String, i64)> = states()
            .iter()
            .map(|state| {
                let drawn = number(next(*state));
                let text = if long { format!("customer {drawn}") } else { format!("{}word", drawn % 5000) };
                (text, number(*state))
            })
            .collect();
        keys.reverse();
        let start = processor_time();
        keys.sort_unstable();
        println!("std's sort, long {long}: {} us, first {}", processor_time() - start, keys[0].0);
    }
    let numbers: Vec<i64> = states().iter().rev().map(|state| number(*state)).collect();
    let mut file = File::create("answer-of-rust.csv").unwrap();
    let mut line = Vec::new();
    let start = processor_time();
    for n in &numbers {
        line.clear();
        write!(line, "{n},{n},{n},{n},{n},{n}\n").unwrap();
        file.write_all(&line).unwrap();
    }
    println!("plain text: {} us", processor_time() - start);
}
