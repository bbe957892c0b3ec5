//! The reader's plain rival: one loop over the bytes of a file of integers, which keeps each number in a list and checks
//! nothing but that a field has digits.
//!
//! Built by `rustc -O -o reading reading.rs`. It prints, for each file that is named, the microseconds of processor time that
//! the loop took, the least of five rounds, as tables.txt prints them for the reader.

use std::ffi::{c_int, c_long};

#[repr(C)]
struct Time {
    seconds: c_long,
    nanos: c_long,
}

extern "C" {
    fn clock_gettime(clock: c_int, time: *mut Time) -> c_int;
}

const PROCESS: c_int = 2;

fn micros() -> i64 {
    let mut time = Time { seconds: 0, nanos: 0 };
    unsafe { clock_gettime(PROCESS, &mut time) };
    time.seconds as i64 * 1_000_000 + time.nanos as i64 / 1000
}

fn numbers(bytes: &[u8]) -> Vec<i64> {
    let mut all = Vec::new();
    let (mut number, mut below, mut digits) = (0i64, false, false);
    for &byte in bytes {
        match byte {
            b'0'..=b'9' => {
                number = number.wrapping_mul(10).wrapping_add((byte - b'0') as i64);
                digits = true;
            }
            b'-' => below = true,
            b',' | b'\n' => {
                if digits {
                    all.push(if below { -number } else { number });
                }
                (number, below, digits) = (0, false, false);
            }
            _ => {}
        }
    }
    all
}

fn main() {
    for name in std::env::args().skip(1) {
        let bytes = std::fs::read(&name).expect("a file that can be read");
        let mut least = i64::MAX;
        let mut count = 0;
        for _ in 0..5 {
            let start = micros();
            count = numbers(&bytes).len();
            least = least.min(micros() - start);
        }
        println!("plain loop over {name}: {count} numbers, {least} us");
    }
}
