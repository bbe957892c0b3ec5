//! The indexes' plain rivals: the maps of Rust's standard library, with a vector of places for each key.
//!
//! The ordered map answers what the ordered index does: the places of a range as a list of its own, in rising order. Where all
//! keys are equal it is asked ten times, as the index is, since each answer has all places.
//!
//! Built by `rustc -O -o indexes indexes.rs`. It prints, for each workload and number of keys, the nanoseconds of an add and
//! of a question, the means of some rounds, as indexes.sh prints them for the indexes.

use std::collections::{BTreeMap, HashMap};
use std::ffi::c_long;

fn next(state: u64) -> u64 {
    state.wrapping_mul(6364136223846793005).wrapping_add(1442695040888963407)
}

fn numbers(workload: &str, n: usize) -> Vec<i64> {
    let mut state = 1u64;
    (0..n)
        .map(|i| {
            state = next(state);
            match workload {
                "rising" => i as i64,
                "equal" => 7,
                _ => (state >> 33) as i64,
            }
        })
        .collect()
}

fn report(name: &str, workload: &str, n: usize, all: &[(f64, f64)], sum: u64) {
    let mean = |of: fn(&(f64, f64)) -> f64| all.iter().map(of).sum::<f64>() / all.len() as f64;
    println!("{name:>10} {workload:>8} {n:>8}: add {:7.1} ns, ask {:7.1} ns, sum {sum}", mean(|t| t.0), mean(|t| t.1));
}

extern "C" {
    fn clock() -> c_long;
}

// Microseconds of the processor time of this program, by C's clock.
fn processor_time() -> c_long {
    unsafe { clock() }
}

fn nanoseconds(start: c_long, n: usize) -> f64 {
    (processor_time() - start) as f64 * 1000.0 / n as f64
}

// The nanoseconds of an add and of a question, and a sum over what was found.
fn hash_map<K: std::hash::Hash + Eq + Clone>(keys: &[K]) -> (f64, f64, u64) {
    let start = processor_time();
    let mut map: HashMap<K, Vec<u32>> = HashMap::new();
    for (place, key) in keys.iter().enumerate() {
        map.entry(key.clone()).or_default().push(place as u32);
    }
    let made = nanoseconds(start, keys.len());
    let start = processor_time();
    let mut sum = 0u64;
    for key in keys {
        if let Some(places) = map.get(key) {
            sum = places.iter().take(1).fold(sum, |s, p| s.wrapping_add(u64::from(*p)));
        }
    }
    (made, nanoseconds(start, keys.len()), sum)
}

fn places_between<K: Ord + Clone>(map: &BTreeMap<K, Vec<u32>>, low: &K, high: &K) -> Vec<u32> {
    let mut found = Vec::new();
    for (_, places) in map.range(low.clone()..=high.clone()) {
        found.extend_from_slice(places);
    }
    found.sort_unstable();
    found
}

fn btree_map<K: Ord + Clone>(keys: &[K], asked: usize) -> (f64, f64, u64) {
    let start = processor_time();
    let mut map: BTreeMap<K, Vec<u32>> = BTreeMap::new();
    for (place, key) in keys.iter().enumerate() {
        map.entry(key.clone()).or_default().push(place as u32);
    }
    let made = nanoseconds(start, keys.len());
    let start = processor_time();
    let mut sum = 0u64;
    for key in &keys[..asked] {
        sum = sum.wrapping_add(places_between(&map, key, key).len() as u64);
    }
    (made, nanoseconds(start, asked), sum)
}

// Measures one kind of map in some rounds, each with a map of its own.
fn rounds(name: &str, workload: &str, n: usize, count: usize, once: impl Fn() -> (f64, f64, u64)) {
    let all: Vec<_> = (0..count).map(|_| once()).collect();
    let times: Vec<_> = all.iter().map(|&(add, ask, _)| (add, ask)).collect();
    report(name, workload, n, &times, all[0].2);
}

fn main() {
    for (n, count) in [(1_000, 1000), (100_000, 10), (1_000_000, 3)] {
        for workload in ["random", "rising", "equal"] {
            let keys = numbers(workload, n);
            let asked = if workload == "equal" { 10 } else { n };
            rounds("HashMap", workload, n, count, || hash_map(&keys));
            rounds("BTreeMap", workload, n, count, || btree_map(&keys, asked));
        }
        let texts: Vec<String> = numbers("random", n).iter().map(|k| format!("customer {k}")).collect();
        let keys: Vec<&str> = texts.iter().map(|t| t.as_str()).collect();
        rounds("HashMap", "texts", n, count, || hash_map(&keys));
        rounds("BTreeMap", "texts", n, count, || btree_map(&keys, n));
    }
}
