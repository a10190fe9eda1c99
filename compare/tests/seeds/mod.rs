//! The generated files, by their seeds.

use std::env;
use std::sync::atomic::{AtomicU64, Ordering};
use std::thread;
use wagner_reference::data::Requests;
use wagner_reference::files::generate;

/// A number from the environment, or what stands in for it.
fn number(name: &str, otherwise: u64) -> u64 {
    match env::var(name) {
        Ok(text) => text.parse().unwrap_or_else(|_| panic!("{name} is no number: {text}")),
        Err(_) => otherwise,
    }
}

/// Runs a check for each seed and its file under these requests: COMPARE_FILES
/// of them (20,000 if it is not set) from COMPARE_FIRST on (0 if it is not
/// set).
pub fn each(requests: Requests, check: impl Fn(u64, Vec<u8>) + Sync) {
    let first = number("COMPARE_FIRST", 0);
    let end = first + number("COMPARE_FILES", 20_000);
    let next = AtomicU64::new(first);
    thread::scope(|scope| {
        for _ in 0..thread::available_parallelism().map_or(1, |count| count.get()) {
            scope.spawn(|| loop {
                let seed = next.fetch_add(1, Ordering::Relaxed);
                if seed >= end {
                    break;
                }
                let told = Told(seed, requests);
                check(seed, generate(seed, requests).bytes);
                std::mem::forget(told);
            });
        }
    });
}

/// Says which seed failed.
struct Told(u64, Requests);

impl Drop for Told {
    fn drop(&mut self) {
        let Told(seed, Requests(count)) = self;
        eprintln!("seed {seed}: wagner-files {seed} --requests {count}");
    }
}
