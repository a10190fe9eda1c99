//! How much stack a thread needs for `wagner_list`, in steps of 16 KiB.
//!
//! `cargo run --release --bin stack` prints it of three files of 64 taxa and 128
//! characters: by advancement, closest first, and with a branching of its own.
//! `stack FILE KIB` calls once for one of them, in a thread with so much stack:
//! its exit status is 0 if the listing is that of the plain loops, and a signal
//! ends it where the stack is too small.

use compare::{files, list, plain, Listed, OUTPUT_SIZE};
use std::env;
use std::process::{Command, Stdio};
use std::thread;

/// The three files.
const FILES: [&str; 3] = ["advance", "closest", "own"];

/// Taxa and characters of each.
const N: usize = 64;
const M: usize = 128;

/// A branching of n taxa in which each HTU but the last is the immediate ancestor
/// of a taxon and of the next HTU.
fn one_row(n: usize) -> impl Iterator<Item = usize> {
    let taxa = (2..=n).map(move |v| (n + v - 1).min(2 * n - 2));
    taxa.chain([1]).chain(n + 1..2 * n - 2)
}

/// One of the three, with long names and with weights.
fn file(which: &str) -> Vec<u8> {
    let file = files::weighted(&files::file("Taxon_of_order", N, M), M);
    match which {
        "own" => files::own(&file, one_row(N)),
        word => {
            let end = file.iter().position(|&byte| byte == b'\n').unwrap();
            [&file[..end], b"\t", word.as_bytes(), &file[end..]].concat()
        }
    }
}

/// The listing of a file in a thread with so many KiB of stack is that of the
/// plain loops.
fn check(which: &str, kib: usize) {
    let file = file(which);
    let expected = plain::list(&file, Vec::new()).unwrap();
    let mut out = vec![0; OUTPUT_SIZE];
    let work = move || (list(&file, &mut out), out);
    let running = thread::Builder::new().stack_size(1024 * kib).spawn(work).unwrap();
    let (listed, out) = running.join().unwrap();
    assert_eq!(listed, Listed { refusal: 0, length: expected.len() });
    assert!(out.starts_with(&expected));
}

/// A process of its own says whether so many KiB suffice.
fn suffices(which: &str, kib: usize) -> bool {
    let mut command = Command::new(env::current_exe().unwrap());
    command.args([which, &kib.to_string()]).stderr(Stdio::null());
    command.status().unwrap().success()
}

fn main() {
    let words: Vec<String> = env::args().skip(1).collect();
    match &words[..] {
        [] => {
            for which in FILES {
                let least = (16..).step_by(16).find(|&kib| suffices(which, kib)).unwrap();
                println!("{which}: {least} KiB");
            }
        }
        [which, kib] => check(which, kib.parse().unwrap()),
        _ => panic!("stack [FILE KIB]"),
    }
}
