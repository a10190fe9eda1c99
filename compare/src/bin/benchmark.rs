//! Ours beside the reference and beside plain Rust loops, part by part.
//!
//! `cargo run --release --bin benchmark`

use compare::{files, lent, plain, FileRead, ADVANCE, CLOSEST, IN_FORCE, MATRIX_SIZE, OUTPUT_SIZE};
use std::hint::black_box;
use std::time::{Duration, Instant};
use wagner_reference::consistency::{consistency, floor};
use wagner_reference::data::Data;
use wagner_reference::fit::fit;
use wagner_reference::listing::listing;
use wagner_reference::network::prim_network;
use wagner_reference::ranges::ranges;
use wagner_reference::read::read;
use wagner_reference::tree::{build, Order};

/// A file of n taxa and m characters.
fn file(n: usize, m: usize) -> Vec<u8> {
    files::file("Taxon_", n, m)
}

/// An `F` file of the same rows whose branching is the tree by advancement.
fn own_file(file: &[u8]) -> Vec<u8> {
    let mut matrix = vec![0; MATRIX_SIZE];
    let (mut weights, mut names) = (lent::weights(), lent::names());
    let head = plain::read(file, &mut matrix, &mut weights, &mut names, &mut lent::branches());
    let FileRead { n, m, .. } = head.unwrap();
    let records = branches(&matrix, &weights, n, m);
    files::own(file, records.chunks_exact(3).take(2 * n - 3).map(|record| record[1]))
}

/// The least time that some work takes, in microseconds: runs of it until a
/// quarter of a second is spent, at least ten.
fn time(mut work: impl FnMut()) -> f64 {
    let begin = Instant::now();
    let mut least = Duration::MAX;
    let mut runs = 0;
    while runs < 10 || begin.elapsed() < Duration::from_millis(250) {
        let start = Instant::now();
        work();
        least = least.min(start.elapsed());
        runs += 1;
    }
    least.as_secs_f64() * 1e6
}

/// The parts of one program, in microseconds. `build` is by advancement and
/// `closest` the other order; `both` is `build` and fit, `index` that of the
/// tree by advancement, lent as a branching, `whole` is from a file's bytes to
/// those of its listing, by advancement, and `own` the same of an `F` file.
#[derive(Clone, Copy)]
struct Parts {
    read: f64,
    network: f64,
    build: f64,
    closest: f64,
    both: f64,
    floor: f64,
    index: f64,
    whole: f64,
    own: f64,
}

impl Parts {
    /// The time of the fit alone.
    fn fit(self) -> f64 {
        self.both - self.build
    }

    /// The time of printing alone.
    fn print(self) -> f64 {
        self.whole - self.read - self.network - self.both - self.floor
    }

    /// The least times of two.
    fn least(self, other: Parts) -> Parts {
        Parts {
            read: self.read.min(other.read),
            network: self.network.min(other.network),
            build: self.build.min(other.build),
            closest: self.closest.min(other.closest),
            both: self.both.min(other.both),
            floor: self.floor.min(other.floor),
            index: self.index.min(other.index),
            whole: self.whole.min(other.whole),
            own: self.own.min(other.own),
        }
    }

    /// All times, in the order of their names.
    fn all(self) -> [f64; COUNT] {
        let (fit, print) = (self.fit(), self.print());
        let Parts { read, network, build, closest, floor, index, whole, own, .. } = self;
        [read, network, build, closest, fit, floor, index, print, own, whole]
    }
}

/// The least times of several rounds of measuring, so that other work on the
/// machine shows less.
fn rounds(measure: impl Fn() -> Parts) -> [f64; COUNT] {
    (0..ROUNDS).map(|_| measure()).reduce(Parts::least).unwrap().all()
}

/// The same for two files, one after the other in each round.
fn rounds_of_both(measure: impl Fn(&[u8]) -> Parts, files: [&[u8]; 2]) -> [[f64; COUNT]; 2] {
    let both: Vec<[Parts; 2]> = (0..ROUNDS).map(|_| files.map(&measure)).collect();
    [0, 1].map(|i| both.iter().map(|parts| parts[i]).reduce(Parts::least).unwrap().all())
}

const ROUNDS: usize = 5;

const COUNT: usize = 10;

const NAMES: [&str; COUNT] =
    ["read", "network", "build", "closest", "fit", "floor", "index", "print", "own", "whole"];

/// The Wagner tree of a lent matrix by advancement, as a lent branching.
fn branches(matrix: &[i32], weights: &[u8], n: usize, m: usize) -> Vec<usize> {
    let (tree, _, _) = plain::build(&mut matrix.to_vec(), weights, n, m, ADVANCE);
    lent::branches_of((2..2 * n - 1).map(|v| tree[v]))
}

/// The parts of the proved library.
fn ours(file: &[u8]) -> Parts {
    let mut matrix = vec![0; MATRIX_SIZE];
    let (mut weights, mut names) = (lent::weights(), lent::names());
    let mut records = lent::branches();
    let read = time(|| {
        let file = black_box(file);
        black_box(compare::read(file, &mut matrix, &mut weights, &mut names, &mut records));
    });
    let head = compare::read(file, &mut matrix, &mut weights, &mut names, &mut records);
    let (n, m) = (head.n, head.m);
    let network = time(|| {
        black_box(compare::network(black_box(&matrix), &weights, n, m));
    });
    let build = time(|| {
        black_box(compare::build(black_box(&mut matrix), &weights, n, m, ADVANCE));
    });
    let closest = time(|| {
        black_box(compare::build(black_box(&mut matrix), &weights, n, m, CLOSEST));
    });
    let [mut low, mut high, mut chosen] = [1, 2, 3].map(|mark| lent::codes(MATRIX_SIZE, mark));
    let both = time(|| {
        let matrix = black_box(&mut matrix);
        black_box(compare::fit(matrix, &weights, n, m, ADVANCE, &mut low, &mut high, &mut chosen));
    });
    let floor = time(|| {
        black_box(compare::floor(black_box(&matrix), &weights, n, m));
    });
    let branches = branches(&matrix, &weights, n, m);
    let index = time(|| {
        black_box(compare::index(black_box(&matrix), &weights, n, m, &branches));
    });
    let mut out = lent::bytes(OUTPUT_SIZE);
    let whole = time(|| {
        black_box(compare::list(black_box(file), &mut out));
    });
    let file = own_file(file);
    let own = time(|| {
        black_box(compare::list(black_box(&file), &mut out));
    });
    Parts { read, network, build, closest, both, floor, index, whole, own }
}

/// The parts of the plain loops.
fn plain_loops(file: &[u8]) -> Parts {
    let mut matrix = vec![0; MATRIX_SIZE];
    let (mut weights, mut names) = (lent::weights(), lent::names());
    let mut records = lent::branches();
    let read = time(|| {
        let file = black_box(file);
        black_box(plain::read(file, &mut matrix, &mut weights, &mut names, &mut records));
    });
    let head = plain::read(file, &mut matrix, &mut weights, &mut names, &mut records).unwrap();
    let (n, m) = (head.n, head.m);
    let network = time(|| {
        black_box(plain::network(black_box(&matrix), &weights, n, m));
    });
    let build = time(|| {
        black_box(plain::build(black_box(&mut matrix), &weights, n, m, ADVANCE));
    });
    let closest = time(|| {
        black_box(plain::build(black_box(&mut matrix), &weights, n, m, CLOSEST));
    });
    let [mut low, mut high, mut chosen] = [1, 2, 3].map(|mark| lent::codes(MATRIX_SIZE, mark));
    let both = time(|| {
        let matrix = black_box(&mut matrix);
        let (tree, _, _) = plain::build(matrix, &weights, n, m, ADVANCE);
        black_box(plain::fit(matrix, &weights, n, m, &tree, &mut low, &mut high, &mut chosen));
    });
    let floor = time(|| {
        black_box(plain::floor(black_box(&matrix), &weights, n, m));
    });
    let branches = branches(&matrix, &weights, n, m);
    let index = time(|| {
        black_box(plain::index(black_box(&matrix), &weights, n, m, &branches));
    });
    let mut out = Vec::with_capacity(OUTPUT_SIZE);
    let whole = time(|| {
        out = plain::list(black_box(file), std::mem::take(&mut out)).unwrap();
        black_box(&out);
    });
    let file = own_file(file);
    let own = time(|| {
        out = plain::list(black_box(&file), std::mem::take(&mut out)).unwrap();
        black_box(&out);
    });
    Parts { read, network, build, closest, both, floor, index, whole, own }
}

/// The parts of the reference.
fn theirs(file: &[u8]) -> Parts {
    let read_time = time(|| {
        black_box(read(black_box(file), IN_FORCE).unwrap());
    });
    let data: Data = read(file, IN_FORCE).unwrap().data;
    let network = time(|| {
        black_box(prim_network(black_box(&data)).unwrap());
    });
    let mut built_data = data.clone();
    let build_time = time(|| {
        black_box(build(black_box(&mut built_data), Order::Advance).unwrap());
    });
    let closest = time(|| {
        black_box(build(black_box(&mut built_data), Order::Closest).unwrap());
    });
    let both = time(|| {
        let built = build(black_box(&mut built_data), Order::Advance).unwrap();
        black_box(fit(black_box(&data), &built.branches).unwrap());
        black_box(ranges(black_box(&data), &built.branches).unwrap());
    });
    let floor = time(|| {
        black_box(floor(black_box(&data)).unwrap());
    });
    let branches = build(&mut built_data, Order::Advance).unwrap().branches;
    let index = time(|| {
        black_box(consistency(black_box(&data), &branches).unwrap());
    });
    let whole = time(|| {
        black_box(listing(black_box(file), IN_FORCE));
    });
    let file = own_file(file);
    let own = time(|| {
        black_box(listing(black_box(&file), IN_FORCE));
    });
    Parts { read: read_time, network, build: build_time, closest, both, floor, index, whole, own }
}

/// Prints the times of one part.
fn line(name: &str, ours: f64, plain: f64, theirs: f64) {
    let (slower, faster) = (ours / plain, theirs / ours);
    println!("  {name:8} {ours:10.1} {plain:10.1} {slower:6.1} {theirs:12.1} {faster:8.1}");
}

/// How ours grows along one side of the matrix, with the factor by which the
/// whole grows from line to line.
fn growth(sizes: [(usize, usize); 4]) {
    let mut before = f64::NAN;
    for (n, m) in sizes {
        let file = file(n, m);
        let parts = rounds(|| ours(&file));
        print!("  {n:3} x {m:3}");
        for part in parts {
            print!(" {part:9.1}");
        }
        let whole = parts[COUNT - 1];
        println!(" {:8.2}", whole / before);
        before = whole;
    }
}

/// Ours and the plain loops on a file with weights and on the same one without.
fn with_and_without(n: usize, m: usize) {
    let without = file(n, m);
    let with = files::weighted(&without, m);
    let [a, b] = rounds_of_both(ours, [&with, &without]);
    let [c, d] = rounds_of_both(plain_loops, [&with, &without]);
    println!("{n} x {m}");
    for (i, name) in NAMES.iter().enumerate() {
        print!("  {name:8} {:10.1} {:10.1} {:6.2}", a[i], b[i], a[i] / b[i]);
        println!(" {:12.1} {:10.1} {:6.2}", c[i], d[i], c[i] / d[i]);
    }
}

fn main() {
    println!("microseconds; ours, plain loops and how many times as long ours takes,");
    println!("the reference and how many times as long it takes");
    for (n, m) in [(8, 8), (32, 64), (64, 128)] {
        let file = file(n, m);
        let a = rounds(|| ours(&file));
        let b = rounds(|| plain_loops(&file));
        let c = rounds(|| theirs(&file));
        println!("{n} x {m}");
        for (i, name) in NAMES.iter().enumerate() {
            line(name, a[i], b[i], c[i]);
        }
    }
    println!("ours with weights, without, and how many times as long with them;");
    println!("the same of plain loops");
    with_and_without(64, 128);
    println!("growth of ours with n: {}, factor of the whole", NAMES.join(", "));
    growth([8, 16, 32, 64].map(|n| (n, 128)));
    println!("growth of ours with m: {}, factor of the whole", NAMES.join(", "));
    growth([16, 32, 64, 128].map(|m| (64, m)));
}
