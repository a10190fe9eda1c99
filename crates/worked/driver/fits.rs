//! The steps of the part `fits`, as `src/fits.rt` takes them, answered by the reference. A lent list of states has the matrix's
//! shape and is kept as a matrix is.
use crate::cases::{Step, change, digest};
use wagner_reference::data::{full_size, Branch, Data, Ends, Refusal};
use wagner_reference::ranges::Range;
use wagner_reference::tree::{build, Order};
use wagner_reference::{fit, questions, ranges};

fn records_of(ancestors: &[usize]) -> Vec<Branch> {
    let list: Vec<Branch> = ancestors
        .iter()
        .enumerate()
        .map(|(i, &ancestor)| Branch { node: i + 2, ancestor, length: 0 })
        .collect();
    full_size(&list)
}

/// The HTUs numbered from the last to the first.
fn shuffled(records: &[Branch], n: usize) -> Vec<Branch> {
    let renumbered = |v: usize| if v > n { 3 * n - 1 - v } else { v };
    let mut other = vec![Branch::BLANK; records.len()];
    for record in records.iter().filter(|r| r.node != 0) {
        let node = renumbered(record.node);
        other[node - 2] = Branch { node, ancestor: renumbered(record.ancestor), length: 0 };
    }
    other
}

fn refused(why: Refusal) {
    println!("R\t{}\t{}", why.number, why.line);
}

fn filled_with(code: i32) -> Data {
    let mut list = Data::blank(1, 1);
    for row in &mut list.matrix {
        for ends in row.iter_mut() {
            *ends = Ends::single(code);
        }
    }
    list
}

/// A list of the matrix's shape with so many codes: its last row is cut or goes on with zeros.
fn of_size(list: &Data, size: i32) -> Data {
    let mut list = list.clone();
    let before: usize = list.matrix[..125].iter().map(Vec::len).sum();
    list.matrix[125].resize(size as usize - before, Ends::single(0));
    list
}

/// The questions of a fit, the lists' sizes first, then the fit.
fn fitted(codes: &Data, lists: [&Data; 3], records: &[Branch]) -> Result<fit::Fit, Refusal> {
    for list in lists {
        questions::sizes(list)?;
    }
    fit::fit(codes, records)
}

struct Work {
    codes: Data,
    records: Vec<Branch>,
    low: Data,
    high: Data,
    chosen: Data,
}

impl Work {
    /// Writes the states of the HTUs into the three lists.
    fn write(&mut self, found: &fit::Fit) {
        let all = ranges::ranges(&self.codes, &self.records).unwrap();
        for v in self.codes.n + 1..found.lengths.len() {
            for j in 0..self.codes.m {
                let Range::Ordered(ends) = all.ranges[v][j] else { panic!("an unordered character") };
                self.low.matrix[v - 1][j] = Ends::single(ends.low);
                self.high.matrix[v - 1][j] = Ends::single(ends.high);
                self.chosen.matrix[v - 1][j] = Ends::single(found.chosen[v][j]);
            }
        }
    }
    fn total(&self) {
        match fit::fit(&self.codes, &self.records) {
            Ok(found) => println!("t\t{}", found.total),
            Err(why) => refused(why),
        }
    }
    fn digests(&self) {
        digest(&self.low);
        digest(&self.high);
        digest(&self.chosen);
    }
    fn fit(&mut self, n: usize, m: usize) {
        self.codes.n = n;
        self.codes.m = m;
        match fitted(&self.codes, [&self.low, &self.high, &self.chosen], &self.records) {
            Ok(found) => {
                for v in 2..found.lengths.len() {
                    println!("T\t{}\t{}\t{}", v, found.lengths[v], if found.lengths[v] > 0 { '+' } else { '-' });
                }
                println!("t\t{}", found.total);
                self.write(&found);
            }
            Err(why) => refused(why),
        }
        self.total();
        self.digests();
    }
    fn node(&mut self, n: usize, m: usize, v: usize, j: usize) {
        self.codes.n = n;
        self.codes.m = m;
        match ranges::range(&self.codes, &self.records, v, j) {
            Ok(Range::Ordered(ends)) => {
                let chosen = fit::fit(&self.codes, &self.records).unwrap().chosen[v][j - 1];
                println!("H\t{}\t{}\t{}\t{}\t{}", v, j, ends.low, ends.high, chosen);
            }
            Ok(_) => panic!("an unordered character"),
            Err(why) => refused(why),
        }
    }
    fn states(&mut self, n: usize, m: usize) {
        self.fit(n, m);
        let last = self.codes.node_count();
        for v in 1..=last {
            for j in 1..=m {
                self.node(n, m, v, j);
            }
        }
        for v in n + 1..=last {
            for j in 1..=m {
                let (low, high) = (self.low.code(v, j), self.high.code(v, j));
                println!("H\t{}\t{}\t{}\t{}\t{}", v, j, low, high, self.chosen.code(v, j));
            }
        }
    }
    fn own(&mut self, n: usize, m: usize) {
        self.codes.n = n;
        self.codes.m = m;
        self.records = build(&mut self.codes, Order::Advance).unwrap().branches;
        self.fit(n, m);
        self.total();
        self.digests();
        self.records = shuffled(&self.records, n);
        self.fit(n, m);
        digest(&self.codes);
    }
    /// The matrix with so many codes, weights of 1 of such a number, and these numbers of taxa and characters.
    fn codes_of(&self, n: i32, m: i32, matrix: i32, weights: i32) -> Data {
        Data { n: n as usize, m: m as usize, weights: vec![1; weights as usize], ..of_size(&self.codes, matrix) }
    }
    /// The fit by a matrix, weights and lists of these sizes, of which one is not the full size.
    fn fit_of_sizes(&self, numbers: &[i32]) {
        let &[n, m, matrix, weights, low, high, chosen] = numbers else { panic!("sizes are seven numbers") };
        let lists = [of_size(&self.low, low), of_size(&self.high, high), of_size(&self.chosen, chosen)];
        refused(fitted(&self.codes_of(n, m, matrix, weights), lists.each_ref(), &self.records).unwrap_err());
    }
    /// The other calls by a matrix and weights of these sizes, of which one is not the full size.
    fn others_of_sizes(&self, numbers: &[i32]) {
        let &[n, m, matrix, weights] = numbers else { panic!("sizes are four numbers") };
        let codes = self.codes_of(n, m, matrix, weights);
        refused(fit::fit(&codes, &self.records).unwrap_err());
        refused(ranges::range(&codes, &self.records, 9, 9).unwrap_err());
    }
    fn step(&mut self, word: &str, numbers: &[i32]) {
        if change(&mut self.codes, word, numbers) {
            return;
        }
        let counts: Vec<usize> = numbers.iter().map(|&number| number as usize).collect();
        match (word, &counts[..]) {
            ("ancestors", ancestors) => self.records = records_of(ancestors),
            ("record", &[v, node, ancestor]) => self.records[v - 2] = Branch { node, ancestor, length: 0 },
            ("fit", &[n, m]) => self.fit(n, m),
            ("states", &[n, m]) => self.states(n, m),
            ("node", &[n, m, v, j]) => self.node(n, m, v, j),
            ("own", &[n, m]) => self.own(n, m),
            ("fit_of_sizes", _) => self.fit_of_sizes(numbers),
            ("others_of_sizes", _) => self.others_of_sizes(numbers),
            ("ends", []) => {
                digest(&self.low);
                digest(&self.high);
            }
            _ => panic!("no step: {word} {numbers:?}"),
        }
    }
}

pub fn run(steps: Vec<Step>) {
    let mut work =
        Work { codes: filled_with(0), records: records_of(&[]), low: filled_with(-1), high: filled_with(-2), chosen: filled_with(-3) };
    for (word, numbers) in steps {
        work.step(&word, &numbers);
    }
}
