//! The steps of the part `references`, as `src/over_references.rt` takes them, answered by the reference.
use crate::cases::{Step, change};
use wagner_reference::data::{refuse, Branch, Data, Refusal, BRANCH_RECORDS};
use wagner_reference::ranges::Range;
use wagner_reference::tree::{place, Branching, Tree};
use wagner_reference::{fit, measure, questions, ranges};

const OTHER: Branch = Branch { node: 200, ancestor: 201, length: 202 };

fn refused(why: Refusal) {
    println!("R\t{}\t{}", why.number, why.line);
}

fn show_row(data: &Data, v: usize) {
    let row = &data.matrix[v - 1];
    println!("M\t{}\t{}\t{}\t{}", v, row[0].low, row[1].low, row[2].low);
}

/// The records of a finished tree written over a list, after the questions of document 01: sizes, limits, codes of the taxa, whether the
/// tree is a branching, codes of its HTUs.
fn write(data: &Data, tree: &Tree, list: &mut [Branch]) -> Result<(), Refusal> {
    questions::branch_size(list)?;
    questions::builder(data)?;
    let mut records = vec![Branch::BLANK; BRANCH_RECORDS];
    for v in 2..=2 * data.n - 1 {
        if v <= data.node_count() {
            records[v - 2] = Branch { node: v, ancestor: tree.ancestor_of(v), length: 0 };
        }
    }
    if Branching::from_records(data.n, &records).is_none() {
        return refuse(14);
    }
    let nodes: Vec<usize> = (1..=data.node_count()).collect();
    questions::htu_rows(data, &nodes)?;
    for v in 2..=data.node_count() {
        let length = measure::difference(data, v, tree.ancestor_of(v))?;
        list[v - 2] = Branch { length, ..records[v - 2] };
    }
    Ok(())
}

struct Work {
    data: Data,
    /// How many codes, weights and chosen states are lent.
    sizes: [usize; 3],
    tree: Tree,
    records: Vec<Branch>,
    /// The matrix and the records that the three lists hold the fit of.
    fitted: Option<(Data, Vec<Branch>)>,
}

impl Work {
    fn new() -> Work {
        let data = Data::blank(1, 1);
        let tree = Tree::row_one();
        Work { data, sizes: [16128, 128, 16128], tree, records: vec![OTHER; BRANCH_RECORDS], fitted: None }
    }
    /// The matrix as it is lent: where not all codes are lent, with a row too few.
    fn lent(&self, n: usize, m: usize) -> Data {
        let mut data = self.data.clone();
        (data.n, data.m) = (n, m);
        data.weights.truncate(self.sizes[1]);
        if self.sizes[0] < 16128 {
            data.matrix.pop();
        }
        data
    }
    fn place(&mut self, n: usize, m: usize, b: usize) {
        let mut data = self.lent(n, m);
        match place(&mut data, &mut self.tree, b) {
            Ok(p) => {
                let (lower, htu) = (p.lower.unwrap_or(0), p.htu.unwrap_or(0));
                println!("W\t{}\t{}\t{}\t{}\t{}", p.taxon, lower, p.upper, htu, p.added);
            }
            Err(why) => refused(why),
        }
        self.data.matrix = data.matrix;
        for v in (1..127).filter(|&v| self.tree.ancestor_of(v) != 0) {
            println!("A\t{}\t{}", v, self.tree.ancestor_of(v));
        }
        show_row(&self.data, 5);
        show_row(&self.data, 6);
    }
    fn write(&mut self, n: usize, m: usize, tree: &Tree) {
        self.records = vec![OTHER; BRANCH_RECORDS];
        if let Err(why) = write(&self.lent(n, m), tree, &mut self.records) {
            refused(why);
        }
        for i in [0, 1, 2, 3, 4, 5, 124] {
            let Branch { node, ancestor, length } = self.records[i];
            println!("B\t{node}\t{ancestor}\t{length}");
        }
    }
    /// The questions of a fit, the list's size first, then the fit.
    fn fitted(&self, data: &Data, records: &[Branch]) -> Result<fit::Fit, Refusal> {
        if self.sizes[2] != 16128 {
            return refuse(12);
        }
        fit::fit(data, records)
    }
    fn fit(&mut self, n: usize, m: usize, records: &[Branch]) {
        let data = self.lent(n, m);
        match self.fitted(&data, records) {
            Ok(found) => {
                for v in 2..found.lengths.len() {
                    let mark = if found.lengths[v] > 0 { '+' } else { '-' };
                    println!("T\t{}\t{}\t{}", v, found.lengths[v], mark);
                }
                println!("t\t{}", found.total);
                self.fitted = Some((data, records.to_vec()));
            }
            Err(why) => refused(why),
        }
        self.node(5);
    }
    /// What the three lists hold for a node: the states of an HTU in the matrix's characters, where a fit has been written, and 7 elsewhere.
    fn node(&self, v: usize) {
        for j in 1..=4 {
            let (mut low, mut high, mut chosen) = (7, 7, 7);
            if let Some((data, records)) = self.fitted.as_ref().filter(|(data, _)| v > data.n && j <= data.m) {
                chosen = fit::fit(data, records).unwrap().chosen[v][j - 1];
                match ranges::range(data, records, v, j).unwrap() {
                    Range::Ordered(ends) => (low, high) = (ends.low, ends.high),
                    _ => panic!("an ordered character"),
                }
            }
            println!("H\t{}\t{}\t{}\t{}\t{}", v, j, low, high, chosen);
        }
    }
    fn step(&mut self, word: &str, numbers: &[i32]) {
        if change(&mut self.data, word, numbers) {
            return;
        }
        let counts: Vec<usize> = numbers.iter().map(|&number| number as usize).collect();
        match (word, &counts[..]) {
            ("begin", []) => *self = Work::new(),
            ("sizes", &[matrix, weights, chosen]) => self.sizes = [matrix, weights, chosen],
            ("place", &[n, m, b]) => self.place(n, m, b),
            ("write", &[n, m]) => self.write(n, m, &self.tree.clone()),
            ("write_alone", &[n, m]) => self.write(n, m, &Tree::row_one()),
            ("fit", &[n, m]) => self.fit(n, m, &self.records.clone()),
            ("fit_others", &[n, m]) => self.fit(n, m, &vec![OTHER; BRANCH_RECORDS]),
            ("node", &[v]) => self.node(v),
            _ => panic!("no step: {word} {numbers:?}"),
        }
    }
}

pub fn run(steps: Vec<Step>) {
    let mut work = Work::new();
    for (word, numbers) in steps {
        work.step(&word, &numbers);
    }
}
