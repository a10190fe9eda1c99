//! The steps of the part `trees`, as `src/trees.rt` takes them, answered by the reference.
use crate::cases::{Step, change, digest, lent, size};
use wagner_reference::data::{Branch, Data, Refusal};
use wagner_reference::tree::{build, place, Order, Placement, Tree};

struct Work {
    data: Data,
    order: Order,
    tree: Pairs,
}

fn line(letter: &str, fields: &[u64]) {
    let mut text = letter.to_string();
    for field in fields {
        text += &format!("\t{field}");
    }
    println!("{text}");
}

fn print_placement(p: &Placement) {
    let (lower, htu) = (p.lower.unwrap_or(0), p.htu.unwrap_or(0));
    line("W", &[p.taxon as u64, lower as u64, p.upper as u64, htu as u64, p.added as u64]);
}

/// Immediate ancestors by node number, changed as a link and a hanging change them.
#[derive(Clone, Copy)]
struct Pairs([usize; 127]);

impl Pairs {
    fn alone() -> Pairs {
        Pairs([0; 127])
    }
    fn link(mut self, b: usize) -> Pairs {
        self.0[b] = 1;
        self
    }
    fn hang(mut self, b: usize, c: usize, y: usize) -> Pairs {
        let above = self.0[c];
        self.0[y] = above;
        self.0[c] = y;
        self.0[b] = y;
        self
    }
    fn tree(&self, n: usize) -> Tree {
        let pairs: Vec<(usize, usize)> =
            (1..127).filter(|&v| self.0[v] != 0).map(|v| (v, self.0[v])).collect();
        Tree::with_ancestors(n, &pairs)
    }
    fn of(tree: &Tree) -> Pairs {
        let mut all = [0; 127];
        for v in 1..127 {
            all[v] = tree.ancestor_of(v);
        }
        Pairs(all)
    }
}

fn print_refusal(refusal: Refusal) {
    line("R", &[refusal.number as u64, 0]);
}

fn print_tree(tree: &Tree) -> Pairs {
    let pairs = Pairs::of(tree);
    for v in (0..127).filter(|&v| pairs.0[v] != 0) {
        line("A", &[v as u64, pairs.0[v] as u64]);
    }
    pairs
}

impl Work {
    fn show(&mut self, n: usize, m: usize) {
        self.data.n = n;
        self.data.m = m;
        match build(&mut self.data, self.order) {
            Ok(built) => {
                built.placements.iter().for_each(print_placement);
                line("w", &[built.length as u64]);
                for branch in built.branches.iter().filter(|b| **b != Branch::BLANK) {
                    line("B", &[branch.node as u64, branch.ancestor as u64, branch.length as u64]);
                }
            }
            Err(refusal) => print_refusal(refusal),
        }
        digest(&self.data);
    }
    fn place(&mut self, n: usize, m: usize, b: usize) {
        self.data.n = n;
        self.data.m = m;
        let mut tree = self.tree.tree(n);
        match place(&mut self.data, &mut tree, b) {
            Ok(placement) => print_placement(&placement),
            Err(refusal) => print_refusal(refusal),
        }
        self.tree = print_tree(&tree);
        digest(&self.data);
    }
    /// Sets the order or the tree; whether the step says so.
    fn set(&mut self, word: &str, numbers: &[i32]) -> bool {
        match word {
            "advance" => self.order = Order::Advance,
            "closest" => self.order = Order::Closest,
            "alone" => self.tree = Pairs::alone(),
            "link" => self.tree = self.tree.link(size(numbers, 0)),
            "hang" => self.tree = self.tree.hang(size(numbers, 0), size(numbers, 1), size(numbers, 2)),
            _ => return false,
        }
        true
    }
    fn take(&mut self, word: &str, numbers: &[i32]) {
        if change(&mut self.data, word, numbers) || self.set(word, numbers) {
            return;
        }
        match word {
            "show" => self.show(size(numbers, 0), size(numbers, 1)),
            "place" => self.place(size(numbers, 0), size(numbers, 1), size(numbers, 2)),
            "sizes" => sizes(size(numbers, 0), size(numbers, 1), self.order),
            word => panic!("no step {word}"),
        }
    }
}

/// What a build and a placement answer where so many codes and weights are lent.
fn sizes(codes: usize, weights: usize, order: Order) {
    let mut data = lent(&Data::blank(0, 0), codes, weights);
    print_refusal(build(&mut data, order).unwrap_err());
    data.n = 3;
    data.m = 1;
    let mut two = Pairs::alone().link(2).link(3).tree(3);
    print_refusal(place(&mut data, &mut two, 9).unwrap_err());
    print_tree(&two);
}

pub fn run(steps: Vec<Step>) {
    let mut work = Work { data: Data::blank(0, 0), order: Order::Advance, tree: Pairs::alone() };
    for (word, numbers) in steps {
        work.take(&word, &numbers);
    }
}
