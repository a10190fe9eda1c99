//! Read, network, build, fit, floor and index, each held to the reference: what
//! is handed back, and every item of the lent lists, also on refusals.

use compare::{kind_number, lent, order_number, FileRead, Indexed, Measured, IN_FORCE};
use compare::{BRANCHES_SIZE, MATRIX_SIZE, NAMES_SIZE, NO_ORDER, OWN, WEIGHTS_SIZE};
use wagner_reference::consistency::{consistency, floor};
use wagner_reference::data::{Data, Ends};
use wagner_reference::files::Random;
use wagner_reference::fit::fit;
use wagner_reference::listing::listing;
use wagner_reference::network::{network_length, prim_network};
use wagner_reference::ranges::ranges;
use wagner_reference::read::{read, File};
use wagner_reference::tree::{build, Order};

mod damage;
mod printed;
mod seeds;

const ORDERS: [Order; 2] = [Order::Advance, Order::Closest];

/// Numbers that are of no order.
const NO_ORDERS: [u64; 3] = [0, 3, u64::MAX];

/// Bytes that are no weights.
const NO_WEIGHTS: [u8; 3] = [0, 10, 255];

/// Codes that are out of range.
const NO_CODES: [i32; 4] = [-1000, 1000, i32::MIN, i32::MAX];

/// Pairs of n and m that are out of limits.
const NO_LIMITS: [(usize, usize); 6] =
    [(0, 1), (1, 0), (65, 1), (1, 129), (usize::MAX, 1), (2, usize::MAX)];

/// Sizes that are not the one of a lent branching.
const NO_BRANCHES_SIZES: [usize; 6] =
    [0, 1, BRANCHES_SIZE - 3, BRANCHES_SIZE - 1, BRANCHES_SIZE + 1, 2 * BRANCHES_SIZE];

/// The sizes of the further lists of a fit.
const FULL: [usize; 3] = [MATRIX_SIZE; 3];

/// The sizes of the four lists that are lent to a read.
const READ_SIZES: [usize; 4] = [MATRIX_SIZE, WEIGHTS_SIZE, NAMES_SIZE, BRANCHES_SIZE];

/// The four lists that are lent to a read.
#[derive(Clone, PartialEq)]
struct Lists {
    matrix: Vec<i32>,
    weights: Vec<u8>,
    names: Vec<u8>,
    branches: Vec<usize>,
}

impl Lists {
    /// Lists of these sizes in which every write shows.
    fn of([matrix, weights, names, branches]: [usize; 4]) -> Lists {
        let (matrix, branches) = (lent::codes(matrix, 0), lent::numbers(branches));
        Lists { matrix, weights: lent::bytes(weights), names: lent::bytes(names), branches }
    }

    /// A read into these lists.
    fn read(&mut self, file: &[u8]) -> FileRead {
        let Lists { matrix, weights, names, branches } = self;
        compare::read(file, matrix, weights, names, branches)
    }

    /// A read by the plain loops.
    fn read_plain(&mut self, file: &[u8]) -> Option<FileRead> {
        let Lists { matrix, weights, names, branches } = self;
        compare::plain::read(file, matrix, weights, names, branches)
    }

    /// Writes what an accepted file says over these lists.
    fn write(&mut self, file: &File) {
        lent::write_rows(&mut self.matrix, &file.data, 1, file.data.n);
        lent::write_weights(&mut self.weights, &file.data);
        lent::write_names(&mut self.names, &file.names);
        lent::write_branches(&mut self.branches, file);
    }
}

/// The refusal of a read.
fn read_refused(refusal: u64, line: usize) -> FileRead {
    FileRead { refusal, line, kind: 0, n: 0, m: 0, order: 0 }
}

/// The answer of a read that accepts a file.
fn read_is(file: &File) -> FileRead {
    let (n, m) = (file.data.n, file.data.m);
    let kind = kind_number(file.kind);
    let order = if kind == OWN { NO_ORDER } else { order_number(file.order) };
    FileRead { refusal: 0, line: 0, kind, n, m, order }
}

/// A read of these bytes: the answer, and the four lists afterwards. Hands back
/// the matrix with its weights, and the lent records, or the number of the
/// refusal.
fn check_read(file: &[u8]) -> Result<(Data, Vec<usize>), u64> {
    let mut lists = Lists::of(READ_SIZES);
    let (mut held, mut plain) = (lists.clone(), lists.clone());
    let answer = lists.read(file);
    let expected = read(file, IN_FORCE);
    match &expected {
        Err(why) => assert_eq!(answer, read_refused(u64::from(why.number), why.line)),
        Ok(file) => {
            assert_eq!(answer, read_is(file));
            held.write(file);
        }
    }
    assert!(lists == held);

    match plain.read_plain(file) {
        None => assert!(expected.is_err()),
        Some(header) => {
            assert_eq!(header, answer);
            assert!(plain == held);
        }
    }
    expected.map(|file| (file.data, lists.branches)).map_err(|why| u64::from(why.number))
}

/// A read into lists of these sizes is refused by 12, each list as before.
fn check_sizes_refused(file: &[u8], sizes: [usize; 4]) {
    let mut lists = Lists::of(sizes);
    assert_eq!(lists.read(file), read_refused(12, 0));
    assert!(lists == Lists::of(sizes));
}

/// The answer of a call on a lent matrix with this length.
fn is(length: i64) -> Measured {
    Measured { refusal: 0, length: length as u64 }
}

/// The network of a matrix that the read has accepted, with lent weights.
fn check_network(data: &Data, weights: &[u8]) {
    let (n, m) = (data.n, data.m);
    let (matrix, held) = (lent::matrix_of(data), weights.to_vec());
    let length = network_length(&prim_network(data).unwrap());
    assert_eq!(compare::network(&matrix, weights, n, m), is(length));
    assert!(matrix == lent::matrix_of(data) && weights == held);
    assert_eq!(compare::plain::network(&matrix, weights, n, m).1, length as u64);
}

/// The floor of such a matrix.
fn check_floor(data: &Data, weights: &[u8]) {
    let (n, m) = (data.n, data.m);
    let (matrix, held) = (lent::matrix_of(data), weights.to_vec());
    let length = floor(data).unwrap();
    assert_eq!(compare::floor(&matrix, weights, n, m), is(length));
    assert!(matrix == lent::matrix_of(data) && weights == held);
    assert_eq!(compare::plain::floor(&matrix, weights, n, m), length as u64);
}

/// The answer with this index, or with none for a total of 0.
fn index_is(index: Option<(u64, u64)>) -> Indexed {
    let (quotient, remainder) = index.unwrap_or((0, 0));
    Indexed { refusal: 0, divided: u64::from(index.is_some()), quotient, remainder }
}

/// The refusal of an index.
fn index_refused(refusal: u64) -> Indexed {
    Indexed { refusal, divided: 0, quotient: 0, remainder: 0 }
}

/// The index of such a matrix on a lent branching, or refusal 14 where the
/// records are none. Hands back the answer.
fn check_index(data: &Data, weights: &[u8], branches: &[usize]) -> Indexed {
    let (n, m) = (data.n, data.m);
    let (matrix, held_weights) = (lent::matrix_of(data), weights.to_vec());
    let held = branches.to_vec();
    let answer = compare::index(&matrix, weights, n, m, branches);
    assert!(matrix == lent::matrix_of(data) && weights == held_weights && branches == held);
    match consistency(data, &lent::records_of(branches)) {
        Err(why) => assert_eq!((14, index_refused(14)), (why.number, answer)),
        Ok(found) => {
            let found = found.map(|(quotient, remainder)| (quotient as u64, remainder as u64));
            assert_eq!(answer, index_is(found));
            assert_eq!(compare::plain::index(&matrix, weights, n, m, branches), found);
        }
    }
    answer
}

/// The index of a listing, by its `c` line.
fn printed_index(listing: &str) -> Indexed {
    let line = listing.lines().find_map(|line| line.strip_prefix("c\t")).unwrap();
    let (quotient, remainder) = line.split_once('\t').unwrap();
    index_is(quotient.parse().ok().zip(remainder.parse().ok()))
}

/// The index of the tree in the reference's listing of a file is the one in
/// its `c` line. Hands it back.
fn check_printed(file: &[u8], data: &Data, weights: &[u8]) -> Indexed {
    let text = listing(file, IN_FORCE);
    let branches = lent::branches_of(printed::ancestors(&text));
    let answer = check_index(data, weights, &branches);
    assert_eq!(answer, printed_index(&text));
    answer
}

/// A lent branching of n taxa with length 0 in its records.
fn without_lengths(branches: &[usize], n: usize) -> Vec<usize> {
    let mut list = branches.to_vec();
    list.iter_mut()
        .take((6 * n).saturating_sub(9))
        .skip(2)
        .step_by(3)
        .for_each(|length| *length = 0);
    list
}

/// The branching that the read of an `F` file hands back is the tree in the
/// reference's listing of the file, and the index on it the one in its `c` line.
/// Hands it back.
fn check_own(file: &[u8], data: &Data, weights: &[u8], branches: &[usize]) -> Indexed {
    let text = listing(file, IN_FORCE);
    let printed = lent::branches_of(printed::ancestors(&text));
    assert!(*branches == without_lengths(&printed, data.n));
    let answer = check_index(data, weights, branches);
    assert_eq!(answer, printed_index(&text));
    answer
}

/// Build and fit of such a matrix in an order of placing, and the index of the
/// tree.
fn check_tree(mut data: Data, weights: &[u8], order: Order) {
    let (n, m, number) = (data.n, data.m, order_number(order));
    let (start, held_weights) = (lent::matrix_of(&data), weights.to_vec());
    let built = build(&mut data, order).unwrap();
    let mut held = start.clone();
    lent::write_rows(&mut held, &data, 1, data.node_count());
    let mut matrix = start.clone();
    assert_eq!(compare::build(&mut matrix, weights, n, m, number), is(built.length));
    assert!(matrix == held);

    let mut again = start.clone();
    let lists = [1, 2, 3].map(|mark| lent::codes(MATRIX_SIZE, mark));
    let [mut low, mut high, mut chosen] = lists.clone();
    let answer = compare::fit(&mut again, weights, n, m, number, &mut low, &mut high, &mut chosen);
    let fitted = fit(&data, &built.branches).unwrap();
    let found = ranges(&data, &built.branches).unwrap();
    assert_eq!(answer, is(fitted.total));
    let [mut held_low, mut held_high, mut held_chosen] = lists.clone();
    lent::write_ranges(&mut held_low, &mut held_high, &data, &found);
    lent::write_chosen(&mut held_chosen, &data, &fitted.chosen);
    assert!(again == held && weights == held_weights);
    assert!(low == held_low && high == held_high && chosen == held_chosen);
    let ancestors = (2..=data.node_count()).map(|v| built.tree.ancestor_of(v));
    check_index(&data, weights, &lent::branches_of(ancestors));

    let mut plain = start;
    let (tree, _, length) = compare::plain::build(&mut plain, weights, n, m, number);
    assert_eq!(length, built.length as u64);
    assert!(plain == held);
    let [mut low, mut high, mut chosen] = lists;
    let (_, total) =
        compare::plain::fit(&plain, weights, n, m, &tree, &mut low, &mut high, &mut chosen);
    assert_eq!(total, fitted.total as u64);
    assert!(low == held_low && high == held_high && chosen == held_chosen);
}

/// Network, floor, build, fit and index of such a matrix with lent weights.
fn check_accepted(data: &Data, weights: &[u8]) {
    check_network(data, weights);
    check_floor(data, weights);
    for order in ORDERS {
        check_tree(data.clone(), weights, order);
    }
}

/// Build and fit with this number for the order are refused by the number,
/// every list as before; the build only where the further lists of a fit, of
/// which it takes none, are full.
fn check_tree_refused(
    matrix: &[i32],
    weights: &[u8],
    n: usize,
    m: usize,
    order: u64,
    sizes: [usize; 3],
    number: u64,
) {
    let refusal = Measured { refusal: number, length: 0 };
    let (mut work, held) = (matrix.to_vec(), weights.to_vec());
    if sizes == FULL {
        assert_eq!(compare::build(&mut work, weights, n, m, order), refusal);
        assert!(work == matrix);
    }
    let lists = [0, 1, 2].map(|i| lent::codes(sizes[i], i as i32 + 1));
    let [mut low, mut high, mut chosen] = lists.clone();
    let answer = compare::fit(&mut work, weights, n, m, order, &mut low, &mut high, &mut chosen);
    assert_eq!(answer, refusal);
    assert!(work == matrix && weights == held && [low, high, chosen] == lists);
}

/// An index is refused by the number, whether the records are a branching or
/// not, and by 12 where their list has another size; every list as before.
fn check_index_refused(matrix: &[i32], weights: &[u8], n: usize, m: usize, number: u64) {
    let (held, held_weights) = (matrix.to_vec(), weights.to_vec());
    let check = |branches: &[usize], number| {
        let held_branches = branches.to_vec();
        assert_eq!(compare::index(matrix, weights, n, m, branches), index_refused(number));
        assert!(matrix == held && weights == held_weights && branches == held_branches);
    };
    let sound = any_branching(&mut Random(number), n.clamp(1, 64));
    check(&sound, number);
    check(&lent::numbers(BRANCHES_SIZE), number);
    for size in NO_BRANCHES_SIZES {
        check(&resized(&sound, size), 12);
        check(&lent::numbers(size), 12);
    }
}

/// Calls on a lent matrix that is refused by the number in each order. A number
/// of no order is refused by 15, unless a size was.
fn check_refused(
    matrix: &[i32],
    weights: &[u8],
    n: usize,
    m: usize,
    sizes: [usize; 3],
    number: u64,
) {
    if sizes == FULL {
        let refusal = Measured { refusal: number, length: 0 };
        assert_eq!(compare::network(matrix, weights, n, m), refusal);
        assert_eq!(compare::floor(matrix, weights, n, m), refusal);
        check_index_refused(matrix, weights, n, m, number);
    }
    for order in ORDERS {
        check_tree_refused(matrix, weights, n, m, order_number(order), sizes, number);
    }
    for order in NO_ORDERS {
        let first = if number == 12 { 12 } else { 15 };
        check_tree_refused(matrix, weights, n, m, order, sizes, first);
    }
}

/// A matrix of at most this many taxa and characters with codes and weights at
/// random.
fn any_data(random: &mut Random, most_taxa: usize, most_characters: usize) -> Data {
    let mut data = Data::blank(random.between(1, most_taxa), random.between(1, most_characters));
    for code in data.matrix.iter_mut().flatten() {
        *code = Ends::single(random.code(-999, 999));
    }
    for weight in &mut data.weights {
        *weight = random.code(1, 9);
    }
    data
}

/// A branching of n taxa at random, as it is lent: the taxa are hung in any
/// order on any branch, and the HTUs are numbered in any order.
fn any_branching(random: &mut Random, n: usize) -> Vec<usize> {
    let mut taxa: Vec<usize> = (2..=n).collect();
    let mut htus: Vec<usize> = (n + 1..2 * n - 1).collect();
    random.shuffle(&mut taxa);
    random.shuffle(&mut htus);
    let mut ancestor = vec![1; 2 * n];
    let mut nodes = Vec::new();
    for b in taxa {
        if !nodes.is_empty() {
            let (c, y) = (random.pick(&nodes), htus.pop().unwrap());
            ancestor[y] = ancestor[c];
            ancestor[c] = y;
            ancestor[b] = y;
            nodes.push(y);
        }
        nodes.push(b);
    }
    lent::branches_of((2..2 * n - 1).map(|v| ancestor[v]))
}

/// A list of this size that begins with a lent branching.
fn resized(branches: &[usize], size: usize) -> Vec<usize> {
    let mut list = lent::numbers(size);
    list.iter_mut().zip(branches).for_each(|(place, number)| *place = *number);
    list
}

/// Changes one number of a record of a branching, or exchanges two ancestors or
/// two records: it may be a branching still.
fn change_record(random: &mut Random, branches: &mut [usize], n: usize) {
    let (u, v) = (3 * random.below(2 * n - 3), 3 * random.below(2 * n - 3));
    match random.below(5) {
        0 => branches[u] = random.pick(&[0, 1, branches[v], 126, 127, usize::MAX]),
        1 => branches[u + 1] = random.between(0, 2 * n),
        2 => branches[u + 1] = random.pick(&[0, 1, 125, 126, 127, 128, usize::MAX]),
        3 => branches.swap(u + 1, v + 1),
        _ => (0..3).for_each(|i| branches.swap(u + i, v + i)),
    }
}

/// The `F` file of a matrix with its weights and these records.
fn own_file(data: &Data, branches: &[usize]) -> Vec<u8> {
    let mut text = format!("F\t{}\t{}\nV", data.n, data.m);
    for weight in &data.weights[..data.m] {
        text += &format!("\t{weight}");
    }
    for v in 1..=data.n {
        text += &format!("\nTaxon_{v}");
        for j in 1..=data.m {
            text += &format!("\t{}", data.code(v, j));
        }
    }
    for record in branches.chunks_exact(3).take(data.node_count() - 1) {
        text += &format!("\nC\t{}\t{}", record[0], record[1]);
    }
    text.push('\n');
    text.into_bytes()
}

/// Puts a code that is out of range into a taxon's row.
fn put_no_code(random: &mut Random, data: &mut Data) {
    let (v, j) = (random.between(1, data.n), random.between(1, data.m));
    data.matrix[v - 1][j - 1] = Ends::single(random.pick(&NO_CODES));
}

#[test]
fn generated_files() {
    seeds::each(IN_FORCE, |seed, file| {
        if let Ok((data, branches)) = check_read(&file) {
            let weights = lent::weights_of(&data);
            check_accepted(&data, &weights);
            check_printed(&file, &data, &weights);
            if file[0] == b'F' {
                check_own(&file, &data, &weights, &branches);
            }
            check_index(&data, &weights, &any_branching(&mut Random(seed), data.n));
        }
    });
}

#[test]
fn damaged_files() {
    seeds::each(IN_FORCE, |seed, file| {
        let _ = check_read(&damage::damaged(file, seed));
    });
}

#[test]
fn lines_of_weights() {
    let accepted: [(&[u8], &[i32]); 6] = [
        (b"W\t1\t2\nA\t3\t4\n", &[1, 1]),
        (b"W\t1\t2\nV\t1\t9\nA\t3\t4\n", &[1, 9]),
        (b"W\t1\t2\tclosest\nV\t9\t1\nV\t3\t4\n", &[9, 1]),
        (b"W\t2\t1\nV\t5\nB\t0\nV\t7\n", &[5]),
        (b"W\t1\t1\nv\t5\n", &[1]),
        (b"W\t1\t1\nVV\t5\n", &[1]),
    ];
    for (file, weights) in accepted {
        assert_eq!(check_read(file).unwrap().0.weights[..weights.len()], *weights);
    }
    let refused: [(&[u8], u64); 18] = [
        (b"W\t1\t1\nV", 16),
        (b"W\t1\t1\nV\n", 16),
        (b"W\t1\t1\nV\t", 16),
        (b"W\t1\t1\nV\t\nA\t0\n", 16),
        (b"W\t1\t1\nV\t1", 16),
        (b"W\t1\t1\nV\t1\t1\nA\t0\n", 16),
        (b"W\t1\t2\nV\t1\nA\t0\t0\n", 16),
        (b"W\t1\t1\nV\t0\nA\t0\n", 16),
        (b"W\t1\t1\nV\t10\nA\t0\n", 16),
        (b"W\t1\t1\nV\t01\nA\t0\n", 16),
        (b"W\t1\t1\nV\t-1\nA\t0\n", 16),
        (b"W\t1\t1\nV\t1\r\nA\t0\n", 16),
        (b"W\t1\t2\nV\t0\t1\nA\t5000\tx\n", 16),
        (b"W\t65\t1\nV\t0\n", 4),
        (b"W\t1\t1\nV\t5\n", 5),
        (b"W\t1\t1\nV\t5\nV\t6\nA\t0\n", 11),
        (b"W\t2\t1\nA\t0\nV\t0\nV\t1\n", 11),
        (b"W\t1\t1\n V\t5\n", 6),
    ];
    for (file, number) in refused {
        assert_eq!(check_read(file).unwrap_err(), number);
    }
}

#[test]
fn lines_of_a_branching() {
    let accepted: [(&[u8], &[usize]); 10] = [
        (b"F\t1\t1\nA\t0\n", &[]),
        (b"F\t1\t1\nV\t2\nA\t0\n", &[]),
        (b"F\t2\t1\nA\t0\nB\t5\nC\t2\t1\n", &[1]),
        (b"F\t2\t1\nV\t9\nV\t0\nC\t5\nC\t2\t1\n", &[1]),
        (b"F\t3\t1\nF\t0\nC\t5\nV\t6\nC\t2\t4\nC\t3\t4\nC\t4\t1\n", &[4, 4, 1]),
        (
            b"F\t4\t1\nA\t0\nB\t5\nC\t6\nD\t7\nC\t2\t5\nC\t3\t6\nC\t4\t6\nC\t5\t1\nC\t6\t5\n",
            &[5, 6, 6, 1, 5],
        ),
        (
            b"F\t4\t1\nA\t0\nB\t5\nC\t6\nD\t7\nC\t2\t5\nC\t3\t6\nC\t4\t5\nC\t5\t6\nC\t6\t1\n",
            &[5, 6, 5, 6, 1],
        ),
        (b"W\t1\t1\nF\t0\n", &[]),
        (b"W\t2\t1\nC\t2\nF\t1\n", &[]),
        (b"W\t2\t2\nA\t2\t1\nC\t2\t1\n", &[]),
    ];
    for (file, ancestors) in accepted {
        let (data, branches) = check_read(file).unwrap();
        let records = lent::branches_of(ancestors.iter().copied());
        let kept = if file[0] == b'F' { without_lengths(&records, data.n) } else { records };
        assert!(branches == kept);
    }
    let refused: [(&[u8], u64); 34] = [
        (b"F\t1\t1", 3),
        (b"F\t1\n", 3),
        (b"F\t1\t1\t\nA\t0\n", 3),
        (b"F\t1\t1\tadvance\nA\t0\n", 3),
        (b"F\t0\t1\tclosest\n", 3),
        (b"f\t1\t1\nA\t0\n", 3),
        (b"FF\t1\t1\nA\t0\n", 3),
        (b"F\t65\t1\n", 4),
        (b"F\t1\t1\nV\t0\nA\t0\n", 16),
        (b"F\t2\t1\nA\t0\nC\t2\t1\n", 8),
        (b"F\t2\t2\nA\t0\t0\nC\t2\t1\n", 17),
        (b"F\t2\t1\nA\t0\nB\t5\n", 17),
        (b"F\t2\t1\nA\t0\nB\t5\nC", 17),
        (b"F\t2\t1\nA\t0\nB\t5\nC\t2\t1", 17),
        (b"F\t2\t1\nA\t0\nB\t5\nC\t2\n", 17),
        (b"F\t2\t1\nA\t0\nB\t5\nC\t2\t1\t\n", 17),
        (b"F\t2\t1\nA\t0\nB\t5\nc\t2\t1\n", 17),
        (b"F\t2\t1\nA\t0\nB\t5\n\nC\t2\t1\n", 17),
        (b"F\t2\t1\nA\t0\nB\t5\nC\t02\t1\n", 17),
        (b"F\t2\t1\nA\t0\nB\t5\nC\t2\t01\n", 17),
        (b"F\t2\t1\nA\t0\nB\t5\nC\t2\t-1\n", 17),
        (b"F\t2\t1\nA\t0\nB\t5\nC\t2\t1\r\n", 17),
        (b"F\t2\t1\nA\t0\nB\t5\nC\t2\t1000000\n", 17),
        (b"F\t2\t1\nA\t0\nB\t5\nC\t1\t2\n", 17),
        (b"F\t2\t1\nA\t0\nB\t5\nC\t3\t1\nx", 17),
        (b"F\t3\t1\nA\t0\nB\t5\nC\t6\nC\t3\t4\nC\t2\t4\nC\t4\t1\n", 17),
        (b"F\t2\t1\nA\t0\nB\t5\nC\t2\t1\nC\t3\t1\n", 11),
        (b"F\t2\t1\nA\t0\nB\t5\nC\t2\t2\nx", 11),
        (b"F\t1\t1\nA\t0\nC\t2\t1\n", 11),
        (b"W\t2\t1\nA\t0\nB\t5\nC\t2\t1\n", 11),
        (b"F\t2\t1\nA\t0\nB\t5\nC\t2\t2\n", 14),
        (b"F\t2\t1\nA\t0\nB\t5\nC\t2\t0\n", 14),
        (b"F\t2\t1\nA\t0\nB\t5\nC\t2\t999999\n", 14),
        (b"F\t3\t1\nA\t0\nB\t5\nC\t6\nC\t2\t4\nC\t3\t1\nC\t4\t4\n", 14),
    ];
    for (file, number) in refused {
        assert_eq!(check_read(file).unwrap_err(), number);
    }
}

/// The read of an `F` file hands back the branching that it was written from,
/// for each number of taxa.
#[test]
fn branchings_read_back() {
    let mut random = Random(103);
    for n in 1..=64 {
        for most_characters in [1, 12, 128] {
            let data = Data { n, ..any_data(&mut random, 64, most_characters) };
            let written = any_branching(&mut random, n);
            let file = own_file(&data, &written);
            let (_, branches) = check_read(&file).unwrap();
            assert!(branches == without_lengths(&written, n));
            check_own(&file, &data, &lent::weights_of(&data), &branches);
        }
    }
}

/// An `F` file written from records that are no branching is refused by 14, as
/// the index on them is, or by 17 where a line is not that of its node or has a
/// number of more than six digits.
#[test]
fn changed_records_read() {
    let mut random = Random(14);
    let (mut accepted, mut refused, mut malformed) = (0, 0, 0);
    for _ in 0..4000 {
        let data = any_data(&mut random, 64, 4);
        let data = Data { n: data.n.max(2), ..data };
        let mut branches = any_branching(&mut random, data.n);
        change_record(&mut random, &mut branches, data.n);
        let answer = check_index(&data, &lent::weights_of(&data), &branches);
        match check_read(&own_file(&data, &branches)) {
            Ok((_, read)) => {
                assert_eq!(answer.refusal, 0);
                assert!(read == without_lengths(&branches, data.n));
                accepted += 1;
            }
            Err(number) => {
                assert_eq!(answer.refusal, 14);
                assert!(number == 14 || number == 17);
                *if number == 14 { &mut refused } else { &mut malformed } += 1;
            }
        }
    }
    println!("files with records changed: accepted {accepted}, refused by 14: {refused}, by 17: {malformed}");
    assert!(accepted > 100 && refused > 100 && malformed > 100);
}

#[test]
fn lists_of_another_size() {
    let sound = b"W\t2\t1\nV\t7\nA\t0\nB\t5\n";
    let own = b"F\t2\t1\nV\t7\nA\t0\nB\t5\nC\t2\t1\n";
    let no_line = b"F\t2\t1\nV\t7\nA\t0\nB\t5\n";
    let no_branching = b"F\t2\t1\nV\t7\nA\t0\nB\t5\nC\t2\t2\n";
    let damaged = b"W\t2\t1\nV\t7\nA\t0\nB\t5000\n";
    let refused = b"W\t2\t1\nV\t0\nA\t0\nB\t5\n";
    for place in 0..READ_SIZES.len() {
        let full = READ_SIZES[place];
        for size in [0, 1, 3, full - 3, full - 1, full + 1, full + 3, 2 * full] {
            let mut sizes = READ_SIZES;
            sizes[place] = size;
            for file in [&sound[..], &damaged[..], &refused[..], own, no_line, no_branching, b""] {
                check_sizes_refused(file, sizes);
            }
        }
    }
    let (zeros, ones) = (vec![0; MATRIX_SIZE], vec![1; WEIGHTS_SIZE]);
    for (n, m) in [(2, 1), (0, 1), (65, 129)] {
        for size in [0, 1, MATRIX_SIZE - 1, MATRIX_SIZE + 1] {
            check_refused(&lent::codes(size, 0), &ones, n, m, FULL, 12);
            check_refused(&lent::codes(size, 0), &lent::weights(), n, m, FULL, 12);
            for place in 0..FULL.len() {
                let mut sizes = FULL;
                sizes[place] = size;
                check_refused(&zeros, &ones, n, m, sizes, 12);
                check_refused(&lent::codes(MATRIX_SIZE, 0), &lent::weights(), n, m, sizes, 12);
            }
        }
        for size in [0, 1, WEIGHTS_SIZE - 1, WEIGHTS_SIZE + 1] {
            check_refused(&zeros, &vec![1; size], n, m, FULL, 12);
            check_refused(&lent::codes(MATRIX_SIZE, 0), &lent::bytes(size), n, m, FULL, 12);
        }
    }
    for n in [1, 2, 3, 64] {
        let sound = any_branching(&mut Random(12), n);
        for size in NO_BRANCHES_SIZES {
            let answer = compare::index(&zeros, &ones, n, 1, &resized(&sound, size));
            assert_eq!(answer, index_refused(12));
        }
    }
}

#[test]
fn lent_matrices_that_are_refused() {
    for (n, m) in NO_LIMITS {
        check_refused(&vec![0; MATRIX_SIZE], &vec![1; WEIGHTS_SIZE], n, m, FULL, 4);
        check_refused(&lent::codes(MATRIX_SIZE, 0), &lent::weights(), n, m, FULL, 4);
    }
    let mut random = Random(8);
    for _ in 0..300 {
        let mut data = any_data(&mut random, 64, 128);
        put_no_code(&mut random, &mut data);
        assert_eq!(prim_network(&data).unwrap_err().number, 10);
        let (matrix, weights) = (lent::matrix_of(&data), lent::weights_of(&data));
        check_refused(&matrix, &weights, data.n, data.m, FULL, 10);
    }
}

/// A byte that is no weight among the first m is refused by 16, also beside a
/// code out of range, but not beside n or m out of limits.
#[test]
fn lent_weights_that_are_refused() {
    let mut random = Random(16);
    for _ in 0..100 {
        let data = any_data(&mut random, 64, 128);
        for j in [1, random.between(1, data.m), data.m] {
            let mut other = data.clone();
            other.weights[j - 1] = i32::from(random.pick(&NO_WEIGHTS));
            assert_eq!(prim_network(&other).unwrap_err().number, 16);
            let (matrix, weights) = (lent::matrix_of(&other), lent::weights_of(&other));
            check_refused(&matrix, &weights, data.n, data.m, FULL, 16);
            let (n, m) = random.pick(&NO_LIMITS);
            check_refused(&matrix, &weights, n, m, FULL, 4);
            put_no_code(&mut random, &mut other);
            check_refused(&lent::matrix_of(&other), &weights, data.n, data.m, FULL, 16);
        }
    }
}

/// What stands behind the first m weights is neither asked nor read.
#[test]
fn bytes_behind_the_weights() {
    let mut random = Random(128);
    for _ in 0..100 {
        let data = any_data(&mut random, 12, 128);
        for behind in NO_WEIGHTS.into_iter().chain([1, 9]) {
            let mut weights = lent::weights_of(&data);
            weights[data.m..].fill(behind);
            check_accepted(&data, &weights);
        }
    }
}

/// Matrices whose total is 0, equals the floor or passes it, by hand.
#[test]
fn indices_by_hand() {
    let cases: [(&[u8], u64, Option<(u64, u64)>); 10] = [
        (b"W\t1\t2\nA\t-999\t999\n", 0, None),
        (b"W\t3\t1\nV\t9\nA\t-5\nB\t-5\nC\t-5\n", 0, None),
        (b"W\t2\t1\nA\t0\nB\t1\n", 1, Some((1000, 0))),
        (b"W\t2\t2\nV\t9\t9\nA\t-999\t999\nB\t999\t-999\n", 35_964, Some((1000, 0))),
        (b"W\t4\t1\nV\t3\nA\t-2\nB\t-7\nC\t4\nD\t-1\n", 33, Some((1000, 0))),
        (b"W\t4\t3\nA\t0\t0\t0\nB\t2\t1\t0\nC\t2\t3\t1\nD\t-1\t1\t2\n", 8, Some((888, 8))),
        (b"W\t4\t2\nA\t0\t0\nB\t0\t1\nC\t1\t0\nD\t1\t1\n", 2, Some((666, 2))),
        (b"W\t4\t2\nV\t9\t1\nA\t0\t0\nB\t0\t1\nC\t1\t0\nD\t1\t1\n", 10, Some((909, 1))),
        (
            b"F\t4\t1\nA\t0\nB\t1\nC\t1\nD\t0\nC\t2\t5\nC\t3\t5\nC\t4\t6\nC\t5\t6\nC\t6\t1\n",
            1,
            Some((1000, 0)),
        ),
        (
            b"F\t4\t1\nA\t0\nB\t1\nC\t1\nD\t0\nC\t2\t5\nC\t3\t6\nC\t4\t5\nC\t5\t6\nC\t6\t1\n",
            1,
            Some((500, 0)),
        ),
    ];
    for (file, length, index) in cases {
        let (data, _) = check_read(file).unwrap();
        let (matrix, weights) = (lent::matrix_of(&data), lent::weights_of(&data));
        assert_eq!(compare::floor(&matrix, &weights, data.n, data.m).length, length);
        assert_eq!(check_printed(file, &data, &weights), index_is(index));
    }
}

/// Records in order whose immediate ancestors make no branching.
#[test]
fn ancestors_of_no_branching() {
    let refused: [(usize, &[usize]); 14] = [
        (2, &[0]), // no node
        (2, &[3]), // no node of two taxa
        (2, &[usize::MAX]),
        (2, &[(1 << 32) + 1]), // 1 in its lower half
        (3, &[4, 4, 257]),     // 1 in its lowest byte
        (2, &[2]),             // the node itself
        (3, &[4, 4, 4]),
        (3, &[1, 1, 1]),             // row 1 above three nodes
        (3, &[4, 1, 1]),             // an HTU above one node
        (4, &[5, 5, 5, 1, 5]),       // an HTU above four nodes, one above none
        (4, &[3, 5, 3, 1, 5]),       // a taxon above two nodes
        (4, &[1, 5, 6, 6, 5]),       // two HTUs in a circle
        (5, &[6, 6, 1, 7, 8, 8, 7]), // two HTUs in a circle, one below them
        (5, &[1, 6, 7, 8, 7, 8, 6]), // three HTUs in a circle
    ];
    for (n, ancestors) in refused {
        let branches = lent::branches_of(ancestors.iter().copied());
        let answer = check_index(&Data::blank(n, 1), &[1; WEIGHTS_SIZE], &branches);
        assert_eq!(answer, index_refused(14));
    }
}

/// The index on a branching with a record changed.
#[test]
fn records_changed() {
    let mut random = Random(14);
    let (mut accepted, mut refused) = (0, 0);
    for _ in 0..400 {
        let data = any_data(&mut random, 64, 8);
        let (n, weights) = (data.n.max(2), lent::weights_of(&data));
        let data = Data { n, ..data };
        for _ in 0..10 {
            let mut branches = any_branching(&mut random, n);
            change_record(&mut random, &mut branches, n);
            match check_index(&data, &weights, &branches).refusal {
                0 => accepted += 1,
                _ => refused += 1,
            }
        }
    }
    println!("branchings with records changed: accepted {accepted}, refused {refused}");
    assert!(accepted > 100 && refused > 100);
}

/// Neither the lengths of a lent branching are read, nor what stands behind the
/// first 2n-3 records.
#[test]
fn numbers_beside_the_branching() {
    let mut random = Random(375);
    for _ in 0..100 {
        let data = any_data(&mut random, 64, 16);
        let weights = lent::weights_of(&data);
        let branches = any_branching(&mut random, data.n);
        let answer = check_index(&data, &weights, &branches);
        for beside in [0, 1, data.n, 2 * data.n - 1, usize::MAX] {
            let mut other = branches.clone();
            other.iter_mut().skip(2).step_by(3).for_each(|length| *length = beside);
            other[3 * (data.node_count() - 1)..].fill(beside);
            assert_eq!(check_index(&data, &weights, &other), answer);
        }
    }
}

#[test]
fn numbers_of_no_order() {
    let mut random = Random(15);
    for _ in 0..100 {
        let data = any_data(&mut random, 64, 128);
        let (matrix, weights) = (lent::matrix_of(&data), lent::weights_of(&data));
        for order in NO_ORDERS.into_iter().chain([random.bits() | 4]) {
            check_tree_refused(&matrix, &weights, data.n, data.m, order, FULL, 15);
        }
    }
}
