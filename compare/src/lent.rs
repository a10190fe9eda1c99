//! Lent lists with known contents, and what they should hold afterwards.

use crate::{BRANCHES_SIZE, COLUMNS, MATRIX_SIZE, NAMES_SIZE, WEIGHTS_SIZE};
use wagner_reference::data::{branch_count, Branch, Data};
use wagner_reference::ranges::{Range, Ranges};
use wagner_reference::read::{File, Kind};

/// A list of codes that are no codes, each place another one, so that every
/// write shows.
pub fn codes(size: usize, mark: i32) -> Vec<i32> {
    (0..size)
        .map(|i| 1_000_000 + mark * 100_000 + i as i32)
        .collect()
}

/// A list of bytes that are no names and no weights.
pub fn bytes(size: usize) -> Vec<u8> {
    (0..size).map(|i| 128 + (i % 97) as u8).collect()
}

/// The place of node v's code for character j.
pub fn place(v: usize, j: usize) -> usize {
    (v - 1) * COLUMNS + (j - 1)
}

/// A lent matrix with the rows of the taxa of a reference matrix in it.
pub fn matrix_of(data: &Data) -> Vec<i32> {
    let mut matrix = codes(MATRIX_SIZE, 0);
    write_rows(&mut matrix, data, 1, data.n);
    matrix
}

/// Writes the rows of nodes `first` to `last` over a matrix.
pub fn write_rows(matrix: &mut [i32], data: &Data, first: usize, last: usize) {
    for v in first..=last {
        for j in 1..=data.m {
            matrix[place(v, j)] = data.code(v, j);
        }
    }
}

/// A lent list of weights that are none, so that every write shows.
pub fn weights() -> Vec<u8> {
    bytes(WEIGHTS_SIZE)
}

/// Lent weights with those of the characters of a reference matrix in front.
pub fn weights_of(data: &Data) -> Vec<u8> {
    let mut list = weights();
    write_weights(&mut list, data);
    list
}

/// Writes the weights of the m characters over the front of a list.
pub fn write_weights(list: &mut [u8], data: &Data) {
    for (place, weight) in list.iter_mut().zip(&data.weights[..data.m]) {
        *place = *weight as u8;
    }
}

/// A lent list of names with these written over it, padded with zeros.
pub fn write_names(list: &mut [u8], names: &[String]) {
    for (i, name) in names.iter().enumerate() {
        list[i * 16..i * 16 + 16].fill(0);
        list[i * 16..i * 16 + name.len()].copy_from_slice(name.as_bytes());
    }
}

/// A lent list of names.
pub fn names() -> Vec<u8> {
    bytes(NAMES_SIZE)
}

/// The lowest and highest states of the HTUs, written over two lists.
pub fn write_ranges(low: &mut [i32], high: &mut [i32], data: &Data, found: &Ranges) {
    for v in data.n + 1..found.ranges.len() {
        for j in 1..=data.m {
            let Range::Ordered(ends) = found.ranges[v][j - 1] else {
                panic!("an unordered character before M-108");
            };
            low[place(v, j)] = ends.low;
            high[place(v, j)] = ends.high;
        }
    }
}

/// The chosen states of the HTUs, written over a list.
pub fn write_chosen(list: &mut [i32], data: &Data, chosen: &[Vec<i32>]) {
    for v in data.n + 1..chosen.len() {
        for j in 1..=data.m {
            list[place(v, j)] = chosen[v][j - 1];
        }
    }
}

/// A list of numbers that are no nodes.
pub fn numbers(size: usize) -> Vec<usize> {
    (0..size).map(|i| 1_000_000 + i).collect()
}

/// A lent list of records that name no nodes, so that every write shows.
pub fn branches() -> Vec<usize> {
    numbers(BRANCHES_SIZE)
}

/// Writes the records of the branching of an `F` file over the front of a list;
/// of a `W` file none.
pub fn write_branches(list: &mut [usize], file: &File) {
    if file.kind == Kind::Fixed {
        let records = &file.branches[..branch_count(file.data.n)];
        for (place, record) in list.chunks_exact_mut(3).zip(records) {
            place.copy_from_slice(&[record.node, record.ancestor, 0]);
        }
    }
}

/// A lent branching with the records of nodes 2, 3 and so on in front, with
/// these immediate ancestors; what is no node and no ancestor is not to be read.
pub fn branches_of(ancestors: impl IntoIterator<Item = usize>) -> Vec<usize> {
    let mut list = branches();
    for (i, ancestor) in ancestors.into_iter().enumerate() {
        list[3 * i] = i + 2;
        list[3 * i + 1] = ancestor;
    }
    list
}

/// The records of a lent branching.
pub fn records_of(branches: &[usize]) -> Vec<Branch> {
    let records = branches.chunks_exact(3);
    records.map(|record| Branch { node: record[0], ancestor: record[1], length: 0 }).collect()
}
