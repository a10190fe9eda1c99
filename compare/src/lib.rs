//! The proved library as Rust sees it, and what the comparison and the
//! benchmark share.

pub mod files;
pub mod lent;
pub mod plain;

use wagner_reference::data::Requests;
use wagner_reference::read::Kind;
use wagner_reference::tree::Order;

/// So many requests are in force, from M-100 on.
pub const IN_FORCE: Requests = Requests(4);

/// A lent matrix has 126 rows of 128 codes.
pub const ROWS: usize = 126;
pub const COLUMNS: usize = 128;
pub const MATRIX_SIZE: usize = ROWS * COLUMNS;

/// A lent list of weights has one for each column.
pub const WEIGHTS_SIZE: usize = COLUMNS;

/// A lent branching has 125 records of three numbers: a node, its immediate
/// ancestor and a length.
pub const BRANCHES_SIZE: usize = 375;

/// A lent list of names has 64 names of 16 bytes.
pub const NAMES_SIZE: usize = 1024;

/// So many bytes are lent for what is printed.
pub const OUTPUT_SIZE: usize = 1_048_576;

/// The kinds of a file by number: `W`, whose tree is built, and `F`, which
/// brings a branching of its own.
pub const WAGNER: u64 = 1;
pub const OWN: u64 = 2;

/// The number of a kind of the reference.
pub fn kind_number(kind: Kind) -> u64 {
    match kind {
        Kind::Wagner => WAGNER,
        Kind::Fixed => OWN,
        Kind::Every => panic!("every branching before M-113"),
    }
}

/// The orders of placing by number: none for an `F` file, by rising
/// advancement, and the closest taxon first.
pub const NO_ORDER: u64 = 0;
pub const ADVANCE: u64 = 1;
pub const CLOSEST: u64 = 2;

/// The number of an order of the reference.
pub fn order_number(order: Order) -> u64 {
    match order {
        Order::Advance => ADVANCE,
        Order::Closest => CLOSEST,
    }
}

/// What the call for a listing answers: refusal 0 and how many bytes it wrote;
/// or the number of the refusal and 0.
#[repr(C)]
#[derive(Clone, Copy, PartialEq, Eq, Debug)]
pub struct Listed {
    pub refusal: u64,
    pub length: usize,
}

/// What a read answers: refusal 0, line 0, the number of the kind, n, m and the
/// number of the order, 0 for an `F` file; or the number of the refusal, its
/// line, and zeros.
#[repr(C)]
#[derive(Clone, Copy, PartialEq, Eq, Debug)]
pub struct FileRead {
    pub refusal: u64,
    pub line: usize,
    pub kind: u64,
    pub n: usize,
    pub m: usize,
    pub order: u64,
}

/// What a call on a lent matrix answers: refusal 0 and a length; or the
/// number of the refusal and 0.
#[repr(C)]
#[derive(Clone, Copy, PartialEq, Eq, Debug)]
pub struct Measured {
    pub refusal: u64,
    pub length: u64,
}

/// What the call for the consistency index answers: refusal 0, divided 1,
/// quotient and remainder, or for a total of 0 four zeros; or the number of
/// the refusal and zeros.
#[repr(C)]
#[derive(Clone, Copy, PartialEq, Eq, Debug)]
pub struct Indexed {
    pub refusal: u64,
    pub divided: u64,
    pub quotient: u64,
    pub remainder: u64,
}

mod library {
    use super::{FileRead, Indexed, Listed, Measured};

    // A list is two arguments: where it begins, and how many items it has.
    extern "C" {
        pub fn wagner_list(
            file: *const u8,
            file_length: usize,
            out: *mut u8,
            out_length: usize,
        ) -> Listed;
        pub fn wagner_read(
            file: *const u8,
            file_length: usize,
            matrix: *mut i32,
            matrix_length: usize,
            weights: *mut u8,
            weights_length: usize,
            names: *mut u8,
            names_length: usize,
            branches: *mut usize,
            branches_length: usize,
        ) -> FileRead;
        pub fn wagner_network(
            matrix: *const i32,
            matrix_length: usize,
            weights: *const u8,
            weights_length: usize,
            n: usize,
            m: usize,
        ) -> Measured;
        pub fn wagner_build(
            matrix: *mut i32,
            matrix_length: usize,
            weights: *const u8,
            weights_length: usize,
            n: usize,
            m: usize,
            order: u64,
        ) -> Measured;
        pub fn wagner_fit(
            matrix: *mut i32,
            matrix_length: usize,
            weights: *const u8,
            weights_length: usize,
            n: usize,
            m: usize,
            order: u64,
            low: *mut i32,
            low_length: usize,
            high: *mut i32,
            high_length: usize,
            chosen: *mut i32,
            chosen_length: usize,
        ) -> Measured;
        pub fn wagner_floor(
            matrix: *const i32,
            matrix_length: usize,
            weights: *const u8,
            weights_length: usize,
            n: usize,
            m: usize,
        ) -> Measured;
        pub fn wagner_index(
            matrix: *const i32,
            matrix_length: usize,
            weights: *const u8,
            weights_length: usize,
            n: usize,
            m: usize,
            branches: *const usize,
            branches_length: usize,
        ) -> Indexed;
    }
}

/// Writes the listing of a file, or the line of its refusal, into the front of
/// lent bytes; answers how many bytes that are, or 12 for a wrong size.
pub fn list(file: &[u8], out: &mut [u8]) -> Listed {
    unsafe { library::wagner_list(file.as_ptr(), file.len(), out.as_mut_ptr(), out.len()) }
}

/// Reads a file into a lent matrix and lent lists of weights and names, and the
/// branching of an `F` file into lent records.
pub fn read(
    file: &[u8],
    matrix: &mut [i32],
    weights: &mut [u8],
    names: &mut [u8],
    branches: &mut [usize],
) -> FileRead {
    unsafe {
        library::wagner_read(
            file.as_ptr(),
            file.len(),
            matrix.as_mut_ptr(),
            matrix.len(),
            weights.as_mut_ptr(),
            weights.len(),
            names.as_mut_ptr(),
            names.len(),
            branches.as_mut_ptr(),
            branches.len(),
        )
    }
}

/// The length of the Prim Network of a lent matrix with weights.
pub fn network(matrix: &[i32], weights: &[u8], n: usize, m: usize) -> Measured {
    unsafe {
        library::wagner_network(
            matrix.as_ptr(),
            matrix.len(),
            weights.as_ptr(),
            weights.len(),
            n,
            m,
        )
    }
}

/// The Wagner tree of a lent matrix with weights in an order of placing: HTU
/// rows written, its length.
pub fn build(matrix: &mut [i32], weights: &[u8], n: usize, m: usize, order: u64) -> Measured {
    unsafe {
        library::wagner_build(
            matrix.as_mut_ptr(),
            matrix.len(),
            weights.as_ptr(),
            weights.len(),
            n,
            m,
            order,
        )
    }
}

/// The Wagner tree of a lent matrix with weights in an order of placing,
/// fitted: HTU rows and the states of the HTUs written, the fitted total.
pub fn fit(
    matrix: &mut [i32],
    weights: &[u8],
    n: usize,
    m: usize,
    order: u64,
    low: &mut [i32],
    high: &mut [i32],
    chosen: &mut [i32],
) -> Measured {
    unsafe {
        library::wagner_fit(
            matrix.as_mut_ptr(),
            matrix.len(),
            weights.as_ptr(),
            weights.len(),
            n,
            m,
            order,
            low.as_mut_ptr(),
            low.len(),
            high.as_mut_ptr(),
            high.len(),
            chosen.as_mut_ptr(),
            chosen.len(),
        )
    }
}

/// The floor of a lent matrix with weights.
pub fn floor(matrix: &[i32], weights: &[u8], n: usize, m: usize) -> Measured {
    unsafe {
        library::wagner_floor(matrix.as_ptr(), matrix.len(), weights.as_ptr(), weights.len(), n, m)
    }
}

/// The consistency index of a lent matrix with weights on a lent branching,
/// whose lengths are not read.
pub fn index(matrix: &[i32], weights: &[u8], n: usize, m: usize, branches: &[usize]) -> Indexed {
    unsafe {
        library::wagner_index(
            matrix.as_ptr(),
            matrix.len(),
            weights.as_ptr(),
            weights.len(),
            n,
            m,
            branches.as_ptr(),
            branches.len(),
        )
    }
}
