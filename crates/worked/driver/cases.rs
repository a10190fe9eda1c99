//! What the parts share: the steps of cases, rows written into a matrix of the reference, the codes of a generated matrix, weights, and the
//! digest of a matrix.
use wagner_reference::data::{Data, Ends};

/// A step: the word, and the numbers behind it.
pub type Step = (String, Vec<i32>);

/// The steps of a file of cases, a line each.
pub fn steps(file: &str) -> Vec<Step> {
    let text = std::fs::read_to_string(file).unwrap();
    text.lines()
        .map(|line| {
            let mut parts = line.split(' ');
            let word = parts.next().unwrap().to_string();
            (word, parts.map(|number| number.parse().unwrap()).collect())
        })
        .collect()
}

/// A number of a step as a count, a node or a seed.
pub fn size(numbers: &[i32], i: usize) -> usize {
    usize::try_from(numbers[i]).unwrap()
}

/// Takes a step that writes rows, generated codes or weights, and says whether it is one.
pub fn change(data: &mut Data, word: &str, numbers: &[i32]) -> bool {
    match word {
        "row" => put(data, numbers[0] as usize, &numbers[1..]),
        "fill" => fill(data, numbers[1..].try_into().unwrap(), numbers[0] as u64),
        "weights" => weigh(data, numbers),
        "generated" => weigh_by(data, size(numbers, 0) as u64),
        _ => return false,
    }
    true
}

/// Writes a row's codes at the front of the row of node v.
fn put(data: &mut Data, v: usize, row: &[i32]) {
    for (j, &code) in row.iter().enumerate() {
        data.matrix[v - 1][j] = Ends::single(code);
    }
}

/// The next number of a sequence of pseudo-random numbers below 2 ^ 31.
fn following(number: u64) -> u64 {
    ((number % 2147483648) * 1103515245 + 12345) % 2147483648
}

/// Fills a matrix with codes from such a sequence.
fn fill(data: &mut Data, codes: [i32; 8], seed: u64) {
    let mut number = seed;
    for row in &mut data.matrix {
        for ends in row.iter_mut() {
            number = following(number);
            *ends = Ends::single(codes[((number / 65536) % 8) as usize]);
        }
    }
}

/// The weights of the first characters as given, those of the others 1.
fn weigh(data: &mut Data, weights: &[i32]) {
    data.weights.fill(1);
    data.weights[..weights.len()].copy_from_slice(weights);
}

/// Weights from 1 to 9 from a sequence of pseudo-random numbers.
fn weigh_by(data: &mut Data, seed: u64) {
    let mut number = seed;
    for weight in &mut data.weights {
        number = following(number);
        *weight = (1 + (number / 65536) % 9) as i32;
    }
}

/// The D line of a matrix.
pub fn digest(data: &Data) {
    let mut sum = 0u64;
    for row in &data.matrix {
        for ends in row {
            sum = (sum % 2147483648) * 31 + ((ends.low + 1000).unsigned_abs() as u64) % 4096;
        }
    }
    println!("D\t{}", sum % 2147483648);
}

/// The first so many codes of a matrix, in whole rows, and so many weights of 1.
pub fn lent(data: &Data, codes: usize, weights: usize) -> Data {
    let mut other = data.clone();
    other.matrix.truncate(codes / 128);
    other.weights = vec![1; weights];
    other
}
