//! The steps of the part `differences`, as `src/differences.rt` takes them, answered by the reference. A lent row of medians is the
//! reference's list of codes in a row of sevens; a row that is too short, which the reference has not, is 12 by document 01.
use crate::cases::{Step, change, lent, size};
use wagner_reference::data::{Data, Refusal};
use wagner_reference::measure::{difference, interval_difference, median, median_of_three};

fn length(answer: Result<i64, Refusal>) {
    match answer {
        Ok(length) => println!("{length}"),
        Err(refusal) => println!("R {}", refusal.number),
    }
}

/// The medians of three nodes, in a row of sevens of this size.
fn medians(data: &Data, nodes: [usize; 3], shown: usize, size: usize) {
    let mut row = vec![7; size];
    let mut text = match median(data, nodes[0], nodes[1], nodes[2]) {
        _ if size != 128 => "R 12".to_string(),
        Ok(codes) => {
            row[..data.m].copy_from_slice(&codes);
            "medians".to_string()
        }
        Err(refusal) => format!("R {}", refusal.number),
    };
    for code in &row[..shown] {
        text += &format!(" {code}");
    }
    println!("{text}");
}

fn codes(numbers: &[i32]) {
    let mut text = (i64::from(numbers[0]) - i64::from(numbers[1])).abs().to_string();
    for three in numbers[2..].chunks_exact(3) {
        text += &format!(" {}", median_of_three(three[0], three[1], three[2]));
    }
    println!("{text}");
}

fn take(data: &mut Data, word: &str, numbers: &[i32]) {
    if change(data, word, numbers) {
        return;
    }
    if word == "codes" {
        return codes(numbers);
    }
    data.n = size(numbers, 0);
    data.m = size(numbers, 1);
    let (a, b) = (size(numbers, 2), size(numbers, 3));
    match word {
        "difference" => length(difference(data, a, b)),
        "lent" => length(difference(&lent(data, size(numbers, 4), size(numbers, 5)), a, b)),
        "interval" => length(interval_difference(data, a, b, size(numbers, 4))),
        "medians" => medians(data, [a, b, size(numbers, 4)], size(numbers, 5), size(numbers, 6)),
        word => panic!("no step {word}"),
    }
}

pub fn run(steps: Vec<Step>) {
    let mut data = Data::blank(0, 0);
    for (word, numbers) in steps {
        take(&mut data, &word, &numbers);
    }
}
