//! The steps of the part `networks`, as `src/networks.rt` takes them, answered by the reference.
use crate::cases::{Step, change, lent, size};
use wagner_reference::data::Data;
use wagner_reference::network::{network_length, prim_network};

/// The lines of the network of a matrix, or the line of its refusal.
fn answer(data: &Data) {
    match prim_network(data) {
        Ok(links) => {
            for link in &links {
                println!("P\t{}\t{}\t{}", link.taxon, link.joined, link.difference);
            }
            println!("p\t{}", network_length(&links));
        }
        Err(refusal) => println!("R\t{}\t{}", refusal.number, refusal.line),
    }
}

fn take(data: &mut Data, word: &str, numbers: &[i32]) {
    if change(data, word, numbers) {
        return;
    }
    data.n = size(numbers, 0);
    data.m = size(numbers, 1);
    match word {
        "show" => answer(data),
        "lent" => answer(&lent(data, size(numbers, 2), size(numbers, 3))),
        word => panic!("no step {word}"),
    }
}

pub fn run(steps: Vec<Step>) {
    let mut data = Data::blank(0, 0);
    for (word, numbers) in steps {
        take(&mut data, &word, &numbers);
    }
}
