//! Matrix files at random from a fixed seed.

use wagner_reference::files::Random;

/// A file of n taxa, whose names are these letters and a number, and m
/// characters with codes from -999 to 999 at random.
pub fn file(name: &str, n: usize, m: usize) -> Vec<u8> {
    let mut random = Random(19_700_301);
    let mut text = format!("W\t{n}\t{m}\n");
    for v in 1..=n {
        text += &format!("{name}{v}");
        for _ in 0..m {
            text += &format!("\t{}", random.code(-999, 999));
        }
        text.push('\n');
    }
    text.into_bytes()
}

/// The same file with weights from 1 to 9 at random.
pub fn weighted(file: &[u8], m: usize) -> Vec<u8> {
    let mut random = Random(19_710_301);
    let mut line = "V".to_string();
    for _ in 0..m {
        line += &format!("\t{}", random.code(1, 9));
    }
    line.push('\n');
    let second = file.iter().position(|&byte| byte == b'\n').unwrap() + 1;
    [&file[..second], line.as_bytes(), &file[second..]].concat()
}

/// The same `W` file as an `F` file with these immediate ancestors of nodes 2, 3
/// and so on.
pub fn own(file: &[u8], ancestors: impl IntoIterator<Item = usize>) -> Vec<u8> {
    let mut text = [b"F", &file[1..]].concat();
    for (node, ancestor) in (2..).zip(ancestors) {
        text.extend(format!("C\t{node}\t{ancestor}\n").bytes());
    }
    text
}
