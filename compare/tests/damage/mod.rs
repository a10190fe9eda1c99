//! Files damaged from a seed.

use wagner_reference::files::Random;

/// Two of five damages fall on so many bytes at the front.
const TOP: usize = 40;

/// Lines of weights that are put into files, for few characters or for none.
const WEIGHTS: [&str; 7] =
    ["V", "V\n", "V\t0\n", "V\t5\n", "V\t2\t9\n", "V\t1\t3\t4\n", "V\t6\t7\t8\t1\n"];

/// Lines of a branching that are put behind the last line, for few taxa or for
/// none.
const BRANCHES: [&str; 6] =
    ["C", "C\n", "C\t2\t1\n", "C\t2\t1", "C\t2\t4\nC\t3\t4\nC\t4\t1\n", "C\t2\t2\n"];

/// Where a damage falls: at the front, from the first line on that begins with
/// `C`, if there is one, or anywhere.
fn place(file: &[u8], random: &mut Random) -> usize {
    let branches = file.windows(3).position(|bytes| bytes == b"\nC\t");
    match random.below(5) {
        0 | 1 => random.below(file.len().min(TOP)),
        2 | 3 => random.between(branches.unwrap_or(0), file.len() - 1),
        _ => random.below(file.len()),
    }
}

/// The line that a place is in: where it begins and where the next one does.
fn line_at(file: &[u8], at: usize) -> (usize, usize) {
    let feed = |byte: &u8| *byte == b'\n';
    let begin = file[..at].iter().rposition(feed).map_or(0, |i| i + 1);
    (begin, file[at..].iter().position(feed).map_or(file.len(), |i| at + i + 1))
}

/// One damage to a file: a digit changed, a byte changed, one bit of it turned,
/// a part cut out, the end cut off, a line of weights put behind line 1, lines
/// of a branching put behind the last one, the letter of the kind changed, a
/// line cut out, a line or a part doubled.
fn damage(file: &mut Vec<u8>, random: &mut Random) {
    let at = place(file, random);
    let part = random.between(1, 8).min(file.len() - at);
    let (begin, end) = line_at(file, at);
    match random.below(13) {
        0..=3 => {
            if file[at].is_ascii_digit() {
                file[at] = random.pick(b"0123456789");
            }
        }
        4 => file[at] = random.pick(b"\t\n\r\0 -_.019AZaz#CFVW~\x7f\x80\xff"),
        5 => file[at] ^= 1 << random.below(8),
        6 => drop(file.drain(at..at + part)),
        7 => file.truncate(at),
        8 => {
            let second = line_at(file, 0).1;
            file.splice(second..second, random.pick(&WEIGHTS).bytes());
        }
        9 => file.extend(random.pick(&BRANCHES).bytes()),
        10 => file[0] = random.pick(b"WF"),
        11 => drop(file.drain(begin..end)),
        _ => {
            let (from, to) = if random.chance(50) { (begin, end) } else { (at, at + part) };
            let again = file[from..to].to_vec();
            file.splice(from..from, again);
        }
    }
}

/// One to three damages to a file.
pub fn damaged(mut file: Vec<u8>, seed: u64) -> Vec<u8> {
    let mut random = Random(seed ^ 0x6461_6d61_6765);
    for _ in 0..random.between(1, 3) {
        if !file.is_empty() {
            damage(&mut file, &mut random);
        }
    }
    file
}
