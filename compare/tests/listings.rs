//! The whole listing held to the reference's: its bytes, their number, and
//! every lent byte behind them, for sound, damaged and refused files.

use compare::{lent, list, plain, Listed, IN_FORCE, OUTPUT_SIZE};
use std::sync::atomic::{AtomicU64, Ordering};
use std::sync::OnceLock;
use wagner_reference::data::Requests;
use wagner_reference::listing::listing;
use wagner_reference::read::{read, Kind};

mod damage;
mod printed;
mod seeds;

/// The greatest number of a refusal.
const REFUSALS: usize = 17;

/// The most bytes of a file.
const MOST_BYTES: usize = 45_000;

/// What the lent bytes hold before a call.
fn before() -> &'static [u8] {
    static BYTES: OnceLock<Vec<u8>> = OnceLock::new();
    BYTES.get_or_init(|| lent::bytes(OUTPUT_SIZE))
}

/// The listing of these bytes; every lent byte behind it is as before.
fn listed(file: &[u8]) -> Vec<u8> {
    let mut out = before().to_vec();
    let Listed { refusal, length } = list(file, &mut out);
    assert_eq!(refusal, 0);
    assert!(out[length..] == before()[length..], "a byte behind the listing differs");
    out.truncate(length);
    out
}

/// The listing of these bytes is the reference's; hands it back.
fn check_listing(file: &[u8]) -> Vec<u8> {
    let expected = listing(file, IN_FORCE).into_bytes();
    assert!(listed(file) == expected, "the listing differs");
    match plain::list(file, Vec::new()) {
        None => assert!(expected.starts_with(b"R\t"), "the plain loops refuse it"),
        Some(text) => assert!(text == expected, "the plain loops' listing differs"),
    }
    expected
}

/// The number of the refusal that a listing is, or 0.
fn refusal(listing: &[u8]) -> usize {
    let Some(rest) = listing.strip_prefix(b"R\t") else {
        return 0;
    };
    let digits = rest.iter().take_while(|byte| byte.is_ascii_digit());
    digits.fold(0, |number, digit| number * 10 + usize::from(digit - b'0'))
}

/// A listing without its `c` line, of which it has one.
fn without_index(listing: &[u8]) -> Vec<u8> {
    let lines = listing.split_inclusive(|&byte| byte == b'\n');
    let (index, others): (Vec<&[u8]>, Vec<&[u8]>) = lines.partition(|line| line[0] == b'c');
    assert_eq!(index.len(), 1);
    others.concat()
}

/// How many files were accepted (place 0), and refused by each number.
struct Tally([AtomicU64; REFUSALS + 1]);

impl Tally {
    /// No file is counted.
    fn none() -> Tally {
        Tally(std::array::from_fn(|_| AtomicU64::new(0)))
    }

    /// Counts a file with this number.
    fn count(&self, number: usize) {
        self.0[number].fetch_add(1, Ordering::Relaxed);
    }

    /// Prints what was counted of these files.
    fn print(&self, what: &str) {
        let counts: Vec<u64> = self.0.iter().map(|n| n.load(Ordering::Relaxed)).collect();
        println!("{what}: accepted {}, refused by 1 to {REFUSALS}: {:?}", counts[0], &counts[1..]);
    }
}

/// The same of the files that begin with `F`, and of the others.
struct Tallies {
    own: Tally,
    others: Tally,
}

impl Tallies {
    /// No file is counted.
    fn none() -> Tallies {
        Tallies { own: Tally::none(), others: Tally::none() }
    }

    /// Counts a file with the number of the refusal that its listing is, or 0.
    fn count(&self, file: &[u8], listing: &[u8]) {
        let tally = if file.starts_with(b"F") { &self.own } else { &self.others };
        tally.count(refusal(listing));
    }

    /// Prints what was counted of these files.
    fn print(&self, what: &str) {
        self.others.print(what);
        self.own.print(&format!("{what} that begin with F"));
    }
}

#[test]
fn generated_files() {
    let tallies = Tallies::none();
    seeds::each(IN_FORCE, |_, file| tallies.count(&file, &check_listing(&file)));
    tallies.print("generated files");
}

#[test]
fn damaged_files() {
    let tallies = Tallies::none();
    seeds::each(IN_FORCE, |seed, file| {
        let file = damage::damaged(file, seed);
        tallies.count(&file, &check_listing(&file));
    });
    tallies.print("damaged files");
}

/// The `F` file with the rows and the weights of a `W` file and the tree in the
/// `T` lines of its listing.
fn with_its_tree(file: &[u8], listing: &str) -> Vec<u8> {
    let first = file.split(|&byte| byte == b'\n').next().unwrap();
    let three: Vec<&[u8]> = first[1..].splitn(4, |&byte| byte == b'\t').take(3).collect();
    let mut text = [b"F", &three.join(&b'\t')[..], &file[first.len()..]].concat();
    for (i, ancestor) in printed::ancestors(listing).iter().enumerate() {
        text.extend(format!("C\t{}\t{ancestor}\n", i + 2).bytes());
    }
    text
}

/// A listing from its first `T` line on, or from its `t` line where there is
/// none.
fn fitted_lines(listing: &str) -> &str {
    let at = listing.find("\nT\t").or_else(|| listing.find("\nt\t")).unwrap();
    &listing[at + 1..]
}

/// The Wagner tree of a `W` file, brought as the branching of an `F` file, is
/// fitted and listed as in that file.
#[test]
fn wagner_trees_as_own_branchings() {
    let tally = Tally::none();
    seeds::each(IN_FORCE, |_, file| {
        if read(&file, IN_FORCE).is_ok_and(|file| file.kind == Kind::Wagner) {
            let text = String::from_utf8(listed(&file)).unwrap();
            let own = listed(&with_its_tree(&file, &text));
            assert!(own == fitted_lines(&text).as_bytes(), "it is listed otherwise");
            tally.count(refusal(&own));
        }
    });
    tally.print("Wagner trees as own branchings");
}

/// `F` files whose listings are found by hand.
#[test]
fn own_branchings_by_hand() {
    let cases = [
        ("F\t1\t2\nA\t5\t-6\n", "t\t0\nc\t-\t-\n"),
        ("F\t2\t1\nV\t3\nA\t0\nB\t-5\nC\t2\t1\n", "T\tB\tA\t15\t+\nt\t15\nc\t1000\t0\n"),
        (
            "F\t3\t1\nA\t0\nB\t5\nC\t2\nC\t2\t4\nC\t3\t4\nC\t4\t1\n",
            "T\tB\t#1\t3\t+\nT\tC\t#1\t0\t-\nT\t#1\tA\t2\t+\nt\t5\nc\t1000\t0\nH\t#1\t1\t2\t2\t2\n",
        ),
        (
            "F\t4\t1\nA\t0\nB\t1\nC\t1\nD\t0\nC\t2\t5\nC\t3\t6\nC\t4\t5\nC\t5\t6\nC\t6\t1\n",
            "T\tB\t#1\t0\t-\nT\tC\t#2\t0\t-\nT\tD\t#1\t1\t+\nT\t#1\t#2\t0\t-\nT\t#2\tA\t1\t+\nt\t2\n\
             c\t500\t0\nH\t#1\t1\t0\t1\t1\nH\t#2\t1\t0\t1\t1\n",
        ),
    ];
    for (file, text) in cases {
        assert_eq!(String::from_utf8(check_listing(file.as_bytes())).unwrap(), text);
    }
}

/// Whether a file has to be listed as it was under earlier requests: it was
/// accepted, unless it is from before M-101 and its row 1 is named `V`, which
/// reads as weights now; and from M-102 on it does not begin with `F`.
fn stays(file: &[u8], requests: Requests) -> bool {
    if requests.in_force(102) {
        return !file.starts_with(b"F\t");
    }
    let weights_then = requests.in_force(101);
    read(file, requests).is_ok_and(|file| weights_then || file.names[0] != "V")
}

/// What was accepted under earlier requests is listed as it was then, but for
/// the `c` line where they are from before M-102; what M-102 refused is refused
/// as it was, but for files that begin with `F`, which were refused by 3 or,
/// for their size, by 1.
fn check_earlier(requests: Requests, what: &str) {
    let (as_before, other) = (Tally::none(), Tallies::none());
    seeds::each(requests, |_, file| {
        let now = check_listing(&file);
        let then = listing(&file, requests).into_bytes();
        if file.starts_with(b"F\t") {
            assert!(matches!(refusal(&then), 1 | 3), "it was accepted");
        }
        if stays(&file, requests) {
            let same =
                if requests.in_force(102) { now == then } else { without_index(&now) == then };
            assert!(same, "it was listed otherwise");
            as_before.count(refusal(&now));
        } else {
            other.count(&file, &now);
        }
    });
    as_before.print(&format!("files of {what}, as before"));
    other.print(&format!("other files of {what}"));
}

#[test]
fn files_of_the_base() {
    check_earlier(Requests::NONE, "the base");
}

#[test]
fn files_of_m_100() {
    check_earlier(Requests(1), "M-100");
}

#[test]
fn files_of_m_101() {
    check_earlier(Requests(2), "M-101");
}

#[test]
fn files_of_m_102() {
    check_earlier(Requests(3), "M-102");
}

#[test]
fn bytes_of_another_size() {
    let sound = b"W\t2\t1\nA\t0\nB\t5\n";
    let own = b"F\t2\t1\nA\t0\nB\t5\nC\t2\t1\n";
    for size in [0, 1, 38, 45_001, OUTPUT_SIZE - 1, OUTPUT_SIZE + 1, 2 * OUTPUT_SIZE] {
        for file in [&sound[..], &sound[1..], own, b"", &[b'x'; MOST_BYTES + 1]] {
            let mut out = lent::bytes(size);
            assert_eq!(list(file, &mut out), Listed { refusal: 12, length: 0 });
            assert!(out == lent::bytes(size));
        }
    }
}

#[test]
fn files_of_the_greatest_size() {
    let starts = [b"W\t1\t1\nA\t0\n", b"F\t1\t1\nA\t0\n"];
    let lengths = [(44_999, 11), (45_000, 11), (45_001, 1), (45_002, 1), (3_000_000, 1)];
    for (length, number) in lengths {
        for start in starts {
            let mut file = start.to_vec();
            file.resize(length, b'\n');
            assert_eq!(refusal(&check_listing(&file)), number);
        }
    }
}
