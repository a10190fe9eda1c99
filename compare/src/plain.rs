//! The same work in plain Rust loops over the lent matrix: what the parts of
//! the proved library are measured against.

use crate::{FileRead, ADVANCE, CLOSEST, NO_ORDER, OWN, WAGNER};
use crate::{BRANCHES_SIZE, COLUMNS, MATRIX_SIZE, NAMES_SIZE, WEIGHTS_SIZE};

/// A link of the network: a taxon, the one that it joins, their difference.
#[derive(Clone, Copy)]
pub struct Link {
    pub taxon: usize,
    pub joined: usize,
    pub length: u64,
}

/// A placement: a taxon, the lower and the upper end of its interval, the new
/// HTU (0 where there is none), the length added.
#[derive(Clone, Copy)]
pub struct Placement {
    pub taxon: usize,
    pub lower: usize,
    pub upper: usize,
    pub htu: usize,
    pub added: u64,
}

/// The m codes of node v.
fn row(matrix: &[i32], v: usize, m: usize) -> &[i32] {
    &matrix[(v - 1) * COLUMNS..][..m]
}

/// The difference of two nodes, by one weight for each of the m characters.
fn difference(matrix: &[i32], weights: &[u8], u: usize, v: usize) -> u64 {
    let (a, b) = (row(matrix, u, weights.len()), row(matrix, v, weights.len()));
    let apart = a.iter().zip(b).map(|(x, y)| x.abs_diff(*y));
    apart.zip(weights).map(|(steps, weight)| u64::from(steps) * u64::from(*weight)).sum()
}

/// The Prim Network: its links and their length.
pub fn network(matrix: &[i32], weights: &[u8], n: usize, m: usize) -> (Vec<Link>, u64) {
    let weights = &weights[..m];
    let mut left: Vec<usize> = (2..=n).collect();
    let mut apart: Vec<(u64, usize)> = (0..=n)
        .map(|v| if v < 2 { (0, 0) } else { (difference(matrix, weights, v, 1), 1) })
        .collect();
    let mut links = Vec::new();
    let mut total = 0;
    while !left.is_empty() {
        let mut at = 0;
        for i in 1..left.len() {
            if apart[left[i]].0 < apart[left[at]].0 {
                at = i;
            }
        }
        let v = left.remove(at);
        let (length, joined) = apart[v];
        links.push(Link { taxon: v, joined, length });
        total += length;
        for &u in &left {
            let length = difference(matrix, weights, u, v);
            if length < apart[u].0 {
                apart[u] = (length, v);
            }
        }
    }
    (links, total)
}

/// What hanging taxon b on the interval of node c would add, and c.
fn hanging(
    matrix: &[i32],
    weights: &[u8],
    tree: &[usize; 127],
    b: usize,
    c: usize,
) -> (u64, usize) {
    let apart = |u, v| difference(matrix, weights, u, v);
    ((apart(b, c) + apart(b, tree[c]) - apart(c, tree[c])) / 2, c)
}

/// The interval of taxon b: what is added, and the lower end.
fn nearest(
    matrix: &[i32],
    weights: &[u8],
    n: usize,
    tree: &[usize; 127],
    b: usize,
) -> (u64, usize) {
    let mut best = (u64::MAX, 0);
    for c in (2..2 * n - 1).filter(|&c| tree[c] != 0) {
        best = best.min(hanging(matrix, weights, tree, b, c));
    }
    best
}

/// The interval of taxon v after a placement changed those of three nodes:
/// what is kept of these is computed again, and the least of all is found.
fn renewed(
    matrix: &[i32],
    weights: &[u8],
    n: usize,
    tree: &[usize; 127],
    v: usize,
    kept: &mut [u64; 127],
    changed: [usize; 3],
) -> (u64, usize) {
    for c in changed {
        if tree[c] != 0 {
            kept[c] = hanging(matrix, weights, tree, v, c).0;
        }
    }
    let intervals = (2..2 * n - 1).filter(|&c| tree[c] != 0);
    intervals.map(|c| (kept[c], c)).min().unwrap()
}

/// Writes the median codes of three nodes into the row of node y.
fn write_median(matrix: &mut [i32], m: usize, [b, c, d]: [usize; 3], y: usize) {
    for j in 0..m {
        let at = |v: usize| matrix[(v - 1) * COLUMNS + j];
        let (p, q, r) = (at(b), at(c), at(d));
        matrix[(y - 1) * COLUMNS + j] = p.max(q).min(p.min(q).max(r));
    }
}

/// The Wagner tree in an order of placing: ancestors by node number, its
/// placements and its length. Kept for each taxon: its advancement, or, by
/// closeness, what its placement would add, and the lower end; and what each
/// interval would add.
pub fn build(
    matrix: &mut [i32],
    weights: &[u8],
    n: usize,
    m: usize,
    order: u64,
) -> ([usize; 127], Vec<Placement>, u64) {
    let weights = &weights[..m];
    let mut tree = [0; 127];
    let mut placements = Vec::new();
    let mut left: Vec<usize> = (2..=n).collect();
    let mut keys: Vec<(u64, usize)> = (0..=n)
        .map(|v| if v < 2 { (0, 0) } else { (difference(matrix, weights, v, 1), 0) })
        .collect();
    let mut kept = vec![[0; 127]; if order == CLOSEST { n + 1 } else { 0 }];
    let mut length = 0;
    while !left.is_empty() {
        let at = (0..left.len()).min_by_key(|&i| keys[left[i]].0).unwrap();
        let b = left.remove(at);
        let known = placements.is_empty() || order == CLOSEST;
        let (added, c) = if known { keys[b] } else { nearest(matrix, weights, n, &tree, b) };
        let (upper, y) = if c == 0 { (1, 0) } else { (tree[c], n + placements.len()) };
        if c == 0 {
            tree[b] = 1;
        } else {
            write_median(matrix, m, [b, c, upper], y);
            tree[y] = upper;
            tree[c] = y;
            tree[b] = y;
        }
        placements.push(Placement { taxon: b, lower: c, upper, htu: y, added });
        length += added;
        if order == CLOSEST {
            for &v in &left {
                keys[v] = renewed(matrix, weights, n, &tree, v, &mut kept[v], [b, c, y]);
            }
        }
    }
    (tree, placements, length)
}

/// The nodes of a whole tree of n taxa.
fn last_node(n: usize) -> usize {
    if n < 2 {
        1
    } else {
        2 * n - 2
    }
}

/// The nodes next below each node, of which two are kept, and the nodes from
/// node 1 down, each behind its ancestor.
fn downward(n: usize, tree: &[usize; 127]) -> ([[usize; 2]; 127], Vec<usize>) {
    let mut below = [[0; 2]; 127];
    let mut count = [0; 127];
    for v in 2..=last_node(n) {
        let u = tree[v];
        below[u][count[u].min(1)] = v;
        count[u] += 1;
    }
    let mut walk = vec![1];
    let mut i = 0;
    while i < walk.len() {
        let v = walk[i];
        walk.extend(below[v].iter().filter(|&&w| w != 0));
        i += 1;
    }
    (below, walk)
}

/// The ancestors by node number that records say, or none if they make no
/// branching of n taxa: each HTU is above two nodes, no taxon but row 1 above
/// any, so that row 1 is above one, and all are met on the way down from it.
fn tree_of(n: usize, branches: &[usize]) -> Option<[usize; 127]> {
    let last = last_node(n);
    let (mut tree, mut count) = ([0; 127], [0; 127]);
    for (v, record) in (2..=last).zip(branches.chunks_exact(3)) {
        let (node, ancestor) = (record[0], record[1]);
        if node != v || ancestor < 1 || ancestor > last {
            return None;
        }
        tree[v] = ancestor;
        count[ancestor] += 1;
    }
    let taxa = (2..=n).all(|v| count[v] == 0);
    let htus = (n + 1..=last).all(|v| count[v] == 2);
    (taxa && htus && downward(n, &tree).1.len() == last).then_some(tree)
}

/// The fit of a branching: states of the HTUs written, the lengths of the
/// branches by node number, the total.
pub fn fit(
    matrix: &[i32],
    weights: &[u8],
    n: usize,
    m: usize,
    tree: &[usize; 127],
    low: &mut [i32],
    high: &mut [i32],
    chosen: &mut [i32],
) -> ([u64; 127], u64) {
    let (below, walk) = downward(n, tree);
    let join = |a: (i32, i32), b: (i32, i32)| {
        let (l, h) = (a.0.max(b.0), a.1.min(b.1));
        (l.min(h), l.max(h))
    };
    let mut lengths = [0; 127];
    for (j, weight) in weights[..m].iter().enumerate() {
        let code = |v: usize| matrix[(v - 1) * COLUMNS + j];
        let mut up = [(0, 0); 127];
        for &v in walk.iter().rev() {
            up[v] =
                if v <= n { (code(v), code(v)) } else { join(up[below[v][0]], up[below[v][1]]) };
        }
        let mut outside = [(0, 0); 127];
        let mut state = [0; 127];
        state[1] = code(1);
        for &v in &walk[1..] {
            let u = tree[v];
            state[v] = state[u].max(up[v].0).min(up[v].1);
            lengths[v] += u64::from(state[v].abs_diff(state[u])) * u64::from(*weight);
            outside[v] = if u == 1 {
                up[1]
            } else {
                let sister = if below[u][0] == v { below[u][1] } else { below[u][0] };
                join(up[sister], outside[u])
            };
            if v > n {
                let (a, b) = (up[below[v][0]], up[below[v][1]]);
                let mut ends = [a.0, a.1, b.0, b.1, outside[v].0, outside[v].1];
                ends.sort_unstable();
                let at = (v - 1) * COLUMNS + j;
                low[at] = ends[2];
                high[at] = ends[3];
                chosen[at] = state[v];
            }
        }
    }
    (lengths, lengths.iter().sum())
}

/// The floor: of each character the highest less the lowest code among the
/// taxa, by its weight.
pub fn floor(matrix: &[i32], weights: &[u8], n: usize, m: usize) -> u64 {
    let mut lowest = row(matrix, 1, m).to_vec();
    let mut highest = lowest.clone();
    for v in 2..=n {
        for (j, &code) in row(matrix, v, m).iter().enumerate() {
            lowest[j] = lowest[j].min(code);
            highest[j] = highest[j].max(code);
        }
    }
    let apart = highest.iter().zip(lowest).map(|(high, low)| high.abs_diff(low));
    apart.zip(weights).map(|(steps, weight)| u64::from(steps) * u64::from(*weight)).sum()
}

/// Quotient and remainder of 1000 times the floor, divided by the fitted
/// total; none for a total of 0.
pub fn divided(floor: u64, total: u64) -> Option<(u64, u64)> {
    (total > 0).then(|| (1000 * floor / total, 1000 * floor % total))
}

/// The consistency index on a lent branching.
pub fn index(
    matrix: &[i32],
    weights: &[u8],
    n: usize,
    m: usize,
    branches: &[usize],
) -> Option<(u64, u64)> {
    let tree = tree_of(n, branches).expect("the records make a branching");
    let [mut low, mut high, mut chosen] = [[0; MATRIX_SIZE]; 3];
    let (_, total) = fit(matrix, weights, n, m, &tree, &mut low, &mut high, &mut chosen);
    divided(floor(matrix, weights, n, m), total)
}

/// A whole number of 1 to 6 digits as a file writes it, with a minus if signed.
fn number(field: &[u8], signed: bool) -> Option<i32> {
    let (minus, digits) = match field {
        [b'-', digits @ ..] if signed => (true, digits),
        digits => (false, digits),
    };
    if digits.is_empty() || digits.len() > 6 || (digits[0] == b'0' && (minus || digits.len() > 1)) {
        return None;
    }
    let mut value = 0;
    for digit in digits {
        if !digit.is_ascii_digit() {
            return None;
        }
        value = value * 10 + i32::from(digit - b'0');
    }
    Some(if minus { -value } else { value })
}

/// The fields of a line.
fn fields(line: &[u8]) -> impl Iterator<Item = &[u8]> {
    line.split(|&byte| byte == b'\t')
}

/// The weights of a `V` line, written over a list that has a place for each.
fn read_weights(line: &[u8], weights: &mut [u8]) -> Option<()> {
    let mut fields = fields(line).skip(1);
    for place in weights {
        let [digit @ b'1'..=b'9'] = fields.next()? else {
            return None;
        };
        *place = digit - b'0';
    }
    fields.next().is_none().then_some(())
}

/// What line 1 says: the kind, n, m and, in a `W` file, the order.
fn read_first(line: &[u8]) -> Option<FileRead> {
    let mut fields = fields(line);
    let kind = match fields.next()? {
        b"W" => WAGNER,
        b"F" => OWN,
        _ => return None,
    };
    let n = number(fields.next()?, false)? as usize;
    let m = number(fields.next()?, false)? as usize;
    let order = match fields.next() {
        None if kind == OWN => NO_ORDER,
        None => ADVANCE,
        Some(b"advance") if kind == WAGNER => ADVANCE,
        Some(b"closest") if kind == WAGNER => CLOSEST,
        Some(_) => return None,
    };
    if fields.next().is_some() || n < 1 || n > 64 || m < 1 || m > 128 {
        return None;
    }
    Some(FileRead { refusal: 0, line: 0, kind, n, m, order })
}

/// The row behind v others: its codes, written over a list that has a place for
/// each, and its name, which differs from theirs, behind their names.
fn read_row(line: &[u8], v: usize, codes: &mut [i32], names: &mut [u8]) -> Option<()> {
    let mut fields = fields(line);
    let name = fields.next()?;
    let inside = |byte: &u8| byte.is_ascii_alphanumeric() || *byte == b'_';
    if name.len() > 16 || !name.first()?.is_ascii_alphabetic() || !name.iter().all(inside) {
        return None;
    }
    let place = &mut names[v * 16..v * 16 + 16];
    place.fill(0);
    place[..name.len()].copy_from_slice(name);
    if (0..v).any(|u| names[u * 16..u * 16 + 16] == names[v * 16..v * 16 + 16]) {
        return None;
    }
    for place in codes {
        *place = number(fields.next()?, true).filter(|code| (-999..=999).contains(code))?;
    }
    fields.next().is_none().then_some(())
}

/// The immediate ancestor that the `C` line of node v says.
fn read_branch(line: &[u8], v: usize) -> Option<usize> {
    let mut fields = fields(line);
    if fields.next()? != b"C" || number(fields.next()?, false)? as usize != v {
        return None;
    }
    let ancestor = number(fields.next()?, false)? as usize;
    fields.next().is_none().then_some(ancestor)
}

/// A read of a sound file: what it answers, or none if a question is answered
/// "no".
pub fn read(
    file: &[u8],
    matrix: &mut [i32],
    weights: &mut [u8],
    names: &mut [u8],
    branches: &mut [usize],
) -> Option<FileRead> {
    if file.len() > 45_000 || file.last() != Some(&b'\n') {
        return None;
    }
    let mut lines = file[..file.len() - 1].split(|&byte| byte == b'\n').peekable();
    let first = read_first(lines.next()?)?;
    let (n, m) = (first.n, first.m);
    match lines.next_if(|line| fields(line).next() == Some(b"V")) {
        None => weights[..m].fill(1),
        Some(line) => read_weights(line, &mut weights[..m])?,
    }
    for v in 0..n {
        read_row(lines.next()?, v, &mut matrix[v * COLUMNS..v * COLUMNS + m], names)?;
    }
    if first.kind == OWN {
        for (v, record) in (2..=last_node(n)).zip(branches.chunks_exact_mut(3)) {
            record.copy_from_slice(&[v, read_branch(lines.next()?, v)?, 0]);
        }
        tree_of(n, branches)?;
    }
    lines.next().is_none().then_some(first)
}

/// A page of lines: fields parted by tabs.
struct Page<'a> {
    text: Vec<u8>,
    names: &'a [u8],
    n: usize,
}

impl Page<'_> {
    /// The digits of a number.
    fn digits(&mut self, value: u64) {
        if value > 9 {
            self.digits(value / 10);
        }
        self.text.push(b'0' + (value % 10) as u8);
    }

    /// A field with a number.
    fn number(&mut self, value: u64) {
        self.text.push(b'\t');
        self.digits(value);
    }

    /// A field with a state.
    fn state(&mut self, value: i32) {
        self.text.push(b'\t');
        if value < 0 {
            self.text.push(b'-');
        }
        self.digits(u64::from(value.unsigned_abs()));
    }

    /// A field with a node: `-` for none, an HTU's number, a taxon's name.
    fn node(&mut self, v: usize) {
        self.text.push(b'\t');
        if v == 0 {
            self.text.push(b'-');
        } else if v > self.n {
            self.text.push(b'#');
            self.digits((v - self.n) as u64);
        } else {
            let name = &self.names[(v - 1) * 16..v * 16];
            self.text.extend(name.iter().take_while(|&&byte| byte != 0));
        }
    }

    /// A line with a letter and a total.
    fn total(&mut self, letter: u8, value: u64) {
        self.text.push(letter);
        self.number(value);
        self.text.push(b'\n');
    }

    /// The line of the consistency index.
    fn index(&mut self, index: Option<(u64, u64)>) {
        self.text.push(b'c');
        match index {
            None => self.text.extend(b"\t-\t-"),
            Some((quotient, remainder)) => {
                self.number(quotient);
                self.number(remainder);
            }
        }
        self.text.push(b'\n');
    }
    /// The lines of the network and of the Wagner tree, which is handed back.
    fn built(&mut self, matrix: &mut [i32], weights: &[u8], m: usize, order: u64) -> [usize; 127] {
        let (links, p) = network(matrix, weights, self.n, m);
        let (tree, placements, w) = build(matrix, weights, self.n, m, order);
        for link in links {
            self.text.push(b'P');
            self.node(link.taxon);
            self.node(link.joined);
            self.number(link.length);
            self.text.push(b'\n');
        }
        self.total(b'p', p);
        for place in placements {
            self.text.push(b'W');
            for node in [place.taxon, place.lower, place.upper, place.htu] {
                self.node(node);
            }
            self.number(place.added);
            self.text.push(b'\n');
        }
        self.total(b'w', w);
        tree
    }

    /// The lines of a fitted tree.
    fn fitted(&mut self, matrix: &[i32], weights: &[u8], m: usize, tree: &[usize; 127]) {
        let (n, [mut low, mut high, mut chosen]) = (self.n, [[0; MATRIX_SIZE]; 3]);
        let (lengths, t) = fit(matrix, weights, n, m, tree, &mut low, &mut high, &mut chosen);
        for v in 2..=last_node(n) {
            self.text.push(b'T');
            self.node(v);
            self.node(tree[v]);
            self.number(lengths[v]);
            self.text.extend(if lengths[v] > 0 { b"\t+\n" } else { b"\t-\n" });
        }
        self.total(b't', t);
        self.index(divided(floor(matrix, weights, n, m), t));
        for v in n + 1..=last_node(n) {
            for j in 1..=m {
                let at = (v - 1) * COLUMNS + j - 1;
                self.text.push(b'H');
                self.node(v);
                self.number(j as u64);
                for state in [low[at], high[at], chosen[at]] {
                    self.state(state);
                }
                self.text.push(b'\n');
            }
        }
    }
}

/// The listing of a sound file, in the bytes of a list that is lent for it.
pub fn list(file: &[u8], lent: Vec<u8>) -> Option<Vec<u8>> {
    let (mut matrix, mut weights) = ([0; MATRIX_SIZE], [0; WEIGHTS_SIZE]);
    let (mut names, mut branches) = ([0; NAMES_SIZE], [0; BRANCHES_SIZE]);
    let first = read(file, &mut matrix, &mut weights, &mut names, &mut branches)?;
    let mut page = Page { text: lent, names: &names, n: first.n };
    page.text.clear();
    let tree = if first.kind == OWN {
        tree_of(first.n, &branches)?
    } else {
        page.built(&mut matrix, &weights, first.m, first.order)
    };
    page.fitted(&matrix, &weights, first.m, &tree);
    Some(page.text)
}
