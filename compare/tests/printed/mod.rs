//! What a printed listing says.

/// The immediate ancestors of nodes 2, 3 and so on, by the `T` lines: they go by
/// node number from 2 on, so a name that none of them begins with is that of
/// row 1.
pub fn ancestors(listing: &str) -> Vec<usize> {
    let lines = listing.lines().filter_map(|line| line.strip_prefix("T\t"));
    let fields: Vec<Vec<&str>> = lines.map(|line| line.split('\t').collect()).collect();
    let number = |name| fields.iter().position(|line| line[0] == name).map_or(1, |i| i + 2);
    fields.iter().map(|line| number(line[1])).collect()
}
