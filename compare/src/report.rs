//! The crossing report that is due below a yard's move sheet (request 2.1), from the counts at the
//! start alone. `sheet` counts the report that it prints from the moves. If the two are the same,
//! each edge is crossed as often as pebbles and targets beyond it differ in number, and one way
//! only.

use crate::yard::Yard;

/// Sees that a move sheet printed for a tree with equal totals ends with the report due, and has as
/// many moves as both its columns sum up to.
pub fn judge(yard: &Yard, printed: &[u8]) -> Result<(), String> {
    let (report, sum) = due(yard);
    let Some(front) = printed.strip_suffix(report.as_bytes()) else {
        return Err(format!("the counts ask for the report {report:?}, printed is {:?}", String::from_utf8_lossy(printed)));
    };
    let lines = front.iter().filter(|&&byte| byte == b'\n').count();
    if lines != 1 + sum {
        return Err(format!("the columns of {report:?} sum up to {sum}, but above it stand {lines} lines, `from to` included"));
    }
    Ok(())
}

/// The report, and the sum of both its columns.
pub fn due(yard: &Yard) -> (String, usize) {
    let children = yard.children();
    let mut report = String::from("track up down\n");
    let mut sum = 0;
    for node in (0..yard.nodes()).filter(|&node| !yard.is_root(node)) {
        let [pebbles, targets] = [&yard.pebbles, &yard.targets].map(|counts| beyond(counts, &children, node));
        // Pebbles too many leave, those too few come: one of the two is 0.
        let (up, down) = (pebbles.saturating_sub(targets), targets.saturating_sub(pebbles));
        report += &format!("{node} {up} {down}\n");
        sum += up + down;
    }
    report += &format!("total\n{sum}\n");
    (report, sum)
}

/// How many there are in a subtree.
fn beyond(counts: &[u8], children: &[Vec<usize>], node: usize) -> usize {
    usize::from(counts[node]) + children[node].iter().map(|&child| beyond(counts, children, child)).sum::<usize>()
}
