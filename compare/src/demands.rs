//! Demands, by equation 1 of the source: the targets minus the pebbles of a node's subtree.

use crate::yard::{judge, refuse, Answer, Yard};

/// No demand is farther from 0 (request 2.10).
pub const MAX_DEMAND: i16 = 2_048;

/// The demand of each node of a tree: every node is counted at itself and at each node above it.
pub fn of_tree(yard: &Yard) -> Vec<i16> {
    let mut demands = vec![0; yard.nodes()];
    for node in 0..yard.nodes() {
        let own = i16::from(yard.targets[node]) - i16::from(yard.pebbles[node]);
        let mut above = node;
        demands[above] += own;
        while !yard.is_root(above) {
            above = yard.parent(above);
            demands[above] += own;
        }
    }
    demands
}

/// Whether a list of numbers meets equation 2 of the source at every node (request 2.3): targets
/// minus pebbles, plus what the list has for the children.
pub fn meets_equation_2(yard: &Yard, list: &[i16]) -> bool {
    let children = yard.children();
    let asked = |node: usize| -> i16 {
        let own = i16::from(yard.targets[node]) - i16::from(yard.pebbles[node]);
        own + children[node].iter().map(|&child| list[child]).sum::<i16>()
    };
    (0..yard.nodes()).all(|node| list[node] == asked(node))
}

/// The call that writes them into a list of the given length. Totals may differ.
pub fn list(yard: &Yard, length: usize) -> Answer<Vec<i16>> {
    judge(yard)?;
    if length != yard.nodes() {
        return refuse(2, 0);
    }
    Ok(of_tree(yard))
}
