//! Distances in edges along the tree (request 2.7): the nearest pebble of a node, and the pebbles
//! within reach of it.

use crate::yard::{having, judge, refuse, Answer, Yard};
use std::collections::VecDeque;

/// The nearest pebble: the node that it stands on, and how many edges away that is.
#[derive(Clone, Copy, Debug, PartialEq, Eq)]
pub struct Nearest {
    pub node: u32,
    pub distance: u32,
}

/// The distance of each node from one node of a tree: breadth-first, from neighbour to neighbour,
/// whether above or below.
pub fn from_node(yard: &Yard, node: usize) -> Vec<usize> {
    let children = yard.children();
    let mut distances = vec![None; yard.nodes()];
    distances[node] = Some(0);
    let mut open = VecDeque::from([(node, 0)]);
    while let Some((at, distance)) = open.pop_front() {
        // The root's parent is the root, which has been met.
        for &next in children[at].iter().chain([&yard.parent(at)]) {
            if distances[next].is_none() {
                distances[next] = Some(distance + 1);
                open.push_back((next, distance + 1));
            }
        }
    }
    distances.into_iter().map(|distance| distance.expect("a tree hangs together")).collect()
}

/// The distance of any two nodes of a tree, by another method: neighbours are 1 apart, and while
/// two nodes are nearer over a third, their distance is lowered to that.
pub fn all_pairs(yard: &Yard) -> Vec<Vec<usize>> {
    let n = yard.nodes();
    let neighbours = |a: usize, b: usize| yard.parent(a) == b || yard.parent(b) == a;
    let begin = |a: usize, b: usize| match (a == b, neighbours(a, b)) {
        (true, _) => 0,
        (_, true) => 1,
        // Farther than any two nodes are.
        _ => n,
    };
    let mut pairs: Vec<Vec<usize>> = (0..n).map(|a| (0..n).map(|b| begin(a, b)).collect()).collect();
    let mut lowered = true;
    while lowered {
        lowered = false;
        for a in 0..n {
            for b in 0..n {
                let over = (0..n).map(|third| pairs[a][third] + pairs[third][b]).min().expect("a tree has a node");
                lowered |= over < pairs[a][b];
                pairs[a][b] = over;
            }
        }
    }
    pairs
}

/// The call for the nearest pebble, the lowest-numbered node among equals. Totals may differ.
pub fn nearest(yard: &Yard, node: usize) -> Answer<Nearest> {
    judge(yard)?;
    if node >= yard.nodes() {
        return refuse(19, 0);
    }
    let distances = from_node(yard, node);
    match having(&yard.pebbles).into_iter().min_by_key(|&at| (distances[at], at)) {
        Some(at) => Ok(Nearest { node: at as u32, distance: distances[at] as u32 }),
        None => refuse(22, 0),
    }
}

/// The call for the pebbles within reach: answers how many nodes hold one at most so many edges
/// away. Writes into a list of the given length 1 for each such node, 0 for the others. Totals may
/// differ.
pub fn reach(yard: &Yard, length: usize, node: usize, reach: u16) -> Answer<Vec<u8>> {
    judge(yard)?;
    if length != yard.nodes() {
        return refuse(2, 0);
    }
    if node >= yard.nodes() {
        return refuse(19, 0);
    }
    let distances = from_node(yard, node);
    let within = |at: usize| yard.pebbles[at] > 0 && distances[at] <= usize::from(reach);
    Ok((0..yard.nodes()).map(|at| u8::from(within(at))).collect())
}
