//! The parts of a yard (request 2.11): every edge whose demand is 0 is cut, and each part is taken
//! out and planned as a yard of its own.

use crate::demands;
use crate::planner;
use crate::yard::{judge_matched, refuse, Answer, Yard};

/// What an accepted call writes: the plans of the parts, one directly after another, and for each
/// node the topmost node of its part.
#[derive(Clone, Debug, PartialEq, Eq)]
pub struct Parted {
    pub plan: Vec<u8>,
    pub parts: Vec<u8>,
}

/// The topmost node of each node's part, which names the part. Asks for a tree.
pub fn topmost(yard: &Yard) -> Vec<usize> {
    let demands = demands::of_tree(yard);
    let climb = |node: usize| {
        let mut at = node;
        while demands[at] != 0 && !yard.is_root(at) {
            at = yard.parent(at);
        }
        at
    };
    (0..yard.nodes()).map(climb).collect()
}

/// The topmost nodes in rising number, each with the nodes of its part, in rising number too.
pub fn grouped(topmost: &[usize]) -> Vec<(usize, Vec<usize>)> {
    let nodes_of = |top: usize| (0..topmost.len()).filter(|&node| topmost[node] == top).collect();
    (0..topmost.len()).filter(|&node| topmost[node] == node).map(|top| (top, nodes_of(top))).collect()
}

/// The call, with a list of `room` bytes for the plan and one of this length for the parts.
pub fn plan_parts(yard: &Yard, room: usize, length: usize) -> Answer<Parted> {
    judge_matched(yard)?;
    if length != yard.nodes() {
        return refuse(2, 0);
    }
    let topmost = topmost(yard);
    let mut plan = Vec::new();
    for (top, nodes) in grouped(&topmost) {
        let own = planner::plan(&taken_out(yard, top, &nodes), usize::MAX).expect("a part has as many pebbles as targets");
        plan.extend(own.iter().map(|&node| nodes[usize::from(node)] as u8));
    }
    if plan.len() > room {
        return refuse(8, plan.len() / 2);
    }
    Ok(Parted { plan, parts: topmost.iter().map(|&top| top as u8).collect() })
}

/// A part as a yard of its own: its nodes are numbered anew from 0, in the same order, as choices
/// go by it. The topmost is the root.
fn taken_out(yard: &Yard, top: usize, nodes: &[usize]) -> Yard {
    let number = |node: usize| nodes.iter().position(|&of_part| of_part == node).expect("no edge within a part is cut") as u8;
    let parent = |&node: &usize| number(if node == top { top } else { yard.parent(node) });
    let counts = |list: &[u8]| nodes.iter().map(|&node| list[node]).collect();
    Yard {
        parents: nodes.iter().map(parent).collect(),
        pebbles: counts(&yard.pebbles),
        targets: counts(&yard.targets),
        depths: counts(&yard.depths),
    }
}
