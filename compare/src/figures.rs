//! The figures of document 01 and requests 2.2, 2.4 and 2.10: shortest length, bound, displaced
//! ('disturbed' there), and the longest plan of n nodes.

use crate::demands;
use crate::follow::{follow, Taking};
use crate::planner;
use crate::yard::{refuse, total, Answer, Yard, MAX_DEPTH, MAX_NODES};

/// Theorem 14: the sum of the sizes of all demands. Asks for a tree with equal totals.
pub fn shortest_length(yard: &Yard) -> u32 {
    demands::of_tree(yard).iter().map(|demand| u32::from(demand.unsigned_abs())).sum()
}

/// How long a plan is: its moves, and the bytes of its list.
#[derive(Clone, Copy, Debug, PartialEq)]
pub struct Length {
    pub moves: u32,
    pub bytes: u32,
}

/// The bound (request 2.2): the length of the plan, which is made and counted.
pub fn length_bound(yard: &Yard) -> Answer<Length> {
    let plan = planner::plan(yard, usize::MAX)?;
    Ok(Length { moves: plan.chunks(2).count() as u32, bytes: plan.len() as u32 })
}

/// Corollary 15: no plan of the planner has more moves. Asks for a tree with equal totals.
pub fn corollary_15(yard: &Yard) -> u32 {
    (total(&yard.pebbles) * (yard.nodes() - 1)) as u32
}

/// No yard of n nodes needs more moves, and some yard needs as many (requests 2.2 and 2.10).
pub fn longest_plan(n: usize) -> Answer<u32> {
    match n {
        1..=MAX_NODES => Ok(longest_plan_to(MAX_DEPTH, n)),
        _ => refuse(1, 0),
    }
}

/// The same for nodes that can hold so many pebbles at most.
pub fn longest_plan_to(depth: u8, n: usize) -> u32 {
    u32::from(depth) * (n * n / 4) as u32
}

/// Displaced (request 2.4): how many pebbles take part in a move of the plan. The plan is made, and
/// each pebble followed through it. The last to come to a node is the first to leave it (request
/// 2.10).
pub fn displaced(yard: &Yard) -> Answer<u32> {
    let plan = planner::plan(yard, usize::MAX)?;
    let pebbles = follow(yard, &plan, Taking::Last).unwrap_or_else(|what| panic!("{yard:?}: {what}"));
    Ok(pebbles.iter().filter(|pebble| !pebble.crossed.is_empty()).count() as u32)
}

/// How many pebbles are above the target counts of their nodes. The displaced are never fewer
/// (request 2.10).
pub fn off_target(yard: &Yard) -> u32 {
    yard.pebbles.iter().zip(&yard.targets).map(|(&pebbles, &targets)| u32::from(pebbles.saturating_sub(targets))).sum()
}
