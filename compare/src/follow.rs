//! Pebbles followed one by one from their starting nodes (requests 2.4 and 2.10): where each ends,
//! and which edges it crossed.

use crate::random::Random;
use crate::yard::{each, Yard};

#[derive(Clone, Debug, PartialEq, Eq)]
pub struct Followed {
    pub at: usize,
    /// The edges crossed, one for each move, by the numbers of their lower nodes.
    pub crossed: Vec<usize>,
}

/// Which pebble of a node leaves it.
#[derive(Clone, Copy, Debug, PartialEq, Eq)]
pub enum Taking {
    /// The last that came.
    Last,
    /// The one that is there longest.
    First,
    /// Any, by a seed.
    Any(u64),
}

/// The pebbles of a yard after a plan, in rising number of their starting nodes. Each move takes a
/// pebble at its first node to its second, where there must be a place. The first move that does
/// not is told.
pub fn follow(yard: &Yard, plan: &[u8], taking: Taking) -> Result<Vec<Followed>, String> {
    let mut random = match taking {
        Taking::Any(seed) => Random::new(seed),
        _ => Random::new(0),
    };
    let mut pebbles: Vec<Followed> = each(&yard.pebbles).into_iter().map(|at| Followed { at, crossed: Vec::new() }).collect();
    // The pebbles at each node, the last that came last.
    let mut standing = vec![Vec::new(); yard.nodes()];
    for (pebble, followed) in pebbles.iter().enumerate() {
        standing[followed.at].push(pebble);
    }
    for (place, ends) in plan.chunks(2).enumerate() {
        let [from, to] = [ends[0], ends[1]].map(usize::from);
        let here = standing[from].len();
        if here == 0 || standing[to].len() >= usize::from(yard.depths[to]) {
            return Err(format!("move {place} of {plan:?} takes no pebble to a node with a place"));
        }
        let pebble = standing[from].remove(match taking {
            Taking::Last => here - 1,
            Taking::First => 0,
            Taking::Any(_) => random.below(here),
        });
        standing[to].push(pebble);
        pebbles[pebble].at = to;
        pebbles[pebble].crossed.push(if yard.parent(from) == to { from } else { to });
    }
    Ok(pebbles)
}

/// Sees that the followed pebbles fill each node to its target count, and that none crosses an edge
/// twice. Demand 3 says so of every shortest plan, whichever pebble of a node is taken.
pub fn judge(yard: &Yard, plan: &[u8]) -> Result<(), String> {
    let takings = [Taking::Last, Taking::First, Taking::Any(1), Taking::Any(2)];
    // Where each node holds one, there is none to choose from.
    for taking in &takings[..if yard.is_shallow() { 1 } else { takings.len() }] {
        let followed = follow(yard, plan, *taking)?;
        let mut ends: Vec<usize> = followed.iter().map(|pebble| pebble.at).collect();
        ends.sort_unstable();
        if ends != each(&yard.targets) {
            return Err(format!("the pebbles followed through {plan:?} by {taking:?} end on {ends:?}"));
        }
        for Followed { mut crossed, .. } in followed {
            let edges = crossed.len();
            crossed.sort_unstable();
            crossed.dedup();
            if crossed.len() < edges {
                return Err(format!("a pebble followed through {plan:?} by {taking:?} crosses an edge twice"));
            }
        }
    }
    Ok(())
}
