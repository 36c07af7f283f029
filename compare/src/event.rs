//! Events at a node (requests 2.5, 2.8 and 2.10): a pebble arrives or leaves, a target is set or
//! cleared, and the yard's own list of demands is brought up to date.

use crate::demands::of_tree;
use crate::yard::{judge, refuse, Answer, Yard};

#[derive(Clone, Copy, Debug, PartialEq, Eq)]
pub enum Event {
    PebbleArrives,
    PebbleLeaves,
    TargetSet,
    TargetCleared,
}

impl Event {
    pub const ALL: [Event; 4] = [Event::PebbleArrives, Event::PebbleLeaves, Event::TargetSet, Event::TargetCleared];

    pub fn name(self) -> &'static str {
        match self {
            Event::PebbleArrives => "pebble_arrives",
            Event::PebbleLeaves => "pebble_leaves",
            Event::TargetSet => "target_set",
            Event::TargetCleared => "target_cleared",
        }
    }

    /// The list of counts that the event alters.
    pub fn of<T>(self, pebbles: T, targets: T) -> T {
        match self {
            Event::PebbleArrives | Event::PebbleLeaves => pebbles,
            Event::TargetSet | Event::TargetCleared => targets,
        }
    }

    /// The count of a node of this depth after it, if there is a place, or one to take.
    pub fn next(self, count: u8, depth: u8) -> Option<u8> {
        match self {
            Event::PebbleArrives | Event::TargetSet => (count < depth).then(|| count + 1),
            Event::PebbleLeaves | Event::TargetCleared => count.checked_sub(1),
        }
    }

    /// Whether it can be at a node of the yard.
    pub fn fits(self, yard: &Yard, node: usize) -> bool {
        self.next(self.of(&yard.pebbles, &yard.targets)[node], yard.depths[node]).is_some()
    }

    /// The yard afterwards, where it can be at the node; else the same.
    pub fn at(self, yard: &Yard, node: usize) -> Yard {
        let mut after = yard.clone();
        let count = &mut self.of(&mut after.pebbles, &mut after.targets)[node];
        *count = self.next(*count, yard.depths[node]).unwrap_or(*count);
        after
    }

    /// What it adds to the demand of each subtree that has its node: a demand is targets minus
    /// pebbles.
    pub fn change(self) -> i16 {
        match self {
            Event::PebbleLeaves | Event::TargetSet => 1,
            Event::PebbleArrives | Event::TargetCleared => -1,
        }
    }
}

/// A yard and the list of demands that is kept beside it, right or not.
#[derive(Clone, Debug, PartialEq, Eq)]
pub struct Kept {
    pub yard: Yard,
    pub demands: Vec<i16>,
}

impl Kept {
    /// A tree with its own demands.
    pub fn right(yard: Yard) -> Kept {
        Kept { demands: of_tree(&yard), yard }
    }
}

/// The nodes from a node of a tree to the root, both included.
pub fn way(yard: &Yard, node: usize) -> Vec<usize> {
    let mut way = vec![node];
    let mut at = node;
    while !yard.is_root(at) {
        at = yard.parent(at);
        way.push(at);
    }
    way
}

/// The call: what is kept after the event. Totals may differ.
pub fn happen(kept: &Kept, event: Event, node: usize) -> Answer<Kept> {
    judge(&kept.yard)?;
    let n = kept.yard.nodes();
    if kept.demands.len() != n {
        return refuse(2, 0);
    }
    if node >= n {
        return refuse(19, 0);
    }
    if !event.fits(&kept.yard, node) {
        return refuse(20, 0);
    }
    let afresh = of_tree(&kept.yard);
    if let Some(stale) = (0..n).find(|&at| kept.demands[at] != afresh[at]) {
        return refuse(23, stale);
    }
    let mut after = Kept { yard: event.at(&kept.yard, node), demands: kept.demands.clone() };
    for at in way(&kept.yard, node) {
        after.demands[at] += event.change();
    }
    Ok(after)
}
