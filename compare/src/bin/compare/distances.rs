//! Families of distances: the nearest pebble of a node, and the pebbles within reach of it.

use crate::calls::{Caller, Same};
use std::cmp::Ordering;
use unrelated::damage;
use unrelated::distance::{all_pairs, from_node};
use unrelated::random::{Random, Thin};
use unrelated::shapes::{self, Shape};
use unrelated::yard::{having, total, Refusal, Yard, MAX_DEPTH, MAX_NODES};

/// The nearest pebble, and the pebbles within each of the reaches. They must agree: below the
/// nearest distance no pebble is within reach; at it the nearest is the lowest within reach; beyond
/// it the nearest is still within reach. Without a pebble none ever is. A number that is no node is
/// refused by both calls.
fn agreed(caller: &Caller, yard: &Yard, node: usize, reaches: impl IntoIterator<Item = u16>) -> Same {
    let nearest = caller.nearest(yard, node)?;
    for reach in reaches {
        let list = caller.reach(yard, yard.nodes(), node, reach)?;
        let agree = match (nearest, &list) {
            (Ok(nearest), Ok(list)) => match u32::from(reach).cmp(&nearest.distance) {
                Ordering::Less => total(list) == 0,
                Ordering::Equal => having(list).first() == Some(&(nearest.node as usize)),
                Ordering::Greater => list[nearest.node as usize] == 1,
            },
            (Err(Refusal { number: 22, place: 0 }), Ok(list)) => total(list) == 0,
            (Err(one), Err(other)) => one == *other,
            _ => false,
        };
        if !agree {
            return Err(format!("{yard:?}: from {node} the nearest is {nearest:?}, but within {reach} are {list:?}"));
        }
    }
    Ok(())
}

/// The distances from each node of a tree by both methods.
fn measured(yard: &Yard) -> Same {
    let pairs = all_pairs(yard);
    match (0..yard.nodes()).find(|&node| from_node(yard, node) != pairs[node]) {
        Some(node) => Err(format!("{yard:?}: the distances from {node} are {:?}, by all pairs {:?}", from_node(yard, node), pairs[node])),
        None => Ok(()),
    }
}

/// With pebbles on all sets of nodes, at every node and at two numbers that are none: every reach
/// up to n, which is farther than any node, and the greatest. The targets are drawn, as they must
/// not matter.
pub fn every_node(caller: &Caller, thin: Thin) -> Same<u64> {
    let mut random = Random::new(33);
    let (mut number, mut cases) = (0, 0);
    for n in 1..=5 {
        for parents in shapes::every_tree(n) {
            let counts = shapes::every_count(&vec![1; n]);
            measured(&Yard::shallow(&parents, &counts[0], &counts[0]))?;
            for held in &counts {
                let mut yard = Yard::shallow(&parents, held, &counts[random.below(counts.len())]);
                // How many stand on a node must not matter either.
                if random.once_in(2) {
                    yard.depths = shapes::depths(n, MAX_DEPTH, &mut random);
                    yard.pebbles = (0..n).map(|node| held[node] * random.within(1, usize::from(yard.depths[node])) as u8).collect();
                }
                for node in 0..n + 2 {
                    number += 1;
                    if thin.keeps(number) {
                        cases += 1;
                        agreed(caller, &yard, node, (0..=n as u16).chain([u16::MAX]))?;
                    }
                }
            }
        }
    }
    Ok(cases)
}

/// Reaches about a distance, one that equals it once the high byte is lost, and some at the ends of
/// a byte and of a reach.
fn about(distance: usize, random: &mut Random) -> [u16; 6] {
    let distance = distance as u16;
    [
        distance.saturating_sub(1),
        distance,
        distance + 1,
        distance + 256,
        random.pick(&[0, 1, 255, 256, 257]),
        u16::MAX - random.below(3) as u16,
    ]
}

/// Few pebbles as often as many, at times none: the nearest is far, or near. Reaches about its
/// distance, about the farthest node's and any node's; then lists of another length and numbers
/// that are no nodes.
pub fn all_shapes(caller: &Caller, thin: Thin) -> Same<u64> {
    let mut random = Random::new(34);
    let cases = thin.of(4_800);
    for case in 0..cases {
        let shape = Shape::ALL[case as usize % Shape::ALL.len()];
        let n = if random.once_in(20) { MAX_NODES } else { shapes::size(1, MAX_NODES, &mut random) };
        let mut yard = shapes::any_yard(shape, n, &mut random);
        if random.once_in(2) {
            let k = random.below(4).min(n);
            yard.pebbles = shapes::scattered(&yard.depths, k, &mut random);
        }
        if n <= 24 {
            measured(&yard)?;
        }
        let mut node = random.below(n);
        let mut distances = from_node(&yard, node);
        // Once in three times from one that is farthest from there: one end of a longest way.
        if random.once_in(3) {
            node = (0..n).max_by_key(|&at| distances[at]).unwrap_or(node);
            distances = from_node(&yard, node);
        }
        let of_pebbles: Vec<usize> = having(&yard.pebbles).into_iter().map(|held| distances[held]).collect();
        let [nearest, farthest] = [of_pebbles.iter().min(), of_pebbles.iter().max()].map(|distance| distance.copied().unwrap_or(0));
        let any = random.pick(&distances);
        let met = [nearest, random.pick(&[farthest, any])];
        agreed(caller, &yard, node, met.into_iter().flat_map(|distance| about(distance, &mut random)))?;
        any_lists(caller, &yard, &mut random)?;
    }
    Ok(cases)
}

/// One of the two calls on any lists, with an output list of mostly the yard's length.
pub fn any_lists(caller: &Caller, yard: &Yard, random: &mut Random) -> Same {
    let n = yard.nodes();
    let node = damage::number(random.below(n.max(1)) as u8, yard, random);
    if random.once_in(2) {
        return caller.nearest(yard, node).map(drop);
    }
    let length = match random.below(8) {
        0 => (n + 2).saturating_sub(random.below(4)),
        1 => random.pick(&[0, n + 256]),
        _ => n,
    };
    caller.reach(yard, length, node, random.below(n + 2) as u16).map(drop)
}
