//! Openings (request 2.13): every move with which some shortest plan starts.

use crate::checker::step;
use crate::figures::shortest_length;
use crate::yard::{judge_matched, refuse, Answer, Yard};

/// The call: the openings, two bytes a move; refused if `room` bytes do not hold them.
pub fn openings(yard: &Yard, room: usize) -> Answer<Vec<u8>> {
    judge_matched(yard)?;
    let openings = of_tree(yard);
    if openings.len() > room {
        return refuse(8, openings.len() / 2);
    }
    Ok(openings)
}

/// All legal moves after which the shortest length is one less, ordered by the node that is left,
/// then by the node that is entered. Asks for a tree with equal totals.
pub fn of_tree(yard: &Yard) -> Vec<u8> {
    let (n, length) = (yard.nodes(), shortest_length(yard));
    let opens = |&(from, to): &(usize, usize)| {
        let mut pebbles = yard.pebbles.clone();
        step(yard, &mut pebbles, from, to).is_ok() && shortest_length(&Yard { pebbles, ..yard.clone() }) + 1 == length
    };
    let all = (0..n).flat_map(|from| (0..n).map(move |to| (from, to)));
    all.filter(opens).flat_map(|(from, to)| [from as u8, to as u8]).collect()
}
