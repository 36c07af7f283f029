//! Moves obeyed one by one: the push, the checker and the trial.

use crate::figures::shortest_length;
use crate::yard::{judge, judge_matched, refuse, Answer, Refusal, Yard};

/// The longest plan that is looked at, in bytes: 131,072 moves (request 2.10).
pub const MAX_PLAN_BYTES: usize = 262_144;

/// Moves of an accepted plan, and how many of them a shortest plan does without.
#[derive(Clone, Copy, Debug, PartialEq, Eq)]
pub struct Checked {
    pub moves: u32,
    pub excess: u32,
}

/// Moves obeyed, and whether the budget ended the trial while moves were left.
#[derive(Clone, Copy, Debug, PartialEq, Eq)]
pub struct Tried {
    pub taken: u32,
    pub budget_ended: bool,
}

/// One push of a tree's pebbles: its counts afterwards.
pub fn push(yard: &Yard, from: usize, to: usize) -> Answer<Vec<u8>> {
    judge(yard)?;
    let mut pebbles = yard.pebbles.clone();
    match step(yard, &mut pebbles, from, to) {
        Ok(()) => Ok(pebbles),
        Err(number) => refuse(number, 0),
    }
}

pub fn check(yard: &Yard, plan: &[u8]) -> Answer<Checked> {
    judge_matched(yard)?;
    judge_plan_length(plan)?;
    let mut pebbles = yard.pebbles.clone();
    obey(yard, &mut pebbles, plan)?;
    if let Some(node) = (0..yard.nodes()).find(|&node| pebbles[node] < yard.targets[node]) {
        return refuse(14, node);
    }
    let moves = (plan.len() / 2) as u32;
    Ok(Checked { moves, excess: moves - shortest_length(yard) })
}

/// The trial's answer, and the pebbles that it writes.
pub fn trial(yard: &Yard, plan: &[u8], budget: u16) -> Answer<(Tried, Vec<u8>)> {
    judge(yard)?;
    judge_plan_length(plan)?;
    let moves = plan.len() / 2;
    let taken = moves.min(usize::from(budget));
    let mut pebbles = yard.pebbles.clone();
    obey(yard, &mut pebbles, &plan[..2 * taken])?;
    Ok((Tried { taken: taken as u32, budget_ended: taken < moves }, pebbles))
}

/// Refusal 9.
pub fn judge_plan_length(plan: &[u8]) -> Answer<()> {
    if plan.len() % 2 == 1 || plan.len() > MAX_PLAN_BYTES {
        return refuse(9, 0);
    }
    Ok(())
}

fn obey(yard: &Yard, pebbles: &mut [u8], plan: &[u8]) -> Answer<()> {
    for (place, ends) in plan.chunks(2).enumerate() {
        step(yard, pebbles, usize::from(ends[0]), usize::from(ends[1])).map_err(|number| Refusal { number, place: place as u32 })?;
    }
    Ok(())
}

/// A legal move is made; of any other the refusal's number is told.
pub fn step(yard: &Yard, pebbles: &mut [u8], from: usize, to: usize) -> Result<(), u32> {
    let n = yard.nodes();
    if from >= n || to >= n {
        return Err(10);
    }
    if from == to || (yard.parent(from) != to && yard.parent(to) != from) {
        return Err(11);
    }
    if pebbles[from] == 0 {
        return Err(12);
    }
    if pebbles[to] >= yard.depths[to] {
        return Err(13);
    }
    pebbles[from] -= 1;
    pebbles[to] += 1;
    Ok(())
}
