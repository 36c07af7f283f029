//! The least number of moves by two methods that know nothing of demands: a search through all that
//! the nodes of a small tree can hold, and the cheapest matching of pebbles to targets by their
//! distances (the older optimal method that the source reviews).

use crate::random::Random;
use crate::yard::{each, Yard};
use std::collections::VecDeque;

/// All that the nodes of a yard can hold, in the order of `shapes::every_count`: one more at a node
/// is `units[node]` places further on.
struct Places<'a> {
    yard: &'a Yard,
    units: Vec<usize>,
    /// Each edge both ways, first the node that is left.
    ways: Vec<(usize, usize)>,
}

impl Places<'_> {
    fn of(yard: &Yard) -> Places<'_> {
        let units = (0..=yard.nodes()).map(|node| yard.depths[..node].iter().map(|&depth| usize::from(depth) + 1).product()).collect();
        let edges = (0..yard.nodes()).filter(|&v| !yard.is_root(v));
        Places { yard, units, ways: edges.flat_map(|v| [(v, yard.parent(v)), (yard.parent(v), v)]).collect() }
    }

    fn len(&self) -> usize {
        self.units[self.yard.nodes()]
    }

    fn count(&self, at: usize, node: usize) -> usize {
        at / self.units[node] % (usize::from(self.yard.depths[node]) + 1)
    }

    /// Where a move leads, if it is legal.
    fn moved(&self, at: usize, (from, to): (usize, usize)) -> Option<usize> {
        let legal = self.count(at, from) > 0 && self.count(at, to) < usize::from(self.yard.depths[to]);
        legal.then(|| at + self.units[to] - self.units[from])
    }

    fn place(&self, counts: &[u8]) -> usize {
        counts.iter().zip(&self.units).map(|(&count, unit)| usize::from(count) * unit).sum()
    }
}

/// For each list of counts that the depths allow, in the order of `shapes::every_count`, the least
/// number of moves from the yard's pebbles to it; none if no moves lead there. Asks for a tree of
/// few nodes: the number of lists is the product of all depths plus 1.
pub fn by_search(yard: &Yard) -> Vec<Option<u32>> {
    let places = Places::of(yard);
    let mut least = vec![None; places.len()];
    let start = places.place(&yard.pebbles);
    least[start] = Some(0);
    let mut open = VecDeque::from([(start, 0)]);
    while let Some((at, moves)) = open.pop_front() {
        for next in places.ways.iter().filter_map(|&way| places.moved(at, way)) {
            if least[next].is_none() {
                least[next] = Some(moves + 1);
                open.push_back((next, moves + 1));
            }
        }
    }
    least
}

/// The place of a list of counts in that order.
pub fn place(yard: &Yard, counts: &[u8]) -> usize {
    Places::of(yard).place(counts)
}

/// Any one of the shortest plans, backwards from the targets through what the search found; none if
/// there is no plan.
pub fn any_plan(yard: &Yard, least: &[Option<u32>], random: &mut Random) -> Option<Vec<u8>> {
    let places = Places::of(yard);
    let mut at = places.place(&yard.targets);
    let mut moves = Vec::new();
    for left in (0..least[at]?).rev() {
        let before = |&(from, to): &(usize, usize)| Some((places.moved(at, (to, from))?, [from as u8, to as u8]));
        let nearer: Vec<(usize, [u8; 2])> = places.ways.iter().filter_map(before).filter(|(at, _)| least[*at] == Some(left)).collect();
        let (previous, ends) = random.pick(&nearer);
        moves.push(ends);
        at = previous;
    }
    moves.reverse();
    Some(moves.concat())
}

/// Every move with which a shortest plan starts, ordered by the node that is left, then by the node
/// that is entered; none if there is no plan. `left` has for each list of counts, in that order,
/// the least number of moves from it to the targets.
pub fn openings(yard: &Yard, left: &[Option<u32>]) -> Option<Vec<u8>> {
    let places = Places::of(yard);
    let at = places.place(&yard.pebbles);
    let moves = left[at]?;
    let nearer = |&way: &(usize, usize)| places.moved(at, way).is_some_and(|next| left[next].is_some_and(|less| less + 1 == moves));
    let mut openings: Vec<(usize, usize)> = places.ways.iter().copied().filter(nearer).collect();
    openings.sort();
    Some(openings.into_iter().flat_map(|(from, to)| [from as u8, to as u8]).collect())
}

/// The least sum of distances when each pebble gets a target of its own. Asks for a tree with equal
/// totals.
pub fn by_matching(yard: &Yard) -> u32 {
    let targets = each(&yard.targets);
    let costs: Vec<Vec<i64>> =
        each(&yard.pebbles).into_iter().map(|pebble| targets.iter().map(|&target| distance(yard, pebble, target)).collect()).collect();
    cheapest_assignment(&costs) as u32
}

/// Edges between two nodes: the nodes above one of them, itself included, that are not above the
/// other node, and the reverse.
fn distance(yard: &Yard, a: usize, b: usize) -> i64 {
    let (a, b) = (climb(yard, a), climb(yard, b));
    let common = a.iter().rev().zip(b.iter().rev()).take_while(|(x, y)| x == y).count();
    (a.len() + b.len() - 2 * common) as i64
}

fn climb(yard: &Yard, node: usize) -> Vec<usize> {
    let mut path = vec![node];
    let mut at = node;
    while !yard.is_root(at) {
        at = yard.parent(at);
        path.push(at);
    }
    path
}

/// Successive shortest augmenting paths with potentials, one row at a time. Row and column 0 stand
/// for 'none yet'.
fn cheapest_assignment(costs: &[Vec<i64>]) -> i64 {
    let size = costs.len();
    let mut row_potential = vec![0; size + 1];
    let mut column_potential = vec![0; size + 1];
    let mut row_of = vec![0; size + 1];
    for row in 1..=size {
        row_of[0] = row;
        let mut column = 0;
        let mut reach = vec![i64::MAX; size + 1];
        let mut before = vec![0; size + 1];
        let mut done = vec![false; size + 1];
        while row_of[column] != 0 {
            done[column] = true;
            let current = row_of[column];
            for next in (1..=size).filter(|&next| !done[next]) {
                let slack = costs[current - 1][next - 1] - row_potential[current] - column_potential[next];
                if slack < reach[next] {
                    reach[next] = slack;
                    before[next] = column;
                }
            }
            let nearest = (1..=size).filter(|&next| !done[next]).min_by_key(|&next| reach[next]).expect("a free column is left");
            let step = reach[nearest];
            for next in 0..=size {
                if done[next] {
                    row_potential[row_of[next]] += step;
                    column_potential[next] -= step;
                } else {
                    reach[next] = reach[next].saturating_sub(step);
                }
            }
            column = nearest;
        }
        while column != 0 {
            row_of[column] = row_of[before[column]];
            column = before[column];
        }
    }
    (1..=size).map(|column| costs[row_of[column] - 1][column - 1]).sum()
}
