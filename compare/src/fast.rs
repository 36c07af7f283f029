//! Test, bound, displaced, events, nearest, reach, planner, plans of parts, openings, checker,
//! wear, trial and the cabinet's step, written for speed. Nothing comes from the heap, each child
//! names its next sibling, and each node keeps whose turn it is among its children. The benchmark
//! sets the library beside these.

use crate::cabinet::{command, flag, status, BLOCK_BYTES};
use crate::checker::{Tried, MAX_PLAN_BYTES};
use crate::distance::Nearest;
use crate::event::Event;
use crate::figures::Length;
use crate::wear::Wear;
use crate::yard::{refuse, Answer, MAX_DEPTH, MAX_NODES};
use std::mem::swap;

/// The refusals of a yard: 1, 2, 26, 27 and 4 to 6.
#[inline]
pub fn test_yard(parents: &[u8], pebbles: &[u8], targets: &[u8], depths: &[u8]) -> Answer<()> {
    if all_reach_root(parents, pebbles, targets, depths) {
        Ok(())
    } else {
        refusal_due(parents, pebbles, targets, depths)
    }
}

/// The refusals of a yard and 7; the moves of the plan and the bytes of its list, from the demands.
pub fn length_bound(parents: &[u8], pebbles: &[u8], targets: &[u8], depths: &[u8]) -> Answer<Length> {
    let (demand, _) = demands(parents, pebbles, targets, depths)?;
    let moves = sizes(&demand);
    Ok(Length { moves, bytes: 2 * moves })
}

/// The refusals of a yard and 7; the pebbles that take part in a move of the plan, from the
/// demands. The pebbles that leave a node are as many as it ever has fewer than at the start. A
/// node gives what its parent draws from it and what its children lack before it draws anything
/// itself, unless it has none left. Where pebbles come to a node, it has more than at the start
/// before it gives, but for the one that a full node gives first.
pub fn displaced(parents: &[u8], pebbles: &[u8], targets: &[u8], depths: &[u8]) -> Answer<u32> {
    let mut lacked = [0; MAX_NODES];
    let (demand, _) = demands_with(parents, pebbles, targets, depths, |_, parent, demand| lacked[parent] += demand.max(0))?;
    let of_node = |(((&pebbles, &depth), &demand), &lacked): (((&u8, &u8), &i16), &i16)| {
        let given = (lacked - demand).clamp(0, i16::from(pebbles));
        given.max(i16::from(demand > 0 && pebbles == depth)) as u32
    };
    Ok(pebbles.iter().zip(depths).zip(&demand).zip(&lacked).map(of_node).sum())
}

/// The refusals of a yard, 2 for the list of demands, 19, 20 and 23, by the demands worked out.
/// Alters the count, and in one climb the demands on the way to the root.
pub fn event(
    parents: &[u8],
    pebbles: &mut [u8],
    targets: &mut [u8],
    depths: &[u8],
    demands: &mut [i16],
    event: Event,
    node: usize,
) -> Answer<()> {
    let count = event_afresh(parents, pebbles, targets, depths, demands, event, node)?;
    event.of(pebbles, targets)[node] = count;
    let change = event.change();
    let mut at = node;
    loop {
        demands[at] += change;
        let parent = usize::from(parents[at]);
        if parent == at {
            return Ok(());
        }
        at = parent;
    }
}

/// The same, but the list is held to equation 2: a demand is worked out only for the place of 23.
pub fn event_by_equation_2(
    parents: &[u8],
    pebbles: &mut [u8],
    targets: &mut [u8],
    depths: &[u8],
    demands: &mut [i16],
    event: Event,
    node: usize,
) -> Answer<()> {
    let Some((count, climbs)) = climbs(parents, pebbles, targets, depths, demands, event, node) else {
        return event_afresh(parents, pebbles, targets, depths, demands, event, node).map(|_| ());
    };
    event.of(pebbles, targets)[node] = count;
    let change = event.change();
    for (demand, climb) in demands.iter_mut().zip(climbs) {
        *demand += if climb == WAY { change } else { 0 };
    }
    Ok(())
}

/// The refusals of a yard, 19 and 22; the least distance of a pebble, found many entries at a time,
/// then the first pebble that has it.
pub fn nearest(parents: &[u8], pebbles: &[u8], targets: &[u8], depths: &[u8], node: usize) -> Answer<Nearest> {
    let distances = distances(parents, pebbles, targets, depths, node)?;
    if node >= parents.len() {
        return refuse(19, 0);
    }
    // Unknown where there is no pebble.
    let of_pebbles = distances.iter().zip(pebbles).map(|(&distance, &pebbles)| distance | u16::from(pebbles == 0).wrapping_neg());
    let least = of_pebbles.fold(UNKNOWN, u16::min);
    match distances.iter().zip(pebbles).position(|(&distance, &pebbles)| pebbles > 0 && distance == least) {
        Some(at) => Ok(Nearest { node: at as u32, distance: u32::from(least) }),
        None => refuse(22, 0),
    }
}

/// The refusals of a yard, 2 for the list, 19; answers how many nodes within reach hold pebbles,
/// and marks them.
pub fn reach(parents: &[u8], pebbles: &[u8], targets: &[u8], depths: &[u8], list: &mut [u8], node: usize, reach: u16) -> Answer<u32> {
    let distances = distances(parents, pebbles, targets, depths, node)?;
    if list.len() != parents.len() {
        return refuse(2, 0);
    }
    if node >= parents.len() {
        return refuse(19, 0);
    }
    for ((mark, &pebbles), &distance) in list.iter_mut().zip(pebbles).zip(&distances) {
        *mark = u8::from(pebbles > 0) & u8::from(distance <= reach);
    }
    Ok(list.iter().map(|&mark| u32::from(mark)).sum())
}

/// The refusals of a yard, 7 and 8; the plan goes to the front of the list, its moves are answered.
///
/// The neediest children of one sign are served in rising number, one pebble each. Then their
/// demands are one nearer to 0, and the next children in need are as needy: the children are gone
/// through again. So each node keeps for each sign how needy a child must be and where to go on. No
/// pick looks back, and the children are gone through as often as the greatest of their demands at
/// the start says.
pub fn plan(parents: &[u8], pebbles: &[u8], targets: &[u8], depths: &[u8], list: &mut [u8]) -> Answer<u32> {
    plan_by::<Siblings, true, false>(parents, pebbles, targets, depths, list)
}

/// The same, with the children of a node side by side.
pub fn plan_by_rows(parents: &[u8], pebbles: &[u8], targets: &[u8], depths: &[u8], list: &mut [u8]) -> Answer<u32> {
    plan_by::<Rows, true, false>(parents, pebbles, targets, depths, list)
}

/// The same, but nothing is kept: each pick looks at all children for the neediest, and its demand
/// follows the move.
pub fn plan_with_scans(parents: &[u8], pebbles: &[u8], targets: &[u8], depths: &[u8], list: &mut [u8]) -> Answer<u32> {
    plan_by::<Siblings, false, false>(parents, pebbles, targets, depths, list)
}

/// The same, but Algorithms 2 and 3 do not call themselves: the way down is kept in a list, and its
/// moves are written from the end.
pub fn plan_by_ways(parents: &[u8], pebbles: &[u8], targets: &[u8], depths: &[u8], list: &mut [u8]) -> Answer<u32> {
    plan_by::<Siblings, true, true>(parents, pebbles, targets, depths, list)
}

/// The refusals of a yard, 7, 2 for the list of parts, and 8; answers the number of moves. The
/// plans of the parts go to the front of the plan list one after another, the topmost nodes into
/// the list of parts.
///
/// A node is the topmost of its part exactly if its demand is 0. Balanced without the children
/// whose demand is 0, it is planned for with its part alone.
pub fn plan_parts(parents: &[u8], pebbles: &[u8], targets: &[u8], depths: &[u8], list: &mut [u8], parts: &mut [u8]) -> Answer<u32> {
    let (mut upwards, mut below_root) = ([0; MAX_NODES], 0u8);
    let (demand, root) = demands_with(parents, pebbles, targets, depths, |node, _, _| {
        upwards[usize::from(below_root)] = node as u8;
        below_root += 1;
    })?;
    let n = parents.len();
    if parts.len() != n {
        return refuse(2, 0);
    }
    let moves = room_for(&demand, list)?;
    // Backwards: each node comes after its parent.
    let (parent_of, mut topmost) = (copy(parents), [root as u8; MAX_NODES]);
    for &node in upwards[..usize::from(below_root)].iter().rev() {
        let at = usize::from(node);
        topmost[at] = if demand[at] == 0 { node } else { topmost[usize::from(parent_of[at])] };
    }
    parts.copy_from_slice(&topmost[..n]);
    let mut state = State::<Siblings, true, false>::of(parents, pebbles, depths, &demand, root, list);
    for top in (0..n).filter(|&node| demand[node] == 0) {
        state.balance::<true>(top as u8);
    }
    Ok(moves)
}

/// The refusals of a yard, 7 and 8; answers how many openings there are, and writes them to the
/// front of the list.
///
/// A move is an opening exactly if it is legal and crosses its edge the way that the demand asks.
/// So each edge has one at most, and each node has its openings in order: those to its children,
/// chained in rising number, and the one to its parent at its place among them. Nothing is sorted.
pub fn openings(parents: &[u8], pebbles: &[u8], targets: &[u8], depths: &[u8], list: &mut [u8]) -> Answer<u32> {
    let (demand, root) = demands(parents, pebbles, targets, depths)?;
    let n = parents.len();
    let (parent_of, pebbles, depths) = (copy(parents), copy(pebbles), copy(depths));
    // The children that their parents can give to, as siblings. The root, which is no child, marks
    // the end.
    let none = root as u8;
    let (mut first, mut next) = ([none; MAX_NODES], [none; MAX_NODES]);
    let mut to_parent = [false; MAX_NODES];
    let mut count = 0;
    for node in (0..n).rev() {
        let parent = usize::from(parent_of[node]);
        if demand[node] > 0 {
            if pebbles[parent] > 0 && pebbles[node] < depths[node] {
                next[node] = first[parent];
                first[parent] = node as u8;
                count += 1;
            }
        } else if demand[node] < 0 && pebbles[node] > 0 && pebbles[parent] < depths[parent] {
            to_parent[node] = true;
            count += 1;
        }
    }
    if list.len() < 2 * count {
        return refuse(8, count);
    }
    let mut moves = list.chunks_exact_mut(2);
    let mut write = |from: u8, to: u8| {
        if let Some(ends) = moves.next() {
            ends.copy_from_slice(&[from, to]);
        }
    };
    for node in 0..n {
        let (u, parent) = (node as u8, parent_of[node]);
        let mut v = first[node];
        if to_parent[node] {
            while v != none && v < parent {
                write(u, v);
                v = next[usize::from(v)];
            }
            write(u, parent);
        }
        while v != none {
            write(u, v);
            v = next[usize::from(v)];
        }
    }
    Ok(count as u32)
}

/// The refusals of a yard, 7, 9, 10 to 13 for each move, 14.
pub fn check(parents: &[u8], pebbles: &[u8], targets: &[u8], depths: &[u8], plan: &[u8]) -> Answer<()> {
    test_yard(parents, pebbles, targets, depths)?;
    check_on_tree(parents, pebbles, targets, depths, plan)
}

/// The refusals of a yard, 7, 9, 10 to 13 for each move, 14, 28; the crossings are counted while
/// the moves are obeyed.
pub fn wear(parents: &[u8], pebbles: &[u8], targets: &[u8], depths: &[u8], plan: &[u8], width: u32) -> Answer<Wear> {
    test_yard(parents, pebbles, targets, depths)?;
    let width = width as usize;
    if width == 0 || width > plan.len() / 2 {
        check_on_tree(parents, pebbles, targets, depths, plan)?;
        return refuse(28, 0);
    }
    equal_totals(pebbles, targets)?;
    let (after, wear) = obey_and_count(parents, pebbles, depths, whole_moves(plan)?, width)?;
    targets_reached(&after, targets)?;
    Ok(wear)
}

/// The refusals of a yard, 9, 10 to 13 for each move obeyed; writes the pebbles when all are
/// accepted.
pub fn trial(parents: &[u8], pebbles: &mut [u8], targets: &[u8], depths: &[u8], plan: &[u8], budget: u16) -> Answer<Tried> {
    test_yard(parents, pebbles, targets, depths)?;
    let plan = whole_moves(plan)?;
    let moves = plan.len() / 2;
    let taken = moves.min(usize::from(budget));
    let after = obey(parents, pebbles, depths, &plan[..2 * taken])?;
    pebbles.copy_from_slice(&after[..pebbles.len()]);
    Ok(Tried { taken: taken as u32, budget_ended: taken < moves })
}

/// The refusals of a yard, 2 for the block, 24, 25, then those of a start or of the due move.
/// Alters pebbles and registers, and answers 1 if the line is raised.
pub fn step(
    parents: &[u8],
    pebbles: &mut [u8],
    targets: &[u8],
    depths: &[u8],
    plan: &[u8],
    registers: &mut [u8],
    failed: u8,
) -> Answer<u32> {
    test_yard(parents, pebbles, targets, depths)?;
    step_on_tree(parents, pebbles, targets, depths, plan, registers, failed)
}

/// Tests the yard, and on the way calls `add` with each node and its parent, children first.
/// Answers the root.
#[inline(always)]
fn fold_up(parents: &[u8], pebbles: &[u8], targets: &[u8], depths: &[u8], mut add: impl FnMut(usize, usize)) -> Answer<usize> {
    if !passes_to_4(parents, pebbles, targets, depths) {
        return refusal_due(parents, pebbles, targets, depths);
    }
    let n = parents.len();
    let mut root = None;
    let mut children_left = [0u16; MAX_NODES];
    for (node, &parent) in parents.iter().enumerate() {
        if usize::from(parent) != node {
            children_left[usize::from(parent)] += 1;
        } else if root.replace(node).is_some() {
            return refusal_due(parents, pebbles, targets, depths);
        }
    }
    let Some(root) = root else {
        return refusal_due(parents, pebbles, targets, depths);
    };
    let mut added = 1;
    for leaf in 0..n {
        // Upwards from each leaf, as far as no child is missing. A node passed on the way is not
        // taken for a leaf later: its count is then 0.
        let mut node = leaf;
        while children_left[node] == 0 && node != root {
            let parent = usize::from(parents[node]);
            add(node, parent);
            added += 1;
            children_left[node] = u16::MAX;
            children_left[parent] -= 1;
            node = parent;
        }
    }
    if added < n {
        return refusal_due(parents, pebbles, targets, depths);
    }
    Ok(root)
}

/// Whether none of refusals 1, 2, 26, 27 and 4 is due. No loop ends at the first wrong entry, so
/// many bytes can be looked at at a time.
#[inline(always)]
fn passes_to_4(parents: &[u8], pebbles: &[u8], targets: &[u8], depths: &[u8]) -> bool {
    let n = parents.len();
    if n == 0 || n > MAX_NODES || [pebbles.len(), targets.len(), depths.len()] != [n; 3] {
        return false;
    }
    let last = (n - 1) as u8;
    let wrong = |(((&parent, &pebbles), &targets), &depth): (((&u8, &u8), &u8), &u8)| {
        u8::from(parent > last) | u8::from(pebbles.max(targets) > depth) | u8::from(depth.wrapping_sub(1) >= MAX_DEPTH)
    };
    parents.iter().zip(pebbles).zip(targets).zip(depths).map(wrong).fold(0, |any, wrong| any | wrong) == 0
}

/// The climb from an event's node to the root. Any other climb has the number of the node that it
/// starts from.
const WAY: u16 = MAX_NODES as u16;
const NO_CLIMB: u16 = u16::MAX;

/// The count after an event and the climb that passed each node first, if it is accepted.
///
/// The way comes first. Each other climb ends where an earlier one passed, or there is a circle or
/// a second root. Meanwhile the entries of the children are summed up: a list is the tree's own
/// exactly if it meets equation 2 at every node (request 2.3). That asks for no order, so no demand
/// is worked out. Sums that wrap tell no less: from the leaves upwards they too leave one entry for
/// each node.
#[inline(always)]
fn climbs(
    parents: &[u8],
    pebbles: &[u8],
    targets: &[u8],
    depths: &[u8],
    demands: &[i16],
    event: Event,
    node: usize,
) -> Option<(u8, [u16; MAX_NODES])> {
    let count = event.next(*event.of(pebbles, targets).get(node)?, *depths.get(node)?)?;
    if demands.len() != parents.len() || !passes_to_4(parents, pebbles, targets, depths) {
        return None;
    }
    let parent_of = copy(parents);
    let mut climbs = [NO_CLIMB; MAX_NODES];
    let mut root = node;
    while climbs[root] == NO_CLIMB {
        climbs[root] = WAY;
        root = usize::from(parent_of[root]);
    }
    if usize::from(parent_of[root]) != root {
        return None;
    }
    // Two sums by turns: else each child of a star would wait for the previous one.
    let mut sums = [[0i16; MAX_NODES]; 2];
    let [mut this, mut other] = sums.each_mut();
    for (start, (&parent, &demand)) in parents.iter().zip(demands).enumerate() {
        let parent = usize::from(parent);
        this[parent] = this[parent].wrapping_add(demand);
        swap(&mut this, &mut other);
        if climbs[start] != NO_CLIMB {
            continue;
        }
        climbs[start] = start as u16;
        let mut at = parent;
        while climbs[at] == NO_CLIMB {
            climbs[at] = start as u16;
            at = usize::from(parent_of[at]);
        }
        if climbs[at] == start as u16 {
            return None;
        }
    }
    // The root is no child of its own.
    sums[0][root] = sums[0][root].wrapping_sub(demands[root]);
    let mut differing = 0;
    for at in 0..parents.len() {
        let own = i16::from(targets[at]) - i16::from(pebbles[at]);
        differing |= demands[at] ^ own.wrapping_add(sums[0][at]).wrapping_add(sums[1][at]);
    }
    (differing == 0).then_some((count, climbs))
}

/// The refusals of an event, by the demands worked out; the count after it.
#[inline(always)]
fn event_afresh(parents: &[u8], pebbles: &[u8], targets: &[u8], depths: &[u8], demands: &[i16], event: Event, node: usize) -> Answer<u8> {
    let mut afresh = [0; MAX_NODES];
    gather(parents, pebbles, targets, depths, &mut afresh, |_, _, _| {})?;
    if demands.len() != parents.len() {
        return refuse(2, 0);
    }
    let Some(&count) = event.of(pebbles, targets).get(node) else {
        return refuse(19, 0);
    };
    let Some(count) = event.next(count, depths[node]) else {
        return refuse(20, 0);
    };
    if *demands != afresh[..demands.len()] {
        return refuse(23, demands.iter().zip(afresh).position(|(&entry, demand)| entry != demand).unwrap_or(0));
    }
    Ok(count)
}

/// A distance that is not known yet.
const UNKNOWN: u16 = u16::MAX;

/// The refusals of a yard; the distance of each node from a node, or from the last if the number is
/// none.
///
/// The way to the root comes first. Every other node is one edge farther than its parent. If the
/// parent's distance is not known either, a climb finds the first known node, and a second climb
/// writes the nodes on the way. So the yard is tested too: without a root, with a second root or a
/// circle, some climb comes to no end.
fn distances(parents: &[u8], pebbles: &[u8], targets: &[u8], depths: &[u8], node: usize) -> Answer<[u16; MAX_NODES]> {
    let n = parents.len();
    if !passes_to_4(parents, pebbles, targets, depths) {
        return refusal_due(parents, pebbles, targets, depths);
    }
    let parent_of = copy(parents);
    let mut distances = [UNKNOWN; MAX_NODES];
    let (mut at, mut edges) = (node.min(n - 1), 0);
    loop {
        if distances[at] != UNKNOWN {
            return refusal_due(parents, pebbles, targets, depths);
        }
        distances[at] = edges;
        let parent = usize::from(parent_of[at]);
        if parent == at {
            break;
        }
        (at, edges) = (parent, edges + 1);
    }
    for node in 0..n {
        if distances[node] != UNKNOWN {
            continue;
        }
        let parent = usize::from(parent_of[node]);
        if distances[parent] != UNKNOWN {
            distances[node] = distances[parent] + 1;
            continue;
        }
        let (mut known, mut edges) = (parent, 1);
        while distances[known] == UNKNOWN {
            if edges == n as u16 {
                return refusal_due(parents, pebbles, targets, depths);
            }
            (known, edges) = (usize::from(parent_of[known]), edges + 1);
        }
        let (mut at, mut distance) = (node, distances[known] + edges);
        while at != known {
            distances[at] = distance;
            (at, distance) = (usize::from(parent_of[at]), distance - 1);
        }
    }
    Ok(distances)
}

/// Whether none of the refusals of a yard is due. A climb ends at the first node that is known to
/// reach the root, and then all that it passed are known to. With a second root or a circle, some
/// climb comes to no end.
#[inline(always)]
fn all_reach_root(parents: &[u8], pebbles: &[u8], targets: &[u8], depths: &[u8]) -> bool {
    if !passes_to_4(parents, pebbles, targets, depths) {
        return false;
    }
    let n = parents.len();
    let parent_of = copy(parents);
    let Some(root) = (0..n).find(|&node| usize::from(parent_of[node]) == node) else {
        return false;
    };
    let mut known = [false; MAX_NODES];
    known[root] = true;
    for node in 0..n {
        let parent = usize::from(parent_of[node]);
        if known[parent] {
            known[node] = true;
            continue;
        }
        let (mut end, mut edges) = (parent, 1);
        while !known[end] {
            if edges == n {
                return false;
            }
            (end, edges) = (usize::from(parent_of[end]), edges + 1);
        }
        let mut at = node;
        while at != end {
            known[at] = true;
            at = usize::from(parent_of[at]);
        }
    }
    true
}

/// Which of the refusals of a yard it is, where one is due.
#[cold]
fn refusal_due<T>(parents: &[u8], pebbles: &[u8], targets: &[u8], depths: &[u8]) -> Answer<T> {
    let n = parents.len();
    if n == 0 || n > MAX_NODES {
        return refuse(1, 0);
    }
    if [pebbles.len(), targets.len(), depths.len()] != [n; 3] {
        return refuse(2, 0);
    }
    if let Some(node) = depths.iter().position(|depth| !(1..=MAX_DEPTH).contains(depth)) {
        return refuse(26, node);
    }
    for counts in [pebbles, targets] {
        if let Some(node) = counts.iter().zip(depths).position(|(count, depth)| count > depth) {
            return refuse(27, node);
        }
    }
    if let Some(node) = parents.iter().position(|&parent| usize::from(parent) >= n) {
        return refuse(4, node);
    }
    let mut roots = (0..n).filter(|&node| usize::from(parents[node]) == node);
    let (Some(root), second) = (roots.next(), roots.next()) else {
        return refuse(5, 0);
    };
    if let Some(second) = second {
        return refuse(5, second);
    }
    let climb = |node| (0..n).fold(node, |at, _| usize::from(parents[at]));
    match (0..n).find(|&node| climb(node) != root) {
        Some(node) => refuse(6, node),
        None => unreachable!("a tree"),
    }
}

/// The refusals of a yard and 7; the demands of all nodes, and the root.
fn demands(parents: &[u8], pebbles: &[u8], targets: &[u8], depths: &[u8]) -> Answer<([i16; MAX_NODES], usize)> {
    demands_with(parents, pebbles, targets, depths, |_, _, _| {})
}

/// The same, and on the way calls `settled` with each node but the root, its parent and its demand,
/// children first.
fn demands_with(
    parents: &[u8],
    pebbles: &[u8],
    targets: &[u8],
    depths: &[u8],
    settled: impl FnMut(usize, usize, i16),
) -> Answer<([i16; MAX_NODES], usize)> {
    let mut demand = [0; MAX_NODES];
    let root = gather(parents, pebbles, targets, depths, &mut demand, settled)?;
    if demand[root] != 0 {
        return refuse(7, 0);
    }
    Ok((demand, root))
}

/// The same without refusal 7, into a list of zeros.
#[inline(always)]
fn gather(
    parents: &[u8],
    pebbles: &[u8],
    targets: &[u8],
    depths: &[u8],
    demand: &mut [i16; MAX_NODES],
    mut settled: impl FnMut(usize, usize, i16),
) -> Answer<usize> {
    for ((demand, &target), &pebble) in demand.iter_mut().zip(targets).zip(pebbles) {
        *demand = i16::from(target) - i16::from(pebble);
    }
    fold_up(parents, pebbles, targets, depths, |node, parent| {
        settled(node, parent, demand[node]);
        demand[parent] += demand[node];
    })
}

fn sizes(demand: &[i16]) -> u32 {
    demand.iter().map(|demand| u32::from(demand.unsigned_abs())).sum()
}

fn plan_by<C: Children, const TURNS: bool, const WAYS: bool>(
    parents: &[u8],
    pebbles: &[u8],
    targets: &[u8],
    depths: &[u8],
    list: &mut [u8],
) -> Answer<u32> {
    let (demand, root) = demands(parents, pebbles, targets, depths)?;
    let moves = room_for(&demand, list)?;
    State::<C, TURNS, WAYS>::of(parents, pebbles, depths, &demand, root, list).balance::<false>(root as u8);
    Ok(moves)
}

/// The moves of the plan, or refusal 8 where a list does not hold them.
fn room_for(demand: &[i16], list: &[u8]) -> Answer<u32> {
    let moves = sizes(demand);
    if list.len() < 2 * moves as usize {
        return refuse(8, moves as usize);
    }
    Ok(moves)
}

/// How the children of each node are kept, in rising number. Each has a place of its own: a byte,
/// as there are at most 255.
trait Children {
    /// Calls `placed` with each child and its place.
    fn of(parents: &[u8], root: usize, placed: impl FnMut(usize, u8)) -> Self;
    /// The place of the lowest child of u.
    fn begin(&self, u: u8) -> u8;
    /// The first place of a child of u that is wanted, from a place on.
    fn find(&self, u: u8, from: u8, wanted: impl Fn(u8) -> bool) -> Option<u8>;
    /// The place of the next child.
    fn after(&self, place: u8) -> u8;
    fn child(&self, place: u8) -> u8;
}

/// All children of a node side by side: those of u at places `begin[u]` to before `end[u]`.
struct Rows {
    begin: [u8; MAX_NODES],
    end: [u8; MAX_NODES],
    nodes: [u8; MAX_NODES],
}

impl Children for Rows {
    fn of(parents: &[u8], root: usize, mut placed: impl FnMut(usize, u8)) -> Rows {
        let mut rows = Rows { begin: [0; MAX_NODES], end: [0; MAX_NODES], nodes: [0; MAX_NODES] };
        let mut counts = [0u8; MAX_NODES];
        for (node, &parent) in parents.iter().enumerate() {
            counts[usize::from(parent)] += u8::from(node != root);
        }
        let mut next = 0;
        for (begin, count) in rows.begin.iter_mut().zip(counts) {
            *begin = next;
            next += count;
        }
        rows.end = rows.begin;
        for (node, &parent) in parents.iter().enumerate() {
            if node != root {
                let place = &mut rows.end[usize::from(parent)];
                rows.nodes[usize::from(*place)] = node as u8;
                placed(node, *place);
                *place += 1;
            }
        }
        rows
    }

    fn begin(&self, u: u8) -> u8 {
        self.begin[usize::from(u)]
    }

    fn find(&self, u: u8, from: u8, wanted: impl Fn(u8) -> bool) -> Option<u8> {
        let mut place = from;
        while place < self.end[usize::from(u)] {
            if wanted(place) {
                return Some(place);
            }
            place += 1;
        }
        None
    }

    fn after(&self, place: u8) -> u8 {
        place + 1
    }

    fn child(&self, place: u8) -> u8 {
        self.nodes[usize::from(place)]
    }
}

/// Each node names its lowest child and its next sibling. Places are nodes; the root, which is no
/// child, marks the end.
struct Siblings {
    root: u8,
    first: [u8; MAX_NODES],
    next: [u8; MAX_NODES],
}

impl Children for Siblings {
    fn of(parents: &[u8], root: usize, mut placed: impl FnMut(usize, u8)) -> Siblings {
        let none = root as u8;
        let mut siblings = Siblings { root: none, first: [none; MAX_NODES], next: [none; MAX_NODES] };
        for (node, &parent) in parents.iter().enumerate().rev() {
            if node != root {
                siblings.next[node] = siblings.first[usize::from(parent)];
                siblings.first[usize::from(parent)] = node as u8;
                placed(node, node as u8);
            }
        }
        siblings
    }

    fn begin(&self, u: u8) -> u8 {
        self.first[usize::from(u)]
    }

    fn find(&self, _: u8, from: u8, wanted: impl Fn(u8) -> bool) -> Option<u8> {
        let mut place = from;
        while place != self.root {
            if wanted(place) {
                return Some(place);
            }
            place = self.next[usize::from(place)];
        }
        None
    }

    fn after(&self, place: u8) -> u8 {
        self.next[usize::from(place)]
    }

    fn child(&self, place: u8) -> u8 {
        place
    }
}

/// The next child of a node with demands of one sign: from `place` on, the first whose demand was
/// at least of this size at the start. Those before it have been served in this round; at size 0
/// all have been.
#[derive(Clone, Copy, Default)]
struct Turn {
    size: i16,
    place: u8,
}

/// Demands stand by place. With turns they stay as they were at the start, else they follow the
/// moves.
struct State<'a, C, const TURNS: bool, const WAYS: bool> {
    children: C,
    demand: [i16; MAX_NODES],
    positive: [Turn; MAX_NODES],
    negative: [Turn; MAX_NODES],
    pebbles: [u8; MAX_NODES],
    depths: [u8; MAX_NODES],
    way: [u8; MAX_NODES],
    list: &'a mut [u8],
    written: usize,
}

const POSITIVE: i16 = 1;
const NEGATIVE: i16 = -1;

impl<'a, C: Children, const TURNS: bool, const WAYS: bool> State<'a, C, TURNS, WAYS> {
    /// A tree with the demands of its nodes, and a list that has room, before the first move.
    #[inline(always)]
    fn of(parents: &[u8], pebbles: &[u8], depths: &[u8], of_node: &[i16; MAX_NODES], root: usize, list: &'a mut [u8]) -> Self {
        let mut demand = [0; MAX_NODES];
        let mut positive = [Turn::default(); MAX_NODES];
        let mut negative = [Turn::default(); MAX_NODES];
        let children = C::of(parents, root, |node, place| {
            demand[usize::from(place)] = of_node[node];
            let parent = usize::from(parents[node]);
            positive[parent].size = positive[parent].size.max(of_node[node]);
            negative[parent].size = negative[parent].size.max(-of_node[node]);
        });
        if TURNS {
            for node in 0..parents.len() {
                let place = children.begin(node as u8);
                positive[node].place = place;
                negative[node].place = place;
            }
        }
        State { children, demand, positive, negative, pebbles: copy(pebbles), depths: copy(depths), way: [0; MAX_NODES], list, written: 0 }
    }

    /// Algorithm 1. The demand of u is 0: if u holds none, no child lacks pebbles unless another
    /// has too many. The children of a part whose demand was 0 at the start are left to their own
    /// parts; this asks for turns.
    fn balance<const PART: bool>(&mut self, u: u8) {
        loop {
            if self.pebbles[usize::from(u)] > 0 {
                if let Some(v) = self.pick::<POSITIVE>(u) {
                    self.inject(v, u);
                    continue;
                }
            }
            let Some(v) = self.pick::<NEGATIVE>(u) else { break };
            self.extract(v, u);
        }
        let mut from = self.children.begin(u);
        while let Some(place) = self.children.find(u, from, |place| !PART || self.demand[usize::from(place)] != 0) {
            self.balance::<PART>(self.children.child(place));
            from = self.children.after(place);
        }
    }

    /// Algorithm 2, from u into its child v.
    fn inject(&mut self, v: u8, u: u8) {
        if WAYS {
            return self.shift::<POSITIVE>(v, u);
        }
        if self.is_full(v) {
            if let Some(w) = self.pick::<POSITIVE>(v) {
                self.inject(w, v);
            }
        }
        self.move_pebble(u, v);
    }

    /// Algorithm 3, from v into its parent u.
    fn extract(&mut self, v: u8, u: u8) {
        if WAYS {
            return self.shift::<NEGATIVE>(v, u);
        }
        if self.is_empty(v) {
            if let Some(w) = self.pick::<NEGATIVE>(v) {
                self.extract(w, v);
            }
        }
        self.move_pebble(v, u);
    }

    /// Injecting and extracting: down over the picks to the first node that has a place, or holds a
    /// pebble where one is extracted; then the moves, the last edge first. They change only the two
    /// nodes at the ends of the way.
    fn shift<const SIGN: i16>(&mut self, v: u8, u: u8) {
        let injects = SIGN > 0;
        self.way[..2].copy_from_slice(&[u, v]);
        let (mut end, mut edges) = (v, 1);
        while if injects { self.is_full(end) } else { self.is_empty(end) } {
            let Some(w) = self.pick::<SIGN>(end) else { break };
            end = w;
            edges += 1;
            self.way[edges] = w;
        }
        let (first, last) = if injects { (u, end) } else { (end, u) };
        self.pebbles[usize::from(first)] -= 1;
        self.pebbles[usize::from(last)] += 1;
        let moves = self.list[self.written..self.written + 2 * edges].chunks_exact_mut(2);
        for (ends, edge) in moves.zip(self.way[..=edges].windows(2).rev()) {
            let [from, to] = if injects { [edge[0], edge[1]] } else { [edge[1], edge[0]] };
            ends.copy_from_slice(&[from, to]);
        }
        self.written += 2 * edges;
    }

    fn is_full(&self, node: u8) -> bool {
        self.pebbles[usize::from(node)] == self.depths[usize::from(node)]
    }

    fn is_empty(&self, node: u8) -> bool {
        self.pebbles[usize::from(node)] == 0
    }

    fn move_pebble(&mut self, from: u8, to: u8) {
        self.pebbles[usize::from(from)] -= 1;
        self.pebbles[usize::from(to)] += 1;
        self.list[self.written..self.written + 2].copy_from_slice(&[from, to]);
        self.written += 2;
    }

    /// The neediest child of u with the sign, the lowest among equals. A move over its edge always
    /// follows, so it counts as served.
    fn pick<const SIGN: i16>(&mut self, u: u8) -> Option<u8> {
        if !TURNS {
            return self.pick_by_scan::<SIGN>(u);
        }
        let turn = if SIGN > 0 { &mut self.positive[usize::from(u)] } else { &mut self.negative[usize::from(u)] };
        while turn.size > 0 {
            let size = turn.size;
            if let Some(place) = self.children.find(u, turn.place, |place| SIGN * self.demand[usize::from(place)] >= size) {
                turn.place = self.children.after(place);
                return Some(self.children.child(place));
            }
            *turn = Turn { size: size - 1, place: self.children.begin(u) };
        }
        None
    }

    fn pick_by_scan<const SIGN: i16>(&mut self, u: u8) -> Option<u8> {
        let mut neediest = None;
        let (mut size, mut from) = (0, self.children.begin(u));
        while let Some(place) = self.children.find(u, from, |place| SIGN * self.demand[usize::from(place)] > size) {
            neediest = Some(place);
            size = SIGN * self.demand[usize::from(place)];
            from = self.children.after(place);
        }
        let place = neediest?;
        self.demand[usize::from(place)] -= SIGN;
        Some(self.children.child(place))
    }
}

fn copy(list: &[u8]) -> [u8; MAX_NODES] {
    let mut copy = [0; MAX_NODES];
    copy[..list.len()].copy_from_slice(list);
    copy
}

fn whole_moves(plan: &[u8]) -> Answer<&[u8]> {
    if plan.len() % 2 == 1 || plan.len() > MAX_PLAN_BYTES {
        return refuse(9, 0);
    }
    Ok(plan)
}

/// What follows the refusals of a yard in a step.
#[inline(always)]
fn step_on_tree(
    parents: &[u8],
    pebbles: &mut [u8],
    targets: &[u8],
    depths: &[u8],
    plan: &[u8],
    registers: &mut [u8],
    failed: u8,
) -> Answer<u32> {
    let Ok(block) = <&mut [u8; BLOCK_BYTES]>::try_from(registers) else {
        return refuse(2, 0);
    };
    let [command, status, from, to, left @ .., mask, flags] = block;
    let [low, middle, high] = *left;
    let (moves, moves_left) = (plan.len() / 2, u32::from_le_bytes([low, middle, high, 0]) as usize);
    if *command > command::ACKNOWLEDGE {
        return refuse(24, 0);
    }
    if *status > status::STALLED {
        return refuse(24, 1);
    }
    if moves_left > moves || (moves_left == 0 && *status != status::IDLE) {
        return refuse(24, 4);
    }
    if *flags > flag::BOTH {
        return refuse(24, 8);
    }
    match *command {
        command::NONE if *status == status::RUNNING => {
            let (plan, place) = (whole_moves(plan)?, moves - moves_left);
            let ends = [plan[2 * place], plan[2 * place + 1]];
            if let Some(number) = unfit(parents.len(), parents, pebbles, depths, ends) {
                return refuse(number, place);
            }
            if failed != 0 {
                *status = status::STALLED;
                *flags |= flag::STALLED;
            } else {
                pebbles[usize::from(ends[0])] -= 1;
                pebbles[usize::from(ends[1])] += 1;
                [*from, *to] = ends;
                *left = three_bytes(moves_left - 1);
                if moves_left == 1 {
                    *status = status::IDLE;
                    *flags |= flag::FINISHED;
                }
            }
        }
        command::NONE => {}
        command::START if *status != status::IDLE => return refuse(25, 0),
        command::START => {
            check_on_tree(parents, pebbles, targets, depths, plan)?;
            *left = three_bytes(moves);
            if moves > 0 {
                *status = status::RUNNING;
            } else {
                *flags |= flag::FINISHED;
            }
        }
        command::STOP => {
            *status = status::IDLE;
            *left = [0; 3];
        }
        _ => {
            // Acknowledge: stalled becomes running, idle and running stay.
            *status = (*status).min(status::RUNNING);
            *flags = 0;
        }
    }
    *command = command::NONE;
    Ok(u32::from(*flags & *mask != 0))
}

fn three_bytes(left: usize) -> [u8; 3] {
    let [low, middle, high, _] = (left as u32).to_le_bytes();
    [low, middle, high]
}

/// Refusals 7, 9, 10 to 13 for each move, 14.
fn check_on_tree(parents: &[u8], pebbles: &[u8], targets: &[u8], depths: &[u8], plan: &[u8]) -> Answer<()> {
    equal_totals(pebbles, targets)?;
    let after = obey(parents, pebbles, depths, whole_moves(plan)?)?;
    targets_reached(&after, targets)
}

/// Refusal 7.
fn equal_totals(pebbles: &[u8], targets: &[u8]) -> Answer<()> {
    let total = |counts: &[u8]| -> u32 { counts.iter().map(|&count| u32::from(count)).sum() };
    if total(pebbles) != total(targets) {
        return refuse(7, 0);
    }
    Ok(())
}

/// Refusal 14.
fn targets_reached(after: &[u8; MAX_NODES], targets: &[u8]) -> Answer<()> {
    match after.iter().zip(targets).position(|(pebbles, targets)| pebbles < targets) {
        Some(node) => refuse(14, node),
        None => Ok(()),
    }
}

/// Refusals 10 to 13 for each move; the pebbles after all of them.
fn obey(parents: &[u8], pebbles: &[u8], depths: &[u8], plan: &[u8]) -> Answer<[u8; MAX_NODES]> {
    // Copied, as any byte is a place in 256 entries.
    let (parent_of, depth_of, mut after) = (copy(parents), copy(depths), copy(pebbles));
    for (place, ends) in plan.chunks_exact(2).enumerate() {
        make_move(parents.len(), &parent_of, &depth_of, &mut after, place, ends)?;
    }
    Ok(after)
}

/// The same, and the wear of a plan that has a stretch of this width.
///
/// Each edge has a count of its crossings within the stretch, which goes on by a move at a time.
/// All counts of the first stretch are looked at. After that only the count of the edge that the
/// next move crosses can rise above the most so far. So a move costs the same however wide the
/// stretch is.
fn obey_and_count(parents: &[u8], pebbles: &[u8], depths: &[u8], plan: &[u8], width: usize) -> Answer<([u8; MAX_NODES], Wear)> {
    let n = parents.len();
    let (parent_of, depth_of, mut after) = (copy(parents), copy(depths), copy(pebbles));
    let edge = |ends: &[u8]| usize::from(if parent_of[usize::from(ends[0])] == ends[1] { ends[0] } else { ends[1] });
    let mut crossings = [0u32; MAX_NODES];
    let (begin, rest) = plan.split_at(2 * width);
    for (place, come) in begin.chunks_exact(2).enumerate() {
        make_move(n, &parent_of, &depth_of, &mut after, place, come)?;
        crossings[edge(come)] += 1;
    }
    let most = crossings.iter().fold(0, |most, &count| most.max(count));
    let lowest = crossings.iter().position(|&count| count == most).unwrap_or(0);
    let mut wear = Wear { crossings: most, first: 0, edge: lowest as u32 };
    for (place, (come, gone)) in (width..).zip(rest.chunks_exact(2).zip(plan.chunks_exact(2))) {
        make_move(n, &parent_of, &depth_of, &mut after, place, come)?;
        crossings[edge(gone)] -= 1;
        let come = edge(come);
        crossings[come] += 1;
        if crossings[come] > wear.crossings {
            wear = Wear { crossings: crossings[come], first: (place + 1 - width) as u32, edge: come as u32 };
        }
    }
    Ok((after, wear))
}

/// A move with this number that meets none of refusals 10 to 13.
#[inline(always)]
fn make_move(
    n: usize,
    parents: &[u8; MAX_NODES],
    depths: &[u8; MAX_NODES],
    pebbles: &mut [u8; MAX_NODES],
    place: usize,
    ends: &[u8],
) -> Answer<()> {
    if let Some(number) = unfit(n, parents, pebbles, depths, [ends[0], ends[1]]) {
        return refuse(number, place);
    }
    pebbles[usize::from(ends[0])] -= 1;
    pebbles[usize::from(ends[1])] += 1;
    Ok(())
}

/// Which of refusals 10 to 13 a move on n nodes meets.
#[inline(always)]
fn unfit(n: usize, parents: &[u8], pebbles: &[u8], depths: &[u8], ends: [u8; 2]) -> Option<u32> {
    let [from, to] = ends.map(usize::from);
    if from >= n || to >= n {
        return Some(10);
    }
    if from == to || (parents[from] != ends[1] && parents[to] != ends[0]) {
        return Some(11);
    }
    if pebbles[from] == 0 {
        return Some(12);
    }
    if pebbles[to] >= depths[to] {
        return Some(13);
    }
    None
}
