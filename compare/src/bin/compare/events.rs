//! Families of events at nodes.

use crate::calls::{Caller, Same};
use unrelated::damage;
use unrelated::demands::{of_tree, MAX_DEMAND};
use unrelated::event::{Event, Kept};
use unrelated::random::{Random, Thin};
use unrelated::shapes::{self, Shape};
use unrelated::yard::{each, judge, Refusal, Yard, MAX_DEPTH, MAX_NODES};

/// An event on a tree with a list of its length. It is accepted exactly if node and count allow it
/// and the list is the tree's own; then the list becomes the altered tree's own, as worked out
/// afresh. It is refused with 23 only if the list is not the tree's. Gives back what is kept
/// afterwards.
fn followed(caller: &Caller, kept: &Kept, event: Event, node: usize) -> Same<Kept> {
    let answer = caller.event(kept, event, node)?;
    let right = kept.demands == of_tree(&kept.yard);
    let due = node < kept.yard.nodes() && event.fits(&kept.yard, node);
    let sound = match &answer {
        Ok(after) => right && due && after.demands == of_tree(&after.yard),
        Err(Refusal { number: 23, .. }) => !right && due,
        Err(_) => !due,
    };
    if sound {
        Ok(answer.unwrap_or_else(|_| kept.clone()))
    } else {
        Err(format!("{kept:?}: {} at {node} is answered {answer:?}, but the yard's own list is {:?}", event.name(), of_tree(&kept.yard)))
    }
}

/// Mostly an event that can be at the node.
fn drawn(yard: &Yard, node: usize, random: &mut Random) -> Event {
    let events: Vec<Event> = Event::ALL.into_iter().filter(|event| random.once_in(8) || event.fits(yard, node)).collect();
    random.pick(&events)
}

/// The list with each entry changed by each of the numbers.
fn changed(list: &[i16], changes: &[i16]) -> Vec<Vec<i16>> {
    let change = |place: usize, change: i16| {
        let mut list = list.to_vec();
        list[place] = list[place].wrapping_add(change);
        list
    };
    (0..list.len()).flat_map(|place| changes.iter().map(move |&by| change(place, by))).collect()
}

/// Every tree up to 4 nodes of depth 1, and up to 3 of depths 1 and 2, with all pebbles and
/// targets. At every node, and at two numbers that are none: the tree's own list. At nodes also the
/// list with each entry one more and one less, then with each changed by more, and lists of other
/// lengths: all of them, or one where there are many yards.
pub fn every_event(caller: &Caller, thin: Thin) -> Same<u64> {
    let mut random = Random::new(14);
    let (mut number, mut cases) = (0, 0);
    let shallow = (1..=4).flat_map(|n| shapes::every_yard(vec![1; n]));
    let deep = (1..=3).flat_map(|n| shapes::every_depths(n, 2)).flat_map(shapes::every_yard).filter(|yard| !yard.is_shallow());
    for kept in shallow.chain(deep).map(Kept::right) {
        let n = kept.yard.nodes();
        let few = n < 3 || (n == 3 && kept.yard.is_shallow());
        let near = changed(&kept.demands, &[1, -1]);
        let far = changed(&kept.demands, &[256, -256, 257, -257, i16::MAX, -i16::MAX, i16::MIN]);
        let resized = [0, n - 1, n + 1, n + 256].map(|length| (0..length).map(|at| kept.demands.get(at).copied().unwrap_or(0)).collect());
        let others: Vec<Vec<i16>> = far.into_iter().chain(resized).collect();
        let mut other = kept.clone();
        for (event, node) in Event::ALL.into_iter().flat_map(|event| (0..n + 2).map(move |node| (event, node))) {
            number += 1;
            if !thin.keeps(number) {
                continue;
            }
            followed(caller, &kept, event, node)?;
            let nearly = if node < n { &near[..] } else { &[] };
            for list in nearly {
                other.demands.clone_from(list);
                followed(caller, &other, event, node)?;
            }
            let one = random.below(others.len());
            let tried = if few { &others[..] } else { &others[one..=one] };
            for list in tried {
                other.demands.clone_from(list);
                caller.event(&other, event, node).map(drop)?;
            }
            cases += (1 + nearly.len() + tried.len()) as u64;
        }
    }
    Ok(cases)
}

/// Event after event, some at numbers that are no nodes, some that find none to take or no place.
/// At times the keeper goes on with an old list, from before one event or several, and after a
/// while works it out anew.
pub fn runs(caller: &Caller, thin: Thin) -> Same<u64> {
    let mut random = Random::new(15);
    let mut cases = 0;
    for run in 0..thin.of(240) {
        let n = if random.once_in(20) { MAX_NODES } else { shapes::size(1, MAX_NODES, &mut random) };
        let mut kept = Kept::right(shapes::any_yard(Shape::ALL[run as usize % Shape::ALL.len()], n, &mut random));
        // The lists from before each accepted event.
        let mut old = Vec::new();
        // One event comes more often than the others, so the totals drift apart.
        let frequent = random.pick(&Event::ALL);
        for _ in 0..random.within(50, 600) {
            if random.once_in(15) && !old.is_empty() {
                let back = random.pick(&[1, 1, 2, 3, old.len()]).min(old.len());
                kept.demands.clone_from(&old[old.len() - back]);
            } else if random.once_in(5) {
                kept.demands = of_tree(&kept.yard);
            }
            let node = random.below(n);
            let event = if random.once_in(4) { frequent } else { drawn(&kept.yard, node, &mut random) };
            let node = if random.once_in(4) { damage::number(node as u8, &kept.yard, &mut random) } else { node };
            let after = followed(caller, &kept, event, node)?;
            if after != kept {
                old.push(kept.demands);
            }
            kept = after;
            cases += 1;
        }
        caller.demands(&kept.yard, n)?;
    }
    Ok(cases)
}

/// In an empty yard of 256 nodes, root 0, each event in turn at every node, as often as its depth
/// allows, in any order. The root's demand goes to both ends of its range there, and in the deepest
/// yards to both ends of all demands.
pub fn to_both_ends(caller: &Caller, thin: Thin) -> Same<u64> {
    let mut random = Random::new(16);
    let mut cases = 0;
    let deepest = [Shape::Line, Shape::Star].map(|shape| (shape, MAX_DEPTH));
    for (number, (shape, depth)) in (0..).zip(Shape::ALL.map(|shape| (shape, 1)).into_iter().chain(deepest)) {
        if !thin.keeps(number) {
            continue;
        }
        let mut nodes = each(&[depth; MAX_NODES]);
        let end = nodes.len() as i16;
        let stages = [(Event::PebbleArrives, -end), (Event::TargetSet, 0), (Event::PebbleLeaves, end), (Event::TargetCleared, 0)];
        if depth == MAX_DEPTH && end != MAX_DEMAND {
            return Err(format!("the root's demand goes to {end}, not to {MAX_DEMAND}"));
        }
        let mut kept = Kept::right(shapes::far(shape, MAX_NODES, depth, &mut random).emptied());
        for (event, end) in stages {
            random.shuffle(&mut nodes);
            for &node in &nodes {
                kept = followed(caller, &kept, event, node)?;
            }
            // What may follow, and what may not, at the end of the range.
            for event in Event::ALL {
                followed(caller, &kept, event, nodes[0])?;
            }
            cases += (nodes.len() + Event::ALL.len()) as u64;
            if kept.demands[0] != end {
                return Err(format!("{kept:?}: the root's demand is not {end}"));
            }
        }
    }
    Ok(cases)
}

/// Lists that need not be the yard's: see `damage::demands`.
pub fn stale_lists(caller: &Caller, thin: Thin) -> Same<u64> {
    let mut random = Random::new(17);
    let cases = thin.of(120_000);
    for _ in 0..cases {
        let n = if random.once_in(60) { random.within(200, MAX_NODES) } else { shapes::size(1, 30, &mut random) };
        let yard = shapes::any_yard(random.pick(&Shape::ALL), n, &mut random);
        let node = random.below(n);
        let event = drawn(&yard, node, &mut random);
        let demands = damage::demands(&yard, event, node, &mut random);
        followed(caller, &Kept { yard, demands }, event, node)?;
    }
    Ok(cases)
}

/// One event on any lists; if the yard is a tree, the list of demands is at times its own.
pub fn any_lists(caller: &Caller, yard: &Yard, random: &mut Random) -> Same {
    let n = yard.nodes();
    let mut demands: Vec<i16> = if judge(yard).is_ok() && random.once_in(2) {
        of_tree(yard)
    } else {
        (0..n).map(|_| if random.once_in(6) { damage::entry(random) } else { 0 }).collect()
    };
    if random.once_in(6) {
        demands.resize((n + 2).saturating_sub(random.below(4)), 0);
    }
    let node = damage::number(random.below(n.max(1)) as u8, yard, random);
    caller.event(&Kept { yard: yard.clone(), demands }, random.pick(&Event::ALL), node).map(drop)
}
