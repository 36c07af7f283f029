//! Families of parts: each part of a yard planned as a yard of its own.

use crate::calls::{Caller, Same};
use unrelated::checker::{check, Checked, MAX_PLAN_BYTES};
use unrelated::figures::shortest_length;
use unrelated::parts::Parted;
use unrelated::random::{Random, Thin};
use unrelated::shapes::{self, Shape};
use unrelated::yard::{judge_matched, total, Answer, Refusal, Yard, MAX_DEPTH, MAX_NODES};
use unrelated::{damage, parts};

/// Plans mingled, each kept in order: runs of moves up to a length, each from any plan that has
/// some left.
fn mingled(plans: &[Vec<u8>], longest: usize, random: &mut Random) -> Vec<u8> {
    let mut left: Vec<&[u8]> = plans.iter().map(Vec::as_slice).filter(|plan| !plan.is_empty()).collect();
    let mut mingled = Vec::new();
    while !left.is_empty() {
        let one = random.below(left.len());
        let moves = random.within(1, longest).min(left[one].len() / 2);
        let (run, rest) = left[one].split_at(2 * moves);
        mingled.extend(run);
        if rest.is_empty() {
            left.swap_remove(one);
        } else {
            left[one] = rest;
        }
    }
    mingled
}

/// The call, and if it is accepted what the request says of the parts. Each has as many pebbles as
/// targets. The library's plan is as long as all of theirs. Without the moves outside a part it is
/// that part's plan, in the order of the topmost nodes. Mingled move by move, in short runs or plan
/// by plan, they are accepted with no excess. Gives back how many parts there are, and how many of
/// them have moves.
fn parted(caller: &Caller, yard: &Yard, room: usize, length: usize, random: &mut Random) -> Same<Answer<(usize, usize)>> {
    let Parted { plan, parts } = match caller.plan_parts(yard, room, length)? {
        Ok(parted) => parted,
        Err(refusal) => return Ok(Err(refusal)),
    };
    let groups = parts::grouped(&Vec::from_iter(parts.iter().map(|&top| usize::from(top))));
    for (top, nodes) in &groups {
        let [pebbles, targets] =
            [&yard.pebbles, &yard.targets].map(|counts| total(&Vec::from_iter(nodes.iter().map(|&node| counts[node]))));
        if pebbles != targets {
            return Err(format!("{yard:?}: the part of {top} has {pebbles} pebbles and {targets} targets"));
        }
    }
    let sheet = caller.library_plan(yard, plan.len())?;
    let mut struck = vec![Vec::new(); yard.nodes()];
    for ends in sheet.chunks(2) {
        let [from, to] = [ends[0], ends[1]].map(|node| parts[usize::from(node)]);
        if from == to {
            struck[usize::from(from)].extend(ends);
        }
    }
    if struck.concat() != plan {
        return Err(format!("{yard:?}: the plan is {sheet:?}, those of the parts are {plan:?}"));
    }
    let moving = struck.iter().filter(|plan| !plan.is_empty()).count();
    // Of one plan there is one mingling.
    let runs = if moving > 1 { &[1, 4, usize::MAX][..] } else { &[1] };
    for &longest in runs {
        let mingled = mingled(&struck, longest, random);
        caller.check(yard, &mingled)?;
        let checked = check(yard, &mingled);
        if checked != Ok(Checked { moves: plan.len() as u32 / 2, excess: 0 }) {
            return Err(format!("{yard:?}: the plans of the parts mingled as {mingled:?} are judged {checked:?}"));
        }
    }
    Ok(Ok((groups.len(), moving)))
}

/// Rooms about the bytes that are to be written: as many, more, a byte or a move too few, none.
pub fn rooms(bytes: usize) -> [usize; 7] {
    [bytes, bytes + 1, bytes + 2, bytes + 77, bytes.saturating_sub(1), bytes.saturating_sub(2), 0]
}

/// Lengths of a list of parts: n, and others, one of them n once the high byte is lost.
fn lengths(n: usize) -> [usize; 6] {
    [n, n + 1, n.saturating_sub(1), 0, 2 * n, n + 256]
}

/// A room and a length, mostly enough for a plan of so many bytes and for the parts of n nodes.
fn drawn(bytes: usize, n: usize, random: &mut Random) -> (usize, usize) {
    let room = if random.once_in(2) { bytes } else { random.pick(&rooms(bytes)) };
    let length = if random.once_in(2) { n } else { random.pick(&lengths(n)) };
    (room, length)
}

/// A small tree with any totals, its lists long enough or not: the smallest with every room and
/// every length, the others with one of each.
fn small(caller: &Caller, yard: &Yard, random: &mut Random) -> Same {
    let (n, bytes) = (yard.nodes(), 2 * shortest_length(yard) as usize);
    if n < 3 || (n == 3 && yard.is_shallow()) {
        for (room, length) in rooms(bytes).into_iter().flat_map(|room| lengths(n).map(|length| (room, length))) {
            parted(caller, yard, room, length, random).map(drop)?;
        }
        return Ok(());
    }
    if total(&yard.pebbles) == total(&yard.targets) {
        parted(caller, yard, bytes, n, random).map(drop)?;
    }
    let (room, length) = drawn(bytes, n, random);
    caller.plan_parts(yard, room, length).map(drop)
}

/// Up to 5 nodes of depth 1, up to 3 of depths 1 to 3, and 4 nodes with one or two of depth 2.
pub fn small_depths() -> impl Iterator<Item = Vec<u8>> {
    let shallow = (1..=5).map(|n| vec![1; n]);
    let deep = (1..=3).flat_map(|n| shapes::every_depths(n, 3)).chain(shapes::every_depths(4, 2).filter(|depths| total(depths) <= 6));
    shallow.chain(deep.filter(|depths| total(depths) > depths.len()))
}

/// Every tree on nodes of such depths, with all pebbles and targets.
pub fn every_tree(caller: &Caller, thin: Thin) -> Same<u64> {
    let mut random = Random::new(44);
    let (mut number, mut cases) = (0, 0);
    for depths in small_depths() {
        let counts = shapes::every_count(&depths);
        for parents in shapes::every_tree(depths.len()) {
            for (pebbles, targets) in counts.iter().flat_map(|pebbles| counts.iter().map(move |targets| (pebbles, targets))) {
                number += 1;
                if thin.keeps(number) {
                    cases += 1;
                    let yard =
                        Yard { parents: parents.clone(), pebbles: pebbles.clone(), targets: targets.clone(), depths: depths.clone() };
                    small(caller, &yard, &mut random)?;
                }
            }
        }
    }
    Ok(cases)
}

/// Many parts, few or one, by lot or with the first half of each full and the second to be filled;
/// nodes that are a part each; any yard. Then other lists. At the end the benchmark's yards, with
/// the longest plan of all.
pub fn all_shapes(caller: &Caller, thin: Thin) -> Same<u64> {
    let mut random = Random::new(45);
    let mut cases = thin.of(15_000);
    let (mut whole, mut single, mut many) = (0, 0, 0);
    for case in 0..cases {
        let shape = Shape::ALL[case as usize % Shape::ALL.len()];
        let n = if random.once_in(20) { MAX_NODES } else { shapes::size(2, MAX_NODES, &mut random) };
        let depths = if random.once_in(2) { vec![1; n] } else { shapes::depths(n, MAX_DEPTH, &mut random) };
        let times = random.pick(&[1, 2, 2, 3, 3, 5, 5, 10, 30, n]);
        let yard = match random.below(10) {
            0 => shapes::with_depths(shape, &depths, &mut random),
            1 => shapes::far_parts(shape, n, depths[0], times, &mut random),
            _ => shapes::parted(shape, &depths, times, &mut random),
        };
        let bytes = 2 * shortest_length(&yard) as usize;
        let (parts, moving) =
            parted(caller, &yard, bytes, n, &mut random)?.map_err(|refusal| format!("{yard:?} is refused: {refusal:?}"))?;
        whole += u64::from(parts == 1);
        single += u64::from(parts == n);
        many += u64::from(moving >= 10);
        let (room, length) = drawn(bytes, n, &mut random);
        caller.plan_parts(&yard, room, length).map(drop)?;
    }
    let far = [1, MAX_DEPTH].into_iter().flat_map(|depth| [8, MAX_NODES].map(|every| (depth, every)));
    for (number, (shape, (depth, every))) in (0..).zip(Shape::ALL.into_iter().flat_map(|shape| far.clone().map(move |far| (shape, far)))) {
        if thin.keeps(number) {
            cases += 1;
            let yard = shapes::far_parts(shape, MAX_NODES, depth, every, &mut random);
            parted(caller, &yard, MAX_PLAN_BYTES, MAX_NODES, &mut random).map(drop)?;
        }
    }
    if thin.is_full() && [whole, single, many].contains(&0) {
        return Err(format!(
            "yards of one part {whole}, of one for each node {single}, of ten that have moves {many}: the family does not do what it is for"
        ));
    }
    Ok(cases)
}

/// Yards in parts, in order or with one to three faults, with any room and length: so each refusal
/// is due together with later ones.
pub fn damaged(caller: &Caller, thin: Thin) -> Same<u64> {
    let mut random = Random::new(46);
    let cases = thin.of(100_000);
    // How often 7 stood before 2, and 2 before 8.
    let (mut seven_first, mut two_first) = (0, 0);
    for _ in 0..cases {
        let n = if random.once_in(30) { random.within(250, MAX_NODES) } else { shapes::size(1, 40, &mut random) };
        let depths = if random.once_in(2) { vec![1; n] } else { shapes::depths(n, MAX_DEPTH, &mut random) };
        let mut yard = shapes::parted(random.pick(&Shape::ALL), &depths, random.pick(&[2, 4, 8]), &mut random);
        let (room, length) = drawn(2 * shortest_length(&yard) as usize, n, &mut random);
        match random.below(4) {
            0 => {}
            1 => damage::recount(&mut yard, random.below(n), &mut random),
            _ => damage::lists(&mut yard, &mut random),
        }
        match parted(caller, &yard, room, length, &mut random)? {
            Err(Refusal { number: 7, .. }) if length != yard.nodes() => seven_first += 1,
            Err(Refusal { number: 2, .. }) if judge_matched(&yard).is_ok() && room < 2 * shortest_length(&yard) as usize => two_first += 1,
            _ => {}
        }
    }
    if thin.is_full() && [seven_first, two_first].contains(&0) {
        return Err(format!("7 stood before 2 {seven_first} times, 2 before 8 {two_first} times: the family does not do what it is for"));
    }
    Ok(cases)
}

/// The call on any lists.
pub fn any_lists(caller: &Caller, yard: &Yard, random: &mut Random) -> Same {
    let (room, length) = drawn(random.pick(&[0, 2, 8, 200]), yard.nodes(), random);
    parted(caller, yard, room, length, random).map(drop)
}
