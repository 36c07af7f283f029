//! The cases, in families. Every family takes its random numbers from a seed of its own, so leaving
//! cases out of one does not change another.

use crate::calls::{Caller, Same};
use crate::worked::worked;
use crate::{distances, events, openings, parts, sheets, steps, wear};
use unrelated::planner::{Choice, Turn};
use unrelated::random::{Random, Thin};
use unrelated::shapes::{self, Shape};
use unrelated::wear::every_stretch;
use unrelated::yard::{Refusal, Yard, MAX_DEPTH};
use unrelated::{checker, damage, demands, figures, follow, library, planner, report, sheet, shortest, yard};

/// A family tries its cases and tells how many there were.
pub type Family = fn(&Caller, Thin) -> Same<u64>;

pub const FAMILIES: [(&str, Family); 49] = [
    ("yards and examples of documents 01 and 02", |caller, _| worked(caller)),
    ("every tree up to 5 nodes of depth 1, all counts, by search", every_tree),
    ("every tree up to 4 nodes of small depths, all counts, by search", every_deep_tree),
    ("every tree of 6 nodes, half held, the others wanted, by search", halves_of_six),
    ("6 and 7 nodes, against the search", against_search),
    ("up to 7 nodes of depths up to 8, against the search", deep_against_search),
    ("up to 24 nodes, against the cheapest matching", against_matching),
    ("6 to 256 nodes in six shapes", all_shapes),
    ("2 to 256 nodes of depths up to 8 in six shapes", deep_shapes),
    ("the longest plans of n nodes", longest_plans),
    ("every list of small numbers against equation 2, up to 3 nodes", equation_2),
    ("every three lists up to length 3 with few values", every_list),
    ("every four lists up to length 2 with few values", every_four_lists),
    ("lists with one to three faults", damaged_lists),
    ("lists that were never legal", noise),
    ("every plan up to 5 bytes on every yard up to 3 nodes", every_plan),
    ("plans altered in one to three places, budgets", altered_plans),
    ("plans about as long as a plan can be", long_plans),
    ("pushes of any two numbers", pushes),
    ("every event on every tree up to 4 nodes, lists right or not", events::every_event),
    ("runs of events, at times with an old list", events::runs),
    ("events at every node of 256, to both ends of the range", events::to_both_ends),
    ("events on lists that are stale, another yard's or spoilt", events::stale_lists),
    ("nearest and reach at every node of every tree up to 5 nodes", distances::every_node),
    ("nearest and reach on up to 256 nodes, about the distances met", distances::all_shapes),
    ("steps with every value of each register, on small yards", steps::every_value),
    ("steps with every mask and flags, with blocks of every length", steps::every_mask),
    ("whole runs of steps, with stalls, stopped and started again", steps::whole_runs),
    ("runs of steps with anything altered between them", steps::any_runs),
    ("steps of plans about as long as a plan can be", steps::long_plans),
    ("parts of every tree up to 5 nodes, small depths, all counts", parts::every_tree),
    ("parts of yards to 256 nodes, many, few and one, mingled", parts::all_shapes),
    ("parts of lists with faults, other part lists, any room", parts::damaged),
    ("openings of every tree up to 5 nodes, all counts, by search", openings::every_tree),
    ("openings of up to 7 nodes, against the search", openings::against_search),
    ("openings of yards to 256 nodes, few and many", openings::all_shapes),
    ("openings chosen by lot and obeyed until none is left", openings::runs),
    ("openings of lists with faults, any room", openings::damaged),
    ("wear of the plan of every tree up to 5 nodes, every width", wear::every_tree),
    ("wear of every plan of few moves on small trees, every width", wear::every_plan),
    ("wear on up to 256 nodes, of the planner's plans and others", wear::all_shapes),
    ("wear of plans about as long as a plan can be", wear::long_plans),
    ("wear of plans and lists with faults, any width", wear::damaged),
    ("sheets written and read, any room", sheets::written),
    ("sheets altered in one to three places", sheets::damaged),
    ("a small sheet with every byte changed, left out, put in", sheets::every_byte),
    ("every word up to 4 letters as a value", sheets::every_value),
    ("sheets of about 256 lines", sheets::long),
    ("empty lists with no address", no_address),
];

/// All calls on a legal yard with equal totals, its plan as it is printed, and its length against
/// the least number of moves.
fn solved(caller: &Caller, yard: &Yard, least: u32, random: &mut Random) -> Same {
    caller.figures(yard)?;
    let plan = planner::plan(yard, usize::MAX).map_err(|refusal| format!("{yard:?} is refused: {refusal:?}"))?;
    planned(caller, yard, &plan, random)?;
    let (moves, n) = (plan.len() / 2, yard.nodes());
    let length = figures::shortest_length(yard);
    if moves != least as usize || length != least {
        return Err(format!("{yard:?}: {moves} moves, the demands say {length}, the least is {least}"));
    }
    // Corollary 15, and the figure for n alone.
    if least > figures::corollary_15(yard) || figures::longest_plan(n).is_ok_and(|longest| least > longest) {
        return Err(format!("{yard:?}: {moves} moves are above a bound"));
    }
    Ok(())
}

/// The planner with room enough, just enough or too little, then its plan checked and tried.
fn planned(caller: &Caller, yard: &Yard, plan: &[u8], random: &mut Random) -> Same {
    caller.plan(yard, plan.len())?;
    match random.below(4) {
        0 => caller.plan(yard, plan.len() + random.within(1, 80))?,
        1 if !plan.is_empty() => caller.plan(yard, plan.len() - 1)?,
        2 => caller.plan(yard, random.within(0, plan.len()))?,
        _ => {}
    }
    caller.check(yard, plan)?;
    caller.trial(yard, plan, random.within(0, plan.len() / 2 + 1).min(65_535) as u16)?;
    printed(yard, plan)
}

/// The plan is as short as can be. With the lowest-numbered child chosen (`Choice`) it is as long;
/// with the other turn (`Turn`) it is the same plan if each node can hold one pebble.
fn printed(yard: &Yard, plan: &[u8]) -> Same {
    as_short_as_can_be(yard, plan)?;
    match planner::plan_by(Choice::Lowest, Turn::HoldsAndWanted, yard, usize::MAX) {
        Ok(earlier) if earlier.len() == plan.len() => {}
        earlier => return Err(format!("{yard:?}: the plan is {plan:?}, by the earlier choice {earlier:?}")),
    }
    if yard.is_shallow() {
        let earlier = planner::plan_by(Choice::Neediest, Turn::Holds, yard, usize::MAX);
        if earlier.as_deref() != Ok(plan) {
            return Err(format!("{yard:?}: the plan is {plan:?}, by the earlier turn {earlier:?}"));
        }
    }
    Ok(())
}

/// What demand 3 says of every shortest plan: how often each edge is crossed, and that no pebble
/// crosses one twice.
fn as_short_as_can_be(yard: &Yard, plan: &[u8]) -> Same {
    let judged = report::judge(yard, &sheet::move_sheet(yard, plan)).and_then(|()| follow::judge(yard, plan));
    judged.map_err(|what| format!("{yard:?}: {what}"))
}

/// Every tree on nodes of these depths with all pebbles and targets, against the search from the
/// pebbles.
fn all_counts(caller: &Caller, thin: Thin, depths: &[u8], number: &mut u64, random: &mut Random) -> Same<u64> {
    let counts = shapes::every_count(depths);
    let mut cases = 0;
    for parents in shapes::every_tree(depths.len()) {
        for pebbles in &counts {
            let mut yard = Yard { parents: parents.clone(), pebbles: pebbles.clone(), targets: pebbles.clone(), depths: depths.to_vec() };
            for (targets, least) in counts.iter().zip(shortest::by_search(&yard)) {
                *number += 1;
                if !thin.keeps(*number) {
                    continue;
                }
                cases += 1;
                yard.targets.clone_from(targets);
                searched(caller, &yard, least, random)?;
            }
        }
    }
    Ok(cases)
}

fn every_tree(caller: &Caller, thin: Thin) -> Same<u64> {
    let (mut random, mut number) = (Random::new(2), 0);
    (1..=5).map(|n| all_counts(caller, thin, &vec![1; n], &mut number, &mut random)).sum()
}

/// Up to 3 nodes of depths 1 to 3, and 4 of depths 1 and 2, but for those that all have depth 1.
fn every_deep_tree(caller: &Caller, thin: Thin) -> Same<u64> {
    let (mut random, mut number) = (Random::new(40), 0);
    let depths = (1..=4).flat_map(|n| shapes::every_depths(n, if n < 4 { 3 } else { 2 }));
    let deep = depths.filter(|depths| depths.iter().any(|&depth| depth > 1));
    deep.map(|depths| all_counts(caller, thin, &depths, &mut number, &mut random)).sum()
}

/// The smallest trees of depth 1 in which the neediest child need not be the lowest-numbered: three
/// pebbles, and the targets on the three remaining nodes.
fn halves_of_six(caller: &Caller, thin: Thin) -> Same<u64> {
    let mut random = Random::new(32);
    let (mut number, mut cases, mut differ) = (0, 0, 0);
    let halves: Vec<Vec<u8>> = shapes::every_count(&[1; 6]).into_iter().filter(|held| yard::total(held) == 3).collect();
    for parents in shapes::every_tree(6) {
        for held in &halves {
            number += 1;
            if !thin.keeps(number) {
                continue;
            }
            cases += 1;
            let wanted: Vec<u8> = held.iter().map(|count| 1 - count).collect();
            let yard = Yard::shallow(&parents, held, &wanted);
            let least = shortest::by_search(&yard)[shortest::place(&yard, &yard.targets)];
            searched(caller, &yard, least, &mut random)?;
            let [neediest, lowest] =
                [Choice::Neediest, Choice::Lowest].map(|choice| planner::plan_by(choice, Turn::HoldsAndWanted, &yard, usize::MAX));
            differ += u64::from(neediest != lowest);
        }
    }
    if thin.is_full() && differ == 0 {
        return Err("the two choices never differ: the family does not do what it is for".to_string());
    }
    Ok(cases)
}

/// The figure for n alone: every n that is no number of nodes or just is one, and any large ones. A
/// line of the deepest nodes with its halves exchanged has a plan of that length. No yard has a
/// longer one: tried on every yard of 2 of the deepest nodes, of 4 nodes of depth 2 and of 5 of
/// depth 1, where the figure is the depth times that of depth 1.
fn longest_plans(caller: &Caller, thin: Thin) -> Same<u64> {
    let mut random = Random::new(31);
    let mut cases = 0;
    let powers = (0..usize::BITS).flat_map(|bit| [(1usize << bit) - 1, 1 << bit, (1 << bit) + 1]);
    for n in (0..=600).chain(powers).chain([usize::MAX - 1, usize::MAX]).chain((0..200).map(|_| random.draw() as usize)) {
        cases += 1;
        caller.longest_plan(n)?;
    }
    let plan_length = |yard: &Yard| planner::plan(yard, usize::MAX).map_or(0, |plan| plan.len() as u32 / 2);
    for n in 1..=yard::MAX_NODES {
        if !thin.keeps(n as u64) {
            continue;
        }
        cases += 1;
        let far = shapes::far(Shape::Line, n, MAX_DEPTH, &mut random);
        caller.length_bound(&far)?;
        if figures::longest_plan(n) != Ok(plan_length(&far)) {
            return Err(format!("{far:?}: {} moves", plan_length(&far)));
        }
        if [2, 255, 256].contains(&n) {
            solved(caller, &far, plan_length(&far), &mut random)?;
        }
        for (depth, nodes) in [(1, 5), (2, 4), (MAX_DEPTH, 2)] {
            if n <= nodes {
                let longest = shapes::every_yard(vec![depth; n]).map(|yard| plan_length(&yard)).max();
                if longest != Some(figures::longest_plan_to(depth, n)) {
                    return Err(format!("the longest plan of {n} nodes of depth {depth} has {longest:?} moves"));
                }
            }
        }
    }
    Ok(cases)
}

/// All lists of numbers from -4 to 4, and no demand is farther from 0 there: exactly one meets
/// equation 2 at every node, the demands. Totals may differ.
fn equation_2(caller: &Caller, thin: Thin) -> Same<u64> {
    const NUMBERS: usize = 9;
    let (mut number, mut cases) = (0, 0);
    for yard in [vec![1], vec![4], vec![1; 2], vec![2; 2], vec![1; 3]].into_iter().flat_map(shapes::every_yard) {
        number += 1;
        if !thin.keeps(number) {
            continue;
        }
        cases += 1;
        let n = yard.nodes();
        caller.demands(&yard, n)?;
        let lists = (0..NUMBERS.pow(n as u32))
            .map(|code| (0..n).map(|node| (code / NUMBERS.pow(node as u32) % NUMBERS) as i16 - 4).collect::<Vec<i16>>());
        let meet: Vec<Vec<i16>> = lists.filter(|list| demands::meets_equation_2(&yard, list)).collect();
        if meet != [demands::of_tree(&yard)] {
            return Err(format!("{yard:?}: equation 2 is met by {meet:?}"));
        }
    }
    Ok(cases)
}

/// A tree with any counts: refused as having no plan exactly if the search found no way.
fn searched(caller: &Caller, yard: &Yard, least: Option<u32>, random: &mut Random) -> Same {
    match least {
        Some(least) => solved(caller, yard, least, random),
        None => {
            caller.figures(yard)?;
            caller.plan(yard, 64)?;
            if planner::plan(yard, 64) != Err(Refusal { number: 7, place: 0 }) {
                return Err(format!("{yard:?} has no plan, but is not refused so"));
            }
            let plan = damage::wander(yard, 4, random);
            caller.check(yard, &plan)?;
            caller.trial(yard, &plan, random.below(6) as u16)
        }
    }
}

fn against_search(caller: &Caller, thin: Thin) -> Same<u64> {
    let mut random = Random::new(3);
    let mut cases = 0;
    for _ in 0..thin.of(600) {
        let (shape, n) = (random.pick(&Shape::ALL), random.within(6, 7));
        let yard = shapes::yard(shape, n, &mut random);
        cases += some_targets(caller, yard, &mut random)?;
    }
    Ok(cases)
}

/// The more nodes, the less deep, as the search goes through all that they can hold.
fn deep_against_search(caller: &Caller, thin: Thin) -> Same<u64> {
    let mut random = Random::new(41);
    let mut cases = 0;
    for _ in 0..thin.of(1_200) {
        let (n, most) = random.pick(&[(1, 8), (2, 8), (3, 8), (4, 8), (4, 5), (5, 4), (5, 3), (6, 3), (7, 2)]);
        let depths = shapes::depths(n, most, &mut random);
        let yard = shapes::with_depths(random.pick(&Shape::ALL), &depths, &mut random);
        cases += some_targets(caller, yard, &mut random)?;
    }
    Ok(cases)
}

/// A yard with many targets in turn, against one search from its pebbles, and with any shortest
/// plan that the search finds.
fn some_targets(caller: &Caller, mut yard: Yard, random: &mut Random) -> Same<u64> {
    const TARGETS: u64 = 32;
    let least = shortest::by_search(&yard);
    for _ in 0..TARGETS {
        let k = if random.once_in(8) { random.within(0, yard::total(&yard.depths)) } else { yard::total(&yard.pebbles) };
        yard.targets = shapes::scattered(&yard.depths, k, random);
        searched(caller, &yard, least[shortest::place(&yard, &yard.targets)], random)?;
        if let Some(plan) = shortest::any_plan(&yard, &least, random) {
            as_short_as_can_be(&yard, &plan)?;
            caller.check(&yard, &plan)?;
            if !checker::check(&yard, &plan).is_ok_and(|checked| checked.excess == 0) {
                return Err(format!("{yard:?}: {plan:?} is as short as can be, but not judged so"));
            }
        }
    }
    Ok(TARGETS)
}

/// Of deep nodes fewer, as each of their pebbles is matched.
fn against_matching(caller: &Caller, thin: Thin) -> Same<u64> {
    let mut random = Random::new(4);
    let cases = thin.of(44_000);
    for _ in 0..cases {
        let shape = random.pick(&Shape::ALL);
        let yard = if random.once_in(11) {
            let n = random.within(1, 14);
            shapes::deep_yard(shape, n, &mut random)
        } else {
            let n = random.within(1, 24);
            shapes::yard(shape, n, &mut random)
        };
        solved(caller, &yard, shortest::by_matching(&yard), &mut random)?;
    }
    Ok(cases)
}

fn all_shapes(caller: &Caller, thin: Thin) -> Same<u64> {
    in_shapes(caller, thin.of(24_000), 6, shapes::yard, &mut Random::new(5))
}

fn deep_shapes(caller: &Caller, thin: Thin) -> Same<u64> {
    in_shapes(caller, thin.of(12_000), 2, shapes::deep_yard, &mut Random::new(42))
}

/// Yards of at least so many nodes.
fn in_shapes(caller: &Caller, cases: u64, least: usize, yard: fn(Shape, usize, &mut Random) -> Yard, random: &mut Random) -> Same<u64> {
    for case in 0..cases {
        let shape = Shape::ALL[case as usize % Shape::ALL.len()];
        let n = if random.once_in(20) { 256 } else { shapes::size(least, 256, random) };
        let yard = yard(shape, n, random);
        solved(caller, &yard, figures::shortest_length(&yard), random)?;
    }
    Ok(cases)
}

/// All calls on any lists.
fn any_lists(caller: &Caller, yard: &Yard, random: &mut Random) -> Same {
    caller.figures(yard)?;
    caller.demands(yard, (yard.nodes() + 2).saturating_sub(random.below(4)))?;
    caller.plan(yard, random.pick(&[0, 1, 2, 3, 8, 200]))?;
    if let Ok(plan) = planner::plan(yard, usize::MAX) {
        printed(yard, &plan)?;
    }
    let mut plan: Vec<u8> = (0..random.below(3)).flat_map(|_| damage::any_move(yard, random)).collect();
    if random.once_in(3) {
        plan.push(0);
    }
    caller.check(yard, &plan)?;
    caller.trial(yard, &plan, random.below(4) as u16)?;
    let [from, to] = damage::any_move(yard, random);
    caller.push(yard, usize::from(from), usize::from(to)).map(drop)?;
    events::any_lists(caller, yard, random)?;
    distances::any_lists(caller, yard, random)?;
    steps::any_lists(caller, yard, &plan, random)?;
    parts::any_lists(caller, yard, random)?;
    openings::any_lists(caller, yard, random)?;
    wear::any_lists(caller, yard, &plan, random)
}

/// All lists of these values up to a length.
fn lists(length: u32, values: &[u8]) -> Vec<Vec<u8>> {
    let base = values.len();
    (0..=length)
        .flat_map(|length| (0..base.pow(length)).map(move |code| (0..length).map(|at| values[code / base.pow(at) % base]).collect()))
        .collect()
}

/// The depths are 1, or any of few values, and mostly as many as there are parents.
fn every_list(caller: &Caller, thin: Thin) -> Same<u64> {
    let mut random = Random::new(6);
    let (mut number, mut cases) = (0, 0);
    for parents in lists(3, &[0, 1, 2, 3, 255]) {
        for pebbles in lists(3, &[0, 1, 2]) {
            for targets in lists(3, &[0, 1, 2]) {
                number += 1;
                if thin.keeps(number) {
                    cases += 1;
                    let length = if random.once_in(20) { random.below(4) } else { parents.len() };
                    let values = random.pick(&[&[1][..], &[1, 2], &[0, 1, 2, 8, 9, 255]]);
                    let depths = (0..length).map(|_| random.pick(values)).collect();
                    let yard = Yard { parents: parents.clone(), pebbles: pebbles.clone(), targets, depths };
                    any_lists(caller, &yard, &mut random)?;
                }
            }
        }
    }
    Ok(cases)
}

fn every_four_lists(caller: &Caller, thin: Thin) -> Same<u64> {
    let mut random = Random::new(43);
    let (mut number, mut cases) = (0, 0);
    for parents in lists(2, &[0, 1, 2]) {
        for pebbles in lists(2, &[0, 1, 2]) {
            for targets in lists(2, &[0, 1, 3]) {
                for depths in lists(2, &[0, 1, 2, 9]) {
                    number += 1;
                    if thin.keeps(number) {
                        cases += 1;
                        let yard = Yard { parents: parents.clone(), pebbles: pebbles.clone(), targets: targets.clone(), depths };
                        any_lists(caller, &yard, &mut random)?;
                    }
                }
            }
        }
    }
    Ok(cases)
}

fn damaged_lists(caller: &Caller, thin: Thin) -> Same<u64> {
    let mut random = Random::new(7);
    let cases = thin.of(120_000);
    for _ in 0..cases {
        let n = if random.once_in(30) { random.within(250, 256) } else { shapes::size(1, 40, &mut random) };
        let mut yard = shapes::any_yard(random.pick(&Shape::ALL), n, &mut random);
        damage::lists(&mut yard, &mut random);
        any_lists(caller, &yard, &mut random)?;
    }
    Ok(cases)
}

fn noise(caller: &Caller, thin: Thin) -> Same<u64> {
    let mut random = Random::new(8);
    let cases = thin.of(200_000);
    for _ in 0..cases {
        any_lists(caller, &damage::noise(&mut random), &mut random)?;
    }
    Ok(cases)
}

/// Yards up to 3 nodes of depth 1, and up to 2 of depths 1 and 2.
fn every_plan(caller: &Caller, thin: Thin) -> Same<u64> {
    let (mut number, mut cases) = (0, 0);
    for n in 1..=3 {
        // The last value names no node. One odd plan of each length is as good as all.
        let mut plans = lists(5, &Vec::from_iter(0..=n as u8));
        plans.retain(|plan| plan.len().is_multiple_of(2) || plan.iter().all(|&byte| byte == 0));
        for yard in shapes::every_depths(n, if n < 3 { 2 } else { 1 }).flat_map(shapes::every_yard) {
            for plan in &plans {
                number += 1;
                if thin.keeps(number) {
                    cases += 1;
                    caller.check(&yard, plan)?;
                    caller.trial(&yard, plan, (number % 4) as u16)?;
                    caller.wear(every_stretch, &yard, plan, (number / 4 % 4) as u32).map(drop)?;
                }
            }
        }
    }
    Ok(cases)
}

fn altered_plans(caller: &Caller, thin: Thin) -> Same<u64> {
    let mut random = Random::new(9);
    let cases = thin.of(120_000);
    for _ in 0..cases {
        let n = if random.once_in(40) { random.within(200, 256) } else { shapes::size(1, 30, &mut random) };
        let yard = shapes::any_yard(random.pick(&Shape::ALL), n, &mut random);
        let mut plan = planner::plan(&yard, usize::MAX).map_err(|refusal| format!("{yard:?} is refused: {refusal:?}"))?;
        printed(&yard, &plan)?;
        if random.once_in(4) {
            let most = random.below(200);
            plan = damage::wander(&yard, most, &mut random);
        }
        damage::plan(&mut plan, &yard, &mut random);
        caller.check(&yard, &plan)?;
        for budget in [random.within(0, plan.len() / 2 + 2), random.pick(&[0, 1, 65_534, 65_535])] {
            caller.trial(&yard, &plan, budget.min(65_535) as u16)?;
        }
    }
    Ok(cases)
}

/// One pebble goes to and fro between two nodes, which hold it alone or with another, for as many
/// bytes as a plan may have and some more or fewer. Then each plan with another last move.
fn long_plans(caller: &Caller, _: Thin) -> Same<u64> {
    let mut cases = 0;
    let alone = [[1, 0], [0, 1]].map(|targets| Yard::shallow(&[0, 0], &[1, 0], &targets));
    let beside = Yard { depths: vec![2, 1], ..Yard::shallow(&[0, 0], &[2, 0], &[1, 1]) };
    for yard in [&alone[0], &alone[1], &beside] {
        for length in checker::MAX_PLAN_BYTES - 5..=checker::MAX_PLAN_BYTES + 5 {
            let mut plan: Vec<u8> = [0, 1, 1, 0].into_iter().cycle().take(length).collect();
            caller.check(yard, &plan)?;
            for budget in [0, 1, 40_000, 65_534, 65_535] {
                caller.trial(yard, &plan, budget)?;
                cases += 1;
            }
            let last = length / 2 * 2 - 2;
            for ends in [[0, 1], [1, 0], [0, 0], [0, 2]] {
                plan[last..last + 2].copy_from_slice(&ends);
                caller.check(yard, &plan)?;
                cases += 1;
            }
        }
    }
    Ok(cases)
}

fn pushes(caller: &Caller, thin: Thin) -> Same<u64> {
    let mut random = Random::new(11);
    let cases = thin.of(150_000);
    for _ in 0..cases {
        let n = if random.once_in(20) { 256 } else { shapes::size(1, 20, &mut random) };
        let mut yard = shapes::any_yard(random.pick(&Shape::ALL), n, &mut random);
        if random.once_in(10) {
            damage::lists(&mut yard, &mut random);
        }
        let [from, to] = damage::any_move(&yard, &mut random).map(|node| damage::number(node, &yard, &mut random));
        caller.push(&yard, from, to).map(drop)?;
    }
    Ok(cases)
}

/// The header allows NULL for a list of length 0, which no list of Rust's is.
fn no_address(_: &Caller, _: Thin) -> Same<u64> {
    use std::ptr::{null, null_mut};
    let (parents, one, zero) = ([0u8], [1u8], [0u8]);
    let (mut pebbles, mut targets, mut parts, mut bytes, mut distance) = (one, zero, zero, 0, 0);
    let (mut first, mut edge) = (0, 0);
    // A start, its finish asked for by the mask.
    let mut block = [1u8, 0, 0, 0, 0, 0, 0, 1, 0];
    // SAFETY: lengths are 0 where there is no address, else those of the arrays.
    let answers = unsafe {
        use library::raw::*;
        [
            ("plan", javendriky_plan(null(), 0, null(), 0, null(), 0, null(), 0, null_mut(), 0), 1_000_000),
            ("plan_parts", javendriky_plan_parts(null(), 0, null(), 0, null(), 0, null(), 0, null_mut(), 0, null_mut(), 0), 1_000_000),
            ("openings", javendriky_openings(null(), 0, null(), 0, null(), 0, null(), 0, null_mut(), 0), 1_000_000),
            ("test_yard", javendriky_test_yard(null(), 0, null(), 0, null(), 0, null(), 0), 1_000_000),
            ("demands", javendriky_demands(null(), 0, null(), 0, null(), 0, null(), 0, null_mut(), 0), 1_000_000),
            ("length_bound", javendriky_length_bound(null(), 0, null(), 0, null(), 0, null(), 0, &mut bytes), 1_000_000),
            ("displaced", javendriky_displaced(null(), 0, null(), 0, null(), 0, null(), 0), 1_000_000),
            ("pebble_arrives", javendriky_pebble_arrives(null(), 0, null_mut(), 0, null_mut(), 0, null(), 0, null_mut(), 0, 0), 1_000_000),
            ("pebble_leaves", javendriky_pebble_leaves(null(), 0, null_mut(), 0, null_mut(), 0, null(), 0, null_mut(), 0, 0), 1_000_000),
            ("target_set", javendriky_target_set(null(), 0, null_mut(), 0, null_mut(), 0, null(), 0, null_mut(), 0, 0), 1_000_000),
            ("target_cleared", javendriky_target_cleared(null(), 0, null_mut(), 0, null_mut(), 0, null(), 0, null_mut(), 0, 0), 1_000_000),
            ("nearest", javendriky_nearest(null(), 0, null(), 0, null(), 0, null(), 0, 0, &mut distance), 1_000_000),
            ("reach", javendriky_reach(null(), 0, null(), 0, null(), 0, null(), 0, null_mut(), 0, 0, 0), 1_000_000),
            ("push", javendriky_push(null(), 0, null_mut(), 0, null(), 0, null(), 0, 0, 0), 1_000_000),
            ("check", javendriky_check(null(), 0, null(), 0, null(), 0, null(), 0, null(), 0), 1_000_000),
            ("excess", javendriky_excess(null(), 0, null(), 0, null(), 0, null(), 0, null(), 0), 1_000_000),
            ("wear", javendriky_wear(null(), 0, null(), 0, null(), 0, null(), 0, null(), 0, 1, &mut first, &mut edge), 1_000_000),
            ("trial", javendriky_trial(null(), 0, null_mut(), 0, null(), 0, null(), 0, null(), 0, 0), 1_000_000),
            ("step", javendriky_step(null(), 0, null_mut(), 0, null(), 0, null(), 0, null(), 0, null_mut(), 0, 0), 1_000_000),
            ("test_yard", javendriky_test_yard(parents.as_ptr(), 1, null(), 0, zero.as_ptr(), 1, one.as_ptr(), 1), 2_000_000),
            ("test_yard", javendriky_test_yard(parents.as_ptr(), 1, one.as_ptr(), 1, zero.as_ptr(), 1, null(), 0), 2_000_000),
            ("plan", javendriky_plan(parents.as_ptr(), 1, one.as_ptr(), 1, one.as_ptr(), 1, one.as_ptr(), 1, null_mut(), 0), 0),
            (
                "plan_parts",
                javendriky_plan_parts(parents.as_ptr(), 1, one.as_ptr(), 1, one.as_ptr(), 1, one.as_ptr(), 1, null_mut(), 0, null_mut(), 0),
                2_000_000,
            ),
            (
                "plan_parts",
                javendriky_plan_parts(
                    parents.as_ptr(),
                    1,
                    one.as_ptr(),
                    1,
                    one.as_ptr(),
                    1,
                    one.as_ptr(),
                    1,
                    null_mut(),
                    0,
                    parts.as_mut_ptr(),
                    1,
                ),
                0,
            ),
            ("openings", javendriky_openings(parents.as_ptr(), 1, one.as_ptr(), 1, one.as_ptr(), 1, one.as_ptr(), 1, null_mut(), 0), 0),
            (
                "demands",
                javendriky_demands(parents.as_ptr(), 1, one.as_ptr(), 1, one.as_ptr(), 1, one.as_ptr(), 1, null_mut(), 0),
                2_000_000,
            ),
            (
                "target_set",
                javendriky_target_set(
                    parents.as_ptr(),
                    1,
                    pebbles.as_mut_ptr(),
                    1,
                    targets.as_mut_ptr(),
                    1,
                    one.as_ptr(),
                    1,
                    null_mut(),
                    0,
                    0,
                ),
                2_000_000,
            ),
            (
                "reach",
                javendriky_reach(parents.as_ptr(), 1, one.as_ptr(), 1, one.as_ptr(), 1, one.as_ptr(), 1, null_mut(), 0, 0, 0),
                2_000_000,
            ),
            ("check", javendriky_check(parents.as_ptr(), 1, one.as_ptr(), 1, one.as_ptr(), 1, one.as_ptr(), 1, null(), 0), 0),
            ("excess", javendriky_excess(parents.as_ptr(), 1, one.as_ptr(), 1, one.as_ptr(), 1, one.as_ptr(), 1, null(), 0), 0),
            (
                "wear",
                javendriky_wear(
                    parents.as_ptr(),
                    1,
                    one.as_ptr(),
                    1,
                    one.as_ptr(),
                    1,
                    one.as_ptr(),
                    1,
                    null(),
                    0,
                    1,
                    &mut first,
                    &mut edge,
                ),
                28_000_000,
            ),
            (
                "step",
                javendriky_step(
                    parents.as_ptr(),
                    1,
                    pebbles.as_mut_ptr(),
                    1,
                    one.as_ptr(),
                    1,
                    one.as_ptr(),
                    1,
                    null(),
                    0,
                    null_mut(),
                    0,
                    0,
                ),
                2_000_000,
            ),
            (
                "step",
                javendriky_step(
                    parents.as_ptr(),
                    1,
                    pebbles.as_mut_ptr(),
                    1,
                    one.as_ptr(),
                    1,
                    one.as_ptr(),
                    1,
                    null(),
                    0,
                    block.as_mut_ptr(),
                    9,
                    0,
                ),
                1,
            ),
            ("read_sheet", javendriky_read_sheet(null(), 0, null_mut(), 0, null_mut(), 0, null_mut(), 0, null_mut(), 0), 18_000_000),
            ("write_sheet", javendriky_write_sheet(null(), 0, null(), 0, null(), 0, null(), 0, null_mut(), 0), 1_000_000),
            (
                "write_sheet",
                javendriky_write_sheet(parents.as_ptr(), 1, one.as_ptr(), 1, one.as_ptr(), 1, one.as_ptr(), 1, null_mut(), 0),
                8_000_040,
            ),
            ("check", javendriky_check(parents.as_ptr(), 1, one.as_ptr(), 1, zero.as_ptr(), 1, one.as_ptr(), 1, null(), 0), 7_000_000),
        ]
    };
    for (call, got, expected) in answers {
        if got != expected {
            return Err(format!("{call} with lists of no address: {got}, must be {expected}"));
        }
    }
    Ok(answers.len() as u64)
}
