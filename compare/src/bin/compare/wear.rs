//! Families of wear: the most crossings of one edge within so many moves in a row. Each call is a
//! case.

use crate::calls::{Caller, Same};
use unrelated::checker::MAX_PLAN_BYTES;
use unrelated::demands::of_tree;
use unrelated::random::{Random, Thin};
use unrelated::shapes::{self, Shape};
use unrelated::wear::{every_edge, every_stretch, Wear};
use unrelated::yard::{refuse, total, Answer, Refusal, Yard, MAX_DEPTH, MAX_NODES};
use unrelated::{damage, planner};

/// The longest plan that is accepted.
const MAX_MOVES: usize = MAX_PLAN_BYTES / 2;

/// How many steps it may take to count every stretch anew.
const MOST_STEPS: usize = 1 << 20;

/// The call, counted by every stretch and by every edge, which must give the same; by every edge
/// alone if the stretches would take too long.
fn worn(caller: &Caller, yard: &Yard, plan: &[u8], width: u32) -> Same<Answer<Wear>> {
    let wide = width as usize;
    let stretches = (plan.len() / 2 + 1).saturating_sub(wide);
    if stretches * (wide + yard.nodes()) > MOST_STEPS {
        return caller.wear(every_edge, yard, plan, width);
    }
    let answer = caller.wear(every_stretch, yard, plan, width)?;
    match answer.map(|wear| (wear, every_edge(yard, plan, wide))) {
        Ok((wear, by_edge)) if wear != by_edge => {
            Err(format!("{yard:?}, plan {plan:?}, width {width}: {wear:?}, by every edge {by_edge:?}"))
        }
        _ => Ok(answer),
    }
}

fn worn_within(caller: &Caller, yard: &Yard, plan: &[u8], widths: impl IntoIterator<Item = u32>) -> Same {
    widths.into_iter().try_for_each(|width| worn(caller, yard, plan, width).map(drop))
}

/// All moves of the planner's own plan. It crosses each edge as often as the size of its demand
/// says, so the answer is the largest size, at the lowest node that has it.
fn whole(caller: &Caller, yard: &Yard, plan: &[u8]) -> Same {
    let sizes: Vec<u16> = of_tree(yard).into_iter().map(i16::unsigned_abs).collect();
    let largest = sizes.iter().copied().max().unwrap_or(0);
    let due = match sizes.iter().position(|&size| size == largest) {
        Some(node) if largest > 0 => Ok(Wear { crossings: u32::from(largest), first: 0, edge: node as u32 }),
        // No move, so no width.
        _ => refuse(28, 0),
    };
    let answer = worn(caller, yard, plan, plan.len() as u32 / 2)?;
    if answer != due {
        return Err(format!("{yard:?}: within all moves of the plan {plan:?} the wear is {answer:?}, by the demands {due:?}"));
    }
    Ok(())
}

/// The planner's plan; none where there is none.
fn planned(yard: &Yard) -> Vec<u8> {
    planner::plan(yard, usize::MAX).unwrap_or_default()
}

/// The moves that a tree's pebbles allow.
fn allowed(yard: &Yard) -> Vec<[u8; 2]> {
    let both_ways = |node: usize| [[node as u8, yard.parents[node]], [yard.parents[node], node as u8]];
    let legal = |&[from, to]: &[u8; 2]| {
        let (at, next) = (usize::from(from), usize::from(to));
        from != to && yard.pebbles[at] > 0 && yard.pebbles[next] < yard.depths[next]
    };
    (0..yard.nodes()).flat_map(both_ways).filter(legal).collect()
}

fn make(yard: &mut Yard, [from, to]: [u8; 2]) {
    yard.pebbles[usize::from(from)] -= 1;
    yard.pebbles[usize::from(to)] += 1;
}

/// The planner's plan on every tree up to 5 nodes of depth 1 and up to 3 of depths 1 and 2, with
/// all pebbles and as many targets: every width from 0 to one too many.
pub fn every_tree(caller: &Caller, thin: Thin) -> Same<u64> {
    let begun = caller.calls.get();
    let mut number = 0;
    let deep = (1..=3).flat_map(|n| shapes::every_depths(n, 2)).filter(|depths| total(depths) > depths.len());
    for depths in (1..=5).map(|n| vec![1; n]).chain(deep) {
        let counts = shapes::every_count(&depths);
        let pairs = counts.iter().flat_map(|pebbles| counts.iter().map(move |targets| (pebbles, targets)));
        let matched: Vec<(&Vec<u8>, &Vec<u8>)> = pairs.filter(|(pebbles, targets)| total(pebbles) == total(targets)).collect();
        for parents in shapes::every_tree(depths.len()) {
            for &(pebbles, targets) in &matched {
                number += 1;
                if thin.keeps(number) {
                    let yard =
                        Yard { parents: parents.clone(), pebbles: pebbles.clone(), targets: targets.clone(), depths: depths.clone() };
                    let plan = planned(&yard);
                    let moves = plan.len() as u32 / 2;
                    worn_within(caller, &yard, &plan, (0..moves).chain([moves + 1]))?;
                    whole(caller, &yard, &plan)?;
                }
            }
        }
    }
    Ok(caller.calls.get() - begun)
}

/// All plans up to so many moves from a tree's pebbles, each with the yard whose targets are where
/// it ends.
fn every_plan_from(yard: &Yard, most: usize) -> Vec<(Yard, Vec<u8>)> {
    let mut plans = vec![(yard.clone(), Vec::new())];
    let mut longest = 0..1;
    for _ in 0..most {
        let begin = plans.len();
        for at in longest {
            for ends in allowed(&plans[at].0) {
                let (mut after, mut plan) = plans[at].clone();
                make(&mut after, ends);
                plan.extend(ends);
                plans.push((after, plan));
            }
        }
        longest = begin..plans.len();
    }
    let ended = |(after, plan): (Yard, Vec<u8>)| (Yard { targets: after.pebbles, pebbles: yard.pebbles.clone(), ..after }, plan);
    plans.into_iter().map(ended).collect()
}

/// Every plan that is accepted on a small tree, of up to 6 moves on 4 nodes and of more on fewer:
/// every width from 0 to one too many.
pub fn every_plan(caller: &Caller, thin: Thin) -> Same<u64> {
    let begun = caller.calls.get();
    let shallow = [(2, 12), (3, 10), (4, 6)].map(|(n, most)| (vec![1; n], most));
    let deep = [(vec![3, 2], 8), (vec![2, 2, 1], 5), (vec![1, 2, 1], 5)];
    let starts = |(depths, most): (Vec<u8>, usize)| {
        // Which targets these have is no matter, so one of each is enough.
        shapes::every_yard(depths).filter(|yard| yard.pebbles == yard.targets).map(move |yard| (yard, most))
    };
    for (number, (start, most)) in (0..).zip(shallow.into_iter().chain(deep).flat_map(starts)) {
        if thin.keeps(number) {
            for (yard, plan) in every_plan_from(&start, most) {
                worn_within(caller, &yard, &plan, 0..=plan.len() as u32 / 2 + 1)?;
            }
        }
    }
    Ok(caller.calls.get() - begun)
}

/// Legal moves from a tree's pebbles, about so many, and the yard after them. At times a move is
/// taken back and made again, once or often: then its edge is crossed more than others within few
/// moves.
fn restless(yard: &Yard, moves: usize, random: &mut Random) -> (Yard, Vec<u8>) {
    let (mut yard, mut plan) = (yard.clone(), Vec::new());
    while plan.len() < 2 * moves {
        let allowed = allowed(&yard);
        if allowed.is_empty() {
            break;
        }
        let [from, to] = random.pick(&allowed);
        for _ in 0..random.pick(&[0, 0, 0, 0, 1, 2, 15]) {
            plan.extend([from, to, to, from]);
        }
        make(&mut yard, [from, to]);
        plan.extend([from, to]);
    }
    (yard, plan)
}

/// About so many restless moves, then the planner's plan from where they end; or they are taken
/// back, and the planner's plan follows.
fn any_plan(yard: &Yard, moves: usize, random: &mut Random) -> Vec<u8> {
    let (ended, there) = restless(yard, moves, random);
    if random.once_in(3) {
        // Reversed, a move's ends change places and the last move comes first.
        let back: Vec<u8> = there.iter().rev().copied().collect();
        return [there, back, planned(yard)].concat();
    }
    [there, planned(&ended)].concat()
}

/// Widths for a plan of so many moves: at both ends, about its half, and any. Then 0, one too many,
/// and two that are far too many, or would do once the high bytes are lost.
fn widths(moves: usize, random: &mut Random) -> [u32; 12] {
    let any = random.below(moves + 1) as u32;
    let moves = moves as u32;
    let far = [1 << 16, 1 << 31, u32::MAX, any + (1 << 16), any + (1 << 31)];
    [1, 2, 3, any, moves / 2, moves / 2 + 1, moves.saturating_sub(1), moves, 0, moves + 1, random.pick(&far), random.pick(&far)]
}

/// The planner's plan, or another, with a few moves in front or many.
pub fn all_shapes(caller: &Caller, thin: Thin) -> Same<u64> {
    let mut random = Random::new(47);
    let begun = caller.calls.get();
    for case in 0..thin.of(900) {
        let shape = Shape::ALL[case as usize % Shape::ALL.len()];
        let n = if random.once_in(20) { MAX_NODES } else { shapes::size(1, MAX_NODES, &mut random) };
        let yard = shapes::any_yard(shape, n, &mut random);
        whole(caller, &yard, &planned(&yard))?;
        let moves = random.pick(&[0, 5, 40, 300, 2_000]);
        let plan = any_plan(&yard, moves, &mut random);
        worn_within(caller, &yard, &plan, widths(plan.len() / 2, &mut random))?;
    }
    Ok(caller.calls.get() - begun)
}

/// A plan made longer, to so many moves or one less: a pebble goes to and fro over one edge, before
/// the first move or after the last.
fn prolonged(yard: &Yard, plan: &[u8], moves: usize, random: &mut Random) -> Vec<u8> {
    let at_end = random.once_in(2);
    let pebbles = if at_end { &yard.targets } else { &yard.pebbles };
    let [from, to] = random.pick(&allowed(&Yard { pebbles: pebbles.clone(), ..yard.clone() }));
    let to_and_fro = [from, to, to, from].repeat((moves - plan.len() / 2) / 2);
    if at_end {
        [plan, &to_and_fro].concat()
    } else {
        [&to_and_fro, plan].concat()
    }
}

/// Plans of as many moves as there can be, or one less: to and fro between two nodes all along,
/// restless on trees of several sizes, the planner's longest. Widths at both ends of the plan and
/// about those of two bytes, and some that would do once the high bytes are lost. Then plans of two
/// moves or a byte more.
pub fn long_plans(caller: &Caller, thin: Thin) -> Same<u64> {
    let mut random = Random::new(48);
    let begun = caller.calls.get();
    // How often two bytes do not hold the first move, or the crossings.
    let (mut late, mut often) = (0, 0);
    let two = |pebbles: [u8; 2], targets: [u8; 2], depths: [u8; 2]| Yard {
        depths: depths.to_vec(),
        ..Yard::shallow(&[0, 0], &pebbles, &targets)
    };
    let to_and_fro = [two([1, 0], [1, 0], [1, 1]), two([1, 0], [0, 1], [1, 1]), two([2, 0], [1, 1], [2, 1])].map(|yard| (yard, 0));
    let sizes = [(5, 1), (5, MAX_DEPTH), (24, 1), (24, MAX_DEPTH), (MAX_NODES, 1)];
    let any = sizes.map(|(n, depth)| (shapes::far(Shape::Random, n, depth, &mut random), 110_000));
    let longest = [Shape::Line, Shape::Broom].map(|shape| (shapes::far(shape, MAX_NODES, MAX_DEPTH, &mut random), 0));
    for (number, (yard, moves)) in (0..).zip(to_and_fro.into_iter().chain(any).chain(longest)) {
        if !thin.keeps(number) {
            continue;
        }
        let (ended, there) = restless(&yard, moves, &mut random);
        let begin = [there, planned(&ended)].concat();
        let plan = prolonged(&yard, &begin, MAX_MOVES, &mut random);
        let (moves, any) = (plan.len() as u32 / 2, random.within(1, MAX_MOVES - 1) as u32);
        for width in [1, 2, 64, 65_535, 65_536, 65_537, 65_600, any, moves / 2, moves - 1, moves] {
            let wear = worn(caller, &yard, &plan, width)?.map_err(|refusal| format!("{yard:?}: a long plan is refused: {refusal:?}"))?;
            late += u64::from(wear.first > u32::from(u16::MAX));
            often += u64::from(wear.crossings > u32::from(u16::MAX));
        }
        worn_within(caller, &yard, &plan, [0, moves + 1, moves + 64, (1 << 17) + 64, (1 << 31) + 64, u32::MAX])?;
        for plan in [prolonged(&yard, &begin, MAX_MOVES + 2, &mut random), [&plan[..], &[0]].concat()] {
            worn_within(caller, &yard, &plan, [0, 64])?;
        }
    }
    if thin.is_full() && [late, often].contains(&0) {
        return Err(format!(
            "a first move above 65,535 {late} times, as many crossings {often} times: the family does not do what it is for"
        ));
    }
    Ok(caller.calls.get() - begun)
}

/// Plans altered in one to three places, lists with one to three faults, or both; mostly with a
/// width that would be refused too.
pub fn damaged(caller: &Caller, thin: Thin) -> Same<u64> {
    let mut random = Random::new(49);
    let begun = caller.calls.get();
    // How often each refusal stood before 28.
    let mut first = [0; 28];
    for _ in 0..thin.of(60_000) {
        let n = if random.once_in(40) { random.within(200, MAX_NODES) } else { shapes::size(1, 30, &mut random) };
        let mut yard = shapes::any_yard(random.pick(&Shape::ALL), n, &mut random);
        let moves = random.pick(&[0, 0, 5, 40]);
        let mut plan = any_plan(&yard, moves, &mut random);
        let [spoilt_plan, spoilt_lists] = random.pick(&[[false, false], [true, false], [true, false], [false, true], [true, true]]);
        if spoilt_plan {
            damage::plan(&mut plan, &yard, &mut random);
        }
        if spoilt_lists {
            damage::lists(&mut yard, &mut random);
        }
        let moves = plan.len() / 2;
        let any = widths(moves, &mut random);
        let width = if random.once_in(2) { random.pick(&[0, moves as u32 + 1]) } else { random.pick(&any) };
        match worn(caller, &yard, &plan, width)? {
            Err(Refusal { number, .. }) if number != 28 && (width == 0 || width as usize > moves) => first[number as usize] += 1,
            _ => {}
        }
    }
    let due = [1, 2, 26, 27, 4, 5, 6, 7, 9, 10, 11, 12, 13, 14];
    match due.into_iter().find(|&number| thin.is_full() && first[number] == 0) {
        Some(number) => Err(format!("{number} never stood before 28: the family does not do what it is for")),
        None => Ok(caller.calls.get() - begun),
    }
}

/// The call on any lists and any plan.
pub fn any_lists(caller: &Caller, yard: &Yard, plan: &[u8], random: &mut Random) -> Same {
    worn(caller, yard, plan, random.pick(&[0, 1, 2, 3])).map(drop)
}
