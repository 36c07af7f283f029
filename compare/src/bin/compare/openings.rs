//! Families of openings: every move with which some shortest plan starts.

use crate::calls::{Caller, Same};
use crate::parts::{rooms, small_depths};
use unrelated::figures::shortest_length;
use unrelated::openings::of_tree;
use unrelated::random::{Random, Thin};
use unrelated::shapes::{self, Shape};
use unrelated::yard::{refuse, total, Answer, Refusal, Yard, MAX_DEPTH, MAX_NODES};
use unrelated::{checker, damage, shortest};

/// The yard after an opening, which both sides must accept.
fn after(caller: &Caller, yard: &Yard, ends: &[u8]) -> Same<Yard> {
    let [from, to] = [ends[0], ends[1]].map(usize::from);
    let pebbles = caller.push(yard, from, to)?.map_err(|refusal| format!("{yard:?}: the opening {from} {to} is refused: {refusal:?}"))?;
    Ok(Yard { pebbles, ..yard.clone() })
}

/// The call, and if it is accepted what the request says of the openings. The library's plan begins
/// with one of them, and there is none only if the plan has no move. Each is a legal push, after
/// which the library's length is one less.
fn opened(caller: &Caller, yard: &Yard, room: usize) -> Same<Answer<Vec<u8>>> {
    let answer = caller.openings(yard, room)?;
    let Ok(openings) = &answer else {
        return Ok(answer);
    };
    let length = shortest_length(yard);
    caller.library_length(yard, length)?;
    let plan = caller.library_plan(yard, 2 * length as usize)?;
    let begun = match plan.get(..2) {
        Some(first) => openings.chunks(2).any(|ends| ends == first),
        None => openings.is_empty(),
    };
    if !begun {
        return Err(format!("{yard:?}: the plan is {plan:?}, the openings are {openings:?}"));
    }
    for ends in openings.chunks(2) {
        caller.library_length(&after(caller, yard, ends)?, length - 1)?;
    }
    Ok(answer)
}

/// A small tree with any counts, and for all that its nodes can hold the least number of moves from
/// there to the targets. The openings are those of the search, or the call refuses as having no
/// plan exactly if the search found no way. The smallest trees with every room, the others with
/// just enough and any other.
fn searched(caller: &Caller, yard: &Yard, left: &[Option<u32>], random: &mut Random) -> Same {
    let found = shortest::openings(yard, left).map_or(refuse(7, 0), Ok);
    let bytes = found.as_ref().map_or(0, Vec::len);
    let answer = opened(caller, yard, bytes)?;
    if answer != found {
        return Err(format!("{yard:?}: the openings are {answer:?}, by the search {found:?}"));
    }
    if yard.nodes() <= 3 {
        return (0..bytes + 4).try_for_each(|room| caller.openings(yard, room).map(drop));
    }
    caller.openings(yard, random.pick(&rooms(bytes))).map(drop)
}

/// Every tree up to 5 nodes of depth 1, up to 3 of depths 1 to 3, and of 4 nodes with one or two of
/// depth 2, with all pebbles and targets, against a search from each of all that the nodes can
/// hold.
pub fn every_tree(caller: &Caller, thin: Thin) -> Same<u64> {
    let mut random = Random::new(50);
    let (mut number, mut cases) = (0, 0);
    for depths in small_depths() {
        let counts = shapes::every_count(&depths);
        for parents in shapes::every_tree(depths.len()) {
            let yard = |pebbles: &[u8], targets: &[u8]| Yard {
                parents: parents.clone(),
                pebbles: pebbles.to_vec(),
                targets: targets.to_vec(),
                depths: depths.clone(),
            };
            let least: Vec<Vec<Option<u32>>> = counts.iter().map(|pebbles| shortest::by_search(&yard(pebbles, pebbles))).collect();
            for (place, targets) in counts.iter().enumerate() {
                let left: Vec<Option<u32>> = least.iter().map(|least| least[place]).collect();
                for pebbles in &counts {
                    number += 1;
                    if thin.keeps(number) {
                        cases += 1;
                        searched(caller, &yard(pebbles, targets), &left, &mut random)?;
                    }
                }
            }
        }
    }
    Ok(cases)
}

/// Up to 7 nodes, the fewer the deeper. Many pebbles in turn for one search, which begins at the
/// targets: each move can be taken back, so a way has the same length in both directions.
pub fn against_search(caller: &Caller, thin: Thin) -> Same<u64> {
    const PEBBLES: u64 = 32;
    let mut random = Random::new(51);
    let searches = thin.of(1_500);
    for _ in 0..searches {
        let (n, most) = random.pick(&[(6, 1), (7, 1), (1, 8), (2, 8), (3, 8), (4, 8), (4, 5), (5, 4), (5, 3), (6, 3), (7, 2)]);
        let depths = shapes::depths(n, most, &mut random);
        let mut yard = shapes::with_depths(random.pick(&Shape::ALL), &depths, &mut random);
        let left = shortest::by_search(&Yard { pebbles: yard.targets.clone(), ..yard.clone() });
        for _ in 0..PEBBLES {
            let k = if random.once_in(8) { random.within(0, total(&yard.depths)) } else { total(&yard.targets) };
            yard.pebbles = shapes::scattered(&yard.depths, k, &mut random);
            searched(caller, &yard, &left, &mut random)?;
        }
    }
    Ok(searches * PEBBLES)
}

/// A tree in which each node holds a pebble and has a place: there is an opening over each edge
/// whose demand is not 0.
fn busy(shape: Shape, n: usize, random: &mut Random) -> Yard {
    let depths: Vec<u8> = (0..n).map(|_| random.within(2, usize::from(MAX_DEPTH)) as u8).collect();
    let yard = shapes::with_depths(shape, &depths, random);
    let pebbles: Vec<u8> = yard.depths.iter().map(|&depth| random.within(1, usize::from(depth) - 1) as u8).collect();
    let targets = shapes::scattered(&yard.depths, total(&pebbles), random);
    Yard { pebbles, targets, ..yard }
}

/// Whether some node has an opening to its parent, one to a lower child and one to a higher child.
fn parent_amid(yard: &Yard, openings: &[u8]) -> bool {
    let moves: Vec<(u8, u8)> = openings.chunks(2).map(|ends| (ends[0], ends[1])).collect();
    moves.windows(3).any(|three| three.iter().all(|(from, _)| *from == three[0].0) && three[1].1 == yard.parents[usize::from(three[1].0)])
}

/// Yards of any depths, some in parts, some with openings over nearly all edges; then other rooms.
/// At the end the benchmark's yards, with the longest plan of all.
pub fn all_shapes(caller: &Caller, thin: Thin) -> Same<u64> {
    let mut random = Random::new(52);
    let mut cases = thin.of(2_400);
    let (mut none, mut many, mut amid) = (0, 0, 0);
    for case in 0..cases {
        let shape = Shape::ALL[case as usize % Shape::ALL.len()];
        let n = if random.once_in(20) { MAX_NODES } else { shapes::size(1, MAX_NODES, &mut random) };
        let yard = match random.below(4) {
            0 => busy(shape, n, &mut random),
            1 => {
                let depths = shapes::depths(n, random.pick(&[1, MAX_DEPTH]), &mut random);
                shapes::parted(shape, &depths, random.pick(&[2, 5, 30]), &mut random)
            }
            _ => shapes::any_yard(shape, n, &mut random),
        };
        let bytes = of_tree(&yard).len();
        let openings = opened(caller, &yard, bytes)?.map_err(|refusal| format!("{yard:?} is refused: {refusal:?}"))?;
        none += u64::from(openings.is_empty());
        many += u64::from(openings.len() > 2 * 200);
        amid += u64::from(parent_amid(&yard, &openings));
        caller.openings(&yard, random.pick(&rooms(bytes))).map(drop)?;
    }
    for (number, (shape, depth)) in (0..).zip(Shape::ALL.into_iter().flat_map(|shape| [(shape, 1), (shape, MAX_DEPTH)])) {
        if thin.keeps(number) {
            cases += 1;
            opened(caller, &shapes::far(shape, MAX_NODES, depth, &mut random), 2 * MAX_NODES).map(drop)?;
        }
    }
    if thin.is_full() && [none, many, amid].contains(&0) {
        return Err(format!(
            "no opening {none} times, over 200 {many} times, one to a parent amid the children {amid} times: \
             the family does not do what it is for"
        ));
    }
    Ok(cases)
}

/// A keeper chooses an opening, obeys it and asks again: the first of the list, the last, or any.
/// There is one as often as a shortest plan has moves, then none, and the obeyed moves are a plan.
pub fn runs(caller: &Caller, thin: Thin) -> Same<u64> {
    let mut random = Random::new(53);
    let begun = caller.calls.get();
    for _ in 0..thin.of(1_500) {
        let n = shapes::size(2, 30, &mut random);
        let begin = shapes::any_yard(random.pick(&Shape::ALL), n, &mut random);
        let (mut yard, mut plan) = (begin.clone(), Vec::new());
        let chosen = random.below(3);
        for _ in 0..shortest_length(&begin) {
            let openings = caller.openings(&yard, 2 * n)?.map_err(|refusal| format!("{yard:?} is refused: {refusal:?}"))?;
            let last = (openings.len() / 2).checked_sub(1).ok_or_else(|| format!("{yard:?}: there is no opening"))?;
            let at = 2 * [0, last, random.within(0, last)][chosen];
            let ends = &openings[at..at + 2];
            yard = after(caller, &yard, ends)?;
            plan.extend(ends);
        }
        let left = caller.openings(&yard, 0)?;
        caller.check(&begin, &plan)?;
        let checked = checker::check(&begin, &plan);
        if left != Ok(vec![]) || !checked.is_ok_and(|checked| checked.excess == 0) {
            return Err(format!(
                "{begin:?}: the openings {plan:?}, obeyed one after another, are judged {checked:?}, and {left:?} are left"
            ));
        }
    }
    Ok(caller.calls.get() - begun)
}

/// Yards in order or with one to three faults, with any room: so each refusal is due together with
/// later ones.
pub fn damaged(caller: &Caller, thin: Thin) -> Same<u64> {
    let mut random = Random::new(54);
    let cases = thin.of(60_000);
    // How often each refusal was met with a list that was too short for the yard as it was before.
    let mut first = [0; 28];
    for _ in 0..cases {
        let n = if random.once_in(60) { random.within(200, MAX_NODES) } else { shapes::size(1, 40, &mut random) };
        let shape = random.pick(&Shape::ALL);
        let mut yard = if random.once_in(3) { busy(shape, n, &mut random) } else { shapes::any_yard(shape, n, &mut random) };
        let bytes = of_tree(&yard).len();
        let room = random.pick(&rooms(bytes));
        match random.below(4) {
            0 => {}
            1 => damage::recount(&mut yard, random.below(n), &mut random),
            _ => damage::lists(&mut yard, &mut random),
        }
        match opened(caller, &yard, room)? {
            Err(Refusal { number, .. }) if room < bytes => first[number as usize] += 1,
            _ => {}
        }
    }
    match [1, 2, 26, 27, 4, 5, 6, 7, 8].into_iter().find(|&number| thin.is_full() && first[number] == 0) {
        Some(number) => Err(format!("{number} was never met with a list that is too short: the family does not do what it is for")),
        None => Ok(cases),
    }
}

/// The call on any lists.
pub fn any_lists(caller: &Caller, yard: &Yard, random: &mut Random) -> Same {
    opened(caller, yard, random.pick(&[0, 1, 2, 3, 4, 200])).map(drop)
}
