//! Lists, plans, demands and sheets damaged in one place or several: what a hand, a bad wire or an
//! attacker makes of legal ones.

use crate::check_sheet::{both_sheets, MOVES_HEAD};
use crate::checker::MAX_PLAN_BYTES;
use crate::demands::{of_tree, MAX_DEMAND};
use crate::event::{way, Event};
use crate::planner;
use crate::random::Random;
use crate::shapes::{self, Shape};
use crate::sheet::{move_sheet, unjudged};
use crate::yard::{Yard, MAX_DEPTH, MAX_NODES};

/// A number of nodes that the library does not take, or at its edge.
fn odd_length(random: &mut Random) -> usize {
    match random.below(6) {
        0 => 0,
        1 => MAX_NODES,
        2 => MAX_NODES + 1,
        3 => random.within(MAX_NODES + 1, 3 * MAX_NODES),
        _ => random.below(10),
    }
}

/// A value above another, often just above or at an edge of a byte.
fn above(limit: u8, random: &mut Random) -> u8 {
    let next = limit.saturating_add(1);
    match random.below(3) {
        0 => next,
        1 => 255,
        _ => random.within(usize::from(next), 255) as u8,
    }
}

/// One pebble or target more or less, within the depth, at a node that all lists have.
pub fn recount(yard: &mut Yard, node: usize, random: &mut Random) {
    let events: Vec<Event> = Event::ALL.into_iter().filter(|event| event.fits(yard, node)).collect();
    // None does where the depth is 0 and nothing is there.
    if !events.is_empty() {
        *yard = random.pick(&events).at(yard, node);
    }
}

/// A yard with one to three faults, each of a kind that one of refusals 1, 2, 26, 27 and 4 to 7
/// names.
pub fn lists(yard: &mut Yard, random: &mut Random) {
    for _ in 0..random.within(1, 3) {
        let n = yard.nodes();
        let any = |list: &[u8], random: &mut Random| random.below(list.len().max(1));
        match random.below(11) {
            // 1: all lists of another length.
            0 if random.once_in(2) => {
                let length = odd_length(random);
                for list in [&mut yard.parents, &mut yard.pebbles, &mut yard.targets] {
                    list.resize(length, 0);
                }
                yard.depths.resize(length, 1);
            }
            // 2: one list of another length.
            0 | 1 => {
                let length =
                    if random.once_in(3) { odd_length(random) } else { (n + random.pick(&[1, 2])).saturating_sub(random.below(4)) };
                let list = random.below(4);
                [&mut yard.parents, &mut yard.pebbles, &mut yard.targets, &mut yard.depths][list].resize(length, 1);
            }
            // 27: a count above its depth.
            2 | 3 => {
                let Yard { pebbles, targets, depths, .. } = yard;
                let list = if random.once_in(2) { pebbles } else { targets };
                let node = any(list, random);
                if let (Some(count), Some(&depth)) = (list.get_mut(node), depths.get(node)) {
                    *count = above(depth, random);
                }
            }
            // 4: a parent outside.
            4 => {
                let node = any(&yard.parents, random);
                if let Some(parent) = yard.parents.get_mut(node) {
                    *parent = random.within(n.min(255), 255) as u8;
                }
            }
            // 5: a second root, or the root hung from another node.
            5 => {
                let node = any(&yard.parents, random);
                if let Some(parent) = yard.parents.get_mut(node) {
                    *parent = node as u8;
                }
            }
            6 => {
                if let Some(root) = (0..n.min(MAX_NODES)).find(|&node| yard.is_root(node)) {
                    yard.parents[root] = random.below(n) as u8;
                }
            }
            // 6: a node hung from any other, perhaps from one below it.
            7 => {
                let node = any(&yard.parents, random);
                if let Some(parent) = yard.parents.get_mut(node) {
                    *parent = random.below(n) as u8;
                }
            }
            // 26: a depth that is none.
            8 => {
                let node = any(&yard.depths, random);
                if let Some(depth) = yard.depths.get_mut(node) {
                    *depth = if random.once_in(2) { 0 } else { above(MAX_DEPTH, random) };
                }
            }
            // 27 too: a depth below what stands there, or is to.
            9 => {
                let node = any(&yard.depths, random);
                if let Some(depth) = yard.depths.get_mut(node) {
                    *depth = random.within(1, usize::from((*depth).clamp(1, MAX_DEPTH))) as u8;
                }
            }
            // 7: one pebble or target more or less.
            _ => {
                let lists = [&yard.pebbles, &yard.targets, &yard.depths];
                let shortest = lists.map(Vec::len).into_iter().min().unwrap_or(0);
                if shortest > 0 {
                    recount(yard, random.below(shortest), random);
                }
            }
        }
    }
}

/// A small yard of lists that were never legal.
pub fn noise(random: &mut Random) -> Yard {
    let n = random.below(7);
    let top = random.pick(&[n.max(1), n.max(1), n.max(1) + 1, 256]);
    let (count_top, depth_top) = random.pick(&[(1, 1), (1, 1), (1, 2), (2, 1), (3, 3), (8, 8), (9, 8), (255, 8)]);
    let lowest_depth = random.pick(&[1, 1, 1, 1, 0, depth_top]);
    let deepest = random.pick(&[depth_top, depth_top, depth_top, depth_top, 9, 255]);
    let mut list = |low: usize, high: usize| -> Vec<u8> { (0..n).map(|_| random.within(low, high) as u8).collect() };
    Yard { parents: list(0, top - 1), pebbles: list(0, count_top), targets: list(0, count_top), depths: list(lowest_depth, deepest) }
}

/// A move of the yard along some edge if there is one, legal or not; else any two bytes.
pub fn any_move(yard: &Yard, random: &mut Random) -> [u8; 2] {
    if yard.nodes() == 0 || random.once_in(5) {
        return [random.byte(), random.byte()];
    }
    let node = random.below(yard.nodes());
    let (child, parent) = (node as u8, yard.parents[node]);
    if random.once_in(2) {
        [child, parent]
    } else {
        [parent, child]
    }
}

/// Where a node is asked for: that node, or a number that may be none.
pub fn number(node: u8, yard: &Yard, random: &mut Random) -> usize {
    match random.below(12) {
        0 => yard.nodes(),
        1 => random.below(yard.nodes() + 3),
        // A node once the high bytes are lost.
        2 => usize::from(node) + (1 << random.pick(&[8, 16, 31, 32, 33, 63])),
        3 => usize::MAX - random.below(3),
        _ => usize::from(node),
    }
}

/// Any entry of a demand list: at an end of what a demand can be, just beyond, far outside, or
/// within.
pub fn entry(random: &mut Random) -> i16 {
    let size = match random.below(6) {
        0 => MAX_DEMAND,
        1 => MAX_DEMAND + 1,
        2 => MAX_DEMAND - 1,
        3 => random.pick(&[i16::MAX, i16::MIN, 2 * MAX_DEMAND]),
        4 => random.draw() as i16,
        _ => random.below(256) as i16,
    };
    size.wrapping_mul(random.pick(&[1, -1]))
}

/// A list that may lie beside a tree when an event at one of its nodes is told: old, another
/// yard's, damaged, at times its own.
pub fn demands(yard: &Yard, event: Event, node: usize, random: &mut Random) -> Vec<i16> {
    let n = yard.nodes();
    let mut list = of_tree(yard);
    match random.below(8) {
        0 => {}
        // From before one event, two or several: each altered a count, some perhaps back.
        1 | 2 => {
            let mut before = yard.clone();
            for _ in 0..random.pick(&[1, 1, 2, 2, 3, 30]) {
                recount(&mut before, random.below(n), random);
            }
            list = of_tree(&before);
        }
        // From after the event, as if it had been told already.
        3 => list = of_tree(&event.at(yard, node)),
        // Of other counts on this tree, of another tree, of none.
        4 => match random.below(4) {
            0 => list = of_tree(&Yard { parents: yard.parents.clone(), ..shapes::any_yard(Shape::Random, n, random) }),
            1 => list = of_tree(&shapes::any_yard(random.pick(&Shape::ALL), n, random)),
            2 => list.fill(0),
            _ => list.fill(random.pick(&[-MAX_DEMAND, MAX_DEMAND])),
        },
        // Two entries change places: the sum stays.
        5 => list.swap(random.below(n), random.below(n)),
        // One or two altered, half of them on the way from the node to the root.
        _ => {
            let way = way(yard, node);
            for _ in 0..random.within(1, 2) {
                let at = if random.once_in(2) { random.pick(&way) } else { random.below(n) };
                list[at] = match random.below(4) {
                    0 => list[at].wrapping_add(random.pick(&[1, -1])),
                    // The same once the high byte is lost.
                    1 => list[at].wrapping_add(random.pick(&[256, -256, i16::MIN])),
                    _ => entry(random),
                };
            }
        }
    }
    list
}

/// Legal moves from a tree's pebbles, at most `most` of them, going nowhere.
pub fn wander(yard: &Yard, most: usize, random: &mut Random) -> Vec<u8> {
    let mut pebbles = yard.pebbles.clone();
    let mut plan = Vec::new();
    for _ in 0..most {
        let [from, to] = any_move(yard, random);
        let (at, next) = (usize::from(from), usize::from(to));
        let inside = at < yard.nodes() && next < yard.nodes();
        let adjacent = inside && at != next && (yard.parents[at] == to || yard.parents[next] == from);
        if adjacent && pebbles[at] > 0 && pebbles[next] < yard.depths[next] {
            pebbles[at] -= 1;
            pebbles[next] += 1;
            plan.extend([from, to]);
        }
    }
    plan
}

/// A plan altered in up to three places.
pub fn plan(plan: &mut Vec<u8>, yard: &Yard, random: &mut Random) {
    for _ in 0..random.within(1, 3) {
        let moves = plan.len() / 2;
        let place = random.below(moves.max(1));
        match random.below(9) {
            // Two moves change places.
            0 if moves > 1 => {
                let other = random.below(moves);
                plan.swap(2 * place, 2 * other);
                plan.swap(2 * place + 1, 2 * other + 1);
            }
            1 if moves > 0 => drop(plan.drain(2 * place..2 * place + 2)),
            2 => drop(plan.splice(2 * place..2 * place, any_move(yard, random))),
            // There and back again: legal, and spare, where the move is.
            3 => {
                let [from, to] = any_move(yard, random);
                plan.splice(2 * place..2 * place, [from, to, to, from]);
            }
            4 if moves > 0 => {
                let at = random.below(plan.len());
                plan[at] = random.byte();
            }
            // One byte off by one: often another node of the yard.
            5 if moves > 0 => {
                let at = random.below(plan.len());
                plan[at] ^= 1;
            }
            6 if moves > 0 => plan.swap(2 * place, 2 * place + 1),
            // Odd.
            7 if random.once_in(4) => plan.push(random.byte()),
            // Too long, or just not.
            8 if random.once_in(200) => {
                let length = MAX_PLAN_BYTES + random.below(5) - 2;
                let edge = any_move(yard, random);
                let tail = plan.len();
                plan.resize(length, 0);
                for (at, byte) in plan.iter_mut().enumerate().skip(tail) {
                    *byte = edge[(at - tail + (at - tail) / 2 % 2) % 2];
                }
            }
            _ => plan.truncate(random.below(plan.len() + 1)),
        }
    }
}

/// A sheet altered in up to three places, as an editor or a bad copy would.
pub fn sheet(sheet: &mut Vec<u8>, random: &mut Random) {
    for _ in 0..random.within(1, 3) {
        let at = random.below(sheet.len().max(1)).min(sheet.len());
        let lines: Vec<usize> = (0..sheet.len()).filter(|&at| sheet[at] == b'\n').collect();
        // The beginning of some word, where there is one.
        let word = (at..sheet.len()).find(|&at| sheet[at].is_ascii_digit() && (at == 0 || !sheet[at - 1].is_ascii_digit()));
        match random.below(13) {
            0 if at < sheet.len() => sheet[at] = random.byte(),
            1 if at < sheet.len() => sheet[at] = random.pick(b"0123456789 \n\r\t-+/:"),
            2 if at < sheet.len() => drop(sheet.remove(at)),
            3 => sheet.insert(at, random.byte()),
            4 => sheet.insert(at, random.pick(b"0123456789 \n\r")),
            5 => sheet.truncate(at),
            // Leading zeros, and values at the edge of a byte.
            6 => {
                if let Some(at) = word {
                    sheet.insert(at, b'0');
                }
            }
            7 | 8 => {
                if let Some(at) = word {
                    let end = (at..sheet.len()).find(|&at| !sheet[at].is_ascii_digit()).unwrap_or(sheet.len());
                    let value = random.pick(&[
                        "255",
                        "256",
                        "257",
                        "260",
                        "300",
                        "999",
                        "1000",
                        "4294967296",
                        "18446744073709551616",
                        "00",
                        "1",
                        "2",
                    ]);
                    sheet.splice(at..end, value.bytes());
                }
            }
            // Line ends of another kind.
            9 => {
                let crlf = sheet.iter().flat_map(|&byte| if byte == b'\n' { vec![b'\r', b'\n'] } else { vec![byte] }).collect();
                *sheet = crlf;
            }
            10 if !lines.is_empty() => {
                sheet.pop();
            }
            // A line twice, or left out.
            11 if lines.len() > 1 => {
                let line = random.below(lines.len() - 1);
                let text = sheet[lines[line] + 1..=lines[line + 1]].to_vec();
                sheet.splice(lines[line] + 1..lines[line] + 1, text);
            }
            _ if lines.len() > 1 => {
                let line = random.below(lines.len() - 1);
                sheet.drain(lines[line] + 1..=lines[line + 1]);
            }
            _ => sheet.push(b'\n'),
        }
    }
}

/// Small inputs of all kinds for a move program: bytes at random, beginnings of a sheet, spoilt
/// sheets.
pub fn move_input(random: &mut Random) -> Vec<u8> {
    let n = random.within(1, 12);
    let mut yard = unjudged(&shapes::any_yard(random.pick(&Shape::ALL), n, random));
    match random.below(4) {
        0 => (0..random.below(100)).map(|_| random.byte()).collect(),
        1 => {
            let header = yard.iter().position(|&byte| byte == b'\n').map_or(0, |end| end + 1);
            yard.truncate(header);
            yard.extend((0..random.below(60)).map(|_| random.pick(b"0123 \n")));
            yard
        }
        _ => {
            sheet(&mut yard, random);
            yard
        }
    }
}

/// The same for a check program: one of its two sheets, both or none may be good.
pub fn check_input(random: &mut Random) -> Vec<u8> {
    let n = random.within(1, 12);
    let yard = shapes::any_yard(random.pick(&Shape::ALL), n, random);
    let plan = planner::plan(&yard, usize::MAX).expect("as many pebbles as targets");
    let mut moves = move_sheet(&yard, &plan);
    match random.below(8) {
        0 => move_input(random),
        1 => [move_input(random), moves].concat(),
        2 => [unjudged(&yard), (0..random.below(100)).map(|_| random.byte()).collect()].concat(),
        3 => [unjudged(&yard), MOVES_HEAD.to_vec(), (0..random.below(60)).map(|_| random.pick(b"0123 \n")).collect()].concat(),
        4 => [unjudged(&yard), move_input(random)].concat(),
        5 => {
            sheet(&mut moves, random);
            [unjudged(&yard), moves].concat()
        }
        _ => {
            let mut both = both_sheets(&yard, &plan);
            sheet(&mut both, random);
            both
        }
    }
}
