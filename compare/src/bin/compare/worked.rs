//! The yards and examples that document 01 and the requests work by hand: the unrelated planner
//! against their words, and the library against the unrelated planner.

use crate::calls::{Caller, Same};
use std::fmt::Debug;
use unrelated::cabinet::{self, Registers, Stepped, BLOCK_BYTES};
use unrelated::checker::{check, push, trial, Checked, Tried, MAX_PLAN_BYTES};
use unrelated::distance::{nearest, reach, Nearest};
use unrelated::event::{happen, Event, Kept};
use unrelated::openings::openings;
use unrelated::parts::{plan_parts, Parted};
use unrelated::planner::{plan, plan_by, Choice, Turn};
use unrelated::random::Random;
use unrelated::shapes::{far, Shape};
use unrelated::sheet::{self, program, HEADER};
use unrelated::wear::{every_stretch, wear, Wear};
use unrelated::yard::{judge, refuse, Answer, Yard};
use unrelated::{demands, figures, follow, report};

const ANY: usize = usize::MAX;

/// The worked yards without depths get depth 1.
fn yard(parents: &[u8], pebbles: &[u8], targets: &[u8]) -> Yard {
    Yard::shallow(parents, pebbles, targets)
}

fn deep(parents: &[u8], pebbles: &[u8], targets: &[u8], depths: &[u8]) -> Yard {
    Yard { depths: depths.to_vec(), ..yard(parents, pebbles, targets) }
}

struct Worked<'a> {
    caller: &'a Caller,
    cases: u64,
}

impl Worked<'_> {
    fn is<T: PartialEq + Debug>(&mut self, name: &str, got: T, expected: T) -> Same {
        self.cases += 1;
        if got == expected {
            Ok(())
        } else {
            Err(format!("{name}: the papers say {expected:?}, the unrelated planner {got:?}"))
        }
    }

    fn plan(&mut self, name: &str, yard: &Yard, room: usize, expected: Answer<&[u8]>) -> Same {
        self.is(name, plan(yard, room), expected.map(<[u8]>::to_vec))?;
        self.caller.figures(yard)?;
        self.caller.plan(yard, room.min(MAX_PLAN_BYTES))
    }

    /// What the move program prints, line by line.
    fn printed(&mut self, name: &str, yard: &Yard, expected: &[&str]) -> Same {
        let printed = String::from_utf8(program(&sheet::unjudged(yard))).map_err(|error| error.to_string())?;
        self.is(name, printed, expected.iter().map(|line| format!("{line}\n")).collect())
    }

    fn check(&mut self, name: &str, yard: &Yard, moves: &[u8], expected: Answer<Checked>) -> Same {
        self.is(name, check(yard, moves), expected)?;
        self.caller.check(yard, moves)
    }

    fn trial(&mut self, name: &str, yard: &Yard, moves: &[u8], budget: u16, expected: Answer<(Tried, Vec<u8>)>) -> Same {
        self.is(name, trial(yard, moves, budget), expected)?;
        self.caller.trial(yard, moves, budget)
    }

    fn read(&mut self, name: &str, sheet: &[u8], lengths: [usize; 4], expected: Answer<Yard>) -> Same {
        self.is(name, sheet::read(sheet, lengths), expected)?;
        self.caller.read_sheet(sheet, lengths)
    }

    fn push(&mut self, name: &str, yard: &Yard, from: usize, to: usize, expected: Answer<Vec<u8>>) -> Same {
        self.is(name, push(yard, from, to), expected)?;
        self.caller.push(yard, from, to).map(drop)
    }

    fn event(&mut self, name: &str, kept: &Kept, event: Event, node: usize, expected: Answer<Kept>) -> Same {
        self.is(name, happen(kept, event, node), expected)?;
        self.caller.event(kept, event, node).map(drop)
    }

    /// The node and the distance that the nearest call gives.
    fn nearest(&mut self, name: &str, yard: &Yard, node: usize, expected: Answer<(u32, u32)>) -> Same {
        self.is(name, nearest(yard, node), expected.map(|(node, distance)| Nearest { node, distance }))?;
        self.caller.nearest(yard, node).map(drop)
    }

    /// The marks that the reach call gives for a list of so many.
    fn reach(&mut self, name: &str, yard: &Yard, length: usize, node: usize, within: u16, expected: Answer<&[u8]>) -> Same {
        self.is(name, reach(yard, length, node, within), expected.map(<[u8]>::to_vec))?;
        self.caller.reach(yard, length, node, within).map(drop)
    }

    /// The plans and the topmost nodes written into a plan list of so many bytes and a part list of
    /// this length.
    fn plan_parts(&mut self, name: &str, yard: &Yard, room: usize, length: usize, expected: Answer<(&[u8], &[u8])>) -> Same {
        let written = expected.map(|(plan, parts)| Parted { plan: plan.to_vec(), parts: parts.to_vec() });
        self.is(name, plan_parts(yard, room, length), written)?;
        self.caller.plan_parts(yard, room.min(MAX_PLAN_BYTES), length).map(drop)
    }

    /// The openings that are written into a list of so many bytes.
    fn openings(&mut self, name: &str, yard: &Yard, room: usize, expected: Answer<&[u8]>) -> Same {
        self.is(&format!("{name}, openings"), openings(yard, room), expected.map(<[u8]>::to_vec))?;
        self.caller.openings(yard, room.min(MAX_PLAN_BYTES)).map(drop)
    }

    /// The crossings, the first move and the edge that the wear call gives.
    fn wear(&mut self, name: &str, yard: &Yard, moves: &[u8], width: u32, expected: Answer<(u32, u32, u32)>) -> Same {
        let due = expected.map(|(crossings, first, edge)| Wear { crossings, first, edge });
        self.is(&format!("{name}, width {width}"), wear(yard, moves, width), due)?;
        self.caller.wear(every_stretch, yard, moves, width).map(drop)
    }

    /// What a step leaves: pebbles, block and line.
    fn step(
        &mut self,
        name: &str,
        yard: &Yard,
        plan: &[u8],
        block: &[u8],
        failed: u8,
        expected: Answer<(&[u8], [u8; BLOCK_BYTES], bool)>,
    ) -> Same {
        let got = cabinet::step(yard, plan, block, failed != 0);
        let left = expected.map(|(pebbles, block, _)| Stepped { pebbles: pebbles.to_vec(), registers: Registers::read(block) });
        self.is(name, got, left)?;
        if let Ok((_, block, line)) = expected {
            self.is(&format!("{name}, line"), Registers::read(block).line(), line)?;
        }
        self.caller.step(yard, plan, block, failed).map(drop)
    }
}

/// A list with each entry left out, and with each doubled.
fn altered<T: Clone>(list: &[T]) -> Vec<Vec<T>> {
    (0..list.len()).flat_map(|at| [[&list[..at], &list[at + 1..]], [&list[..=at], &list[at..]]]).map(|parts| parts.concat()).collect()
}

pub fn worked(caller: &Caller) -> Same<u64> {
    caller.version()?;
    let mut w = Worked { caller, cases: 0 };

    let a = yard(&[0, 0, 0, 1, 1], &[0, 1, 0, 1, 0], &[0, 0, 1, 0, 1]);
    let a_plan = [1, 0, 0, 2, 3, 1, 1, 4];
    w.is("A, demands", demands::of_tree(&a), vec![0, -1, 1, -1, 1])?;
    w.plan("A", &a, ANY, Ok(&a_plan))?;
    // Request 2.1 gives what follows the moves.
    let a_lines = ["from to", "1 0", "0 2", "3 1", "1 4", "track up down", "1 1 0", "2 0 1", "3 1 0", "4 0 1", "total", "4"];
    w.printed("A, printed", &a, &a_lines)?;
    // The judge of reports sees each line that is left out or doubled; the judge of followed
    // pebbles sees each such move.
    for lines in altered(&a_lines) {
        let sheet = lines.join("\n") + "\n";
        w.is(&format!("A, {sheet:?} is refused"), report::judge(&a, sheet.as_bytes()).is_err(), true)?;
    }
    for moves in altered(&Vec::from_iter(a_plan.chunks(2))) {
        w.is(&format!("A, {moves:?} are refused"), follow::judge(&a, &moves.concat()).is_err(), true)?;
    }
    // Request 2.4 gives the displaced of A and B.
    w.is("A, displaced", figures::displaced(&a), Ok(2))?;

    let b = yard(&[0, 0, 1], &[1, 1, 0], &[0, 1, 1]);
    let b_plan = [1, 2, 0, 1];
    w.plan("B", &b, ANY, Ok(&b_plan))?;
    w.is("B, displaced", figures::displaced(&b), Ok(2))?;
    w.is("B, a pebble is moved onto another", follow::judge(&b, &[0, 1, 1, 2]).is_err(), true)?;
    w.printed("B, printed", &b, &["from to", "1 2", "0 1", "track up down", "1 0 1", "2 0 1", "total", "2"])?;

    w.plan("C, pebble and target", &yard(&[0], &[1], &[1]), ANY, Ok(&[]))?;
    w.printed("C, printed", &yard(&[0], &[1], &[1]), &["from to", "track up down", "total", "0"])?;
    w.plan("C, neither", &yard(&[0], &[0], &[0]), ANY, Ok(&[]))?;

    let d = yard(&[0, 0], &[1, 0], &[1, 0]);
    w.plan("D", &d, ANY, Ok(&[]))?;
    w.printed("D, printed", &d, &["from to", "track up down", "1 0 0", "total", "0"])?;
    w.check("D, there and back", &d, &[0, 1, 1, 0], Ok(Checked { moves: 2, excess: 2 }))?;

    w.plan("E, 7 bytes", &a, 7, refuse(8, 4))?;
    w.plan("E, 8 bytes", &a, 8, Ok(&a_plan))?;

    w.trial("F, budget 0", &b, &b_plan, 0, Ok((Tried { taken: 0, budget_ended: true }, b.pebbles.clone())))?;
    w.trial("F, budget 2", &b, &b_plan, 2, Ok((Tried { taken: 2, budget_ended: false }, b.targets.clone())))?;

    w.check("G", &b, &[0, 1], refuse(13, 0))?;

    let i = far(Shape::Line, 256, 1, &mut Random::new(0));
    w.is("I, moves", plan(&i, 32_768).map(|plan| plan.len() / 2), Ok(16_384))?;
    w.plan("I, 32,767 bytes", &i, 32_767, refuse(8, 16_384))?;
    caller.plan(&i, 32_768)?;

    // Request 2.6 gives the first move by both choices of a child; the other moves follow from
    // Algorithms 1 to 4.
    let neediest = yard(&[0, 0, 0, 2, 0, 4, 5], &[0, 1, 1, 1, 0, 0, 0], &[0, 0, 0, 0, 1, 1, 1]);
    w.plan("the neediest branch first", &neediest, ANY, Ok(&[2, 0, 0, 4, 1, 0, 4, 5, 0, 4, 3, 2, 2, 0, 5, 6, 4, 5, 0, 4]))?;
    let earlier = plan_by(Choice::Lowest, Turn::HoldsAndWanted, &neediest, ANY);
    w.is("the lowest branch first", earlier, Ok(vec![1, 0, 0, 4, 2, 0, 4, 5, 0, 4, 3, 2, 2, 0, 5, 6, 4, 5, 0, 4]))?;

    events_on_a(&mut w, &a)?;
    longest_way(&mut w)?;
    distances_on_a(&mut w, &a)?;
    equally_near(&mut w)?;
    farthest(&mut w)?;
    run_on_a(&mut w, &a, &a_plan)?;
    registers_on_a(&mut w, &a, &a_plan)?;
    steps_on_two(&mut w)?;
    deep_nodes(&mut w)?;
    order_of_26_and_27(&mut w)?;
    longest_of_all(&mut w)?;
    parts_by_hand(&mut w, &a, &a_plan)?;
    wear_by_hand(&mut w, (&a, &a_plan), (&b, &b_plan))?;
    order_of_28(&mut w)?;
    openings_by_hand(&mut w, &a, &b)?;
    most_openings(&mut w)?;

    // The table of refusals, with H among them.
    let two = |pebbles: &[u8], targets: &[u8]| yard(&[0, 0], pebbles, targets);
    for (lists, number, place) in [
        (yard(&[], &[], &[]), 1, 0),
        (yard(&[0, 0], &[1], &[0, 0]), 2, 0),
        (deep(&[0, 0], &[2, 0], &[0, 0], &[1, 0]), 26, 1),
        (two(&[0, 2], &[0, 0]), 27, 1),
        (yard(&[0, 2], &[0, 0], &[0, 0]), 4, 1),
        (yard(&[0, 1], &[0, 0], &[0, 0]), 5, 1),
        (yard(&[0, 2, 1], &[0, 0, 0], &[0, 0, 0]), 6, 1),
    ] {
        w.is(&format!("refusal {number}"), judge(&lists), refuse(number, place))?;
        caller.figures(&lists)?;
    }
    w.plan("refusal 7", &two(&[1, 0], &[1, 1]), ANY, refuse(7, 0))?;
    w.printed("refusal 7, printed", &two(&[1, 0], &[1, 1]), &["refusal place", "7 0"])?;
    let away = two(&[1, 0], &[0, 1]);
    w.plan("refusal 8", &away, 1, refuse(8, 1))?;
    w.check("refusal 9", &away, &[0, 1, 1], refuse(9, 0))?;
    w.check("refusal 10", &away, &[0, 2], refuse(10, 0))?;
    w.check("refusal 11", &away, &[0, 0], refuse(11, 0))?;
    w.check("refusal 12", &two(&[0, 1], &[0, 1]), &[0, 1], refuse(12, 0))?;
    w.check("refusal 13", &two(&[1, 1], &[1, 1]), &[0, 1], refuse(13, 0))?;
    w.check("refusal 14", &away, &[], refuse(14, 1))?;
    w.push("push", &away, 0, 1, Ok(vec![0, 1]))?;
    w.push("push, refusal 10", &away, 0, 2, refuse(10, 0))?;

    let longest = deep(&[255; 256], &[255; 256], &[255; 256], &[255; 256]);
    w.is("the longest sheet", sheet::write(&longest, ANY).map(|sheet| sheet.len()), Ok(sheet::MAX_SHEET_BYTES))?;
    caller.write_sheet(&longest, sheet::MAX_SHEET_BYTES)?;
    w.is("the header", HEADER, "berth parent car target depth\n")?;
    w.read("refusal 1 of a sheet", HEADER.as_bytes(), [256; 4], refuse(1, 2))?;
    w.read("refusal 1 of a long sheet", &[&sheet::unjudged(&longest)[..], b"2"].concat(), [256; 4], refuse(1, 258))?;
    w.read("refusal 15", b"berth parent", [256; 4], refuse(15, 1))?;
    w.read("refusal 16", format!("{HEADER}0 00 1 1 1\n").as_bytes(), [256; 4], refuse(16, 2))?;
    w.read("refusal 17", format!("{HEADER}1 0 1 1 1\n").as_bytes(), [256; 4], refuse(17, 2))?;
    for short in 0..4 {
        let mut lengths = [256; 4];
        lengths[short] = 255;
        w.read("refusal 18", b"", lengths, refuse(18, 0))?;
    }
    Ok(w.cases)
}

/// Requests 2.5 and 2.8 on yard A, in which node 1 has the children 3 and 4.
fn events_on_a(w: &mut Worked, a: &Yard) -> Same {
    use Event::{PebbleArrives, PebbleLeaves, TargetCleared, TargetSet};
    let kept = |yard: &Yard, demands: &[i16]| Kept { yard: yard.clone(), demands: demands.to_vec() };
    let pebbles = |held: &[u8]| yard(&a.parents, held, &a.targets);
    let targets = |wanted: &[u8]| yard(&a.parents, &a.pebbles, wanted);
    let right = kept(a, &[0, -1, 1, -1, 1]);
    w.event("A, a pebble arrives at 4", &right, PebbleArrives, 4, Ok(kept(&pebbles(&[0, 1, 0, 1, 1]), &[-1, -2, 1, -1, 0])))?;
    w.event("A, a pebble arrives at the root", &right, PebbleArrives, 0, Ok(kept(&pebbles(&[1, 1, 0, 1, 0]), &[-1, -1, 1, -1, 1])))?;
    w.event("A, a pebble leaves 3", &right, PebbleLeaves, 3, Ok(kept(&pebbles(&[0, 1, 0, 0, 0]), &[1, 0, 1, 0, 1])))?;
    w.event("A, a target is set at 3", &right, TargetSet, 3, Ok(kept(&targets(&[0, 0, 1, 1, 1]), &[1, 0, 1, 0, 1])))?;
    w.event("A, a target is cleared at 2", &right, TargetCleared, 2, Ok(kept(&targets(&[0, 0, 0, 0, 1]), &[-1, -1, 0, -1, 1])))?;

    // No place, or none to take.
    for (event, node) in [(PebbleArrives, 1), (PebbleLeaves, 4), (TargetSet, 2), (TargetCleared, 0)] {
        w.event("A, refusal 20", &right, event, node, refuse(20, 0))?;
    }
    // Each refusal before the next: a circle, a list too long, a node outside, no place, an entry
    // that is not the yard's.
    let circle = yard(&[0, 0, 0, 4, 3], &a.pebbles, &a.targets);
    w.event("A, 6 before 2", &kept(&circle, &[0, -1, 1, -1, 1, 999]), PebbleArrives, 5, refuse(6, 3))?;
    w.event("A, 2 before 19", &kept(a, &[0, -1, 1, -1, 1, 999]), PebbleArrives, 5, refuse(2, 0))?;
    // As many entries as nodes once the high bytes are lost.
    w.event("A, 2 of a long list", &kept(a, &[0; 65_541]), PebbleArrives, 4, refuse(2, 0))?;
    w.event("A, 19 before 23", &kept(a, &[0, -1, 1, -1, 999]), PebbleArrives, 5, refuse(19, 0))?;
    w.event("A, 20 before 23", &kept(a, &[0, -1, 1, -1, 999]), PebbleArrives, 3, refuse(20, 0))?;
    // A pebble arriving at 4 lowers entries 4, 1 and 0. But each entry has to be the yard's, and
    // the lowest that is not is told.
    for (list, place) in [
        ([0, -1, 1, -1, 2], 4),
        ([0, -1, 1, 0, 1], 3),
        ([0, -1, 0, -1, 1], 2),
        ([0, 0, 1, -1, 1], 1),
        ([-1, -1, 1, -1, 1], 0),
        ([0, -1, 1, 1, -1], 3),
        ([0, -1, 257, -1, -256], 2),
        ([0, -1, 1, i16::MIN, i16::MAX], 3),
        ([0; 5], 1),
        // That of the yard after the event.
        ([-1, -2, 1, -1, 0], 0),
    ] {
        w.event("A, refusal 23", &kept(a, &list), PebbleArrives, 4, refuse(23, place))?;
    }
    // After that event A's own list is old: each further event is refused, also the event that
    // would undo it.
    let held = pebbles(&[0, 1, 0, 1, 1]);
    for (event, node) in [(PebbleLeaves, 4), (TargetSet, 0), (TargetCleared, 2)] {
        w.event("A, an old list", &kept(&held, &[0, -1, 1, -1, 1]), event, node, refuse(23, 0))?;
    }
    w.event("A, a list worked out anew", &kept(&held, &[-1, -2, 1, -1, 0]), PebbleLeaves, 4, Ok(right))
}

/// An empty line of 256 nodes, its root the first or the last of them: an event at the far end
/// alters every entry.
fn longest_way(w: &mut Worked) -> Same {
    let first = Vec::from_iter((0..=255u8).map(|node| node.saturating_sub(1)));
    let last = Vec::from_iter((0..=255u8).map(|node| node.saturating_add(1)));
    for (parents, end) in [(first, 255), (last, 0)] {
        let kept = Kept { yard: yard(&parents, &[0; 256], &[0; 256]), demands: vec![0; 256] };
        let mut after = Kept { demands: vec![1; 256], ..kept.clone() };
        after.yard.targets[end] = 1;
        w.event("the longest way", &kept, Event::TargetSet, end, Ok(after.clone()))?;
        w.event("the longest way back", &after, Event::TargetCleared, end, Ok(kept.clone()))?;
        for place in [0, 127, 128, 255] {
            let mut stale = kept.clone();
            stale.demands[place..].fill(1);
            w.event("the longest way with an old list", &stale, Event::TargetSet, end, refuse(23, place))?;
        }
    }
    Ok(())
}

/// Request 2.7 on yard A: from node 4 its parent 1 is one edge away, its sibling 3 two.
fn distances_on_a(w: &mut Worked, a: &Yard) -> Same {
    for (node, expected) in [(0, (1, 1)), (1, (1, 0)), (2, (1, 2)), (3, (3, 0)), (4, (1, 1))] {
        w.nearest(&format!("A, the nearest of {node}"), a, node, Ok(expected))?;
    }
    for (node, within, expected) in [
        (4, 0, [0, 0, 0, 0, 0]),
        (4, 1, [0, 1, 0, 0, 0]),
        (4, 2, [0, 1, 0, 1, 0]),
        (3, 0, [0, 0, 0, 1, 0]),
        (2, 1, [0, 0, 0, 0, 0]),
        (2, 2, [0, 1, 0, 0, 0]),
        (2, 3, [0, 1, 0, 1, 0]),
        // 0 once the high byte is lost.
        (2, 256, [0, 1, 0, 1, 0]),
        (2, 65_535, [0, 1, 0, 1, 0]),
    ] {
        w.reach(&format!("A, within {within} of {node}"), a, 5, node, within, Ok(&expected))?;
    }

    // Each refusal before the next: a circle, a list of another length, a node outside, no pebble.
    let empty = yard(&a.parents, &[0; 5], &a.targets);
    let circle = yard(&[0, 0, 0, 4, 3], &[0; 5], &a.targets);
    w.nearest("A, 6 before 19", &circle, 5, refuse(6, 3))?;
    w.nearest("A, 6 before 22", &circle, 4, refuse(6, 3))?;
    w.nearest("A, 19", a, 5, refuse(19, 0))?;
    w.nearest("A, 19 before 22", &empty, 5, refuse(19, 0))?;
    w.nearest("A, 22", &empty, 4, refuse(22, 0))?;
    w.reach("A, 6 before 2", &circle, 4, 5, 9, refuse(6, 3))?;
    w.reach("A, 2 before 19", a, 4, 5, 9, refuse(2, 0))?;
    w.reach("A, 2 of a list too long", a, 6, 4, 9, refuse(2, 0))?;
    // As many entries as nodes once the high bytes are lost.
    w.reach("A, 2 of a long list", a, 65_541, 4, 9, refuse(2, 0))?;
    w.reach("A, 19 of a list", a, 5, 5, 9, refuse(19, 0))?;
    // Nodes once the high bytes are lost.
    for node in [256 + 4, 65_536 + 4, usize::MAX - 255 + 4] {
        w.nearest("A, 19 of a large number", a, node, refuse(19, 0))?;
        w.reach("A, 19 of a large number", a, 5, node, 9, refuse(19, 0))?;
    }
    // No pebble is no fault there.
    w.reach("A, nothing within reach", &empty, 5, 4, 65_535, Ok(&[0; 5]))
}

/// The lowest-numbered of equally near pebbles: two children, then the parent and a child, each the
/// lower one in its turn.
fn equally_near(w: &mut Worked) -> Same {
    w.nearest("of two children the lower", &yard(&[3, 3, 3, 3], &[0, 1, 1, 0], &[0; 4]), 3, Ok((1, 1)))?;
    w.nearest("of parent and child the parent", &yard(&[0, 0, 1], &[1, 0, 1], &[0; 3]), 1, Ok((0, 1)))?;
    w.nearest("of parent and child the child", &yard(&[1, 2, 2], &[1, 0, 1], &[0; 3]), 1, Ok((0, 1)))?;
    // Over the root, and below: nodes 4 and 1 are both two edges from 2.
    w.nearest("far above and far below", &yard(&[2, 0, 3, 3, 3], &[0, 1, 0, 0, 1], &[0; 5]), 2, Ok((1, 2)))?;
    w.nearest("a lower one that is farther", &yard(&[0, 0, 1], &[1, 0, 1], &[0; 3]), 2, Ok((2, 0)))
}

/// A line of 256 nodes, its root the first or the last of them, from end to end; then all of them
/// held, more than a byte counts.
fn farthest(w: &mut Worked) -> Same {
    let first = Vec::from_iter((0..=255u8).map(|node| node.saturating_sub(1)));
    let last = Vec::from_iter((0..=255u8).map(|node| node.saturating_add(1)));
    for parents in [first, last] {
        for (from, to) in [(0, 255), (255, 0)] {
            let mut held = [0; 256];
            held[to] = 1;
            let line = yard(&parents, &held, &[0; 256]);
            w.nearest("from end to end", &line, from, Ok((to as u32, 255)))?;
            w.reach("from end to end, not quite", &line, 256, from, 254, Ok(&[0; 256]))?;
            w.reach("from end to end", &line, 256, from, 255, Ok(&held))?;
            w.nearest("256 is no node", &line, 256, refuse(19, 0))?;
        }
        let full = yard(&parents, &[1; 256], &[0; 256]);
        w.reach("all of 256", &full, 256, 255, 255, Ok(&[1; 256]))?;
        w.reach("all of 256 but one", &full, 256, 255, 254, Ok(&Vec::from_iter((0..256).map(|node| u8::from(node > 0)))))?;
    }
    Ok(())
}

/// Request 2.9 on yard A and its plan, from start to finish: each step gets what the previous step
/// left, but for the command. The third push fails.
fn run_on_a(w: &mut Worked, a: &Yard, plan: &[u8]) -> Same {
    let mut pebbles = a.pebbles.clone();
    let mut block = [0, 0, 9, 8, 0, 0, 0, 3, 0];
    for (name, command, failed, pebbles_after, after, line) in [
        ("idle", 0, 1, [0, 1, 0, 1, 0], [0, 0, 9, 8, 0, 0, 0, 3, 0], false),
        ("start", 1, 1, [0, 1, 0, 1, 0], [0, 1, 9, 8, 4, 0, 0, 3, 0], false),
        ("first move", 0, 0, [1, 0, 0, 1, 0], [0, 1, 1, 0, 3, 0, 0, 3, 0], false),
        ("second move", 0, 0, [0, 0, 1, 1, 0], [0, 1, 0, 2, 2, 0, 0, 3, 0], false),
        ("failed", 0, 255, [0, 0, 1, 1, 0], [0, 2, 0, 2, 2, 0, 0, 3, 2], true),
        ("stalled", 0, 0, [0, 0, 1, 1, 0], [0, 2, 0, 2, 2, 0, 0, 3, 2], true),
        ("acknowledged", 3, 1, [0, 0, 1, 1, 0], [0, 1, 0, 2, 2, 0, 0, 3, 0], false),
        ("third move", 0, 0, [0, 1, 1, 0, 0], [0, 1, 3, 1, 1, 0, 0, 3, 0], false),
        ("last move", 0, 0, [0, 0, 1, 0, 1], [0, 0, 1, 4, 0, 0, 0, 3, 1], true),
        ("finished", 0, 1, [0, 0, 1, 0, 1], [0, 0, 1, 4, 0, 0, 0, 3, 1], true),
        ("acknowledged when idle", 3, 0, [0, 0, 1, 0, 1], [0, 0, 1, 4, 0, 0, 0, 3, 0], false),
    ] {
        block[0] = command;
        w.step(&format!("A, {name}"), &yard(&a.parents, &pebbles, &a.targets), plan, &block, failed, Ok((&pebbles_after, after, line)))?;
        (pebbles, block) = (pebbles_after.to_vec(), after);
    }
    Ok(())
}

/// Request 2.9 on yard A and its plan: single steps, most without a push, and wrong blocks.
fn registers_on_a(w: &mut Worked, a: &Yard, plan: &[u8]) -> Same {
    for (name, block, after, line) in [
        ("stop when running", [2, 1, 9, 8, 3, 0, 0, 255, 0], [0, 0, 9, 8, 0, 0, 0, 255, 0], false),
        ("stop when stalled keeps the flag", [2, 2, 9, 8, 3, 0, 0, 2, 2], [0, 0, 9, 8, 0, 0, 0, 2, 2], true),
        ("stop when idle", [2, 0, 9, 8, 3, 0, 0, 0, 3], [0, 0, 9, 8, 0, 0, 0, 0, 3], false),
        ("acknowledge when running", [3, 1, 9, 8, 3, 0, 0, 3, 3], [0, 1, 9, 8, 3, 0, 0, 3, 0], false),
        ("start keeps the flags, not the moves left", [1, 0, 9, 8, 3, 0, 0, 1, 3], [0, 1, 9, 8, 4, 0, 0, 1, 3], true),
        ("idle with moves left", [0, 0, 9, 8, 3, 0, 0, 254, 1], [0, 0, 9, 8, 3, 0, 0, 254, 1], false),
        ("the mask has other bits than the flags", [0, 0, 9, 8, 0, 0, 0, 253, 2], [0, 0, 9, 8, 0, 0, 0, 253, 2], false),
    ] {
        // Told with a command or while not running, a failure is ignored.
        for failed in [0, 1] {
            w.step(&format!("A, {name}"), a, plan, &block, failed, Ok((&a.pebbles, after, line)))?;
        }
    }
    // The next move is counted from the end of the plan that is handed in: here the third.
    let moved = [0, 1, 0, 0, 1];
    w.step("A, a plan swapped", a, &[1, 0, 1, 0, 3, 1, 1, 4], &[0, 1, 9, 8, 2, 0, 0, 0, 0], 0, refuse(13, 2))?;
    w.step(
        "A, another swapped",
        a,
        &[9, 9, 3, 4, 1, 4],
        &[0, 1, 9, 8, 1, 0, 0, 0, 0],
        0,
        Ok((&[0, 0, 0, 1, 1], [0, 0, 1, 4, 0, 0, 0, 0, 1], false)),
    )?;
    w.step("A, its end missed", &yard(&a.parents, &moved, &a.targets), plan, &[0, 1, 9, 8, 1, 0, 0, 0, 0], 0, refuse(13, 3))?;

    // Each refusal before the next: a circle, a block of another length, the registers in their
    // order, a start while not idle, the checker.
    let circle = yard(&[0, 0, 0, 4, 3], &a.pebbles, &a.targets);
    w.step("A, 6 before 2", &circle, plan, &[9; 8], 0, refuse(6, 3))?;
    // As many bytes as registers once the high bytes are lost.
    for length in [0, 8, 10, 18, 256 + 9, 65_536 + 9] {
        w.step("A, 2 before 24", a, plan, &vec![9; length], 0, refuse(2, 0))?;
    }
    for (block, place) in [
        ([4, 3, 9, 8, 5, 0, 0, 0, 4], 0),
        ([255, 0, 9, 8, 0, 0, 0, 0, 0], 0),
        ([3, 3, 9, 8, 5, 0, 0, 0, 4], 1),
        ([3, 255, 9, 8, 0, 0, 0, 0, 4], 1),
        ([3, 2, 9, 8, 5, 0, 0, 0, 4], 4),
        ([0, 1, 9, 8, 0, 0, 0, 0, 4], 4),
        ([0, 2, 9, 8, 0, 0, 0, 0, 0], 4),
        // Too many by a higher byte alone.
        ([0, 0, 9, 8, 0, 1, 0, 0, 0], 4),
        ([0, 1, 9, 8, 4, 1, 0, 0, 0], 4),
        ([0, 0, 9, 8, 0, 0, 1, 0, 0], 4),
        ([0, 1, 9, 8, 4, 0, 1, 0, 0], 4),
        // Also before a stop, which would put it right, and before 25.
        ([2, 1, 9, 8, 5, 0, 0, 0, 0], 4),
        ([1, 0, 9, 8, 5, 0, 0, 0, 0], 4),
        ([1, 1, 9, 8, 5, 0, 0, 0, 0], 4),
        ([1, 1, 9, 8, 4, 0, 0, 0, 4], 8),
        ([3, 2, 9, 8, 4, 0, 0, 0, 255], 8),
    ] {
        w.step("A, refusal 24", a, plan, &block, 0, refuse(24, place))?;
    }
    for status in [1, 2] {
        w.step("A, 25 before 9", a, &[plan, &[0]].concat(), &[1, status, 9, 8, 4, 0, 0, 0, 3], 0, refuse(25, 0))?;
    }
    Ok(())
}

/// Request 2.9 on two nodes: what the checker refuses, and what a running step does.
fn steps_on_two(w: &mut Worked) -> Same {
    let two = |pebbles: &[u8], targets: &[u8]| yard(&[0, 0], pebbles, targets);
    let start = |mask: u8| [1, 0, 9, 8, 0, 0, 0, mask, 2];
    let running = |left: u8| [0, 1, 9, 8, left, 0, 0, 0, 0];
    let (there, home) = (two(&[1, 0], &[0, 1]), two(&[1, 0], &[1, 0]));
    w.step("an empty plan finishes", &home, &[], &start(1), 0, Ok((&[1, 0], [0, 0, 9, 8, 0, 0, 0, 1, 3], true)))?;
    w.step("an empty plan finishes unseen", &home, &[], &start(4), 0, Ok((&[1, 0], [0, 0, 9, 8, 0, 0, 0, 4, 3], false)))?;
    w.step("start, 7 before 9", &two(&[1, 0], &[1, 1]), &[0, 1, 1], &start(0), 0, refuse(7, 0))?;
    w.step("start, 9 before 10", &there, &[2, 0, 1], &start(0), 0, refuse(9, 0))?;
    w.step("start, 10", &there, &[0, 1, 1, 2], &start(0), 0, refuse(10, 1))?;
    w.step("start, 11", &there, &[0, 1, 1, 1], &start(0), 0, refuse(11, 1))?;
    w.step("start, 12", &there, &[0, 1, 0, 1], &start(0), 0, refuse(12, 1))?;
    w.step("start, 13", &two(&[1, 1], &[1, 1]), &[0, 1], &start(0), 0, refuse(13, 0))?;
    w.step("start, 14", &there, &[0, 1, 1, 0], &start(0), 0, refuse(14, 1))?;

    // Setting one flag keeps the other flag.
    w.step("stalled, had finished", &there, &[0, 1], &[0, 1, 9, 8, 1, 0, 0, 2, 1], 1, Ok((&[1, 0], [0, 2, 9, 8, 1, 0, 0, 2, 3], true)))?;
    w.step("finished, had stalled", &there, &[0, 1], &[0, 1, 9, 8, 1, 0, 0, 0, 2], 0, Ok((&[0, 1], [0, 0, 0, 1, 0, 0, 0, 0, 3], false)))?;

    // A running step looks at its own move alone, not at the moves before and after it, nor at the
    // targets.
    w.step(
        "running, others not",
        &two(&[1, 0], &[1, 1]),
        &[9, 9, 0, 1, 9, 9],
        &running(2),
        0,
        Ok((&[0, 1], [0, 1, 0, 1, 1, 0, 0, 0, 0], false)),
    )?;
    for failed in [0, 1] {
        w.step("running, 9 before 10", &there, &[0, 1, 2, 0, 1], &running(1), failed, refuse(9, 0))?;
        w.step("running, 10", &there, &[0, 1, 1, 2], &running(1), failed, refuse(10, 1))?;
        w.step("running, 11", &there, &[0, 1, 1, 1], &running(1), failed, refuse(11, 1))?;
        w.step("running, 12", &there, &[0, 1, 1, 0], &running(1), failed, refuse(12, 1))?;
        w.step("running, 13", &two(&[1, 1], &[1, 1]), &[0, 1, 0, 1], &running(1), failed, refuse(13, 1))?;
    }
    // The other steps see only the whole moves of an odd plan. It may be too long.
    let long = vec![0; 262_146];
    for plan in [&[0, 1, 1][..], &long] {
        let left = if plan.len() == 3 { 1 } else { 5 };
        w.step("idle, no 9", &there, plan, &[0, 0, 9, 8, left, 0, 0, 0, 0], 1, Ok((&[1, 0], [0, 0, 9, 8, left, 0, 0, 0, 0], false)))?;
        w.step("stalled, no 9", &there, plan, &[0, 2, 9, 8, left, 0, 0, 0, 0], 1, Ok((&[1, 0], [0, 2, 9, 8, left, 0, 0, 0, 0], false)))?;
        w.step("stop, no 9", &there, plan, &[2, 1, 9, 8, left, 0, 0, 0, 0], 1, Ok((&[1, 0], [0, 0, 9, 8, 0, 0, 0, 0, 0], false)))?;
        w.step(
            "acknowledge, no 9",
            &there,
            plan,
            &[3, 2, 9, 8, left, 0, 0, 0, 2],
            1,
            Ok((&[1, 0], [0, 1, 9, 8, left, 0, 0, 0, 0], false)),
        )?;
        w.step("running, 9", &there, plan, &running(left), 0, refuse(9, 0))?;
    }
    w.step("24 by whole moves", &there, &[0, 1, 1], &[0, 0, 9, 8, 2, 0, 0, 0, 0], 0, refuse(24, 4))
}

/// Request 2.10, each of its rules on the smallest yard that shows it.
fn deep_nodes(w: &mut Worked) -> Same {
    let plans: [(&str, Yard, &[u8], u32); 6] = [
        // A name, the yard, its plan, the displaced.
        ("two of three go down", deep(&[0, 0], &[3, 0], &[1, 2], &[3, 2]), &[0, 1, 0, 1], 2),
        // The root holds a pebble that is to stay.
        ("draws while it holds one", deep(&[0, 0, 0], &[1, 1, 0], &[2, 0, 0], &[2, 1, 1]), &[1, 0], 1),
        // Yard B, its node 1 with a place: the pebble that came last goes on.
        ("not cleared with a place", deep(&[0, 0, 1], &[1, 1, 0], &[0, 1, 1], &[1, 2, 1]), &[0, 1, 1, 2], 1),
        ("cleared when full", deep(&[0, 0, 1], &[1, 2, 0], &[0, 2, 1], &[1, 2, 1]), &[1, 2, 0, 1], 2),
        ("not drawn to while it holds one", deep(&[0, 0, 1], &[0, 2, 1], &[1, 2, 0], &[1, 2, 1]), &[1, 0, 2, 1], 2),
        ("drawn to when it holds none", deep(&[0, 0, 1], &[0, 0, 1], &[1, 0, 0], &[1, 2, 1]), &[2, 1, 1, 0], 1),
    ];
    for (name, yard, moves, displaced) in plans {
        w.plan(name, &yard, ANY, Ok(moves))?;
        w.is(name, figures::displaced(&yard), Ok(displaced))?;
        w.check(name, &yard, moves, Ok(Checked { moves: moves.len() as u32 / 2, excess: 0 }))?;
        w.is(name, follow::judge(&yard, moves), Ok(()))?;
    }
    let two = |pebbles: &[u8], targets: &[u8]| deep(&[0, 0], pebbles, targets, &[3, 2]);
    w.is("of counts, demands", demands::of_tree(&two(&[3, 0], &[0, 2])), vec![-1, 2])?;
    w.printed("of counts, printed", &two(&[3, 0], &[1, 2]), &["from to", "0 1", "0 1", "track up down", "1 0 2", "total", "2"])?;
    w.plan("of counts, 7", &two(&[3, 0], &[0, 2]), ANY, refuse(7, 0))?;
    // A pebble that goes there and back crosses an edge twice, whoever goes.
    w.is("there and back", follow::judge(&two(&[2, 0], &[2, 0]), &[0, 1, 1, 0]).is_err(), true)?;

    w.push("push to one with a place", &two(&[2, 1], &[0, 0]), 0, 1, Ok(vec![1, 2]))?;
    w.push("push, 12", &two(&[2, 0], &[0, 0]), 1, 0, refuse(12, 0))?;
    w.push("push, 13", &two(&[2, 2], &[0, 0]), 0, 1, refuse(13, 0))?;
    w.check("13 at the third move", &two(&[3, 0], &[1, 2]), &[0, 1, 0, 1, 0, 1], refuse(13, 2))?;
    w.check("14 by the count", &two(&[3, 0], &[1, 2]), &[0, 1], refuse(14, 1))?;
    w.trial("budget 1", &two(&[3, 0], &[1, 2]), &[0, 1, 0, 1], 1, Ok((Tried { taken: 1, budget_ended: true }, vec![2, 1])))?;

    let kept = |pebbles: &[u8], targets: &[u8], demands: &[i16]| Kept { yard: two(pebbles, targets), demands: demands.to_vec() };
    let right = kept(&[2, 2], &[0, 1], &[-3, -1]);
    w.event("one more", &right, Event::PebbleArrives, 0, Ok(kept(&[3, 2], &[0, 1], &[-4, -1])))?;
    w.event("no place", &right, Event::PebbleArrives, 1, refuse(20, 0))?;
    w.event("one less", &right, Event::PebbleLeaves, 1, Ok(kept(&[2, 1], &[0, 1], &[-2, 0])))?;
    w.event("a second target", &right, Event::TargetSet, 1, Ok(kept(&[2, 2], &[0, 2], &[-2, 0])))?;
    w.event("no target to take", &right, Event::TargetCleared, 0, refuse(20, 0))?;

    w.nearest("of several pebbles", &two(&[3, 2], &[0, 0]), 1, Ok((1, 0)))?;
    w.reach("nodes are counted, not pebbles", &two(&[3, 2], &[0, 0]), 2, 1, 1, Ok(&[1, 1]))?;

    let plan = [0, 1, 0, 1];
    w.step("start", &two(&[3, 0], &[1, 2]), &plan, &[1, 0, 9, 8, 0, 0, 0, 0, 0], 0, Ok((&[3, 0], [0, 1, 9, 8, 2, 0, 0, 0, 0], false)))?;
    w.step("a step", &two(&[3, 0], &[1, 2]), &plan, &[0, 1, 9, 8, 2, 0, 0, 0, 0], 0, Ok((&[2, 1], [0, 1, 0, 1, 1, 0, 0, 0, 0], false)))?;
    w.step(
        "the last step",
        &two(&[2, 1], &[1, 2]),
        &plan,
        &[0, 1, 9, 8, 1, 0, 0, 1, 0],
        0,
        Ok((&[1, 2], [0, 0, 0, 1, 0, 0, 0, 1, 1], true)),
    )?;
    w.step("a step, 13", &two(&[2, 2], &[1, 2]), &plan, &[0, 1, 9, 8, 1, 0, 0, 1, 0], 0, refuse(13, 1))
}

/// A depth outside 1 to 8 is 26. It comes, over all nodes, before 27, a count above its depth: all
/// pebbles, then the targets. Both come between 2 and 4.
fn order_of_26_and_27(w: &mut Worked) -> Same {
    let three = |pebbles: &[u8], targets: &[u8], depths: &[u8]| deep(&[0, 0, 0], pebbles, targets, depths);
    for (name, yard, number, place) in [
        ("no depth", three(&[0; 3], &[0; 3], &[1, 0, 0]), 26, 1),
        ("too deep", three(&[0; 3], &[0; 3], &[8, 8, 9]), 26, 2),
        ("26 before 27", three(&[9, 0, 0], &[0; 3], &[1, 1, 255]), 26, 2),
        ("2 before 26", three(&[0; 3], &[0; 3], &[0, 1]), 2, 0),
        ("2 of depths", three(&[0; 3], &[0; 3], &[1; 4]), 2, 0),
        ("2 of no depths", three(&[0; 3], &[0; 3], &[]), 2, 0),
        ("1 before 2", deep(&[], &[0], &[0], &[1]), 1, 0),
        ("pebbles before targets", three(&[0, 0, 2], &[2, 0, 0], &[1; 3]), 27, 2),
        ("each by its own depth", three(&[8, 7, 2], &[8, 7, 1], &[8, 7, 1]), 27, 2),
        ("targets too", three(&[0; 3], &[3, 4, 4], &[3, 3, 3]), 27, 1),
        ("26 before 4", deep(&[0, 9], &[0; 2], &[0; 2], &[1, 9]), 26, 1),
        ("27 before 4", deep(&[0, 9], &[0; 2], &[0, 2], &[1, 1]), 27, 1),
    ] {
        w.is(name, judge(&yard), refuse(number, place))?;
        w.caller.figures(&yard)?;
        if yard.depths.len() == yard.nodes() && yard.nodes() > 0 {
            w.printed(name, &yard, &["refusal place", &format!("{number} {place}")])?;
        }
    }
    // As full as can be.
    let full = three(&[8, 1, 3], &[8, 1, 3], &[8, 1, 3]);
    w.plan("as full as can be", &full, ANY, Ok(&[]))
}

/// The longest plans of all, of 131,072 moves, and the longest that the move program has room for.
fn longest_of_all(w: &mut Worked) -> Same {
    let line = |n: usize| far(Shape::Line, n, 8, &mut Random::new(0));
    let longest = line(256);
    let moves = plan(&longest, MAX_PLAN_BYTES).unwrap_or_default();
    w.is("the longest plan", moves.len(), 262_144)?;
    w.is("the figure for 256", figures::longest_plan(256), Ok(131_072))?;
    w.check("the longest plan", &longest, &moves, Ok(Checked { moves: 131_072, excess: 0 }))?;
    w.plan("a byte too few", &longest, 262_143, refuse(8, 131_072))?;
    // The edge amid the line is crossed by all pebbles.
    w.wear("the longest plan", &longest, &moves, 131_072, Ok((1_024, 0, 128)))?;
    w.wear("the longest plan", &longest, &moves, 131_073, refuse(28, 0))?;
    // Only the pebbles amid the line can begin.
    w.openings("the longest plan", &longest, 2, Ok(&[127, 128]))?;
    w.openings("the longest plan", &longest, 1, refuse(8, 1))?;
    w.printed("too long for the program", &longest, &["refusal place", "8 131072"])?;
    w.printed("a little too long for it", &line(129), &["refusal place", "8 33280"])?;
    let printed = program(&sheet::unjudged(&line(128)));
    w.is("just not too long for it", report::judge(&line(128), &printed), Ok(()))?;
    w.is("its total", printed.ends_with(b"\ntotal\n32768\n"), true)
}

/// Request 2.11, each of its rules on a small yard.
fn parts_by_hand(w: &mut Worked, a: &Yard, a_plan: &[u8]) -> Same {
    w.plan_parts("A is one part", a, ANY, 5, Ok((a_plan, &[0; 5])))?;
    w.plan_parts("D, two parts with no move", &yard(&[0, 0], &[1, 0], &[1, 0]), 0, 2, Ok((&[], &[0, 1])))?;
    // One move in each of three parts: the sheet begins with the root's, node 0 is in the last.
    let three = yard(&[4, 3, 1, 3, 3, 3], &[1, 1, 0, 1, 0, 0], &[0, 0, 1, 0, 1, 1]);
    let (plan, parts) = (&[1, 2, 3, 5, 0, 4], &[4, 1, 1, 3, 4, 3]);
    w.is("three parts, demands", demands::of_tree(&three), vec![-1, 0, 1, 0, 0, 1])?;
    w.plan("three parts, the sheet", &three, ANY, Ok(&[3, 5, 1, 2, 0, 4]))?;
    w.plan_parts("three parts", &three, ANY, 6, Ok((plan, parts)))?;
    w.check("three parts mingled", &three, &[0, 4, 1, 2, 3, 5], Ok(Checked { moves: 3, excess: 0 }))?;
    // The part of 2 hangs amid the root's, and in the sheet its move stands amid the root's too.
    let amid = yard(&[0, 0, 1, 1, 3, 3, 2], &[0, 0, 1, 1, 1, 0, 0], &[1, 0, 0, 0, 0, 1, 1]);
    w.plan("a part amid another, the sheet", &amid, ANY, Ok(&[3, 1, 1, 0, 2, 6, 4, 3, 3, 5]))?;
    w.plan_parts("a part amid another", &amid, ANY, 7, Ok((&[3, 1, 1, 0, 4, 3, 3, 5, 2, 6], &[0, 0, 2, 0, 0, 0, 2])))?;
    // Of two pebbles on a part's topmost node one goes down.
    w.plan_parts("a deep part", &deep(&[0, 0, 1], &[1, 2, 0], &[1, 1, 1], &[1, 2, 1]), ANY, 3, Ok((&[1, 2], &[0, 1, 1])))?;

    // Each refusal before the next: a circle, unequal totals, a part list of another length, a plan
    // list without room for all parts.
    w.plan_parts("parts, 6 before 7", &yard(&[0, 0, 0, 4, 3], &[0; 5], &a.targets), 0, 4, refuse(6, 3))?;
    w.plan_parts("parts, 7 before 2", &yard(&a.parents, &[0; 5], &a.targets), 0, 4, refuse(7, 0))?;
    // As many entries as nodes once the high bytes are lost, too.
    for length in [0, 5, 7, 12, 256 + 6, 65_536 + 6] {
        w.plan_parts("parts, 2", &three, 6, length, refuse(2, 0))?;
        w.plan_parts("parts, 2 before 8", &three, 5, length, refuse(2, 0))?;
    }
    for room in 0..6 {
        w.plan_parts("parts, 8 with the whole length", &three, room, 6, refuse(8, 3))?;
    }
    for room in [6, 7, 9] {
        w.plan_parts("parts, room for all", &three, room, 6, Ok((plan, parts)))?;
    }
    Ok(())
}

/// Request 2.12, each of its rules on a small yard.
fn wear_by_hand(w: &mut Worked, (a, a_plan): (&Yard, &[u8]), (b, b_plan): (&Yard, &[u8])) -> Same {
    for width in 1..=4 {
        w.wear("A, each edge once", a, a_plan, width, Ok((1, 0, 1)))?;
    }
    // Edge 2 is crossed first, but within both moves 1 is the lowest.
    for (width, expected) in [(0, refuse(28, 0)), (1, Ok((1, 0, 2))), (2, Ok((1, 0, 1))), (3, refuse(28, 0))] {
        w.wear("B", b, b_plan, width, expected)?;
    }
    // A star, and the edges that are crossed: 1 1 2 2 2.
    let star = |target: usize| yard(&[0, 0, 0], &[1, 0, 0], &Vec::from_iter((0..3).map(|node| u8::from(node == target))));
    let there_and_on = [0, 1, 1, 0, 0, 2, 2, 0, 0, 2];
    for (width, expected) in [(1, (1, 0, 1)), (2, (2, 0, 1)), (3, (3, 2, 2)), (4, (3, 1, 2)), (5, (3, 0, 2))] {
        w.wear("a star", &star(2), &there_and_on, width, Ok(expected))?;
    }
    // 2 2 1 1: the first stretch comes before the lowest edge.
    let both = [0, 2, 2, 0, 0, 1, 1, 0];
    for (width, expected) in [(1, (1, 0, 2)), (2, (2, 0, 2)), (3, (2, 0, 2)), (4, (2, 0, 1))] {
        w.wear("a star, both ways", &star(0), &both, width, Ok(expected))?;
    }
    // The same with the root at 2, which makes an edge 0: 1 1 0 0.
    let last = yard(&[2, 2, 2], &[0, 0, 1], &[0, 0, 1]);
    for (width, expected) in [(1, (1, 0, 1)), (2, (2, 0, 1)), (3, (2, 0, 1)), (4, (2, 0, 0))] {
        w.wear("an edge 0", &last, &[2, 1, 1, 2, 2, 0, 0, 2], width, Ok(expected))?;
    }
    // Two pebbles over one edge.
    let two = deep(&[0, 0], &[3, 0], &[1, 2], &[3, 2]);
    for (width, expected) in [(1, (1, 0, 1)), (2, (2, 0, 1))] {
        w.wear("deep nodes", &two, &[0, 1, 0, 1], width, Ok(expected))?;
    }
    Ok(())
}

/// What the checker refuses comes before 28, whatever the width. Then 28: 0, more than the moves,
/// and widths that would do once the high bytes are lost.
fn order_of_28(w: &mut Worked) -> Same {
    let two = |pebbles: &[u8], targets: &[u8]| yard(&[0, 0], pebbles, targets);
    let (there, home) = (two(&[1, 0], &[0, 1]), two(&[1, 0], &[1, 0]));
    let refused: [(&str, &Yard, &[u8], u32, usize); 8] = [
        ("6 before 7", &yard(&[0, 2, 1], &[1, 0, 0], &[0; 3]), &[0, 1, 1], 6, 1),
        ("7 before 9", &two(&[1, 0], &[1, 1]), &[0, 1, 1], 7, 0),
        ("9 before 10", &there, &[2, 0, 1], 9, 0),
        ("10 before 28", &there, &[0, 1, 1, 2], 10, 1),
        ("11 before 28", &there, &[0, 1, 1, 1], 11, 1),
        ("12 before 28", &there, &[0, 1, 0, 1], 12, 1),
        ("13 before 28", &two(&[1, 1], &[1, 1]), &[0, 1], 13, 0),
        ("14 before 28", &there, &[0, 1, 1, 0], 14, 1),
    ];
    for (name, yard, plan, number, place) in refused {
        for width in [0, 1, 2, 3, u32::MAX] {
            w.wear(&format!("wear, {name}"), yard, plan, width, refuse(number, place))?;
        }
    }
    for width in [0, 3, 4, 1 << 16, 1 << 31, (1 << 8) + 1, (1 << 16) + 1, (1 << 31) + 1, u32::MAX] {
        w.wear("wear, 28", &home, &[0, 1, 1, 0], width, refuse(28, 0))?;
        w.wear("wear, 28 of no move", &home, &[], width, refuse(28, 0))?;
    }
    w.wear("wear, 28 of no move", &home, &[], 1, refuse(28, 0))
}

/// Request 2.13, each of its rules on a small yard.
fn openings_by_hand(w: &mut Worked, a: &Yard, b: &Yard) -> Same {
    // Before 0 2 there is nothing at 0, and before 3 1 there is no place at 1.
    let of_a = [1, 0, 1, 4];
    w.openings("A", a, ANY, Ok(&of_a))?;
    w.check("A, the other opening", a, &[1, 4, 3, 1, 1, 0, 0, 2], Ok(Checked { moves: 4, excess: 0 }))?;
    // The pebble leaves its own target.
    w.openings("B", b, ANY, Ok(&[1, 2]))?;
    w.openings("C", &yard(&[0], &[1], &[1]), 0, Ok(&[]))?;
    w.openings("D", &yard(&[0, 0], &[1, 0], &[1, 0]), 0, Ok(&[]))?;

    // Node 2 has openings to three children and to its parent, which has a number among theirs,
    // above or below them.
    let among = |parents: &[u8], targets: &[u8]| deep(parents, &[0, 0, 5, 0, 0, 0], targets, &[1, 1, 6, 2, 1, 2]);
    w.openings("the parent among the children", &among(&[2, 2, 3, 3, 2, 3], &[1, 1, 0, 2, 1, 0]), ANY, Ok(&[2, 0, 2, 1, 2, 3, 2, 4]))?;
    w.openings("the parent behind the children", &among(&[2, 2, 5, 5, 2, 5], &[1, 1, 0, 0, 1, 2]), ANY, Ok(&[2, 0, 2, 1, 2, 4, 2, 5]))?;
    w.openings("the parent before the children", &among(&[0, 2, 0, 2, 2, 0], &[1, 1, 0, 2, 1, 0]), ANY, Ok(&[2, 0, 2, 1, 2, 3, 2, 4]))?;
    // The node that is left counts before the node that is entered, and before up and down.
    w.openings("by the node left", &deep(&[1, 1, 1], &[1, 1, 0], &[0, 1, 1], &[1, 2, 1]), ANY, Ok(&[0, 1, 1, 2]))?;
    w.openings("by the node left, down first", &deep(&[0, 0, 0], &[1, 0, 1], &[1, 1, 0], &[2, 1, 1]), ANY, Ok(&[0, 1, 2, 0]))?;

    // A legal move over an edge whose demand is 0, one against its demand, one out of a node that
    // is empty, one into a full node.
    w.openings("no demand", &yard(&[0, 0, 0], &[1, 0, 0], &[1, 0, 0]), ANY, Ok(&[]))?;
    w.openings("against the demand", &deep(&[0, 0], &[2, 1], &[1, 2], &[3, 2]), ANY, Ok(&[0, 1]))?;
    w.openings("up, against the demand", &deep(&[0, 0], &[1, 2], &[2, 1], &[3, 3]), ANY, Ok(&[1, 0]))?;
    w.openings("an empty node and a full one", &yard(&[0, 0, 1, 2], &[0, 0, 1, 1], &[1, 1, 0, 0]), ANY, Ok(&[2, 1]))?;
    // Of several pebbles that are to go over an edge it is one move, listed once.
    w.openings("listed once", &deep(&[0, 0], &[3, 0], &[0, 3], &[3, 3]), ANY, Ok(&[0, 1]))?;

    // Each refusal before the next: a circle, unequal totals, a list without room for all openings,
    // which are fewer than the moves of the plan.
    let circle = yard(&[0, 0, 0, 4, 3], &[0; 5], &a.targets);
    let unequal = yard(&a.parents, &[0, 1, 0, 0, 0], &a.targets);
    for room in [0, 3, ANY] {
        w.openings("6 before 7", &circle, room, refuse(6, 3))?;
        w.openings("7 before 8", &unequal, room, refuse(7, 0))?;
    }
    for room in 0..4 {
        w.openings("A, 8 with their number", a, room, refuse(8, 2))?;
    }
    for room in 4..10 {
        w.openings("A, room for all", a, room, Ok(&of_a))?;
    }
    Ok(())
}

/// As many openings as edges, which is the most that a list must hold: a star of 256 nodes, its
/// leaves by turns held and wanted, its root with a place and a pebble for each.
fn most_openings(w: &mut Worked) -> Same {
    for root in [0, 100, 255] {
        let held = |leaf: u8| (leaf - u8::from(leaf > root)).is_multiple_of(2);
        let list = |of_root: u8, of_leaf: &dyn Fn(u8) -> u8| {
            Vec::from_iter((0..=255).map(|node| if node == root { of_root } else { of_leaf(node) }))
        };
        // Held are 128 leaves, wanted 127.
        let (pebbles, targets) = (list(4, &|leaf| u8::from(held(leaf))), list(5, &|leaf| u8::from(!held(leaf))));
        let star = deep(&[root; 256], &pebbles, &targets, &list(8, &|_| 1));
        let of_node = |node: u8| match node {
            _ if node == root => (0..=255).filter(|&leaf| leaf != root && !held(leaf)).map(|leaf| [root, leaf]).collect(),
            _ if held(node) => vec![[node, root]],
            _ => vec![],
        };
        let due = (0..=255).flat_map(of_node).collect::<Vec<[u8; 2]>>().concat();
        w.is("as many as edges", due.len(), 510)?;
        for room in [510, 511, 600] {
            w.openings("as many as edges", &star, room, Ok(&due))?;
        }
        for room in [0, 254, 255, 508, 509] {
            w.openings("as many as edges, 8", &star, room, refuse(8, 255))?;
        }
    }
    Ok(())
}
