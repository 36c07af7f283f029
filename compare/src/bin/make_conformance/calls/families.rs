//! The cases, in families: a family for each call, or for several that are alike.

use super::{yard_lists, Calls, Named, Value};
use unrelated::c_calls::{BUDGET_ENDED, VERSION};
use unrelated::cabinet::{self, command, flag, status, Registers, BLOCK_BYTES};
use unrelated::checker::{self, MAX_PLAN_BYTES};
use unrelated::demands::{self, of_tree, MAX_DEMAND};
use unrelated::event::{happen, Event, Kept};
use unrelated::figures::{displaced, length_bound, longest_plan};
use unrelated::random::Random;
use unrelated::shapes::{self, every_yard, Shape};
use unrelated::wear::{every_edge, wear_by, Wear};
use unrelated::yard::{judge, judge_matched, Answer, Yard, MAX_DEPTH, MAX_NODES};
use unrelated::{damage, distance, openings, parts, planner, sheet};
use Value::{Bytes, Number, Signed};

/// What lent lists and numbers hold before they are written.
const FILL: u8 = 170;
const SIGNED_FILL: i16 = -21_846;
const NUMBER_FILL: u32 = 4_294_967_295;

/// A number of bytes that holds nothing that is written there.
fn filled(length: usize) -> Vec<u8> {
    vec![FILL; length]
}

pub fn all(calls: &mut Calls) {
    calls.case("version", "the version of the calls", vec![], Ok(VERSION), vec![]);
    longest_plans(calls);
    let mut random = Random::new(501);
    tests(calls, &mut random);
    plans(calls, &mut random);
    parted(calls, &mut random);
    first_moves(calls, &mut random);
    figures(calls, &mut random);
    accounts(calls, &mut random);
    events(calls, &mut random);
    distances(calls, &mut random);
    pushes(calls, &mut random);
    checks(calls, &mut random);
    wears(calls, &mut random);
    trials(calls, &mut random);
    steps(calls, &mut random);
    sheets_read(calls, &mut random);
    sheets_written(calls, &mut random);
}

// ---- The yards

fn yard(parents: &[u8], pebbles: &[u8], targets: &[u8], depths: &[u8]) -> Yard {
    let [parents, pebbles, targets, depths] = [parents, pebbles, targets, depths].map(<[u8]>::to_vec);
    Yard { parents, pebbles, targets, depths }
}

/// Yards that the papers work by hand, and some with deeper nodes.
fn worked() -> Vec<(&'static str, Yard)> {
    let shallow = Yard::shallow;
    vec![
        ("yard A", shallow(&[0, 0, 0, 1, 1], &[0, 1, 0, 1, 0], &[0, 0, 1, 0, 1])),
        ("yard B", shallow(&[0, 0, 1], &[1, 1, 0], &[0, 1, 1])),
        ("yard C with a car", shallow(&[0], &[1], &[1])),
        ("yard C without a car", shallow(&[0], &[0], &[0])),
        ("yard D with one car", shallow(&[0, 0], &[1, 0], &[1, 0])),
        ("yard D with two cars", shallow(&[0, 0], &[1, 1], &[1, 1])),
        ("the neediest child first", shallow(&[0, 0, 0, 2, 0, 4, 5], &[0, 1, 1, 1, 0, 0, 0], &[0, 0, 0, 0, 1, 1, 1])),
        ("one siding of eight", yard(&[0], &[8], &[8], &[8])),
        ("a full berth is cleared", yard(&[0, 0, 1], &[1, 1, 0], &[0, 1, 1], &[1, 1, 1])),
        ("a berth with a place is not cleared", yard(&[0, 0, 1], &[1, 1, 0], &[0, 1, 1], &[1, 2, 1])),
        ("a berth that holds a car draws", yard(&[0, 0], &[1, 1], &[2, 0], &[2, 1])),
        ("a berth fills before it draws", yard(&[0, 0, 0], &[1, 2, 0], &[0, 0, 3], &[2, 2, 3])),
        ("the neediest in turn", yard(&[0, 0, 0], &[5, 0, 0], &[0, 3, 2], &[5, 3, 2])),
        ("eight cars from end to end", yard(&[0, 0, 1], &[8, 0, 0], &[0, 0, 8], &[8, 8, 8])),
    ]
}

/// These, six shapes up to 40 nodes, and some of 255 and 256.
fn trees(large: usize, random: &mut Random) -> Vec<(String, Yard)> {
    let mut trees: Vec<(String, Yard)> = worked().into_iter().map(|(name, yard)| (name.to_string(), yard)).collect();
    for shape in Shape::ALL {
        for n in [2, 3, 4, 6, 9, 14, 22, 40] {
            trees.push((format!("{} of {n}", shape.name()), shapes::any_yard(shape, n, random)));
        }
    }
    for number in 0..large {
        let (shape, n) = (Shape::ALL[number % 6], if number % 4 == 3 { 255 } else { 256 });
        trees.push((format!("{} of {n}", shape.name()), shapes::any_yard(shape, n, random)));
    }
    trees
}

/// The same with other counts at some nodes: the totals mostly differ.
fn loaded(large: usize, random: &mut Random) -> Vec<(String, Yard)> {
    let mut trees = trees(large, random);
    for (_, yard) in &mut trees {
        for _ in 0..random.below(4) {
            damage::recount(yard, random.below(yard.nodes()), random);
        }
    }
    trees
}

/// Lists with faults: each refusal of a yard's once at its ends, then any.
fn faulty(any: usize, random: &mut Random) -> Vec<(String, Yard)> {
    let four = || shapes::far(Shape::Line, 4, 2, &mut Random::new(0));
    let altered = |alter: &dyn Fn(&mut Yard)| {
        let mut yard = four();
        alter(&mut yard);
        yard
    };
    let cut = |list: usize, length: usize| {
        altered(&|yard| [&mut yard.parents, &mut yard.pebbles, &mut yard.targets, &mut yard.depths][list].resize(length, 1))
    };
    let long = |n: usize| Yard { parents: vec![0; n], pebbles: vec![0; n], targets: vec![0; n], depths: vec![1; n] };
    let mut all = vec![("no berth", long(0)), ("257 berths", long(257)), ("512 berths", long(512))];
    for (list, name) in ["parents", "pebbles", "targets", "depths"].into_iter().enumerate() {
        // A parent list of another length makes the others wrong.
        all.extend([3, 5, 0].map(|length| (if list == 0 && length == 0 { "no parent" } else { name }, cut(list, length))));
    }
    for node in [0, 3] {
        all.push(("26, depth 0", altered(&|yard| yard.depths[node] = 0)));
        all.push(("26, depth 9", altered(&|yard| yard.depths[node] = 9)));
        all.push(("26, depth 255", altered(&|yard| yard.depths[node] = 255)));
        all.push(("27, pebbles", altered(&|yard| yard.pebbles[node] = 3)));
        all.push(("27, targets", altered(&|yard| yard.targets[node] = 3)));
        all.push(("4", altered(&|yard| yard.parents[node] = 4)));
        all.push(("4, parent 255", altered(&|yard| yard.parents[node] = 255)));
    }
    all.push(("5, no root", altered(&|yard| yard.parents[0] = 1)));
    all.push(("5, a second root", altered(&|yard| yard.parents[3] = 3)));
    all.push(("6", altered(&|yard| (yard.parents[1], yard.parents[2]) = (2, 1))));
    all.push(("6, the last two", altered(&|yard| yard.parents[2] = 3)));
    all.push(("7, a car more", altered(&|yard| yard.pebbles[3] = 1)));
    all.push(("7, a target more", altered(&|yard| yard.targets[0] = 1)));
    all.push(("26 before 27", altered(&|yard| (yard.pebbles[0], yard.depths[3]) = (9, 0))));
    all.push(("27 of pebbles before targets", altered(&|yard| (yard.targets[0], yard.pebbles[3]) = (3, 3))));
    all.push(("27 before 4", altered(&|yard| (yard.parents[0], yard.targets[3]) = (9, 3))));
    all.push(("4 before 5", altered(&|yard| (yard.parents[1], yard.parents[3]) = (1, 4))));
    all.push(("5 before 6", altered(&|yard| yard.parents = vec![0, 2, 1, 3])));
    all.push(("6 before 7", altered(&|yard| (yard.parents[1], yard.parents[2], yard.pebbles[3]) = (2, 1, 1))));
    let mut all: Vec<(String, Yard)> = all.into_iter().map(|(name, yard)| (format!("lists with a fault: {name}"), yard)).collect();
    for number in 0..any {
        let n = if number % 12 == 0 { 256 } else { shapes::size(1, 16, random) };
        let mut yard = shapes::any_yard(random.pick(&Shape::ALL), n, random);
        damage::lists(&mut yard, random);
        all.push(("lists with one to three faults".to_string(), yard));
        all.push(("lists that were never a yard".to_string(), damage::noise(random)));
    }
    all
}

/// The longest plans: a line of 256 with the first half full, at these depths.
fn longest(depth: u8) -> Yard {
    shapes::far(Shape::Line, MAX_NODES, depth, &mut Random::new(0))
}

fn with(yard: &Yard, more: Vec<Named>) -> Vec<Named> {
    [yard_lists(yard), more].concat()
}

fn wide(number: usize) -> Value {
    Number(number as u64)
}

/// A list whose front is written.
fn fronted(front: &[u8], list: &[u8]) -> Vec<u8> {
    [front, &list[front.len()..]].concat()
}

// ---- Calls on a yard alone

fn longest_plans(calls: &mut Calls) {
    let small =
        (0..=20).chain([31, 32, 33, 63, 64, 99, 100, 127, 128, 129, 254, 255, 256, 257, 258, 511, 512, 1000, 65_535, 65_536, 65_792]);
    let wide_ones =
        [1 << 31, (1 << 32) - 1, 1 << 32, (1 << 32) + 1, (1 << 32) + 256, 1 << 33, 1 << 63, (1 << 63) + 256, usize::MAX - 1, usize::MAX];
    for n in small.chain(wide_ones) {
        calls.case("longest_plan", &format!("{n} berths"), vec![("n", wide(n))], longest_plan(n), vec![]);
    }
}

fn tests(calls: &mut Calls, random: &mut Random) {
    for (what, yard) in loaded(6, random).into_iter().chain(faulty(110, random)) {
        calls.case("test_yard", &what, yard_lists(&yard), judge(&yard).map(|()| 0), vec![]);
    }
    // A circle at every place of a line, and a ring of 256 but for the root.
    for node in 1..12 {
        let mut yard = shapes::far(Shape::Line, 12, 1, random);
        yard.parents[node] = 11;
        calls.case("test_yard", "a line hung up from its end", yard_lists(&yard), judge(&yard).map(|()| 0), vec![]);
    }
    let ring: Vec<u8> = (0..MAX_NODES).map(|node| if node == 1 { 255 } else { node.max(1) as u8 - 1 }).collect();
    let ring = Yard::shallow(&ring, &[0; MAX_NODES], &[0; MAX_NODES]);
    calls.case("test_yard", "a ring of 255 beside the root", yard_lists(&ring), judge(&ring).map(|()| 0), vec![]);
}

fn figures(calls: &mut Calls, random: &mut Random) {
    let both = |calls: &mut Calls, what: &str, yard: &Yard, before: u32| {
        let bound = length_bound(yard);
        let after = bound.map_or(before, |length| length.bytes);
        let bytes = |number: u32| vec![("bytes", Number(u64::from(number)))];
        calls.case("length_bound", what, with(yard, bytes(before)), bound.map(|length| length.moves), bytes(after));
        calls.case("displaced", what, yard_lists(yard), displaced(yard), vec![]);
    };
    for (what, yard) in trees(8, random).into_iter().chain(faulty(15, random)) {
        both(calls, &what, &yard, random.pick(&[NUMBER_FILL, 0]));
    }
    for depth in [1, 2, 8] {
        both(calls, &format!("the longest plan of 256 berths of depth {depth}"), &longest(depth), NUMBER_FILL);
    }
    for yard in every_yard(vec![2; 2]) {
        both(calls, "every yard of two berths of depth 2", &yard, NUMBER_FILL);
    }
}

// ---- Plans

/// Rooms about what is needed: as many bytes, a few more, a byte fewer, a move fewer, none.
fn rooms(needed: usize) -> Vec<(&'static str, usize)> {
    let mut rooms = vec![("just enough room", needed), ("five bytes more than needed", needed + 5)];
    if needed > 0 {
        rooms.extend([("a byte too little", needed - 1), ("a move too little", needed - 2), ("no room", 0)]);
    }
    rooms
}

fn plan(calls: &mut Calls, what: &str, yard: &Yard, room: usize) {
    let list = filled(room);
    let planned = planner::plan(yard, room);
    let after = planned.as_ref().map_or(list.clone(), |plan| fronted(plan, &list));
    let answer = planned.map(|plan| plan.len() as u32 / 2);
    calls.case("plan", what, with(yard, vec![("plan", Bytes(list))]), answer, vec![("plan", Bytes(after))]);
}

fn plans(calls: &mut Calls, random: &mut Random) {
    for yard in [vec![1], vec![2], vec![1, 2], vec![2, 1], vec![1; 3]].into_iter().flat_map(every_yard) {
        // Of those that have no plan, some.
        if judge_matched(&yard).is_ok() || random.once_in(12) {
            plan(calls, "every small yard", &yard, 12);
        }
    }
    for (what, yard) in trees(8, random) {
        let needed = planner::plan(&yard, usize::MAX).expect("as many pebbles as targets").len();
        let rooms = rooms(needed);
        let kept = if yard.nodes() > 20 { random.below(rooms.len()) } else { rooms.len() };
        for (number, (room_is, room)) in rooms.into_iter().enumerate() {
            if number == 0 || number == kept || kept > number && random.once_in(2) {
                plan(calls, &format!("{what}, {room_is}"), &yard, room);
            }
        }
    }
    for (what, yard) in faulty(30, random) {
        plan(calls, &what, &yard, random.pick(&[0, 8, 100]));
    }
    plan(calls, "yard I, the longest plan of depth 1", &longest(1), 32_768);
    plan(calls, "yard I, a byte too little", &longest(1), 32_767);
    plan(calls, "the longest plan of all", &longest(8), 262_144);
    plan(calls, "the longest plan of all, a byte too little", &longest(8), 262_143);
    plan(calls, "the longest plan of all, no room", &longest(8), 0);
}

fn plan_parts(calls: &mut Calls, what: &str, yard: &Yard, room: usize, length: usize) {
    let (list, named) = (filled(room), filled(length));
    let planned = parts::plan_parts(yard, room, length);
    let after = planned.as_ref().map_or((list.clone(), named.clone()), |parted| (fronted(&parted.plan, &list), parted.parts.clone()));
    let answer = planned.map(|parted| parted.plan.len() as u32 / 2);
    let given = with(yard, vec![("plan", Bytes(list)), ("parts", Bytes(named))]);
    calls.case("plan_parts", what, given, answer, vec![("plan", Bytes(after.0)), ("parts", Bytes(after.1))]);
}

fn parted(calls: &mut Calls, random: &mut Random) {
    let mut yards = trees(6, random);
    for number in 0..50 {
        let n = if number % 10 == 9 { 256 } else { shapes::size(2, 30, random) };
        let depths = if number % 2 == 0 { vec![1; n] } else { shapes::depths(n, MAX_DEPTH, random) };
        let shape = random.pick(&Shape::ALL);
        yards.push((format!("{} of {n} in parts", shape.name()), shapes::parted(shape, &depths, random.pick(&[1, 2, 4, 8]), random)));
    }
    for (what, yard) in yards {
        let (n, needed) = (yard.nodes(), planner::plan(&yard, usize::MAX).expect("as many pebbles as targets").len());
        let rooms = rooms(needed);
        let (room_is, room) = if random.once_in(2) { rooms[0] } else { random.pick(&rooms) };
        plan_parts(calls, &format!("{what}, {room_is}"), &yard, room, n);
        if n <= 40 && random.once_in(2) {
            let (is, length) = random.pick(&[("one too few", n - 1), ("one too many", n + 1), ("none", 0)]);
            plan_parts(calls, &format!("{what}, of part entries {is}"), &yard, random.pick(&[needed, 0]), length);
        }
    }
    for (what, yard) in faulty(20, random) {
        plan_parts(calls, &what, &yard, random.pick(&[0, 100]), yard.nodes() + usize::from(random.once_in(4)));
    }
    plan_parts(calls, "the longest plan of all", &longest(8), 262_144, 256);
    plan_parts(calls, "yard I, a byte too little", &longest(1), 32_767, 256);
}

fn opened(calls: &mut Calls, what: &str, yard: &Yard, room: usize) {
    let list = filled(room);
    let found = openings::openings(yard, room);
    let after = found.as_ref().map_or(list.clone(), |openings| fronted(openings, &list));
    let answer = found.map(|openings| openings.len() as u32 / 2);
    calls.case("openings", what, with(yard, vec![("list", Bytes(list))]), answer, vec![("list", Bytes(after))]);
}

fn first_moves(calls: &mut Calls, random: &mut Random) {
    for yard in [vec![1; 3], vec![2; 2]].into_iter().flat_map(every_yard).filter(|yard| judge_matched(yard).is_ok()) {
        if random.once_in(2) {
            opened(calls, "a small yard", &yard, 6);
        }
    }
    for (what, yard) in trees(6, random) {
        let rooms = rooms(openings::of_tree(&yard).len());
        for (room_is, room) in [rooms[0], random.pick(&rooms)] {
            opened(calls, &format!("{what}, {room_is}"), &yard, room);
        }
    }
    for (what, yard) in faulty(20, random) {
        opened(calls, &what, &yard, random.pick(&[0, 8, 100]));
    }
    // One over every edge: a star's root is empty, and every other node full.
    let star = yard(&[0; 256], &[&[0][..], &[8; 255]].concat(), &[&[8][..], &[8; 254], &[0]].concat(), &[8; 256]);
    opened(calls, "star of 256 with a full berth at each end", &star, 510);
}

// ---- Accounts and events

fn accounts(calls: &mut Calls, random: &mut Random) {
    let mut case = |what: &str, yard: &Yard, length: usize| {
        let list = vec![SIGNED_FILL; length];
        let found = demands::list(yard, length);
        let after = found.clone().unwrap_or(list.clone());
        calls.case("demands", what, with(yard, vec![("list", Signed(list))]), found.map(|_| 0), vec![("list", Signed(after))]);
    };
    for (what, yard) in loaded(8, random) {
        let n = yard.nodes();
        case(&what, &yard, n);
        if n <= 40 {
            let (is, length) = random.pick(&[("one too few", n - 1), ("one too many", n + 1), ("none", 0)]);
            case(&format!("{what}, of entries {is}"), &yard, length);
        }
    }
    for (what, yard) in faulty(20, random) {
        case(&what, &yard, yard.nodes());
    }
    for (is, pebbles, targets) in [("full and no target", 8, 0), ("empty and all targets", 0, 8)] {
        let parents: Vec<u8> = (0..=255u8).map(|node| node.saturating_sub(1)).collect();
        case(&format!("256 sidings of eight, {is}"), &yard(&parents, &[pebbles; 256], &[targets; 256], &[8; 256]), 256);
    }
}

fn event(calls: &mut Calls, what: &str, kept: &Kept, event: Event, node: usize) {
    let found = happen(kept, event, node);
    let after = found.clone().unwrap_or(kept.clone());
    let given = with(&kept.yard, vec![("demands", Signed(kept.demands.clone())), ("node", wide(node))]);
    let after = vec![("pebbles", Bytes(after.yard.pebbles)), ("targets", Bytes(after.yard.targets)), ("demands", Signed(after.demands))];
    calls.case(event.name(), what, given, found.map(|_| 0), after);
}

fn events(calls: &mut Calls, random: &mut Random) {
    for told in Event::ALL {
        for (what, yard) in worked() {
            for node in 0..=yard.nodes() {
                event(calls, &format!("{what}, berth {node}"), &Kept::right(yard.clone()), told, node);
            }
        }
        for (what, yard) in loaded(2, random) {
            let n = yard.nodes();
            let node = random.below(n);
            event(calls, &format!("{what}, the list that belongs to it"), &Kept::right(yard.clone()), told, node);
            let list = damage::demands(&yard, told, node, random);
            let asked = damage::number(node as u8, &yard, random);
            event(calls, &format!("{what}, a list that may be stale"), &Kept { yard: yard.clone(), demands: list }, told, node);
            let mut other = of_tree(&yard);
            other.resize((n + 2).saturating_sub(random.below(4)), 0);
            event(calls, &format!("{what}, a list of {} entries", other.len()), &Kept { yard: yard.clone(), demands: other }, told, asked);
        }
        for (what, yard) in faulty(4, random) {
            let demands = vec![0; yard.nodes()];
            event(calls, &what, &Kept { yard, demands }, told, random.below(4));
        }
        let two = yard(&[0, 0], &[1, 1], &[1, 1], &[2, 2]);
        for node in [2, 255, 256, 257, 65_536, 1 << 32, (1 << 32) + 1, 1 << 63, usize::MAX] {
            event(calls, "a number that is no berth", &Kept::right(two.clone()), told, node);
        }
        for entry in [MAX_DEMAND, -MAX_DEMAND, i16::MAX, i16::MIN, 256, -256, 1, -1] {
            let kept = Kept { yard: two.clone(), demands: vec![0, entry] };
            event(calls, &format!("an entry of {entry}"), &kept, told, 0);
            let kept = Kept { yard: two.clone(), demands: vec![entry, 0] };
            event(calls, &format!("an entry of {entry} at the root"), &kept, told, 1);
        }
        // To −2,048 and 2,048, and from there.
        let parents: Vec<u8> = (0..=255u8).map(|node| node.saturating_sub(1)).collect();
        for (is, full, other) in [("full", 8, 0), ("one place left", 7, 1), ("one there", 1, 7), ("empty", 0, 8)] {
            let mut counts = vec![if full >= 7 { 8 } else { 0 }; 256];
            counts[255] = full;
            let none = vec![if other > 0 && full < 7 { 8 } else { 0 }; 256];
            let yard = if matches!(told, Event::PebbleArrives | Event::PebbleLeaves) {
                yard(&parents, &counts, &none, &[8; 256])
            } else {
                yard(&parents, &none, &counts, &[8; 256])
            };
            event(calls, &format!("256 sidings of eight, the last {is}"), &Kept::right(yard), told, 255);
        }
    }
}

// ---- Distances and pushes

fn distances(calls: &mut Calls, random: &mut Random) {
    let nearest = |calls: &mut Calls, what: &str, yard: &Yard, node: usize| {
        let found = distance::nearest(yard, node);
        let after = found.map_or(NUMBER_FILL, |nearest| nearest.distance);
        let number = |number: u32| ("distance", Number(u64::from(number)));
        let given = with(yard, vec![("node", wide(node)), number(NUMBER_FILL)]);
        calls.case("nearest", what, given, found.map(|nearest| nearest.node), vec![number(after)]);
    };
    let reach = |calls: &mut Calls, what: &str, yard: &Yard, length: usize, node: usize, reach: u16| {
        let list = filled(length);
        let found = distance::reach(yard, length, node, reach);
        let after = found.clone().unwrap_or(list.clone());
        let given = with(yard, vec![("list", Bytes(list)), ("node", wide(node)), ("reach", Number(u64::from(reach)))]);
        let answer = found.map(|marks| marks.iter().map(|&mark| u32::from(mark)).sum());
        calls.case("reach", what, given, answer, vec![("list", Bytes(after))]);
    };
    for (what, yard) in worked() {
        for node in 0..=yard.nodes() {
            nearest(calls, &format!("{what}, berth {node}"), &yard, node);
            reach(calls, &format!("{what}, berth {node}"), &yard, yard.nodes(), node, (node % 3) as u16);
        }
    }
    for (what, mut yard) in loaded(6, random) {
        let n = yard.nodes();
        // Fewer cars: some are far away.
        if random.once_in(2) {
            let kept = random.below(n);
            yard.pebbles.iter_mut().enumerate().for_each(|(node, count)| *count = if node % 9 == kept % 9 { *count } else { 0 });
        }
        let node = random.below(n);
        let asked = damage::number(node as u8, &yard, random);
        nearest(calls, &what, &yard, node);
        nearest(calls, &format!("{what}, a number that may be no berth"), &yard, asked);
        let farthest = distance::from_node(&yard, node).into_iter().max().expect("a node") as u16;
        for within in [0, 1, random.below(usize::from(farthest) + 1) as u16, farthest, u16::MAX] {
            if n <= 40 || within == farthest {
                reach(calls, &format!("{what}, {within} tracks"), &yard, n, node, within);
            }
        }
        if n <= 40 {
            let length = random.pick(&[n - 1, n + 1, 0]);
            reach(calls, &format!("{what}, a list of {length} entries"), &yard, length, asked, 3);
            reach(calls, &format!("{what}, a number that may be no berth"), &yard, n, asked, 3);
        }
        let empty = Yard { pebbles: vec![0; n], ..yard };
        if n <= 9 {
            nearest(calls, &format!("{what} without a car"), &empty, random.pick(&[node, n]));
            reach(calls, &format!("{what} without a car"), &empty, n, node, u16::MAX);
        }
    }
    let line = |held: &[usize]| {
        let mut line = longest(1).emptied();
        held.iter().for_each(|&node| line.pebbles[node] = 1);
        line
    };
    nearest(calls, "from end to end of a line of 256", &line(&[255]), 0);
    nearest(calls, "both ends as near", &line(&[0, 254]), 127);
    reach(calls, "255 tracks on a line of 256", &line(&[255]), 256, 0, 255);
    reach(calls, "254 tracks on a line of 256", &line(&[255]), 256, 0, 254);
    for (what, yard) in faulty(10, random) {
        nearest(calls, &what, &yard, random.below(5));
        reach(calls, &what, &yard, yard.nodes(), random.below(5), 2);
    }
}

fn pushes(calls: &mut Calls, random: &mut Random) {
    let mut case = |what: &str, yard: &Yard, from: usize, to: usize| {
        let found = checker::push(yard, from, to);
        let after = found.clone().unwrap_or(yard.pebbles.clone());
        let given = with(yard, vec![("from", wide(from)), ("to", wide(to))]);
        calls.case("push", what, given, found.map(|_| 0), vec![("pebbles", Bytes(after))]);
    };
    for (what, yard) in worked().into_iter().take(12) {
        let n = yard.nodes().min(5);
        for (from, to) in (0..=n).flat_map(|from| (0..=n).map(move |to| (from, to))) {
            case(&format!("{what}, {from} to {to}"), &yard, from, to);
        }
    }
    for (what, yard) in loaded(4, random) {
        for _ in 0..3 {
            let [from, to] = damage::any_move(&yard, random);
            case(&what, &yard, usize::from(from), usize::from(to));
        }
        let [from, to] = damage::any_move(&yard, random);
        let from = damage::number(from, &yard, random);
        let to = damage::number(to, &yard, random);
        case(&format!("{what}, numbers that may be no berths"), &yard, from, to);
    }
    for (what, yard) in faulty(15, random) {
        case(&what, &yard, random.below(5), random.below(5));
    }
}

// ---- Plans obeyed

/// A car that goes from node 0 to node 1 and back, again and again.
fn swing(bytes: usize) -> (Yard, Vec<u8>) {
    (Yard::shallow(&[0, 0], &[1, 0], &[1, 0]), [0, 1, 1, 0].into_iter().cycle().take(bytes).collect())
}

/// Plans of all kinds for a tree: the planner's, with detours, altered, none.
fn plans_of(yard: &Yard, random: &mut Random) -> Vec<(&'static str, Vec<u8>)> {
    let planned = planner::plan(yard, usize::MAX).unwrap_or_default();
    let planned = if planned.len() > 4_000 { Vec::new() } else { planned };
    let mut plans = vec![("the planner's plan", planned.clone())];
    let there = damage::wander(yard, 12, random);
    let back: Vec<u8> = there.chunks(2).rev().flat_map(|ends| [ends[1], ends[0]]).collect();
    plans.push(("a detour first", [there, back, planned.clone()].concat()));
    for _ in 0..2 {
        let mut altered = planned.clone();
        damage::plan(&mut altered, yard, random);
        if altered.len() < 8_000 {
            plans.push(("an altered plan", altered));
        }
    }
    if random.once_in(3) {
        plans.push(("no move", Vec::new()));
        plans.push(("an odd plan", [planned, vec![0]].concat()));
    }
    plans
}

/// Long plans about the most bytes that are taken.
fn long_plans() -> Vec<(String, Yard, Vec<u8>)> {
    let lengths = [MAX_PLAN_BYTES - 4, MAX_PLAN_BYTES - 2, MAX_PLAN_BYTES - 1, MAX_PLAN_BYTES, MAX_PLAN_BYTES + 1, MAX_PLAN_BYTES + 2];
    let mut plans: Vec<(String, Yard, Vec<u8>)> = Vec::new();
    for length in lengths {
        let (yard, plan) = swing(length);
        plans.push((format!("a plan of {length} bytes"), yard, plan));
    }
    for (is, place) in [("first", 0), ("last", MAX_PLAN_BYTES / 2 - 1)] {
        let (yard, mut plan) = swing(MAX_PLAN_BYTES);
        plan[2 * place] = 2;
        plans.push((format!("131,072 moves, the {is} of them to no berth"), yard, plan));
    }
    plans
}

fn checks(calls: &mut Calls, random: &mut Random) {
    let mut case = |what: &str, yard: &Yard, plan: &[u8]| {
        let found = checker::check(yard, plan);
        let given = with(yard, vec![("plan", Bytes(plan.to_vec()))]);
        calls.case("check", what, given.clone(), found.map(|_| 0), vec![]);
        calls.case("excess", what, given, found.map(|checked| checked.excess), vec![]);
    };
    for (what, yard) in trees(4, random) {
        for (kind, plan) in plans_of(&yard, random) {
            case(&format!("{what}, {kind}"), &yard, &plan);
        }
    }
    // Every plan of two moves, and of one, on two berths and on yard B.
    for (yard, n) in [(swing(0).0, 2u8), (worked()[1].1.clone(), 3)] {
        for from in 0..=n {
            for to in 0..=n {
                case("one move", &yard, &[from, to]);
                case("two moves", &yard, &[1, n - 1, from, to]);
            }
        }
    }
    for (what, yard) in faulty(15, random) {
        case(&what, &yard, random.pick(&[&[][..], &[0, 1], &[0, 1, 1], &[9, 9]]));
    }
    for (what, yard, plan) in long_plans() {
        case(&what, &yard, &plan);
    }
    let line = longest(1);
    case("yard I without a move", &line, &[]);
}

fn wears(calls: &mut Calls, random: &mut Random) {
    let mut case = |what: &str, yard: &Yard, plan: &[u8], width: u32| {
        let found = wear_by(every_edge, yard, plan, width);
        let numbers = |[first, edge]: [u32; 2]| vec![("first", Number(u64::from(first))), ("edge", Number(u64::from(edge)))];
        let given =
            [with(yard, vec![("plan", Bytes(plan.to_vec())), ("width", Number(u64::from(width)))]), numbers([NUMBER_FILL; 2])].concat();
        let after = found.map_or([NUMBER_FILL; 2], |Wear { first, edge, .. }| [first, edge]);
        calls.case("wear", what, given, found.map(|wear| wear.crossings), numbers(after));
    };
    for (what, yard) in trees(4, random) {
        for (kind, plan) in plans_of(&yard, random) {
            let moves = (plan.len() / 2) as u32;
            let widths = [0, 1, 2, 3, moves / 2, moves.saturating_sub(1), moves, moves + 1, 65_536 + moves, u32::MAX];
            let some = if yard.nodes() > 40 { 1 } else { 3 };
            for _ in 0..some {
                let width = random.pick(&widths);
                case(&format!("{what}, {kind}, width {width}"), &yard, &plan, width);
            }
        }
    }
    for (what, yard) in faulty(8, random) {
        case(&what, &yard, random.pick(&[&[][..], &[0, 1], &[0, 1, 1], &[9, 9]]), random.pick(&[0, 1, 2]));
    }
    for (what, yard, plan) in long_plans() {
        for width in [0, 1, 65_535, 65_536, 131_072, 131_073] {
            case(&format!("{what}, width {width}"), &yard, &plan, width);
        }
    }
    // The one stretch that wears most ends the plan: first moves above 65,535.
    let (yard, swung) = swing(200_000);
    let shape = Yard::shallow(&[0, 0, 0], &[&yard.pebbles[..], &[1]].concat(), &[&yard.targets[..], &[1]].concat());
    let late = [swung, [2, 0].repeat(0), vec![0, 1, 2, 0, 0, 2, 1, 0], [0, 1, 1, 0].repeat(10)].concat();
    for width in [1, 2, 3, 20, 100_000] {
        case(&format!("a long plan with another track at its end, width {width}"), &shape, &late, width);
    }
}

fn trials(calls: &mut Calls, random: &mut Random) {
    let mut case = |what: &str, yard: &Yard, plan: &[u8], budget: u16| {
        let found = checker::trial(yard, plan, budget);
        let after = found.as_ref().map_or(yard.pebbles.clone(), |(_, pebbles)| pebbles.clone());
        let answer: Answer<u32> = found.map(|(tried, _)| tried.taken + if tried.budget_ended { BUDGET_ENDED } else { 0 });
        let given = with(yard, vec![("plan", Bytes(plan.to_vec())), ("budget", Number(u64::from(budget)))]);
        calls.case("trial", what, given, answer, vec![("pebbles", Bytes(after))]);
    };
    for (what, yard) in trees(4, random) {
        for (kind, plan) in plans_of(&yard, random) {
            let moves = (plan.len() / 2).min(65_535) as u16;
            let budgets = [0, 1, moves / 2, moves.saturating_sub(1), moves, moves.saturating_add(1), u16::MAX];
            for _ in 0..if yard.nodes() > 40 { 1 } else { 2 } {
                let budget = random.pick(&budgets);
                case(&format!("{what}, {kind}, budget {budget}"), &yard, &plan, budget);
            }
        }
    }
    for (what, yard) in loaded(0, random) {
        let plan = damage::wander(&yard, 20, random);
        case(&format!("{what}, totals that may differ"), &yard, &plan, random.below(12) as u16);
    }
    for (what, yard) in faulty(8, random) {
        case(&what, &yard, random.pick(&[&[][..], &[0, 1], &[0, 1, 1], &[9, 9]]), random.pick(&[0, 1, 2]));
    }
    for (what, yard, plan) in long_plans() {
        for budget in [0, 1, 2, 65_534, 65_535] {
            case(&format!("{what}, budget {budget}"), &yard, &plan, budget);
        }
    }
    for moves in [65_534, 65_535, 65_536] {
        let (yard, plan) = swing(2 * moves);
        case(&format!("{moves} moves and the greatest budget"), &yard, &plan, u16::MAX);
    }
}

// ---- The cabinet

fn step(calls: &mut Calls, what: &str, yard: &Yard, plan: &[u8], block: &[u8], failed: u8) -> Option<cabinet::Stepped> {
    let found = cabinet::step(yard, plan, block, failed != 0);
    let (pebbles, registers) = match &found {
        Ok(stepped) => (stepped.pebbles.clone(), stepped.registers.block().to_vec()),
        Err(_) => (yard.pebbles.clone(), block.to_vec()),
    };
    let given =
        with(yard, vec![("plan", Bytes(plan.to_vec())), ("registers", Bytes(block.to_vec())), ("failed", Number(u64::from(failed)))]);
    let answer = found.as_ref().map(|stepped| u32::from(stepped.registers.line())).map_err(|&refusal| refusal);
    calls.case("step", what, given, answer, vec![("pebbles", Bytes(pebbles)), ("registers", Bytes(registers))]);
    found.ok()
}

fn steps(calls: &mut Calls, random: &mut Random) {
    // Whole runs of the worked yards, with a push that fails on the way.
    for (what, yard) in worked().into_iter().take(8) {
        let plan = planner::plan(&yard, usize::MAX).expect("a plan");
        let mut yard = yard;
        let mut block = Registers { command: command::START, mask: 3, ..Registers::default() }.block();
        for number in 0..2 * plan.len() + 6 {
            let failed = if number == 2 { 1 + random.below(255) as u8 } else { 0 };
            let Some(stepped) = step(calls, &format!("{what}, step {number} of a run"), &yard, &plan, &block, failed) else { break };
            yard.pebbles = stepped.pebbles;
            let stalled = stepped.registers.status == status::STALLED;
            let idle = stepped.registers.status == status::IDLE;
            block = Registers { command: if stalled { command::ACKNOWLEDGE } else { command::NONE }, ..stepped.registers }.block();
            if idle && number > 0 {
                break;
            }
        }
    }
    // Every command in every status, with moves left and without, failed or not.
    let (yard, plan) = (worked()[0].1.clone(), vec![1, 0, 0, 2, 3, 1, 1, 4]);
    for told in 0..=4 {
        for status in 0..=3 {
            for left in [0, 1, 3, 4, 5] {
                for flags in [0, 3] {
                    let registers = Registers { command: told, status, from: 7, to: 9, left, mask: random.byte(), flags };
                    let failed = random.pick(&[0, 0, 1, 255]);
                    step(calls, "every command, status and number of moves left", &yard, &plan, &registers.block(), failed);
                }
            }
        }
    }
    for mask in [0, 1, 2, 3, 4, 252, 254, 255] {
        for flags in [0, 1, 2, 3, 4, 255] {
            let registers = Registers { mask, flags, ..Registers::default() };
            step(calls, "masks and flags", &yard, &plan, &registers.block(), 0);
        }
    }
    // Each byte of a block at its ends and beyond.
    for at in 0..BLOCK_BYTES {
        for value in [0, 1, 2, 3, 4, 127, 128, 254, 255] {
            for status in [status::IDLE, status::RUNNING] {
                let mut block = Registers { status, left: 4, ..Registers::default() }.block();
                block[at] = value;
                step(calls, &format!("register {at} is {value}"), &yard, &plan, &block, 0);
            }
        }
    }
    for length in [0, 1, 7, 8, 10, 18, 265] {
        step(calls, &format!("a block of {length} bytes"), &yard, &plan, &vec![0; length], 0);
    }
    // A start with each plan that the checker refuses, and a running step with each that it meets.
    for (what, plan) in [
        ("9, odd", vec![1, 0, 0]),
        ("10", vec![1, 0, 5, 0, 3, 1, 1, 4]),
        ("11", vec![1, 0, 0, 4, 3, 1, 1, 4]),
        ("12", vec![1, 0, 2, 0, 3, 1, 1, 4]),
        ("13", vec![3, 1, 0, 2, 3, 1, 1, 4]),
        ("14", vec![1, 0, 0, 2, 3, 1]),
        ("no move", vec![]),
    ] {
        let start = Registers { command: command::START, ..Registers::default() };
        step(calls, &format!("a start with a plan that meets {what}"), &yard, &plan, &start.block(), 0);
        for left in 1..=(plan.len() / 2) as u32 {
            for failed in [0, 1] {
                let running = Registers { status: status::RUNNING, left, mask: flag::BOTH, ..Registers::default() };
                step(calls, &format!("a running step with a plan that meets {what}"), &yard, &plan, &running.block(), failed);
            }
        }
    }
    for (what, yard) in faulty(10, random) {
        let start = Registers { command: random.pick(&[command::START, command::NONE]), ..Registers::default() };
        step(calls, &what, &yard, &[0, 1], &start.block(), 0);
    }
    for _ in 0..120 {
        let yard = shapes::any_yard(random.pick(&Shape::ALL), shapes::size(2, 16, random), random);
        let mut plan = planner::plan(&yard, usize::MAX).expect("a plan");
        if random.once_in(3) {
            damage::plan(&mut plan, &yard, random);
        }
        if plan.len() > 2_000 {
            continue;
        }
        let moves = plan.len() / 2;
        let mut block = Registers {
            command: random.pick(&[0, 0, 0, 1, 2, 3]),
            status: random.below(3) as u8,
            from: random.byte(),
            to: random.byte(),
            left: random.below(moves + 2) as u32,
            mask: random.byte(),
            flags: random.below(4) as u8,
        }
        .block();
        if random.once_in(6) {
            block[random.below(BLOCK_BYTES)] = random.byte();
        }
        step(calls, "any registers beside any plan", &yard, &plan, &block, random.pick(&[0, 0, 1]));
    }
    // Moves left in all three bytes.
    let (yard, _) = swing(0);
    for moves in [255, 256, 257, 65_535, 65_536, 65_537, 131_071, 131_072, 131_073] {
        let (_, plan) = swing(2 * moves);
        step(
            calls,
            &format!("a start of {moves} moves"),
            &yard,
            &plan,
            &Registers { command: command::START, ..Registers::default() }.block(),
            0,
        );
        for left in [moves, moves - 1, 256, 1] {
            let registers = Registers { status: status::RUNNING, left: left as u32, ..Registers::default() };
            step(calls, &format!("{left} of {moves} moves left"), &yard, &plan, &registers.block(), random.pick(&[0, 0, 1]));
        }
        let registers = Registers { status: status::RUNNING, left: moves as u32 + 1, ..Registers::default() };
        step(calls, &format!("one more than {moves} moves left"), &yard, &plan, &registers.block(), 0);
    }
}

// ---- Sheets

fn read(calls: &mut Calls, what: &str, text: &[u8], lengths: [usize; 4]) {
    let found = sheet::read(text, lengths);
    let names = ["parents", "pebbles", "targets", "depths"];
    let lists = lengths.map(filled);
    let given = std::iter::once(("sheet", Bytes(text.to_vec()))).chain(names.into_iter().zip(lists.clone().map(Bytes))).collect();
    let after = match &found {
        Ok(yard) => {
            let written = [&yard.parents, &yard.pebbles, &yard.targets, &yard.depths];
            names.into_iter().zip(written.into_iter().zip(&lists).map(|(front, list)| Bytes(fronted(front, list)))).collect()
        }
        Err(_) => vec![],
    };
    calls.case("read_sheet", what, given, found.map(|yard| yard.nodes() as u32), after);
}

fn sheets_read(calls: &mut Calls, random: &mut Random) {
    let room = [MAX_NODES; 4];
    for (what, yard) in trees(3, random).into_iter().step_by(2) {
        read(calls, &format!("the sheet of: {what}"), &sheet::unjudged(&yard), room);
    }
    let header = sheet::HEADER;
    let one = format!("{header}0 0 1 1 1\n");
    for lengths in
        [[256, 256, 256, 255], [255, 256, 256, 256], [256, 255, 256, 256], [256, 256, 255, 256], [0; 4], [257, 300, 256, 512], [65_536; 4]]
    {
        read(calls, &format!("lists of {lengths:?} entries"), one.as_bytes(), lengths);
        read(calls, &format!("lists of {lengths:?} entries and no sheet"), b"", lengths);
    }
    for text in [
        "",
        "\n",
        "berth",
        "berth parent car target depth",
        "berth parent car target\n0 0 1 1\n",
        "berth parent car target depth\r\n0 0 1 1 1\r\n",
        "Berth parent car target depth\n0 0 1 1 1\n",
        " berth parent car target depth\n0 0 1 1 1\n",
        "berth  parent car target depth\n0 0 1 1 1\n",
        "berth parent car target depth \n0 0 1 1 1\n",
        "\u{feff}berth parent car target depth\n0 0 1 1 1\n",
        "0 0 1 1 1\n",
        "from to\n",
    ] {
        read(calls, "a header that differs", text.as_bytes(), room);
    }
    for line in [
        "",
        "\n",
        "1",
        "1 0 0 0 1",
        "1 0 0 0 1\n",
        "01 0 0 0 1\n",
        "1 00 0 0 1\n",
        "1 0 00 0 1\n",
        "1 0 0 00 1\n",
        "1 0 0 0 01\n",
        "256 0 0 0 1\n",
        "1 256 0 0 1\n",
        "1 0 256 0 1\n",
        "1 0 0 256 1\n",
        "1 0 0 0 256\n",
        "1 255 255 255 255\n",
        "1 300 0 0 1\n",
        "1 1000 0 0 1\n",
        "1 4294967296 0 0 1\n",
        "1 18446744073709551616 0 0 1\n",
        "1 -1 0 0 1\n",
        "1 +1 0 0 1\n",
        "1 a 0 0 1\n",
        "1 0x0 0 0 1\n",
        "1 0.0 0 0 1\n",
        "1 0 0 1\n",
        "1 0 0 0 0 1\n",
        "1\n",
        " 1 0 0 0 1\n",
        "1 0 0 0 1 \n",
        "1  0 0 0 1\n",
        "1\t0 0 0 1\n",
        "1,0,0,0,1\n",
        "1 0 0 0 1\r\n",
        "1 0 0 0 1\r",
        "1 0 0 0 1\0\n",
        "1 0 0 \u{660} 1\n",
        " \n",
        "1 0 0 0 1\n\n",
        "7 0 0 0 1",
        "7 0 0 0 1\n",
        "0 0 0 0 1\n",
        "2 0 0 0 1\n",
        "7 0 0 256 1\n",
        "255 0 0 0 1\n",
        "1 0 0 0 1\n3 0 0 0 1\n",
        "1 0 0 0 1\n2 0 0 0 1\n2 0 0 0 1\n",
        "berth parent car target depth\n",
        "1 0 9 9 9\n",
        "1 1 255 0 0\n",
    ] {
        read(calls, "a second berth's line", format!("{header}0 0 0 0 1\n{line}").as_bytes(), room);
    }
    read(calls, "no line below the header", header.as_bytes(), room);
    let rows = |n: usize| -> String { (0..n).map(|node| format!("{node} 0 0 0 1\n")).collect() };
    for (n, more) in [(255, ""), (256, ""), (256, "0"), (256, "\n"), (256, "256 0 0 0 1\n"), (300, ""), (256, "0 0 0 0 1\n")] {
        read(calls, &format!("{n} berths and {more:?} below"), format!("{header}{}{more}", rows(n)).as_bytes(), [300, 256, 256, 257]);
    }
    let widest = yard(&[255; 256], &[255; 256], &[255; 256], &[255; 256]);
    read(calls, "the longest sheet", &sheet::unjudged(&widest), room);
    for _ in 0..110 {
        let yard = shapes::any_yard(random.pick(&Shape::ALL), random.within(1, 9), random);
        let mut text = sheet::unjudged(&yard);
        damage::sheet(&mut text, random);
        read(calls, "a sheet altered by hand", &text, room);
    }
}

fn sheets_written(calls: &mut Calls, random: &mut Random) {
    let mut case = |what: &str, yard: &Yard, room: usize| {
        let list = filled(room);
        let found = sheet::write(yard, room);
        let after = found.as_ref().map_or(list.clone(), |text| fronted(text, &list));
        let given = with(yard, vec![("sheet", Bytes(list))]);
        calls.case("write_sheet", what, given, found.map(|text| text.len() as u32), vec![("sheet", Bytes(after))]);
    };
    for (what, yard) in trees(2, random).into_iter().step_by(2) {
        let needed = sheet::unjudged(&yard).len();
        case(&format!("{what}, just enough room"), &yard, needed);
        case(&format!("{what}, a byte too little"), &yard, needed - 1);
        case(&format!("{what}, more room than any sheet needs"), &yard, random.pick(&[needed + 1, 5_040, 10_000]));
    }
    for _ in 0..60 {
        let n = random.within(1, 12);
        let mut list = || (0..n).map(|_| random.byte()).collect::<Vec<u8>>();
        let any = Yard { parents: list(), pebbles: list(), targets: list(), depths: list() };
        let needed = sheet::unjudged(&any).len();
        case("lists of any bytes", &any, random.pick(&[needed, needed, needed + 3, needed - 1, 0]));
    }
    let widest = yard(&[255; 256], &[255; 256], &[255; 256], &[255; 256]);
    case("the longest sheet", &widest, 5_040);
    case("the longest sheet, a byte too little", &widest, 5_039);
    for (what, yard) in faulty(15, random) {
        case(&what, &yard, random.pick(&[0, 100, 5_040]));
    }
}
