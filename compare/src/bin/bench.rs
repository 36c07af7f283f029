//! The library's calls beside the same algorithm in plain Rust (`fast`): times, and their ratio. It
//! ends with a failure only if answers differ.

use std::hint::black_box;
use std::process::ExitCode;
use std::time::Instant;
use unrelated::cabinet::{status, Registers};
use unrelated::checker::{Tried, MAX_PLAN_BYTES};
use unrelated::distance::{self, Nearest};
use unrelated::event::{way, Event, Kept};
use unrelated::figures::Length;
use unrelated::random::Random;
use unrelated::shapes::{far, far_parts, mixed, Shape};
use unrelated::wear::Wear;
use unrelated::yard::{having, Answer, Yard, MAX_DEPTH};
use unrelated::{fast, library, planner};

const SAMPLES: usize = 301;
/// Each sample repeats its call until it takes this long: far above what reading the clock takes.
const SAMPLE_NS: f64 = 20_000.0;
/// Times of one call, in nanoseconds.
struct Times {
    library: f64,
    plain: f64,
}

impl Times {
    fn ratio(&self) -> f64 {
        self.library / self.plain
    }
}

fn time<T>(call: &mut impl FnMut() -> T, times: usize) -> f64 {
    let began = Instant::now();
    for _ in 0..times {
        let _ = black_box(call());
    }
    began.elapsed().as_nanos() as f64 / times as f64
}

fn median(mut samples: Vec<f64>) -> f64 {
    samples.sort_by(f64::total_cmp);
    samples[samples.len() / 2]
}

/// Medians over samples in turn: library, plain, then plain, library. A busy moment falls on both.
fn measure<T>(mut library: impl FnMut() -> T, mut plain: impl FnMut() -> T) -> Times {
    let mut repeats = 1;
    while time(&mut library, repeats).min(time(&mut plain, repeats)) * (repeats as f64) < SAMPLE_NS {
        repeats *= 2;
    }
    let (mut of_library, mut of_plain) = (Vec::new(), Vec::new());
    for sample in 0..SAMPLES {
        if sample % 2 == 0 {
            of_library.push(time(&mut library, repeats));
            of_plain.push(time(&mut plain, repeats));
        } else {
            of_plain.push(time(&mut plain, repeats));
            of_library.push(time(&mut library, repeats));
        }
    }
    Times { library: median(of_library), plain: median(of_plain) }
}

type Planner = fn(&[u8], &[u8], &[u8], &[u8], &mut [u8]) -> Answer<u32>;

/// The plan and the times of two planners, or nothing if they differ.
fn plans(yard: &Yard, plain: Planner) -> Option<(Vec<u8>, Times)> {
    let Yard { parents, pebbles, targets, depths } = yard;
    let call = |planner: Planner, list: &mut [u8]| {
        planner(black_box(parents), black_box(pebbles), black_box(targets), black_box(depths), black_box(list))
    };
    let (mut list, mut plain_list) = (vec![0; MAX_PLAN_BYTES], vec![0; MAX_PLAN_BYTES]);
    let answer = call(library::plan, &mut list);
    if answer != call(plain, &mut plain_list) || list != plain_list {
        return None;
    }
    let plan = list[..2 * answer.ok()? as usize].to_vec();
    let times = measure(|| call(library::plan, &mut list), || call(plain, &mut plain_list));
    Some((plan, times))
}

/// The moves of the plans of the parts and the times, or nothing if they differ.
fn parts(yard: &Yard) -> Option<(usize, Times)> {
    let Yard { parents, pebbles, targets, depths } = yard;
    type Call = fn(&[u8], &[u8], &[u8], &[u8], &mut [u8], &mut [u8]) -> Answer<u32>;
    let call = |call: Call, list: &mut [u8], parts: &mut [u8]| {
        call(black_box(parents), black_box(pebbles), black_box(targets), black_box(depths), black_box(list), black_box(parts))
    };
    let (mut list, mut plain_list) = (vec![0; MAX_PLAN_BYTES], vec![0; MAX_PLAN_BYTES]);
    let (mut parts, mut plain_parts) = (vec![0; yard.nodes()], vec![0; yard.nodes()]);
    let answer = call(library::plan_parts, &mut list, &mut parts);
    if answer != call(fast::plan_parts, &mut plain_list, &mut plain_parts) || list != plain_list || parts != plain_parts {
        return None;
    }
    let times = measure(|| call(library::plan_parts, &mut list, &mut parts), || call(fast::plan_parts, &mut plain_list, &mut plain_parts));
    Some((answer.ok()? as usize, times))
}

/// The times of the openings, or nothing if the answers differ. The list has room for one opening
/// an edge, which is the most.
fn openings(yard: &Yard) -> Option<Times> {
    let Yard { parents, pebbles, targets, depths } = yard;
    type Call = fn(&[u8], &[u8], &[u8], &[u8], &mut [u8]) -> Answer<u32>;
    let call =
        |call: Call, list: &mut [u8]| call(black_box(parents), black_box(pebbles), black_box(targets), black_box(depths), black_box(list));
    let bytes = 2 * (yard.nodes() - 1);
    let (mut list, mut plain_list) = (vec![0; bytes], vec![0; bytes]);
    let answer = call(library::openings, &mut list);
    if answer.is_err() || answer != call(fast::openings, &mut plain_list) || list != plain_list {
        return None;
    }
    Some(measure(|| call(library::openings, &mut list), || call(fast::openings, &mut plain_list)))
}

fn checks(yard: &Yard, plan: &[u8]) -> Option<Times> {
    let Yard { parents, pebbles, targets, depths } = yard;
    type Checker = fn(&[u8], &[u8], &[u8], &[u8], &[u8]) -> Answer<()>;
    let call = |checker: Checker| checker(black_box(parents), black_box(pebbles), black_box(targets), black_box(depths), black_box(plan));
    if call(library::check) != Ok(()) || call(fast::check) != Ok(()) {
        return None;
    }
    Some(measure(|| call(library::check), || call(fast::check)))
}

fn trials(yard: &Yard, plan: &[u8]) -> Option<Times> {
    let Yard { parents, pebbles, targets, depths } = yard;
    type Trial = fn(&[u8], &mut [u8], &[u8], &[u8], &[u8], u16) -> Answer<Tried>;
    let call = |trial: Trial, counts: &mut [u8]| {
        counts.copy_from_slice(pebbles);
        trial(black_box(parents), black_box(counts), black_box(targets), black_box(depths), black_box(plan), black_box(u16::MAX))
    };
    let (mut counts, mut plain_counts) = (pebbles.clone(), pebbles.clone());
    let tried = call(library::trial, &mut counts);
    // The longest plans have more moves than a budget.
    let ended = tried.is_ok_and(|tried| tried.budget_ended || counts == *targets);
    if !ended || tried != call(fast::trial, &mut plain_counts) || counts != plain_counts {
        return None;
    }
    Some(measure(|| call(library::trial, &mut counts), || call(fast::trial, &mut plain_counts)))
}

/// The moves of a stretch; all where a plan has fewer.
const WIDTH: usize = 64;

fn wears(yard: &Yard, plan: &[u8]) -> Option<Times> {
    let Yard { parents, pebbles, targets, depths } = yard;
    type Call = fn(&[u8], &[u8], &[u8], &[u8], &[u8], u32) -> Answer<Wear>;
    let width = WIDTH.min(plan.len() / 2) as u32;
    let call =
        |call: Call| call(black_box(parents), black_box(pebbles), black_box(targets), black_box(depths), black_box(plan), black_box(width));
    let library: Call =
        |parents, pebbles, targets, depths, plan, width| library::wear(parents, pebbles, targets, depths, plan, width, [&mut 0, &mut 0]);
    let answer = call(library);
    if answer.is_err() || answer != call(fast::wear) {
        return None;
    }
    Some(measure(|| call(library), || call(fast::wear)))
}

/// The wanted node that is farthest from the root, the last among equals.
fn farthest(yard: &Yard, wanted: impl Fn(usize) -> bool) -> Option<usize> {
    (0..yard.nodes()).filter(|&node| wanted(node)).max_by_key(|&node| way(yard, node).len())
}

type EventCall = fn(&[u8], &mut [u8], &mut [u8], &[u8], &mut [i16], Event, usize) -> Answer<()>;

/// A pebble arrives at the farthest node with a place and leaves it again: the time of one of the
/// two events.
fn events(yard: &Yard, plain: EventCall) -> Option<Times> {
    let farthest = farthest(yard, |node| yard.pebbles[node] < yard.depths[node])?;
    let call = |call: EventCall, kept: &mut Kept, event: Event| {
        let Yard { parents, pebbles, targets, depths } = &mut kept.yard;
        call(
            black_box(parents),
            black_box(pebbles),
            black_box(targets),
            black_box(depths),
            black_box(&mut kept.demands),
            black_box(event),
            black_box(farthest),
        )
    };
    let begun = Kept::right(yard.clone());
    let (mut kept, mut plain_kept) = (begun.clone(), begun.clone());
    let there_and_back = [Event::PebbleArrives, Event::PebbleLeaves];
    for event in there_and_back {
        if call(library::event, &mut kept, event) != Ok(()) || call(plain, &mut plain_kept, event) != Ok(()) || kept != plain_kept {
            return None;
        }
    }
    if kept != begun {
        return None;
    }
    let both = measure(
        || there_and_back.map(|event| call(library::event, &mut kept, event)),
        || there_and_back.map(|event| call(plain, &mut plain_kept, event)),
    );
    Some(Times { library: both.library / 2.0, plain: both.plain / 2.0 })
}

/// The nearest pebble of the farthest node.
fn nearest(yard: &Yard) -> Option<Times> {
    let Yard { parents, pebbles, targets, depths } = yard;
    type Call = fn(&[u8], &[u8], &[u8], &[u8], usize) -> Answer<Nearest>;
    let node = farthest(yard, |_| true)?;
    let call = |call: Call| call(black_box(parents), black_box(pebbles), black_box(targets), black_box(depths), black_box(node));
    let library: Call = |parents, pebbles, targets, depths, node| library::nearest(parents, pebbles, targets, depths, node, &mut 0);
    let answer = call(library);
    if answer.is_err() || answer != call(fast::nearest) {
        return None;
    }
    Some(measure(|| call(library), || call(fast::nearest)))
}

/// The pebbles within reach of the farthest node. The reach ends halfway between the nearest and
/// the farthest pebble, so it takes some and leaves some.
fn reaches(yard: &Yard) -> Option<Times> {
    let Yard { parents, pebbles, targets, depths } = yard;
    type Call = fn(&[u8], &[u8], &[u8], &[u8], &mut [u8], usize, u16) -> Answer<u32>;
    let node = farthest(yard, |_| true)?;
    let distances = distance::from_node(yard, node);
    let of_pebbles: Vec<usize> = having(pebbles).into_iter().map(|held| distances[held]).collect();
    let reach = ((of_pebbles.iter().min()? + of_pebbles.iter().max()?) / 2) as u16;
    let call = |call: Call, list: &mut [u8]| {
        call(
            black_box(parents),
            black_box(pebbles),
            black_box(targets),
            black_box(depths),
            black_box(list),
            black_box(node),
            black_box(reach),
        )
    };
    let (mut list, mut plain_list) = (vec![2; yard.nodes()], vec![2; yard.nodes()]);
    let within = call(library::reach, &mut list);
    if within != call(fast::reach, &mut plain_list) || list != plain_list || !(1..of_pebbles.len()).contains(&(within.ok()? as usize)) {
        return None;
    }
    Some(measure(|| call(library::reach, &mut list), || call(fast::reach, &mut plain_list)))
}

type Step = fn(&[u8], &mut [u8], &[u8], &[u8], &[u8], &mut [u8], u8) -> Answer<u32>;

/// A running step obeys the plan's first move, a second step takes it back, then the block is put
/// back. The time is that of one step.
fn steps(yard: &Yard, plan: &[u8]) -> Option<Times> {
    let Yard { parents, pebbles, targets, depths } = yard;
    let there_and_back = [plan[0], plan[1], plan[1], plan[0]];
    let begun = Registers { status: status::RUNNING, left: 2, ..Registers::default() }.block();
    let call = |step: Step, pebbles: &mut [u8], block: &mut [u8]| {
        step(
            black_box(parents),
            black_box(pebbles),
            black_box(targets),
            black_box(depths),
            black_box(&there_and_back),
            black_box(block),
            black_box(0),
        )
    };
    let twice = |step: Step, pebbles: &mut [u8]| {
        let mut block = begun;
        [call(step, pebbles, &mut block), call(step, pebbles, &mut block)]
    };
    let (mut counts, mut plain_counts) = (pebbles.clone(), pebbles.clone());
    let (mut block, mut plain_block) = (begun, begun);
    for _ in 0..2 {
        let answer = call(library::step, &mut counts, &mut block);
        if answer != Ok(0)
            || answer != call(fast::step, &mut plain_counts, &mut plain_block)
            || counts != plain_counts
            || block != plain_block
        {
            return None;
        }
    }
    if counts != *pebbles || block[1] != status::IDLE {
        return None;
    }
    let both = measure(|| twice(library::step, &mut counts), || twice(fast::step, &mut plain_counts));
    Some(Times { library: both.library / 2.0, plain: both.plain / 2.0 })
}

type Figure<T> = fn(&[u8], &[u8], &[u8], &[u8]) -> Answer<T>;

/// The times of two calls that take the yard alone, or nothing if they differ or refuse it.
fn figures<T: PartialEq>(yard: &Yard, library: Figure<T>, plain: Figure<T>) -> Option<Times> {
    let Yard { parents, pebbles, targets, depths } = yard;
    let call = |figure: Figure<T>| figure(black_box(parents), black_box(pebbles), black_box(targets), black_box(depths));
    let answer = call(library);
    if answer.is_err() || answer != call(plain) {
        return None;
    }
    Some(measure(|| call(library), || call(plain)))
}

fn bound(parents: &[u8], pebbles: &[u8], targets: &[u8], depths: &[u8]) -> Answer<Length> {
    library::length_bound(parents, pebbles, targets, depths, &mut 0)
}

/// How the nodes of a yard are numbered.
#[derive(Clone, Copy)]
enum Numbers {
    /// Root 0, and each parent before its children.
    Down,
    /// Anyhow.
    Mixed,
}

impl Numbers {
    const ALL: [Numbers; 2] = [Numbers::Down, Numbers::Mixed];

    fn name(self) -> &'static str {
        match self {
            Numbers::Down => "down",
            Numbers::Mixed => "mixed",
        }
    }

    fn of(self, yard: Yard) -> Yard {
        match self {
            Numbers::Down => yard,
            Numbers::Mixed => mixed(&yard, &mut Random::new(yard.nodes() as u64)),
        }
    }
}

/// The yards of the benchmark: the first half of the nodes full, the second half to be filled. The
/// line of depth 1, numbered down, is yard I.
fn yard(shape: Shape, n: usize, depth: u8, numbers: Numbers) -> Yard {
    numbers.of(far(shape, n, depth, &mut Random::new(n as u64)))
}

/// The same trees in many parts: the edge above every eighth node is cut. The first half of each
/// part is full, the second half to be filled.
fn yard_in_parts(shape: Shape, n: usize, depth: u8, numbers: Numbers) -> Yard {
    numbers.of(far_parts(shape, n, depth, 8, &mut Random::new(n as u64)))
}

/// Every call on 256 nodes of one depth. The highest ratio, or nothing if answers differ.
fn all_calls(depth: u8, numbers: Numbers) -> Option<f64> {
    let mut highest = 0.0;
    for shape in Shape::ALL {
        let yard = yard(shape, 256, depth, numbers);
        let (plan, planned) = plans(&yard, fast::plan)?;
        let (in_parts, planned_in_parts) = parts(&yard_in_parts(shape, 256, depth, numbers))?;
        let rows = [
            ("plan", planned),
            ("plan_parts", parts(&yard)?.1),
            ("openings", openings(&yard)?),
            ("check", checks(&yard, &plan)?),
            ("wear", wears(&yard, &plan)?),
            ("trial", trials(&yard, &plan)?),
            ("bound", figures(&yard, bound, fast::length_bound)?),
            ("displaced", figures(&yard, library::displaced, fast::displaced)?),
            ("event", events(&yard, fast::event)?),
            ("nearest", nearest(&yard)?),
            ("reach", reaches(&yard)?),
            ("step", steps(&yard, &plan)?),
            ("test_yard", figures(&yard, library::test_yard, fast::test_yard)?),
        ];
        let rows = rows.into_iter().map(|(call, times)| (call, plan.len() / 2, times)).chain([("many parts", in_parts, planned_in_parts)]);
        for (call, moves, times) in rows {
            let (library, plain, ratio) = (times.library / 1e3, times.plain / 1e3, times.ratio());
            println!("{:<13}{depth:>5}  {:<7}  {call:<10}{moves:>7}{library:>12.2}{plain:>12.2}{ratio:>8.2}", shape.name(), numbers.name());
            highest = ratio.max(highest);
        }
    }
    Some(highest)
}

/// The highest ratio of the first table, or nothing if answers differ.
fn run() -> Option<f64> {
    println!(
        "Medians of {SAMPLES} samples in turn. Written lists are not cleared before a call. A trial's \
        pebbles are set anew before each one,"
    );
    println!(
        "on both sides and within the time (256 bytes copied); its budget is 65,535 moves, fewer than the longest plans have. An event is"
    );
    println!(
        "a pebble's arrival at the node farthest from the root that has a place, or its leaving it. Nearest and reach are asked from the"
    );
    println!(
        "farthest node; the reach ends halfway between its nearest and its farthest pebble. A step obeys the plan's first move or takes it"
    );
    println!(
        "back; the 9 bytes of its block are put back after both, within the time. Wear is asked for \
        within {WIDTH} moves. 'Plain' is the same"
    );
    println!(
        "algorithm in safe Rust, with the same tests first. 'Many parts' is plan_parts once more, on the \
        same tree with the edge above every"
    );
    println!("eighth node cut. Numbers: 'down' from the root on, each parent before its children; 'mixed' in any order.\n");
    println!("256 nodes    depth  numbers  call        moves  library µs    plain µs   ratio");
    let mut highest: f64 = 0.0;
    for numbers in Numbers::ALL {
        for depth in [1, MAX_DEPTH] {
            highest = highest.max(all_calls(depth, numbers)?);
        }
    }
    println!("\nPlan, time a move  nodes  depth   moves  library ns    plain ns   ratio");
    for (shape, depth) in [Shape::Line, Shape::Caterpillar, Shape::Random].into_iter().flat_map(|shape| [(shape, 1), (shape, MAX_DEPTH)]) {
        for n in [16, 32, 64, 128, 256] {
            let (plan, times) = plans(&yard(shape, n, depth, Numbers::Down), fast::plan)?;
            let moves = plan.len() / 2;
            let (library, plain) = (times.library / moves as f64, times.plain / moves as f64);
            println!("{:<19}{n:>5}{depth:>7}{moves:>8}{library:>12.2}{plain:>12.2}{:>8.2}", shape.name(), times.ratio());
        }
    }
    println!(
        "\nFor information, plan in µs and the library's ratio to it: plain Rust with the \
        children of a node chained as siblings"
    );
    println!(
        "(as above), in a row, chained with nothing kept, so that each pick looks at all children for \
        the neediest, and chained as above with"
    );
    println!("the way of each pebble kept in a list instead of calls within calls.\n");
    println!("256 nodes    depth   moves    siblings, ratio    in a row, ratio       scans, ratio        ways, ratio");
    for (depth, shape) in [1, MAX_DEPTH].into_iter().flat_map(|depth| Shape::ALL.map(|shape| (depth, shape))) {
        let yard = yard(shape, 256, depth, Numbers::Down);
        print!("{:<13}{depth:>5}{:>8}", shape.name(), planner::plan(&yard, MAX_PLAN_BYTES).ok()?.len() / 2);
        for planner in [fast::plan, fast::plan_by_rows, fast::plan_with_scans, fast::plan_by_ways] {
            let (_, times) = plans(&yard, planner)?;
            print!("{:>12.2} {:>6.2}", times.plain / 1e3, times.ratio());
        }
        println!();
    }
    println!(
        "\nFor information, at depth 1, an event in µs and the library's ratio to it: plain Rust that works \
            no demand out but holds the list to"
    );
    println!("equation 2.\n");
    for shape in Shape::ALL {
        let times = events(&yard(shape, 256, 1, Numbers::Down), fast::event_by_equation_2)?;
        println!("{:<11}{:>12.2} {:>6.2}", shape.name(), times.plain / 1e3, times.ratio());
    }
    Some(highest)
}

fn main() -> ExitCode {
    match run() {
        Some(highest) => {
            println!("\nhighest ratio {highest:.2}");
            ExitCode::SUCCESS
        }
        None => {
            println!("answers differ");
            ExitCode::FAILURE
        }
    }
}
