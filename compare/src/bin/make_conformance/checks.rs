//! Inputs of a check program, `NNN-name.in`, each a yard sheet with a move sheet directly after it,
//! and what any supplier's check program must print for them, `NNN-name.out`.

use crate::must_meet;
use std::path::Path;
use unrelated::check_sheet::{program, MOST_MOVES_READ, MOVES_HEAD, REPORT_HEAD};
use unrelated::damage;
use unrelated::fitter::{after, lines, moves, put_in_detour, star_with, Line, Planned, Sheets, FAULTS};
use unrelated::openings;
use unrelated::random::Random;
use unrelated::shapes::{self, Shape};
use unrelated::sheet::{unjudged, HEADER};
use unrelated::yard::{Yard, MAX_NODES};

/// Writes the inputs and what is due for them, and answers how many.
pub fn write(folder: &Path) -> std::io::Result<usize> {
    let mut inputs = Inputs::default();
    worked(&mut inputs);
    shaped(&mut inputs);
    detours(&mut inputs);
    other_orders(&mut inputs);
    refused_moves(&mut inputs);
    unmet_targets(&mut inputs);
    refused_yards(&mut inputs);
    numbers_of_lines(&mut inputs);
    yard_lines(&mut inputs);
    moves_heads(&mut inputs);
    move_lines(&mut inputs);
    reports(&mut inputs);
    line_ends(&mut inputs);
    two_faults(&mut inputs);
    by_a_hand(&mut inputs);
    long(&mut inputs);
    must_meet(&[0, 1, 4, 5, 6, 7, 9, 10, 11, 12, 13, 14, 15, 16, 17, 26, 27], inputs.all.iter().map(|(_, input)| program(input)));
    std::fs::create_dir_all(folder)?;
    for (name, input) in &inputs.all {
        std::fs::write(folder.join(format!("{name}.in")), input)?;
        std::fs::write(folder.join(format!("{name}.out")), program(input))?;
    }
    Ok(inputs.all.len())
}

#[derive(Default)]
struct Inputs {
    all: Vec<(String, Vec<u8>)>,
}

impl Inputs {
    /// An input whose answer begins as given: a case that is not what its name says is no use.
    fn add(&mut self, name: &str, input: Vec<u8>, begins: &str) {
        let due = program(&input);
        assert!(due.starts_with(begins.as_bytes()), "{name} is answered by {:?}", String::from_utf8_lossy(&due));
        self.all.push((format!("{:03}-{name}", self.all.len() + 1), input));
    }

    /// Accepted: so many moves, so many spare.
    fn accepted(&mut self, name: &str, input: Vec<u8>, moves: usize, spare: usize) {
        let report = "track up down\n";
        self.add(name, input, &format!("moves spare\n{moves} {spare}\n{report}"));
    }

    fn refused(&mut self, number: u32, place: usize, name: &str, input: Vec<u8>) {
        self.add(&format!("refusal-{number}-{name}"), input, &format!("refusal place\n{number} {place}\n"));
    }

    /// Whatever the answer is.
    fn any(&mut self, name: &str, input: Vec<u8>) {
        self.add(name, input, "");
    }
}

/// The first of so many, one amid them, and the last, each with its name.
fn places(many: usize) -> [(&'static str, usize); 3] {
    [("first", 0), ("middle", many / 2), ("last", many - 1)]
}

fn yard_a() -> Planned {
    Planned::of(Yard::shallow(&[0, 0, 0, 1, 1], &[0, 1, 0, 1, 0], &[0, 0, 1, 0, 1]))
}

fn yard_b() -> Planned {
    Planned::of(Yard::shallow(&[0, 0, 1], &[1, 1, 0], &[0, 1, 1]))
}

/// A line of nine nodes of depth 2: the sheet that most damaged ones are made of.
fn line_9() -> Planned {
    Planned::of(shapes::far(Shape::Line, 9, 2, &mut Random::new(0)))
}

/// Yards that document 01 works by hand, with plans of other kinds.
fn worked(inputs: &mut Inputs) {
    let a = yard_a();
    inputs.accepted("yard-a", a.sheets.text(), 4, 0);
    inputs.accepted("yard-a-no-report", a.sheets.without_report().text(), 4, 0);
    let moved = |plan: &[[u8; 2]]| a.sheets.with_moves(plan);
    let detour = [[1, 0], [0, 2], [3, 1], [1, 0], [0, 1], [1, 4]];
    inputs.accepted("yard-a-another-order", moved(&[[1, 4], [3, 1], [1, 0], [0, 2]]).text(), 4, 0);
    inputs.accepted("yard-a-a-detour-and-a-stale-report", moved(&detour).text(), 6, 2);
    inputs.accepted("yard-a-a-detour-and-no-report", moved(&detour).without_report().text(), 6, 2);
    inputs.accepted("yard-a-a-detour-and-its-report", Sheets::of(&a.yard, &detour).text(), 6, 2);
    let twice = [[1, 0], [0, 1], [1, 0], [0, 2], [2, 0], [0, 2], [3, 1], [1, 4]];
    inputs.accepted("yard-a-two-detours", moved(&twice).text(), 8, 4);
    inputs.refused(14, 2, "yard-a-no-move", moved(&[]).text());
    inputs.refused(14, 4, "yard-a-the-last-move-left-out", moved(&[[1, 0], [0, 2], [3, 1]]).text());
    let b = yard_b();
    inputs.accepted("yard-b", b.sheets.text(), 2, 0);
    inputs.refused(13, 0, "yard-b-the-second-move-first", b.sheets.with_moves(&[[0, 1], [1, 2]]).text());
    for (name, held) in [("held", 1), ("empty", 0)] {
        let c = Planned::of(Yard::shallow(&[0], &[held], &[held]));
        inputs.accepted(&format!("yard-c-{name}"), c.sheets.text(), 0, 0);
        inputs.refused(11, 0, &format!("yard-c-{name}-a-move"), c.sheets.with_moves(&[[0, 0]]).text());
    }
    let d = Planned::of(Yard::shallow(&[0, 0], &[1, 0], &[1, 0]));
    inputs.accepted("yard-d-no-move", d.sheets.text(), 0, 0);
    inputs.accepted("yard-d-there-and-back", d.sheets.with_moves(&[[0, 1], [1, 0]]).text(), 2, 2);
    inputs.accepted("yard-d-there-and-back-three-times", d.sheets.with_moves(&[[[0, 1], [1, 0]]; 3].concat()).text(), 6, 6);
    inputs.refused(14, 0, "yard-d-there-only", d.sheets.with_moves(&[[0, 1]]).text());
}

/// The planner's own sheets: with their reports, and without.
fn shaped(inputs: &mut Inputs) {
    let mut random = Random::new(401);
    for shape in Shape::ALL {
        for (n, deep) in [(2, true), (3, false), (5, true), (9, false), (16, true), (33, false)] {
            let planned = Planned::of(if deep { shapes::deep_yard(shape, n, &mut random) } else { shapes::yard(shape, n, &mut random) });
            let sheets = if random.once_in(2) { planned.sheets.clone() } else { planned.sheets.without_report() };
            let depth = if deep { "deep-" } else { "" };
            inputs.accepted(&format!("{depth}{}-{n}", shape.name()), sheets.text(), planned.plan.len(), 0);
        }
    }
    for shape in [Shape::Star, Shape::Binary, Shape::Random] {
        let planned = Planned::of(shapes::yard(shape, MAX_NODES, &mut random));
        inputs.accepted(&format!("{}-256", shape.name()), planned.sheets.text(), planned.plan.len(), 0);
    }
}

/// Ways there and back: each makes twice as many moves spare as there are on its way there. The
/// report below is the planner's, or none.
fn detours(inputs: &mut Inputs) {
    let mut random = Random::new(402);
    for number in 0..24 {
        let (where_, at_end) = [("first", 0), ("middle", 1), ("last", 2)][number % 3];
        let (plan, planned) = loop {
            let planned = Planned::moving(2, 24, &mut random);
            let at = [0, planned.plan.len() / 2, planned.plan.len()][at_end];
            let there = damage::wander(&after(&planned.yard, &planned.plan[..at]), 2 * (1 + number), &mut random);
            if !there.is_empty() {
                let mut plan = planned.plan.clone();
                put_in_detour(&mut plan, at, &moves(&there));
                break (plan, planned);
            }
        };
        let sheets = planned.sheets.with_moves(&plan).perhaps_without_report(&mut random);
        inputs.accepted(&format!("detour-{where_}"), sheets.text(), plan.len(), plan.len() - planned.plan.len());
    }
}

/// Shortest plans that are not the planner's: the last opening each time, or any.
fn other_orders(inputs: &mut Inputs) {
    let mut random = Random::new(403);
    for number in 0..12 {
        let planned = Planned::moving(4, 20, &mut random);
        let (mut yard, mut plan) = (planned.yard.clone(), Vec::new());
        loop {
            let openings = openings::of_tree(&yard);
            let openings: Vec<[u8; 2]> = openings.chunks(2).map(|ends| [ends[0], ends[1]]).collect();
            let Some(&last) = openings.last() else { break };
            let next = if number % 2 == 0 { last } else { random.pick(&openings) };
            yard = after(&yard, &[next]);
            plan.push(next);
        }
        assert_eq!(plan.len(), planned.plan.len());
        inputs.accepted("another-shortest-plan", planned.sheets.with_moves(&plan).text(), plan.len(), 0);
    }
}

/// One move of a plan replaced by one that is refused, at the first, a middle and the last place.
fn refused_moves(inputs: &mut Inputs) {
    let shallow = Planned::of(shapes::far(Shape::Line, 8, 1, &mut Random::new(0)));
    for (depth, planned) in [("", line_9()), ("depth-1-", shallow)] {
        let Planned { yard, plan, sheets } = &planned;
        let n = yard.nodes();
        let mut at = |number: u32, name: &str, place: usize, ends: [u8; 2], report: bool| {
            let mut altered = plan.clone();
            altered[place] = ends;
            let altered = sheets.with_moves(&altered);
            let text = if report { altered.text() } else { altered.without_report().text() };
            inputs.refused(number, place, &format!("{depth}{name}"), text);
        };
        for (where_, place) in places(plan.len()) {
            let [from, to] = plan[place];
            let here = after(yard, &plan[..place]);
            // Empty nodes with a place beside them, and full ones with a pebble beside them.
            let held = |node: usize| here.pebbles[node];
            let empty = (1..n).find(|&node| held(node) == 0 && held(node - 1) < yard.depths[node]);
            let full = (1..n).find(|&node| held(node) == yard.depths[node] && held(node - 1) > 0);
            let [empty, full] = [empty, full].map(|node| node.expect("cars are on their way along the line") as u8);
            at(12, where_, place, [empty, empty - 1], true);
            at(13, where_, place, [full - 1, full], false);
            at(10, &format!("from-n-{where_}"), place, [n as u8, to], true);
            at(10, &format!("to-n-{where_}"), place, [from, n as u8], false);
            at(11, &format!("to-itself-{where_}"), place, [from, from], true);
            at(11, &format!("end-to-end-{where_}"), place, [0, n as u8 - 1], false);
            if depth.is_empty() {
                at(10, &format!("to-255-{where_}"), place, [from, 255], true);
                at(10, &format!("both-outside-{where_}"), place, [200, 200], false);
                at(11, &format!("two-berths-on-{where_}"), place, [from, if from < 2 { from + 2 } else { from - 2 }], true);
            }
        }
    }
    let a = yard_a();
    // Of several wrong moves the first is told.
    let several = [[1, 0], [0, 3], [4, 1], [9, 9]];
    inputs.refused(11, 1, "the-first-of-three-wrong-moves", a.sheets.with_moves(&several).text());
    // The same two numbers that are no nodes are 10 and not 11; from an empty node into a full one
    // is 12 and not 13.
    inputs.refused(10, 0, "before-11", a.sheets.with_moves(&[[9, 9]]).text());
    inputs.refused(11, 0, "before-12", a.sheets.with_moves(&[[4, 2]]).text());
    inputs.refused(12, 0, "before-13", a.sheets.with_moves(&[[0, 1]]).text());
}

/// Moves that are legal and end elsewhere.
fn unmet_targets(inputs: &mut Inputs) {
    // The cars of a star's nodes 1 to 4 belong on 5 to 8.
    let star = Planned::of(Yard::shallow(&[0; 9], &[0, 1, 1, 1, 1, 0, 0, 0, 0], &[0, 0, 0, 0, 0, 1, 1, 1, 1]));
    for missing in 0..4 {
        let plan: Vec<[u8; 2]> = (0..4).filter(|&car| car != missing).flat_map(|car| [[car + 1, 0], [0, car + 5]]).collect();
        inputs.refused(14, usize::from(missing) + 5, &format!("star-without-car-{}", missing + 1), star.sheets.with_moves(&plan).text());
    }
    let plan = [[1, 0], [0, 5], [2, 0], [0, 6], [3, 0], [0, 7], [4, 0]];
    inputs.refused(14, 8, "the-last-car-left-at-the-root", star.sheets.with_moves(&plan).without_report().text());
    // A node that holds a car, but fewer than it is to hold.
    let deep = Planned::of(Yard { parents: vec![0, 0, 0], pebbles: vec![5, 0, 1], targets: vec![0, 3, 3], depths: vec![5, 3, 3] });
    inputs.accepted("deep-star", deep.sheets.text(), 5, 0);
    inputs.refused(14, 2, "one-car-fewer-than-its-targets", deep.sheets.with_moves(&deep.plan[..4]).text());
    inputs.refused(14, 1, "the-lowest-of-two-such-berths", deep.sheets.with_moves(&deep.plan[..2]).text());
    inputs.refused(14, 0, "the-root", Planned::of(Yard::shallow(&[0, 0], &[0, 1], &[1, 0])).sheets.with_moves(&[]).text());
}

/// A yard with one fault, at the first node, a middle one and the last, with moves below it.
fn refused_yards(inputs: &mut Inputs) {
    let planned = line_9();
    let n = planned.yard.nodes();
    let mut fault = |number: u32, place: usize, name: &str, alter: &dyn Fn(&mut Yard)| {
        let mut yard = planned.yard.clone();
        alter(&mut yard);
        let sheets = Sheets { yard: lines(&unjudged(&yard)), ..planned.sheets.clone() };
        inputs.refused(number, place, name, sheets.text());
    };
    for (where_, node) in places(n) {
        fault(26, node, &format!("depth-0-{where_}"), &|yard| yard.depths[node] = 0);
        fault(26, node, &format!("depth-9-{where_}"), &|yard| yard.depths[node] = 9);
        fault(27, node, &format!("cars-{where_}"), &|yard| yard.pebbles[node] = 3);
        fault(27, node, &format!("targets-{where_}"), &|yard| yard.targets[node] = 255);
        fault(4, node, &format!("parent-n-{where_}"), &|yard| yard.parents[node] = n as u8);
        fault(4, node, &format!("parent-255-{where_}"), &|yard| yard.parents[node] = 255);
    }
    fault(5, 0, "no-root", &|yard| yard.parents[0] = 1);
    for (where_, node) in [("first", 1), ("middle", n / 2), ("last", n - 1)] {
        fault(5, node, &format!("a-second-root-{where_}"), &|yard| yard.parents[node] = node as u8);
    }
    fault(6, 1, "circle-first", &|yard| yard.parents[1] = 8);
    fault(6, 4, "circle-middle", &|yard| yard.parents[4] = 5);
    fault(6, 7, "circle-last", &|yard| yard.parents[7] = 8);
    fault(7, 0, "one-car-more", &|yard| yard.pebbles[8] = 1);
    fault(7, 0, "one-target-more", &|yard| yard.targets[0] = 1);
    fault(7, 0, "no-car", &|yard| yard.pebbles.fill(0));
    fault(26, 8, "before-27", &|yard| (yard.pebbles[0], yard.depths[8]) = (9, 9));
    fault(27, 8, "cars-before-targets", &|yard| (yard.targets[0], yard.pebbles[8]) = (9, 9));
    fault(27, 8, "before-4", &|yard| (yard.parents[0], yard.targets[8]) = (9, 9));
    fault(5, 8, "before-6", &|yard| (yard.parents[1], yard.parents[2], yard.parents[8]) = (2, 1, 8));
    // Whatever is wrong with the moves, the yard is told first.
    let a = yard_a();
    let mut yard = a.yard.clone();
    yard.targets[0] = 1;
    let moves = a.sheets.with_moves(&[[9, 9]]);
    inputs.refused(7, 0, "before-10", Sheets { yard: lines(&unjudged(&yard)), ..moves }.text());
}

/// No node, and about 256 of them.
fn numbers_of_lines(inputs: &mut Inputs) {
    for (name, moves) in [("alone", ""), ("and-a-move-sheet", "from to\n0 0\ntrack up down\n"), ("and-a-blank-line", "\n")] {
        inputs.refused(1, 2, &format!("header-{name}"), format!("{HEADER}{moves}").into_bytes());
    }
    let rows = |n: usize| -> String { (0..n).map(|node| format!("{node} 0 0 0 1\n")).collect() };
    inputs.accepted("256-berths-no-car", format!("{HEADER}{}from to\n", rows(256)).into_bytes(), 0, 0);
    for (name, more) in [("a-257th-berth", "256 0 0 0 1\nfrom to\n"), ("a-move-without-its-head", "1 0\n"), ("one-digit", "0")] {
        inputs.refused(1, 258, name, format!("{HEADER}{}{more}", rows(256)).into_bytes());
    }
    inputs.refused(15, 258, "no-move-sheet-below-256-berths", format!("{HEADER}{}", rows(256)).into_bytes());
    inputs.refused(1, 258, "300-berths", format!("{HEADER}{}from to\n", rows(300)).into_bytes());
}

/// The yard sheet's lines altered, at the first node, a middle one and the last.
fn yard_lines(inputs: &mut Inputs) {
    let planned = line_9();
    let (n, sheets) = (planned.yard.nodes(), &planned.sheets);
    let with = |line: usize, text: &str| -> Vec<u8> {
        let mut altered = sheets.clone();
        altered.yard[line] = text.as_bytes().to_vec();
        altered.text()
    };
    for (name, header) in [
        ("header-without-depth", "berth parent car target\n"),
        ("header-with-a-space-more", "berth parent car target depth \n"),
        ("header-with-a-capital", "Berth parent car target depth\n"),
        ("header-with-a-carriage-return", "berth parent car target depth\r\n"),
        ("header-with-a-byte-order-mark", "\u{feff}berth parent car target depth\n"),
        ("header-is-empty", "\n"),
    ] {
        inputs.refused(15, 1, name, with(0, header));
    }
    for (where_, node) in places(n) {
        let line = node + 2;
        let own = String::from_utf8(sheets.yard[1 + node].clone()).expect("digits");
        let own = own.trim_end();
        inputs.refused(16, line, &format!("yard-trailing-space-{where_}"), with(1 + node, &format!("{own} \n")));
        inputs.refused(16, line, &format!("yard-leading-zero-{where_}"), with(1 + node, &format!("0{own}\n")));
        inputs.refused(16, line, &format!("yard-four-values-{where_}"), with(1 + node, &format!("{}\n", &own[..own.len() - 2])));
        inputs.refused(16, line, &format!("yard-carriage-return-{where_}"), with(1 + node, &format!("{own}\r\n")));
        inputs.refused(17, line, &format!("another-number-{where_}"), with(1 + node, &format!("{}{}\n", node + 1, &own[1..])));
        let mut doubled = sheets.clone();
        doubled.yard.insert(1 + node, sheets.yard[1 + node].clone());
        inputs.refused(17, line + 1, &format!("doubled-{where_}"), doubled.text());
        // A line that does not begin with a digit ends the yard sheet.
        let due = if node == 0 { (1, 2) } else { (15, line) };
        inputs.refused(due.0, due.1, &format!("yard-leading-space-{where_}"), with(1 + node, &format!(" {own}\n")));
    }
    let mut exchanged = sheets.clone();
    exchanged.yard.swap(4, 5);
    inputs.refused(17, 5, "two-lines-exchanged", exchanged.text());
    let mut fewer = sheets.clone();
    fewer.yard.remove(4);
    inputs.refused(17, 5, "a-line-left-out", fewer.text());
}

/// `from to` misspelt, missing, elsewhere.
fn moves_heads(inputs: &mut Inputs) {
    let planned = yard_a();
    let sheets = &planned.sheets;
    let with = |head: &str| {
        let mut altered = sheets.clone();
        altered.moves[0] = head.as_bytes().to_vec();
        altered.text()
    };
    for (name, head) in [
        ("two-spaces", "from  to\n"),
        ("a-space-more", "from to \n"),
        ("a-carriage-return", "from to\r\n"),
        ("a-capital", "From to\n"),
        ("a-comma", "from, to\n"),
        ("turned-round", "to from\n"),
        ("a-blank-line-before-it", "\nfrom to\n"),
        ("empty", "\n"),
        ("the-report's", "track up down\n"),
    ] {
        let name = name.replace('\'', "");
        inputs.refused(15, 7, &format!("moves-head-{name}"), with(head));
    }
    inputs.refused(15, 7, "the-yard-sheet-alone", sheets.yard.concat());
    inputs.refused(15, 7, "moves-head-cut", [sheets.yard.concat(), b"from t".to_vec()].concat());
    inputs.refused(15, 7, "moves-head-without-a-line-feed", [sheets.yard.concat(), b"from to".to_vec()].concat());
    inputs.refused(16, 7, "no-moves-head", with(""));
    inputs.refused(16, 8, "moves-head-twice", with("from to\nfrom to\n"));
    inputs.refused(15, 1, "the-moves-alone", sheets.moves.concat());
    inputs.refused(15, 1, "the-moves-first", [sheets.moves.concat(), sheets.yard.concat()].concat());
    inputs.refused(15, 1, "nothing", Vec::new());
    inputs.refused(15, 7, "the-yard-twice", [sheets.yard.concat(), sheets.text()].concat());
}

/// Lines in the place of a move that are none; at the first move, a middle one and the last.
fn move_lines(inputs: &mut Inputs) {
    let planned = line_9();
    let (plan, sheets) = (&planned.plan, &planned.sheets);
    let mut at = |name: &str, place: usize, line: Line| {
        let mut altered = sheets.clone();
        altered.moves[1 + place] = line;
        inputs.refused(16, sheets.number(1 + place), name, altered.text());
    };
    for (where_, place) in places(plan.len()) {
        let [from, to] = plan[place];
        for (name, text) in [
            ("trailing-space", format!("{from} {to} \n")),
            ("leading-space", format!(" {from} {to}\n")),
            ("leading-zero", format!("{from} 0{to}\n")),
            ("three-values", format!("{from} {to} 0\n")),
            ("256", format!("{from} 256\n")),
            ("comma", format!("{from},{to}\n")),
            ("carriage-return", format!("{from} {to}\r\n")),
            ("empty", "\n".to_string()),
        ] {
            at(&format!("move-{name}-{where_}"), place, text.into_bytes());
        }
    }
    for (name, line) in [
        ("one-value", "1\n"),
        ("two-spaces", "1  2\n"),
        ("tab", "1\t2\n"),
        ("minus", "1 -2\n"),
        ("plus", "+1 2\n"),
        ("arrow", "1 > 2\n"),
        ("a-remark", "1 2 # by hand\n"),
        ("letters", "l O\n"),
        ("hexadecimal", "0x1 2\n"),
        ("two-to-the-64", "18446744073709551616 2\n"),
        ("the-head-again", "from to\n"),
        ("a-berth's-line", "0 0 0 0 1\n"),
        ("zero-byte", "1 2\0\n"),
        ("byte-above-ascii", "1 \u{662}\n"),
    ] {
        at(&format!("move-{}", name.replace('\'', "")), 3, line.as_bytes().to_vec());
    }
    // A damaged line below a wrong push is told first.
    let mut wrong = sheets.with_moves(&vec![[9, 9]; plan.len()]);
    wrong.moves[4] = b"1 2,\n".to_vec();
    inputs.refused(16, sheets.number(4), "below-wrong-pushes", wrong.text());
    let mut cut = sheets.without_report();
    cut.moves.last_mut().expect("a move").pop();
    inputs.refused(16, sheets.number(plan.len()), "the-last-move-without-a-line-feed", cut.text());
}

/// What stands below the moves.
fn reports(inputs: &mut Inputs) {
    let planned = yard_a();
    let (plan, sheets) = (&planned.plan, &planned.sheets);
    let front = sheets.without_report().text();
    let report = sheets.report.concat();
    let other = yard_b().sheets;
    for (name, rest) in [
        ("its-head-alone", REPORT_HEAD.to_vec()),
        ("cut-short", report[..report.len() - 1].to_vec()),
        ("another-yards", other.report.concat()),
        ("junk", [REPORT_HEAD, b"junk \0\xff\n\n"].concat()),
        ("moves-below-it", [&report[..], b"1 0\n0 1\n"].concat()),
        ("both-sheets-of-another-yard-below-it", [report.clone(), other.text()].concat()),
        ("twice", report.repeat(2)),
        ("wrong-numbers", b"track up down\n1 9 9\n2 0 1\n3 1 0\n4 0 1\ntotal\n99\n".to_vec()),
        ("without-its-total", b"track up down\n1 1 0\n2 0 1\n3 1 0\n4 0 1\n".to_vec()),
    ] {
        inputs.accepted(&format!("report-{name}"), [front.clone(), rest].concat(), 4, 0);
    }
    let line = sheets.number(1 + plan.len());
    for (name, head) in [
        ("two-spaces", "track up  down\n"),
        ("a-space-more", "track up down \n"),
        ("a-carriage-return", "track up down\r\n"),
        ("a-capital", "Track up down\n"),
        ("cut", "track up dow"),
        ("without-a-line-feed", "track up down"),
        ("a-blank-line-before-it", "\ntrack up down\n"),
        ("missing", ""),
        ("total", "total\n"),
    ] {
        let rest = if head.ends_with('\n') || head.is_empty() { &report[REPORT_HEAD.len()..] } else { b"" };
        inputs.refused(16, line, &format!("report-head-{name}"), [&front, head.as_bytes(), rest].concat());
    }
    // Amid the moves it ends them.
    for (where_, place) in places(plan.len()) {
        let mut altered = sheets.clone();
        altered.moves.insert(1 + place, REPORT_HEAD.to_vec());
        inputs.add(&format!("refusal-14-report-amid-the-moves-{where_}"), altered.text(), "refusal place\n14 ");
    }
}

/// Line ends as other systems write them, and lines that an editor adds.
fn line_ends(inputs: &mut Inputs) {
    let planned = yard_a();
    let text = planned.sheets.text();
    let ended = |text: &[u8], end: &[u8]| -> Vec<u8> {
        text.iter().flat_map(|&byte| if byte == b'\n' { end.to_vec() } else { vec![byte] }).collect()
    };
    inputs.refused(15, 1, "crlf-everywhere", ended(&text, b"\r\n"));
    inputs.refused(15, 1, "cr-everywhere", ended(&text, b"\r"));
    let Sheets { yard, moves, report } = &planned.sheets;
    let [yard, moves, report] = [yard, moves, report].map(|lines| lines.concat());
    inputs.refused(15, 7, "crlf-in-the-move-sheet", [&yard[..], &ended(&moves, b"\r\n"), &report].concat());
    inputs.accepted("crlf-in-the-report", [&yard[..], &moves, REPORT_HEAD, &ended(&report[REPORT_HEAD.len()..], b"\r\n")].concat(), 4, 0);
    inputs.refused(15, 7, "a-blank-line-between-the-sheets", [&yard[..], b"\n", &moves, &report].concat());
    inputs.refused(16, 12, "a-blank-line-below-the-moves", [&yard[..], &moves, b"\n"].concat());
    inputs.accepted("a-blank-line-below-the-report", [&yard[..], &moves, &report, b"\n"].concat(), 4, 0);
    inputs.refused(15, 1, "a-blank-line-first", [b"\n", &text[..]].concat());
    inputs.refused(15, 1, "a-byte-order-mark", [&b"\xef\xbb\xbf"[..], &text].concat());
    inputs.refused(15, 7, "a-byte-order-mark-between-the-sheets", [&yard[..], b"\xef\xbb\xbf", &moves, &report].concat());
}

/// Each fault with the fault that is told next, and the first fault with the last.
fn two_faults(inputs: &mut Inputs) {
    for (first, &(own, number, place)) in FAULTS.iter().enumerate() {
        let (other, later, _) = FAULTS[(first + 1) % FAULTS.len()];
        let altered = star_with(&[own, other]);
        if first + 1 < FAULTS.len() {
            inputs.refused(number, place, &format!("and-{later}-too"), altered);
        } else {
            inputs.refused(15, 1, "and-14-too", altered);
        }
    }
}

/// Moves altered as a hand would, with whatever comes of it.
fn by_a_hand(inputs: &mut Inputs) {
    let mut random = Random::new(404);
    for number in 0..40 {
        let Planned { yard, mut plan, sheets } = Planned::moving(3, 30, &mut random);
        let (at, other) = (random.below(plan.len()), random.below(plan.len()));
        let what = match number % 10 {
            0 => {
                plan.remove(at);
                "left-out"
            }
            1 => {
                plan.insert(at, plan[at]);
                "doubled"
            }
            2 => {
                plan.swap(at, other);
                "two-exchanged"
            }
            3 => {
                let next = (at + 1) % plan.len();
                plan.swap(at, next);
                "neighbours-exchanged"
            }
            4 => {
                plan[at].reverse();
                "turned-round"
            }
            5 => {
                plan.insert(at, damage::any_move(&yard, &mut random));
                "put-in"
            }
            6 => {
                plan.truncate(at);
                "the-end-left-out"
            }
            7 => {
                plan[at][random.below(2)] ^= 1;
                "the-next-number"
            }
            8 => {
                plan.reverse();
                "the-last-first"
            }
            _ => {
                plan.extend(plan.clone());
                "the-whole-twice"
            }
        };
        inputs.any(&format!("by-hand-{what}"), sheets.with_moves(&plan).perhaps_without_report(&mut random).text());
    }
    for _ in 0..20 {
        let Planned { sheets, .. } = Planned::moving(2, 12, &mut random);
        let mut text = sheets.text();
        damage::sheet(&mut text, &mut random);
        inputs.any("by-hand-up-to-three-bytes-or-lines", text);
    }
}

/// As many moves as there can be, one more, and the longest plan of depth 1.
fn long(inputs: &mut Inputs) {
    let planned = Planned::of(shapes::far(Shape::Line, MAX_NODES, 1, &mut Random::new(0)));
    inputs.accepted("line-256-far-16384-moves", planned.sheets.without_report().text(), 16_384, 0);
    let d = Yard::shallow(&[0, 0], &[1, 0], &[1, 0]);
    let front = [unjudged(&d), MOVES_HEAD.to_vec()].concat();
    let most = MOST_MOVES_READ - 1;
    inputs.accepted("131072-moves", [front.clone(), b"0 1\n1 0\n".repeat(most / 2)].concat(), most, most);
    inputs.refused(9, 0, "131073-moves", [front, b"0 1\n1 0\n".repeat(most / 2), b"0 1\n".to_vec()].concat());
}
