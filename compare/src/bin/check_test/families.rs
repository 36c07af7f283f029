//! The cases, in families: what a fitter makes of good sheets, on purpose or by a slip.

use crate::Held;
use std::ops::Range;
use unrelated::check_sheet::{JUDGED_BYTES, MOST_MOVES_READ, MOVES_HEAD, REPORT_HEAD};
use unrelated::checker::{check, Checked, MAX_PLAN_BYTES};
use unrelated::damage;
use unrelated::fitter::{after, lines, moves, put_in_detour, spare, star_with, Line, Planned, Sheets, FAULTS};
use unrelated::piped::Outcome;
use unrelated::random::Random;
use unrelated::shapes::{self, every_yard, far, Shape};
use unrelated::sheet::{unjudged, HEADER, MAX_SHEET_BYTES};
use unrelated::yard::{judge_matched, refuse, Answer, Yard, MAX_DEPTH, MAX_NODES};

pub type Family = fn(&mut Held, &mut Random) -> Outcome;

pub const FAMILIES: [(&str, Family); 20] = [
    ("yard A and a fitter's ways with it, by hand", by_hand),
    ("the planner's own sheets, with their reports and without", own_sheets),
    ("moves left out, doubled, exchanged, turned round, put in", altered_moves),
    ("detours there and back", detours),
    ("a digit altered, put in or left out", digits),
    ("lines of another shape", other_lines),
    ("line ends of another kind, or none", line_ends),
    ("blank lines and the like", blank_lines),
    ("`from to` misspelt, missing, elsewhere", moves_heads),
    ("`track up down` misspelt, missing, elsewhere; anything behind it", reports),
    ("yard lines altered", yard_lines),
    ("no node, 256 and more", numbers_of_nodes),
    ("yards that are refused", refused_yards),
    ("no move", no_move),
    ("two faults, of which the first is told", two_faults),
    ("about as many moves as are taken and read", long_plans),
    ("more bytes than are judged", long_inputs),
    ("nonsense", nonsense),
    ("every beginning of an input", beginnings),
    ("every byte of an input altered, left out, one put in", every_byte),
];

/// Parents, pebbles and targets of document 01's yards A, B and C.
fn worked_yards() -> [Yard; 3] {
    [
        Yard::shallow(&[0, 0, 0, 1, 1], &[0, 1, 0, 1, 0], &[0, 0, 1, 0, 1]),
        Yard::shallow(&[0, 0, 1], &[1, 1, 0], &[0, 1, 1]),
        Yard::shallow(&[0], &[1], &[1]),
    ]
}

/// These, and any small ones that have moves.
fn small_yards(more: usize, random: &mut Random) -> Vec<Planned> {
    worked_yards().map(Planned::of).into_iter().chain((0..more).map(|_| Planned::moving(2, 12, random))).collect()
}

fn by_hand(held: &mut Held, _: &mut Random) -> Outcome {
    let yard = "berth parent car target depth\n0 0 0 0 1\n1 0 1 0 1\n2 0 0 1 1\n3 1 1 0 1\n4 1 0 1 1\n";
    let report = "track up down\n1 1 0\n2 0 1\n3 1 0\n4 0 1\ntotal\n4\n";
    for (what, moves, due) in [
        ("as it is printed", "1 0\n0 2\n3 1\n1 4\n", "moves spare\n4 0\ntrack up down\n1 1 0\n2 0 1\n3 1 0\n4 0 1\ntotal\n4\n"),
        ("another way", "1 4\n3 1\n1 0\n0 2\n", "moves spare\n4 0\ntrack up down\n1 1 0\n2 0 1\n3 1 0\n4 0 1\ntotal\n4\n"),
        ("a detour", "1 0\n0 2\n3 1\n1 0\n0 1\n1 4\n", "moves spare\n6 2\ntrack up down\n1 2 1\n2 0 1\n3 1 0\n4 0 1\ntotal\n6\n"),
        (
            "two detours",
            "1 0\n0 1\n1 0\n0 2\n2 0\n0 2\n3 1\n1 4\n",
            "moves spare\n8 4\ntrack up down\n1 2 1\n2 1 2\n3 1 0\n4 0 1\ntotal\n8\n",
        ),
        ("a node too many", "1 0\n0 2\n3 1\n1 5\n", "refusal place\n10 3\n"),
        ("no edge", "1 0\n0 3\n3 1\n1 4\n", "refusal place\n11 1\n"),
        ("a node to itself", "1 1\n0 2\n3 1\n1 4\n", "refusal place\n11 0\n"),
        ("an empty node", "1 0\n0 2\n4 1\n1 4\n", "refusal place\n12 2\n"),
        ("a held node", "3 1\n1 0\n0 2\n1 4\n", "refusal place\n13 0\n"),
        ("the last left out", "1 0\n0 2\n3 1\n", "refusal place\n14 4\n"),
        ("all left out", "", "refusal place\n14 2\n"),
        ("a line of another shape", "1 0\n0 2 \n3 1\n1 4\n", "refusal place\n16 9\n"),
        ("the same behind a wrong move", "9 9\n0 2\n3 1\n1 4,\n", "refusal place\n16 11\n"),
    ] {
        held.prints(what, format!("{yard}from to\n{moves}").as_bytes(), due)?;
        held.prints(what, format!("{yard}from to\n{moves}{report}").as_bytes(), due)?;
    }
    held.prints("no head", format!("{yard}1 0\n0 2\n3 1\n1 4\n").as_bytes(), "refusal place\n16 7\n")?;
    held.prints("another head", format!("{yard}from, to\n1 0\n0 2\n3 1\n1 4\n").as_bytes(), "refusal place\n15 7\n")?;
    held.prints("the yard alone", yard.as_bytes(), "refusal place\n15 7\n")?;
    held.prints("the moves alone", b"from to\n1 0\n0 2\n3 1\n1 4\n", "refusal place\n15 1\n")?;
    held.prints("nothing", b"", "refusal place\n15 1\n")
}

/// The moves of the plan, none of them spare; where pebbles and targets differ in number, no move.
fn own_sheets(held: &mut Held, random: &mut Random) -> Outcome {
    let small = [vec![1], vec![1; 2], vec![1; 3], vec![3], vec![2; 2]].into_iter().flat_map(every_yard);
    let sizes = Shape::ALL.into_iter().flat_map(|shape| [4, 9, 10, 11, 99, 100, 101, MAX_NODES].map(|n| (shape, n)));
    let mut large: Vec<Yard> = sizes.flat_map(|(shape, n)| [shapes::yard(shape, n, random), shapes::deep_yard(shape, n, random)]).collect();
    large.extend(Shape::ALL.map(|shape| far(shape, MAX_NODES, 1, random)));
    // The longest plan that the move program prints, and the longest of all.
    large.extend([2, MAX_DEPTH].map(|depth| far(Shape::Line, MAX_NODES, depth, random)));
    for yard in small.chain(large) {
        if let Err(refusal) = judge_matched(&yard) {
            // Of the many that have no plan, some.
            if random.once_in(3) {
                held.is("no plan", &Sheets::of(&yard, &[]).perhaps_without_report(random).text(), Err(refusal))?;
            }
            continue;
        }
        let planned = Planned::of(yard);
        held.is("with its report", &planned.sheets.text(), planned.due())?;
        held.is("without its report", &planned.sheets.without_report().text(), planned.due())?;
    }
    Ok(())
}

fn altered_moves(held: &mut Held, random: &mut Random) -> Outcome {
    for number in 0..600 {
        let most = if number % 20 == 0 { MAX_NODES } else { 40 };
        let Planned { yard, mut plan, sheets } = Planned::moving(1, most, random);
        let n = yard.nodes();
        let (at, other, node) = (random.below(plan.len()), random.below(plan.len()), random.below(n));
        let next = (at + 1) % plan.len();
        let what = match random.below(10) {
            0 => {
                plan.remove(at);
                "a move left out"
            }
            1 => {
                plan.insert(at, plan[at]);
                "a move doubled"
            }
            2 => {
                plan.swap(at, other);
                "two moves exchanged"
            }
            3 => {
                plan.swap(at, next);
                "neighbours exchanged"
            }
            4 => {
                plan[at].reverse();
                "a move turned round"
            }
            5 => {
                plan.insert(at, damage::any_move(&yard, random));
                "a move put in"
            }
            6 => {
                plan.truncate(at);
                "the end left out"
            }
            7 => {
                plan[at][random.below(2)] = random.pick(&[n.min(255), n - 1, 255, node]) as u8;
                "another node"
            }
            8 => {
                plan.reverse();
                "the last move first"
            }
            _ => {
                let mut bytes = plan.concat();
                damage::plan(&mut bytes, &yard, random);
                plan = bytes.chunks_exact(2).map(|ends| [ends[0], ends[1]]).collect();
                "up to three alterations"
            }
        };
        held.is(what, &sheets.with_moves(&plan).perhaps_without_report(random).text(), check(&yard, &plan.concat()))?;
    }
    Ok(())
}

/// Each detour makes twice as many moves spare as there are on its way there.
fn detours(held: &mut Held, random: &mut Random) -> Outcome {
    let mut cases = 0;
    while cases < 400 {
        let Planned { yard, mut plan, sheets } = Planned::any(if cases % 20 == 0 { MAX_NODES } else { 30 }, random);
        let shortest = plan.len();
        for _ in 0..random.within(1, 3) {
            let at = random.below(plan.len() + 1);
            let most = random.pick(&[1, 1, 2, 5, 30]);
            let there = damage::wander(&after(&yard, &plan[..at]), 2 * most, random);
            put_in_detour(&mut plan, at, &moves(&there)[..most.min(there.len() / 2)]);
        }
        // Where nothing can move there is no detour.
        if plan.len() > shortest {
            cases += 1;
            let input = sheets.with_moves(&plan).perhaps_without_report(random).text();
            held.is("a detour", &input, spare(plan.len(), plan.len() - shortest))?;
        }
    }
    Ok(())
}

/// The move that a line of two words of digits says: each must be the value's own writing.
fn said(line: &[u8]) -> Option<[u8; 2]> {
    let text = std::str::from_utf8(line).ok()?.trim_end_matches('\n');
    let values: Vec<u8> = text.split(' ').filter_map(|word| word.parse::<u8>().ok().filter(|value| value.to_string() == word)).collect();
    values.try_into().ok()
}

fn digits(held: &mut Held, random: &mut Random) -> Outcome {
    for number in 0..400 {
        let Planned { yard, mut plan, mut sheets } = Planned::moving(1, if number % 4 == 0 { MAX_NODES } else { 40 }, random);
        let at = random.below(plan.len());
        let line = &mut sheets.moves[1 + at];
        let places: Vec<usize> = (0..line.len()).filter(|&place| line[place].is_ascii_digit()).collect();
        let (place, digit) = (random.pick(&places), random.pick(b"0123456789"));
        let what = match random.below(4) {
            0 => {
                line.insert(place, digit);
                "a digit put in"
            }
            1 => {
                line.remove(place);
                "a digit left out"
            }
            _ => {
                line[place] = digit;
                "a digit altered"
            }
        };
        let due = match said(line) {
            Some(ends) => {
                plan[at] = ends;
                check(&yard, &plan.concat())
            }
            None => refuse(16, sheets.number(1 + at)),
        };
        held.is(what, &sheets.perhaps_without_report(random).text(), due)?;
    }
    Ok(())
}

/// What may stand in the place of the move `$ %`, of `from to` or of `track up down`, and is none;
/// parted by bars.
const NO_MOVES: &str =
    "$ % | $ %|$  %|$\t%|$ %\t|$ %\r|$\u{b}%|$ %\u{c}|$ %\0|$\0%|$\u{a0}%|\u{feff}$ %|0$ %|$ 0%|$ 00|256 %|$ 256|$ 999|1000 %|\
    $|$ | %|$%|$ % 0|$ % 1 1 1|$,%|$, %|$-%|$ > %|$. %|+$ %|$ -%|$ %.|$.0 %|0x$ %|$ %e0|# $ %|$ % # mine|$ to %|\
    | |l O|1 O|/ 1|1 :|１ ０|١ ٠|² ³|from to|FROM TO|total|moves spare|0 0 0 0 1|berth parent car target depth";
const OTHER_MOVES_HEADS: &str =
    "from  to|from to | from to|from\tto|from to\r|from to\0|\0from to|\u{feff}from to|fromto|from|from |from t|from too|from to to|\
    from to 1 0|to from|From to|FROM TO|from-to|from, to|rom to|of to|from tо|from zu|| |track up down|total|moves spare|refusal place|\
    berth parent car target depth";
const OTHER_REPORT_HEADS: &str =
    "track|track |track up|track up |track up dow|track up down | track up down|track up  down|track  up down|track\tup\tdown|\
    trackupdown|track up down\r|track up down\0|track up down down|track up down 1 1 0|track down up|tracks up down|\
    Track up down|TRACK UP DOWN|rack up down|edge up down|track up town";

/// Each as a line.
fn each_of(texts: &str) -> Vec<Line> {
    texts.split('|').map(|text| format!("{text}\n").into_bytes()).collect()
}

fn no_moves([from, to]: [u8; 2]) -> Vec<Line> {
    // `from` once the high bytes are lost.
    let wide = [8, 32, 64].map(|bits| format!("{} {to}\n", (1u128 << bits) + u128::from(from)).into_bytes());
    let written = NO_MOVES.replace('$', &from.to_string()).replace('%', &to.to_string());
    [each_of(&written), each_of(OTHER_REPORT_HEADS), wide.to_vec(), vec![b"\xff \xfe\n".to_vec()]].concat()
}

/// In the place of the first move, of the last or of any, or before it. Moves that are refused do
/// not matter there.
fn other_lines(held: &mut Held, random: &mut Random) -> Outcome {
    for most in [2, 12, MAX_NODES] {
        let Planned { yard, plan, sheets } = Planned::moving(1, most, random);
        let last = plan.len() - 1;
        for at in [0, last, random.below(plan.len())] {
            for text in no_moves(plan[at]) {
                let wrong = random.once_in(3);
                let mut altered =
                    if wrong { sheets.with_moves(&vec![damage::any_move(&yard, random); plan.len()]) } else { sheets.clone() };
                let what = format!("{:?} at move {at}", String::from_utf8_lossy(&text));
                if random.once_in(3) {
                    altered.moves.insert(1 + at, text);
                } else {
                    altered.moves[1 + at] = text;
                }
                held.is(&what, &altered.perhaps_without_report(random).text(), refuse(16, sheets.number(1 + at)))?;
            }
        }
    }
    Ok(())
}

/// Every line in turn, and all from it on.
fn line_ends(held: &mut Held, random: &mut Random) -> Outcome {
    for planned in small_yards(2, random) {
        for sheets in [planned.sheets.clone(), planned.sheets.without_report()] {
            let lines = sheets.lines();
            let (head, report) = (sheets.yard.len(), sheets.yard.len() + sheets.moves.len());
            for at in 0..lines.len() {
                let due = match at {
                    0 => refuse(15, 1),
                    _ if at < head => refuse(16, at + 1),
                    _ if at == head => refuse(15, at + 1),
                    _ if at <= report => refuse(16, at + 1),
                    _ => planned.due(),
                };
                for (what, end) in [("no line feed", &b""[..]), ("CR LF", b"\r\n"), ("a space before the line feed", b" \n")] {
                    let mut altered = lines.clone();
                    altered[at].splice(lines[at].len() - 1.., end.iter().copied());
                    held.is(what, &altered.concat(), due)?;
                }
                let ended = |end: &[u8]| -> Vec<u8> {
                    let others = lines[at..].iter().flat_map(|line| [&line[..line.len() - 1], end].concat());
                    lines[..at].concat().into_iter().chain(others).collect()
                };
                held.is("CR LF from there on", &ended(b"\r\n"), due)?;
                held.is("CR from there on", &ended(b"\r"), due)?;
            }
        }
    }
    Ok(())
}

/// Before every line in turn, and after the last: lines that do not begin with a digit.
fn blank_lines(held: &mut Held, random: &mut Random) -> Outcome {
    for planned in small_yards(2, random) {
        for sheets in [planned.sheets.clone(), planned.sheets.without_report()] {
            let lines = sheets.lines();
            let (head, report) = (sheets.yard.len(), sheets.yard.len() + sheets.moves.len());
            for at in 0..=lines.len() {
                let due = match at {
                    0 => refuse(15, 1),
                    1 => refuse(1, 2),
                    _ if at <= head => refuse(15, at + 1),
                    _ if at <= report => refuse(16, at + 1),
                    _ => planned.due(),
                };
                for blank in [&b"\n"[..], b" \n", b"# mine\n"] {
                    held.is("a blank line", &[&lines[..at].concat(), blank, &lines[at..].concat()].concat(), due)?;
                }
            }
        }
    }
    Ok(())
}

fn moves_heads(held: &mut Held, random: &mut Random) -> Outcome {
    let mut yards = small_yards(3, random);
    yards.push(Planned::of(shapes::yard(Shape::Random, MAX_NODES, random)));
    yards.push(Planned::of(Yard::shallow(&[0, 0], &[1, 0], &[1, 0])));
    for Planned { yard, plan, sheets } in yards {
        let head = sheets.number(0);
        let is = |held: &mut Held, what: &str, moves: Vec<Line>, random: &mut Random, due: Answer<Checked>| {
            let altered = Sheets { moves, ..sheets.clone() };
            held.is(what, &altered.perhaps_without_report(random).text(), due)
        };
        // A line that begins with a digit is one of the yard's.
        let of_yard = if yard.nodes() == MAX_NODES { refuse(1, head) } else { refuse(16, head) };
        let moves = &sheets.moves[1..];
        for other in each_of(OTHER_MOVES_HEADS) {
            let what = format!("the head {:?}", String::from_utf8_lossy(&other));
            is(held, &what, [&[other], moves].concat(), random, refuse(15, head))?;
        }
        for other in each_of("0from to|1 0\nfrom to|0|9 from to") {
            is(held, "a head with a digit first", [&[other], moves].concat(), random, of_yard)?;
        }
        is(held, "no head", moves.to_vec(), random, if plan.is_empty() { refuse(15, head) } else { of_yard })?;
        is(held, "the head twice", [&sheets.moves[..1], &sheets.moves].concat(), random, refuse(16, head + 1))?;
        let due = if plan.is_empty() { spare(0, 0) } else { of_yard };
        is(held, "the head behind the moves", [moves, &sheets.moves[..1]].concat(), random, due)?;
        for length in 0..MOVES_HEAD.len() {
            held.is("the head's beginning", &[&sheets.yard.concat(), &MOVES_HEAD[..length]].concat(), refuse(15, head))?;
        }
        let [yard_text, moves_text, report_text] = [&sheets.yard, &sheets.moves, &sheets.report].map(|lines| lines.concat());
        held.is("the moves first", &[&moves_text[..], &report_text, &yard_text].concat(), refuse(15, 1))?;
        held.is("the moves alone", &[&moves_text[..], &report_text].concat(), refuse(15, 1))?;
        held.is("the report between", &[&yard_text[..], &report_text, &moves_text].concat(), refuse(15, head))?;
        held.is("the yard twice", &[&yard_text[..], &yard_text, &moves_text].concat(), refuse(15, head))?;
        let twice = [&yard_text[..], &moves_text, &yard_text, &moves_text].concat();
        held.is("both twice, no report", &twice, refuse(16, sheets.number(1 + plan.len())))?;
    }
    Ok(())
}

fn reports(held: &mut Held, random: &mut Random) -> Outcome {
    for planned in small_yards(4, random) {
        let Planned { yard, plan, sheets } = &planned;
        let [yard_text, moves_text, report_text] = [&sheets.yard, &sheets.moves, &sheets.report].map(|lines| lines.concat());
        let front = [yard_text, moves_text.clone()].concat();
        let line = sheets.number(1 + plan.len());
        let behind = &report_text[REPORT_HEAD.len()..];
        for head in each_of(OTHER_REPORT_HEADS) {
            held.is(&format!("the head {:?}", String::from_utf8_lossy(&head)), &[&front, &head, behind].concat(), refuse(16, line))?;
        }
        held.is("no head", &[&front, behind].concat(), refuse(16, line))?;
        for length in 1..REPORT_HEAD.len() {
            held.is("the head's beginning", &[&front, &REPORT_HEAD[..length]].concat(), refuse(16, line))?;
        }

        // Nothing after the head counts.
        let another = Planned::moving(1, 30, random);
        let another_report = another.sheets.report.concat();
        let junk: Vec<u8> = (0..300).map(|_| random.byte()).collect();
        let twice = [REPORT_HEAD, &report_text].concat();
        for (what, rest) in [
            ("nothing", &b""[..]),
            ("junk", &junk),
            ("a zero byte", b"\0"),
            ("a line without its line feed", b"1 0"),
            ("moves", b"1 0\n0 1\n"),
            ("blank lines", b"\n\n\n"),
            ("the moves again", &moves_text),
        ] {
            held.is(what, &[&front, REPORT_HEAD, rest].concat(), planned.due())?;
            held.is(&format!("{what} behind the report"), &[&front, &report_text, rest].concat(), planned.due())?;
        }
        held.is("another yard's report", &[&front, &another_report[..]].concat(), planned.due())?;
        held.is("both sheets of another yard", &[&front, &report_text, &another.sheets.text()[..]].concat(), planned.due())?;
        held.is("the head twice", &[&front, &twice[..]].concat(), planned.due())?;
        held.is("cut short", &[&front, &report_text[..report_text.len() - 1]].concat(), planned.due())?;

        // Amid the moves it ends them.
        for at in 0..plan.len() {
            let mut altered = sheets.clone();
            altered.moves.insert(1 + at, REPORT_HEAD.to_vec());
            held.is("amid the moves", &altered.text(), check(yard, &plan[..at].concat()))?;
        }
    }
    Ok(())
}

fn yard_lines(held: &mut Held, random: &mut Random) -> Outcome {
    let other_headers = [
        "berth parent car target",
        "berth parent car target depth ",
        "Berth parent car target depth",
        "berth  parent car target depth",
        "",
        "0",
    ];
    for _ in 0..4 {
        let Planned { yard, plan, sheets } = Planned::moving(1, 30, random);
        let (n, lists) = (yard.nodes(), [&yard.parents, &yard.pebbles, &yard.targets, &yard.depths]);
        let mut is = |held: &mut Held, what: &str, yard: Vec<Line>, due: Answer<Checked>| {
            held.is(what, &Sheets { yard, ..sheets.clone() }.perhaps_without_report(random).text(), due)
        };
        let with = |line: usize, text: &[u8]| -> Vec<Line> {
            let mut lines = sheets.yard.clone();
            lines[line] = text.to_vec();
            lines
        };
        for header in other_headers {
            is(held, "another header", with(0, format!("{header}\n").as_bytes()), refuse(15, 1))?;
        }
        is(held, "no header", sheets.yard[1..].to_vec(), refuse(15, 1))?;
        for node in [0, n / 2, n - 1] {
            let line = node + 2;
            let [parent, pebbles, targets, depth] = lists.map(|list| list[node]);
            for text in [
                format!("{node} {parent} {pebbles} {targets} {depth} \n"),
                format!("{node}  {parent} {pebbles} {targets} {depth}\n"),
                format!("{node} {parent} {pebbles} {targets}\t{depth}\n"),
                format!("{node} {parent} {pebbles} {targets} {depth}\r\n"),
                format!("{node} {parent} {pebbles} {targets}\n"),
                format!("{node} {parent} {pebbles} {targets} {depth} 0\n"),
                format!("0{node} {parent} {pebbles} {targets} {depth}\n"),
                format!("{node} {parent} {pebbles} {targets} 0{depth}\n"),
                format!("{node} 256 {pebbles} {targets} {depth}\n"),
                format!("{} {parent} {pebbles} {targets} {depth}\n", node + 256),
                format!("{node},{parent},{pebbles},{targets},{depth}\n"),
                format!("{node}\n"),
            ] {
                is(held, "a yard line of another shape", with(1 + node, text.as_bytes()), refuse(16, line))?;
            }
            // A line that does not begin with a digit ends the yard sheet.
            for text in [" ", "x", "-", "\u{feff}", "\t"] {
                let due = if node == 0 { refuse(1, 2) } else { refuse(15, line) };
                is(held, "a yard line without a digit first", with(1 + node, &[text.as_bytes(), &sheets.yard[1 + node]].concat()), due)?;
            }
            is(
                held,
                "another number",
                with(1 + node, format!("{} {parent} {pebbles} {targets} {depth}\n", node + 1).as_bytes()),
                refuse(17, line),
            )?;
            let mut doubled = sheets.yard.clone();
            doubled.insert(line - 1, sheets.yard[line - 1].clone());
            is(held, "a yard line twice", doubled, refuse(17, line + 1))?;
            let mut fewer = sheets.yard.clone();
            fewer.remove(line - 1);
            let [parents, pebbles, targets, depths] = lists.map(|list| list[..n - 1].to_vec());
            let without_last = Yard { parents, pebbles, targets, depths };
            is(held, "a yard line left out", fewer, if node < n - 1 { refuse(17, line) } else { check(&without_last, &plan.concat()) })?;
        }
        for node in 0..n - 1 {
            let mut exchanged = sheets.yard.clone();
            exchanged.swap(1 + node, 2 + node);
            is(held, "two yard lines exchanged", exchanged, refuse(17, node + 2))?;
        }
    }
    for _ in 0..250 {
        let Planned { sheets, .. } = Planned::any(12, random);
        let mut yard = sheets.yard.concat();
        damage::sheet(&mut yard, random);
        held.agrees("a yard sheet altered", &Sheets { yard: vec![yard], ..sheets }.perhaps_without_report(random).text())?;
    }
    Ok(())
}

fn numbers_of_nodes(held: &mut Held, random: &mut Random) -> Outcome {
    for moves in ["", "from to\n", "from to\n0 0\n", "from to\n0 0\ntrack up down\n", "x", "from two\n", "\n"] {
        held.is("no node", format!("{HEADER}{moves}").as_bytes(), refuse(1, 2))?;
    }
    // The yard sheet of a line of nodes that hold nothing.
    let empty = |n: usize| Yard::shallow(&Vec::from_iter((0..n).map(|node| node.saturating_sub(1) as u8)), &vec![0; n], &vec![0; n]);
    for n in [1, 2, 255, MAX_NODES] {
        let sheet = unjudged(&empty(n));
        let followed = |text: &str| [&sheet, text.as_bytes()].concat();
        for moves in ["from to\n", "from to\ntrack up down\n"] {
            held.is("no move is due", &followed(moves), spare(0, 0))?;
        }
        for text in ["", "x\n", "from to", "-1 0 0 0 1\n", " 0 0 0 0 1\n", "berth"] {
            held.is("no move sheet", &followed(text), refuse(15, n + 2))?;
        }
        for text in ["0", "7\n", "256 0 0 0 1\n", "256 0 0 0 1\nfrom to\n", "0 0\nfrom to\n", "1 0\n0 1\n", "9 from to\n"] {
            held.is("one line more", &followed(text), if n == MAX_NODES { refuse(1, 258) } else { refuse(16, n + 2) })?;
        }
        held.is("node 0 again", &followed("0 0 0 0 1\nfrom to\n"), if n == MAX_NODES { refuse(1, 258) } else { refuse(17, n + 2) })?;
    }
    for n in [257, 258, 300, 2_000] {
        let lines: String = (0..n).map(|node| format!("{node} 0 0 0 1\n")).collect();
        for moves in ["", "from to\n", "from two\n"] {
            held.is("too many nodes", format!("{HEADER}{lines}{moves}").as_bytes(), refuse(1, 258))?;
        }
        // Line by line: what is wrong above is told first.
        let wrong = lines.replace("\n100 0", "\n100 00");
        held.is("too many nodes and a wrong line", format!("{HEADER}{wrong}from to\n").as_bytes(), refuse(16, 102))?;
    }
    for _ in 0..40 {
        let yard = shapes::yard(random.pick(&Shape::ALL), MAX_NODES, random);
        let Planned { sheets, .. } = Planned::of(yard);
        let mut longer = sheets.clone();
        longer.yard.push(random.pick(&[&b"0 0 0 0 1\n"[..], b"255 0 0 0 1\n", b"256 0 0 0 1\n", b"1", b"00\n"]).to_vec());
        held.is("257 lines", &longer.text(), refuse(1, 258))?;
    }
    Ok(())
}

fn refused_yards(held: &mut Held, random: &mut Random) -> Outcome {
    let mut cases = 0;
    while cases < 400 {
        let Planned { mut yard, plan, sheets } = Planned::any(if cases % 10 == 0 { MAX_NODES } else { 16 }, random);
        damage::lists(&mut yard, random);
        let n = yard.nodes();
        // A sheet has as many entries of each list.
        if n == 0 || n > MAX_NODES || [&yard.pebbles, &yard.targets, &yard.depths].iter().any(|list| list.len() != n) {
            continue;
        }
        cases += 1;
        let sheets = Sheets { yard: lines(&unjudged(&yard)), ..sheets }.perhaps_without_report(random);
        held.is("a yard with one to three faults", &sheets.text(), check(&yard, &plan.concat()))?;
    }
    Ok(())
}

fn no_move(held: &mut Held, random: &mut Random) -> Outcome {
    for number in 0..150 {
        let Planned { yard, sheets, .. } = Planned::any(if number % 10 == 0 { MAX_NODES } else { 12 }, random);
        held.is("no move", &sheets.with_moves(&[]).perhaps_without_report(random).text(), check(&yard, &[]))?;
    }
    Ok(())
}

fn two_faults(held: &mut Held, _: &mut Random) -> Outcome {
    held.is("no fault", &star_with(&[]), spare(6, 0))?;
    for (first, &(own, number, place)) in FAULTS.iter().enumerate() {
        // Alone, and with each that is told later.
        for (other, _, _) in &FAULTS[first..] {
            held.is("one fault or two", &star_with(&[own, other]), refuse(number, place))?;
        }
    }
    Ok(())
}

const MOST_MOVES: usize = MAX_PLAN_BYTES / 2;

/// A line of nodes with one pebble, which goes from a node to the next and back, again and again.
struct Swing {
    yard: Yard,
    /// Two moves, there and back.
    both: Vec<u8>,
}

impl Swing {
    /// From this node, which is the target, or else the next is.
    fn new(node: u8, away: bool) -> Swing {
        let n = usize::from(node) + 2;
        let at = |held: usize| Vec::from_iter((0..n).map(|other| u8::from(other == held)));
        let parents: Vec<u8> = (0..n).map(|node| node.saturating_sub(1) as u8).collect();
        let yard = Yard::shallow(&parents, &at(n - 2), &at(n - 2 + usize::from(away)));
        Swing { yard, both: format!("{} {}\n{} {}\n", n - 2, n - 1, n - 1, n - 2).into_bytes() }
    }

    /// The lines of some of the moves.
    fn moves(&self, places: Range<usize>) -> Vec<u8> {
        let width = self.both.len() / 2;
        self.both.repeat(1 + places.end / 2)[width * places.start..width * places.end].to_vec()
    }

    /// Both sheets with so many moves.
    fn text(&self, moves: usize) -> Vec<u8> {
        [unjudged(&self.yard), MOVES_HEAD.to_vec(), self.moves(0..moves)].concat()
    }

    /// The same with one move's line replaced.
    fn altered(&self, place: usize, line: &str, moves: usize) -> Vec<u8> {
        [self.text(place), line.as_bytes().to_vec(), self.moves(place + 1..moves.max(place + 1))].concat()
    }

    /// The number of a move's line.
    fn line(&self, place: usize) -> usize {
        self.yard.nodes() + 3 + place
    }
}

fn long_plans(held: &mut Held, _: &mut Random) -> Outcome {
    // Lines of 4, 7 and 8 bytes.
    for node in [0, 99, 254] {
        for away in [false, true] {
            let swing = Swing::new(node, away);
            for moves in MOST_MOVES - 2..=MOST_MOVES + 2 {
                let due = match moves {
                    _ if moves > MOST_MOVES => refuse(9, 0),
                    _ if (moves % 2 == 1) == away => spare(moves, moves - usize::from(away)),
                    _ => refuse(14, usize::from(node) + usize::from(away)),
                };
                let text = swing.text(moves);
                held.is(&format!("{moves} moves"), &text, due)?;
                held.is(&format!("{moves} moves and a report"), &[&text, REPORT_HEAD, b"total\n"].concat(), due)?;
            }
        }
    }
    for node in [0, 254] {
        let swing = Swing::new(node, false);
        let behind = MOST_MOVES_READ;
        for place in [behind - 3, behind - 2, behind - 1, behind, behind + 1, behind + 10] {
            let due = if place < MOST_MOVES_READ { refuse(16, swing.line(place)) } else { refuse(9, 0) };
            held.is(&format!("line {place} of another shape, moves behind it"), &swing.altered(place, "0 1 \n", behind + 20), due)?;
            for last in ["\n", "0 1", "track up  down\n"] {
                held.is(&format!("line {place} of another shape, none behind it"), &swing.altered(place, last, 0), due)?;
            }
        }
        // A wrong move is told unless there are too many. Of 256 nodes none is missing.
        let none = if node == 254 { 11 } else { 10 };
        for (number, line) in [(none, "255 255\n"), (11, "0 0\n"), (12, "1 0\n")] {
            for (place, moves) in [(0, MOST_MOVES), (MOST_MOVES - 2, MOST_MOVES), (0, MOST_MOVES + 1), (MOST_MOVES, MOST_MOVES + 1)] {
                let due = if moves > MOST_MOVES { refuse(9, 0) } else { refuse(number, place) };
                held.is("a wrong move", &swing.altered(place, line, moves), due)?;
            }
        }
        // A refused yard is told first, however many moves there are.
        let altered = |alter: fn(&mut Yard)| {
            let mut yard = swing.yard.clone();
            alter(&mut yard);
            yard
        };
        for (number, place, yard) in [
            (7, 0, altered(|yard| yard.targets.fill(0))),
            (26, 1, altered(|yard| yard.depths[1] = 9)),
            (27, 0, altered(|yard| yard.pebbles[0] = 2)),
            (5, 1, altered(|yard| yard.parents[1] = 1)),
        ] {
            let refused = Swing { yard, both: swing.both.clone() };
            for moves in [MOST_MOVES, MOST_MOVES + 1, MOST_MOVES + 10] {
                held.is("a refused yard with many moves", &refused.text(moves), refuse(number, place))?;
            }
        }
    }
    Ok(())
}

/// Where the bytes that are judged end within an input, all answers are those from all bytes.
fn long_inputs(held: &mut Held, random: &mut Random) -> Outcome {
    let filled =
        |front: &[u8], junk: &[u8], length: usize| front.iter().chain(junk.iter().cycle()).copied().take(length).collect::<Vec<u8>>();
    let about = [JUDGED_BYTES - 1, JUDGED_BYTES, JUDGED_BYTES + 1, JUDGED_BYTES + 2, 2 * JUDGED_BYTES];
    for node in [0, 254] {
        let many = Swing::new(node, false).text(3 * JUDGED_BYTES / if node == 0 { 4 } else { 8 });
        for length in about.into_iter().chain([many.len()]) {
            held.is("many moves", &many[..length], refuse(9, 0))?;
            held.is("many moves and a wrong line", &[&many[..length], b"\n"].concat(), refuse(9, 0))?;
        }
    }

    let planned = Planned::moving(4, 12, random);
    let Planned { plan, sheets, .. } = &planned;
    let [header, yard, head, moves] = [
        sheets.yard[0].clone(),
        sheets.yard.concat(),
        [sheets.yard.concat(), MOVES_HEAD.to_vec()].concat(),
        sheets.without_report().text(),
    ];
    for junk in [&b"junk"[..], b"\n", b"\0", b"0 1\n", REPORT_HEAD] {
        for length in about {
            held.is("junk behind the report", &filled(&sheets.text(), junk, length), planned.due())?;
        }
        held.is("junk for all", &filled(b"", junk, about[4]), refuse(15, 1))?;
        if junk != b"0 1\n" {
            held.is("junk behind the yard", &filled(&yard, junk, about[4]), refuse(15, sheets.number(0)))?;
        }
    }
    held.is("yard lines", &filled(&header, b"0 0 0 0 1\n", about[4]), refuse(17, 3))?;
    held.is("short yard lines", &filled(&header, b"0\n", about[4]), refuse(16, 2))?;
    let full = unjudged(&shapes::yard(Shape::Random, MAX_NODES, random));
    held.is("lines behind a full yard", &filled(&full, b"0 0 0 0 1\n", about[4]), refuse(1, 258))?;

    // A line that ends about where the judged bytes do, or nowhere; then all is good again.
    for length in about {
        for (what, front, junk, due) in [
            ("a long header", &header[..header.len() - 1], b" ", refuse(15, 1)),
            ("a long yard line", &yard[..yard.len() - 1], b"0", refuse(16, sheets.yard.len())),
            ("a long head", &head[..head.len() - 1], b" ", refuse(15, sheets.number(0))),
            ("a long first move", &[&head[..], b"0"].concat(), b"0", refuse(16, sheets.number(1))),
            ("a long move", &moves[..moves.len() - 1], b"0", refuse(16, sheets.number(plan.len()))),
            (
                "a long head of the report",
                &[&moves, &REPORT_HEAD[..REPORT_HEAD.len() - 1]].concat(),
                b" ",
                refuse(16, sheets.number(1 + plan.len())),
            ),
        ] {
            let long = filled(front, junk, length);
            held.is(what, &long, due)?;
            held.is(what, &[&long, &b"\n"[..], &sheets.text()].concat(), due)?;
        }
    }

    // The longest sheets whose lines are all read.
    let widest = unjudged(&Yard { parents: vec![255; 256], pebbles: vec![255; 256], targets: vec![255; 256], depths: vec![255; 256] });
    assert_eq!(widest.len(), MAX_SHEET_BYTES);
    let mut all = lines(&[widest, MOVES_HEAD.to_vec(), b"255 255\n".repeat(MOST_MOVES_READ + 10)].concat());
    held.is("the longest lines", &all.concat(), refuse(26, 0))?;
    for (place, due) in [(MOST_MOVES_READ - 1, refuse(16, 258 + MOST_MOVES_READ)), (MOST_MOVES_READ, refuse(26, 0))] {
        let kept = std::mem::replace(&mut all[258 + place], b"255 256\n".to_vec());
        held.is("the longest lines and a wrong one", &all.concat(), due)?;
        all[258 + place] = kept;
    }
    // The last byte on which an answer depends is the line feed of this head.
    let front = all[..258 + MOST_MOVES].concat();
    held.is("the longest lines and a report", &[&front, REPORT_HEAD, b"junk"].concat(), refuse(26, 0))?;
    held.is("the longest lines and another head", &[&front, &b"track up down "[..]].concat(), refuse(16, 259 + MOST_MOVES))
}

fn nonsense(held: &mut Held, random: &mut Random) -> Outcome {
    for _ in 0..600 {
        held.agrees("nonsense", &damage::check_input(random))?;
    }
    Ok(())
}

fn beginnings(held: &mut Held, random: &mut Random) -> Outcome {
    for Planned { sheets, .. } in small_yards(1, random) {
        let text = sheets.text();
        for length in 0..=text.len() {
            held.agrees("a beginning", &text[..length])?;
        }
    }
    Ok(())
}

fn every_byte(held: &mut Held, _: &mut Random) -> Outcome {
    let [_, b, _] = worked_yards();
    let text = Planned::of(b).sheets.text();
    for at in 0..=text.len() {
        let (front, rest) = text.split_at(at);
        for byte in *b"0 \n\xff" {
            held.agrees("a byte put in", &[front, &[byte], rest].concat())?;
            if !rest.is_empty() {
                held.agrees("a byte altered", &[front, &[byte], &rest[1..]].concat())?;
            }
        }
        if !rest.is_empty() {
            held.agrees("a byte left out", &[front, &rest[1..]].concat())?;
        }
    }
    Ok(())
}
