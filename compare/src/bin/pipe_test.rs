//! Tries a move program, or with `--checks` a check program, over pipes: yards small and large, input a byte at a time, none, a megabyte, nonsense, and
//! readers that go away early. Ends at the first answer that is not the unrelated planner's or checker's, or that takes too long.
//!
//!     pipe_test [--checks] PROGRAM [ARGUMENT…]

use std::process::ExitCode;
use std::time::Duration;
use unrelated::check_sheet::{self, both_sheets, MOST_MOVES_READ, MOVES_HEAD};
use unrelated::piped::{shown, Outcome, Piped};
use unrelated::random::Random;
use unrelated::shapes::{any_yard, every_yard, far, Shape};
use unrelated::sheet::{self, unjudged, HEADER, PROGRAM_PLAN_BYTES};
use unrelated::yard::{Yard, MAX_DEPTH, MAX_NODES};
use unrelated::{damage, planner, report};

/// What a program is fed with.
struct Inputs {
    /// What it must print for each.
    due: fn(&[u8]) -> Vec<u8>,
    /// Of whole yards, each with what is to be said against the answer that is due.
    yards: Vec<(Vec<u8>, Outcome)>,
    /// Each with the bytes that come at a time, and the pause behind them in microseconds.
    slow: Vec<(Vec<u8>, usize, u64)>,
    large: Vec<Vec<u8>>,
    nonsense: Vec<Vec<u8>>,
    /// For readers that leave and a full device.
    unread: [Vec<u8>; 3],
}

/// A sheet and junk behind it up to a length.
fn filled(sheet: &[u8], junk: &[u8], length: usize) -> Vec<u8> {
    sheet.iter().chain(junk.iter().cycle()).copied().take(length).collect()
}

const MEGABYTE: usize = 1 << 20;

/// Every tree up to 3 nodes with all counts, then six shapes, and as many moves as the move program just has room for, and more.
fn yards(random: &mut Random) -> Vec<Yard> {
    let shapes = Shape::ALL.into_iter().flat_map(|shape| [4, 9, 10, 11, 99, 100, 101, MAX_NODES].map(|n| (shape, n)));
    let mut large: Vec<Yard> = shapes.map(|(shape, n)| any_yard(shape, n, random)).collect();
    large.extend([128, 129, MAX_NODES].map(|n| far(Shape::Line, n, MAX_DEPTH, random)));
    [vec![1], vec![1; 2], vec![1; 3], vec![3], vec![2; 2]].into_iter().flat_map(every_yard).chain(large).collect()
}

fn for_moves(random: &mut Random) -> Inputs {
    let line = unjudged(&far(Shape::Line, MAX_NODES, 1, random));
    let small = unjudged(&far(Shape::Binary, 9, 2, random));
    let refused = small[..small.len() - 1].to_vec();

    // Nothing behind the bytes that are judged counts.
    let mut large: Vec<Vec<u8>> =
        [&b"junk"[..], b"\n", b"\0", b"9 0 0 0 1\n", b" "].iter().map(|junk| filled(&small, junk, MEGABYTE)).collect();
    large.push(filled(&line, b"256 0 0 0 1\n", MEGABYTE));
    large.push(filled(b"", HEADER.as_bytes(), MEGABYTE));
    large.push(filled(HEADER.as_bytes(), b"0", MEGABYTE));
    // Just as many bytes as are judged, one fewer and one more.
    large.extend((sheet::JUDGED_BYTES - 1..=sheet::JUDGED_BYTES + 1).map(|length| filled(&line, b"1", length)));

    let nonsense = (0..400).map(|_| damage::move_input(random)).collect();
    // What is printed for a yard, the report too, is the unrelated planner's, which must be the one due.
    let judged = |yard: Yard| {
        let sheet = unjudged(&yard);
        let planned = planner::plan(&yard, PROGRAM_PLAN_BYTES).is_ok();
        let found = if planned { report::judge(&yard, &sheet::program(&sheet)) } else { Ok(()) };
        (sheet, found)
    };
    Inputs {
        due: sheet::program,
        yards: yards(random).into_iter().map(judged).collect(),
        slow: vec![(small.clone(), 1, 1000), (refused.clone(), 1, 1000), (line.clone(), 1, 20)],
        large,
        nonsense,
        unread: [line, small, refused],
    }
}

fn for_checks(random: &mut Random) -> Inputs {
    let plan = |yard: &Yard| planner::plan(yard, usize::MAX).unwrap_or_default();
    let both = |yard: &Yard| both_sheets(yard, &plan(yard));
    let line = both(&far(Shape::Line, MAX_NODES, 1, random));
    let shorter = both(&far(Shape::Line, 50, 1, random));
    let (small_yard, home) = (far(Shape::Binary, 9, 2, random), Yard::shallow(&[0, 0], &[1, 0], &[1, 0]));
    let (small, yard) = (both(&small_yard), unjudged(&small_yard));
    // The first move lacks its line feed, and nothing follows.
    let head = [yard.clone(), MOVES_HEAD.to_vec()].concat();
    let refused = small[..head.len() + "0 1".len()].to_vec();
    let there_and_back = [unjudged(&home), MOVES_HEAD.to_vec()].concat();
    // The same between the last of 256 nodes.
    let ends = Vec::from_iter((0..=255).map(|node| u8::from(node == 254)));
    let far_home = Yard::shallow(&Vec::from_iter((0..=255u8).map(|node| node.saturating_sub(1))), &ends, &ends);
    let far_there_and_back = [unjudged(&far_home), MOVES_HEAD.to_vec()].concat();

    let mut large = Vec::new();
    for junk in [&b"junk"[..], b"\n", b"\0", b"9 0 0 0 1\n", b" ", b"0 1\n1 0\n", b"9"] {
        // Behind the report nothing counts; behind the yard, or behind `from to`, everything does.
        large.extend([&small, &yard, &head].map(|front| filled(front, junk, MEGABYTE)));
        large.push(filled(&line, junk, 4 * MEGABYTE));
    }
    large.push(filled(b"", HEADER.as_bytes(), MEGABYTE));
    large.push(filled(HEADER.as_bytes(), b"0", MEGABYTE));
    // As many moves as the checker takes, too many, and of about as many bytes as are judged.
    for moves in [MOST_MOVES_READ - 1, MOST_MOVES_READ, 400_000] {
        large.push(filled(&there_and_back, b"0 1\n1 0\n", there_and_back.len() + 4 * moves));
        large.push(filled(&far_there_and_back, b"254 255\n255 254\n", far_there_and_back.len() + 8 * moves));
    }
    large.extend(
        (check_sheet::JUDGED_BYTES - 1..=check_sheet::JUDGED_BYTES + 1).map(|length| filled(&there_and_back, b"0 1\n1 0\n", length)),
    );
    large.extend((check_sheet::JUDGED_BYTES - 1..=check_sheet::JUDGED_BYTES + 1).map(|length| filled(&small, b"1", length)));

    let nonsense = (0..400).map(|_| damage::check_input(random)).collect();
    // A yard that has a plan gets its moves, of which none is spare, and the report that its counts ask for.
    let judged = |yard: Yard| {
        let sheets = both(&yard);
        let accepted = planner::plan(&yard, usize::MAX).is_ok();
        let (report, _) = if accepted { report::due(&yard) } else { Default::default() };
        let due = format!("moves spare\n{} 0\n{report}", plan(&yard).len() / 2);
        let printed = check_sheet::program(&sheets);
        let wrong = accepted && printed != due.as_bytes();
        (sheets, if wrong { Err(format!("the plan asks for {due:?}, due is {:?}", shown(&printed))) } else { Ok(()) })
    };
    Inputs {
        due: check_sheet::program,
        yards: yards(random).into_iter().map(judged).collect(),
        slow: vec![
            (small.clone(), 1, 1000),
            (refused.clone(), 1, 1000),
            (shorter, 1, 20),
            (line.clone(), 1000, 20),
            (line.clone(), 4097, 1000),
        ],
        large,
        nonsense,
        unread: [line, small, refused],
    }
}

/// One family: its name, and each input with what became of it.
fn family(name: &str, outcomes: impl Iterator<Item = (Vec<u8>, Outcome)>) -> bool {
    let mut cases = 0;
    for (input, outcome) in outcomes {
        if let Err(what) = outcome {
            println!("{name}, input of {} bytes {:?}: {what}", input.len(), shown(&input));
            return false;
        }
        cases += 1;
    }
    println!("{name}: {cases} cases");
    true
}

fn main() -> ExitCode {
    let mut command: Vec<String> = std::env::args().skip(1).collect();
    let checks = command.first().is_some_and(|first| first == "--checks");
    if checks {
        command.remove(0);
    }
    if command.is_empty() {
        eprintln!("pipe_test [--checks] PROGRAM [ARGUMENT…]");
        return ExitCode::from(2);
    }
    let mut random = Random::new(201);
    let inputs = if checks { for_checks(&mut random) } else { for_moves(&mut random) };
    let tried = Piped { command, due: inputs.due };
    // The last byte left out is one of the report, of the moves and spare, or of the refusal.
    let leaves = |input: &Vec<u8>| [0, 1, 8, 100, 65_536, (inputs.due)(input).len() - 1].map(|read| (input.clone(), read));
    let leaves: Vec<(Vec<u8>, usize)> = inputs.unread.iter().flat_map(leaves).collect();
    let slowly = if checks { "a byte at a time, or some" } else { "a byte at a time" };

    let passed = family(
        "every tree up to 3 nodes with all counts, six shapes up to 256",
        inputs.yards.into_iter().map(|(input, found)| (input.clone(), found.and_then(|()| tried.answers(&input, input.len())))),
    ) && family(
        slowly,
        inputs
            .slow
            .into_iter()
            .map(|(input, piece, pause)| (input.clone(), tried.answers_slowly(&input, piece, Duration::from_micros(pause)))),
    ) && family("no input", std::iter::once((Vec::new(), tried.answers(&[], 1))))
        && family(
            "a megabyte, or about as much as is judged",
            inputs.large.into_iter().map(|input| (input.clone(), tried.answers(&input, 1 << 16))),
        )
        && family("nonsense", inputs.nonsense.into_iter().map(|input| (input.clone(), tried.answers(&input, input.len()))))
        && family("a reader that leaves", leaves.into_iter().map(|(input, read)| (input.clone(), tried.reader_leaves(&input, read))))
        && family("a full device", inputs.unread.into_iter().map(|input| (input.clone(), tried.device_is_full(&input))));
    if passed {
        ExitCode::SUCCESS
    } else {
        ExitCode::FAILURE
    }
}
