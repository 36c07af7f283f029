//! The check program as a function: a yard sheet with a move sheet directly after it, whose moves a
//! fitter may have altered.

use crate::checker::{check, Checked, MAX_PLAN_BYTES};
use crate::sheet::{crossing_report, move_sheet, read, refusal_sheet, unjudged, values};
use crate::yard::{refuse, Answer, Yard, MAX_NODES};

/// The check program reads no further byte. No answer depends on one.
pub const JUDGED_BYTES: usize = 1_060_000;

/// It reads one move more than the checker takes, and no further move.
pub const MOST_MOVES_READ: usize = MAX_PLAN_BYTES / 2 + 1;

pub const MOVES_HEAD: &[u8] = b"from to\n";
pub const REPORT_HEAD: &[u8] = b"track up down\n";

/// What the check program prints for what it is fed.
pub fn program(input: &[u8]) -> Vec<u8> {
    uncut(&input[..input.len().min(JUDGED_BYTES)])
}

/// The same, but all bytes are looked at.
pub fn uncut(input: &[u8]) -> Vec<u8> {
    match sheets(input) {
        Ok((yard, plan)) => answer_sheet(&yard, &plan),
        Err(refusal) => refusal_sheet(refusal),
    }
}

/// The checker's answer to a yard and a plan as it is printed.
pub fn answer_sheet(yard: &Yard, plan: &[u8]) -> Vec<u8> {
    let answer = check(yard, plan);
    let report = if answer.is_ok() { crossing_report(yard, plan) } else { String::new() };
    [answer_lines(answer), report.into_bytes()].concat()
}

/// The lines of it that come first: the verdict or the refusal.
pub fn answer_lines(answer: Answer<Checked>) -> Vec<u8> {
    match answer {
        Ok(Checked { moves, excess }) => format!("moves spare\n{moves} {excess}\n").into_bytes(),
        Err(refusal) => refusal_sheet(refusal),
    }
}

/// What the fitter has before a line is altered: a yard's sheet, then the moves of a plan with the
/// crossing report.
pub fn both_sheets(yard: &Yard, plan: &[u8]) -> Vec<u8> {
    [unjudged(yard), move_sheet(yard, plan)].concat()
}

/// The yard and the plan that the two sheets say.
fn sheets(input: &[u8]) -> Answer<(Yard, Vec<u8>)> {
    let lines: Vec<&[u8]> = input.split_inclusive(|&byte| byte == b'\n').collect();
    // The yard sheet is the first line and all lines below it that begin with a digit.
    let nodes = lines.iter().skip(1).take_while(|line| line[0].is_ascii_digit()).count();
    let (yard, moves) = lines.split_at(lines.len().min(1 + nodes));
    let yard = read(&yard.concat(), [MAX_NODES; 4])?;
    let plan = read_moves(moves, yard.nodes() + 2)?;
    Ok((yard, plan))
}

/// The plan on the lines of a move sheet. The sheet's first line has this number in the whole
/// input.
fn read_moves(lines: &[&[u8]], first: usize) -> Answer<Vec<u8>> {
    let Some((&MOVES_HEAD, moves)) = lines.split_first() else {
        return refuse(15, first);
    };
    let mut plan = Vec::new();
    let moves = moves.iter().take_while(|&&line| line != REPORT_HEAD).take(MOST_MOVES_READ);
    for (line, text) in (first + 1..).zip(moves) {
        let Some([from, to]) = text.strip_suffix(b"\n").and_then(values) else {
            return refuse(16, line);
        };
        plan.extend([from, to]);
    }
    Ok(plan)
}
