//! Yard sheets read and written, move sheets with their crossing report and refusals as bytes, and
//! the move program as a function.

use crate::planner;
use crate::yard::{judge_lengths, refuse, Answer, Refusal, Yard, MAX_NODES};

pub const HEADER: &str = "berth parent car target depth\n";

/// The most bytes that a sheet can have: three digits wherever a value allows them.
pub const MAX_SHEET_BYTES: usize = 5_040;

/// The move program reads no further byte.
pub const JUDGED_BYTES: usize = 5_200;

/// The bytes of its plan list: 32,768 moves. Longer plans are refused (request 2.10).
pub const PROGRAM_PLAN_BYTES: usize = 65_536;

/// The reader with lists of `lengths` entries lent to it.
pub fn read(sheet: &[u8], lengths: [usize; 4]) -> Answer<Yard> {
    if lengths.iter().any(|&length| length < MAX_NODES) {
        return refuse(18, 0);
    }
    let Some(mut rest) = sheet.strip_prefix(HEADER.as_bytes()) else {
        return refuse(15, 1);
    };
    let mut yard = Yard::default();
    while !rest.is_empty() {
        let node = yard.nodes();
        let line = node + 2;
        if node == MAX_NODES {
            return refuse(1, line);
        }
        let Some(end) = rest.iter().position(|&byte| byte == b'\n') else {
            return refuse(16, line);
        };
        let Some([own, parent, pebbles, targets, depth]) = values(&rest[..end]) else {
            return refuse(16, line);
        };
        if usize::from(own) != node {
            return refuse(17, line);
        }
        yard.parents.push(parent);
        yard.pebbles.push(pebbles);
        yard.targets.push(targets);
        yard.depths.push(depth);
        rest = &rest[end + 1..];
    }
    if yard.nodes() == 0 {
        return refuse(1, 2);
    }
    Ok(yard)
}

/// The writer with a list of `room` bytes lent to it.
pub fn write(yard: &Yard, room: usize) -> Answer<Vec<u8>> {
    judge_lengths(yard)?;
    let sheet = unjudged(yard);
    if sheet.len() > room {
        return refuse(8, sheet.len());
    }
    Ok(sheet)
}

/// The sheet of any four equally long lists, legal or not.
pub fn unjudged(yard: &Yard) -> Vec<u8> {
    let mut sheet = String::from(HEADER);
    for node in 0..yard.nodes() {
        let [parent, pebbles, targets, depth] = [&yard.parents, &yard.pebbles, &yard.targets, &yard.depths].map(|list| list[node]);
        sheet += &format!("{node} {parent} {pebbles} {targets} {depth}\n");
    }
    sheet.into_bytes()
}

/// The moves, and below them the crossing report (request 2.1): a line for each edge ('track'
/// there, by the number of its lower node) with its crossings towards the root and away from it,
/// then the number of moves.
pub fn move_sheet(yard: &Yard, plan: &[u8]) -> Vec<u8> {
    let mut sheet = String::from("from to\n");
    for ends in plan.chunks(2) {
        sheet += &format!("{} {}\n", ends[0], ends[1]);
    }
    sheet += &crossing_report(yard, plan);
    sheet.into_bytes()
}

/// The crossing report of moves along edges.
pub fn crossing_report(yard: &Yard, plan: &[u8]) -> String {
    let [up, down] = crossings(yard, plan);
    let mut report = String::from("track up down\n");
    for node in (0..yard.nodes()).filter(|&node| !yard.is_root(node)) {
        report += &format!("{node} {} {}\n", up[node], down[node]);
    }
    report + &format!("total\n{}\n", plan.len() / 2)
}

/// How often the edge above each node is crossed towards the root, and away from it: the moves
/// counted one by one.
fn crossings(yard: &Yard, plan: &[u8]) -> [Vec<usize>; 2] {
    let [mut up, mut down] = [0, 0].map(|none| vec![none; yard.nodes()]);
    for ends in plan.chunks(2) {
        let (from, to) = (usize::from(ends[0]), usize::from(ends[1]));
        if yard.parent(from) == to {
            up[from] += 1;
        } else {
            down[to] += 1;
        }
    }
    [up, down]
}

pub fn refusal_sheet(refusal: Refusal) -> Vec<u8> {
    format!("refusal place\n{} {}\n", refusal.number, refusal.place).into_bytes()
}

/// What the move program prints for what it is fed.
pub fn program(input: &[u8]) -> Vec<u8> {
    let judged = &input[..input.len().min(JUDGED_BYTES)];
    let printed = read(judged, [MAX_NODES; 4]).and_then(|yard| Ok(move_sheet(&yard, &planner::plan(&yard, PROGRAM_PLAN_BYTES)?)));
    printed.unwrap_or_else(refusal_sheet)
}

/// The values of a line of so many, one space between.
pub fn values<const MANY: usize>(line: &[u8]) -> Option<[u8; MANY]> {
    let words: Vec<&[u8]> = line.split(|&byte| byte == b' ').collect();
    let values: Option<Vec<u8>> = words.into_iter().map(value).collect();
    values?.try_into().ok()
}

/// A value from 0 to 255 in decimal, without leading zeros.
fn value(word: &[u8]) -> Option<u8> {
    let leading_zero = word.len() > 1 && word[0] == b'0';
    if word.is_empty() || leading_zero || !word.iter().all(u8::is_ascii_digit) {
        return None;
    }
    std::str::from_utf8(word).ok()?.parse().ok()
}
