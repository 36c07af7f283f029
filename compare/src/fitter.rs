//! What lies before the fitter: a yard with its plan, and the sheets of both, line by line.

use crate::check_sheet::{both_sheets, MOVES_HEAD, REPORT_HEAD};
use crate::checker::{step, Checked};
use crate::planner;
use crate::random::Random;
use crate::shapes::{self, Shape};
use crate::yard::{Answer, Yard};

/// A line with its line feed.
pub type Line = Vec<u8>;

pub fn lines(text: &[u8]) -> Vec<Line> {
    text.split_inclusive(|&byte| byte == b'\n').map(<[u8]>::to_vec).collect()
}

/// Both sheets. The lines of the moves begin with `from to`, those of the report with `track up
/// down`.
#[derive(Clone)]
pub struct Sheets {
    pub yard: Vec<Line>,
    pub moves: Vec<Line>,
    pub report: Vec<Line>,
}

impl Sheets {
    pub fn of(yard: &Yard, plan: &[[u8; 2]]) -> Sheets {
        let mut lines = lines(&both_sheets(yard, &plan.concat()));
        let first = |head: &[u8]| lines.iter().position(|line| line == head).expect("both sheets have their heads");
        let (moves, report) = (first(MOVES_HEAD), first(REPORT_HEAD));
        Sheets { report: lines.split_off(report), moves: lines.split_off(moves), yard: lines }
    }

    /// With other moves, the report left as it is.
    pub fn with_moves(&self, plan: &[[u8; 2]]) -> Sheets {
        let moves = plan.iter().map(|[from, to]| format!("{from} {to}\n").into_bytes());
        Sheets { moves: std::iter::once(MOVES_HEAD.to_vec()).chain(moves).collect(), ..self.clone() }
    }

    pub fn without_report(&self) -> Sheets {
        Sheets { report: Vec::new(), ..self.clone() }
    }

    /// One of the two.
    pub fn perhaps_without_report(&self, random: &mut Random) -> Sheets {
        if random.once_in(2) {
            self.without_report()
        } else {
            self.clone()
        }
    }

    /// All lines one after another.
    pub fn lines(&self) -> Vec<Line> {
        [&self.yard[..], &self.moves, &self.report].concat()
    }

    pub fn text(&self) -> Vec<u8> {
        self.lines().concat()
    }

    /// The number of a line of the moves, `from to` being their line 0, among all lines of the
    /// input.
    pub fn number(&self, line_of_moves: usize) -> usize {
        self.yard.len() + 1 + line_of_moves
    }
}

/// A yard with the planner's plan and its sheets.
pub struct Planned {
    pub yard: Yard,
    pub plan: Vec<[u8; 2]>,
    pub sheets: Sheets,
}

impl Planned {
    pub fn of(yard: Yard) -> Planned {
        let plan = planner::plan(&yard, usize::MAX).expect("as many pebbles as targets");
        let plan = moves(&plan);
        Planned { sheets: Sheets::of(&yard, &plan), yard, plan }
    }

    /// Of any shape and up to so many nodes.
    pub fn any(most: usize, random: &mut Random) -> Planned {
        let n = shapes::size(1, most, random);
        Planned::of(shapes::any_yard(random.pick(&Shape::ALL), n, random))
    }

    /// The same with so many moves or more.
    pub fn moving(moves: usize, most: usize, random: &mut Random) -> Planned {
        loop {
            let planned = Planned::any(most, random);
            if planned.plan.len() >= moves {
                return planned;
            }
        }
    }

    /// What is due for its sheets.
    pub fn due(&self) -> Answer<Checked> {
        spare(self.plan.len(), 0)
    }
}

/// Accepted: so many moves, so many spare.
pub fn spare(moves: usize, excess: usize) -> Answer<Checked> {
    Ok(Checked { moves: moves as u32, excess: excess as u32 })
}

/// The moves of a plan's bytes.
pub fn moves(plan: &[u8]) -> Vec<[u8; 2]> {
    plan.chunks(2).map(|ends| [ends[0], ends[1]]).collect()
}

/// The yard after some legal moves.
pub fn after(yard: &Yard, plan: &[[u8; 2]]) -> Yard {
    let mut pebbles = yard.pebbles.clone();
    for &[from, to] in plan {
        step(yard, &mut pebbles, usize::from(from), usize::from(to)).expect("a legal move");
    }
    Yard { pebbles, ..yard.clone() }
}

/// Puts some moves and the way back before a move of a plan. All of them are spare.
pub fn put_in_detour(plan: &mut Vec<[u8; 2]>, at: usize, there: &[[u8; 2]]) {
    let back = there.iter().rev().map(|&[from, to]| [to, from]);
    plan.splice(at..at, there.iter().copied().chain(back));
}

/// Lines, by their places from 0, and what stands there instead.
pub type Altered = &'static [(usize, &'static str)];

/// Faults of the star's sheets, in the order in which they are told: the altered lines, the refusal
/// and its place. No line has two faults.
pub const FAULTS: [(Altered, u32, usize); 16] = [
    (&[(0, "berth parent car target\n")], 15, 1),
    (&[(2, "1 00 1 0 1\n")], 16, 3),
    (&[(3, "9 0 1 0 1\n")], 17, 4),
    (&[(10, "from  to\n")], 15, 11),
    (&[(16, "0 06\n")], 16, 17),
    (&[(9, "8 0 0 0 0\n")], 26, 8),
    (&[(8, "7 0 0 2 1\n")], 27, 7),
    (&[(7, "6 9 0 1 1\n")], 4, 6),
    (&[(6, "5 5 0 1 1\n")], 5, 5),
    (&[(4, "3 4 1 0 1\n"), (5, "4 3 0 1 1\n")], 6, 3),
    (&[(1, "0 0 1 0 1\n")], 7, 0),
    (&[(11, "1 9\n")], 10, 0),
    (&[(12, "4 5\n")], 11, 1),
    (&[(13, "8 0\n")], 12, 2),
    (&[(14, "0 3\n")], 13, 3),
    (&[(15, "5 0\n")], 14, 5),
];

/// The sheets of a star of 9 nodes with a plan of 6 moves, with these lines altered.
pub fn star_with(faults: &[Altered]) -> Vec<u8> {
    let star = Yard::shallow(&[0; 9], &[0, 1, 1, 1, 0, 0, 0, 0, 0], &[0, 0, 0, 0, 1, 1, 1, 0, 0]);
    let mut lines = Sheets::of(&star, &[[1, 0], [0, 4], [2, 0], [0, 5], [3, 0], [0, 6]]).lines();
    for (line, text) in faults.iter().copied().flatten() {
        lines[*line] = text.as_bytes().to_vec();
    }
    lines.concat()
}
