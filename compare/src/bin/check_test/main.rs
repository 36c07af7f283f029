//! Holds a check program against the unrelated checker, family by family, on sheets altered as a
//! hand would. Ends at the first difference and shows the beginning of its input.
//!
//!     check_test [--thin N] PROGRAM [ARGUMENT…]
//!
//! `--thin N` takes one case of N.

mod families;

use families::FAMILIES;
use std::collections::BTreeMap;
use std::process::ExitCode;
use std::time::{Duration, Instant};
use unrelated::check_sheet::{answer_lines, program, uncut, JUDGED_BYTES, MOVES_HEAD, REPORT_HEAD};
use unrelated::checker::Checked;
use unrelated::piped::{shown, Outcome, Piped};
use unrelated::random::{Random, Thin};
use unrelated::yard::Answer;

/// What a check program can answer: a full run must meet each of these, and no run anything else. A
/// line that is named is told by where it stands.
const KINDS: [&str; 21] = [
    "none spare",
    "some spare",
    "1 at line 2",
    "1 at line 258",
    "4",
    "5",
    "6",
    "7",
    "9",
    "10",
    "11",
    "12",
    "13",
    "14",
    "15 at line 1",
    "15 behind the yard sheet",
    "16 in the yard sheet",
    "16 in the move sheet",
    "17",
    "26",
    "27",
];

fn kind(input: &[u8], answer: &[u8]) -> String {
    let text = String::from_utf8_lossy(answer);
    let words: Vec<&str> = text.split_whitespace().collect();
    match words[..] {
        ["moves", "spare", _, "0", ..] => "none spare".to_string(),
        ["moves", "spare", _, _, ..] => "some spare".to_string(),
        ["refusal", "place", "1", line] => format!("1 at line {line}"),
        ["refusal", "place", "15", "1"] => "15 at line 1".to_string(),
        ["refusal", "place", "15", _] => "15 behind the yard sheet".to_string(),
        ["refusal", "place", "16", line] => {
            let before = line.parse::<usize>().map_or(0, |line| line - 1);
            let of_moves = input.split_inclusive(|&byte| byte == b'\n').take(before).any(|line| line == MOVES_HEAD);
            format!("16 in the {} sheet", if of_moves { "move" } else { "yard" })
        }
        ["refusal", "place", number, _] => number.to_string(),
        _ => format!("{text:?}"),
    }
}

/// The program, held against the unrelated function.
pub struct Held {
    program: Piped,
    thin: Thin,
    /// Cases made, and those of them that were tried.
    made: u64,
    tried: u64,
    met: BTreeMap<String, u64>,
}

impl Held {
    /// A case whose answer is known from how it was made, without a sheet being read. The crossing
    /// report below it only the unrelated function knows.
    pub fn is(&mut self, what: &str, input: &[u8], due: Answer<Checked>) -> Outcome {
        let reported = due.is_ok();
        let known = answer_lines(due);
        let begins = [&known[..], if reported { REPORT_HEAD } else { b"" }].concat();
        self.case(what, input, |due| if reported { due.starts_with(&begins) } else { due == known }, &begins)
    }

    /// The same, as it is printed, the report too.
    pub fn prints(&mut self, what: &str, input: &[u8], due: &str) -> Outcome {
        self.case(what, input, |program| program == due.as_bytes(), due.as_bytes())
    }

    /// A case whose answer the unrelated function alone knows.
    pub fn agrees(&mut self, what: &str, input: &[u8]) -> Outcome {
        self.case(what, input, |_| true, b"")
    }

    fn case(&mut self, what: &str, input: &[u8], right: impl Fn(&[u8]) -> bool, known: &[u8]) -> Outcome {
        self.made += 1;
        if !self.thin.keeps(self.made) {
            return Ok(());
        }
        self.tried += 1;
        let due = program(input);
        let told = |wrong: String| format!("{what}, input of {} bytes {:?}: {wrong}", input.len(), shown(input));
        if input.len() > JUDGED_BYTES && due != uncut(input) {
            return Err(told(format!("from all bytes comes {:?}, from those that are judged {:?}", shown(&uncut(input)), shown(&due))));
        }
        if !right(&due) {
            return Err(told(format!("it was made for {:?}, but the unrelated function says {:?}", shown(known), shown(&due))));
        }
        *self.met.entry(kind(input, &due)).or_default() += 1;
        self.program.prints(&due, input, input.len(), Duration::ZERO).map_err(told)
    }

    /// Whether the cases were those that the families are for.
    fn judge_met(&self) -> Outcome {
        if let Some(kind) = self.met.keys().find(|kind| !KINDS.contains(&kind.as_str())) {
            return Err(format!("the answer {kind} was met"));
        }
        match KINDS.iter().find(|kind| self.thin.is_full() && !self.met.contains_key(**kind)) {
            Some(kind) => Err(format!("the answer {kind} was never met: the families do not do what they are for")),
            None => Ok(()),
        }
    }
}

fn main() -> ExitCode {
    let Some((thin, command)) = arguments() else {
        eprintln!("check_test [--thin N] PROGRAM [ARGUMENT…]");
        return ExitCode::from(2);
    };
    let began = Instant::now();
    let mut held = Held { program: Piped { command, due: program }, thin, made: 0, tried: 0, met: BTreeMap::new() };
    // Every family has a seed of its own.
    for (seed, (name, family)) in (300..).zip(FAMILIES) {
        let (before, since) = (held.tried, Instant::now());
        if let Err(difference) = family(&mut held, &mut Random::new(seed)) {
            println!("{name}: a difference");
            println!("{difference}");
            return ExitCode::FAILURE;
        }
        println!("{name:<72}{:>6} cases {:>6.1} s", held.tried - before, since.elapsed().as_secs_f64());
    }
    println!("answers met: {}", held.met.iter().map(|(kind, times)| format!("{kind}: {times}")).collect::<Vec<_>>().join(", "));
    if let Err(what) = held.judge_met() {
        println!("{what}");
        return ExitCode::FAILURE;
    }
    println!("{} cases, no difference, {:.1} s", held.tried, began.elapsed().as_secs_f64());
    ExitCode::SUCCESS
}

fn arguments() -> Option<(Thin, Vec<String>)> {
    let mut command: Vec<String> = std::env::args().skip(1).collect();
    let mut thin = Thin::full();
    if command.first()? == "--thin" {
        thin = Thin::one_of(command.get(1)?.parse().ok()?)?;
        command.drain(..2);
    }
    (!command.is_empty()).then_some((thin, command))
}
