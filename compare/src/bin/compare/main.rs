//! Holds the proved library against the unrelated planner, family by family, and ends at the first
//! difference with its inputs.
//!
//!     compare [--lists amid|exact|behind|before] [--thin N]
//!
//! `--lists` says how the lists lent to the library are placed (see `lent`); `--thin N` takes one
//! case of N.

mod calls;
mod distances;
mod events;
mod families;
mod lent;
mod openings;
mod parts;
mod sheets;
mod steps;
mod wear;
mod worked;

use calls::{watch_pages, Caller, UNUSED_REFUSALS};
use families::FAMILIES;
use lent::Placement;
use std::process::ExitCode;
use std::time::Instant;
use unrelated::random::Thin;

fn main() -> ExitCode {
    let Some((placement, thin)) = arguments() else {
        eprintln!("compare [--lists amid|exact|behind|before] [--thin N]");
        return ExitCode::from(2);
    };
    watch_pages();
    let caller = Caller::new(placement);
    let began = Instant::now();
    let mut all = 0;
    for (name, family) in FAMILIES {
        let (before, since) = (caller.calls.get(), Instant::now());
        match family(&caller, thin) {
            Ok(cases) => {
                let calls = caller.calls.get() - before;
                println!("{name:<64}{cases:>9} cases {calls:>9} calls {:>6.1} s", since.elapsed().as_secs_f64());
                all += cases;
            }
            Err(difference) => {
                println!("{name}: a difference");
                println!("{difference}");
                return ExitCode::FAILURE;
            }
        }
    }
    let met: Vec<u64> = caller.refusals.iter().map(|met| met.get()).collect();
    println!("refusals met: {}", (1..met.len()).map(|number| format!("{number}: {}", met[number])).collect::<Vec<_>>().join(", "));
    if let Some(number) = UNUSED_REFUSALS.into_iter().find(|&number| met[number] > 0) {
        println!("refusal {number} was met");
        return ExitCode::FAILURE;
    }
    if let Some(number) = (1..met.len()).find(|number| thin.is_full() && !UNUSED_REFUSALS.contains(number) && met[*number] == 0) {
        println!("refusal {number} was never met: the families do not do what they are for");
        return ExitCode::FAILURE;
    }
    println!("{all} cases, {} library calls, no difference, {:.1} s", caller.calls.get(), began.elapsed().as_secs_f64());
    ExitCode::SUCCESS
}

fn arguments() -> Option<(Placement, Thin)> {
    let (mut placement, mut thin) = (Placement::Amid, Thin::full());
    let mut arguments = std::env::args().skip(1);
    while let Some(argument) = arguments.next() {
        let value = arguments.next()?;
        match argument.as_str() {
            "--lists" => placement = Placement::ALL.into_iter().find(|(name, _)| *name == value)?.1,
            "--thin" => thin = Thin::one_of(value.parse().ok()?)?,
            _ => return None,
        }
    }
    Some((placement, thin))
}
