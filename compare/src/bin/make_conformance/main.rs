//! Writes the conformance set into the folder named: sheets for a move program, sheets for a check
//! program in its folder `check`, and cases of the C calls in `calls.txt`. Seeds are fixed, so
//! every run writes the same bytes.

mod calls;
mod checks;
mod moves;

use std::collections::BTreeSet;
use std::path::Path;
use std::process::ExitCode;

fn main() -> ExitCode {
    let mut arguments = std::env::args().skip(1);
    let (Some(folder), None) = (arguments.next(), arguments.next()) else {
        eprintln!("make_conformance FOLDER");
        return ExitCode::from(2);
    };
    match write(Path::new(&folder)) {
        Ok([moves, checks, calls]) => {
            println!("{moves} sheets, {checks} check sheets, {calls} cases of the calls");
            ExitCode::SUCCESS
        }
        Err(error) => {
            eprintln!("{folder}: {error}");
            ExitCode::FAILURE
        }
    }
}

fn write(folder: &Path) -> std::io::Result<[usize; 3]> {
    Ok([moves::write(folder)?, checks::write(&folder.join("check"))?, calls::write(&folder.join("calls.txt"))?])
}

/// Sees that each of these refusals is printed for one of the sheets, and no other. 0 is an
/// accepted sheet.
fn must_meet(refusals: &[u32], printed: impl Iterator<Item = Vec<u8>>) {
    let number = |sheet: Vec<u8>| match sheet.strip_prefix(b"refusal place\n") {
        Some(values) => String::from_utf8_lossy(values).split(' ').next().and_then(|word| word.parse().ok()).expect("a number"),
        None => 0,
    };
    assert_eq!(printed.map(number).collect::<BTreeSet<u32>>(), refusals.iter().copied().collect(), "the refusals that are met");
}
