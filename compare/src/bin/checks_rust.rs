//! The check program over the unrelated checker: a yard sheet and a move sheet from standard
//! input; to standard output the number of moves, how many of them are spare and their crossing
//! report, or the refusal.

use std::io::{stdin, stdout, Read, Result, Write};
use unrelated::check_sheet::{program, JUDGED_BYTES};

fn main() -> Result<()> {
    let mut input = Vec::new();
    stdin().take(JUDGED_BYTES as u64).read_to_end(&mut input)?;
    stdout().write_all(&program(&input))
}
