//! The move program over the unrelated planner: a yard sheet from standard input, its move sheet or refusal to standard output.

use std::io::{stdin, stdout, Read, Result, Write};
use unrelated::sheet::{program, JUDGED_BYTES};

fn main() -> Result<()> {
    let mut input = Vec::new();
    stdin().take(JUDGED_BYTES as u64).read_to_end(&mut input)?;
    stdout().write_all(&program(&input))
}
