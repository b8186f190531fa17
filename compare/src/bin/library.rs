//! Executes the cases of `library_cases.txt` over the crate `triple_arena`, and writes them with its results.

use std::io::{self, Read, Write};

fn main() -> io::Result<()> {
    let mut cases = String::new();
    io::stdin().read_to_string(&mut cases)?;
    io::stdout().write_all(compare::library::with_results(&cases).as_bytes())
}
