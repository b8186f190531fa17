//! Executes the lines of standard input, as docs/CLI.md describes them, over the crate `triple_arena`.
//!
//! With `--by-transfer`, the crate's transfer executes `canonical F`, in place of its `compress_canonical`.

use compare::execute::{Canonical, Session};
use std::io::{self, BufRead, BufReader, Write};

fn main() -> io::Result<()> {
    let canonical = match std::env::args().nth(1).as_deref() {
        None => Canonical::InPlace,
        Some("--by-transfer") => Canonical::ByTransfer,
        Some(other) => {
            eprintln!("responses: {other} is no option; --by-transfer is the only one");
            std::process::exit(2);
        }
    };
    run(&mut Session::new(canonical))
}

/// Executes each line. Writes all pending responses before it waits for more input.
fn run(session: &mut Session) -> io::Result<()> {
    let mut input = BufReader::with_capacity(1 << 16, io::stdin().lock());
    let mut output = io::stdout().lock();
    let mut line = Vec::new();
    loop {
        if input.buffer().is_empty() {
            output.write_all(session.output.as_bytes())?;
            output.flush()?;
            session.output.clear();
        }
        line.clear();
        if input.read_until(b'\n', &mut line)? == 0 {
            return Ok(());
        }
        session.execute_line(line.strip_suffix(b"\n").unwrap_or(&line));
    }
}
