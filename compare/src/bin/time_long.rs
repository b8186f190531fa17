//! Times a case over the crate `triple_arena`, with values of 8 bytes. The arguments are those of `time`.

use compare::timing::rounds::run;
use std::process::ExitCode;
use triple_arena::ChainArena;

fn main() -> ExitCode {
    let words: Vec<String> = std::env::args().skip(1).collect();
    run::<ChainArena<_, u64>>(&words)
}
