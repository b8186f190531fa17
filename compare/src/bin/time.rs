//! Times a case over the crate `triple_arena`.
//!
//! The arguments are those of the program of `bench/`, `CASE LINKS CHAIN ROUNDS PART`. With `--wide` before them, each link has a
//! value of 12 bytes instead of 4, so a slot has 24 bytes instead of 16.

use compare::timing::arena::Wide;
use compare::timing::rounds::run;
use std::process::ExitCode;
use triple_arena::ChainArena;

fn main() -> ExitCode {
    let words: Vec<String> = std::env::args().skip(1).collect();
    match words.split_first() {
        Some((first, rest)) if first == "--wide" => run::<ChainArena<_, Wide>>(rest),
        _ => run::<ChainArena<_, u32>>(&words),
    }
}
