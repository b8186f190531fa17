//! Times a case over links in a `SlotMap`. The arguments are those of the program of `bench/`, `CASE LINKS CHAIN ROUNDS PART`.

mod cases;
mod links;

use compare::timing::rounds::run;
use std::process::ExitCode;

fn main() -> ExitCode {
    let words: Vec<String> = std::env::args().skip(1).collect();
    run::<links::Chains>(&words)
}
