//! Runs and times the rounds of a case.

use super::arguments::{Arguments, Part, Plan};
use super::cases::{Case, Shape};
use super::checksum::Checksum;
use super::links::{Links, Position, Task};
use super::numbers::Numbers;
use super::shapes::ShapedArena;
use std::process::ExitCode;
use std::time::Instant;

/// Runs the case of a program's arguments over an arena, and prints its checksum.
pub fn run<L: Links>(words: &[String]) -> ExitCode {
    let Some(arguments) = Arguments::parse(words) else {
        eprintln!("the arguments are CASE LINKS CHAIN ROUNDS setup|all|timed|longest");
        return ExitCode::from(2);
    };
    let name = arguments.case.name();
    match run_case::<L>(arguments) {
        Some((Checksum { operations, sum }, nanoseconds)) => {
            print!("{name}: {operations} operations, sum {sum}");
            match arguments.part {
                Part::Timed | Part::Longest => println!(", {nanoseconds} nanoseconds"),
                Part::Setup | Part::All => println!(),
            }
            ExitCode::SUCCESS
        }
        None => {
            println!("{name}: left out");
            ExitCode::SUCCESS
        }
    }
}

/// Makes the arenas of a case and runs its rounds. Returns the checksum and the time in nanoseconds, or `None` if the arena does
/// not support the case.
fn run_case<L: Links>(arguments: Arguments) -> Option<(Checksum, u64)> {
    let (task, mut arenas) = fixture_of::<L>(arguments.case, arguments.plan);
    if arguments.part == Part::Longest {
        return Some(longest_insertion(&mut arenas, arguments.plan));
    }
    let start = Instant::now();
    let checksum = match arguments.part {
        Part::Setup => Checksum::default(),
        _ => run_rounds(&task, &mut arenas)?,
    };
    Some((checksum, start.elapsed().as_nanos() as u64))
}

/// Returns the task of the rounds and their arenas: one for each round if they need it, otherwise one for all.
fn fixture_of<L: Links>(case: Case, plan: Plan) -> (Task<L::Ptr>, Vec<L>) {
    let mut numbers = Numbers::default();
    let mut shaped = ShapedArena::<L>::of(case.shape(), plan, &mut numbers);
    let picks = shaped.picks_of(case.picks(), &mut numbers);
    let ShapedArena { arena, starts, .. } = shaped;
    let count = if case.needs_arena_per_round() {
        plan.rounds
    } else {
        1
    };
    let mut arenas: Vec<L> = (1..count).map(|_| arena.copy()).collect();
    arenas.push(arena);
    if matches!(case.shape(), Shape::Roomy) {
        arenas
            .iter_mut()
            .for_each(|arena| arena.reserve(2 * plan.links as usize));
    }
    let task = Task {
        case,
        plan,
        starts,
        picks,
    };
    (task, arenas)
}

fn run_rounds<L: Links>(task: &Task<L::Ptr>, arenas: &mut [L]) -> Option<Checksum> {
    let times = if task.case.needs_arena_per_round() {
        1
    } else {
        task.plan.rounds
    };
    let mut checksum = Checksum::default();
    for arena in arenas {
        for _ in 0..times {
            checksum.add_round(arena.run_round(task)?);
        }
    }
    Some(checksum)
}

/// Inserts lone links into each arena. Returns the checksum, and the nanoseconds of the longest insertion.
fn longest_insertion<L: Links>(arenas: &mut [L], plan: Plan) -> (Checksum, u64) {
    let mut checksum = Checksum::default();
    let mut longest = 0;
    for arena in arenas {
        let mut round = Checksum::default();
        for k in 0..plan.links {
            let start = Instant::now();
            let p = arena.insert(Position::Alone, k);
            longest = longest.max(start.elapsed().as_nanos() as u64);
            round.add_operation(L::number(p));
        }
        checksum.add_round(round);
    }
    (checksum, longest)
}
