//! The arguments of the programs.

use super::cases::Case;

/// The number of links, of links in a chain, and of rounds.
#[derive(Clone, Copy, Debug)]
pub struct Plan {
    pub links: u32,
    pub chain: u32,
    pub rounds: u32,
}

impl Plan {
    /// Returns the number of whole chains.
    pub fn chains(self) -> u32 {
        self.links.checked_div(self.chain).unwrap_or(0)
    }
}

/// The part of a case to run.
#[derive(Clone, Copy, Debug, PartialEq, Eq)]
pub enum Part {
    /// Makes the arenas.
    Setup,
    /// Makes the arenas and runs the rounds.
    All,
    /// Makes the arenas, and runs and times the rounds.
    Timed,
    /// Makes the arenas, and inserts lone links, each timed by itself.
    Longest,
}

/// A case, its numbers, and the part of it to run.
#[derive(Clone, Copy, Debug)]
pub struct Arguments {
    pub case: Case,
    pub plan: Plan,
    pub part: Part,
}

impl Arguments {
    /// Parses the arguments `CASE LINKS CHAIN ROUNDS PART`.
    pub fn parse(words: &[String]) -> Option<Arguments> {
        let [case, links, chain, rounds, part] = words else {
            return None;
        };
        Some(Arguments {
            case: Case::of(case)?,
            plan: Plan {
                links: links.parse().ok()?,
                chain: chain.parse().ok()?,
                rounds: rounds.parse().ok()?,
            },
            part: part_of(part)?,
        })
    }
}

fn part_of(word: &str) -> Option<Part> {
    match word {
        "setup" => Some(Part::Setup),
        "all" => Some(Part::All),
        "timed" => Some(Part::Timed),
        "longest" => Some(Part::Longest),
        _ => None,
    }
}
