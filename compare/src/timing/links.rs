//! The trait of the arenas that are timed.

use super::arguments::Plan;
use super::cases::Case;
use super::checksum::Checksum;

/// The position of a new link.
#[derive(Clone, Copy, Debug)]
pub enum Position<P> {
    /// In a chain of its own.
    Alone,
    /// In a cyclic chain of its own.
    Cycle,
    /// After the end of a chain.
    End(P),
    /// After a link.
    NextTo(P),
}

/// The case of a round, the first link of each chain, and pairs of links.
pub struct Task<P> {
    pub case: Case,
    pub plan: Plan,
    pub starts: Vec<P>,
    pub picks: Vec<(P, P)>,
}

/// An arena of links whose values are numbers.
pub trait Links: Sized {
    type Ptr: Copy;

    /// Returns an empty arena.
    fn new() -> Self;

    /// Returns a copy.
    fn copy(&self) -> Self;

    /// Gives the arena capacity for `n` links.
    fn reserve(&mut self, n: usize);

    /// Inserts a link.
    fn insert(&mut self, position: Position<Self::Ptr>, t: u32) -> Self::Ptr;

    /// Removes a link.
    fn remove(&mut self, p: Self::Ptr);

    /// Connects the end of a chain to the start of another.
    fn connect(&mut self, p: Self::Ptr, q: Self::Ptr);

    /// Exchanges the next links of two links.
    fn exchange_next(&mut self, p: Self::Ptr, q: Self::Ptr);

    /// Returns the next link.
    fn next_of(&self, p: Self::Ptr) -> Option<Self::Ptr>;

    /// Returns a pointer as a number.
    fn number(p: Self::Ptr) -> u64;

    /// Runs a round of a case. Returns `None` if this arena does not support the case.
    fn run_round(&mut self, task: &Task<Self::Ptr>) -> Option<Checksum>;
}
