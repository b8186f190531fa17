//! Times the cases of `bench/` over other arenas.
//!
//! The steps, the pseudorandom numbers and the sums are those of `bench/`, so equal links have equal sums. `arena` has the cases
//! over the crate's `ChainArena`. The package `slotmap_links` has them over links that are connected by hand.

pub mod arena;
pub mod arguments;
pub mod cases;
pub mod checksum;
pub mod links;
pub mod numbers;
pub mod rounds;
pub mod shapes;
