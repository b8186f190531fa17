//! Arranges chains one after another, by the crate's transfer.

use crate::pointer::P0;
use triple_arena::traits::{ArenaTrait, Ptr};
use triple_arena::utils::traits::PtrGen;
use triple_arena::{ChainArena, InvalidationOption};

/// The arena of the program.
pub type Links = ChainArena<P0, u32>;

/// Sets the counter as `compress_canonical` does: to 2 if `reset` is set, otherwise to the next generation if there are links.
pub fn set_counter(arena: &mut Links, reset: bool) -> InvalidationOption<()> {
    if reset {
        arena.set_generation(<P0 as Ptr>::Gen::two());
        InvalidationOption::Success(())
    } else if arena.is_empty() {
        InvalidationOption::Success(())
    } else {
        arena.inc_generation()
    }
}

/// Arranges the chains one after another in a new arena of the same capacity, which replaces the old one. The closure is
/// called with the old and the new pointer of each link.
///
/// The crate's `compress_canonical` does this in place, but does not report the pointers.
pub fn arrange<F: FnMut(P0, P0)>(
    arena: &mut Links,
    reset: bool,
    mut visit: F,
) -> InvalidationOption<()> {
    let result = set_counter(arena, reset);
    let mut arranged = Links::new();
    arranged
        .reallocate_min_capacity(arena.capacity())
        .expect("memory for the links");
    arranged
        .transfer_canonical_reallocating(arena.generation(), arena, |from, t, to| {
            visit(from, to);
            t.allow()
        })
        .expect("capacity for the links");
    *arena = arranged;
    result
}
