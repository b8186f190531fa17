//! Lookups of links, and walks along chains.

use super::changes::parts_of;
use super::lookups::advance_along;
use super::{Call, raw_pointer, text};
use crate::layout::Links;
use crate::pointer::P0;
use triple_arena::traits::{Advancer, ChainArenaTrait};

/// Executes a lookup of links, and returns the text of its result.
pub fn execute(arena: &mut Links, call: &Call) -> Option<String> {
    let (p, q) = (call.pointer(0), call.pointer(2));
    let (i, j) = (call.index(0), call.index(1));
    Some(match call.name {
        "Neighbors" => text(arena.are_neighbors(p, q)),
        "NeighborsInx" => text(arena.are_neighbors_inx(i, j)),
        "Link" => {
            let link = arena.get_link(p);
            text(link.map(|link| (raw_pointer(link.prev()), raw_pointer(link.next()), *link.t)))
        }
        "LinkNoGen" => text(arena.get_link_no_gen(p).is_some()),
        "LinkNoGenInx" => text(
            arena
                .get_inx_link_no_gen(i)
                .map(|(generation, link)| (generation, parts_of(*link))),
        ),
        "Along" => text(advance_along(arena, p, arena)),
        "AlongAll" => text(Ok::<_, ()>(pointers_along(arena, p))),
        "Walk" => match arena.iter_chain(p) {
            Some(links) => text(links.collect::<Vec<_>>()),
            None => text(None::<u32>),
        },
        _ => return None,
    })
}

/// Returns all pointers that an advancer along the chain of a pointer returns.
fn pointers_along(arena: &Links, p: P0) -> Option<Vec<P0>> {
    let mut advancer = arena.advancer_chain(p)?;
    Some(std::iter::from_fn(|| advancer.advance(arena)).collect())
}
