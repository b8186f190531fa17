//! Lookups of values, of all links, and of the counter.

use super::{Call, RawPointer, pointer_of, raw_pointer, text};
use crate::layout::Links;
use crate::pointer::P0;
use std::mem;
use triple_arena::ChainArena;
use triple_arena::errors::AllocError;
use triple_arena::traits::{Advancer, ArenaTrait, ChainArenaTrait, Ptr};

/// Executes a lookup, and returns the text of its result.
pub fn execute(arena: &mut Links, call: &Call) -> Option<String> {
    let (p, i) = (call.pointer(0), call.index(0));
    Some(match call.name {
        "Len" => text(arena.len()),
        "IsEmpty" => text(arena.is_empty()),
        "HasCapacity" => text(arena.capacity() >= call.number(0) as usize),
        "WithMinCapacity" => text(new_with_capacity(call.number(0) as usize)),
        "Maximum" => text(arena.max_capacity()),
        "Counter" => text(arena.singular_generation()),
        "Generation" => text(arena.generation()),
        "Contains" => text(arena.contains(p)),
        "Get" => text(arena.get(p)),
        "GetInx" => text(arena.get_inx(i)),
        "Value" => text(
            arena
                .contains(p)
                .then(|| (arena[p], *arena.get_inx_unwrap(p.inx()))),
        ),
        "Ends" => text((arena.find_first_inx_ptr(), arena.find_last_inx_ptr())),
        _ => return execute_on_all(arena, call),
    })
}

/// Creates an arena with a capacity, and returns whether it is empty and has at least that capacity.
fn new_with_capacity(n: usize) -> Result<(bool, bool), AllocError> {
    let arena = Links::with_min_capacity(n)?;
    Ok((arena.is_empty(), arena.capacity() >= n))
}

/// Executes a lookup of all links, and returns the text of its result.
fn execute_on_all(arena: &mut Links, call: &Call) -> Option<String> {
    let i = call.index(0);
    Some(match call.name {
        "Debug" => text(&*arena),
        "DebugOfWords" => format!("{:?}", with_words(arena)),
        "AlternateOfWords" => format!("{:#?}", with_words(arena)).replace('\n', "\\n"),
        "Values" => text(arena.iter().collect::<Vec<_>>()),
        "Links" => text(arena.iter_link_no_gen().collect::<Vec<_>>()),
        "LinksByReference" => text((&*arena).into_iter().collect::<Vec<_>>()),
        "LinksUsedUp" => text(mem::take(arena).into_iter().collect::<Vec<_>>()),
        "Indexes" => text(Ok::<_, ()>(
            arena.iter().map(|(p, _)| p.inx()).collect::<Vec<_>>(),
        )),
        "All" => text(rows_of(arena)),
        "Advance" => text(advance(arena.advancer(), arena, call.number(0))),
        "AdvanceFrom" => text(advance(arena.advancer_inx(i, call.value() > 0), arena, 2)),
        "AdvanceEmpty" => text(empty_advancer().advance(&*arena)),
        "Changes" => text(advance_over_changes()?),
        _ => return None,
    })
}

/// Returns the arena with a word in place of each value.
fn with_words(arena: &Links) -> ChainArena<P0, &'static str> {
    let mut copy = ChainArena::new();
    copy.clone_from_with(arena, |_, link| match link.t {
        1 => "A",
        2 => "B",
        3 => "C",
        4 => "X",
        _ => "Y",
    })
    .expect("memory for a copy");
    copy
}

/// Returns the pointer and the value of each link, and the pointers of its neighbors.
fn rows_of(arena: &Links) -> Vec<(RawPointer, u32, RawPointer, RawPointer)> {
    let row = |p| {
        let link = arena.get_link(p)?;
        Some((
            raw_pointer(Some(p)),
            *link.t,
            raw_pointer(link.prev()),
            raw_pointer(link.next()),
        ))
    };
    arena.iter().filter_map(|(p, _)| row(p)).collect()
}

/// The advancer over all pointers of the arena.
type PtrAdvancer = <Links as ArenaTrait<P0, u32>>::PtrAdvancer;

fn empty_advancer() -> PtrAdvancer {
    <PtrAdvancer as Advancer<Links>>::empty()
}

/// Returns the pointers of the first `count` calls of an advancer, five at most. The others are zeros.
pub fn advance<V: Advancer<Links, Item = P0>>(
    mut advancer: V,
    arena: &Links,
    count: u32,
) -> [RawPointer; 5] {
    let mut pointers = [(0, 0); 5];
    for p in pointers.iter_mut().take(count as usize) {
        *p = raw_pointer(advancer.advance(arena));
    }
    pointers
}

/// Creates an advancer along the chain of a pointer in one arena, and returns its pointers over another.
pub fn advance_along(arena: &Links, p: P0, other: &Links) -> Option<[RawPointer; 5]> {
    Some(advance(arena.advancer_chain(p)?, other, 5))
}

/// Returns an arena of links, where each pair of indexes is connected.
fn with_connections(count: u32, pairs: &[(u32, u32)]) -> Links {
    let mut arena = Links::new();
    super::changes::insert_many(&mut arena, count);
    for (i, j) in pairs {
        let _ = arena.connect(pointer_of((*i, 2)), pointer_of((*j, 2)));
    }
    arena
}

/// Returns the pointers of advancers along chains, over arenas that change and over other arenas.
fn advance_over_changes() -> Option<(RawPointer, [[RawPointer; 5]; 4])> {
    let mut arena = with_connections(2, &[(1, 2)]);
    let mut advancer = arena.advancer_chain(pointer_of((1, 2)))?;
    let first = raw_pointer(advancer.advance(&arena));
    let _ = arena.remove(pointer_of((2, 2)));
    let after_removal = advance(advancer, &arena, 5);
    let other = with_connections(3, &[(1, 2), (2, 3)]);
    let one_step = advance_along(&arena, pointer_of((1, 2)), &other)?;
    let disconnected = advance_along(&other, pointer_of((3, 2)), &with_connections(3, &[]))?;
    let mut advancer = other.advancer_chain(pointer_of((1, 2)))?;
    let after_none = match advancer.advance(&Links::new()) {
        Some(p) => [raw_pointer(Some(p)); 5],
        None => advance(advancer, &other, 5),
    };
    Some((first, [after_removal, one_step, disconnected, after_none]))
}
