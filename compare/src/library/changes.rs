//! Calls that change an arena.

use super::{Call, pointer_of, text};
use crate::layout::Links;
use crate::pointer::P0;
use std::mem;
use triple_arena::errors::ChainInsertionError;
use triple_arena::traits::{ArenaInsertEntryTrait, ArenaTrait, ChainArenaTrait, Ptr};
use triple_arena::{InvalidationOption, InvalidationResult, LinkInsertKind, LinkNoGen};

/// Executes a call that changes links, and returns the text of its result.
pub fn execute(arena: &mut Links, call: &Call) -> Option<String> {
    let (p, q) = (call.pointer(0), call.pointer(2));
    Some(match call.name {
        "Call" => return execute_for_reply(arena, call),
        "Insert" => text(arena.insert_reallocating(kind(call)?, call.value())),
        "InsertWithin" => text(arena.insert_within_capacity(kind(call)?, call.value())),
        "InsertMany" => text(insert_many(arena, call.number(0))),
        "InsertByEntry" => text(insert_by_entry(arena, kind(call)?, call.value())),
        "DropEntry" => text(drop_entry(arena, kind(call)?)),
        "Forget" => text(
            arena
                .entry_insert_reallocating(kind(call)?)
                .map(mem::forget)
                .err(),
        ),
        "Connect" => text(arena.connect(p, q)),
        "BreakPrev" => text(arena.break_prev(p)),
        "BreakNext" => text(arena.break_next(p)),
        "Exchange" => text(arena.exchange_next(p, q)),
        "RemoveLink" => text(arena.remove_link_no_gen(p).map(parts_of)),
        "Remove" => text(arena.remove(p)),
        "RemoveInx" => text(arena.remove_inx(call.index(0)).allow()),
        "Invalidate" => text(arena.invalidate(p)),
        _ => return change_all(arena, call),
    })
}

/// Executes a call on values, on all links, or on the counter, and returns the text of its result.
fn change_all(arena: &mut Links, call: &Call) -> Option<String> {
    let (p, i, t) = (call.pointer(0), call.index(0), call.value());
    Some(match call.name {
        "Write" => text(arena.get_mut(p).map(|old| mem::replace(old, t))),
        "WriteInx" => text(arena.get_inx_mut(i).map(|(_, old)| mem::replace(old, t))),
        "WriteValue" => text(arena.contains(p) && write(&mut arena[p], t)),
        "WriteValueInx" => {
            text(arena.get_inx(i).is_some() && write(arena.get_inx_mut_unwrap(i), t))
        }
        "Clear" => text(arena.clear()),
        "ClearAndReserve" => text(clear_keeping_capacity(arena)),
        "Compress" => text(arena.compress(call.is_set())),
        "CompressWith" => text(compress_with(arena, call.is_set())),
        "Canonical" => text(arena.compress_canonical(call.is_set())),
        "SetGeneration" => text(arena.set_generation(pointer_of((1, call.number(0))).generation())),
        "IncGeneration" => text(arena.inc_generation()),
        "Reserve" => text(arena.reallocate_min_capacity(call.number(0) as usize)),
        "ReservePowerOfTwo" => text(arena.reallocate_min_capacity(1 << call.number(0))),
        _ => return None,
    })
}

/// Executes a call of a list of calls, and returns the text of its reply.
fn execute_for_reply(arena: &mut Links, call: &Call) -> Option<String> {
    let (p, q) = (call.pointer(0), call.pointer(2));
    Some(match call.kind {
        "Connect" => text(arena.connect(p, q).is_some()),
        "BreakPrev" => text(arena.break_prev(p).is_some()),
        "BreakNext" => text(arena.break_next(p).is_some()),
        "Exchange" => text(arena.exchange_next(p, q).is_some()),
        "RemoveLink" => text(arena.remove_link_no_gen(p)),
        "RemoveLinkInx" => text(arena.remove_inx_link_no_gen(call.index(0))),
        "DrainTaking" => {
            let take = call.number(2) as usize;
            text(arena.drain_chain(p).map(|links| links.take(take).count()))
        }
        _ => return None,
    })
}

/// Returns the kind of an insertion, or `None` if the call has none.
pub fn kind(call: &Call) -> Option<LinkInsertKind<P0>> {
    let (p, q) = (call.pointer(0), call.pointer(2));
    let (i, j) = (call.index(0), call.index(1));
    Some(match call.kind {
        "Disconnected" => LinkInsertKind::Disconnected,
        "SingleLinkCyclic" => LinkInsertKind::SingleLinkCyclic,
        "ChainEnd" => LinkInsertKind::ChainEnd(p),
        "ChainStart" => LinkInsertKind::ChainStart(p),
        "NextTo" => LinkInsertKind::NextTo(p),
        "PrevTo" => LinkInsertKind::PrevTo(p),
        "AtInterlink" => LinkInsertKind::AtInterlink {
            next_to: p,
            prev_to: q,
        },
        "Bridge" => LinkInsertKind::Bridge { end: p, start: q },
        "ChainEndInx" => LinkInsertKind::ChainEndInx(i),
        "ChainStartInx" => LinkInsertKind::ChainStartInx(i),
        "NextToInx" => LinkInsertKind::NextToInx(i),
        "PrevToInx" => LinkInsertKind::PrevToInx(i),
        "AtInterlinkInx" => LinkInsertKind::AtInterlinkInx {
            next_to: i,
            prev_to: j,
        },
        "BridgeInx" => LinkInsertKind::BridgeInx { end: i, start: j },
        _ => return None,
    })
}

/// Inserts lone links with the values from 1 to `count`, and returns `count`.
pub fn insert_many(arena: &mut Links, count: u32) -> u32 {
    for t in 1..=count {
        arena.insert(LinkInsertKind::Disconnected, t);
    }
    count
}

fn insert_by_entry(
    arena: &mut Links,
    kind: LinkInsertKind<P0>,
    t: u32,
) -> Result<P0, ChainInsertionError> {
    let entry = arena.entry_insert_reallocating(kind)?;
    let p = entry.ptr();
    entry.insert(t);
    Ok(p)
}

/// Creates an entry and drops it. Returns its pointer.
fn drop_entry(arena: &mut Links, kind: LinkInsertKind<P0>) -> Result<P0, ChainInsertionError> {
    arena
        .entry_insert_reallocating(kind)
        .map(|entry| entry.ptr())
}

fn write(value: &mut u32, t: u32) -> bool {
    *value = t;
    true
}

/// Returns the indexes of a link's neighbors, 0 for none, and its value.
pub fn parts_of(link: LinkNoGen<P0, u32>) -> (u32, u32, u32) {
    let number = |i: Option<crate::pointer::Inx>| i.map_or(0, |i| i.get());
    (number(link.prev()), number(link.next()), link.t)
}

/// Clears an arena, and returns whether its capacity is unchanged.
fn clear_keeping_capacity(arena: &mut Links) -> (InvalidationOption<()>, bool) {
    let capacity = arena.capacity();
    let result = arena.clear();
    (result, arena.capacity() == capacity)
}

/// Compresses an arena, and returns the arguments of the closure's calls. The k-th call adds 10 * k to its value.
fn compress_with(arena: &mut Links, reset: bool) -> (InvalidationOption<()>, Vec<(P0, u32, P0)>) {
    let mut visits = Vec::new();
    let result = arena.compress_with(reset, |from, t, to| {
        visits.push((from, *t, to));
        *t += 10 * visits.len() as u32;
    });
    (result, visits)
}

/// Returns whether a removal succeeded.
pub fn is_removed<T>(result: InvalidationResult<T>) -> bool {
    result.allow().is_some()
}
