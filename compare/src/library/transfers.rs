//! Transfers, copies, and conversions of plain arenas.

use super::changes::{insert_many, is_removed};
use super::{Call, pointer_of, text};
use crate::layout::{Links, arrange};
use crate::pointer::{Inx, P0};
use triple_arena::errors::ReallocationError;
use triple_arena::traits::{ArenaInsertEntryTrait, ArenaInsertTrait, ArenaTrait, ChainArenaTrait};
use triple_arena::{Arena, ChainArena, InvalidationOption, LinkInsertKind, LinkNoGen};

/// Executes a call that makes an arena from another, and returns the text of its result.
pub fn execute(arena: &mut Links, call: &Call) -> Option<String> {
    Some(match call.name {
        "MovesVisited" => text(transfer_moves(arena, call.is_set())),
        "BothArranged" => text(compare_arrangements(arena)),
        "Clone" => text(clone_with_insertion(arena)),
        "CopyOver" => text(copy_over(arena, call.number(0))),
        "FromArena" => text(from_arena(call)),
        _ => return None,
    })
}

/// Arranges the chains by the transfer, and returns the arguments of its closure's calls.
fn transfer_moves(arena: &mut Links, reset: bool) -> (InvalidationOption<()>, Vec<(P0, P0)>) {
    let mut moves = Vec::new();
    let result = arrange(arena, reset, |from, to| moves.push((from, to)));
    (result, moves)
}

/// Arranges one clone in place and another by the transfer. Returns whether their texts are equal, and the second text.
fn compare_arrangements(arena: &Links) -> (bool, String) {
    let (mut in_place, mut transferred) = (arena.clone(), arena.clone());
    let _ = in_place.compress_canonical(false);
    let _ = arrange(&mut transferred, false, |_, _| ());
    let transferred = text(&transferred);
    (text(&in_place) == transferred, transferred)
}

/// Inserts a link into a clone. Returns its pointer, the clone, and the clone's maximum capacity.
fn clone_with_insertion(
    arena: &Links,
) -> (
    Result<P0, triple_arena::errors::ChainInsertionError>,
    Links,
    Option<usize>,
) {
    let mut copy = arena.clone();
    let p = copy.insert_reallocating(LinkInsertKind::Disconnected, 9);
    let maximum = copy.max_capacity();
    (p, copy, maximum)
}

/// Returns a chain of `count` links, from which the second one was removed.
fn chain_with_hole(count: u32) -> Links {
    let mut arena = Links::new();
    insert_many(&mut arena, count);
    for i in 1..count {
        let _ = arena.connect(pointer_of((i, 2)), pointer_of((i + 1, 2)));
    }
    assert!(is_removed(arena.remove(pointer_of((2, 2)))));
    arena
}

/// Copies a chain with a hole over an arena, and returns the arguments of the closure's calls. The k-th call adds 10 * k.
fn copy_over(
    target: &mut Links,
    count: u32,
) -> (Result<(), ReallocationError>, Vec<(P0, LinkNoGen<P0, u32>)>) {
    let mut visits = Vec::new();
    let result = target.clone_from_with(&chain_with_hole(count), |p, link| {
        visits.push((p, *link));
        link.t + 10 * visits.len() as u32
    });
    (result, visits)
}

/// Converts a plain arena to a chain arena, and returns the number of links and the error, if there is one.
///
/// The numbers of the call are the number of inserted links, the index that is removed or 0, and the neighbors of each link.
fn from_arena(call: &Call) -> (usize, Option<&'static str>) {
    let mut plain: Arena<P0, LinkNoGen<P0, u32>> = Arena::new();
    let count = call.number(0) as usize;
    plain
        .reallocate_min_capacity(count)
        .expect("memory for the links");
    for k in 0..count {
        let neighbors = (
            Inx::new(call.number(2 * k + 2)),
            Inx::new(call.number(2 * k + 3)),
        );
        if let Ok(entry) = plain.entry_insert_within_capacity() {
            entry.insert(LinkNoGen::new(neighbors, 7));
        }
    }
    if let Some(i) = Inx::new(call.number(1)) {
        assert!(is_removed(plain.remove_inx(i)));
    }
    (plain.len(), ChainArena::from_arena(plain).err())
}
