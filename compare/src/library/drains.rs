//! Drains of chains and of all links, run to the end or for one link.

use super::{Call, text};
use crate::layout::Links;
use std::fmt::Debug;
use std::mem;
use triple_arena::traits::{ArenaTrait, ChainArenaTrait};

/// What is done with a drain after its first link.
#[derive(Clone, Copy)]
enum Disposal {
    /// The drain is dropped.
    Drop,
    /// The drain is forgotten.
    Forget,
}

/// Executes a drain, and returns the text of its result.
pub fn execute(arena: &mut Links, call: &Call) -> Option<String> {
    let p = call.pointer(0);
    Some(match call.name {
        "DrainChain" => match arena.drain_chain(p) {
            Some(links) => text(links.collect::<Vec<_>>()),
            None => text(None::<u32>),
        },
        "DrainChainOne" => first_or_none(arena.drain_chain(p), Disposal::Drop),
        "ForgetChainDrain" => first_or_none(arena.drain_chain(p), Disposal::Forget),
        "Drain" => text(arena.drain().collect::<Vec<_>>()),
        "DrainOne" => first(arena.drain(), Disposal::Drop),
        "ForgetDrain" => first(arena.drain(), Disposal::Forget),
        "RemoveAll" => text(drop(arena.drain())),
        _ => return None,
    })
}

/// Returns the text of the first link of a drain, or of `None` if there is no drain.
fn first_or_none<T: Debug, I: Iterator<Item = T>>(links: Option<I>, disposal: Disposal) -> String {
    links.map_or_else(|| text(None::<u32>), |links| first(links, disposal))
}

/// Returns the text of the first link of a drain.
fn first<T: Debug, I: Iterator<Item = T>>(mut links: I, disposal: Disposal) -> String {
    let first = links.next();
    match disposal {
        Disposal::Drop => drop(links),
        Disposal::Forget => mem::forget(links),
    }
    text(first)
}
