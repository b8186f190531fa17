//! The cases over links in a `SlotMap`, each a function.
//!
//! There is no `advance`, since a cursor by hand is the loop of `walk`. There is no `compress`, since a `SlotMap` keeps its holes.
//! `move_after` and `reverse` are calls of ours alone.

use crate::links::{Chains, Link};
use compare::timing::cases::Case;
use compare::timing::checksum::{Checksum, number_of_success};
use compare::timing::links::{Links, Position, Task};
use slotmap::{DefaultKey, Key, KeyData};

const _: () = assert!(size_of::<Link>() == 20);

impl Links for Chains {
    type Ptr = DefaultKey;

    fn new() -> Self {
        Chains::default()
    }

    fn copy(&self) -> Self {
        self.clone()
    }

    fn reserve(&mut self, n: usize) {
        self.map.reserve(n - self.map.len());
    }

    fn insert(&mut self, position: Position<DefaultKey>, t: u32) -> DefaultKey {
        match position {
            Position::Alone => self.insert_alone(t),
            Position::Cycle => self.insert_cycle(t),
            Position::End(p) => self.insert_end(p, t).expect("the end of a chain"),
            Position::NextTo(p) => self.insert_next_to(p, t).expect("a link"),
        }
    }

    fn remove(&mut self, p: DefaultKey) {
        Chains::remove(self, p);
    }

    fn connect(&mut self, p: DefaultKey, q: DefaultKey) {
        Chains::connect(self, p, q);
    }

    fn exchange_next(&mut self, p: DefaultKey, q: DefaultKey) {
        Chains::exchange_next(self, p, q);
    }

    fn next_of(&self, p: DefaultKey) -> Option<DefaultKey> {
        self.map.get(p)?.next
    }

    fn number(p: DefaultKey) -> u64 {
        number(p)
    }

    fn run_round(&mut self, task: &Task<DefaultKey>) -> Option<Checksum> {
        Some(match task.case {
            Case::Insert => insert(self, task.plan.links),
            Case::InsertEnd => insert_end(self, &task.starts, task.plan.chain),
            Case::InsertBeside | Case::InsertBesideRoomy => insert_beside(self, &task.picks),
            Case::Exchange => exchange(self, &task.picks),
            Case::BreakConnect => break_connect(self, &task.picks),
            Case::Replace => replace(self, &task.picks),
            Case::GetLink => get_link(self, &task.picks),
            Case::Walk => walk(self, &task.starts),
            Case::Iterate => iterate(self),
            Case::DrainChains | Case::DrainInterleaved => drain_chains(self, &task.starts),
            Case::Drain | Case::DrainTangled => drain(self),
            Case::Copy => copy(self),
            Case::CanonicalTangled
            | Case::CanonicalInterleaved
            | Case::CanonicalRested => canonical(self, 0),
            Case::CanonicalHoles | Case::CanonicalBehind | Case::CanonicalPermutedBehind => {
                canonical(self, task.plan.links)
            }
            Case::CanonicalPermuted | Case::CanonicalPermutedHoles => canonical_cycles(self),
            Case::Transfer | Case::TransferPermuted => transfer(self),
            Case::Advance | Case::Compress | Case::MoveAfter | Case::Reverse => return None,
        })
    }
}

/// The version of the first key of a slot.
const FIRST_VERSION: u64 = 1;

/// The generation of such a link in the other arenas.
const FIRST_GENERATION: u64 = 2;

/// Returns a key as a number. It is that of the other arenas as long as no link was removed.
fn number(p: DefaultKey) -> u64 {
    p.data().as_ffi() + ((FIRST_GENERATION - FIRST_VERSION) << 32)
}

/// Returns a link as a number: its key and its value.
fn number_of_link(p: DefaultKey, link: &Link) -> u64 {
    number(p) ^ u64::from(link.t)
}

#[inline(never)]
fn insert(chains: &mut Chains, links: u32) -> Checksum {
    let mut checksum = Checksum::default();
    for k in 0..links {
        checksum.add_operation(number(chains.insert_alone(k)));
    }
    checksum
}

#[inline(never)]
fn insert_end(chains: &mut Chains, starts: &[DefaultKey], chain: u32) -> Checksum {
    let mut checksum = Checksum::default();
    for start in starts {
        let mut last = *start;
        for k in 1..chain {
            last = chains.insert_end(last, k).expect("the end of a chain");
            checksum.add_operation(number(last));
        }
    }
    checksum
}

#[inline(never)]
fn insert_beside(chains: &mut Chains, picks: &[(DefaultKey, DefaultKey)]) -> Checksum {
    let mut checksum = Checksum::default();
    for (p, _) in picks {
        checksum.add_operation(number(chains.insert_next_to(*p, 0).expect("a link")));
    }
    checksum
}

#[inline(never)]
fn exchange(chains: &mut Chains, picks: &[(DefaultKey, DefaultKey)]) -> Checksum {
    let mut checksum = Checksum::default();
    for (p, q) in picks {
        checksum.add_operation(number_of_success(chains.exchange_next(*p, *q)));
    }
    checksum
}

#[inline(never)]
fn break_connect(chains: &mut Chains, picks: &[(DefaultKey, DefaultKey)]) -> Checksum {
    let mut checksum = Checksum::default();
    for (p, q) in picks {
        checksum.add(number_of_success(chains.break_next(*p)));
        checksum.add_operation(number_of_success(chains.connect(*p, *q)));
    }
    checksum
}

#[inline(never)]
fn replace(chains: &mut Chains, picks: &[(DefaultKey, DefaultKey)]) -> Checksum {
    let mut checksum = Checksum::default();
    for (p, q) in picks {
        let t = chains.remove(*p).map_or(0, |link| link.t);
        checksum.add_operation(number(chains.insert_next_to(*q, t).expect("a link")));
    }
    checksum
}

#[inline(never)]
fn get_link(chains: &Chains, picks: &[(DefaultKey, DefaultKey)]) -> Checksum {
    let mut checksum = Checksum::default();
    for (p, _) in picks {
        if let Some(link) = chains.map.get(*p) {
            let neighbors = link.prev.map_or(0, number) ^ link.next.map_or(0, number);
            checksum.add_operation(neighbors ^ u64::from(link.t));
        }
    }
    checksum
}

#[inline(never)]
fn walk(chains: &Chains, starts: &[DefaultKey]) -> Checksum {
    let mut checksum = Checksum::default();
    for start in starts {
        for (p, link) in chains.iter_chain(*start) {
            checksum.add_operation(number_of_link(p, link));
        }
    }
    checksum
}

#[inline(never)]
fn iterate(chains: &Chains) -> Checksum {
    let mut checksum = Checksum::default();
    for (p, link) in &chains.map {
        checksum.add_operation(number_of_link(p, link));
    }
    checksum
}

#[inline(never)]
fn drain_chains(chains: &mut Chains, starts: &[DefaultKey]) -> Checksum {
    let mut checksum = Checksum::default();
    for start in starts {
        for (p, link) in chains.drain_chain(*start) {
            checksum.add_operation(number_of_link(p, &link));
        }
    }
    checksum
}

#[inline(never)]
fn drain(chains: &mut Chains) -> Checksum {
    let mut checksum = Checksum::default();
    for (p, link) in chains.map.drain() {
        checksum.add_operation(number_of_link(p, &link));
    }
    checksum
}

#[inline(never)]
fn copy(chains: &Chains) -> Checksum {
    let copy = chains.clone();
    probe(&copy, FIRST_GENERATION)
}

/// Arranges all links in a new map, which replaces the old one, since a `SlotMap` chooses the indexes itself.
///
/// The other arenas increment the generation for each hole, and once for the compression.
#[inline(never)]
fn canonical(chains: &mut Chains, holes: u32) -> Checksum {
    *chains = chains.transfer();
    probe(chains, FIRST_GENERATION + u64::from(holes) + 1)
}

/// Records only the number of links, as the other arenas do.
#[inline(never)]
fn canonical_cycles(chains: &mut Chains) -> Checksum {
    *chains = chains.transfer();
    let links = chains.map.len() as u64;
    Checksum {
        operations: links,
        sum: links,
    }
}

/// Transfers all links to a new map, which is then dropped.
#[inline(never)]
fn transfer(chains: &mut Chains) -> Checksum {
    let target = chains.transfer();
    probe(&target, FIRST_GENERATION)
}

/// Counts each link as an operation, and adds eight links spread over the indexes, with the generation of the other arenas.
fn probe(chains: &Chains, generation: u64) -> Checksum {
    let mut checksum = Checksum::default();
    let links = chains.map.len() as u64;
    for k in 0..8 {
        let index = links / 8 * k + 1;
        let p = KeyData::from_ffi(FIRST_VERSION << 32 | index).into();
        if let Some(link) = chains.map.get(p) {
            checksum.add(generation << 32 | index);
            checksum.add(u64::from(link.t));
            checksum.add(link.prev.map_or(0, index_of));
            checksum.add(link.next.map_or(0, index_of));
        }
    }
    checksum.operations = links;
    checksum
}

/// Returns the index of a key.
fn index_of(p: DefaultKey) -> u64 {
    p.data().as_ffi() & u64::from(u32::MAX)
}
