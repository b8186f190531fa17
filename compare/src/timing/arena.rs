//! The cases over `ChainArena`, each a function.

use super::cases::Case;
use super::checksum::{Checksum, number_of_success};
use super::links::{Links, Position, Task};
use crate::pointer::{Inx, P0, generation_of, index_of, pointer};
use triple_arena::traits::{Advancer, ArenaTrait, ChainArenaTrait, Ptr};
use triple_arena::utils::ArenaSlot;
use triple_arena::utils::traits::PtrGen;
use triple_arena::{ChainArena, LinkInsertKind, LinkNoGen};

/// The value of a link.
pub trait Value: Copy {
    /// Returns the value for a number.
    fn of(number: u32) -> Self;

    /// Returns the number of a value.
    fn number(self) -> u32;
}

impl Value for u32 {
    fn of(number: u32) -> Self {
        number
    }

    fn number(self) -> u32 {
        self
    }
}

impl Value for u64 {
    fn of(number: u32) -> Self {
        u64::from(number)
    }

    fn number(self) -> u32 {
        self as u32
    }
}

/// A number in 12 bytes, with which a slot of the crate has 24 bytes.
#[derive(Clone, Copy)]
pub struct Wide([u32; 3]);

impl Value for Wide {
    fn of(number: u32) -> Self {
        Wide([number, 0, 0])
    }

    fn number(self) -> u32 {
        self.0[0]
    }
}

/// A slot of the crate.
pub type Slot<T> = ArenaSlot<P0, LinkNoGen<P0, T>>;

const _: () = assert!(size_of::<Slot<u32>>() == 16 && size_of::<Slot<Wide>>() == 24);

type Chains<T> = ChainArena<P0, T>;

impl<T: Value> Links for Chains<T> {
    type Ptr = P0;

    fn new() -> Self {
        ArenaTrait::new()
    }

    fn copy(&self) -> Self {
        self.clone()
    }

    fn reserve(&mut self, n: usize) {
        self.reallocate_min_capacity(n).expect("memory");
    }

    fn insert(&mut self, position: Position<P0>, t: u32) -> P0 {
        let kind = match position {
            Position::Alone => LinkInsertKind::Disconnected,
            Position::Cycle => LinkInsertKind::SingleLinkCyclic,
            Position::End(p) => LinkInsertKind::ChainEnd(p),
            Position::NextTo(p) => LinkInsertKind::NextTo(p),
        };
        self.insert_reallocating(kind, T::of(t)).expect("a link")
    }

    fn remove(&mut self, p: P0) {
        ArenaTrait::remove(self, p).allow();
    }

    fn connect(&mut self, p: P0, q: P0) {
        ChainArenaTrait::connect(self, p, q).expect("two ends");
    }

    fn exchange_next(&mut self, p: P0, q: P0) {
        ChainArenaTrait::exchange_next(self, p, q).expect("two links");
    }

    fn next_of(&self, p: P0) -> Option<P0> {
        self.get_link(p)?.next()
    }

    fn number(p: P0) -> u64 {
        number(p)
    }

    fn run_round(&mut self, task: &Task<P0>) -> Option<Checksum> {
        Some(match task.case {
            Case::Insert => insert(self, task.plan.links),
            Case::InsertEnd => insert_end(self, &task.starts, task.plan.chain),
            Case::InsertBeside | Case::InsertBesideRoomy => insert_beside(self, &task.picks),
            Case::Exchange => exchange(self, &task.picks),
            Case::BreakConnect => break_connect(self, &task.picks),
            Case::Replace => replace(self, &task.picks),
            Case::MoveAfter | Case::Reverse => return None,
            Case::GetLink => get_link(self, &task.picks),
            Case::Walk => walk(self, &task.starts),
            Case::Advance => advance(self, &task.starts),
            Case::Iterate => iterate(self),
            Case::DrainChains | Case::DrainInterleaved => drain_chains(self, &task.starts),
            Case::Drain | Case::DrainTangled => drain(self),
            Case::Copy => copy(self),
            Case::Compress => compress(self),
            Case::CanonicalTangled
            | Case::CanonicalInterleaved
            | Case::CanonicalHoles
            | Case::CanonicalRested
            | Case::CanonicalBehind
            | Case::CanonicalPermutedBehind => canonical(self),
            Case::CanonicalPermuted | Case::CanonicalPermutedHoles => canonical_cycles(self),
            Case::Transfer | Case::TransferPermuted => transfer(self),
        })
    }
}

/// Returns a pointer as a number.
fn number(p: P0) -> u64 {
    u64::from(generation_of(p)) << 32 | u64::from(index_of(p))
}

/// Returns a link as a number: its pointer and its value.
fn number_of_link<T: Value>(p: P0, link: &LinkNoGen<P0, T>) -> u64 {
    number(p) ^ u64::from(link.t.number())
}

#[inline(never)]
fn insert<T: Value>(arena: &mut Chains<T>, links: u32) -> Checksum {
    let mut checksum = Checksum::default();
    for k in 0..links {
        let p = arena.insert_reallocating(LinkInsertKind::Disconnected, T::of(k));
        checksum.add_operation(number(p.expect("a link")));
    }
    checksum
}

#[inline(never)]
fn insert_end<T: Value>(arena: &mut Chains<T>, starts: &[P0], chain: u32) -> Checksum {
    let mut checksum = Checksum::default();
    for start in starts {
        let mut last = *start;
        for k in 1..chain {
            let p = arena.insert_reallocating(LinkInsertKind::ChainEnd(last), T::of(k));
            last = p.expect("a link");
            checksum.add_operation(number(last));
        }
    }
    checksum
}

#[inline(never)]
fn insert_beside<T: Value>(arena: &mut Chains<T>, picks: &[(P0, P0)]) -> Checksum {
    let mut checksum = Checksum::default();
    for (p, _) in picks {
        let p = arena.insert_reallocating(LinkInsertKind::NextTo(*p), T::of(0));
        checksum.add_operation(number(p.expect("a link")));
    }
    checksum
}

#[inline(never)]
fn exchange<T: Value>(arena: &mut Chains<T>, picks: &[(P0, P0)]) -> Checksum {
    let mut checksum = Checksum::default();
    for (p, q) in picks {
        checksum.add_operation(number_of_success(ChainArenaTrait::exchange_next(
            arena, *p, *q,
        )));
    }
    checksum
}

#[inline(never)]
fn break_connect<T: Value>(arena: &mut Chains<T>, picks: &[(P0, P0)]) -> Checksum {
    let mut checksum = Checksum::default();
    for (p, q) in picks {
        checksum.add(number_of_success(arena.break_next(*p)));
        checksum.add_operation(number_of_success(ChainArenaTrait::connect(arena, *p, *q)));
    }
    checksum
}

#[inline(never)]
fn replace<T: Value>(arena: &mut Chains<T>, picks: &[(P0, P0)]) -> Checksum {
    let mut checksum = Checksum::default();
    for (p, q) in picks {
        let t = ArenaTrait::remove(arena, *p).allow().unwrap_or(T::of(0));
        let p = arena.insert_reallocating(LinkInsertKind::NextTo(*q), t);
        checksum.add_operation(number(p.expect("a link")));
    }
    checksum
}

#[inline(never)]
fn get_link<T: Value>(arena: &Chains<T>, picks: &[(P0, P0)]) -> Checksum {
    let mut checksum = Checksum::default();
    for (p, _) in picks {
        if let Some(link) = arena.get_link(*p) {
            let neighbors = link.prev().map_or(0, number) ^ link.next().map_or(0, number);
            checksum.add_operation(neighbors ^ u64::from(link.t.number()));
        }
    }
    checksum
}

#[inline(never)]
fn walk<T: Value>(arena: &Chains<T>, starts: &[P0]) -> Checksum {
    let mut checksum = Checksum::default();
    for start in starts {
        for (p, link) in arena.iter_chain(*start).into_iter().flatten() {
            checksum.add_operation(number_of_link(p, link));
        }
    }
    checksum
}

#[inline(never)]
fn advance<T: Value>(arena: &Chains<T>, starts: &[P0]) -> Checksum {
    let mut checksum = Checksum::default();
    for start in starts {
        let Some(mut advancer) = arena.advancer_chain(*start) else {
            continue;
        };
        while let Some(p) = advancer.advance(arena) {
            checksum.add_operation(number(p));
        }
    }
    checksum
}

#[inline(never)]
fn iterate<T: Value>(arena: &Chains<T>) -> Checksum {
    let mut checksum = Checksum::default();
    for (p, link) in arena.iter_link_no_gen() {
        checksum.add_operation(number_of_link(p, link));
    }
    checksum
}

#[inline(never)]
fn drain_chains<T: Value>(arena: &mut Chains<T>, starts: &[P0]) -> Checksum {
    let mut checksum = Checksum::default();
    for start in starts {
        for removed in arena.drain_chain(*start).into_iter().flatten() {
            let (p, link) = removed.allow();
            checksum.add_operation(number_of_link(p, &link));
        }
    }
    checksum
}

#[inline(never)]
fn drain<T: Value>(arena: &mut Chains<T>) -> Checksum {
    let mut checksum = Checksum::default();
    for removed in arena.drain() {
        let (p, t) = removed.allow();
        checksum.add_operation(number(p) ^ u64::from(t.number()));
    }
    checksum
}

#[inline(never)]
fn copy<T: Value>(arena: &Chains<T>) -> Checksum {
    let copy = arena.clone();
    probe(&copy)
}

#[inline(never)]
fn compress<T: Value>(arena: &mut Chains<T>) -> Checksum {
    arena.compress(false).allow();
    probe(arena)
}

#[inline(never)]
fn canonical<T: Value>(arena: &mut Chains<T>) -> Checksum {
    arena.compress_canonical(false).allow();
    probe(arena)
}

/// Records only the number of links, since a cycle may begin at another link here.
#[inline(never)]
fn canonical_cycles<T: Value>(arena: &mut Chains<T>) -> Checksum {
    arena.compress_canonical(false).allow();
    let links = arena.len() as u64;
    Checksum {
        operations: links,
        sum: links,
    }
}

/// Transfers all links to a new arena, which is then dropped.
#[inline(never)]
fn transfer<T: Value>(arena: &mut Chains<T>) -> Checksum {
    let mut target: Chains<T> = ArenaTrait::new();
    target
        .transfer_canonical_reallocating(<P0 as Ptr>::Gen::two(), arena, |_, t, _| t.allow())
        .expect("capacity for the links");
    probe(&target)
}

/// Counts each link as an operation, and adds eight links spread over the indexes.
fn probe<T: Value>(arena: &Chains<T>) -> Checksum {
    let mut checksum = Checksum::default();
    let links = arena.len();
    for k in 0..8 {
        let index = u32::try_from(links / 8 * k + 1).expect("an index");
        let i = Inx::new(index).expect("an index");
        if let Some((generation, link)) = arena.get_inx_link_no_gen(i) {
            add_link(&mut checksum, pointer(i, generation), link);
        }
    }
    checksum.operations = links as u64;
    checksum
}

/// Adds a link's pointer, value and neighbors.
fn add_link<T: Value>(checksum: &mut Checksum, p: P0, link: &LinkNoGen<P0, T>) {
    checksum.add(number(p));
    checksum.add(u64::from(link.t.number()));
    checksum.add(link.prev().map_or(0, |i| u64::from(i.get())));
    checksum.add(link.next().map_or(0, |i| u64::from(i.get())));
}
