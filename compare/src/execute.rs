//! Executes lines, and writes the responses.

use crate::command::{Command, Line, parse};
use crate::layout::{Links, arrange};
use crate::pointer::{P0, generation_of, index_of};
use std::fmt::Write;
use triple_arena::errors::{ChainInsertionError, ReallocationError};
use triple_arena::traits::{ArenaTrait, ChainArenaTrait};
use triple_arena::{InvalidationOption, InvalidationResult, LinkInsertKind};

/// The call of the crate that executes `canonical F`. The transfer always executes `moves F`, since it reports the pointers.
#[derive(Clone, Copy, PartialEq, Eq)]
pub enum Canonical {
    /// `ChainArena::compress_canonical`.
    InPlace,
    /// `ChainArena::transfer_canonical_reallocating`, to a new arena.
    ByTransfer,
}

/// An arena, and the responses that are not written yet.
pub struct Session {
    pub arena: Links,
    pub output: String,
    pub canonical: Canonical,
}

impl Session {
    /// Returns a session over a new arena.
    pub fn new(canonical: Canonical) -> Session {
        Session {
            arena: Links::new(),
            output: String::new(),
            canonical,
        }
    }

    /// Executes a line, and adds its response to the output, if it has one.
    pub fn execute_line(&mut self, line: &[u8]) {
        match parse(line) {
            Line::Blank => return,
            Line::Bad => self.put("bad line"),
            Line::Good(command) => self.execute(command),
        }
        self.put("\n");
    }

    fn put(&mut self, words: &str) {
        self.output.push_str(words);
    }

    fn put_pointer(&mut self, p: P0) {
        let _ = write!(self.output, "{}.{}", index_of(p), generation_of(p));
    }

    fn put_neighbor(&mut self, p: Option<P0>) {
        match p {
            Some(p) => self.put_pointer(p),
            None => self.put("-"),
        }
    }

    fn put_option(&mut self, result: Option<()>) {
        self.put(if result.is_some() { "ok" } else { "none" });
    }

    fn put_overflow(&mut self, overflows: bool) {
        if overflows {
            self.put(" overflow");
        }
    }

    fn put_ok(&mut self, result: InvalidationOption<()>) {
        self.put("ok");
        self.put_overflow(result.overflowing().1);
    }

    fn execute(&mut self, command: Command) {
        match command {
            Command::Add(kind, t) => self.add(kind, t),
            Command::AddWithin(kind, t) => self.add_within(kind, t),
            Command::Connect(p, q) => {
                let result = self.arena.connect(p, q);
                self.put_option(result);
            }
            Command::BreakPrev(p) => {
                let result = self.arena.break_prev(p);
                self.put_option(result);
            }
            Command::BreakNext(p) => {
                let result = self.arena.break_next(p);
                self.put_option(result);
            }
            Command::Exchange(p, q) => {
                let result = self.arena.exchange_next(p, q);
                self.put_option(result);
            }
            Command::Show(p) => self.show(p),
            Command::Chain(p) => self.chain(p),
            Command::Len => {
                let _ = write!(self.output, "count {}", self.arena.len());
            }
            other => self.remove_or_renumber(other),
        }
    }

    fn remove_or_renumber(&mut self, command: Command) {
        match command {
            Command::Remove(p) => {
                let result = self.arena.remove(p);
                self.put_removal(result);
            }
            Command::RemoveInx(i) => {
                let result = self.arena.remove_inx(i).map(|(_, t)| t);
                self.put_removal(result);
            }
            Command::Invalidate(p) => self.invalidate(p),
            Command::Drain(p, take) => self.drain(p, take),
            Command::Clear => {
                let result = self.arena.clear();
                self.put_ok(result);
            }
            Command::Compress(reset) => {
                let result = self.arena.compress(reset);
                self.put_ok(result);
            }
            Command::Canonical(reset) => self.canonical(reset),
            Command::Moves(reset) => self.moves(reset),
            other => self.set(other),
        }
    }

    fn set(&mut self, command: Command) {
        match command {
            Command::Reserve(n) => self.reserve(n),
            Command::SetGeneration(generation) => {
                self.arena.set_generation(generation);
                self.put("ok");
            }
            Command::IncGeneration => {
                let result = self.arena.inc_generation();
                self.put_ok(result);
            }
            _ => unreachable!(),
        }
    }

    fn add(&mut self, kind: LinkInsertKind<P0>, t: u32) {
        let result = self.arena.insert_reallocating(kind, t);
        self.put_insertion(result);
    }

    fn add_within(&mut self, kind: LinkInsertKind<P0>, t: u32) {
        let result = self.arena.insert_within_capacity(kind, t);
        self.put_insertion(result);
    }

    fn put_insertion(&mut self, result: Result<P0, ChainInsertionError>) {
        match result {
            Ok(p) => {
                self.put("at ");
                self.put_pointer(p);
            }
            Err(ChainInsertionError::FailedLinkRequirement) => self.put("refused link"),
            Err(ChainInsertionError::NotWithinCapacity) => self.put("refused capacity"),
            Err(ChainInsertionError::BeyondMaxCapacity) => self.put("refused limit"),
            Err(ChainInsertionError::AllocError) => self.put("refused memory"),
        }
    }

    fn reserve(&mut self, n: usize) {
        match self.arena.reallocate_min_capacity(n) {
            Ok(()) => self.put("ok"),
            Err(ReallocationError::BeyondMaxCapacity) => self.put("refused limit"),
            Err(ReallocationError::AllocError) => self.put("refused memory"),
        }
    }

    fn put_removal(&mut self, result: InvalidationResult<u32>) {
        match result.overflowing() {
            (Some(t), overflows) => {
                let _ = write!(self.output, "value {t}");
                self.put_overflow(overflows);
            }
            (None, _) => self.put("none"),
        }
    }

    fn invalidate(&mut self, p: P0) {
        match self.arena.invalidate(p).overflowing() {
            (Some(p), overflows) => {
                self.put("at ");
                self.put_pointer(p);
                self.put_overflow(overflows);
            }
            (None, _) => self.put("none"),
        }
    }

    fn drain(&mut self, p: P0, take: usize) {
        let count = self
            .arena
            .drain_chain(p)
            .map(|links| links.take(take).count());
        match count {
            Some(count) => {
                let _ = write!(self.output, "count {count}");
            }
            None => self.put("none"),
        }
    }

    fn canonical(&mut self, reset: bool) {
        let result = match self.canonical {
            Canonical::InPlace => self.arena.compress_canonical(reset),
            Canonical::ByTransfer => arrange(&mut self.arena, reset, |_, _| ()),
        };
        self.put_ok(result);
    }

    fn moves(&mut self, reset: bool) {
        let mut moves = Vec::with_capacity(self.arena.len());
        let result = arrange(&mut self.arena, reset, |from, to| moves.push((from, to)));
        moves.sort_by_key(|(_, to)| index_of(*to));
        let _ = write!(self.output, "moved {}", moves.len());
        for (from, to) in moves {
            self.put(" ");
            self.put_pointer(from);
            self.put(">");
            self.put_pointer(to);
        }
        self.put_overflow(result.overflowing().1);
    }

    fn show(&mut self, p: P0) {
        let Some(link) = self.arena.get_link(p) else {
            return self.put("none");
        };
        let (prev, next, t) = (link.prev(), link.next(), *link.t);
        self.put("prev ");
        self.put_neighbor(prev);
        self.put(" next ");
        self.put_neighbor(next);
        let _ = write!(self.output, " value {t}");
    }

    fn chain(&mut self, p: P0) {
        let Some(links) = self.arena.iter_chain(p) else {
            return self.put("none");
        };
        let mut separator = "";
        for (p, link) in links {
            let _ = write!(
                self.output,
                "{separator}{}.{}:{}",
                index_of(p),
                generation_of(p),
                link.t
            );
            separator = " ";
        }
    }
}
