//! Commands, and the parser of lines.

use crate::lexer::{MAX_LINE_LENGTH, generation, index, number, pointer_word, words_of};
use crate::pointer::{Generation, Inx, P0};
use triple_arena::LinkInsertKind;

/// A command, with its arguments.
pub enum Command {
    Add(LinkInsertKind<P0>, u32),
    AddWithin(LinkInsertKind<P0>, u32),
    Connect(P0, P0),
    BreakPrev(P0),
    BreakNext(P0),
    Exchange(P0, P0),
    Remove(P0),
    RemoveInx(Inx),
    Invalidate(P0),
    Drain(P0, usize),
    Clear,
    Compress(bool),
    Canonical(bool),
    Moves(bool),
    Reserve(usize),
    SetGeneration(Generation),
    IncGeneration,
    Show(P0),
    Chain(P0),
    Len,
}

/// A line of input.
pub enum Line {
    /// A line without words.
    Blank,
    /// A line that is no command.
    Bad,
    /// A command.
    Good(Command),
}

/// Parses a line.
pub fn parse(line: &[u8]) -> Line {
    if line.len() > MAX_LINE_LENGTH {
        return Line::Bad;
    }
    match words_of(line).split_first() {
        None => Line::Blank,
        Some((name, arguments)) => match command(name, arguments) {
            None => Line::Bad,
            Some(command) => Line::Good(command),
        },
    }
}

/// Returns the command with this name and these arguments.
fn command(name: &[u8], arguments: &[&[u8]]) -> Option<Command> {
    match (name, arguments) {
        (b"add", [kind @ .., value]) => Some(Command::Add(insert_kind(kind)?, number(value)?)),
        (b"addwithin", [kind @ .., value]) => {
            Some(Command::AddWithin(insert_kind(kind)?, number(value)?))
        }
        (b"connect", [p, q]) => Some(Command::Connect(pointer_word(p)?, pointer_word(q)?)),
        (b"exchange", [p, q]) => Some(Command::Exchange(pointer_word(p)?, pointer_word(q)?)),
        (b"drain", [p, n]) => Some(Command::Drain(pointer_word(p)?, number(n)? as usize)),
        (b"remove", [x]) => match pointer_word(x) {
            Some(p) => Some(Command::Remove(p)),
            None => Some(Command::RemoveInx(index(x)?)),
        },
        (name, [argument]) => command_with_one_argument(name, argument),
        (b"clear", []) => Some(Command::Clear),
        (b"incgen", []) => Some(Command::IncGeneration),
        (b"len", []) => Some(Command::Len),
        _ => None,
    }
}

/// Returns the command with this name and this one argument.
fn command_with_one_argument(name: &[u8], word: &[u8]) -> Option<Command> {
    match name {
        b"breakprev" => Some(Command::BreakPrev(pointer_word(word)?)),
        b"breaknext" => Some(Command::BreakNext(pointer_word(word)?)),
        b"invalidate" => Some(Command::Invalidate(pointer_word(word)?)),
        b"show" => Some(Command::Show(pointer_word(word)?)),
        b"chain" => Some(Command::Chain(pointer_word(word)?)),
        b"compress" => Some(Command::Compress(is_reset(word)?)),
        b"canonical" => Some(Command::Canonical(is_reset(word)?)),
        b"moves" => Some(Command::Moves(is_reset(word)?)),
        b"reserve" => Some(Command::Reserve(number(word)? as usize)),
        b"setgen" => Some(Command::SetGeneration(generation(word)?)),
        _ => None,
    }
}

/// Returns whether a compression sets the counter to 2.
fn is_reset(word: &[u8]) -> Option<bool> {
    match word {
        b"reset" => Some(true),
        b"keep" => Some(false),
        _ => None,
    }
}

/// Returns the kind of an insertion: a name, followed by up to two pointers or indexes.
fn insert_kind(kind: &[&[u8]]) -> Option<LinkInsertKind<P0>> {
    match kind {
        [b"alone"] => Some(LinkInsertKind::Disconnected),
        [b"ring"] => Some(LinkInsertKind::SingleLinkCyclic),
        [name, x] => match pointer_word(x) {
            Some(p) => kind_at_pointer(name, p),
            None => kind_at_index(name, index(x)?),
        },
        [name, x, y] => match (pointer_word(x), pointer_word(y)) {
            (Some(p), Some(q)) => kind_at_pointers(name, p, q),
            _ => kind_at_indexes(name, index(x)?, index(y)?),
        },
        _ => None,
    }
}

/// Returns the kind of an insertion at a link, by its pointer.
fn kind_at_pointer(name: &[u8], p: P0) -> Option<LinkInsertKind<P0>> {
    match name {
        b"end" => Some(LinkInsertKind::ChainEnd(p)),
        b"start" => Some(LinkInsertKind::ChainStart(p)),
        b"after" => Some(LinkInsertKind::NextTo(p)),
        b"before" => Some(LinkInsertKind::PrevTo(p)),
        _ => None,
    }
}

/// Returns the kind of an insertion at a link, by its index.
fn kind_at_index(name: &[u8], i: Inx) -> Option<LinkInsertKind<P0>> {
    match name {
        b"end" => Some(LinkInsertKind::ChainEndInx(i)),
        b"start" => Some(LinkInsertKind::ChainStartInx(i)),
        b"after" => Some(LinkInsertKind::NextToInx(i)),
        b"before" => Some(LinkInsertKind::PrevToInx(i)),
        _ => None,
    }
}

/// Returns the kind of an insertion between two links, by their pointers.
fn kind_at_pointers(name: &[u8], p: P0, q: P0) -> Option<LinkInsertKind<P0>> {
    match name {
        b"between" => Some(LinkInsertKind::AtInterlink {
            next_to: p,
            prev_to: q,
        }),
        b"bridge" => Some(LinkInsertKind::Bridge { end: p, start: q }),
        _ => None,
    }
}

/// Returns the kind of an insertion between two links, by their indexes.
fn kind_at_indexes(name: &[u8], i: Inx, j: Inx) -> Option<LinkInsertKind<P0>> {
    match name {
        b"between" => Some(LinkInsertKind::AtInterlinkInx {
            next_to: i,
            prev_to: j,
        }),
        b"bridge" => Some(LinkInsertKind::BridgeInx { end: i, start: j }),
        _ => None,
    }
}
