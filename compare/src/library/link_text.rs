//! The texts of links, their order, and their hashes.

use super::{Call, pointer_of, text};
use crate::layout::Links;
use crate::pointer::{Inx, P0};
use std::fmt::{self, Debug, Display};
use std::hash::{DefaultHasher, Hash, Hasher};
use triple_arena::{Link, LinkNoGen};

/// Executes a call on links that are in no arena, and returns the text of its result.
pub fn execute(_: &mut Links, call: &Call) -> Option<String> {
    Some(match call.name {
        "TextOfLink" => texts_of(&link(call)),
        "TextOfLinkNoGen" => texts_of(&link(call).no_gen()),
        "IsLess" => text(is_less(&call.numbers[..3], &call.numbers[3..])),
        "IsEqual" => text(is_equal(&call.numbers)),
        _ => return None,
    })
}

/// A value whose text has the options of its format: `#` for the alternate form, and `!` for a width, a precision or a sign.
#[derive(Clone, Copy)]
struct FormatProbe;

fn write_options(f: &mut fmt::Formatter, word: &str) -> fmt::Result {
    let has_others = f.width().is_some() || f.precision().is_some() || f.sign_plus();
    f.write_str(word)?;
    f.write_str(if f.alternate() { "#" } else { "" })?;
    f.write_str(if has_others { "!" } else { "" })
}

impl Debug for FormatProbe {
    fn fmt(&self, f: &mut fmt::Formatter) -> fmt::Result {
        write_options(f, "debug")
    }
}

impl Display for FormatProbe {
    fn fmt(&self, f: &mut fmt::Formatter) -> fmt::Result {
        write_options(f, "display")
    }
}

/// Returns the texts by `Debug` and `Display`. Each is plain, alternate, and with a width, a sign and a precision.
fn texts_of<T: Debug + Display>(item: &T) -> String {
    format!("{item:?} {item:#?} {item:>+40.3?} {item} {item:#} {item:>+40.3}")
}

/// Returns a link whose neighbors are the first two and the next two numbers, zeros for `None`.
fn link(call: &Call) -> Link<P0, FormatProbe> {
    let neighbor = |k| (call.number(k) > 0).then(|| call.pointer(k));
    Link::new((neighbor(0), neighbor(2)), FormatProbe)
}

/// Returns a link with the indexes of its neighbors, 0 for none, and its value.
fn link_of_indexes(parts: &[u32]) -> LinkNoGen<P0, u32> {
    LinkNoGen::new((Inx::new(parts[0]), Inx::new(parts[1])), parts[2])
}

/// Returns the same link with pointers of generation 2.
fn link_of_pointers(parts: &[u32]) -> Link<P0, u32> {
    let neighbor = |i: u32| (i > 0).then(|| pointer_of((i, 2)));
    Link::new((neighbor(parts[0]), neighbor(parts[1])), parts[2])
}

/// Returns whether a link is less than another, by each comparison, with and without generations.
fn is_less(low: &[u32], high: &[u32]) -> bool {
    compares_less(&link_of_indexes(low), &link_of_indexes(high))
        && compares_less(&link_of_pointers(low), &link_of_pointers(high))
}

fn compares_less<L: Ord>(l: &L, m: &L) -> bool {
    l < m && m > l && l != m && l.cmp(m).is_lt() && m.cmp(l).is_gt()
}

/// Returns whether links of the same parts are equal by each comparison, and have the same hash.
fn is_equal(parts: &[u32]) -> bool {
    let copy = link_of_indexes(parts);
    compares_equal(&link_of_indexes(parts), &copy)
        && compares_equal(&link_of_pointers(parts), &link_of_pointers(parts))
}

fn compares_equal<L: Ord + Hash>(l: &L, m: &L) -> bool {
    l == m && l.cmp(m).is_eq() && hash_of(l) == hash_of(m)
}

fn hash_of<T: Hash>(t: &T) -> u64 {
    let mut state = DefaultHasher::new();
    t.hash(&mut state);
    state.finish()
}
