//! Executes the cases of calls that the program does not have.
//!
//! A line `# ..` begins a case with a new arena. Other lines are `CALL = TEXT`, or `CALL` if the result is not compared. A call is
//! a name, a kind of insertion or of call, and numbers. A pointer is two numbers, its index and its generation.

mod changes;
mod drains;
mod link_text;
mod links;
mod lookups;
mod transfers;

use crate::layout::Links;
use crate::pointer::{Generation, Inx, P0, generation_of, index_of, pointer};
use triple_arena::traits::ArenaTrait;

/// A pointer as two numbers, its index and its generation. Two zeros stand for `None`.
pub type RawPointer = (u32, u32);

/// The call of a line: its name, a kind, and numbers.
pub struct Call<'a> {
    pub name: &'a str,
    pub kind: &'a str,
    pub numbers: Vec<u32>,
}

impl<'a> Call<'a> {
    /// Parses the words of a call.
    pub fn parse(text: &'a str) -> Call<'a> {
        let mut call = Call {
            name: "",
            kind: "",
            numbers: Vec::new(),
        };
        for word in text.split_whitespace() {
            match word.parse() {
                Ok(number) => call.numbers.push(number),
                Err(_) if call.name.is_empty() => call.name = word,
                Err(_) => call.kind = word,
            }
        }
        call
    }

    /// Returns the number at a position, or 0 if there is none.
    pub fn number(&self, position: usize) -> u32 {
        self.numbers.get(position).copied().unwrap_or(0)
    }

    /// Returns the last number, which is a value.
    pub fn value(&self) -> u32 {
        self.numbers.last().copied().unwrap_or(0)
    }

    /// Returns whether the first number is not 0.
    pub fn is_set(&self) -> bool {
        self.number(0) > 0
    }

    /// Returns the number at a position as an index.
    pub fn index(&self, position: usize) -> Inx {
        Inx::new(self.number(position)).unwrap_or(Inx::MIN)
    }

    /// Returns the two numbers from a position on as a pointer.
    pub fn pointer(&self, position: usize) -> P0 {
        pointer_of((self.number(position), self.number(position + 1)))
    }
}

/// Returns the pointer of two numbers. A zero is replaced by 1, which is no pointer's generation in the tests.
pub fn pointer_of(raw: RawPointer) -> P0 {
    pointer(
        Inx::new(raw.0).unwrap_or(Inx::MIN),
        Generation::new(raw.1).unwrap_or(Generation::MIN),
    )
}

/// Returns the two numbers of a pointer, or zeros for `None`.
pub fn raw_pointer(p: Option<P0>) -> RawPointer {
    p.map_or((0, 0), |p| (index_of(p), generation_of(p)))
}

/// Returns the `Debug` text of a result.
pub fn text<T: std::fmt::Debug>(result: T) -> String {
    format!("{result:?}")
}

/// Executes the lines of `library_cases.txt`, and returns them with the results of the crate.
pub fn with_results(cases: &str) -> String {
    let mut arena = Links::new();
    let mut output = String::new();
    for line in cases.lines() {
        if line.starts_with('#') {
            arena = Links::new();
            output.push_str(line);
        } else {
            let (call, text) = line
                .split_once(" = ")
                .map_or((line, None), |(call, text)| (call, Some(text)));
            let result =
                execute(&mut arena, &Call::parse(call)).unwrap_or_else(|| "no such call".into());
            output.push_str(call);
            if text.is_some() {
                output.push_str(&format!(" = {result}"));
            }
        }
        output.push('\n');
    }
    output
}

/// Executes a call, and returns the text of its result. Returns `None` if there is no such call.
fn execute(arena: &mut Links, call: &Call) -> Option<String> {
    changes::execute(arena, call)
        .or_else(|| drains::execute(arena, call))
        .or_else(|| transfers::execute(arena, call))
        .or_else(|| lookups::execute(arena, call))
        .or_else(|| links::execute(arena, call))
        .or_else(|| link_text::execute(arena, call))
}
