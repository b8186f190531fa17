//! The program of `docs/CLI.md`, cases of this repository's tests, and the cases of its bench, over the Rust crate
//! `triple_arena`.

pub mod command;
pub mod execute;
pub mod layout;
pub mod lexer;
pub mod library;
pub mod pointer;
pub mod timing;
