//! Document 01's questions, memory states, tape and print, and document 02's finder, in plain Rust and apart from any Rattle code.
//! build.rs compiles these files again for the planted mistakes, so they name each other by `super`.

pub mod call;
pub mod finder;
pub mod program;
pub mod reader;
pub mod tape;
