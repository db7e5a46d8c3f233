//! The page-script engine for the desk: safe types over the engine's static library.
//!
//! A page script arrives as a tree file. [`Program::lower`] lowers it, or answers a [`Refusal`];
//! [`Program::start`] gives a [`Machine`]; [`Machine::run`] takes steps and answers how they ended;
//! the names that are left, with their values, are the page.
//!
//! ```
//! use sif::{Answer, Program, Refusal, Single, Value};
//!
//! // var x = 2
//! let file = b"\x00\x03\x02\x06\x01\x01\x01\x08\x01\x13\x00fortmpx\x01\x40\0\0\0\0\0\0\0";
//! let program = Program::lower(file)?;
//! let mut machine = program.start()?;
//! assert_eq!(machine.run(100_000)?.answer, Answer::Done);
//! for (name, value) in machine.names() {
//!     assert_eq!(name.number(), 1);
//!     assert_eq!(value, Value::Single(Single::Number(2.0)));
//! }
//! # Ok::<(), Refusal>(())
//! ```
//!
//! [`script`], [`mod@parse`] and [`show`] are the tree file and its text, [`check`] tells the place of a
//! refusal, and [`listing`], [`page`] and [`trace`] are what the command `sif` prints.
//!
//! ```
//! let text = "var cells = [1, 2]\ncells[2] = 5\n";
//! let file = sif::parse::parse(text)?.script.to_bytes();
//! let accepted = sif::check::check(&file)?;
//! let mut machine = accepted.program.start()?;
//! let report = machine.run(100_000)?;
//! assert_eq!(
//!     sif::page::end_text(&accepted, &machine, report.answer),
//!     "stopped after 3 steps (bound 4) at line 4: index 2 in array cells of length 2\n    \
//!      in line 2 of `sif show`: cells[2] = 5\n"
//! );
//! # Ok::<(), Box<dyn std::error::Error>>(())
//! ```
//!
//! The engine is proved; what this crate adds is not, and is tested. No function panics, whatever it
//! is given. `include/sif.h` has the engine's calls, docs/FORMATS.md the buffers, "document 01" is
//! the paper with the numbers and rules of the engine, and "document 02" the one with their changes.
#![deny(missing_docs)]
#![cfg_attr(
    not(test),
    deny(clippy::unwrap_used, clippy::expect_used, clippy::panic, clippy::indexing_slicing)
)]

mod answer;
mod bytes;
pub mod check;
pub mod decimal;
mod engine;
mod ffi;
#[cfg(test)]
mod header;
pub mod listing;
pub mod page;
pub mod parse;
pub mod place;
mod program;
pub mod script;
pub mod show;
pub mod trace;
mod value;
mod words;

pub use answer::{Answer, Refusal, Report, Stop};
pub use engine::{Machine, Program};
pub use program::{Instruction, Operand};
pub use value::{Name, Single, Value};
