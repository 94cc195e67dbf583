//! The front end of `ldi`: GNU ld's command line (`ld.ldi`), a watcher (`ldi-watch`), a translator of scripts
//! (`ldi-adapt`) and a tool for debuggers (`ldi-gdb`). It starts `ldi session --deferred`, which makes the images; it
//! is not proved.
//!
//! A link is one flow of plain data:
//!
//! ```text
//! words -> Command --+
//!                    +--> plan() -> LinkPlan -> sync() -> Linked -> Checker -> finish() -> Image -> publish
//! files -> Snapshot -+     pure      frozen       edits only       image     verdict    the file    beside, exchanged
//! ```
//!
//! `once`, `server` and `watch` differ only in when it runs and in who puts the file in place.
#![deny(unsafe_code)]
#![warn(missing_docs)]

/// Prints a line on standard error. Those of the standard library panic if it cannot be written, for
/// example on a full disk, or if its reader has gone away.
macro_rules! eprintln {
    ($($words:tt)*) => { $crate::stdio::print_line($crate::stdio::Stream::Errors, format_args!($($words)*)) };
}

/// Prints a line on standard output, in the same way.
macro_rules! println {
    ($($words:tt)*) => { $crate::stdio::print_line($crate::stdio::Stream::Output, format_args!($($words)*)) };
}

pub mod adapted;
pub mod checker;
pub mod command;
mod fast_map;
pub mod finish;
pub mod gdb;
pub mod gnu_map;
pub mod inputs;
pub mod layout;
pub mod objects;
mod parallel;
pub mod profile;
pub mod publish;
pub mod report;
pub mod script;
pub mod server;
pub mod session_client;
pub mod snapshot;
pub mod stdio;
pub mod unloaded;
pub mod watch;

pub mod adapt;
pub mod once;
pub mod plan;
