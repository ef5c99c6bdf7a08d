//! Command strings of TECO, with total undo and redo, as a library.
//!
//! A [`Session`] is an editor that runs command strings over a text of bytes. Each string is recorded, however it ended, and
//! can be undone and redone.
//!
//! ```
//! use teco::{Code, Session};
//!
//! let mut session = Session::open("a cat sat")?;
//! session.run("Y FScat\x1bdog\x1b")?;
//! assert_eq!(session.text(), b"a dog sat");
//!
//! let failed = session.run("Szebra\x1b").unwrap_err();
//! assert_eq!(failed.code, Code::Srh);
//!
//! session.undo()?;
//! session.undo()?;
//! assert_eq!(session.text(), b"");
//! # Ok::<(), teco::Error>(())
//! ```
//!
//! # Command strings
//!
//! They are bytes: ESC is `\x1b`, and [`source`] reads the form that the programs take after `-e`, in which it is `$`. Data
//! that is not a command goes in by [`Session::insert`] and [`Session::set_register`], never by `format!` of a command.
//!
//! # Units
//!
//! Texts are bytes. Places, lengths and rooms count bytes from 0, steps are what a limit counts, and strings are counted
//! from 0, the oldest one that is kept first.
//!
//! # Threads
//!
//! A session stays on the thread that opened it, as the library asks: it is neither `Send` nor `Sync`. Different sessions
//! may run on different threads at once. A [`Stopper`] goes anywhere.
//!
//! ```compile_fail,E0277
//! fn is_send<T: Send>() {}
//! is_send::<teco::Session>();
//! ```
//!
//! ```compile_fail,E0277
//! fn is_sync<T: Sync>() {}
//! is_sync::<teco::Session>();
//! ```
//!
//! # Linking
//!
//! `TECO_LIBRARY` names the folder of `libteco_c.a`, by its whole path. Without it `pkg-config` is asked for `teco`.

#![deny(missing_docs, missing_debug_implementations, unsafe_op_in_unsafe_fn)]
#![warn(rust_2018_idioms, clippy::undocumented_unsafe_blocks)]

mod change;
mod code;
mod data;
mod error;
mod file;
mod open;
mod run;
mod session;
mod source;
mod stopper;
mod strings;
mod token;

pub use change::{Change, Kind};
pub use code::Code;
pub use error::Error;
pub use file::{Ending, Entry, Lines, Resumed, Unread};
pub use open::{OpenError, OpenOptions};
pub use run::{Call, Failed, Place, Ran, RunOptions};
pub use session::{Nothing, Session};
pub use source::{source, Unreadable};
pub use stopper::Stopper;
pub use strings::Strings;
pub use token::{token, token_wide, Fault, Token, TokenKind};

use teco_sys as sys;

/// The most bytes that an input may have: 2^30.
pub const INPUT_LIMIT: usize = sys::TECO_INPUT_LIMIT;

/// The most strings that a session can be asked to keep: 100,000.
pub const DEPTH_LIMIT: usize = sys::TECO_DEPTH_LIMIT;

/// The most bytes that the buffer, a register or a search text may have: 2^24.
pub const TEXT_LIMIT: usize = sys::TECO_TEXT_LIMIT;
