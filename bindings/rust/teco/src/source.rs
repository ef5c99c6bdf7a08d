//! Sources: the form in which `teco -f` reads commands.

use crate::sys;
use std::error::Error;
use std::fmt;

/// Why a source was not read.
#[derive(Clone, Copy, Debug, PartialEq, Eq)]
pub enum Unreadable {
    /// A caret stands before what it can't stand before.
    Caret {
        /// Its line, from 1.
        line: u64,
        /// Its column, in bytes from 1.
        column: u64,
    },
    /// Memory was refused.
    NoMemory,
}

/// The bytes that a source stands for: `$` is ESC, and `^J` a line end. Line ends and margins are layout, and `!!` begins a
/// comment.
///
/// ```
/// assert_eq!(teco::source(b"Iab$ !! a comment")?, b"Iab\x1b");
/// # Ok::<(), teco::Unreadable>(())
/// ```
///
/// # Errors
///
/// See [`Unreadable`].
pub fn source(text: &[u8]) -> Result<Vec<u8>, Unreadable> {
    let mut bytes: Vec<u8> = Vec::new();
    bytes.try_reserve_exact(text.len()).map_err(|_| Unreadable::NoMemory)?;
    let mut told = sys::teco_source::default();
    // SAFETY: the text is a slice, and there is room for as many bytes as it has.
    match unsafe { sys::teco_source(text.as_ptr(), text.len(), bytes.as_mut_ptr(), text.len(), &mut told) } {
        // SAFETY: the call has written so many bytes, which are no more than the source has.
        0 => unsafe { bytes.set_len(told.made) },
        sys::TECO_CARET => return Err(Unreadable::Caret { line: told.line, column: told.column }),
        _ => return Err(Unreadable::NoMemory),
    }
    Ok(bytes)
}

impl fmt::Display for Unreadable {
    fn fmt(&self, f: &mut fmt::Formatter<'_>) -> fmt::Result {
        match self {
            Unreadable::Caret { line, column } => write!(f, "{line}:{column}: a caret before what it cannot stand before"),
            Unreadable::NoMemory => f.write_str("memory was refused"),
        }
    }
}

impl Error for Unreadable {}
