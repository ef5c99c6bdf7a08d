//! What a string changed.

use crate::sys;

/// A change that a string made.
#[derive(Clone, Copy, Debug, PartialEq, Eq)]
pub struct Change {
    /// What it is for.
    pub kind: Kind,
    /// How many steps of the string were done before it.
    pub step: u64,
}

/// What a change is for. A register is given by its name.
#[derive(Clone, Copy, Debug, PartialEq, Eq)]
pub enum Kind {
    /// Bytes of the buffer's text, and the pointer. It is what the next undo of the string does at a place of the text, or
    /// its next redo if it is undone.
    Splice {
        /// The place, in bytes, after the changes that are undone or redone before this one.
        at: usize,
        /// So many bytes go.
        gone: usize,
        /// So many bytes come.
        came: usize,
    },
    /// The pointer.
    Point,
    /// The number of a register.
    Number(u8),
    /// The text of a register.
    Text(u8),
    /// The push-down list.
    Push,
    /// The push-down list, and the number and the text of a register.
    Pop(u8),
    /// The place in the input, the end of the output, and whether a form feed ended the page.
    Pages,
    /// The last search text.
    Search,
    /// Whether the last search found.
    Found,
    /// Whether an exit has ended the session.
    Done,
    /// Whether searches find a letter in either case.
    Mode,
}

impl Kind {
    /// The kind of a number of `teco.h` that is no splice.
    pub(crate) fn of(number: u8, name: u8) -> Option<Kind> {
        Some(match number {
            sys::TECO_KIND_POINT => Kind::Point,
            sys::TECO_KIND_NUMBER => Kind::Number(name),
            sys::TECO_KIND_TEXT => Kind::Text(name),
            sys::TECO_KIND_PUSH => Kind::Push,
            sys::TECO_KIND_POP => Kind::Pop(name),
            sys::TECO_KIND_PAGES => Kind::Pages,
            sys::TECO_KIND_SEARCH => Kind::Search,
            sys::TECO_KIND_FOUND => Kind::Found,
            sys::TECO_KIND_DONE => Kind::Done,
            sys::TECO_KIND_MODE => Kind::Mode,
            _ => return None,
        })
    }
}
