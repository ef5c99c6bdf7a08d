//! A session: what it keeps, and what can be read of it.

use crate::change::{Change, Kind};
use crate::{sys, OpenError, OpenOptions, Strings};
use std::error::Error;
use std::fmt;

/// A call that gives a number.
type Count = unsafe extern "C" fn(*const sys::teco, *mut usize) -> u8;

/// A call that gives an answer of yes, 1, or no.
type Flag = unsafe extern "C" fn(*const sys::teco) -> u8;

/// An editor that runs command strings, each of which can be undone.
///
/// It owns its memory, and frees it when it is dropped. An undo, a redo, a rewind and a forget ask for none.
pub struct Session {
    /// It is open until the drop. No two calls overlap, since a session is not `Sync` and no call calls back.
    pub(crate) handle: sys::teco,
    /// An empty room for what a run prints.
    pub(crate) room: Vec<u8>,
}

/// No string is left to undo, or to redo.
#[derive(Clone, Copy, Debug, PartialEq, Eq)]
pub struct Nothing;

impl Session {
    /// Opens a session over a copy of the input, which keeps all strings. [`OpenOptions`] has more.
    ///
    /// The buffer is empty then: the command `Y` reads the first page of the input.
    ///
    /// # Errors
    ///
    /// See [`OpenError`].
    pub fn open(input: impl AsRef<[u8]>) -> Result<Session, OpenError> {
        OpenOptions::new().open(input)
    }

    /// The session of a handle that was opened.
    pub(crate) fn of(handle: sys::teco) -> Session {
        Session { handle, room: Vec::new() }
    }

    /// Goes back to the state before the last string that is not undone. Asks for no memory.
    ///
    /// # Errors
    ///
    /// [`Nothing`] if no string is left to undo.
    pub fn undo(&mut self) -> Result<(), Nothing> {
        // SAFETY: the handle is open.
        done(unsafe { sys::teco_undo(&mut self.handle) })
    }

    /// Goes on to the state after the first undone string. Asks for no memory.
    ///
    /// # Errors
    ///
    /// [`Nothing`] if no string is left to redo.
    pub fn redo(&mut self) -> Result<(), Nothing> {
        // SAFETY: the handle is open.
        done(unsafe { sys::teco_redo(&mut self.handle) })
    }

    /// Goes back to the state after the first `steps` steps of the last string that is not undone, and drops the undone ones.
    /// Asks for no memory.
    ///
    /// # Errors
    ///
    /// [`Nothing`] if there is no such string.
    pub fn rewind(&mut self, steps: u64) -> Result<(), Nothing> {
        // SAFETY: the handle is open.
        done(unsafe { sys::teco_rewind(&mut self.handle, steps) })
    }

    /// Drops the strings that are undone, so that none is left to redo. Asks for no memory.
    pub fn forget(&mut self) {
        // SAFETY: the handle is open.
        unsafe { sys::teco_forget(&mut self.handle) };
    }

    /// The texts of the strings that are kept, the oldest first, undone ones too.
    pub fn strings(&self) -> Strings<'_> {
        Strings::of(self)
    }

    /// How many strings are not undone. The string of this index is the next one to redo.
    pub fn cursor(&self) -> usize {
        self.told(sys::teco_cursor)
    }

    /// The text of string `i`, if there is one.
    pub fn string(&self, i: usize) -> Option<Vec<u8>> {
        // SAFETY: see `copied`.
        self.copied(|at, room, size, length| unsafe { sys::teco_string(at, i, room, size, length) })
    }

    /// How many steps string `i` took, if there is one.
    pub fn steps(&self, i: usize) -> Option<u64> {
        let mut steps = 0;
        // SAFETY: the handle is open.
        let answer = unsafe { sys::teco_steps(&self.handle, i, &mut steps) };
        (answer == 0).then_some(steps)
    }

    /// The changes of string `i`, if there is one, in the order in which its steps made them.
    ///
    /// They describe the next undo of the string, or its next redo if it is undone: so an editor draws no more than what
    /// differs.
    pub fn changes(&self, i: usize) -> Option<Vec<Change>> {
        let mut count = 0;
        // SAFETY: the handle is open.
        let answer = unsafe { sys::teco_changes(&self.handle, i, &mut count) };
        (answer == 0).then(|| (0..count).filter_map(|k| self.change(i, k)).collect())
    }

    fn change(&self, i: usize, k: usize) -> Option<Change> {
        let mut told = sys::teco_change::default();
        // SAFETY: the handle is open.
        unsafe { sys::teco_change(&self.handle, i, k, &mut told) };
        let kind = if told.kind == sys::TECO_KIND_SPLICE { self.splice(i, k) } else { Kind::of(told.kind, told.name)? };
        Some(Change { kind, step: told.step })
    }

    fn splice(&self, i: usize, k: usize) -> Kind {
        let mut told = sys::teco_splice::default();
        // SAFETY: the handle is open.
        unsafe { sys::teco_splice(&self.handle, i, k, &mut told) };
        Kind::Splice { at: told.at, gone: told.gone, came: told.came }
    }

    /// A copy of the text of the buffer.
    pub fn text(&self) -> Vec<u8> {
        // SAFETY: see `copied`.
        self.copied(|at, room, size, length| unsafe { sys::teco_text(at, 0, room, size, length) }).unwrap_or_default()
    }

    /// Copies the text of the buffer from byte `from` on, as much as there is room for, and gives how many bytes were copied.
    pub fn read_text(&self, from: usize, room: &mut [u8]) -> usize {
        let mut length = 0;
        // SAFETY: the handle is open, and the room is a slice.
        unsafe { sys::teco_text(&self.handle, from, room.as_mut_ptr(), room.len(), &mut length) };
        length.min(room.len())
    }

    /// The length of the text of the buffer, in bytes.
    pub fn len(&self) -> usize {
        self.told(sys::teco_length)
    }

    /// Whether the buffer has no text.
    pub fn is_empty(&self) -> bool {
        self.len() == 0
    }

    /// The place of the pointer in the text, in bytes.
    pub fn pointer(&self) -> usize {
        self.told(sys::teco_pointer)
    }

    /// How many line ends, LF, VT and FF, the text has between two places in bytes. It takes the time of the way between them.
    pub fn line_ends(&self, from: usize, to: usize) -> usize {
        let mut count = 0;
        // SAFETY: the handle is open.
        unsafe { sys::teco_lines(&self.handle, from, to, &mut count) };
        count
    }

    /// A copy of the output so far: what `P` and the exit wrote.
    pub fn output(&self) -> Vec<u8> {
        // SAFETY: see `copied`.
        self.copied(|at, room, size, length| unsafe { sys::teco_output(at, 0, room, size, length) }).unwrap_or_default()
    }

    /// A copy of the input, as it was passed to [`Session::open`].
    pub fn input(&self) -> Vec<u8> {
        // SAFETY: see `copied`.
        self.copied(|at, room, size, length| unsafe { sys::teco_input(at, 0, room, size, length) }).unwrap_or_default()
    }

    /// The number of a register, A to Z in either case or 0 to 9, if the byte names one.
    pub fn number(&self, name: u8) -> Option<i32> {
        let mut number = 0;
        // SAFETY: the handle is open.
        let answer = unsafe { sys::teco_number(&self.handle, name, &mut number) };
        (answer == 0).then_some(number)
    }

    /// A copy of the text of a register, A to Z in either case or 0 to 9, if the byte names one.
    pub fn register(&self, name: u8) -> Option<Vec<u8>> {
        // SAFETY: see `copied`.
        self.copied(|at, room, size, length| unsafe { sys::teco_register(at, name, room, size, length) })
    }

    /// A copy of the last search text, if there is one.
    pub fn search(&self) -> Option<Vec<u8>> {
        // SAFETY: see `copied`.
        self.copied(|at, room, size, length| unsafe { sys::teco_search(at, room, size, length) })
    }

    /// How many values are on the push-down list.
    pub fn pushed(&self) -> usize {
        self.told(sys::teco_pushed)
    }

    /// How many bytes of the input have been read.
    pub fn place(&self) -> usize {
        self.told(sys::teco_place)
    }

    /// Whether an exit has ended the session. No string is begun then, until the exit is undone.
    pub fn is_done(&self) -> bool {
        self.is(sys::teco_done)
    }

    /// Whether the last search found what it looked for.
    pub fn has_found(&self) -> bool {
        self.is(sys::teco_found)
    }

    /// Whether a form feed ended the page.
    pub fn ended_by_form_feed(&self) -> bool {
        self.is(sys::teco_form_feed)
    }

    /// Whether searches find a letter in either case.
    pub fn finds_either_case(&self) -> bool {
        self.is(sys::teco_either_case)
    }

    /// Whether command strings are read in the wide language. See [`OpenOptions::wide`].
    pub fn is_wide(&self) -> bool {
        self.is(sys::teco_is_wide)
    }

    fn is(&self, call: Flag) -> bool {
        // SAFETY: the handle is open.
        unsafe { call(&self.handle) == 1 }
    }

    pub(crate) fn told(&self, call: Count) -> usize {
        let mut told = 0;
        // SAFETY: the handle is open.
        unsafe { call(&self.handle, &mut told) };
        told
    }

    /// Asks for the length first, and then for the bytes. The call is passed the handle, a room with its size, and a number.
    fn copied(&self, call: impl Fn(*const sys::teco, *mut u8, usize, *mut usize) -> u8) -> Option<Vec<u8>> {
        let mut length = 0;
        let mut bytes = Vec::new();
        if call(&self.handle, bytes.as_mut_ptr(), 0, &mut length) != 0 {
            return None;
        }
        bytes.reserve_exact(length);
        let size = length;
        call(&self.handle, bytes.as_mut_ptr(), size, &mut length);
        // SAFETY: the call has written as many bytes as there is room for, up to the length.
        unsafe { bytes.set_len(length.min(size)) };
        Some(bytes)
    }
}

fn done(answer: u8) -> Result<(), Nothing> {
    match answer {
        0 => Ok(()),
        _ => Err(Nothing),
    }
}

impl Drop for Session {
    fn drop(&mut self) {
        // SAFETY: the handle is open, and in no other call.
        unsafe { sys::teco_close(&mut self.handle) }
    }
}

impl fmt::Debug for Session {
    fn fmt(&self, f: &mut fmt::Formatter<'_>) -> fmt::Result {
        f.debug_struct("Session")
            .field("len", &self.len())
            .field("pointer", &self.pointer())
            .field("strings", &self.strings().len())
            .field("cursor", &self.cursor())
            .field("is_done", &self.is_done())
            .finish_non_exhaustive()
    }
}

impl fmt::Display for Nothing {
    fn fmt(&self, f: &mut fmt::Formatter<'_>) -> fmt::Result {
        f.write_str("no string is left")
    }
}

impl Error for Nothing {}
