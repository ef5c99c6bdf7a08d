//! The calls of `teco.h`, as they are: command strings with total undo and redo.
//!
//! The crate `teco` is safe and wraps all of them. What each call needs, does and answers is in the header itself,
//! `bindings/c/teco.h` of the repository. Texts are bytes; places, lengths and rooms count bytes from 0; a limit counts
//! steps. An answer of 0 is success.
//!
//! # Linking
//!
//! `TECO_LIBRARY` names the folder of `libteco_c.a`, by its whole path. Without it `pkg-config` is asked for `teco`. If
//! neither has a library, the build prints a warning, and the linker says which calls it lacks.
//!
//! # Safety
//!
//! Each pointer is not null, and leads to memory of the size that the header says, which no other pointer of the call
//! leads to. A handle is all zero before it is opened, stays on its thread while it is open, and isn't copied then.

#![no_std]
#![deny(missing_docs, missing_debug_implementations)]
#![allow(non_camel_case_types)]

mod numbers;

use core::ffi::c_void;
pub use numbers::*;

/// The handle of a session. It is closed while it is all zero.
#[repr(C)]
#[derive(Debug)]
pub struct teco {
    /// The session, or null.
    pub at: *mut c_void,
}

/// One of the two handles of a stopper. It is closed while it is all zero.
#[repr(C)]
#[derive(Debug)]
pub struct teco_stopper {
    /// The flag, or null.
    pub at: *mut c_void,
}

/// A call of a macro that is open.
#[repr(C)]
#[derive(Clone, Copy, Debug, Default)]
pub struct teco_call {
    /// Its place in the text that calls, in bytes.
    pub at: usize,
    /// The name of the register whose text it calls.
    pub name: u8,
}

/// What a run is passed, in the first six fields, and what it sets, in the others.
#[repr(C)]
#[derive(Debug)]
pub struct teco_run {
    /// The most steps that the string may take.
    pub limit: u64,
    /// Asked before each step; a closed one asks for no stop.
    pub stopper: teco_stopper,
    /// What the string prints goes here.
    pub room: *mut u8,
    /// There is room for so many bytes.
    pub room_size: usize,
    /// The open calls go here, the latest first.
    pub frames: *mut teco_call,
    /// There is room for so many calls.
    pub frames_size: usize,
    /// So many bytes were printed.
    pub made: usize,
    /// The string took so many steps.
    pub steps: u64,
    /// Where it stopped in the string itself, or [`TECO_NOWHERE`].
    pub at: usize,
    /// Where it stopped in the innermost text, or [`TECO_NOWHERE`].
    pub inner: usize,
    /// So many calls were open there.
    pub calls: usize,
}

/// A token of a text.
#[repr(C)]
#[derive(Clone, Copy, Debug, Default)]
pub struct teco_token {
    /// The place of its first byte.
    pub from: usize,
    /// The place behind its last byte.
    pub to: usize,
    /// What it is, by its number.
    pub kind: u8,
    /// How many bytes its last text or the name of its tag has.
    pub size: usize,
}

/// What a call says of a source.
#[repr(C)]
#[derive(Clone, Copy, Debug, Default)]
pub struct teco_source {
    /// It stands for so many bytes.
    pub made: usize,
    /// The line of the caret by which it can't be read, from 1, or 0.
    pub line: u64,
    /// Its column, from 1, or 0.
    pub column: u64,
}

/// What a change is for.
#[repr(C)]
#[derive(Clone, Copy, Debug, Default)]
pub struct teco_change {
    /// What it is for, by its number.
    pub kind: u8,
    /// The name of the register, or 0.
    pub name: u8,
    /// How many steps of the string were done before it.
    pub step: u64,
}

/// What the next undo or redo does at a place of the text.
#[repr(C)]
#[derive(Clone, Copy, Debug, Default)]
pub struct teco_splice {
    /// The place, in bytes.
    pub at: usize,
    /// So many bytes go.
    pub gone: usize,
    /// So many bytes come.
    pub came: usize,
}

/// A line of the file of a session.
#[repr(C)]
#[derive(Debug)]
pub struct teco_line {
    /// What was done, by its number.
    pub kind: u8,
    /// The steps of a run or of a rewind.
    pub steps: u64,
    /// The check of the line before, and after the call that of this line.
    pub check: [u8; 16],
    /// The line goes here.
    pub room: *mut u8,
    /// There is room for so many bytes.
    pub room_size: usize,
    /// The line has so many bytes.
    pub made: usize,
}

/// What a call says of a session that was opened again.
#[repr(C)]
#[derive(Clone, Copy, Debug, Default)]
pub struct teco_resumed {
    /// The check of the last line that was read.
    pub check: [u8; 16],
    /// So many bytes were read.
    pub good: usize,
    /// So many requests were done again.
    pub records: usize,
    /// A page of its input ends after so many lines too, or with 0 after any number of them.
    pub lines: usize,
    /// Why the reading ended there, by its number.
    pub ending: u8,
}

extern "C" {
    /// Opens a session over a copy of the input.
    pub fn teco_open(t: *mut teco, input: *const u8, n: usize, lines: usize, depth: usize) -> u8;
    /// Opens a session in the wide language.
    pub fn teco_open_wide(t: *mut teco, input: *const u8, n: usize, lines: usize, depth: usize) -> u8;
    /// Closes a session and frees its memory.
    pub fn teco_close(t: *mut teco);
    /// Runs a command string.
    pub fn teco_run(t: *mut teco, text: *const u8, n: usize, run: *mut teco_run) -> u8;
    /// Opens a stopper, with two handles.
    pub fn teco_stopper_open(here: *mut teco_stopper, there: *mut teco_stopper) -> u8;
    /// Closes one handle of a stopper.
    pub fn teco_stopper_close(stopper: *mut teco_stopper);
    /// Asks for a stop, or no longer if `asked` is 0.
    pub fn teco_stop(stopper: *const teco_stopper, asked: u8) -> u8;
    /// Goes back by a string.
    pub fn teco_undo(t: *mut teco) -> u8;
    /// Goes on by a string.
    pub fn teco_redo(t: *mut teco) -> u8;
    /// Goes back to the state after the first `n` steps of the last string.
    pub fn teco_rewind(t: *mut teco, n: u64) -> u8;
    /// Drops the undone strings.
    pub fn teco_forget(t: *mut teco) -> u8;
    /// Gives the head of a session's file.
    pub fn teco_head(input: *const u8, n: usize, lines: usize, depth: usize, line: *mut teco_line) -> u8;
    /// Gives the head of the file of a session in the wide language.
    pub fn teco_head_wide(input: *const u8, n: usize, lines: usize, depth: usize, line: *mut teco_line) -> u8;
    /// Gives the line of a request.
    pub fn teco_record(text: *const u8, n: usize, line: *mut teco_line) -> u8;
    /// Opens the session that the bytes of its file have.
    pub fn teco_resume(t: *mut teco, bytes: *const u8, n: usize, resumed: *mut teco_resumed) -> u8;
    /// Reads what stands at a place of a text.
    pub fn teco_token(text: *const u8, n: usize, at: usize, token: *mut teco_token) -> u8;
    /// Reads what stands at a place of a text in the wide language.
    pub fn teco_token_wide(text: *const u8, n: usize, at: usize, token: *mut teco_token) -> u8;
    /// Gives the bytes that a source stands for.
    pub fn teco_source(source: *const u8, n: usize, room: *mut u8, size: usize, told: *mut teco_source) -> u8;
    /// How many strings are kept.
    pub fn teco_strings(t: *const teco, count: *mut usize) -> u8;
    /// How many strings are not undone.
    pub fn teco_cursor(t: *const teco, count: *mut usize) -> u8;
    /// How many steps string `i` took.
    pub fn teco_steps(t: *const teco, i: usize, steps: *mut u64) -> u8;
    /// The text of string `i`.
    pub fn teco_string(t: *const teco, i: usize, room: *mut u8, size: usize, length: *mut usize) -> u8;
    /// How many changes string `i` has.
    pub fn teco_changes(t: *const teco, i: usize, count: *mut usize) -> u8;
    /// What change `k` of string `i` is for.
    pub fn teco_change(t: *const teco, i: usize, k: usize, change: *mut teco_change) -> u8;
    /// What change `k` of string `i` does to the text.
    pub fn teco_splice(t: *const teco, i: usize, k: usize, splice: *mut teco_splice) -> u8;
    /// The length of the text, in bytes.
    pub fn teco_length(t: *const teco, length: *mut usize) -> u8;
    /// The place of the pointer, in bytes.
    pub fn teco_pointer(t: *const teco, pointer: *mut usize) -> u8;
    /// The text from a place on.
    pub fn teco_text(t: *const teco, from: usize, room: *mut u8, size: usize, length: *mut usize) -> u8;
    /// How many line ends the text has between two places.
    pub fn teco_lines(t: *const teco, from: usize, to: usize, count: *mut usize) -> u8;
    /// The output from a place on.
    pub fn teco_output(t: *const teco, from: usize, room: *mut u8, size: usize, length: *mut usize) -> u8;
    /// The input from a place on.
    pub fn teco_input(t: *const teco, from: usize, room: *mut u8, size: usize, length: *mut usize) -> u8;
    /// The number of a register.
    pub fn teco_number(t: *const teco, name: u8, number: *mut i32) -> u8;
    /// The text of a register.
    pub fn teco_register(t: *const teco, name: u8, room: *mut u8, size: usize, length: *mut usize) -> u8;
    /// The last search text.
    pub fn teco_search(t: *const teco, room: *mut u8, size: usize, length: *mut usize) -> u8;
    /// How many values are on the push-down list.
    pub fn teco_pushed(t: *const teco, count: *mut usize) -> u8;
    /// How many bytes of the input have been read.
    pub fn teco_place(t: *const teco, place: *mut usize) -> u8;
    /// 1 if an exit has ended the session, else 0.
    pub fn teco_done(t: *const teco) -> u8;
    /// 1 if the last search found, else 0.
    pub fn teco_found(t: *const teco) -> u8;
    /// 1 if a form feed ended the page, else 0.
    pub fn teco_form_feed(t: *const teco) -> u8;
    /// 1 if searches find a letter in either case, else 0.
    pub fn teco_either_case(t: *const teco) -> u8;
    /// 1 if the session is in the wide language, else 0.
    pub fn teco_is_wide(t: *const teco) -> u8;
}
