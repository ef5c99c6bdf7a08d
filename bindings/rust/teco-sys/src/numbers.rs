//! The numbers of `teco.h`.

/// The most bytes that an input may have.
pub const TECO_INPUT_LIMIT: usize = 1_073_741_824;
/// The most strings that a session can be asked to keep.
pub const TECO_DEPTH_LIMIT: usize = 100_000;
/// The most bytes that a text may have: that of the buffer, of a register or of a search.
pub const TECO_TEXT_LIMIT: usize = 16_777_216;
/// The place of a string that ended successfully, or of which no place is given.
pub const TECO_NOWHERE: usize = usize::MAX;

// What calls answer.

/// No command begins so.
pub const TECO_ILL: u8 = 7;
/// No test is named so.
pub const TECO_IQC: u8 = 9;
/// No register is named so.
pub const TECO_IQN: u8 = 10;
/// The text ends inside of a command.
pub const TECO_UTC: u8 = 24;
/// The limit of steps was reached, or the string was broken off.
pub const TECO_LIM: u8 = 27;
/// Memory was refused.
pub const TECO_MEM: u8 = 28;
/// The room was too small for what was printed.
pub const TECO_TTY: u8 = 29;
/// There is nothing to undo.
pub const TECO_NTU: u8 = 30;
/// There is nothing to redo.
pub const TECO_NTR: u8 = 31;
/// An exit has ended the session.
pub const TECO_END: u8 = 32;
/// A caret of a source stands before what it can't stand before.
pub const TECO_CARET: u8 = 246;
/// The bytes begin with no head of a session's file, of this version and as it was written.
pub const TECO_CHANGED_HEAD: u8 = 247;
/// The bytes end before the head of a session's file does.
pub const TECO_TORN_HEAD: u8 = 248;
/// A string does not run again as it ran.
pub const TECO_OTHERWISE: u8 = 249;
/// No token is left in the text.
pub const TECO_NO_TOKEN: u8 = 250;
/// There is no such string, change, splice, register or search text.
pub const TECO_OUTSIDE: u8 = 251;
/// The history found no memory for the string: it wasn't begun, and nothing changed.
pub const TECO_NOT_BEGUN: u8 = 252;
/// The depth is above [`TECO_DEPTH_LIMIT`].
pub const TECO_DEEP: u8 = 253;
/// The input is above [`TECO_INPUT_LIMIT`].
pub const TECO_LARGE: u8 = 254;
/// The handle is closed.
pub const TECO_CLOSED: u8 = 255;

// What a token is.

/// A run of digits.
pub const TECO_TOKEN_DIGITS: u8 = 1;
/// A value: `B`, `Z`, `.`, `^E` or `^N`.
pub const TECO_TOKEN_VALUE: u8 = 2;
/// One of `H + - * / & # ( ) ,`.
pub const TECO_TOKEN_ARITHMETIC: u8 = 3;
/// `A` or `\`: a value or a command.
pub const TECO_TOKEN_LEVEL: u8 = 4;
/// One of `J C R L D K T V ^T = == Y P PW EX ; ^X`.
pub const TECO_TOKEN_COMMAND: u8 = 5;
/// One of `Q % U X G M [ ]`, with the name of a register.
pub const TECO_TOKEN_REGISTER: u8 = 6;
/// `^^` and a byte.
pub const TECO_TOKEN_BYTE: u8 = 7;
/// One of `I TAB ^A S N _`, with a text.
pub const TECO_TOKEN_TEXT: u8 = 8;
/// `O`, with the name of a tag.
pub const TECO_TOKEN_JUMP: u8 = 9;
/// `^U`, with the name of a register and a text.
pub const TECO_TOKEN_SET_TEXT: u8 = 10;
/// `FS`, with two texts.
pub const TECO_TOKEN_REPLACE: u8 = 11;
/// One of `< > | '`.
pub const TECO_TOKEN_MARK: u8 = 12;
/// A quotation mark, with the letter of a test.
pub const TECO_TOKEN_TEST: u8 = 13;
/// A tag between two exclamation marks.
pub const TECO_TOKEN_TAG: u8 = 14;
/// ESC between tokens.
pub const TECO_TOKEN_ESCAPE: u8 = 15;

// What a change of a string is for.

/// Bytes of the buffer's text, and the pointer: [`teco_splice`](crate::teco_splice()) gives which bytes.
pub const TECO_KIND_SPLICE: u8 = 1;
/// The pointer.
pub const TECO_KIND_POINT: u8 = 2;
/// The number of a register.
pub const TECO_KIND_NUMBER: u8 = 3;
/// The text of a register.
pub const TECO_KIND_TEXT: u8 = 4;
/// The push-down list.
pub const TECO_KIND_PUSH: u8 = 5;
/// The push-down list, and the number and the text of a register.
pub const TECO_KIND_POP: u8 = 6;
/// The place in the input, the end of the output, and whether a form feed ended the page.
pub const TECO_KIND_PAGES: u8 = 7;
/// The last search text.
pub const TECO_KIND_SEARCH: u8 = 8;
/// Whether the last search found.
pub const TECO_KIND_FOUND: u8 = 9;
/// Whether an exit has ended the session.
pub const TECO_KIND_DONE: u8 = 10;
/// Whether searches find a letter in either case.
pub const TECO_KIND_MODE: u8 = 11;

// What a request did.

/// A string was run: by any answer of `teco_run` but `TECO_END`, `TECO_NOT_BEGUN` and `TECO_CLOSED`.
pub const TECO_RAN: u8 = 1;
/// By `teco_undo`.
pub const TECO_UNDID: u8 = 2;
/// By `teco_redo`.
pub const TECO_REDID: u8 = 3;
/// By `teco_rewind`.
pub const TECO_REWOUND: u8 = 4;
/// By `teco_forget`.
pub const TECO_FORGOT: u8 = 5;

// Why the reading of a session's file ended.

/// Nothing is left.
pub const TECO_WHOLE: u8 = 0;
/// The last line has no end, as after a crash.
pub const TECO_TORN: u8 = 1;
/// A line was changed, lost or doubled.
pub const TECO_CHANGED: u8 = 2;
/// A line says nothing that is known here.
pub const TECO_UNKNOWN: u8 = 3;
