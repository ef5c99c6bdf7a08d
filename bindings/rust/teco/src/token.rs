//! What stands at a place of a text.

use crate::{sys, Code};
use std::error::Error;
use std::fmt;

/// A token of a text. Places count bytes from 0.
#[derive(Clone, Copy, Debug, PartialEq, Eq)]
pub struct Token {
    /// The place of its first byte.
    pub from: usize,
    /// The place behind its last byte.
    pub to: usize,
    /// What it is.
    pub kind: TokenKind,
    /// How many bytes its last text or the name of its tag has, which ends before the last byte of the token; or 0.
    pub size: usize,
}

/// What a token is.
#[derive(Clone, Copy, Debug, PartialEq, Eq)]
pub enum TokenKind {
    /// A run of digits.
    Digits,
    /// A value, as `Z`.
    Value,
    /// An operator, a parenthesis, a comma or `H`.
    Arithmetic,
    /// `A` or `\`: a value or a command.
    Level,
    /// A command without a name or a text, as `J`.
    Command,
    /// A command with the name of a register, as `QA`.
    Register,
    /// `^^` and a byte.
    Byte,
    /// A command with a text, as `I`.
    Text,
    /// A jump to a tag.
    Jump,
    /// `^U`, with the name of a register and a text.
    SetText,
    /// `FS`, with two texts.
    Replace,
    /// A mark of a block: `<`, `>`, `|` or `'`.
    Mark,
    /// A quotation mark with the letter of a test.
    Test,
    /// A tag between two exclamation marks.
    Tag,
    /// ESC between tokens.
    Escape,
}

/// Why no token is read at a place.
#[derive(Clone, Copy, Debug, PartialEq, Eq)]
pub struct Fault {
    /// The place, in bytes, after the fillers there.
    pub at: usize,
    /// The code by which a run would end there. It is [`Code::Utc`] if the text ends too soon.
    pub code: Code,
}

/// What stands at byte `at` of a text, after fillers, which are SP, CR, LF and NUL: a token, or none at its end.
///
/// ```
/// use teco::{token, TokenKind};
///
/// let token = token(b"J Iab\x1b", 1)?.unwrap();
/// assert_eq!((token.from, token.to, token.kind, token.size), (2, 6, TokenKind::Text, 2));
/// # Ok::<(), teco::Fault>(())
/// ```
///
/// # Errors
///
/// [`Fault`] if no token can be read there.
pub fn token(text: &[u8], at: usize) -> Result<Option<Token>, Fault> {
    // SAFETY: the text is a slice.
    read(|told| unsafe { sys::teco_token(text.as_ptr(), text.len(), at, told) })
}

/// What stands at byte `at` of a text, as [`token`] gives it, in the [wide](crate::OpenOptions::wide) language.
///
/// ```
/// use teco::{token, token_wide, Code, TokenKind};
///
/// assert_eq!(token(b"\"=J'", 0).unwrap_err().code, Code::Iqc);
/// assert_eq!(token_wide(b"\"=J'", 0)?.unwrap().kind, TokenKind::Test);
/// # Ok::<(), teco::Fault>(())
/// ```
///
/// # Errors
///
/// [`Fault`] if no token can be read there.
pub fn token_wide(text: &[u8], at: usize) -> Result<Option<Token>, Fault> {
    // SAFETY: the text is a slice.
    read(|told| unsafe { sys::teco_token_wide(text.as_ptr(), text.len(), at, told) })
}

/// What a call tells.
fn read(call: impl FnOnce(&mut sys::teco_token) -> u8) -> Result<Option<Token>, Fault> {
    let mut told = sys::teco_token::default();
    match call(&mut told) {
        0 => Ok(TokenKind::of(told.kind).map(|kind| Token { from: told.from, to: told.to, kind, size: told.size })),
        sys::TECO_NO_TOKEN => Ok(None),
        code => Err(Fault { at: told.from, code: Code::of_answer(code) }),
    }
}

impl TokenKind {
    fn of(number: u8) -> Option<TokenKind> {
        Some(match number {
            sys::TECO_TOKEN_DIGITS => TokenKind::Digits,
            sys::TECO_TOKEN_VALUE => TokenKind::Value,
            sys::TECO_TOKEN_ARITHMETIC => TokenKind::Arithmetic,
            sys::TECO_TOKEN_LEVEL => TokenKind::Level,
            sys::TECO_TOKEN_COMMAND => TokenKind::Command,
            sys::TECO_TOKEN_REGISTER => TokenKind::Register,
            sys::TECO_TOKEN_BYTE => TokenKind::Byte,
            sys::TECO_TOKEN_TEXT => TokenKind::Text,
            sys::TECO_TOKEN_JUMP => TokenKind::Jump,
            sys::TECO_TOKEN_SET_TEXT => TokenKind::SetText,
            sys::TECO_TOKEN_REPLACE => TokenKind::Replace,
            sys::TECO_TOKEN_MARK => TokenKind::Mark,
            sys::TECO_TOKEN_TEST => TokenKind::Test,
            sys::TECO_TOKEN_TAG => TokenKind::Tag,
            sys::TECO_TOKEN_ESCAPE => TokenKind::Escape,
            _ => return None,
        })
    }
}

impl fmt::Display for Fault {
    fn fmt(&self, f: &mut fmt::Formatter<'_>) -> fmt::Result {
        write!(f, "{}, at byte {}", self.code, self.at)
    }
}

impl Error for Fault {}
