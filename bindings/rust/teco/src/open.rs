//! How a session is opened.

use crate::{sys, Session};
use std::error::Error;
use std::fmt;
use std::ptr;

/// Options for opening a session: how many strings it keeps, how long its pages are, and its language.
///
/// ```
/// use teco::{OpenOptions, RunOptions};
///
/// let mut session = OpenOptions::new().depth(1).page_lines(2).open("a\nb\nc\n")?;
/// session.run("Y")?;
/// assert_eq!(session.text(), b"a\nb\n");
/// # Ok::<(), Box<dyn std::error::Error>>(())
/// ```
#[derive(Clone, Debug, Default, PartialEq, Eq)]
#[must_use]
pub struct OpenOptions {
    pub(crate) page_lines: usize,
    pub(crate) depth: usize,
    pub(crate) wide: bool,
}

impl OpenOptions {
    /// Options of a session that keeps all strings, whose pages end at form feeds alone, and that is not wide.
    pub fn new() -> OpenOptions {
        OpenOptions::default()
    }

    /// Keeps the last `depth` strings, at most [`DEPTH_LIMIT`](crate::DEPTH_LIMIT), or all of them if it is 0.
    pub fn depth(mut self, depth: usize) -> OpenOptions {
        self.depth = depth;
        self
    }

    /// Ends a page after so many lines too, or at form feeds alone if it is 0.
    pub fn page_lines(mut self, page_lines: usize) -> OpenOptions {
        self.page_lines = page_lines;
        self
    }

    /// Reads command strings in the wide language, that of `--wide` of the programs, which reads old macros.
    ///
    /// ```
    /// use teco::OpenOptions;
    ///
    /// let mut session = OpenOptions::new().wide(true).open("")?;
    /// assert_eq!(session.run("0\"=1='")?.printed, b"1\r\n");
    /// # Ok::<(), Box<dyn std::error::Error>>(())
    /// ```
    pub fn wide(mut self, wide: bool) -> OpenOptions {
        self.wide = wide;
        self
    }

    /// Opens a session over a copy of the input.
    ///
    /// # Errors
    ///
    /// See [`OpenError`].
    pub fn open(&self, input: impl AsRef<[u8]>) -> Result<Session, OpenError> {
        let (input, mut handle) = (input.as_ref(), sys::teco { at: ptr::null_mut() });
        let (at, size, lines, depth) = (input.as_ptr(), input.len(), self.page_lines, self.depth);
        // SAFETY: the handle is closed, and the input is a slice.
        let answer = unsafe {
            if self.wide {
                sys::teco_open_wide(&mut handle, at, size, lines, depth)
            } else {
                sys::teco_open(&mut handle, at, size, lines, depth)
            }
        };
        match answer {
            0 => Ok(Session::of(handle)),
            sys::TECO_LARGE => Err(OpenError::TooLarge),
            sys::TECO_DEEP => Err(OpenError::TooDeep),
            _ => Err(OpenError::NoMemory),
        }
    }
}

/// Why a session was not opened.
#[derive(Clone, Copy, Debug, PartialEq, Eq)]
pub enum OpenError {
    /// Memory was refused.
    NoMemory,
    /// The depth is above [`DEPTH_LIMIT`](crate::DEPTH_LIMIT).
    TooDeep,
    /// The input is above [`INPUT_LIMIT`](crate::INPUT_LIMIT) bytes.
    TooLarge,
}

impl fmt::Display for OpenError {
    fn fmt(&self, f: &mut fmt::Formatter<'_>) -> fmt::Result {
        f.write_str(match self {
            OpenError::NoMemory => "memory was refused",
            OpenError::TooDeep => "the depth is above 100000",
            OpenError::TooLarge => "the input is above 2^30 bytes",
        })
    }
}

impl Error for OpenError {}
