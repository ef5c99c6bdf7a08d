//! The error of a function that makes several kinds of calls.

use crate::{Code, Failed, Fault, Nothing, OpenError, Unread, Unreadable};
use std::error;
use std::fmt;

/// Makes the enum of the errors out of their types.
macro_rules! errors {
    ($($(#[$doc:meta])* $name:ident($kind:ty);)*) => {
        /// Any error of this crate, for a function that passes several kinds on by `?`.
        ///
        /// ```
        /// use teco::{Code, Error, Session};
        ///
        /// fn edited(input: &str, string: &str) -> Result<Vec<u8>, Error> {
        ///     let mut session = Session::open(input)?;
        ///     session.run("Y")?;
        ///     session.run(teco::source(string.as_bytes())?)?;
        ///     Ok(session.text())
        /// }
        ///
        /// assert_eq!(edited("a cat", "FScat$dog$"), Ok(b"a dog".to_vec()));
        /// assert_eq!(edited("a cat", "Scow$").unwrap_err().code(), Some(Code::Srh));
        /// ```
        #[derive(Clone, Debug, PartialEq, Eq)]
        #[non_exhaustive]
        pub enum Error {
            $($(#[$doc])* $name($kind),)*
        }

        $(impl From<$kind> for Error {
            fn from(error: $kind) -> Error {
                Error::$name(error)
            }
        })*

        impl fmt::Display for Error {
            fn fmt(&self, f: &mut fmt::Formatter<'_>) -> fmt::Result {
                match self {
                    $(Error::$name(error) => error.fmt(f),)*
                }
            }
        }
    };
}

errors! {
    /// A session was not opened.
    Open(OpenError);
    /// A command string ended by a code.
    Run(Failed);
    /// No string is left to undo, or to redo.
    Nothing(Nothing);
    /// The bytes are no session's file.
    Resume(Unread);
    /// A source can't be read.
    Source(Unreadable);
    /// A text has no token there.
    Token(Fault);
}

impl Error {
    /// The code of a run or of a token that failed.
    pub fn code(&self) -> Option<Code> {
        match self {
            Error::Run(failed) => Some(failed.code),
            Error::Token(fault) => Some(fault.code),
            _ => None,
        }
    }
}

impl error::Error for Error {}
