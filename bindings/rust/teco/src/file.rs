//! The file of a session: what requests do, so that the session is opened from it again.
//!
//! The caller writes it. It begins with the head. After each request that was not refused, and before its outcome is shown, the line of it
//! comes behind those before. So a crash loses one request at most.

use crate::{sys, OpenOptions, Session};
use std::error::Error;
use std::fmt;
use std::ptr;

/// What a request did.
#[derive(Clone, Copy, Debug, PartialEq, Eq)]
pub enum Entry<'a> {
    /// A string was run: any one that ended successfully, or whose [`Failed`](crate::Failed) says that it is recorded.
    Ran {
        /// The string. Of an [insert](Session::insert) it is the last of [`Session::strings`].
        text: &'a [u8],
        /// The steps that it took.
        steps: u64,
    },
    /// By [`Session::undo`].
    Undid,
    /// By [`Session::redo`].
    Redid,
    /// By [`Session::rewind`] with this number of steps.
    Rewound(u64),
    /// By [`Session::forget`].
    Forgot,
}

/// The check of the last line of a file, from which that of the next one is made.
#[derive(Clone, Debug, PartialEq, Eq)]
pub struct Lines {
    check: [u8; 16],
}

/// What is known of a session that was opened again.
#[derive(Clone, Debug, PartialEq, Eq)]
pub struct Resumed {
    /// What the next line of its file is made from.
    pub lines: Lines,
    /// So many bytes were read. Those after them have to be cut off before the next line is written.
    pub good: usize,
    /// So many requests were done again.
    pub records: usize,
    /// A page of its input ends after so many line ends too, or with 0 after any number of them.
    pub page_lines: usize,
    /// Why the reading ended there.
    pub ending: Ending,
}

/// Why the reading of a file ended where it did.
#[derive(Clone, Copy, Debug, PartialEq, Eq)]
pub enum Ending {
    /// Nothing is left.
    Whole,
    /// The last line has no end, as after a crash.
    Torn,
    /// A line was changed, lost or doubled.
    Changed,
    /// A line says nothing that is known here.
    Unknown,
}

/// Why no session was opened from bytes.
#[derive(Clone, Copy, Debug, PartialEq, Eq)]
pub enum Unread {
    /// They begin with no head of a session's file, of this version and as it was written.
    ChangedHead,
    /// They end before the head does.
    TornHead,
    /// A string does not run again as it ran.
    Otherwise,
    /// Its depth is above [`DEPTH_LIMIT`](crate::DEPTH_LIMIT).
    TooDeep,
    /// Its input is above [`INPUT_LIMIT`](crate::INPUT_LIMIT) bytes.
    TooLarge,
    /// Memory was refused.
    NoMemory,
}

impl Entry<'_> {
    /// Its number, its steps, and the text of its string.
    fn parts(&self) -> (u8, u64, &[u8]) {
        match *self {
            Entry::Ran { text, steps } => (sys::TECO_RAN, steps, text),
            Entry::Undid => (sys::TECO_UNDID, 0, b""),
            Entry::Redid => (sys::TECO_REDID, 0, b""),
            Entry::Rewound(n) => (sys::TECO_REWOUND, n, b""),
            Entry::Forgot => (sys::TECO_FORGOT, 0, b""),
        }
    }
}

impl Lines {
    /// The head of the file of a session over this input and of this [depth](crate::OpenOptions::depth); none if memory is
    /// refused.
    pub fn begin(input: &[u8], depth: usize) -> Option<(Lines, Vec<u8>)> {
        Lines::begin_pages(input, 0, depth)
    }

    /// The same of a session with pages of so many [lines](crate::OpenOptions::page_lines).
    pub fn begin_pages(input: &[u8], page_lines: usize, depth: usize) -> Option<(Lines, Vec<u8>)> {
        Lines::begin_with(input, &OpenOptions::new().page_lines(page_lines).depth(depth))
    }

    /// The same of a session that is opened with these options.
    pub fn begin_with(input: &[u8], options: &OpenOptions) -> Option<(Lines, Vec<u8>)> {
        let mut lines = Lines { check: [0; 16] };
        let (at, size, page_lines, depth) = (input.as_ptr(), input.len(), options.page_lines, options.depth);
        // SAFETY: the input is a slice, and `put` keeps the line.
        let head = lines.put(0, 0, |line| unsafe {
            if options.wide {
                sys::teco_head_wide(at, size, page_lines, depth, line)
            } else {
                sys::teco_head(at, size, page_lines, depth, line)
            }
        })?;
        Some((lines, head))
    }

    /// The next line, of what a request did. If memory is refused there is none, and it can be asked for again.
    pub fn line(&mut self, entry: &Entry<'_>) -> Option<Vec<u8>> {
        let (kind, steps, text) = entry.parts();
        // SAFETY: the text is a slice, and `put` keeps the line.
        self.put(kind, steps, |line| unsafe { sys::teco_record(text.as_ptr(), text.len(), line) })
    }

    /// Asks for the length first, which leaves the check as it is, and then for the bytes.
    fn put(&mut self, kind: u8, steps: u64, call: impl Fn(*mut sys::teco_line) -> u8) -> Option<Vec<u8>> {
        let mut bytes: Vec<u8> = Vec::new();
        let mut line = sys::teco_line { kind, steps, check: self.check, room: bytes.as_mut_ptr(), room_size: 0, made: 0 };
        if call(&mut line) != 0 {
            return None;
        }
        bytes.try_reserve_exact(line.made).ok()?;
        bytes.resize(line.made, 0);
        line.room = bytes.as_mut_ptr();
        line.room_size = bytes.len();
        if call(&mut line) != 0 {
            return None;
        }
        self.check = line.check;
        Some(bytes)
    }
}

impl Session {
    /// Opens the session whose file has these bytes, up to where the reading of its lines ends.
    ///
    /// Its strings are run again, each to the step that it was kept with. What they print is not kept.
    ///
    /// ```
    /// use teco::{Entry, Lines, Session};
    ///
    /// let mut session = Session::open("one")?;
    /// let (mut lines, mut file) = Lines::begin(b"one", 0).ok_or("no memory")?;
    /// let ran = session.run("Y")?;
    /// file.extend(lines.line(&Entry::Ran { text: b"Y", steps: ran.steps }).ok_or("no memory")?);
    ///
    /// let (again, resumed) = Session::resume(&file)?;
    /// assert_eq!((again.text(), resumed.records), (b"one".to_vec(), 1));
    /// # Ok::<(), Box<dyn std::error::Error>>(())
    /// ```
    ///
    /// # Errors
    ///
    /// See [`Unread`].
    pub fn resume(bytes: &[u8]) -> Result<(Session, Resumed), Unread> {
        let mut handle = sys::teco { at: ptr::null_mut() };
        let mut told = sys::teco_resumed::default();
        // SAFETY: the handle is closed, and the bytes are a slice.
        match unsafe { sys::teco_resume(&mut handle, bytes.as_ptr(), bytes.len(), &mut told) } {
            0 => Ok((Session::of(handle), Resumed::of(&told))),
            code => Err(Unread::of(code)),
        }
    }
}

impl Resumed {
    fn of(told: &sys::teco_resumed) -> Resumed {
        let ending = match told.ending {
            sys::TECO_WHOLE => Ending::Whole,
            sys::TECO_TORN => Ending::Torn,
            sys::TECO_CHANGED => Ending::Changed,
            _ => Ending::Unknown,
        };
        Resumed {
            lines: Lines { check: told.check },
            good: told.good,
            records: told.records,
            page_lines: told.lines,
            ending,
        }
    }
}

impl Unread {
    fn of(code: u8) -> Unread {
        match code {
            sys::TECO_CHANGED_HEAD => Unread::ChangedHead,
            sys::TECO_TORN_HEAD => Unread::TornHead,
            sys::TECO_OTHERWISE => Unread::Otherwise,
            sys::TECO_DEEP => Unread::TooDeep,
            sys::TECO_LARGE => Unread::TooLarge,
            _ => Unread::NoMemory,
        }
    }
}

impl fmt::Display for Unread {
    fn fmt(&self, f: &mut fmt::Formatter<'_>) -> fmt::Result {
        f.write_str(match self {
            Unread::ChangedHead => "no file of a session, or of another version, or its head was changed",
            Unread::TornHead => "the head has no end",
            Unread::Otherwise => "a string does not run again as it ran",
            Unread::TooDeep => "the depth is above 100000",
            Unread::TooLarge => "the input is above 2^30 bytes",
            Unread::NoMemory => "memory was refused",
        })
    }
}

impl Error for Unread {}
