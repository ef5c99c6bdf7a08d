//! The strings of a session.

use crate::{sys, Session};
use std::iter::FusedIterator;
use std::ops::Range;

/// The texts of the strings that a session keeps, the oldest first, undone ones too.
///
/// It is what [`Session::strings`] gives. Its length copies nothing.
///
/// ```
/// use teco::Session;
///
/// let mut session = Session::open("")?;
/// session.run("Ia\x1b")?;
/// session.run("J")?;
/// assert_eq!(session.strings().len(), 2);
/// assert_eq!(session.strings().next_back(), Some(b"J".to_vec()));
/// # Ok::<(), Box<dyn std::error::Error>>(())
/// ```
#[derive(Clone, Debug)]
#[must_use]
pub struct Strings<'a> {
    session: &'a Session,
    left: Range<usize>,
}

impl<'a> Strings<'a> {
    pub(crate) fn of(session: &'a Session) -> Strings<'a> {
        Strings { session, left: 0..session.told(sys::teco_strings) }
    }
}

impl Iterator for Strings<'_> {
    type Item = Vec<u8>;

    fn next(&mut self) -> Option<Vec<u8>> {
        self.left.next().and_then(|i| self.session.string(i))
    }

    fn nth(&mut self, n: usize) -> Option<Vec<u8>> {
        self.left.nth(n).and_then(|i| self.session.string(i))
    }

    fn size_hint(&self) -> (usize, Option<usize>) {
        self.left.size_hint()
    }

    fn count(self) -> usize {
        self.left.len()
    }

    fn last(mut self) -> Option<Vec<u8>> {
        self.next_back()
    }
}

impl DoubleEndedIterator for Strings<'_> {
    fn next_back(&mut self) -> Option<Vec<u8>> {
        self.left.next_back().and_then(|i| self.session.string(i))
    }

    fn nth_back(&mut self, n: usize) -> Option<Vec<u8>> {
        self.left.nth_back(n).and_then(|i| self.session.string(i))
    }
}

impl ExactSizeIterator for Strings<'_> {}

impl FusedIterator for Strings<'_> {}
