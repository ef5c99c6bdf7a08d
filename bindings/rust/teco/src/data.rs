//! Data that is not a command: text of any bytes, for the buffer and for registers.

use crate::{Code, Failed, Ran, RunOptions, Session, TEXT_LIMIT};

/// `^U`, which puts a text into a register.
const SET_TEXT: u8 = 0x15;

impl Session {
    /// Inserts a text of any bytes at the pointer, which goes after it.
    ///
    /// No byte of the text is read as a command. It is one string of the history, so one undo erases it.
    ///
    /// ```
    /// use teco::Session;
    ///
    /// let pasted = b"x\x1bHKEX\x1b";
    /// let mut session = Session::open("")?;
    /// session.insert(pasted)?;
    /// assert_eq!(session.text(), pasted);
    /// # Ok::<(), Box<dyn std::error::Error>>(())
    /// ```
    ///
    /// # Errors
    ///
    /// [`Code::Big`] if the buffer would have more than [`TEXT_LIMIT`] bytes, and those of [`Session::run`]. The first and
    /// [`Code::End`] have changed nothing, and are not recorded.
    pub fn insert(&mut self, text: impl AsRef<[u8]>) -> Result<Ran, Failed> {
        let text = text.as_ref();
        self.fits(text)?;
        let mut string = room_for(text)?;
        inserts(text, &mut string);
        self.run_data(&string)
    }

    /// Makes a text of any bytes that of a register, A to Z in either case or 0 to 9.
    ///
    /// No byte of the text is read as a command. It is one string of the history, so one undo takes it back.
    ///
    /// ```
    /// use teco::Session;
    ///
    /// let mut session = Session::open("")?;
    /// session.set_register(b'A', "a name")?;
    /// session.run("GA")?;
    /// assert_eq!(session.text(), b"a name");
    /// # Ok::<(), Box<dyn std::error::Error>>(())
    /// ```
    ///
    /// # Errors
    ///
    /// [`Code::Iqn`] if no register has the name, [`Code::Big`] if the text has more than [`TEXT_LIMIT`] bytes, and those
    /// of [`Session::run`]. The first two and [`Code::End`] have changed nothing, and are not recorded. A text with all 256
    /// bytes goes through the buffer, which ends as it was: there it needs room beside the buffer's text.
    pub fn set_register(&mut self, name: u8, text: impl AsRef<[u8]>) -> Result<Ran, Failed> {
        let text = text.as_ref();
        if !name.is_ascii_alphanumeric() {
            return Err(Failed::refused(Code::Iqn));
        }
        if text.len() > TEXT_LIMIT {
            return Err(Failed::refused(Code::Big));
        }
        let mut string = room_for(text)?;
        let (size, delimiter) = piece(text);
        if size == text.len() {
            string.extend([b'@', SET_TEXT, name, delimiter]);
            string.extend(text);
            string.push(delimiter);
        } else {
            self.fits(text)?;
            inserts(text, &mut string);
            string.extend(format!(".-{0},.X{1}-{0}D", text.len(), char::from(name)).bytes());
        }
        self.run_data(&string)
    }

    /// Refuses a text for which the buffer has no room left.
    fn fits(&self, text: &[u8]) -> Result<(), Failed> {
        match TEXT_LIMIT.checked_sub(self.len()) {
            Some(room) if text.len() <= room => Ok(()),
            _ => Err(Failed::refused(Code::Big)),
        }
    }

    /// Runs a string whose steps are no more than the bytes of a text.
    fn run_data(&mut self, string: &[u8]) -> Result<Ran, Failed> {
        self.run_with(string, &RunOptions::new().limit(u64::MAX).room(0))
    }
}

/// An empty string with room for the commands that have this text, which grows no more than by a few bytes.
fn room_for(text: &[u8]) -> Result<Vec<u8>, Failed> {
    let mut string = Vec::new();
    string.try_reserve(text.len() + text.len() / 64 + 64).map_err(|_| Failed::refused(Code::Mem))?;
    Ok(string)
}

/// Appends the commands that insert a text, each a piece of it.
fn inserts(text: &[u8], string: &mut Vec<u8>) {
    let mut rest = text;
    loop {
        let (size, delimiter) = piece(rest);
        string.extend([b'@', b'I', delimiter]);
        string.extend(&rest[..size]);
        string.push(delimiter);
        rest = &rest[size..];
        if rest.is_empty() {
            return;
        }
    }
}

/// The size of the longest beginning of a text that lacks a byte, and that byte.
fn piece(text: &[u8]) -> (usize, u8) {
    let mut seen = [false; 256];
    let mut left = seen.len();
    for (at, &byte) in text.iter().enumerate() {
        if !seen[usize::from(byte)] {
            seen[usize::from(byte)] = true;
            left -= 1;
            if left == 0 {
                return (at, byte);
            }
        }
    }
    let usual = b"/!|".iter().copied();
    let delimiter = usual.chain(b'#'..=b'~').chain(0..=u8::MAX).find(|&byte| !seen[usize::from(byte)]);
    (text.len(), delimiter.unwrap_or_default())
}
