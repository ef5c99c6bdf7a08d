//! How a command string is run, and what comes of it.

use crate::stopper::{Asker, CLOSED};
use crate::{sys, Code, Session, Stopper};
use std::error::Error;
use std::fmt;
use std::mem::{self, MaybeUninit};
use std::sync::mpsc::{self, RecvTimeoutError};
use std::thread;
use std::time::Duration;

/// The most calls that can be open at once.
const MOST_CALLS: usize = 32;

/// Room for so many bytes is kept from run to run.
const USUAL_ROOM: usize = 65_536;

/// Options for running a command string.
///
/// ```
/// use std::time::Duration;
/// use teco::{Code, RunOptions, Session};
///
/// let options = RunOptions::new().limit(3).room(80).timeout(Duration::from_secs(1));
/// let mut session = Session::open("")?;
/// let failed = session.run_with("Ia\x1bIb\x1bIc\x1bId\x1b", &options).unwrap_err();
/// assert_eq!((failed.code, failed.steps, session.text()), (Code::Lim, 3, b"abc".to_vec()));
/// # Ok::<(), Box<dyn std::error::Error>>(())
/// ```
#[derive(Clone, Debug)]
#[must_use]
pub struct RunOptions {
    limit: u64,
    room: usize,
    timeout: Option<Duration>,
    stopper: Option<Stopper>,
}

impl RunOptions {
    /// At most 1,000,000 steps and 65,536 printed bytes, for any time and with no stopper.
    pub fn new() -> RunOptions {
        RunOptions { limit: 1_000_000, room: USUAL_ROOM, timeout: None, stopper: None }
    }

    /// The most steps that the string may take. One that would take more ends by [`Code::Lim`].
    pub fn limit(mut self, steps: u64) -> RunOptions {
        self.limit = steps;
        self
    }

    /// The most bytes that the string may print. One that would print more ends by [`Code::Tty`].
    pub fn room(mut self, bytes: usize) -> RunOptions {
        self.room = bytes;
        self
    }

    /// Breaks the string off by [`Code::Lim`] after this time, and no later run. A thread waits for it.
    pub fn timeout(mut self, time: Duration) -> RunOptions {
        self.timeout = Some(time);
        self
    }

    /// Breaks the string off by [`Code::Lim`] when this stopper, or a clone of it, asks.
    pub fn stopper(mut self, stopper: &Stopper) -> RunOptions {
        self.stopper = Some(stopper.clone());
        self
    }
}

impl Default for RunOptions {
    fn default() -> RunOptions {
        RunOptions::new()
    }
}

/// What came of a string that ended successfully.
#[derive(Clone, Debug, Default, PartialEq, Eq)]
pub struct Ran {
    /// The bytes that it printed. The command `=` ends its line with CR LF; a text is printed as it is.
    pub printed: Vec<u8>,
    /// How many steps it took.
    pub steps: u64,
}

/// What came of a string that ended by a code. What its steps did before is kept, until it is undone.
#[derive(Clone, Debug, PartialEq, Eq)]
pub struct Failed {
    /// Why it ended.
    pub code: Code,
    /// The bytes that it printed. The command `=` ends its line with CR LF; a text is printed as it is.
    pub printed: Vec<u8>,
    /// How many steps it took.
    pub steps: u64,
    /// Where it stopped: none if it was not begun, or if no memory was found for the place.
    pub place: Option<Place>,
    /// Whether it is recorded, so that it can be undone. If not, it was not begun, and nothing changed.
    pub recorded: bool,
    /// Whether it was broken off: by a stopper, or since its time was over.
    pub stopped: bool,
}

/// Where a command string stopped. Places count bytes from 0.
#[derive(Clone, Debug, PartialEq, Eq)]
pub struct Place {
    /// The place in the string itself: of the command, or of the outermost call.
    pub at: usize,
    /// The place of the command in the innermost text. If no call is open, it is the same.
    pub inner: usize,
    /// The calls that are open, the latest first.
    pub calls: Vec<Call>,
}

/// A call of a macro that is open.
#[derive(Clone, Copy, Debug, PartialEq, Eq)]
pub struct Call {
    /// Its place in the text that calls, in bytes from 0.
    pub at: usize,
    /// The name of the register whose text it calls.
    pub name: u8,
}

impl Session {
    /// Runs a command string with the options of [`RunOptions::new`].
    ///
    /// The string needs no ESC ESC at its end. It is recorded also if it fails, so that [`Session::undo`] takes it back, and
    /// undone strings are dropped. A string never holds data of others: see [`Session::insert`].
    ///
    /// A failed string is never silent, since the result must be used:
    ///
    /// ```compile_fail
    /// #![deny(unused_must_use)]
    /// # fn main() {
    /// let mut session = teco::Session::open("").unwrap();
    /// session.run("9J");
    /// # }
    /// ```
    ///
    /// # Errors
    ///
    /// [`Failed`] has the code by which it ended, and what it did until then.
    pub fn run(&mut self, string: impl AsRef<[u8]>) -> Result<Ran, Failed> {
        self.run_with(string, &RunOptions::new())
    }

    /// Runs a command string for this time at most, with any number of steps.
    ///
    /// ```
    /// use std::time::Duration;
    /// use teco::Session;
    ///
    /// let mut session = Session::open("")?;
    /// let failed = session.run_for("<>", Duration::from_millis(20)).unwrap_err();
    /// assert!(failed.stopped);
    /// session.run("Ia\x1b")?; // it serves that run alone
    /// # Ok::<(), Box<dyn std::error::Error>>(())
    /// ```
    ///
    /// # Errors
    ///
    /// See [`Session::run`]. If the time is over, the code is [`Code::Lim`] and `stopped` is set.
    pub fn run_for(&mut self, string: impl AsRef<[u8]>, time: Duration) -> Result<Ran, Failed> {
        self.run_with(string, &RunOptions::new().limit(u64::MAX).timeout(time))
    }

    /// Runs a command string.
    ///
    /// # Errors
    ///
    /// See [`Session::run`].
    pub fn run_with(&mut self, string: impl AsRef<[u8]>, options: &RunOptions) -> Result<Ran, Failed> {
        let string = string.as_ref();
        if options.stopper.is_none() && options.timeout.is_none() {
            return self.call(string, options, CLOSED);
        }
        let pair = options.stopper.as_ref().map_or_else(Asker::pair, Stopper::begin);
        let (here, asker) = pair.ok_or(Failed::refused(Code::Mem))?;
        let result = match options.timeout {
            None => self.call(string, options, here.lent()),
            Some(time) => within(time, &asker, || self.call(string, options, here.lent())),
        };
        if let Some(stopper) = &options.stopper {
            stopper.end(here, asker, options.timeout.is_some());
        }
        result
    }

    fn call(&mut self, string: &[u8], options: &RunOptions, stopper: sys::teco_stopper) -> Result<Ran, Failed> {
        let mut room = mem::take(&mut self.room);
        room.try_reserve_exact(options.room).map_err(|_| Failed::refused(Code::Mem))?;
        let mut frames = [MaybeUninit::<sys::teco_call>::uninit(); MOST_CALLS];
        let mut run = sys::teco_run {
            limit: options.limit,
            stopper,
            room: room.as_mut_ptr(),
            room_size: options.room,
            frames: frames.as_mut_ptr().cast(),
            frames_size: frames.len(),
            made: 0,
            steps: 0,
            at: sys::TECO_NOWHERE,
            inner: sys::TECO_NOWHERE,
            calls: 0,
        };
        // SAFETY: the handle is open, the string is a slice, and the rooms have the sizes that are set.
        let answer = unsafe { sys::teco_run(&mut self.handle, string.as_ptr(), string.len(), &mut run) };
        // SAFETY: the call has written so many bytes, and no more than there is room for.
        unsafe { room.set_len(run.made) };
        let printed = self.printed(room);
        match answer {
            0 => Ok(Ran { printed, steps: run.steps }),
            _ => Err(Failed::of(answer, &run, printed, &frames)),
        }
    }

    /// What was printed into a room, which is kept for the next run if it is no larger than usual.
    fn printed(&mut self, mut room: Vec<u8>) -> Vec<u8> {
        if room.capacity() > USUAL_ROOM {
            room.shrink_to_fit();
            return room;
        }
        let printed = room.clone();
        room.clear();
        self.room = room;
        printed
    }
}

/// Does something that is broken off after this time. Nothing is left of the thread that waits.
fn within(time: Duration, asker: &Asker, run: impl FnOnce() -> Result<Ran, Failed>) -> Result<Ran, Failed> {
    let (ended, is_ended) = mpsc::channel::<()>();
    let asker = asker.clone();
    let clock = thread::Builder::new()
        .name("teco timeout".into())
        .spawn(move || {
            if is_ended.recv_timeout(time) == Err(RecvTimeoutError::Timeout) {
                asker.time_out();
            }
        })
        .map_err(|_| Failed::refused(Code::Mem))?;
    let result = run();
    drop(ended);
    // It does not panic, and what it asks serves this run alone.
    let _ = clock.join();
    result
}

impl Failed {
    /// Of a string that was not begun.
    pub(crate) fn refused(code: Code) -> Failed {
        Failed { code, printed: Vec::new(), steps: 0, place: None, recorded: false, stopped: false }
    }

    fn of(answer: u8, run: &sys::teco_run, printed: Vec<u8>, frames: &[MaybeUninit<sys::teco_call>]) -> Failed {
        let code = match answer {
            sys::TECO_NOT_BEGUN => return Failed::refused(Code::Mem),
            sys::TECO_END => return Failed::refused(Code::End),
            _ => Code::of_answer(answer),
        };
        // SAFETY: the call has written so many frames, from the first on.
        let calls = frames.iter().take(run.calls).map(|it| unsafe { it.assume_init() });
        let calls = || calls.map(|it| Call { at: it.at, name: it.name }).collect();
        let place = (run.at != sys::TECO_NOWHERE).then(|| Place { at: run.at, inner: run.inner, calls: calls() });
        let stopped = code == Code::Lim && run.steps < run.limit;
        Failed { code, printed, steps: run.steps, place, recorded: true, stopped }
    }
}

impl fmt::Display for Failed {
    fn fmt(&self, f: &mut fmt::Formatter<'_>) -> fmt::Result {
        match self.code {
            Code::Lim if self.stopped => write!(f, "LIM, broken off after {} steps", self.steps)?,
            Code::Tty => write!(f, "TTY, it prints more than there is room for")?,
            code => write!(f, "{code}")?,
        }
        match &self.place {
            Some(place) if place.calls.is_empty() => write!(f, ", at byte {}", place.at),
            Some(place) => write!(f, ", in a macro that is called at byte {}", place.at),
            None => Ok(()),
        }
    }
}

impl Error for Failed {}

#[cfg(test)]
mod tests {
    use super::*;

    #[test]
    fn a_time_that_is_over_is_not_taken_back() {
        let stopper = Stopper::new();
        let (here, asker) = stopper.begin().unwrap();
        asker.time_out();
        stopper.take_back();
        let mut session = Session::open("").unwrap();
        let failed = session.call(b"J", &RunOptions::new(), here.lent()).unwrap_err();
        assert!(failed.stopped && failed.steps == 0);
    }
}
