//! How a string that runs is broken off.

use crate::sys;
use std::fmt;
use std::ptr;
use std::sync::{Arc, Mutex, MutexGuard, PoisonError};

/// A closed handle, which asks for no stop.
pub(crate) const CLOSED: sys::teco_stopper = sys::teco_stopper { at: ptr::null_mut() };

/// Breaks strings off from any thread.
///
/// Clones ask for the same. A run that has one in its [`RunOptions`](crate::RunOptions::stopper) ends by
/// [`Code::Lim`](crate::Code::Lim) before its next step or within a long search, once a clone of it asks. One stopper may
/// serve any number of runs and sessions.
///
/// A stop stays asked until it is taken back, so a string that begins meanwhile ends before its first step. Make a new
/// stopper for each run, which costs little, if a late stop must not reach the next one. No stop is asked from a signal
/// handler, since a stopper has a lock.
///
/// ```
/// use std::thread;
/// use teco::{Code, RunOptions, Session, Stopper};
///
/// let stopper = Stopper::new();
/// let asker = stopper.clone();
/// let thread = thread::spawn(move || asker.ask());
/// let mut session = Session::open("")?;
/// let failed = session.run_with("Ia\x1b<>", &RunOptions::new().limit(u64::MAX).stopper(&stopper)).unwrap_err();
/// assert!(failed.stopped && failed.code == Code::Lim);
/// thread.join().unwrap();
/// # Ok::<(), Box<dyn std::error::Error>>(())
/// ```
#[derive(Clone, Default)]
pub struct Stopper {
    shared: Arc<Mutex<Shared>>,
}

/// Whether a stop is asked, and the runs that listen.
#[derive(Default)]
struct Shared {
    is_asked: bool,
    runs: Vec<Asker>,
    /// A flag that no run has, for the next one. It is asked as the stopper is.
    spare: Option<(Handle, Asker)>,
}

/// Asks one run to stop.
#[derive(Clone)]
pub(crate) struct Asker {
    flag: Arc<Mutex<Flag>>,
}

struct Flag {
    handle: Handle,
    /// The time of the run is over, which nobody takes back.
    is_over: bool,
}

/// One of the two handles of a flag.
pub(crate) struct Handle(sys::teco_stopper);

// SAFETY: teco.h lets a handle of a stopper go from thread to thread. It is not `Sync`, so it is in one call at a time.
unsafe impl Send for Handle {}

impl Stopper {
    /// A stopper that is not asked.
    pub fn new() -> Stopper {
        Stopper::default()
    }

    /// Asks the runs that have this stopper to stop, and those that begin until it is taken back.
    pub fn ask(&self) {
        self.set(true);
    }

    /// Takes back what was asked. A run that has stopped stays stopped.
    pub fn take_back(&self) {
        self.set(false);
    }

    /// Whether a stop is asked.
    pub fn is_asked(&self) -> bool {
        locked(&self.shared).is_asked
    }

    fn set(&self, is_asked: bool) {
        let mut shared = locked(&self.shared);
        shared.is_asked = is_asked;
        let spare = shared.spare.iter().map(|(_, asker)| asker);
        shared.runs.iter().chain(spare).for_each(|run| run.set(is_asked));
    }

    /// The handle of a run that begins, and what asks it; none if memory is refused.
    pub(crate) fn begin(&self) -> Option<(Handle, Asker)> {
        let mut shared = locked(&self.shared);
        let pair = match shared.spare.take() {
            Some(pair) => pair,
            None => Asker::pair().inspect(|(_, asker)| asker.set(shared.is_asked))?,
        };
        shared.runs.push(pair.1.clone());
        Some(pair)
    }

    /// Takes back what [`Stopper::begin`] gave, and keeps it for another run if this one had no time.
    pub(crate) fn end(&self, here: Handle, asker: Asker, had_time: bool) {
        let mut shared = locked(&self.shared);
        shared.runs.retain(|run| !Arc::ptr_eq(&run.flag, &asker.flag));
        if !had_time {
            shared.spare = Some((here, asker));
        }
    }
}

impl Asker {
    /// The handle for a run and what asks it, or none if memory is refused.
    pub(crate) fn pair() -> Option<(Handle, Asker)> {
        let (mut here, mut there) = (Handle(CLOSED), Handle(CLOSED));
        // SAFETY: both handles are closed.
        let answer = unsafe { sys::teco_stopper_open(&mut here.0, &mut there.0) };
        let asker = || Asker { flag: Arc::new(Mutex::new(Flag { handle: there, is_over: false })) };
        (answer == 0).then(|| (here, asker()))
    }

    fn set(&self, is_asked: bool) {
        let flag = locked(&self.flag);
        flag.handle.stop(is_asked || flag.is_over);
    }

    /// Breaks the run off, since its time is over.
    pub(crate) fn time_out(&self) {
        let mut flag = locked(&self.flag);
        flag.is_over = true;
        flag.handle.stop(true);
    }
}

impl Handle {
    fn stop(&self, is_asked: bool) {
        // SAFETY: the handle is open, and the lock around it keeps it in one call at a time.
        unsafe { sys::teco_stop(&self.0, is_asked.into()) };
    }

    /// The handle as a run is passed it, which leaves it as it was.
    pub(crate) fn lent(&self) -> sys::teco_stopper {
        sys::teco_stopper { at: self.0.at }
    }
}

impl Drop for Handle {
    fn drop(&mut self) {
        // SAFETY: the handle is open or closed, and in no other call.
        unsafe { sys::teco_stopper_close(&mut self.0) }
    }
}

impl fmt::Debug for Stopper {
    fn fmt(&self, f: &mut fmt::Formatter<'_>) -> fmt::Result {
        f.debug_struct("Stopper").field("is_asked", &self.is_asked()).finish_non_exhaustive()
    }
}

/// What a lock has. No code panics while it holds one, so what it has is whole.
fn locked<T>(mutex: &Mutex<T>) -> MutexGuard<'_, T> {
    mutex.lock().unwrap_or_else(PoisonError::into_inner)
}
