//! Times calls of a session, in nanoseconds a call: a million runs of `J`, as `bindings/c/bench.c` does in C.

use std::error::Error;
use std::time::{Duration, Instant};
use teco::{OpenOptions, RunOptions, Session, Stopper};

const CALLS: u32 = 1_000_000;

/// Prints how long a call takes that is made so often.
fn time(name: &str, calls: u32, mut call: impl FnMut() -> Result<(), Box<dyn Error>>) -> Result<(), Box<dyn Error>> {
    let start = Instant::now();
    for _ in 0..calls {
        call()?;
    }
    println!("{name:<24} {:.1} ns", start.elapsed().as_nanos() as f64 / f64::from(calls));
    Ok(())
}

fn run(session: &mut Session, options: &RunOptions) -> Result<(), Box<dyn Error>> {
    session.run_with("J", options)?;
    Ok(())
}

fn main() -> Result<(), Box<dyn Error>> {
    let mut session = OpenOptions::new().depth(100).open("")?;
    time("J by the crate in Rust", CALLS, || run(&mut session, &RunOptions::new()))?;
    let stopped = RunOptions::new().stopper(&Stopper::new());
    time("J with a stopper", CALLS, || run(&mut session, &stopped))?;
    let timed = RunOptions::new().timeout(Duration::from_secs(60));
    time("J with a timeout", CALLS / 100, || run(&mut session, &timed))?;
    time("J that fails", CALLS, || {
        let failed = session.run("9J").err();
        failed.map(drop).ok_or_else(|| "it didn't fail".into())
    })?;
    time("an undo with its redo", CALLS, || {
        session.undo()?;
        session.redo()?;
        Ok(())
    })
}
