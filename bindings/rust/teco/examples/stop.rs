//! Runs a string that has no end. Another thread breaks it off, and an undo takes it back.
//!
//! It prints what the same program in C does, `bindings/c/stop.c`.

use std::error::Error;
use std::thread;
use std::time::Duration;
use teco::{RunOptions, Session, Stopper};

fn show(session: &Session, when: &str) {
    println!("{when}: \"{}\"", String::from_utf8_lossy(&session.text()));
}

fn main() -> Result<(), Box<dyn Error>> {
    let mut session = Session::open("")?;
    let stopper = Stopper::new();
    let asker = stopper.clone();
    let thread = thread::spawn(move || {
        thread::sleep(Duration::from_millis(100));
        asker.ask();
    });
    let options = RunOptions::new().limit(u64::MAX).stopper(&stopper);
    if let Err(failed) = session.run_with("Ia cat\x1bI sat\x1b<>", &options) {
        let is_inside = failed.place.is_some_and(|place| place.at >= 13);
        println!("broken off {} the loop", if is_inside { "inside of" } else { "before" });
    }
    thread.join().map_err(|_| "the thread panicked")?;
    show(&session, "kept");
    session.rewind(1)?;
    show(&session, "after its first step");
    session.undo()?;
    show(&session, "undone");
    Ok(())
}
