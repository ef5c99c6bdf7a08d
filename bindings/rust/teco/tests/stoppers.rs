//! How strings are broken off, and threads.

use std::sync::{Arc, Barrier};
use std::thread;
use std::time::{Duration, Instant};
use teco::{Code, Failed, RunOptions, Session, Stopper};

const ENDLESS: &str = "Ib\x1b<>";

/// Options with which a string goes on for years.
fn endless() -> RunOptions {
    RunOptions::new().limit(u64::MAX)
}

fn session() -> Session {
    Session::open("").unwrap()
}

fn is_stopped(failed: &Failed) -> bool {
    failed.code == Code::Lim && failed.stopped && failed.recorded
}

/// Asks after a while.
fn later(stopper: &Stopper) -> thread::JoinHandle<()> {
    let stopper = stopper.clone();
    thread::spawn(move || {
        thread::sleep(Duration::from_millis(50));
        stopper.ask();
    })
}

#[test]
fn a_stopper_goes_anywhere() {
    fn goes<T: Clone + Send + Sync + 'static>() {}
    fn is_an_error<T: std::error::Error + Send + Sync + 'static>() {}
    goes::<Stopper>();
    goes::<RunOptions>();
    is_an_error::<Failed>();
    assert_eq!(format!("{:?}", Stopper::new()), "Stopper { is_asked: false, .. }");
}

#[test]
fn another_thread_breaks_a_string_off() {
    let stopper = Stopper::new();
    let options = endless().stopper(&stopper);
    let mut session = session();
    session.run("Ia\x1b").unwrap();
    let thread = later(&stopper);
    let failed = session.run_with(ENDLESS, &options).unwrap_err();
    thread.join().unwrap();
    assert!(is_stopped(&failed) && failed.steps > 1 && failed.place.as_ref().is_some_and(|place| place.at > 2));
    assert_eq!(failed.to_string().split(" after ").next(), Some("LIM, broken off"));
    assert_eq!(session.steps(1), Some(failed.steps));
    assert_eq!((session.undo(), session.text()), (Ok(()), b"a".to_vec()));
    assert_eq!((session.redo(), session.rewind(1), session.text()), (Ok(()), Ok(()), b"ab".to_vec()));
    let failed = session.run_with("9=", &options).unwrap_err();
    assert!(is_stopped(&failed) && failed.steps == 0 && failed.place.is_some_and(|place| place.at == 0));
    stopper.take_back();
    assert_eq!(session.run_with("9=", &options).unwrap().printed, b"9\r\n");
    drop(stopper);
    assert_eq!(session.run_with("Ic\x1b9J", &options).unwrap_err().code, Code::Pop);
}

#[test]
fn a_stopper_that_is_asked_breaks_each_run_off() {
    let stopper = Stopper::new();
    stopper.ask();
    let options = endless().stopper(&stopper);
    for mut session in [session(), session()] {
        for _ in 0..3 {
            let failed = session.run_with("J", &options).unwrap_err();
            assert!(is_stopped(&failed) && failed.steps == 0);
        }
        session.run("J").unwrap();
    }
    stopper.take_back();
    session().run_with("J", &options).unwrap();
}

#[test]
fn a_stopper_serves_several_sessions_at_once() {
    let stopper = Stopper::new();
    let ready = Arc::new(Barrier::new(5));
    let threads: Vec<_> = (0..4)
        .map(|_| {
            let (options, ready) = (endless().stopper(&stopper), ready.clone());
            thread::spawn(move || {
                ready.wait();
                is_stopped(&session().run_with(ENDLESS, &options).unwrap_err())
            })
        })
        .collect();
    ready.wait();
    later(&stopper).join().unwrap();
    assert!(threads.into_iter().all(|thread| thread.join().unwrap()));
}

#[test]
fn threads_ask_and_take_back_while_strings_run() {
    let stopper = Stopper::new();
    let threads: Vec<_> = (0..4)
        .map(|_| {
            let stopper = stopper.clone();
            thread::spawn(move || {
                for _ in 0..500 {
                    stopper.ask();
                    stopper.take_back();
                }
            })
        })
        .collect();
    let (mut session, options) = (session(), endless().stopper(&stopper));
    let whole = session.run("Ia\x1bHK").unwrap();
    for _ in 0..500 {
        let ended = session.run_with("Ia\x1bHK", &options);
        assert!(ended.as_ref().map_or_else(is_stopped, |ran| *ran == whole));
    }
    threads.into_iter().for_each(|thread| thread.join().unwrap());
    assert!(!stopper.is_asked());
    session.run_with("J", &options).unwrap();
}

#[test]
fn a_time_that_is_over_breaks_a_string_off() {
    let (mut session, begin) = (session(), Instant::now());
    let failed = session.run_for(ENDLESS, Duration::from_millis(30)).unwrap_err();
    assert!(is_stopped(&failed) && begin.elapsed() >= Duration::from_millis(30));
    assert_eq!(session.run_for("2=", Duration::MAX).unwrap().printed, b"2\r\n");
    assert!(is_stopped(&session.run_for("<>", Duration::ZERO).unwrap_err()));
    assert_eq!(session.text(), b"b");
}

#[test]
fn a_time_that_is_over_late_breaks_no_other_run_off() {
    let mut session = session();
    for micros in 0..300 {
        let ended = session.run_for("2000<>", Duration::from_micros(micros));
        assert!(ended.as_ref().map_or_else(is_stopped, |ran| ran.steps > 2000));
        assert_eq!(session.run("2=").unwrap().printed, b"2\r\n");
        assert_eq!(session.run_for("2=", Duration::from_secs(99)).unwrap().printed, b"2\r\n");
    }
}

#[test]
fn a_stopper_that_asks_late_breaks_no_run_of_another_off() {
    let mut session = session();
    let late = Stopper::new();
    session.run_with("J", &RunOptions::new().stopper(&late)).unwrap();
    let next = Stopper::new();
    let thread = later(&late);
    session.run_with("2000000<>", &endless().stopper(&next)).unwrap();
    thread.join().unwrap();
    assert!(late.is_asked() && !next.is_asked());
    session.run("J").unwrap();
    session.run_with("J", &endless().stopper(&next)).unwrap();
}

#[test]
fn a_time_and_a_stopper_go_together() {
    let stopper = Stopper::new();
    let mut session = session();
    let short = endless().stopper(&stopper).timeout(Duration::from_millis(30));
    assert!(is_stopped(&session.run_with(ENDLESS, &short).unwrap_err()));
    assert!(!stopper.is_asked());
    session.run_with("J", &endless().stopper(&stopper)).unwrap();
    let long = endless().stopper(&stopper).timeout(Duration::from_secs(99));
    let thread = later(&stopper);
    let begin = Instant::now();
    assert!(is_stopped(&session.run_with(ENDLESS, &long).unwrap_err()));
    thread.join().unwrap();
    assert!(stopper.is_asked() && begin.elapsed() < Duration::from_secs(60));
}

#[test]
fn eight_threads_have_a_session_each() {
    let threads: Vec<_> = (0..8)
        .map(|i| {
            thread::spawn(move || {
                for k in 0..100 {
                    let mut session = Session::open(format!("{i} {k} cat")).unwrap();
                    session.run("Y<FScat\x1bdog\x1b;>").unwrap();
                    assert_eq!(session.text(), format!("{i} {k} dog").as_bytes());
                    session.undo().unwrap();
                    session.run_for("IX\x1b", Duration::from_secs(99)).unwrap();
                    assert_eq!(session.text(), b"X");
                }
            })
        })
        .collect();
    threads.into_iter().for_each(|thread| thread.join().unwrap());
}
