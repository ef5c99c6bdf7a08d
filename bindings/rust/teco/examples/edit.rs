//! Edits a line by command strings, undoes one, and prints the buffer after each call.
//!
//! It prints what the same program in C does, `bindings/c/edit.c`.

use std::error::Error;
use teco::{Code, Nothing, Session};

/// Prints the buffer after a call, and the number of what it answered.
fn show(session: &Session, call: &str, answer: u8) {
    let text = String::from_utf8_lossy(&session.text()).into_owned();
    println!("{call:<22} answers {answer}, leaves \"{text}\" with the pointer at {}", session.pointer());
}

/// Runs a string in which `$` stands for ESC.
fn run(session: &mut Session, string: &str) {
    let (answer, printed) = match session.run(string.replace('$', "\x1b")) {
        Ok(ran) => (0, ran.printed),
        Err(failed) => (failed.code.number(), failed.printed),
    };
    show(session, string, answer);
    if !printed.is_empty() {
        print!("    it typed {}", String::from_utf8_lossy(&printed));
    }
}

/// The number that an undo answers in C.
fn undone(answer: Result<(), Nothing>) -> u8 {
    answer.map_or(Code::Ntu.number(), |()| 0)
}

fn main() -> Result<(), Box<dyn Error>> {
    let mut session = Session::open("a cat sat")?;
    for string in ["Y", "FScat$dog$", "ZJI here$Z=", "J5DFSfrog$toad$"] {
        run(&mut session, string);
    }
    for _ in 0..2 {
        let answer = undone(session.undo());
        show(&session, "undo", answer);
    }
    session.redo()?;
    show(&session, "redo", 0);
    Ok(())
}
