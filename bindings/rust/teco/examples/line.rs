//! A line editor. Each line of standard input is a source that is run for a second at most, or one of these words:
//! `undo`, `redo`, `list` for the strings so far, and `paste TEXT`, which inserts the text as it is.
//!
//! It reads the file that its first argument names, and prints the text after each line.

use std::error::Error;
use std::io::BufRead;
use std::time::Duration;
use std::{env, fs, io};
use teco::Session;

fn obey(session: &mut Session, line: &str) -> Result<(), Box<dyn Error>> {
    match line.split_once(' ') {
        Some(("paste", text)) => drop(session.insert(text)?),
        _ if line == "undo" => session.undo()?,
        _ if line == "redo" => session.redo()?,
        _ if line == "list" => session.strings().for_each(|string| println!("{}", string.escape_ascii())),
        _ => {
            let ran = session.run_for(teco::source(line.as_bytes())?, Duration::from_secs(1))?;
            print!("{}", String::from_utf8_lossy(&ran.printed));
        }
    }
    Ok(())
}

fn main() -> Result<(), Box<dyn Error>> {
    let input = env::args_os().nth(1).map_or(Ok(Vec::new()), fs::read)?;
    let mut session = Session::open(input)?;
    session.run("Y")?;
    for line in io::stdin().lock().lines() {
        if let Err(error) = obey(&mut session, &line?) {
            println!("{error}");
        }
        println!("{}", session.text().escape_ascii());
    }
    Ok(())
}
