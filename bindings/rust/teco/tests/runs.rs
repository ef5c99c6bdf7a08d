//! How strings end, with which options, and how data goes in.

use std::error::Error;
use teco::{Call, Code, Failed, Place, Ran, RunOptions, Session, TEXT_LIMIT};

fn session() -> Session {
    Session::open("").unwrap()
}

/// The place of a command, with no call open.
fn at(at: usize) -> Option<Place> {
    Some(Place { at, inner: at, calls: vec![] })
}

#[test]
fn a_string_that_fails_is_recorded_and_undone() {
    let mut session = session();
    let failed = session.run("Iab\x1b99J").unwrap_err();
    assert_eq!((failed.code, failed.recorded, failed.stopped, failed.steps), (Code::Pop, true, false, 3));
    assert_eq!((failed.place, session.text()), (at(6), b"ab".to_vec()));
    assert_eq!((session.rewind(0), session.text()), (Ok(()), b"".to_vec()));
    assert_eq!((session.strings().len(), session.steps(0)), (1, Some(0)));
}

#[test]
fn a_question_mark_passes_each_error_on() {
    fn edits(string: &str) -> Result<Vec<u8>, Box<dyn Error + Send + Sync>> {
        let mut session = Session::open("one")?;
        session.run("Y")?;
        session.insert(teco::source(b"a^Jb")?)?;
        session.run(string)?;
        teco::token(string.as_bytes(), 0)?;
        session.undo()?;
        session.redo()?;
        Ok(session.text())
    }
    assert_eq!(edits("J").unwrap(), b"a\nbone");
    let failed = edits("J Sz\x1b").unwrap_err();
    assert_eq!(failed.to_string(), "SRH, the search found nothing, at byte 2");
    assert_eq!(failed.downcast::<Failed>().unwrap().code, Code::Srh);
}

#[test]
fn each_kind_of_error_goes_into_one() {
    fn fails(n: u8) -> Result<(), teco::Error> {
        match n {
            0 => drop(teco::OpenOptions::new().depth(usize::MAX).open("")?),
            1 => drop(session().run("9J")?),
            2 => session().undo()?,
            3 => drop(Session::resume(b"")?),
            4 => drop(teco::source(b"^5")?),
            _ => drop(teco::token(b"?", 0)?),
        }
        Ok(())
    }
    let errors: Vec<_> = (0..6).map(|n| fails(n).unwrap_err()).collect();
    let codes: Vec<_> = errors.iter().map(teco::Error::code).collect();
    assert_eq!(codes, [None, Some(Code::Pop), None, None, None, Some(Code::Ill)]);
    let said: Vec<_> = errors.iter().map(ToString::to_string).collect();
    assert_eq!(said[0], "the depth is above 100000");
    assert_eq!(said[1], "POP, place outside the buffer, at byte 1");
    assert_eq!((said[2].as_str(), said[3].as_str()), ("no string is left", "the head has no end"));
    assert_eq!(said[4], "1:1: a caret before what it cannot stand before");
    assert_eq!(said[5], "ILL, no such command, at byte 0");
}

#[test]
fn each_code_has_its_number_letters_and_sentence() {
    assert_eq!(Code::ALL.len(), 32);
    for (number, &code) in (1..).zip(Code::ALL) {
        assert_eq!((code.number(), Code::from_number(number)), (number, Some(code)));
        assert_eq!(code.letters(), format!("{code:?}").to_uppercase());
        assert_eq!(code.to_string(), format!("{}, {}", code.letters(), code.sentence()));
    }
    assert_eq!((Code::from_number(0), Code::from_number(33), Code::from_number(255)), (None, None, None));
    let error: Box<dyn Error> = Code::Dtb.into();
    assert_eq!(error.to_string(), "DTB, delete past the buffer");
}

/// Strings, `$` being ESC, each with the code by which it ends.
const ENDS: &str = r#"
    1,2J ARG   > BNI      ]A CPQ    9D DTB        @S/^R/ ICE     1Ia$ IIA     ? ILL    0P IPA     1"! IQC
    Q! IQN     0Sa$ ISA   S$ ISS    (J MRP        = NAE          "E' NAQ      UA NAU   1/0= DVZ   ; SNI
    9J POP     Sa$ SRH    Oa$ TAG   Ia UTC        Ia$Y YCA       <> LIM       99= TTY  9999999999= OVF
    @^UA/MA/MA PDO        16777216<Ix$> LIM
"#;

#[test]
fn strings_end_by_their_codes() {
    let options = RunOptions::new().limit(1000).room(2);
    let words: Vec<&str> = ENDS.split_whitespace().collect();
    for row in words.chunks(2) {
        let string = row[0].replace('$', "\x1b").replace("^R", "\x12");
        let failed = session().run_with(string, &options).unwrap_err();
        assert_eq!((failed.code.letters(), failed.recorded), (row[1], true), "{}", row[0]);
    }
}

#[test]
fn a_full_room_ends_the_string() {
    let mut session = session();
    let failed = session.run_with("2=12=", &RunOptions::new().room(3)).unwrap_err();
    assert_eq!((failed.code, failed.printed.as_slice(), failed.steps), (Code::Tty, b"2\r\n".as_slice(), 3));
    assert_eq!(session.run_with("2=", &RunOptions::new().room(3)), Ok(Ran { printed: b"2\r\n".to_vec(), steps: 2 }));
    assert_eq!(session.run_with("J", &RunOptions::new().room(0)), Ok(Ran { printed: vec![], steps: 1 }));
}

#[test]
fn what_is_printed_is_that_of_its_run() {
    let mut session = session();
    for room in [0, 3, 80, 65_536, 65_537, 3_000_000, 80, 3, 0, 65_536] {
        let wanted: Vec<u8> = b"2\r\n".iter().copied().cycle().take(room / 3 * 3).collect();
        let failed = session.run_with("<2=>", &RunOptions::new().limit(u64::MAX).room(room)).unwrap_err();
        assert_eq!((failed.code, failed.printed == wanted), (Code::Tty, true));
        assert_eq!(session.run("3=").unwrap().printed, b"3\r\n");
        assert_eq!(session.run("J").unwrap().printed, b"");
    }
}

#[test]
fn a_limit_ends_the_string() {
    let mut session = session();
    for limit in [0, 1, 2, 50] {
        let failed = session.run_with("<Ia\x1b>", &RunOptions::new().limit(limit)).unwrap_err();
        assert_eq!((failed.code, failed.steps, failed.stopped), (Code::Lim, limit, false));
    }
    assert_eq!(session.run("<>").unwrap_err().steps, 1_000_000);
}

#[test]
fn a_string_that_fails_says_where() {
    let mut session = session();
    let failed = session.run("2= Iab\x1b9J").unwrap_err();
    assert_eq!((failed.code, failed.printed.as_slice(), failed.place), (Code::Pop, b"2\r\n".as_slice(), at(8)));
    let failed = session.run("@^UA/J9J/@^U7/ MA/J J M7").unwrap_err();
    assert_eq!(failed.to_string(), "POP, place outside the buffer, in a macro that is called at byte 22");
    let calls = vec![Call { at: 1, name: b'A' }, Call { at: 22, name: b'7' }];
    assert_eq!(failed.place, Some(Place { at: 22, inner: 2, calls }));
}

#[test]
fn all_calls_that_are_open_are_listed() {
    let place = session().run("@^UA/ MA/ MA").unwrap_err().place.unwrap();
    assert_eq!((place.at, place.inner, place.calls.len()), (10, 1, 32));
    assert!(place.calls.iter().rev().skip(1).all(|&call| call == Call { at: 1, name: b'A' }));
}

#[test]
fn a_room_for_which_no_memory_is_found_begins_nothing() {
    let mut session = session();
    for room in [usize::MAX, isize::MAX as usize, isize::MAX as usize + 1] {
        let failed = session.run_with("2=", &RunOptions::new().room(room)).unwrap_err();
        assert_eq!((failed.code, failed.recorded, failed.steps, failed.place), (Code::Mem, false, 0, None));
    }
    assert_eq!(session.strings().len(), 0);
}

/// Texts of bytes that no command may be made of.
fn texts() -> Vec<Vec<u8>> {
    let all: Vec<u8> = (0..=255).collect();
    let mut texts = vec![b"".to_vec(), b"x\x1bHKEX\x1b\x1b".to_vec(), b"/".to_vec(), b"\x1b\x1b".to_vec(), all.clone()];
    texts.extend(all.iter().map(|&lacked| all.iter().copied().filter(|&byte| byte != lacked).collect()));
    texts.extend([all.repeat(2), all.repeat(300), [all.as_slice(), b"\xff"].concat(), all.iter().rev().copied().collect()]);
    let mut state = 1_u32;
    for size in (1..3000).step_by(37) {
        let bytes = (0..size).map(|_| {
            state = state.wrapping_mul(1_664_525).wrapping_add(1_013_904_223);
            (state >> 24) as u8
        });
        texts.push(bytes.collect());
    }
    texts
}

#[test]
fn any_bytes_are_inserted() {
    for text in texts() {
        let mut session = session();
        session.run("I<>\x1b-C").unwrap();
        let ran = session.insert(&text).unwrap();
        assert_eq!(session.text(), [b"<", text.as_slice(), b">"].concat());
        assert_eq!((session.pointer(), session.strings().len(), session.is_done()), (text.len() + 1, 2, false));
        assert_eq!((session.steps(1), ran.printed.len()), (Some(ran.steps), 0));
        session.undo().unwrap();
        assert_eq!((session.text(), session.pointer()), (b"<>".to_vec(), 1));
    }
}

#[test]
fn a_register_is_set_to_any_bytes() {
    for text in texts() {
        let mut session = session();
        session.run("I<>\x1b-C@^UQ/old/").unwrap();
        session.set_register(b'q', &text).unwrap();
        assert_eq!((session.register(b'Q'), session.text(), session.pointer()), (Some(text), b"<>".to_vec(), 1));
        session.undo().unwrap();
        assert_eq!((session.register(b'Q'), session.text(), session.pointer()), (Some(b"old".to_vec()), b"<>".to_vec(), 1));
    }
}

#[test]
fn data_that_has_no_place_is_refused() {
    let mut session = session();
    for name in [b'!', b'/', b'\x1b', 0, 255] {
        let failed = session.set_register(name, "a").unwrap_err();
        assert_eq!((failed.code, failed.recorded), (Code::Iqn, false));
    }
    let large = vec![b'a'; TEXT_LIMIT + 1];
    let refused = |failed: Failed| (failed.code, failed.recorded);
    assert_eq!(session.insert(&large).map_err(refused), Err((Code::Big, false)));
    assert_eq!(session.set_register(b'A', &large).map_err(refused), Err((Code::Big, false)));
    assert_eq!(session.strings().len(), 0);
    session.insert(&large[1..]).unwrap();
    assert_eq!((session.len(), session.insert("a").map_err(refused)), (TEXT_LIMIT, Err((Code::Big, false))));
    session.insert("").unwrap();
    session.set_register(b'A', &large[1..]).unwrap();
    session.run("HKEX").unwrap();
    assert_eq!(session.insert("a").map_err(refused), Err((Code::End, false)));
    assert_eq!((session.register(b'A').map(|text| text.len()), session.strings().len()), (Some(TEXT_LIMIT), 4));
}
