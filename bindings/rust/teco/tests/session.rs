//! What a session keeps, and what can be read of it.

use std::iter;
use teco::{
    source, token, Change, Code, Fault, Kind, Nothing, OpenError, OpenOptions, RunOptions, Session, Token, TokenKind,
};
use teco::{token_wide, Unreadable, INPUT_LIMIT};

#[test]
fn a_string_is_run_undone_and_redone() {
    let mut session = Session::open("one\n").unwrap();
    let ran = session.run(b"YFSone\x1btwo\x1bHT").unwrap();
    assert_eq!((ran.printed.as_slice(), ran.steps), (b"two\n".as_slice(), 4));
    assert_eq!((session.text(), session.pointer()), (b"two\n".to_vec(), 3));
    assert_eq!(session.undo(), Ok(()));
    assert_eq!((session.text(), session.is_empty()), (b"".to_vec(), true));
    assert_eq!((session.strings().len(), session.cursor()), (1, 0));
    assert_eq!(session.undo(), Err(Nothing));
    assert_eq!(session.redo(), Ok(()));
    assert_eq!(session.redo(), Err(Nothing));
    assert_eq!((session.text(), session.len(), session.is_empty()), (b"two\n".to_vec(), 4, false));
}

#[test]
fn undone_strings_are_forgotten() {
    let mut session = Session::open("one").unwrap();
    session.run("Y").unwrap();
    session.run("Ia\x1b").unwrap();
    session.forget();
    assert_eq!((session.strings().len(), session.undo(), session.undo()), (2, Ok(()), Ok(())));
    session.forget();
    assert_eq!((session.strings().len(), session.redo(), session.undo()), (0, Err(Nothing), Err(Nothing)));
    assert_eq!((session.text(), session.input()), (b"".to_vec(), b"one".to_vec()));
}

#[test]
fn strings_are_read_from_both_ends() {
    let mut session = Session::open("").unwrap();
    let texts: Vec<_> = (0..9).map(|i| format!("I{i}\x1b").into_bytes()).collect();
    texts.iter().for_each(|text| drop(session.run(text).unwrap()));
    let strings = session.strings();
    assert_eq!((strings.len(), strings.size_hint()), (9, (9, Some(9))));
    assert!(strings.clone().eq(texts.iter().cloned()));
    assert!(strings.clone().rev().eq(texts.iter().rev().cloned()));
    assert_eq!(
        (strings.clone().count(), strings.clone().last(), strings.clone().nth(2)),
        (9, Some(texts[8].clone()), Some(texts[2].clone()))
    );
    let mut both = strings.clone();
    assert_eq!(
        (both.next(), both.next_back(), both.nth_back(1)),
        (Some(texts[0].clone()), Some(texts[8].clone()), Some(texts[6].clone()))
    );
    assert_eq!((both.len(), both.nth(4), both.next(), both.next_back()), (5, Some(texts[5].clone()), None, None));
    session.undo().unwrap();
    assert_eq!((session.strings().len(), session.cursor()), (9, 8));
    session.run("J").unwrap();
    assert_eq!(session.strings().next_back(), Some(b"J".to_vec()));
}

#[test]
fn a_depth_drops_the_oldest_string() {
    let mut session = OpenOptions::new().depth(2).open("").unwrap();
    ["Ia\x1b", "Ib\x1b", "Ic\x1b"].iter().for_each(|text| drop(session.run(text).unwrap()));
    assert!(session.strings().eq([b"Ib\x1b", b"Ic\x1b"]));
    assert_eq!(
        (session.undo(), session.undo(), session.undo(), session.text()),
        (Ok(()), Ok(()), Err(Nothing), b"a".to_vec())
    );
}

#[test]
fn registers_and_strings_are_read() {
    let mut session = Session::open("").unwrap();
    session.run("42UQ@^UA/text/").unwrap();
    assert_eq!((session.number(b'q'), session.number(b'!')), (Some(42), None));
    assert_eq!((session.register(b'A'), session.register(b'!')), (Some(b"text".to_vec()), None));
    assert_eq!((session.string(0), session.string(1)), (Some(b"42UQ@^UA/text/".to_vec()), None));
    assert_eq!((session.steps(0), session.steps(1)), (Some(3), None));
}

#[test]
fn changes_say_what_is_drawn_anew() {
    let mut session = Session::open("").unwrap();
    session.run("Iab\x1b7UQIcde\x1b").unwrap();
    let splice = |at, gone, came, step| Change { kind: Kind::Splice { at, gone, came }, step };
    let number = Change { kind: Kind::Number(b'Q'), step: 2 };
    assert_eq!(session.changes(0), Some(vec![splice(0, 2, 0, 0), number, splice(2, 3, 0, 3)]));
    assert_eq!(session.undo(), Ok(()));
    assert_eq!(session.changes(0), Some(vec![splice(0, 0, 2, 0), number, splice(2, 0, 3, 3)]));
    assert_eq!(session.changes(1), None);
}

#[test]
fn a_page_ends_after_its_lines() {
    let mut session = OpenOptions::new().page_lines(1).open("a\nb\nc").unwrap();
    session.run("Y").unwrap();
    assert_eq!((session.text(), session.ended_by_form_feed()), (b"a\n".to_vec(), false));
}

#[test]
fn an_exit_writes_the_output() {
    let mut session = Session::open(b"a\x0cb").unwrap();
    session.run("YIx\x1bEX").unwrap();
    assert!(session.is_done());
    assert_eq!(session.output(), b"xa\x0cb");
    let failed = session.run("J").unwrap_err();
    assert_eq!((failed.code, failed.recorded, failed.place, failed.steps), (Code::End, false, None, 0));
    assert_eq!(session.undo(), Ok(()));
    assert!(!session.is_done());
}

#[test]
fn lines_and_searches_are_read() {
    let mut session = Session::open(b"a\nb\x0bc\n\x0cd").unwrap();
    session.run("Y[A0^XSb\x1b").unwrap();
    assert_eq!((session.line_ends(0, usize::MAX), session.line_ends(2, 4), session.line_ends(4, 2)), (3, 1, 0));
    assert_eq!((session.len(), session.place(), session.pushed()), (6, 7, 1));
    assert_eq!(session.search(), Some(b"b".to_vec()));
    assert!(session.has_found() && session.ended_by_form_feed() && session.finds_either_case() && !session.is_done());
}

#[test]
fn a_part_of_the_text_is_read() {
    let mut session = Session::open("").unwrap();
    session.run("Iabcdef\x1b").unwrap();
    let mut room = [b'-'; 4];
    assert_eq!((session.read_text(1, &mut room), &room), (4, b"bcde"));
    assert_eq!((session.read_text(4, &mut room), &room), (2, b"efde"));
    assert_eq!(
        (session.read_text(6, &mut room), session.read_text(1 << 40, &mut room), session.read_text(0, &mut [])),
        (0, 0, 0)
    );
}

#[test]
fn a_nul_is_a_byte_as_any() {
    let mut session = Session::open(b"a\0b\n\0").unwrap();
    session.run(b"YJI\0\x1b\0@^UA/\0x\0/S\0b\x1b").unwrap();
    assert_eq!((session.text(), session.pointer(), session.len()), (b"\0a\0b\n\0".to_vec(), 4, 6));
    assert_eq!((session.register(b'A'), session.search()), (Some(b"\0x\0".to_vec()), Some(b"\0b".to_vec())));
    assert_eq!((session.input(), session.string(0).unwrap().len()), (b"a\0b\n\0".to_vec(), 19));
    assert_eq!(session.run("HT").unwrap().printed, b"\0a\0b\n\0");
    session.insert(b"\0\0").unwrap();
    assert_eq!(session.text(), b"\0a\0b\0\0\n\0");
}

#[test]
fn sizes_past_the_limits_are_refused_or_no_matter() {
    let open = |input: &[u8], depth| OpenOptions::new().depth(depth).open(input).unwrap_err();
    assert_eq!(open(b"", 100_001), OpenError::TooDeep);
    assert_eq!(open(b"", usize::MAX), OpenError::TooDeep);
    assert_eq!(open(&vec![0; INPUT_LIMIT + 1], 0), OpenError::TooLarge);
    let mut session = OpenOptions::new().page_lines(usize::MAX).depth(100_000).open("a\nb").unwrap();
    let options = RunOptions::new().limit(u64::MAX).room((1 << 30) + 1);
    assert_eq!(session.run_with("YHT", &options).unwrap().printed, b"a\nb");
    assert_eq!((session.line_ends(1 << 31, usize::MAX), session.line_ends(0, 1 << 31)), (0, 1));
    assert_eq!((session.string(1 << 31), session.steps(usize::MAX), session.changes(1 << 31)), (None, None, None));
    assert_eq!((session.rewind(u64::MAX), session.strings().nth(usize::MAX)), (Ok(()), None));
}

#[test]
fn what_stands_in_a_text_is_read() {
    let kind = TokenKind::Text;
    assert_eq!(token(b" Iab\x1bJ", 0), Ok(Some(Token { from: 1, to: 5, kind, size: 2 })));
    assert_eq!(token(b"J", 1), Ok(None));
    assert_eq!(token(b"J", usize::MAX), Ok(None));
    let fault = Fault { at: 1, code: Code::Utc };
    assert_eq!(
        (token(b" Iab", 0), fault.to_string().as_str()),
        (Err(fault), "UTC, text ends inside a command or block, at byte 1")
    );
    let texts = "1 Z H A J QA ^^A Sa$ Oa$ ^UAb$ FSa$b$ < \"N !a! $";
    for (i, text) in texts.split(' ').enumerate() {
        let text = text.replace('$', "\x1b").into_bytes();
        let read = token(&text, 0).unwrap().unwrap();
        assert_eq!((read.to, read.kind as usize), (text.len(), i));
    }
}

#[test]
fn a_session_is_in_one_language() {
    let options = OpenOptions::new().wide(true).depth(2).page_lines(1);
    let (mut wide, mut session) = (options.open("one\ntwo").unwrap(), Session::open("").unwrap());
    assert_eq!((wide.is_wide(), session.is_wide()), (true, false));
    let iqc = session.run("0\"=1='").map_err(|failed| (failed.code, failed.place.map(|place| place.at)));
    assert_eq!((wide.run("0\"=1='").unwrap().printed, iqc), (b"1\r\n".to_vec(), Err((Code::Iqc, Some(1)))));
    wide.run("Iab\x1bJ:XA\x1b\x1b").unwrap();
    wide.run(":XA").unwrap();
    assert_eq!((wide.register(b'A'), wide.strings().len()), (Some(b"abab".to_vec()), 2));
    wide.run("HKY").unwrap();
    assert_eq!((wide.text(), wide.undo(), wide.undo(), wide.is_wide()), (b"one\n".to_vec(), Ok(()), Ok(()), true));
    assert_eq!(options.clone().depth(100_001).open("").unwrap_err(), OpenError::TooDeep);
    assert!(!options.wide(false).open("").unwrap().is_wide());
}

#[test]
fn tokens_are_of_one_language() {
    let kind = TokenKind::Register;
    assert_eq!(token_wide(b" :XAJ", 0), Ok(Some(Token { from: 1, to: 4, kind, size: 0 })));
    assert_eq!(token(b" :XAJ", 0), Err(Fault { at: 1, code: Code::Ill }));
    assert_eq!(token_wide(b"\"=J'", 0).unwrap().map(|token| token.to), Some(2));
    assert_eq!(token_wide(b"Iab\x1b", 0), token(b"Iab\x1b", 0));
    assert_eq!((token_wide(b"J", usize::MAX), token_wide(b"Iab", 0)), (Ok(None), Err(Fault { at: 0, code: Code::Utc })));
}

#[test]
fn tokens_are_read_one_after_another() {
    let text = b"Iab\x1b 3<J> ";
    let next = |at: &usize| token(text, *at).unwrap().map(|token| token.to);
    let ends: Vec<_> = iter::successors(Some(0), next).collect();
    assert_eq!(ends, [0, 4, 6, 7, 8, 9]);
}

#[test]
fn a_source_stands_for_its_bytes() {
    assert_eq!(source(b"  Iab$ !! a text\n  T\n"), Ok(b"Iab\x1bT".to_vec()));
    assert_eq!(source(b""), Ok(vec![]));
    assert_eq!(source(b"J\n ^5"), Err(Unreadable::Caret { line: 2, column: 2 }));
}

#[test]
fn each_type_is_shown() {
    let mut session = Session::open("").unwrap();
    session.run("Iab\x1b").unwrap();
    assert_eq!(format!("{session:?}"), "Session { len: 2, pointer: 2, strings: 1, cursor: 1, is_done: false, .. }");
    assert!(format!("{:?} {:?}", session.strings(), OpenOptions::new()).starts_with("Strings { session: Session {"));
    assert_eq!(
        (Nothing.to_string().as_str(), OpenError::TooDeep.to_string().as_str()),
        ("no string is left", "the depth is above 100000")
    );
}
