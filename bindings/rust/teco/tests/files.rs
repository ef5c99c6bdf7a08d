//! The file of a session.

use teco::{Ending, Entry, Lines, Nothing, OpenOptions, RunOptions, Session, Unread};

/// Runs a string, and keeps it in the file of the session.
fn run_kept(session: &mut Session, text: &[u8], lines: &mut Lines, file: &mut Vec<u8>) {
    let ended = session.run_with(text, &RunOptions::new().limit(100).room(0));
    let steps = ended.map_or_else(|failed| failed.steps, |ran| ran.steps);
    file.extend(lines.line(&Entry::Ran { text, steps }).unwrap());
}

/// A session, its file, and the bytes of its head.
fn kept(depth: usize) -> (Session, Lines, Vec<u8>, usize) {
    let mut session = OpenOptions::new().depth(depth).open("one\ntwo").unwrap();
    let (mut lines, mut file) = Lines::begin(b"one\ntwo", depth).unwrap();
    let head = file.len();
    run_kept(&mut session, b"Y5UQ", &mut lines, &mut file);
    run_kept(&mut session, b"Ia\n\x1b9J", &mut lines, &mut file);
    run_kept(&mut session, b"<Ib\x1b>", &mut lines, &mut file);
    for (answer, entry) in [
        (session.undo(), Entry::Undid),
        (session.redo(), Entry::Redid),
        (session.rewind(4), Entry::Rewound(4)),
        (session.undo(), Entry::Undid),
    ] {
        assert_eq!(answer, Ok(()));
        file.extend(lines.line(&entry).unwrap());
    }
    session.forget();
    file.extend(lines.line(&Entry::Forgot).unwrap());
    run_kept(&mut session, b"HK", &mut lines, &mut file);
    assert_eq!(session.undo(), Ok(()));
    file.extend(lines.line(&Entry::Undid).unwrap());
    (session, lines, file, head)
}

fn assert_alike(one: &Session, two: &Session) {
    assert_eq!((one.text(), one.pointer(), one.number(b'Q')), (two.text(), two.pointer(), two.number(b'Q')));
    assert_eq!((one.strings().len(), one.cursor()), (two.strings().len(), two.cursor()));
    for i in 0..one.strings().len() {
        assert_eq!((one.string(i), one.steps(i), one.changes(i)), (two.string(i), two.steps(i), two.changes(i)));
    }
}

#[test]
fn a_session_is_kept_and_opened_again() {
    for depth in 0..3 {
        let (mut session, mut lines, mut file, _) = kept(depth);
        let (mut again, mut resumed) = Session::resume(&file).unwrap();
        assert_eq!((resumed.good, resumed.records, resumed.ending), (file.len(), 10, Ending::Whole));
        assert_eq!(resumed.lines, lines);
        assert_alike(&session, &again);
        let next = lines.line(&Entry::Redid).unwrap();
        assert_eq!((session.redo(), again.redo(), resumed.lines.line(&Entry::Redid)), (Ok(()), Ok(()), Some(next.clone())));
        file.extend(next);
        let (mut third, _) = Session::resume(&file).unwrap();
        while session.undo().is_ok() {
            assert_eq!((again.undo(), third.undo()), (Ok(()), Ok(())));
            assert_alike(&session, &again);
            assert_alike(&session, &third);
        }
        assert_eq!((again.undo(), third.undo()), (Err(Nothing), Err(Nothing)));
    }
}

#[test]
fn a_file_that_was_torn_or_changed_is_read_as_far_as_it_is_whole() {
    let (_, _, mut file, head) = kept(0);
    let refused = |bytes: &[u8]| Session::resume(bytes).err();
    assert_eq!((refused(b""), refused(&file[..head - 1])), (Some(Unread::TornHead), Some(Unread::TornHead)));
    assert_eq!(refused(b"no file of a session"), Some(Unread::ChangedHead));
    let (_, torn) = Session::resume(&file[..file.len() - 1]).unwrap();
    assert_eq!((torn.records, torn.ending, file[torn.good - 1]), (9, Ending::Torn, b'\n'));
    file[head + 20] ^= 1;
    let (session, changed) = Session::resume(&file).unwrap();
    assert_eq!((changed.good, changed.records, changed.ending, session.strings().len()), (head, 0, Ending::Changed, 0));
    let file_of = |depth, entry| {
        let (mut lines, mut file) = Lines::begin(b"one", depth).unwrap();
        file.extend(lines.line(&entry).unwrap());
        file
    };
    assert_eq!(refused(&file_of(0, Entry::Ran { text: b"Y", steps: 2 })), Some(Unread::Otherwise));
    assert_eq!(refused(&file_of(0, Entry::Undid)), Some(Unread::Otherwise));
    assert_eq!(refused(&file_of(100_001, Entry::Forgot)), Some(Unread::TooDeep));
}

#[test]
fn a_session_with_pages_is_opened_again() {
    let (_, head) = Lines::begin_pages(b"a\nb\nc", 1, 0).unwrap();
    let (mut again, resumed) = Session::resume(&head).unwrap();
    again.run("YP").unwrap();
    assert_eq!((again.text(), resumed.page_lines), (b"b\n".to_vec(), 1));
}

#[test]
fn a_wide_session_is_opened_again() {
    let options = OpenOptions::new().wide(true).page_lines(1).depth(3);
    let mut session = options.open("one\ntwo").unwrap();
    let (mut lines, mut file) = Lines::begin_with(b"one\ntwo", &options).unwrap();
    assert!(file.starts_with(b"teco session 1 wide\nlines 1\ndepth 3\n"));
    run_kept(&mut session, b"Y0\"=:XQ'", &mut lines, &mut file);
    let (again, resumed) = Session::resume(&file).unwrap();
    assert_eq!((again.is_wide(), again.register(b'Q')), (true, Some(b"one\n".to_vec())));
    assert_eq!((resumed.records, resumed.page_lines, resumed.lines), (1, 1, lines));
    assert_alike(&session, &again);
    let head = Lines::begin_with(b"one", &options.wide(false)).unwrap();
    assert_eq!(Lines::begin_pages(b"one", 1, 3), Some(head.clone()));
    assert!(!Session::resume(&head.1).unwrap().0.is_wide());
}

#[test]
fn inserted_data_is_kept() {
    let (mut session, all) = (Session::open("").unwrap(), (0..=255).collect::<Vec<u8>>());
    let (mut lines, mut file) = Lines::begin(b"", 0).unwrap();
    let mut keep = |session: &Session, steps| {
        let text = session.strings().next_back().unwrap();
        file.extend(lines.line(&Entry::Ran { text: &text, steps }).unwrap());
    };
    let steps = session.insert(&all).unwrap().steps;
    keep(&session, steps);
    let steps = session.set_register(b'Q', &all).unwrap().steps;
    keep(&session, steps);
    let (again, _) = Session::resume(&file).unwrap();
    assert_eq!((again.text(), again.register(b'Q')), (all.clone(), Some(all)));
}
