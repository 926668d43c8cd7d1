//! The sheet's values and what an accepted sheet's session holds.

use crate::help;
use second::session::{Record, Session, Slot};
use second::sheet;

/// Number and line of a sheet; a refused one must list nothing.
pub fn judged(text: &str) -> (u8, u64) {
    let read = sheet::read(text.as_bytes());
    if read.verdict.number == 0 {
        assert_ne!(read.session, Session::unlisted());
    } else {
        assert_eq!(read.session, Session::unlisted());
    }
    (read.verdict.number, read.verdict.line)
}

/// Number of a sheet with this one line of a note.
fn line_judged(line: &str) -> u8 {
    let (number, at) = judged(&help::sheet(&["RANK 1 1", line]));
    assert_eq!(at, if number == 0 { 0 } else { 2 });
    number
}

#[test]
fn an_accepted_sheet_lists_exactly_its_notes() {
    let digest: String = (0..32).map(|k| format!("{:02x}", 7 * k + 3)).collect();
    let line = format!("9 4096 17 2000 {digest}");
    let text = help::sheet(&["RANK 1 2", &line, "31 4 0 1 Z"]);
    let read = sheet::read(text.as_bytes());
    assert_eq!((read.verdict.number, read.verdict.line), (0, 0));
    let mut expected = Session::unlisted();
    let bytes: Vec<u8> = (0..32).map(|k| 7 * k + 3).collect();
    expected.list(
        9,
        Record {
            length: 4096,
            loop_start: 17,
            loop_end: 2000,
            digest: bytes.try_into().unwrap(),
        },
    );
    expected.list(
        31,
        Record {
            length: 4,
            loop_start: 0,
            loop_end: 1,
            digest: [0; 32],
        },
    );
    assert_eq!(read.session, expected);
    assert_eq!(read.session.slots[8].status, 1);
    assert_eq!(read.session.slots[0], Slot::UNLISTED);
}

#[test]
fn counts() {
    for (count, number, line) in [
        ("0", 2, 1),
        ("1", 0, 0),
        ("2", 1, 3),
        ("32", 1, 3),
        ("33", 2, 1),
        ("257", 2, 1),
        ("4294967295", 2, 1),
        ("4294967296", 1, 1),
        ("4294967297", 1, 1),
        ("18446744073709551617", 1, 1),
        ("01", 1, 1),
    ] {
        let text = help::sheet(&[&format!("RANK 1 {count}"), "1 4 0 1 Z"]);
        assert_eq!(judged(&text), (number, line), "count {count}");
    }
}

#[test]
fn all_32_notes_fit() {
    let mut lines = vec!["RANK 1 32".to_string()];
    lines.extend((1..=32).map(|note| format!("{note} 4 0 1 Z")));
    let lines: Vec<&str> = lines.iter().map(String::as_str).collect();
    assert_eq!(judged(&help::sheet(&lines)), (0, 0));
    assert_eq!(judged(&help::sheet(&lines[..32])), (1, 33));
    let more = help::sheet(&lines) + "x";
    assert_eq!(judged(&more), (1, 34));
}

#[test]
fn notes() {
    for (note, number) in [
        ("0", 2),
        ("1", 0),
        ("32", 0),
        ("33", 2),
        ("257", 2),
        ("4294967295", 2),
        ("4294967296", 1),
        ("4294967297", 1),
        ("05", 1),
        ("00", 1),
    ] {
        assert_eq!(line_judged(&format!("{note} 4 0 1 Z")), number, "{note}");
    }
}

#[test]
fn notes_rise_strictly() {
    for (second, number, line) in [("6", 0, 0), ("5", 2, 3), ("4", 2, 3)] {
        let line_of_second = format!("{second} 4 0 1 Z");
        let text = help::sheet(&["RANK 1 2", "5 4 0 1 Z", &line_of_second]);
        assert_eq!(judged(&text), (number, line), "5 then {second}");
    }
}

#[test]
fn lengths() {
    for (length, number) in [
        ("0", 3),
        ("1", 3),
        ("2", 0),
        ("3", 3),
        ("4", 0),
        ("4294967293", 3),
        ("4294967294", 0),
        ("4294967295", 3),
        ("4294967296", 1),
        ("4294967298", 1),
        ("02", 1),
        ("99999999999", 1),
    ] {
        let got = line_judged(&format!("1 {length} 0 0 Z"));
        assert_eq!(got, number, "length {length}");
    }
}

#[test]
fn loops() {
    for (bounds, number) in [
        ("0 0", 0),
        ("0 1", 0),
        ("0 31", 0),
        ("30 31", 0),
        ("31 31", 0),
        ("0 32", 4),
        ("0 33", 4),
        ("0 64", 4),
        ("32 32", 4),
        ("1 0", 4),
        ("32 31", 4),
        ("4294967295 1", 4),
        ("0 4294967295", 4),
        ("4294967296 1", 1),
        ("0 4294967296", 1),
        ("00 1", 1),
        ("0 01", 1),
    ] {
        assert_eq!(line_judged(&format!("1 64 {bounds} Z")), number, "{bounds}");
    }
}

#[test]
fn loops_at_the_limits_of_the_shortest_and_the_longest_samples() {
    for (record, allowed) in help::loops() {
        let Record {
            length,
            loop_start,
            loop_end,
            ..
        } = record;
        let line = format!("32 {length} {loop_start} {loop_end} Z");
        let number = if allowed { 0 } else { 4 };
        assert_eq!(line_judged(&line), number, "{line}");
    }
}

#[test]
fn within_a_line_form_then_note_then_length_then_loop() {
    for (line, number) in [
        ("0 3 2 2 Zx", 1),
        ("0 3 2 02 Z", 1),
        ("0 3 2 2 Z", 2),
        ("1 3 2 2 Z", 3),
        ("1 4 2 2 Z", 4),
        ("1 4 1 1 Z", 0),
    ] {
        assert_eq!(line_judged(line), number, "{line}");
    }
}

#[test]
fn the_first_bad_line_decides() {
    for (lines, number, line) in [
        (["RANK 1 2", "1 4 2 2 Z", "x"], 4, 2),
        (["RANK 1 2", "1 4 0 1 Z", "x"], 1, 3),
        (["RANK 1 33", "x", "x"], 2, 1),
        (["RANK 1 1", "1 3 0 1 Z", "x"], 3, 2),
        (["RANK 1 1", "1 4 0 1 Z", "x"], 1, 3),
    ] {
        assert_eq!(judged(&help::sheet(&lines)), (number, line), "{lines:?}");
    }
}
