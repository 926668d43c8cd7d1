//! The sheet's form: line ends, tabs, digits, and text that stops.

use crate::help;
use crate::sheet::judged;
use second::sheet;

fn good() -> String {
    help::sheet(&["RANK 1 2", "5 64 0 16 Z", "9 6 0 1 Z"])
}

#[test]
fn text_that_stops_anywhere_is_at_fault_where_it_stops() {
    let text = good();
    assert_eq!(judged(&text), (0, 0));
    for length in 0..text.len() {
        let line = 1 + text[..length].matches('\n').count() as u64;
        assert_eq!(judged(&text[..length]), (1, line), "{length} bytes");
    }
}

#[test]
fn text_after_the_sheet_is_at_fault_one_line_on() {
    for more in ["\n", "x", "\0", " ", "\r\n", "10\t2\t0\t1\n"] {
        assert_eq!(judged(&(good() + more)), (1, 4), "{more:?}");
    }
}

#[test]
fn line_ends_are_lf_alone() {
    assert_eq!(judged(&good().replace('\n', "\r\n")), (1, 1));
    assert_eq!(judged(&good().replace('\n', "\r")), (1, 1));
    let text = good();
    let last = text[..text.len() - 1].to_string() + "\r\n";
    assert_eq!(judged(&last), (1, 3));
}

#[test]
fn an_unexpected_lf_belongs_to_the_line_it_ends() {
    assert_eq!(judged(&good().replacen("RANK\t", "RANK\n", 1)), (1, 1));
    assert_eq!(judged(&good().replacen("64\t0", "64\n0", 1)), (1, 2));
    assert_eq!(judged(&("\n".to_string() + &good())), (1, 1));
    assert_eq!(judged(&good().replacen('\n', "\n\n", 1)), (1, 2));
}

#[test]
fn line_1_has_one_form() {
    for first in [
        "",
        "RANK",
        "RANK 1",
        "RANK 1 ",
        "RANK  1 1",
        " RANK 1 1",
        "RANK 1 1 ",
        "RANK 1 1 1",
        "rank 1 1",
        "RANKS 1 1",
        "RAN 1 1",
        "RANK 2 1",
        "RANK 10 1",
        "RANK 01 1",
        "RANK  1",
        "RANK 1 -1",
        "RANK 1 +1",
        "RANK 1 1x",
    ] {
        let text = help::sheet(&[first, "1 4 0 1 Z"]);
        assert_eq!(judged(&text), (1, 1), "{first:?}");
    }
    let blanks = help::sheet(&["RANK 1 1", "1 4 0 1 Z"]).replacen('\t', " ", 1);
    assert_eq!(judged(&blanks), (1, 1));
}

#[test]
fn a_note_line_has_one_form() {
    for line in [
        "",
        "1",
        "1 4 0 1",
        "1 4 0 1 ",
        "1 2 0 Z",
        "1 4 0 1 Z ",
        "1 4 0 1 Z 1",
        " 1 4 0 1 Z",
        "1  4 0 1 Z",
        "1 4 0 1  Z",
        "1 2  1 Z",
        "x 4 0 1 Z",
        "1 4x 0 1 Z",
        "1 4 -0 1 Z",
        "1 2 0 +1 Z",
        "1 4 0 1 Z0",
        "1 2 0 0x1 Z",
    ] {
        let text = help::sheet(&["RANK 1 1", line]);
        assert_eq!(judged(&text), (1, 2), "{line:?}");
    }
}

#[test]
fn digests_have_64_small_hex_digits() {
    for (digest, number) in [
        ("0123456789abcdef".repeat(4), 0),
        ("f".repeat(64), 0),
        ("f".repeat(63), 1),
        ("f".repeat(65), 1),
        ("F".repeat(64), 1),
        ("0".repeat(63) + "g", 1),
        ("0".repeat(63) + "A", 1),
        ("G".to_string() + &"0".repeat(63), 1),
        ("`".to_string() + &"0".repeat(63), 1),
        (":".to_string() + &"0".repeat(63), 1),
        ("/".to_string() + &"0".repeat(63), 1),
    ] {
        let text = help::sheet(&["RANK 1 1", &format!("1 4 0 1 {digest}")]);
        assert_eq!(judged(&text).0, number, "{digest}");
    }
}

#[test]
fn hex_values_of_all_256_bytes() {
    let digits = b"0123456789abcdef";
    for byte in 0..=255 {
        let expected = digits.iter().position(|digit| *digit == byte);
        let expected = expected.map_or(255, |value| value as u8);
        assert_eq!(sheet::hex_value(byte), expected, "byte {byte}");
    }
}

#[test]
fn bytes_that_are_no_text_are_at_fault() {
    for place in 0..good().len() {
        for byte in [0, 0x80, 0xff, b' '] {
            let mut text = good().into_bytes();
            let line = 1 + good()[..place].matches('\n').count() as u64;
            text[place] = byte;
            let read = sheet::read(&text);
            assert_eq!(
                (read.verdict.number, read.verdict.line),
                (1, line),
                "{place} {byte}"
            );
        }
    }
}
