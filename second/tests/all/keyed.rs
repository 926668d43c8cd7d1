//! The keyed sheet reader: its MAC line, its code, its refusals in their order.

use crate::help;
use second::calls::coded::texts::{ill_lines, keyed, mac_line};
use second::code;
use second::keyed::{self as reader, read};
use second::session::Session;
use second::sheet::{self, Sheet};

const KEY: &[u8] = b"a dealer's key";

/// A sheet of two notes.
fn good() -> Vec<u8> {
    help::sheet(&["RANK 1 2", "5 64 0 31 Z", "9 6 0 2 Z"]).into_bytes()
}

fn code_of(bytes: &[u8]) -> [u8; 32] {
    code::code_of(KEY, bytes).code
}

/// The number and the line; what is refused lists no note.
fn judged(sheet: &Sheet) -> (u8, u64) {
    if sheet.verdict.number != 0 {
        assert_eq!(sheet.session, Session::unlisted());
    }
    (sheet.verdict.number, sheet.verdict.line)
}

#[test]
fn an_accepted_keyed_sheet_gives_the_sheet_s_session() {
    for key in [&b""[..], KEY, &help::message(64), &help::message(65)] {
        let one = help::sheet(&["RANK 1 1", "32 4294967294 0 0 Z"]).into_bytes();
        for body in [good(), one] {
            let read = read(key, &keyed(key, &body));
            assert_eq!(judged(&read), (0, 0));
            assert_eq!(read.session, sheet::read(&body).session);
            assert!(read.session.listed > 0);
        }
    }
}

#[test]
fn a_mac_line_is_69_bytes_with_the_code_in_small_digits() {
    let line = mac_line(&code_of(b"text"));
    assert_eq!(line.len(), 69);
    let digits = help::hex(&code_of(b"text"));
    assert_eq!(line, format!("MAC\t{digits}\n").into_bytes());
}

#[test]
fn whatever_is_no_mac_line_is_17_at_no_line() {
    let body = good();
    let lines = ill_lines(&code_of(&body));
    assert_eq!(lines.len(), 134);
    for line in lines {
        let text = [&body[..], &line].concat();
        let shown = line.escape_ascii();
        assert_eq!(judged(&read(KEY, &text)), (17, 0), "{shown}");
    }
    for text in [&b""[..], b"\n", &body, &[0; 69]] {
        assert_eq!(judged(&read(KEY, text)), (17, 0));
    }
}

#[test]
fn every_byte_of_the_mac_line_counts() {
    let text = keyed(KEY, &good());
    let from = text.len() - 69;
    for place in from..text.len() {
        for byte in 0..=255 {
            let mut other = text.clone();
            other[place] = byte;
            let digit = byte.is_ascii_digit() || (b'a'..=b'f').contains(&byte);
            let expected = match place - from {
                _ if byte == text[place] => (0, 0),
                4..=67 if digit => (18, 0),
                _ => (17, 0),
            };
            assert_eq!(judged(&read(KEY, &other)), expected, "{place} {byte}");
        }
    }
}

#[test]
fn a_changed_bit_before_the_mac_line_is_18_and_never_1_to_4() {
    let text = keyed(KEY, &good());
    let last = text.len() - 70;
    for place in 0..last {
        let mut other = text.clone();
        other[place] ^= 1;
        assert_eq!(judged(&read(KEY, &other)), (18, 0), "{place}");
    }
    // The LF before it gone, the MAC line begins no line.
    let mut other = text.clone();
    other[last] ^= 1;
    assert_eq!(judged(&read(KEY, &other)), (17, 0));
}

#[test]
fn another_key_is_18() {
    let text = keyed(KEY, &good());
    for key in [&b""[..], &KEY[1..], b"a dealer's kex", &help::message(65)] {
        assert_eq!(judged(&read(key, &text)), (18, 0));
    }
}

#[test]
fn the_mac_line_begins_a_line() {
    for body in [&b"x"[..], b"RANK\t1\t1", b"\n\t", b"\r", b"MAC\t"] {
        assert_eq!(judged(&read(KEY, &keyed(KEY, body))), (17, 0));
    }
    for body in [&b"\n"[..], b"x\n", b"\n\n"] {
        assert_eq!(judged(&read(KEY, &keyed(KEY, body))), (1, 1));
    }
}

#[test]
fn a_mac_line_alone_is_well_formed() {
    assert_eq!(judged(&read(KEY, &mac_line(&code_of(b"")))), (1, 1));
    assert_eq!(judged(&read(KEY, &mac_line(&[0; 32]))), (18, 0));
    assert_eq!(judged(&read(KEY, &mac_line(&code_of(b""))[1..])), (17, 0));
}

#[test]
fn the_last_of_two_mac_lines_counts_and_the_other_is_text_after_the_sheet() {
    let once = keyed(KEY, &good());
    let line = &once[once.len() - 69..];
    assert_eq!(judged(&read(KEY, &[&once, line].concat())), (18, 0));
    assert_eq!(judged(&read(KEY, &keyed(KEY, &once))), (1, 4));
    let empty_line = keyed(KEY, &[&good()[..], b"\n"].concat());
    assert_eq!(judged(&read(KEY, &empty_line)), (1, 4));
}

#[test]
fn a_refused_sheet_has_its_own_number_and_line_after_a_fitting_code() {
    for (lines, expected) in [
        (["RANK 2 2", "5 64 0 31 Z", "9 6 0 2 Z"], (1, 1)),
        (["RANK 1 3", "5 64 0 31 Z", "9 6 0 2 Z"], (1, 4)),
        (["RANK 1 33", "5 64 0 31 Z", "9 6 0 2 Z"], (2, 1)),
        (["RANK 1 2", "5 64 0 31 Z", "5 6 0 2 Z"], (2, 3)),
        (["RANK 1 2", "5 63 0 31 Z", "9 6 0 2 Z"], (3, 2)),
        (["RANK 1 2", "5 64 0 31 Z", "9 6 0 3 Z"], (4, 3)),
    ] {
        let body = help::sheet(&lines).into_bytes();
        assert_eq!(judged(&read(KEY, &keyed(KEY, &body))), expected);
        // Without one, neither is looked for.
        let unfit = [&body[..], &mac_line(&[0; 32])].concat();
        assert_eq!(judged(&read(KEY, &unfit)), (18, 0));
        assert_eq!(judged(&read(KEY, &body)), (17, 0));
    }
}

/// "Keyed sheets stay edition 1."
#[test]
fn a_keyed_sheet_of_edition_2_is_refused_at_its_header() {
    let body = help::sheet(&["RANK 2 1", "5 64 0 31 Z"]).into_bytes();
    assert_eq!(judged(&read(KEY, &keyed(KEY, &body))), (1, 1));
    assert_eq!(judged(&read(b"", &keyed(KEY, &body))), (18, 0));
}

#[test]
fn a_text_without_room_for_a_mac_line_is_known_by_its_length() {
    for (length, number) in [(0, 17), (68, 17), (69, 0), (u64::MAX, 0)] {
        assert_eq!(reader::text_number(length), number, "{length}");
    }
    // The text's 10 is that of the bytes before the MAC line.
    assert_eq!(code::compare_number(0, (1 << 61) - 65, 32), 0);
    assert_eq!(code::compare_number(0, (1 << 61) - 64, 32), 10);
}
