//! The refusal table, row by row: the number, what is returned, what is left.

use crate::help;
use second::code;
use second::hash::{self, State};
use second::keyed;
use second::padding::{self, Place, Which, Written};
use second::session::{Answer, Session};
use second::sheet;
use second::writing;

const HIGHEST: u64 = (1 << 61) - 1;

fn refused(number: u8) -> Answer {
    Answer {
        number,
        status: 0,
        taken: 0,
    }
}

#[test]
fn rows_1_to_4_give_a_line_and_no_note() {
    let good = "1 64 0 16 Z";
    for (lines, number, line) in [
        (["RANK 1 x", good, good], 1, 1),
        (["RANK 1 33", good, good], 2, 1),
        (["RANK 1 2", good, "2 63 0 1 Z"], 3, 3),
        (["RANK 1 2", good, "2 64 1 0 Z"], 4, 3),
    ] {
        let read = sheet::read(help::sheet(&lines).as_bytes());
        assert_eq!(
            (read.verdict.number, read.verdict.line),
            (number, line),
            "{lines:?}"
        );
        assert_eq!(read.session, Session::unlisted(), "{lines:?}");
    }
}

#[test]
fn row_5_is_a_note_that_is_not_listed() {
    let before = help::session_for(b"sample");
    for note in [0, 1, 4, 6, 32, 33, 37, 256, 261, 1 << 32, u64::MAX] {
        let mut session = before;
        assert_eq!(session.deliver(note, b"sample"), refused(5), "note {note}");
        assert_eq!(session.deliver(note, b""), refused(5), "note {note}");
        assert_eq!(session.ask(note), refused(5), "note {note}");
        assert_eq!(session, before, "note {note}");
    }
}

#[test]
fn row_6_is_a_slot_not_in_order() {
    let mut before = help::session_for(b"sample");
    before.slots[4].status = 4;
    let mut session = before;
    assert_eq!(session.deliver(5, b"sample"), refused(6));
    assert_eq!(session.ask(5), refused(6));
    assert_eq!(session, before);
}

#[test]
fn row_7_is_a_decided_note() {
    for (sample, status) in [(b"sample", 2), (b"simple", 3)] {
        let mut session = help::session_for(b"sample");
        session.deliver(5, sample);
        let before = session;
        for piece in [&b""[..], b"x", b"sample", b"longer than length"] {
            let expected = Answer {
                number: 7,
                status,
                taken: 6,
            };
            assert_eq!(session.deliver(5, piece), expected);
            assert_eq!(session, before);
        }
    }
}

#[test]
fn row_8_takes_nothing_of_the_piece() {
    let mut session = help::session_for(b"sample");
    session.deliver(5, b"sa");
    let before = session;
    let expected = Answer {
        number: 8,
        status: 1,
        taken: 2,
    };
    assert_eq!(session.deliver(5, b"mple!"), expected);
    assert_eq!(session, before);
    assert_eq!(session.deliver(5, b"mple").status, 2);
}

#[test]
fn row_9_leaves_the_state() {
    let mut state = State::fresh();
    state.tail[63] = 1;
    let before = state;
    for piece in [&b""[..], b"x"] {
        assert_eq!(state.update(piece), 9);
        assert_eq!(state, before);
    }
    let ended = state.finish();
    assert_eq!((ended.number, ended.digest), (9, [0; 32]));
    let compared = state.compare(&[0; 32]);
    assert_eq!((compared.number, compared.same), (9, false));
    // 9 comes before 11.
    assert_eq!(state.compare(b"").number, 9);
}

#[test]
fn row_10_is_a_total_past_the_highest() {
    for (length, number) in [(0, 0), (HIGHEST, 0), (HIGHEST + 1, 10), (u64::MAX, 10)] {
        assert_eq!(padding::length_number(length), number);
        assert_eq!(padding::write_number(length, 128), number);
        assert_eq!(hash::compare_number(length, 32), number);
        assert_eq!(State::fresh().update_number(length), number);
    }
    let mut state = State {
        total: HIGHEST - 3,
        ..State::fresh()
    };
    assert_eq!(state.update(b"abcd"), 10);
    assert_eq!(state.total, HIGHEST - 3);
    // 10 comes before 11.
    assert_eq!(padding::write_number(HIGHEST + 1, 0), 10);
    assert_eq!(hash::compare_number(HIGHEST + 1, 31), 10);
}

#[test]
fn row_11_is_a_short_buffer_or_another_digest_length() {
    for (length, needed) in [(0, 64), (55, 64), (56, 128), (63, 128), (64, 64)] {
        let message = help::message(length);
        let mut short = vec![0xaa; needed - 1];
        let expected = Written {
            number: 11,
            count: 0,
        };
        assert_eq!(padding::write(&message, &mut short), expected);
        assert_eq!(short, vec![0xaa; needed - 1]);
        assert_eq!(padding::view_number(&message, &short, 0), 11);
        assert_eq!(padding::view_place(&message, &short, 0), Place::EMPTY);
    }
    let digest = help::digest_of(b"abc");
    let mut long = digest.to_vec();
    long.push(0);
    for expected in [&digest[..31], &long, b""] {
        let compared = hash::compare(b"abc", expected);
        assert_eq!((compared.number, compared.same), (11, false));
        let compared = State::fresh().compare(expected);
        assert_eq!((compared.number, compared.same), (11, false));
    }
}

#[test]
fn row_12_is_a_block_past_the_last() {
    let message = help::message(120);
    let mut tail = [0; 128];
    assert_eq!(padding::write(&message, &mut tail).count, 128);
    assert_eq!(padding::view_number(&message, &tail, 2), 0);
    for block in [3, 4, 1 << 58, 1 << 61, u64::MAX] {
        assert_eq!(padding::view_number(&message, &tail, block), 12);
        assert_eq!(padding::view_place(&message, &tail, block), Place::EMPTY);
    }
}

#[test]
fn row_13_is_another_tail_and_comes_before_12() {
    let message = help::message(70);
    let mut tail = [0; 128];
    assert_eq!(padding::write(&message, &mut tail).count, 64);
    for place in 0..64 {
        let mut spoilt = tail;
        spoilt[place] ^= 1;
        for block in [0, 1, 2, u64::MAX] {
            assert_eq!(padding::view_number(&message, &spoilt, block), 13);
            assert_eq!(padding::view_place(&message, &spoilt, block), Place::EMPTY);
        }
    }
    tail[64] = 1;
    assert_eq!(padding::view_number(&message, &tail, 1), 0);
    assert_eq!(padding::view_place(&message, &tail, 1).which, Which::Buffer);
}

#[test]
fn row_14_gives_an_empty_part() {
    for bytes in [&[][..], &[0; 64], &[0x80; 63], &[0x80; 65]] {
        assert_eq!(padding::remove_number(bytes), 14);
        assert!(padding::remove_part(bytes).is_empty());
    }
}

/// What is refused by the writer: the number, no count, the buffer as it was.
fn refused_sheet(session: &Session, buffer_length: usize) -> u8 {
    let mut buffer = vec![0xaa; buffer_length];
    let written = writing::write(session, &mut buffer);
    assert_eq!(written.count, 0);
    assert_eq!(buffer, vec![0xaa; buffer_length]);
    written.number
}

#[test]
fn row_6_is_a_listed_slot_not_in_order_for_the_writer_too() {
    let mut session = help::session_for(b"sample");
    session.slots[31].status = 4;
    for buffer_length in [0, 4096] {
        assert_eq!(refused_sheet(&session, buffer_length), 6);
    }
}

#[test]
fn row_15_is_a_session_with_no_note_listed() {
    for buffer_length in [0, 4096] {
        assert_eq!(refused_sheet(&Session::unlisted(), buffer_length), 15);
    }
}

#[test]
fn row_16_is_a_buffer_shorter_than_the_sheet() {
    let session = help::session_for(b"sample");
    let mut buffer = [0xaa; 100];
    let written = writing::write(&session, &mut buffer);
    assert_eq!((written.number, written.count), (0, 82));
    assert_eq!(buffer[82..], [0xaa; 18]);
    for buffer_length in 0..82 {
        assert_eq!(refused_sheet(&session, buffer_length), 16);
    }
}

/// What is refused by the keyed reader before the sheet is read: the number, no
/// line, no note.
fn refused_keyed(key: &[u8], text: &[u8]) -> u8 {
    let read = keyed::read(key, text);
    assert_eq!(read.verdict.line, 0);
    assert_eq!(read.session, Session::unlisted());
    read.verdict.number
}

#[test]
fn row_17_is_a_mac_line_missing_or_ill_formed() {
    let sheet = help::sheet(&["RANK 1 1", "5 64 0 31 Z"]);
    let zeros = help::zeros();
    assert_eq!(refused_keyed(b"key", sheet.as_bytes()), 17);
    for line in [
        format!("MAC {zeros}\n"),
        format!("MAC\t{zeros}"),
        format!("mac\t{zeros}\n"),
        format!("MAC\t{}\n", "A".repeat(64)),
    ] {
        assert_eq!(
            refused_keyed(b"key", (sheet.clone() + &line).as_bytes()),
            17
        );
    }
}

#[test]
fn row_18_is_a_code_that_does_not_fit() {
    let sheet = help::sheet(&["RANK 1 1", "5 64 0 31 Z"]);
    let right = help::hex(&code::code_of(b"key", sheet.as_bytes()).code);
    let text = format!("{sheet}MAC\t{right}\n");
    assert_eq!(keyed::read(b"key", text.as_bytes()).verdict.number, 0);
    assert_eq!(refused_keyed(b"kez", text.as_bytes()), 18);
    let other = format!("{sheet}MAC\t{}\n", help::zeros());
    assert_eq!(refused_keyed(b"key", other.as_bytes()), 18);
}
