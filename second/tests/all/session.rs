//! Deliveries and questions in an orderly session.

use crate::help;
use second::hash::State;
use second::session::{self, Answer, Session};

fn answer(number: u8, status: u8, taken: u64) -> Answer {
    Answer {
        number,
        status,
        taken,
    }
}

#[test]
fn any_two_cuts_open_the_right_sample_and_shut_another() {
    let sample = help::message(130);
    let mut other = sample.clone();
    other[129] ^= 1;
    for first in 0..=130 {
        for (bytes, status) in [(&sample, 2), (&other, 3)] {
            let mut session = help::session_for(&sample);
            let (x, y) = bytes.split_at(first);
            let expected = if first == 130 { status } else { 1 };
            let taken = first as u64;
            assert_eq!(session.deliver(5, x), answer(0, expected, taken));
            assert_eq!(session.ask(5), answer(0, expected, taken));
            let number = if first == 130 { 7 } else { 0 };
            assert_eq!(session.deliver(5, y), answer(number, status, 130));
            assert_eq!(session.ask(5), answer(0, status, 130));
            assert_eq!(session.slots[4].state, State::fresh());
        }
    }
}

#[test]
fn a_decision_keeps_the_record() {
    let mut session = help::session_for(b"sample");
    let record = session.slots[4].record;
    session.deliver(5, b"sample");
    assert_eq!(session.slots[4].record, record);
}

#[test]
fn an_empty_piece_to_a_waiting_note_changes_nothing() {
    let mut session = help::session_for(b"sample");
    for taken in 0..6 {
        let before = session;
        assert_eq!(session.deliver(5, b""), answer(0, 1, taken));
        assert_eq!(session, before);
        session.deliver(5, &b"sample"[taken as usize..][..1]);
    }
    assert_eq!(session.ask(5), answer(0, 2, 6));
}

#[test]
fn a_refused_piece_leaves_the_rest_to_come() {
    let sample = help::message(100);
    let mut session = help::session_for(&sample);
    session.deliver(5, &sample[..40]);
    assert_eq!(session.deliver(5, &[0; 61]), answer(8, 1, 40));
    assert_eq!(session.deliver(5, &[0; 1000]), answer(8, 1, 40));
    assert_eq!(session.deliver(5, &sample[40..]), answer(0, 2, 100));
}

#[test]
fn the_first_and_the_last_note_have_slots() {
    let mut session = Session::unlisted();
    let record = help::record(2, help::digest_of(b"ab"));
    session.list(1, record);
    session.list(32, record);
    assert_eq!(session.deliver(1, b"ab"), answer(0, 2, 2));
    assert_eq!(session.ask(32), answer(0, 1, 0));
    assert_eq!(session.deliver(32, b"ba"), answer(0, 3, 2));
    assert_eq!(session.ask(1), answer(0, 2, 2));
}

#[test]
fn the_length_s_sum_does_not_overflow() {
    assert!(!session::exceeds(4, 2, 6));
    assert!(session::exceeds(4, 3, 6));
    assert!(session::exceeds(4, u64::MAX, 6));
    assert!(session::exceeds(4, u64::MAX - 1, 6));
    assert!(!session::exceeds(0, 4294967294, 4294967294));
    assert!(session::exceeds(1, 4294967294, 4294967294));
}
