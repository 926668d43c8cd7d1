//! Slots of any content: 5 for status 0 alone, else 6 before 7 and 8.

use crate::help;
use second::hash::State;
use second::session::{Answer, Record, Session, Slot};

fn answers(session: &Session) -> (u8, u8) {
    let mut delivered = *session;
    let number = delivered.deliver(5, b"").number;
    if number != 0 {
        assert_eq!(delivered, *session, "refused, so the same");
    }
    (number, session.ask(5).number)
}

fn changed(change: impl Fn(&mut Slot)) -> (u8, u8) {
    let mut session = help::session_for(b"sample");
    change(&mut session.slots[4]);
    answers(&session)
}

#[test]
fn every_status() {
    for status in 0..=255 {
        let expected = match status {
            0 => (5, 5),
            1 => (0, 0),
            2 | 3 => (7, 0),
            _ => (6, 6),
        };
        let got = changed(|slot| slot.status = status);
        assert_eq!(got, expected, "status {status}");
    }
}

#[test]
fn an_unlisted_slot_is_5_whatever_it_holds() {
    let got = changed(|slot| {
        slot.status = 0;
        slot.record.length = 3;
        slot.state.tail = [1; 64];
    });
    assert_eq!(got, (5, 5));
}

/// A slot with this record, waiting or decided, is in order or not.
fn record_judged(record: &Record, in_order: bool) {
    for (status, delivered) in [(1, 0), (2, 7), (3, 7)] {
        let got = changed(|slot| {
            slot.status = status;
            slot.record = *record;
        });
        let expected = if in_order { (delivered, 0) } else { (6, 6) };
        assert_eq!(got, expected, "status {status}, {record:?}");
    }
}

#[test]
fn records_against_rule_3_or_4() {
    for (length, loop_start, loop_end, in_order) in [
        (6, 0, 2, true),
        (6, 2, 2, true),
        (6, 0, 0, true),
        (0, 0, 0, false),
        (1, 0, 0, false),
        (2, 0, 0, true),
        (3, 0, 0, false),
        (4294967294, 0, 2147483646, true),
        (4294967294, 0, 2147483647, false),
        (4294967295, 0, 0, false),
        (4294967296, 0, 0, false),
        (u64::MAX - 1, 0, 0, false),
        (6, 0, 3, false),
        (6, 3, 3, false),
        (6, 3, 2, false),
        (6, 1, 0, false),
        (6, u64::MAX, 2, false),
        (6, 0, u64::MAX, false),
    ] {
        let record = Record {
            length,
            loop_start,
            loop_end,
            digest: [7; 32],
        };
        record_judged(&record, in_order);
    }
}

#[test]
fn loops_at_the_limits_of_the_shortest_and_the_longest_samples() {
    for (record, allowed) in help::loops() {
        record_judged(&record, allowed);
    }
}

#[test]
fn a_waiting_slot_needs_its_total_below_the_length() {
    for (total, number) in [(0, 0), (5, 0), (6, 6), (7, 6), (1 << 61, 6), (u64::MAX, 6)] {
        let got = changed(|slot| slot.state.total = total);
        assert_eq!(got, (number, number), "total {total}");
    }
}

#[test]
fn a_waiting_slot_needs_a_clean_tail_and_no_certain_words() {
    assert_eq!(changed(|slot| slot.state.tail[0] = 1), (6, 6));
    assert_eq!(changed(|slot| slot.state.words = [0; 8]), (0, 0));
    let kept = |place: usize| {
        changed(move |slot| {
            slot.state.total = 3;
            slot.state.tail[place] = 1;
        })
    };
    assert_eq!(kept(2), (0, 0));
    assert_eq!(kept(3), (6, 6));
}

#[test]
fn a_decided_slot_needs_the_fresh_state() {
    for status in [2, 3] {
        let spoilt = |change: fn(&mut State)| {
            changed(move |slot| {
                slot.status = status;
                change(&mut slot.state);
            })
        };
        assert_eq!(spoilt(|_| ()), (7, 0));
        assert_eq!(spoilt(|state| state.words[7] ^= 1), (6, 6));
        assert_eq!(spoilt(|state| state.total = 6), (6, 6));
        assert_eq!(spoilt(|state| state.tail[63] = 1), (6, 6));
    }
}

#[test]
fn six_comes_before_eight() {
    let mut session = help::session_for(b"sample");
    session.slots[4].state.total = 6;
    let answer = session.deliver(5, b"longer than length");
    let expected = Answer {
        number: 6,
        status: 0,
        taken: 0,
    };
    assert_eq!(answer, expected);
}

#[test]
fn other_slots_do_not_matter() {
    let mut session = help::session_for(b"sample");
    for (place, slot) in session.slots.iter_mut().enumerate() {
        if place != 4 {
            slot.status = 77;
            slot.state.tail = [1; 64];
        }
    }
    let before = session;
    assert_eq!(session.deliver(5, b"sample").status, 2);
    for place in (0..32).filter(|place| *place != 4) {
        assert_eq!(session.slots[place], before.slots[place]);
    }
}
