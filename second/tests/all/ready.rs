//! The rank-ready light: what the two counts hold, what they are read for, and
//! what they stand for.

use crate::help;
use second::calls::answer::answer;
use second::calls::call::Call;
use second::calls::values::Lent;
use second::making::counts::EDGES;
use second::orders::sequences::{self, Sequence, Start};
use second::orders::slips::SLIPS;
use second::session::{Answer, Session, Slot};
use second::sheet;
use second::walk;
use second::writing;
use std::collections::{BTreeMap, BTreeSet};

fn with_counts(session: &Session, listed: u8, open: u8) -> Session {
    Session {
        listed,
        open,
        ..*session
    }
}

fn counts(session: &Session) -> (u8, u8) {
    (session.listed, session.open)
}

/// Every pair of counts at an edge.
fn edges() -> impl Iterator<Item = (u8, u8)> {
    EDGES
        .into_iter()
        .flat_map(|listed| EDGES.map(|open| (listed, open)))
}

/// A session with these statuses, from note 1 on.
fn with_statuses(statuses: &[u8]) -> Session {
    let mut session = Session::unlisted();
    for (slot, status) in session.slots.iter_mut().zip(statuses) {
        slot.record = help::record(6, help::digest_of(b"sample"));
        slot.status = *status;
    }
    session
}

/// The sheet of these notes, each with the same sample.
fn sheet_of(notes: &[u64]) -> Vec<u8> {
    let digest = help::hex(&help::digest_of(b"sample"));
    let mut lines = vec![format!("RANK 1 {}", notes.len())];
    lines.extend(notes.iter().map(|note| format!("{note} 6 0 2 {digest}")));
    let lines: Vec<&str> = lines.iter().map(String::as_str).collect();
    help::sheet(&lines).into_bytes()
}

fn read(notes: &[u64]) -> Session {
    let read = sheet::read(&sheet_of(notes));
    assert_eq!(read.verdict.number, 0);
    read.session
}

#[test]
fn yes_exactly_when_the_counts_are_equal_and_not_zero_whatever_the_slots_hold() {
    for statuses in [&[][..], &[1], &[2], &[3], &[77], &[2; 32], &[1; 32]] {
        let slots = with_statuses(statuses);
        for listed in 0..=255 {
            for open in 0..=255 {
                let ready = with_counts(&slots, listed, open).ready();
                assert_eq!(ready, listed == open && listed > 0, "{listed}:{open}");
            }
        }
        assert!(with_counts(&slots, 200, 200).ready());
        assert!(!with_counts(&slots, 0, 0).ready());
    }
}

#[test]
fn an_accepted_sheet_has_n_listed_and_none_open() {
    for n in 1..=32 {
        let first: Vec<u64> = (1..=n).collect();
        let last: Vec<u64> = (33 - n..=32).collect();
        for notes in [first, last] {
            let session = read(&notes);
            assert_eq!(counts(&session), (n as u8, 0));
            assert!(!session.ready());
        }
    }
}

#[test]
fn a_refused_sheet_has_both_counts_0() {
    let good = "1 64 0 16 Z";
    for (lines, number) in [
        (["RANK 1 x", good, good], 1),
        (["RANK 1 2", good, "x"], 1),
        (["RANK 1 1", good, good], 1),
        (["RANK 1 33", good, good], 2),
        (["RANK 1 2", good, good], 2),
        (["RANK 1 2", good, "2 63 0 1 Z"], 3),
        (["RANK 1 2", good, "2 64 1 0 Z"], 4),
    ] {
        let read = sheet::read(help::sheet(&lines).as_bytes());
        assert_eq!(read.verdict.number, number);
        assert_eq!(counts(&read.session), (0, 0), "{lines:?}");
    }
    assert_eq!(counts(&sheet::read(b"").session), (0, 0));
}

#[test]
fn a_sheet_read_in_place_sets_both_counts_whatever_stood_there() {
    let slots = with_statuses(&[2, 2]);
    for (listed, open) in edges() {
        let answered = |text: &[u8]| {
            answer(&Call::SheetRead {
                before: Some(Box::new(with_counts(&slots, listed, open))),
                text: Lent::Bytes(text.to_vec()),
            })
            .unwrap()
        };
        assert!(answered(&sheet_of(&[5, 9])).starts_with("0\t0\t2:0,5=6:0:2:"));
        assert_eq!(answered(b"RANK\t1\t33\n"), "2\t1\t0:0");
    }
}

#[test]
fn opening_a_note_adds_one_save_that_32_or_more_stays() {
    for stored in 0..=255 {
        for listed in EDGES {
            let mut session = with_counts(&help::session_for(b"sample"), listed, stored);
            assert_eq!(session.deliver(5, b"sam").status, 1);
            assert_eq!(counts(&session), (listed, stored));
            assert_eq!(session.deliver(5, b"ple").status, 2);
            let expected = if stored < 32 { stored + 1 } else { stored };
            assert_eq!(counts(&session), (listed, expected));
        }
    }
}

#[test]
fn no_other_delivery_touches_a_count() {
    let mut spoilt = help::session_for(b"sample");
    spoilt.slots[4].status = 4;
    let mut open = help::session_for(b"sample");
    open.deliver(5, b"sample");
    let mut shut = help::session_for(b"sample");
    shut.deliver(5, b"simple");
    let waits = help::session_for(b"sample");
    for (before, note, piece, number, status) in [
        (&waits, 5, &b""[..], 0, 1),
        (&waits, 5, b"sampl", 0, 1),
        (&waits, 5, b"simple", 0, 3),
        (&waits, 0, b"sample", 5, 0),
        (&waits, 6, b"sample", 5, 0),
        (&waits, 261, b"sample", 5, 0),
        (&spoilt, 5, b"sample", 6, 0),
        (&open, 5, b"", 7, 2),
        (&open, 5, b"sample", 7, 2),
        (&shut, 5, b"", 7, 3),
        (&shut, 5, b"sample", 7, 3),
        (&waits, 5, b"sample!", 8, 1),
    ] {
        for (listed, open) in edges() {
            let mut session = with_counts(before, listed, open);
            let answer = session.deliver(note, piece);
            assert_eq!((answer.number, answer.status), (number, status));
            assert_eq!(counts(&session), (listed, open), "{number} {status}");
        }
    }
}

/// Slots waiting, open, shut, spoilt and not listed: whatever the counts are,
/// each is asked for, delivered to and written as with any others.
#[test]
fn the_counts_are_no_part_of_a_slot_s_being_in_order() {
    let slots = with_statuses(&[1, 2, 3, 4, 0]);
    let answers = |session: &Session| -> Vec<Answer> {
        let asked = (1..=5).map(|note| session.ask(note));
        let delivered = (1..=5).map(|note| {
            let mut after = *session;
            after.deliver(note, b"sample")
        });
        asked.chain(delivered).collect()
    };
    let numbers: Vec<u8> = answers(&slots).iter().map(|said| said.number).collect();
    assert_eq!(numbers, [0, 0, 0, 6, 5, 0, 7, 7, 6, 5]);
    for (listed, open) in edges() {
        let session = with_counts(&slots, listed, open);
        assert_eq!(answers(&session), answers(&slots), "{listed}:{open}");
    }
}

#[test]
fn the_writer_goes_by_the_slots_and_not_by_the_counts() {
    for (statuses, number) in [
        (&[][..], 15),
        (&[0, 0, 0], 15),
        (&[1], 0),
        (&[2, 3], 0),
        (&[2, 4], 6),
    ] {
        let slots = with_statuses(statuses);
        let sheet = writing::text(&slots);
        for (listed, open) in edges() {
            let before = with_counts(&slots, listed, open);
            let mut buffer = vec![0xaa; sheet.len()];
            let written = writing::write(&before, &mut buffer);
            assert_eq!(written.number, number, "{listed}:{open}");
            let short = if number == 0 { 16 } else { number };
            assert_eq!(writing::write_number(&before, 0), short);
            if number == 0 {
                assert_eq!(buffer, sheet);
            } else {
                assert_eq!((written.count, buffer), (0, vec![0xaa; sheet.len()]));
            }
        }
    }
}

/// From stored counts that do not fit the slots a delivery may turn a yes into a
/// no: one note waits, and is counted as open already.
#[test]
fn counts_that_do_not_fit_may_turn_a_yes_into_a_no() {
    let mut session = with_counts(&help::session_for(b"sample"), 1, 1);
    assert!(session.ready());
    assert!(!walk::all_open(&session));
    assert_eq!(session.deliver(5, b"sample").status, 2);
    assert_eq!(counts(&session), (1, 2));
    assert!(!session.ready());
    assert!(walk::all_open(&session));
}

#[test]
fn a_rank_of_any_size_is_ready_with_its_last_note_and_stays_so() {
    for n in 1..=32 {
        let notes: Vec<u64> = (1..=n).collect();
        let mut session = read(&notes);
        for note in notes.iter().rev() {
            assert!(!session.ready());
            assert_eq!(session.deliver(*note, b"sample").status, 2);
        }
        assert_eq!(counts(&session), (n as u8, n as u8));
        assert!(session.ready());
        let before = session;
        for (note, number) in [(0, 5), (1, 7), (n, 7), (33, 5)] {
            for piece in [&b""[..], b"sample", b"longer than length"] {
                assert_eq!(session.deliver(note, piece).number, number);
                assert_eq!(session, before);
            }
        }
    }
}

#[test]
fn a_rank_with_a_shut_note_is_never_ready() {
    let mut session = read(&[5, 9]);
    assert_eq!(session.deliver(5, b"simple").status, 3);
    assert_eq!(counts(&session), (2, 0));
    assert_eq!(session.deliver(9, b"sample").status, 2);
    assert_eq!(counts(&session), (2, 1));
    assert!(!session.ready());
    assert_eq!(session.deliver(5, b"sample").number, 7);
    assert!(!session.ready());
}

#[test]
fn the_walk_needs_a_listed_note_and_every_listed_one_open() {
    for (statuses, expected, all_open) in [
        (&[][..], (0, 0), false),
        (&[0; 32], (0, 0), false),
        (&[1], (1, 0), false),
        (&[2], (1, 1), true),
        (&[3], (1, 0), false),
        (&[4], (1, 0), false),
        (&[2, 2], (2, 2), true),
        (&[0, 2, 0, 2], (2, 2), true),
        (&[2, 1], (2, 1), false),
        (&[1, 2], (2, 1), false),
        (&[2, 3], (2, 1), false),
        (&[2, 255], (2, 1), false),
        (&[2; 32], (32, 32), true),
    ] {
        let session = with_statuses(statuses);
        assert_eq!(walk::counts(&session), expected, "{statuses:?}");
        assert_eq!(walk::all_open(&session), all_open, "{statuses:?}");
    }
    // The status alone lists a note.
    let mut session = with_statuses(&[2, 1]);
    session.slots[1].status = 0;
    assert_ne!(session.slots[1], Slot::UNLISTED);
    assert!(walk::all_open(&session));
}

#[test]
fn every_fault_of_the_light_is_named() {
    let slots = with_statuses(&[2, 2]);
    let fault = |listed, open, ready, before| {
        let session = with_counts(&slots, listed, open);
        walk::fault(&session, ready, before)
    };
    assert_eq!(fault(2, 2, true, false), None);
    assert_eq!(fault(2, 2, true, true), None);
    assert!(fault(1, 2, true, false).unwrap().contains("listed count"));
    assert!(fault(2, 1, true, false).unwrap().contains("open count"));
    assert!(fault(2, 2, false, false).unwrap().contains("walk"));
    let waits = with_counts(&with_statuses(&[2, 1]), 2, 1);
    assert_eq!(walk::fault(&waits, false, false), None);
    let turned = walk::fault(&waits, false, true).unwrap();
    assert!(turned.contains("a yes into a no"));
    assert!(walk::fault(&waits, true, true).unwrap().contains("walk"));
}

fn start(sequence: &Sequence) -> Session {
    match &sequence.start {
        Start::Sheet(text) => sheet::read(text).session,
        Start::Stored(session) => **session,
    }
}

/// The law of the papers, over every sequence of a run from an accepted sheet,
/// in both orders. Many become ready, ranks of 32 notes among them, and are
/// then delivered to in every way that is left: all is refused.
#[test]
fn from_an_accepted_sheet_the_counts_are_the_walk_and_a_yes_stays() {
    let mut ready_at_end = BTreeMap::new();
    let mut after_a_yes = BTreeSet::new();
    for index in 0..1000 {
        let sequence = sequences::at(1, index);
        if matches!(sequence.start, Start::Stored(_)) {
            continue;
        }
        for order in [&sequence.one(), &sequence.other] {
            let mut session = start(&sequence);
            let mut ready = session.ready();
            assert_eq!(walk::fault(&session, ready, false), None);
            for place in order {
                let delivery = &sequence.deliveries[*place];
                let answer = session.deliver(delivery.note, &delivery.piece);
                if ready {
                    after_a_yes.insert((answer.number, delivery.piece.is_empty()));
                }
                let fault = walk::fault(&session, session.ready(), ready);
                assert_eq!(fault, None, "sequence {index}");
                ready = session.ready();
            }
            if ready {
                let kind = (sequence.in_place, session.listed);
                *ready_at_end.entry(kind).or_insert(0) += 1;
            }
        }
    }
    let refused = [(5, false), (5, true), (7, false), (7, true)];
    assert_eq!(after_a_yes, refused.into());
    // Each sequence that ends so does it in both orders.
    assert!(ready_at_end.values().sum::<u32>() > 200, "{ready_at_end:?}");
    for in_place in [false, true] {
        for listed in [2, 3, 4, 5, 32] {
            let times = ready_at_end.get(&(in_place, listed));
            assert!(times >= Some(&4), "{ready_at_end:?}");
        }
    }
}

/// What a mistaken program, or this one, answers to a sequence in an order, and
/// where it ends.
fn made(
    sequence: &Sequence,
    order: &[usize],
    deliver: fn(&mut Session, u64, &[u8]) -> Answer,
) -> (Vec<Option<Answer>>, Session) {
    let mut session = start(sequence);
    let mut answers = vec![None; order.len()];
    for place in order {
        let delivery = &sequence.deliveries[*place];
        answers[*place] = Some(deliver(&mut session, delivery.note, &delivery.piece));
    }
    (answers, session)
}

/// Also from stored counts, for one that is 32 or more stays in every order.
#[test]
fn two_orders_end_with_the_same_counts() {
    let mut opened = BTreeSet::new();
    for index in 0..1000 {
        let sequence = sequences::at(2, index);
        let one = made(&sequence, &sequence.one(), Session::deliver);
        let other = made(&sequence, &sequence.other, Session::deliver);
        assert!(one == other, "sequence {index}");
        let before = start(&sequence);
        if walk::counts(&one.1).1 > walk::counts(&before).1 {
            opened.insert((before.open >= 32, walk::counts(&before) == counts(&before)));
        }
    }
    // Stored counts that fit are never above 32, and 32 leaves none to open.
    let all = [(false, false), (false, true), (true, false)];
    assert_eq!(opened, all.into());
}

/// A comparison of the orders that left out the counts would not find this slip.
#[test]
fn one_slip_in_orders_is_found_by_the_counts_alone() {
    let slip = SLIPS.iter().find(|slip| slip.name == "order-open-so-far");
    let deliver = slip.unwrap().deliver;
    let mut found = 0;
    for index in 0..400 {
        let sequence = sequences::at(3, index);
        let (answers, one) = made(&sequence, &sequence.one(), deliver);
        let (others, other) = made(&sequence, &sequence.other, deliver);
        assert_eq!(answers, others);
        assert_eq!(one.slots, other.slots);
        found += u32::from(one != other);
    }
    assert!(found > 20, "{found} sequences tell");
}
