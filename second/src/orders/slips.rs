//! Deliveries that look at, or touch, more than their own slot and the open
//! count: wrong in a way that only another order shows. Nothing else uses them.

use crate::refusal::{ACCEPTED, DECIDED};
use crate::session::{Answer, Session, NONE, NOTES, OPEN, SHUT, WAITING};

/// A mistaken delivery.
pub struct Slip {
    pub name: &'static str,
    pub deliver: fn(&mut Session, u64, &[u8]) -> Answer,
}

/// Every slip.
pub const SLIPS: [Slip; 5] = [
    slip("order-slot-before-peeked", slot_before_peeked),
    slip("order-words-shared", words_shared),
    slip("order-slot-behind-written", slot_behind_written),
    slip("order-all-counted", all_counted),
    slip("order-open-so-far", open_so_far),
];

const fn slip(name: &'static str, deliver: fn(&mut Session, u64, &[u8]) -> Answer) -> Slip {
    Slip { name, deliver }
}

fn decided(status: u8) -> bool {
    matches!(status, OPEN | SHUT)
}

/// A note counts as decided where the listed note before it is.
fn slot_before_peeked(session: &mut Session, note: u64, piece: &[u8]) -> Answer {
    let asked = session.ask(note);
    if asked.number != ACCEPTED {
        return asked;
    }
    let before = session.slots[..note as usize - 1].iter().rev();
    let peeked = before
        .map(|slot| slot.status)
        .find(|status| *status != NONE);
    if peeked.is_some_and(decided) {
        return Answer {
            number: DECIDED,
            ..asked
        };
    }
    session.deliver(note, piece)
}

/// The eight words are kept once for all notes that wait.
fn words_shared(session: &mut Session, note: u64, piece: &[u8]) -> Answer {
    let answer = session.deliver(note, piece);
    if answer.number == ACCEPTED && answer.status == WAITING {
        let words = session.slots[note as usize - 1].state.words;
        for slot in &mut session.slots {
            if slot.status == WAITING {
                slot.state.words = words;
            }
        }
    }
    answer
}

/// A decision is written into the slot behind it too, where nothing was taken.
fn slot_behind_written(session: &mut Session, note: u64, piece: &[u8]) -> Answer {
    let answer = session.deliver(note, piece);
    if answer.number == ACCEPTED && decided(answer.status) && note < NOTES {
        let behind = &mut session.slots[note as usize];
        if behind.state.total == 0 {
            behind.status = answer.status;
        }
    }
    answer
}

/// The bytes taken by all notes are answered.
fn all_counted(session: &mut Session, note: u64, piece: &[u8]) -> Answer {
    let answer = session.deliver(note, piece);
    let slots = session.slots.iter().filter(|slot| slot.status == WAITING);
    Answer {
        taken: slots.fold(0, |sum, slot| sum.wrapping_add(slot.state.total)),
        ..answer
    }
}

/// The open notes are counted from the first slot up to the opened one: nothing
/// but the count at the end tells the orders apart.
fn open_so_far(session: &mut Session, note: u64, piece: &[u8]) -> Answer {
    let answer = session.deliver(note, piece);
    if answer.number == ACCEPTED && answer.status == OPEN {
        let so_far = session.slots[..note as usize].iter();
        session.open = so_far.filter(|slot| slot.status == OPEN).count() as u8;
    }
    answer
}
