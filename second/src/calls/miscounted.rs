//! Wrong answers of a program that makes one mistake with the counts of a
//! session: where it is delivered to, where it is asked whether all is ready,
//! where a sheet is read, and where the counts ought not to matter.

use crate::calls::answer::{answer_text, delivered_text, ready_text, sheet_text};
use crate::calls::call::Call;
use crate::calls::values::Lent;
use crate::refusal::{ACCEPTED, DECIDED, SLOT_NOT_IN_ORDER};
use crate::session::{Answer, Session, NONE, NOTES, OPEN, SHUT, WAITING};
use crate::sheet::{self, Sheet};
use crate::walk;

/// What a delivery answers and leaves, to be made wrong: told the session before
/// it, the answer, and what is left.
fn delivered(call: &Call, wrong: impl Fn(&Session, &Answer, &mut Session)) -> Option<String> {
    let Call::Deliver {
        session,
        note,
        piece: Lent::Bytes(piece),
        ..
    } = call
    else {
        return None;
    };
    let mut after = **session;
    let answer = after.deliver(*note, piece);
    wrong(session, &answer, &mut after);
    Some(delivered_text(&answer, &after))
}

/// The same where the delivery opened a note.
fn opened(call: &Call, wrong: fn(&Session, &mut Session)) -> Option<String> {
    delivered(call, |before, answer, after| {
        if answer.number == ACCEPTED && answer.status == OPEN {
            wrong(before, after);
        }
    })
}

/// The same where this came of the delivery: a note is counted that did not open.
fn counted(call: &Call, number: u8, status: u8) -> Option<String> {
    delivered(call, |before, answer, after| {
        if (answer.number, answer.status) == (number, status) {
            after.open = one_more(before.open);
        }
    })
}

fn one_more(count: u8) -> u8 {
    if u64::from(count) < NOTES {
        count + 1
    } else {
        count
    }
}

/// What the copies without a mistake answer: if that were wrong, every mistake
/// would be found for its sake.
pub fn honest(call: &Call) -> Option<String> {
    match call {
        Call::Deliver { .. } => opened(call, |before, after| {
            after.open = one_more(before.open);
        }),
        Call::Ready { .. } => asked(call, Session::ready),
        Call::SheetRead { .. } => read(call, |_, _| ()),
        _ => None,
    }
}

/// A note that is shut is counted.
pub fn shut_counted(call: &Call) -> Option<String> {
    counted(call, ACCEPTED, SHUT)
}

/// A piece that decides nothing is counted.
pub fn waiting_counted(call: &Call) -> Option<String> {
    counted(call, ACCEPTED, WAITING)
}

/// A note that is open already is counted again.
pub fn counted_again(call: &Call) -> Option<String> {
    counted(call, DECIDED, OPEN)
}

/// The count goes on past 32, as far as a byte goes.
pub fn past_most(call: &Call) -> Option<String> {
    opened(call, |before, after| {
        after.open = before.open.saturating_add(1);
    })
}

/// The count of 255 becomes 0.
pub fn wraps(call: &Call) -> Option<String> {
    opened(call, |before, after| {
        if before.open == u8::MAX {
            after.open = 0;
        }
    })
}

/// The count of 32 becomes 33.
pub fn most_added_to(call: &Call) -> Option<String> {
    opened(call, |before, after| {
        if u64::from(before.open) == NOTES {
            after.open += 1;
        }
    })
}

/// The count of 31 stays.
pub fn below_most_stays(call: &Call) -> Option<String> {
    opened(call, |before, after| {
        if u64::from(before.open) == NOTES - 1 {
            after.open = before.open;
        }
    })
}

/// A count above 32 becomes 32.
pub fn cut_to_most(call: &Call) -> Option<String> {
    opened(call, |_, after| after.open = after.open.min(NOTES as u8))
}

/// The count stays where it is not below the listed one.
pub fn stays_at_listed(call: &Call) -> Option<String> {
    opened(call, |before, after| {
        if before.open >= before.listed {
            after.open = before.open;
        }
    })
}

/// The listed count is added to.
pub fn listed_for_open(call: &Call) -> Option<String> {
    opened(call, |before, after| {
        (after.listed, after.open) = (one_more(before.listed), before.open);
    })
}

/// The open notes are counted anew.
pub fn open_walked(call: &Call) -> Option<String> {
    opened(call, |_, after| after.open = walk::counts(after).1)
}

/// The listed notes are counted anew.
pub fn listed_walked(call: &Call) -> Option<String> {
    delivered(call, |_, _, after| after.listed = walk::counts(after).0)
}

fn asked(call: &Call, ready: fn(&Session) -> bool) -> Option<String> {
    match call {
        Call::Ready { session } => Some(ready_text(ready(session))),
        _ => None,
    }
}

/// The slots are walked through.
pub fn ready_walked(call: &Call) -> Option<String> {
    asked(call, walk::all_open)
}

/// No note of none is ready.
pub fn ready_at_zero(call: &Call) -> Option<String> {
    asked(call, |session| session.listed == session.open)
}

/// More open notes than listed ones are ready too.
pub fn ready_at_more(call: &Call) -> Option<String> {
    asked(call, |session| {
        session.listed != 0 && session.listed <= session.open
    })
}

/// Equal counts that no session can come to are not ready.
pub fn ready_within_most(call: &Call) -> Option<String> {
    asked(call, |session| {
        session.ready() && u64::from(session.listed) <= NOTES
    })
}

/// What is read of a sheet, to be made wrong: told what stood there before, if
/// it is read in place.
fn read(call: &Call, wrong: fn(Option<&Session>, &mut Sheet)) -> Option<String> {
    let Call::SheetRead { before, text } = call else {
        return None;
    };
    let mut sheet = sheet::read(text.bytes()?);
    wrong(before.as_deref(), &mut sheet);
    Some(sheet_text(&sheet))
}

/// A refused sheet leaves the counts that stood there.
pub fn refused_keeps(call: &Call) -> Option<String> {
    read(call, |before, sheet| {
        if let Some(before) = before.filter(|_| sheet.verdict.number != ACCEPTED) {
            (sheet.session.listed, sheet.session.open) = (before.listed, before.open);
        }
    })
}

/// The notes before a refused line stay counted.
pub fn refused_counted(call: &Call) -> Option<String> {
    read(call, |_, sheet| {
        sheet.session.listed = match sheet.verdict.number {
            ACCEPTED => sheet.session.listed,
            _ => sheet.verdict.line.saturating_sub(2) as u8,
        };
    })
}

/// An accepted sheet leaves the open count that stood there.
pub fn accepted_keeps_open(call: &Call) -> Option<String> {
    read(call, |before, sheet| {
        if let Some(before) = before.filter(|_| sheet.verdict.number == ACCEPTED) {
            sheet.session.open = before.open;
        }
    })
}

/// An accepted sheet leaves the listed count that stood there.
pub fn accepted_keeps_listed(call: &Call) -> Option<String> {
    read(call, |before, sheet| {
        if let Some(before) = before.filter(|_| sheet.verdict.number == ACCEPTED) {
            sheet.session.listed = before.listed;
        }
    })
}

/// The notes of an accepted sheet are not counted.
pub fn accepted_uncounted(call: &Call) -> Option<String> {
    read(call, |_, sheet| sheet.session.listed = 0)
}

/// A slot is not in order where the session's counts are not those of its slots.
pub fn counts_judged(call: &Call) -> Option<String> {
    let (session, note) = match call {
        Call::Ask { session, note, .. } | Call::Deliver { session, note, .. } => (session, *note),
        _ => return None,
    };
    let unfit = walk::counts(session) != (session.listed, session.open);
    if !unfit || session.ask(note).number != ACCEPTED {
        return None;
    }
    let refused = Answer {
        number: SLOT_NOT_IN_ORDER,
        status: NONE,
        taken: 0,
    };
    Some(match call {
        Call::Deliver { .. } => delivered_text(&refused, session),
        _ => answer_text(&refused),
    })
}
