//! Wrong answers of a program that makes one mistake where it writes a sheet.

use crate::calls::answer::written_text;
use crate::calls::call::Call;
use crate::folders::loop_rules::{self, Rule};
use crate::hash::State;
use crate::refusal::{ACCEPTED, NONE_LISTED, SHORT_BUFFER, SLOT_NOT_IN_ORDER};
use crate::session::{Record, Session, Slot, NONE, NOTES, OPEN, WAITING};
use crate::walk;
use crate::writing::{self, Written};

/// A copy of the writer: the places where the mistaken ones go wrong.
struct Writer<'a> {
    /// The refusals in the order in which they are judged.
    order: [u8; 3],
    /// Whether a slot gives no cause for 6.
    in_order: &'a dyn Fn(u64, &Slot) -> bool,
    /// Whether a slot has its line.
    listed: fn(&Slot) -> bool,
    line: fn(u64, &Slot) -> String,
    /// The number of notes by which 15 is judged, of a session with so many
    /// lines, and the one that the first line gives.
    judged_count: fn(&Session, usize) -> usize,
    written_count: fn(&Session, usize) -> usize,
    /// Whether a sheet of this length fits a buffer of that.
    fits: fn(usize, usize) -> bool,
}

const HONEST: Writer<'static> = Writer {
    order: [SLOT_NOT_IN_ORDER, NONE_LISTED, SHORT_BUFFER],
    in_order: &|_, slot| slot.status == NONE || slot.in_order(),
    listed: |slot| slot.status != NONE,
    line: |note, slot| writing::line(note, &slot.record),
    judged_count: |_, lines| lines,
    written_count: |_, lines| lines,
    fits: |sheet, buffer| sheet <= buffer,
};

impl Writer<'_> {
    fn answer(&self, call: &Call) -> Option<String> {
        let (session, buffer) = asked(call)?;
        let slots = || (1..=NOTES).zip(&session.slots);
        let lines: Vec<String> = slots()
            .filter(|(_, slot)| (self.listed)(slot))
            .map(|(note, slot)| (self.line)(note, slot))
            .collect();
        let count = (self.written_count)(session, lines.len());
        let sheet = format!("RANK\t1\t{count}\n{}", lines.concat());
        let refused = |number: &u8| match *number {
            SLOT_NOT_IN_ORDER => slots().any(|(note, slot)| !(self.in_order)(note, slot)),
            NONE_LISTED => (self.judged_count)(session, lines.len()) == 0,
            _ => !(self.fits)(sheet.len(), buffer.len()),
        };
        let number = self.order.into_iter().find(refused).unwrap_or(ACCEPTED);
        let mut after = buffer.to_vec();
        if number != ACCEPTED {
            return Some(written_text(number, 0, &after));
        }
        after[..sheet.len()].copy_from_slice(sheet.as_bytes());
        Some(written_text(ACCEPTED, sheet.len(), &after))
    }
}

/// What the copy without a mistake answers: if that were wrong, every mistake
/// would be found for its sake.
pub fn honest(call: &Call) -> Option<String> {
    HONEST.answer(call)
}

fn asked(call: &Call) -> Option<(&Session, &[u8])> {
    match call {
        Call::SheetWrite { session, buffer } => Some((session, buffer)),
        _ => None,
    }
}

/// The buffer is measured before the slots are judged.
pub fn short_before_slots(call: &Call) -> Option<String> {
    Writer {
        order: [SHORT_BUFFER, SLOT_NOT_IN_ORDER, NONE_LISTED],
        ..HONEST
    }
    .answer(call)
}

/// The buffer is measured before it is asked whether any note is listed.
pub fn short_before_none(call: &Call) -> Option<String> {
    Writer {
        order: [SLOT_NOT_IN_ORDER, SHORT_BUFFER, NONE_LISTED],
        ..HONEST
    }
    .answer(call)
}

/// Only slots in order are counted before the others are refused: where there
/// is none, no note counts as listed.
pub fn none_before_slots(call: &Call) -> Option<String> {
    let (session, buffer) = asked(call)?;
    let mut good = session.slots.iter().filter(|slot| slot.in_order());
    let none = good.next().is_none();
    none.then(|| written_text(NONE_LISTED, 0, buffer))
}

/// A buffer of just the sheet's length is refused.
pub fn exact_refused(call: &Call) -> Option<String> {
    Writer {
        fits: |sheet, buffer| sheet < buffer,
        ..HONEST
    }
    .answer(call)
}

/// A spoilt slot that lists no note is refused.
pub fn unlisted_judged(call: &Call) -> Option<String> {
    Writer {
        in_order: &|_, slot| *slot == Slot::UNLISTED || slot.in_order(),
        ..HONEST
    }
    .answer(call)
}

/// The first slot is not judged.
pub fn first_unjudged(call: &Call) -> Option<String> {
    Writer {
        in_order: &|note, slot| note == 1 || (HONEST.in_order)(note, slot),
        ..HONEST
    }
    .answer(call)
}

/// The last slot is not judged.
pub fn last_unjudged(call: &Call) -> Option<String> {
    Writer {
        in_order: &|note, slot| note == NOTES || (HONEST.in_order)(note, slot),
        ..HONEST
    }
    .answer(call)
}

/// The hash state is not judged, as nothing of it is written.
pub fn states_unjudged(call: &Call) -> Option<String> {
    Writer {
        in_order: &|note, slot| {
            let state = State::fresh();
            (HONEST.in_order)(note, &Slot { state, ..*slot })
        },
        ..HONEST
    }
    .answer(call)
}

/// The loops of the slots are judged by a wrong rule.
pub fn in_writing(call: &Call, rule: Rule) -> Option<String> {
    Writer {
        in_order: &|note, slot| (HONEST.in_order)(note, &loop_rules::judged_slot(slot, rule)),
        ..HONEST
    }
    .answer(call)
}

/// Whether any note is listed is judged by the listed count.
pub fn none_by_count(call: &Call) -> Option<String> {
    Writer {
        judged_count: |session, _| session.listed.into(),
        ..HONEST
    }
    .answer(call)
}

/// The first line gives the listed count.
pub fn count_for_lines(call: &Call) -> Option<String> {
    Writer {
        written_count: |session, _| session.listed.into(),
        ..HONEST
    }
    .answer(call)
}

/// A session whose counts are not those of its slots is not in order.
pub fn counts_judged(call: &Call) -> Option<String> {
    let (session, buffer) = asked(call)?;
    let unfit = walk::counts(session) != (session.listed, session.open);
    unfit.then(|| written_text(SLOT_NOT_IN_ORDER, 0, buffer))
}

/// A status that is none of the four counts as no note.
pub fn status_unlisted(call: &Call) -> Option<String> {
    let known = |slot: &mut Slot| {
        if slot.status > 3 {
            slot.status = NONE;
        }
    };
    let (session, buffer) = asked(call)?;
    let mut session = *session;
    session.slots.iter_mut().for_each(known);
    HONEST.answer(&Call::SheetWrite {
        session: Box::new(session),
        buffer: buffer.to_vec(),
    })
}

/// An open note has no line.
pub fn open_left_out(call: &Call) -> Option<String> {
    Writer {
        listed: |slot| slot.status != NONE && slot.status != OPEN,
        ..HONEST
    }
    .answer(call)
}

/// Only notes of which nothing was taken have a line.
pub fn begun_left_out(call: &Call) -> Option<String> {
    Writer {
        listed: |slot| slot.status != NONE && slot.state.total == 0,
        ..HONEST
    }
    .answer(call)
}

/// The bytes taken of a half loaded note are written for its length.
pub fn taken_for_length(call: &Call) -> Option<String> {
    Writer {
        line: |note, slot| {
            let begun = slot.status == WAITING && slot.state.total > 0;
            let length = if begun {
                slot.state.total
            } else {
                slot.record.length
            };
            let record = Record {
                length,
                ..slot.record
            };
            writing::line(note, &record)
        },
        ..HONEST
    }
    .answer(call)
}

/// The digest is written with capital letters.
pub fn capitals(call: &Call) -> Option<String> {
    Writer {
        line: |note, slot| writing::line(note, &slot.record).to_ascii_uppercase(),
        ..HONEST
    }
    .answer(call)
}

/// A note below 10 has a zero in front.
pub fn two_digits(call: &Call) -> Option<String> {
    Writer {
        line: |note, slot| {
            let zero = if note < 10 { "0" } else { "" };
            format!("{zero}{}", writing::line(note, &slot.record))
        },
        ..HONEST
    }
    .answer(call)
}

/// The digits are counted while there is something left to divide: a loop from
/// frame 0 has none.
pub fn zero_empty(call: &Call) -> Option<String> {
    Writer {
        line: |note, slot| writing::line(note, &slot.record).replace("\t0\t", "\t\t"),
        ..HONEST
    }
    .answer(call)
}

/// A power of ten counts for a digit less, from 1,000 on, where no note and no
/// count tells.
pub fn tens_narrow(call: &Call) -> Option<String> {
    Writer {
        line: |note, slot| {
            let line = writing::line(note, &slot.record);
            let fields: Vec<&str> = line.split('\t').map(narrow).collect();
            fields.join("\t")
        },
        ..HONEST
    }
    .answer(call)
}

fn narrow(field: &str) -> &str {
    match field.strip_prefix('1') {
        Some(zeros) if zeros.len() > 2 && zeros.bytes().all(|digit| digit == b'0') => zeros,
        _ => field,
    }
}

/// What the right writer answers and leaves, handed on to be made wrong.
fn after(call: &Call, wrong: fn(&Session, &mut Written, &mut [u8])) -> Option<String> {
    let (session, buffer) = asked(call)?;
    let mut after = buffer.to_vec();
    let mut written = writing::write(session, &mut after);
    wrong(session, &mut written, &mut after);
    Some(written_text(written.number, written.count, &after))
}

/// Puts what fits of some bytes at the buffer's front.
fn put(bytes: &[u8], buffer: &mut [u8]) -> usize {
    let count = bytes.len().min(buffer.len());
    buffer[..count].copy_from_slice(&bytes[..count]);
    count
}

/// The buffer's later bytes are made zero.
pub fn rest_cleared(call: &Call) -> Option<String> {
    after(call, |_, written, buffer| {
        if written.number == ACCEPTED {
            buffer[written.count..].fill(0);
        }
    })
}

/// The first line is written before anything is refused.
pub fn refused_begun(call: &Call) -> Option<String> {
    after(call, |session, written, buffer| {
        if written.number != ACCEPTED {
            let sheet = writing::text(session);
            let end = sheet.iter().position(|byte| *byte == b'\n');
            put(&sheet[..end.map_or(0, |end| end + 1)], buffer);
        }
    })
}

/// A buffer that is too short is filled before it is refused.
pub fn short_filled(call: &Call) -> Option<String> {
    after(call, |session, written, buffer| {
        if written.number == SHORT_BUFFER {
            put(&writing::text(session), buffer);
        }
    })
}

/// A buffer that is too short gets what fits.
pub fn short_accepted(call: &Call) -> Option<String> {
    after(call, |session, written, buffer| {
        if written.number == SHORT_BUFFER {
            written.number = ACCEPTED;
            written.count = put(&writing::text(session), buffer);
        }
    })
}

/// A refused call answers how long the sheet would be.
pub fn refused_counted(call: &Call) -> Option<String> {
    after(call, |session, written, _| {
        if written.number != ACCEPTED {
            written.count = writing::text(session).len();
        }
    })
}
