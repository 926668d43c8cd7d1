//! Wrong rules for a loop, and what a program makes of sheets and slots that
//! judges loops by one. For slips, and nothing else uses them.

use crate::calls::values::parse_number;
use crate::refusal::ACCEPTED;
use crate::session::{Answer, Record, Session, Slot};
use crate::sheet::{self, Sheet, GREATEST};

/// Whether a record's loop is allowed.
pub type Rule = fn(&Record) -> bool;

/// The end is the frame after the last one played, as document 01 has it.
pub fn old(record: &Record) -> bool {
    record.loop_start < record.loop_end && record.loop_end <= record.length / 2
}

/// A start that is the end too is refused.
pub fn one_frame_refused(record: &Record) -> bool {
    record.loop_start < record.loop_end && record.loop_end < record.length / 2
}

/// The end may be the frame count, one beyond the sample.
pub fn frame_beyond(record: &Record) -> bool {
    record.loop_start <= record.loop_end && record.loop_end <= record.length / 2
}

/// The length in bytes is taken for the frame count.
pub fn unhalved(record: &Record) -> bool {
    record.loop_start <= record.loop_end && record.loop_end < record.length
}

/// The frames up to the end are counted in 32 bits.
pub fn wrapped(record: &Record) -> bool {
    let played = (record.loop_end as u32).wrapping_add(1);
    record.loop_start <= record.loop_end && u64::from(played) <= record.length / 2
}

/// A loop that ends as late as it may is refused.
pub fn below(record: &Record) -> bool {
    record.loop_start <= record.loop_end && record.loop_end + 1 < record.length / 2
}

/// The record with another loop, which the right rule judges as the wrong one
/// does the record's own: what judges rightly is so made to judge wrongly.
fn judged(record: &Record, rule: Rule) -> Record {
    let (loop_start, loop_end) = if rule(record) { (0, 0) } else { (1, 0) };
    Record {
        loop_start,
        loop_end,
        ..*record
    }
}

/// The slot with such a loop.
pub fn judged_slot(slot: &Slot, rule: Rule) -> Slot {
    Slot {
        record: judged(&slot.record, rule),
        ..*slot
    }
}

fn judged_session(session: &Session, rule: Rule) -> Session {
    Session {
        slots: session.slots.map(|slot| judged_slot(&slot, rule)),
        ..*session
    }
}

/// What is answered to a question.
pub fn ask(session: &Session, note: u64, rule: Rule) -> Answer {
    judged_session(session, rule).ask(note)
}

/// What is answered to a delivery, and left.
pub fn deliver(session: &mut Session, note: u64, piece: &[u8], rule: Rule) -> Answer {
    let mut after = judged_session(session, rule);
    let answer = after.deliver(note, piece);
    // No delivery changes a record: each slot keeps its own.
    for (slot, left) in session.slots.iter_mut().zip(after.slots) {
        *slot = Slot {
            record: slot.record,
            ..left
        };
    }
    (session.listed, session.open) = (after.listed, after.open);
    answer
}

/// What is read of a sheet: the right reader gets it with other loops, and then
/// the session gets those that it had.
pub fn read(text: &[u8], rule: Rule) -> Sheet {
    let lines = || text.split(|byte| *byte == b'\n');
    let others: Vec<Vec<u8>> = lines().map(|line| judged_line(line, rule)).collect();
    let mut sheet = sheet::read(&others.join(&b'\n'));
    if sheet.verdict.number == ACCEPTED {
        for (note, own, _) in lines().filter_map(note_line) {
            let record = &mut sheet.session.slots[note as usize - 1].record;
            (record.loop_start, record.loop_end) = (own.loop_start, own.loop_end);
        }
    }
    sheet
}

/// The line with another loop. One that is no note's stays as it is, and so does
/// one whose numbers are at fault.
fn judged_line(line: &[u8], rule: Rule) -> Vec<u8> {
    let Some((note, record, digest)) = note_line(line) else {
        return line.to_vec();
    };
    let Record {
        length,
        loop_start,
        loop_end,
        ..
    } = judged(&record, rule);
    format!("{note}\t{length}\t{loop_start}\t{loop_end}\t{digest}").into_bytes()
}

/// The note of a line, its record but for the digest, and the digest's text.
fn note_line(line: &[u8]) -> Option<(u64, Record, &str)> {
    let fields: Vec<&str> = std::str::from_utf8(line).ok()?.split('\t').collect();
    let [note, length, loop_start, loop_end, digest] = fields[..] else {
        return None;
    };
    let number = |field: &str| parse_number(field).filter(|number| *number <= GREATEST);
    let record = Record {
        length: number(length)?,
        loop_start: number(loop_start)?,
        loop_end: number(loop_end)?,
        digest: [0; 32],
    };
    Some((number(note)?, record, digest))
}
