//! The rank sheet writer: the sheet of a session, as text to ship.

use crate::refusal::{ACCEPTED, NONE_LISTED, SHORT_BUFFER, SLOT_NOT_IN_ORDER};
use crate::session::{Record, Session, Slot, NONE, NOTES};

/// The longest sheet in bytes: a buffer of so many is never too short.
pub const LONGEST_SHEET: usize = 3233;

/// What the writer answers: the number, and the sheet's length or (refused) 0.
#[derive(Clone, Copy, Debug, PartialEq, Eq)]
pub struct Written {
    pub number: u8,
    pub count: usize,
}

/// Puts the session's sheet at the buffer's front. A refused call leaves the
/// buffer.
pub fn write(session: &Session, buffer: &mut [u8]) -> Written {
    let number = write_number(session, buffer.len());
    if number != ACCEPTED {
        return Written { number, count: 0 };
    }
    let sheet = text(session);
    buffer[..sheet.len()].copy_from_slice(&sheet);
    Written {
        number,
        count: sheet.len(),
    }
}

/// The number of a call with a buffer of this length. All slots are judged
/// before the first byte is written.
pub fn write_number(session: &Session, buffer_length: usize) -> u8 {
    let listed = listed(session);
    if !listed.iter().all(|(_, slot)| slot.in_order()) {
        return SLOT_NOT_IN_ORDER;
    }
    if listed.is_empty() {
        return NONE_LISTED;
    }
    if buffer_length < text(session).len() {
        return SHORT_BUFFER;
    }
    ACCEPTED
}

/// The sheet of the listed notes, whatever came of each. Of a session that is
/// refused it is no sheet.
pub fn text(session: &Session) -> Vec<u8> {
    let listed = listed(session);
    let mut text = format!("RANK\t1\t{}\n", listed.len());
    for (note, slot) in listed {
        text.push_str(&line(note, &slot.record));
    }
    text.into_bytes()
}

/// The listed notes, rising, with their slots. What an unlisted slot holds is
/// not looked at.
fn listed(session: &Session) -> Vec<(u64, &Slot)> {
    (1..=NOTES)
        .zip(&session.slots)
        .filter(|(_, slot)| slot.status != NONE)
        .collect()
}

/// A note's line with its LF: the record alone, and nothing of the loading.
pub fn line(note: u64, record: &Record) -> String {
    let digest: String = record
        .digest
        .iter()
        .map(|byte| format!("{byte:02x}"))
        .collect();
    format!(
        "{note}\t{}\t{}\t{}\t{digest}\n",
        record.length, record.loop_start, record.loop_end
    )
}
