//! The rank sheet reader.

use crate::refusal::{ACCEPTED, BAD_LENGTH, BAD_LOOP, COUNT_OR_NOTE, FORM};
use crate::session::{Record, Session, NOTES};

/// The greatest number a sheet may write.
pub const GREATEST: u64 = 4294967295;

/// A number, and the line that decides, 0 when accepted.
#[derive(Clone, Copy, Debug, PartialEq, Eq)]
pub struct Verdict {
    pub number: u8,
    pub line: u64,
}

/// What is said of a sheet, and its session.
#[derive(Clone, Copy, Debug, PartialEq, Eq)]
pub struct Sheet {
    pub verdict: Verdict,
    pub session: Session,
}

/// Reads a sheet. A refused one lists no note.
pub fn read(text: &[u8]) -> Sheet {
    match read_lines(text) {
        Ok(session) => Sheet {
            verdict: Verdict {
                number: ACCEPTED,
                line: 0,
            },
            session,
        },
        Err(verdict) => Sheet {
            verdict,
            session: Session::unlisted(),
        },
    }
}

fn read_lines(text: &[u8]) -> Result<Session, Verdict> {
    let (first, mut rest) = cut_line(text, 1)?;
    let count = read_first(first).map_err(|number| Verdict { number, line: 1 })?;
    let mut session = Session::unlisted();
    let mut last_note = 0;
    for line in 2..count + 2 {
        let (content, after) = cut_line(rest, line)?;
        let (note, record) =
            read_note(content, last_note).map_err(|number| Verdict { number, line })?;
        session.list(note, record);
        last_note = note;
        rest = after;
    }
    if rest.is_empty() {
        return Ok(session);
    }
    Err(Verdict {
        number: FORM,
        line: count + 2,
    })
}

/// Parts a line from what follows its LF. A line without LF is a form fault
/// whatever it holds, for form is judged first.
fn cut_line(text: &[u8], line: u64) -> Result<(&[u8], &[u8]), Verdict> {
    match text.iter().position(|byte| *byte == b'\n') {
        Some(end) => Ok((&text[..end], &text[end + 1..])),
        None => Err(Verdict { number: FORM, line }),
    }
}

fn fields(line: &[u8]) -> Vec<&[u8]> {
    line.split(|byte| *byte == b'\t').collect()
}

/// The number of notes out of line 1.
fn read_first(line: &[u8]) -> Result<u64, u8> {
    let [b"RANK", b"1", count] = fields(line)[..] else {
        return Err(FORM);
    };
    let count = number(count).ok_or(FORM)?;
    if !(1..=NOTES).contains(&count) {
        return Err(COUNT_OR_NOTE);
    }
    Ok(count)
}

/// A note and its record out of its line.
fn read_note(line: &[u8], last_note: u64) -> Result<(u64, Record), u8> {
    let [note, length, loop_start, loop_end, digest] = fields(line)[..] else {
        return Err(FORM);
    };
    // All of the line's form comes before any of its values.
    let note = number(note).ok_or(FORM)?;
    let record = Record {
        length: number(length).ok_or(FORM)?,
        loop_start: number(loop_start).ok_or(FORM)?,
        loop_end: number(loop_end).ok_or(FORM)?,
        digest: digest_bytes(digest).ok_or(FORM)?,
    };
    if note <= last_note || note > NOTES {
        return Err(COUNT_OR_NOTE);
    }
    if !record.length_allowed() {
        return Err(BAD_LENGTH);
    }
    if !record.loop_allowed() {
        return Err(BAD_LOOP);
    }
    Ok((note, record))
}

/// A decimal number of at most 4294967295 with no needless zero in front.
fn number(field: &[u8]) -> Option<u64> {
    let leading_zero = field.len() > 1 && field[0] == b'0';
    // More than ten digits are too many, and would overflow the sum below.
    if field.is_empty() || field.len() > 10 || leading_zero {
        return None;
    }
    let mut value = 0;
    for byte in field {
        if !byte.is_ascii_digit() {
            return None;
        }
        value = 10 * value + u64::from(byte - b'0');
    }
    (value <= GREATEST).then_some(value)
}

/// A byte's value as a hex digit, 255 for a byte that is no digit.
pub fn hex_value(byte: u8) -> u8 {
    match byte {
        b'0'..=b'9' => byte - b'0',
        b'a'..=b'f' => byte - b'a' + 10,
        _ => 255,
    }
}

/// The bytes that 64 hex characters stand for: of a digest, or of a code.
pub fn digest_bytes(field: &[u8]) -> Option<[u8; 32]> {
    if field.len() != 64 || field.iter().any(|byte| hex_value(*byte) == 255) {
        return None;
    }
    let mut digest = [0; 32];
    for (k, pair) in field.chunks(2).enumerate() {
        digest[k] = 16 * hex_value(pair[0]) + hex_value(pair[1]);
    }
    Some(digest)
}
