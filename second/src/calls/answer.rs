//! The second implementation's answer to a call.

use crate::calls::call::Call;
use crate::calls::coded;
use crate::calls::values::{bytes_text, session_text, state_text, Lent};
use crate::hash::{self, Compared, Digested, State};
use crate::padding::{self, End, Place, Which, Written};
use crate::refusal::{ACCEPTED, DECIDED, NOT_PADDED, PAST_LENGTH};
use crate::session::{self, Answer, Session, WAITING};
use crate::sheet::{self, Sheet};
use crate::sm3;
use crate::writing;

/// The answers, tab-parted. Nothing where bytes would be needed that are not
/// there: such a call may not be made.
pub fn answer(call: &Call) -> Option<String> {
    match call {
        Call::Fresh => Some(state_text(&State::fresh())),
        Call::Fold { state, bytes } => fold(state, bytes),
        Call::Update { state, piece, .. } => update(state, piece),
        Call::Finish { state } => Some(digest_text(state.finish())),
        Call::Digest { message } => digest(message).map(digest_text),
        Call::CompareMessage { message, expected } => {
            compare_message(message, expected).map(comparison_text)
        }
        Call::CompareState { state, expected } => {
            compare_state(state, expected).map(comparison_text)
        }
        Call::PadWrite { message, buffer } => pad_write(message, buffer),
        Call::Block {
            part,
            message,
            buffer,
            block,
        } => block_view(*part, message, buffer, *block),
        Call::Remove { part: false, bytes } => Some(remove_number(bytes)?.to_string()),
        Call::Remove { part: true, bytes } => remove_part(bytes).map(removed_text),
        Call::SheetRead { text, .. } => Some(sheet_text(&sheet::read(text.bytes()?))),
        Call::Deliver {
            session,
            note,
            piece,
            ..
        } => deliver(session, *note, piece),
        Call::Ask { session, note, .. } => Some(answer_text(&session.ask(*note))),
        Call::Ready { session } => Some(ready_text(session.ready())),
        Call::SheetWrite { session, buffer } => Some(sheet_write(session, buffer)),
        Call::Coded(call) => coded::answer::answer(call),
        Call::Line { line } => answer_line(line),
    }
}

/// What a line is answered that is no call.
pub const NO_CALL: &str = "?";

/// The answers to a line, which may be no call.
fn answer_line(line: &[u8]) -> Option<String> {
    match Call::parse(line) {
        Some(call) => answer(&call),
        None => Some(NO_CALL.to_string()),
    }
}

/// Reads calls and answers each before the next. A last line without its LF
/// may have been cut short and is no call. No call can be told what bytes hold
/// that are not there; what then is said does not matter.
pub fn answer_lines(
    mut input: impl std::io::BufRead,
    mut out: impl std::io::Write,
) -> std::io::Result<()> {
    let mut line = Vec::new();
    while input.read_until(b'\n', &mut line)? != 0 {
        let whole = line.pop() == Some(b'\n');
        let answers = if whole { answer_line(&line) } else { None };
        writeln!(out, "{}", answers.as_deref().unwrap_or(NO_CALL))?;
        out.flush()?;
        line.clear();
    }
    Ok(())
}

/// Only whole blocks are folded, and nothing else is looked at.
fn fold(state: &State, bytes: &Lent) -> Option<String> {
    let whole = match bytes {
        Lent::Absent(length) if *length < 64 => &[],
        _ => {
            let bytes = bytes.bytes()?;
            &bytes[..bytes.len() / 64 * 64]
        }
    };
    Some(bytes_text(&sm3::to_bytes(&sm3::fold(&state.words, whole))))
}

fn update(state: &State, piece: &Lent) -> Option<String> {
    let mut after = *state;
    let number = match state.update_number(piece.length()) {
        ACCEPTED => after.update(piece.bytes()?),
        refused => refused,
    };
    Some(updated_text(number, &after))
}

fn digest(message: &Lent) -> Option<Digested> {
    Some(match padding::length_number(message.length()) {
        ACCEPTED => hash::digest(message.bytes()?),
        refused => hash::refused_digest(refused),
    })
}

/// The message is hashed before the expected digest's length is looked at, so
/// only a message that is too long need not be there.
fn compare_message(message: &Lent, expected: &Lent) -> Option<Compared> {
    if padding::length_number(message.length()) == ACCEPTED {
        message.bytes()?;
    }
    Some(
        match hash::compare_number(message.length(), expected.length()) {
            ACCEPTED => hash::compare(message.bytes()?, expected.bytes()?),
            refused => hash::refused_comparison(refused),
        },
    )
}

fn compare_state(state: &State, expected: &Lent) -> Option<Compared> {
    Some(match state.compare_number(expected.length()) {
        ACCEPTED => state.compare(expected.bytes()?),
        refused => hash::refused_comparison(refused),
    })
}

/// What the padding needs of a message, if that is there.
fn end(message: &Lent) -> Option<End<'_>> {
    match message {
        Lent::Bytes(bytes) => Some(End::of(bytes)),
        Lent::Absent(length) => End::of_length(*length),
    }
}

fn pad_write(message: &Lent, buffer: &[u8]) -> Option<String> {
    let mut after = buffer.to_vec();
    let written = match padding::write_number(message.length(), buffer.len() as u64) {
        ACCEPTED => end(message)?.write(&mut after),
        number => Written { number, count: 0 },
    };
    Some(written_text(written.number, written.count, &after))
}

fn block_view(part: bool, message: &Lent, buffer: &Lent, block: u64) -> Option<String> {
    let (number, place) = match padding::write_number(message.length(), buffer.length()) {
        ACCEPTED => {
            let (end, buffer) = (end(message)?, buffer.bytes()?);
            (
                end.view_number(buffer, block),
                end.view_place(buffer, block),
            )
        }
        refused => (refused, Place::EMPTY),
    };
    if !part {
        return Some(number.to_string());
    }
    match place.which {
        Which::Neither => Some(part_text(&place, &[], &[])),
        Which::Message => Some(part_text(&place, message.bytes()?, &[])),
        Which::Buffer => Some(part_text(&place, &[], buffer.bytes()?)),
    }
}

/// A length that no padded message has is enough.
fn remove_number(bytes: &Lent) -> Option<u8> {
    match bytes {
        Lent::Absent(length) if !length.is_multiple_of(64) => Some(NOT_PADDED),
        _ => Some(padding::remove_number(bytes.bytes()?)),
    }
}

fn remove_part(bytes: &Lent) -> Option<&[u8]> {
    match remove_number(bytes)? {
        ACCEPTED => Some(padding::remove_part(bytes.bytes()?)),
        _ => Some(&[]),
    }
}

fn deliver(session: &Session, note: u64, piece: &Lent) -> Option<String> {
    let mut after = *session;
    let answer = match piece.bytes() {
        Some(bytes) => after.deliver(note, bytes),
        None => deliver_absent(session, note, piece.length())?,
    };
    Some(delivered_text(&answer, &after))
}

/// A delivery that is refused before any byte is looked at.
fn deliver_absent(session: &Session, note: u64, length: u64) -> Option<Answer> {
    let asked = session.ask(note);
    if asked.number != ACCEPTED {
        return Some(asked);
    }
    if asked.status != WAITING {
        return Some(Answer {
            number: DECIDED,
            ..asked
        });
    }
    let record = session.slots[note as usize - 1].record;
    session::exceeds(asked.taken, length, record.length).then_some(Answer {
        number: PAST_LENGTH,
        ..asked
    })
}

fn sheet_write(session: &Session, buffer: &[u8]) -> String {
    let mut after = buffer.to_vec();
    let written = writing::write(session, &mut after);
    written_text(written.number, written.count, &after)
}

pub fn updated_text(number: u8, after: &State) -> String {
    format!("{number}\t{}", state_text(after))
}

pub fn digest_text(answer: Digested) -> String {
    format!("{}\t{}", answer.number, bytes_text(&answer.digest))
}

pub fn comparison_text(answer: Compared) -> String {
    format!("{}\t{}", answer.number, u8::from(answer.same))
}

pub fn written_text(number: u8, count: usize, buffer: &[u8]) -> String {
    format!("{number}\t{count}\t{}", bytes_text(buffer))
}

pub fn part_text(place: &Place, message: &[u8], buffer: &[u8]) -> String {
    let which = match place.which {
        Which::Neither => 0,
        Which::Message => 1,
        Which::Buffer => 2,
    };
    let bytes = bytes_text(place.bytes(message, buffer));
    format!("{which}\t{}\t{}\t{bytes}", place.offset, place.length)
}

/// The message is always the front of what was lent.
pub fn removed_text(part: &[u8]) -> String {
    format!("0\t{}\t{}", part.len(), bytes_text(part))
}

pub fn sheet_text(sheet: &Sheet) -> String {
    let session = session_text(&sheet.session);
    format!(
        "{}\t{}\t{session}",
        sheet.verdict.number, sheet.verdict.line
    )
}

pub fn delivered_text(answer: &Answer, after: &Session) -> String {
    format!("{}\t{}", answer_text(answer), session_text(after))
}

pub fn ready_text(ready: bool) -> String {
    u8::from(ready).to_string()
}

pub fn answer_text(answer: &Answer) -> String {
    format!("{}\t{}\t{}", answer.number, answer.status, answer.taken)
}
