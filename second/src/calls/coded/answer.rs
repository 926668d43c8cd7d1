//! The second implementation's answer to a call over codes. Nothing where bytes
//! would be needed that are not there.

use crate::calls::answer::{comparison_text, sheet_text};
use crate::calls::coded::CodeCall;
use crate::calls::values::{bytes_text, code_state_text, Lent};
use crate::code::{self, CodeState, Coded, Started};
use crate::hash::{self, Compared};
use crate::keyed;
use crate::refusal::ACCEPTED;
use crate::sheet::Sheet;

pub fn answer(call: &CodeCall) -> Option<String> {
    match call {
        CodeCall::Start { key } => start(key).map(started_text),
        CodeCall::Update { state, piece, .. } => update(state, piece),
        CodeCall::Finish { state } => Some(code_text(state.finish())),
        CodeCall::Of { key, message } => code_of(key, message).map(code_text),
        CodeCall::CompareState { state, expected } => {
            compare_state(state, expected).map(comparison_text)
        }
        CodeCall::CompareOf {
            key,
            message,
            expected,
        } => compare_of(key, message, expected).map(comparison_text),
        CodeCall::KeyedRead { key, text, .. } => {
            keyed_read(key, text).map(|sheet| sheet_text(&sheet))
        }
    }
}

fn start(key: &Lent) -> Option<Started> {
    Some(match code::key_number(key.length()) {
        ACCEPTED => code::start(key.bytes()?),
        refused => code::refused_start(refused),
    })
}

fn update(state: &CodeState, piece: &Lent) -> Option<String> {
    let mut after = *state;
    let number = match state.update_number(piece.length()) {
        ACCEPTED => after.update(piece.bytes()?),
        refused => refused,
    };
    Some(updated_text(number, &after))
}

/// A key that is not too long is used before anything else is looked at, so it
/// must be there.
fn usable(key: &Lent) -> Option<()> {
    if code::key_number(key.length()) == ACCEPTED {
        key.bytes()?;
    }
    Some(())
}

fn code_of(key: &Lent, message: &Lent) -> Option<Coded> {
    usable(key)?;
    Some(match code::number_of(key.length(), message.length()) {
        ACCEPTED => code::code_of(key.bytes()?, message.bytes()?),
        refused => code::refused_code(refused),
    })
}

fn compare_state(state: &CodeState, expected: &Lent) -> Option<Compared> {
    Some(match state.compare_number(expected.length()) {
        ACCEPTED => state.compare(expected.bytes()?),
        refused => hash::refused_comparison(refused),
    })
}

/// The message is gone over before the expected code's length is looked at, so
/// one that is not too long must be there too.
fn compare_of(key: &Lent, message: &Lent, expected: &Lent) -> Option<Compared> {
    usable(key)?;
    if code::number_of(key.length(), message.length()) == ACCEPTED {
        message.bytes()?;
    }
    let lengths = [key, message, expected].map(Lent::length);
    Some(
        match code::compare_number(lengths[0], lengths[1], lengths[2]) {
            ACCEPTED => code::compare(key.bytes()?, message.bytes()?, expected.bytes()?),
            refused => hash::refused_comparison(refused),
        },
    )
}

/// A text that has no room for a MAC line need not be there.
pub fn keyed_read(key: &Lent, text: &Lent) -> Option<Sheet> {
    usable(key)?;
    let numbers = [
        code::key_number(key.length()),
        keyed::text_number(text.length()),
    ];
    match numbers.into_iter().find(|number| *number != ACCEPTED) {
        Some(refused) => Some(keyed::refused(refused)),
        None => Some(keyed::read(key.bytes()?, text.bytes()?)),
    }
}

pub fn started_text(started: Started) -> String {
    updated_text(started.number, &started.state)
}

pub fn updated_text(number: u8, after: &CodeState) -> String {
    format!("{number}\t{}", code_state_text(after))
}

pub fn code_text(answer: Coded) -> String {
    format!("{}\t{}", answer.number, bytes_text(&answer.code))
}
