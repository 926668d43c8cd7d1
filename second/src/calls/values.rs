//! How values are written in a call and in its answers. Each is written in one
//! way only: what reads otherwise is no value.

use crate::code::CodeState;
use crate::hash::State;
use crate::session::{Record, Session, Slot, NOTES};

/// The most bytes that a call may carry in one slice.
pub const MOST_BYTES: usize = 70_000;

/// A lent slice: its bytes, or only a length that no memory holds.
#[derive(Clone, Debug, PartialEq, Eq)]
pub enum Lent {
    Bytes(Vec<u8>),
    Absent(u64),
}

impl Lent {
    pub fn length(&self) -> u64 {
        match self {
            Lent::Bytes(bytes) => bytes.len() as u64,
            Lent::Absent(length) => *length,
        }
    }

    /// The bytes, where they are there. Of none, none is missing.
    pub fn bytes(&self) -> Option<&[u8]> {
        match self {
            Lent::Bytes(bytes) => Some(bytes),
            Lent::Absent(0) => Some(&[]),
            Lent::Absent(_) => None,
        }
    }
}

/// The digits that calls and answers are written in: these and no others,
/// whatever a sheet may be written in.
const DIGITS: &[u8; 16] = b"0123456789abcdef";

/// Two digits a byte, and nothing for none.
fn hex(bytes: &[u8]) -> String {
    let mut text = String::with_capacity(2 * bytes.len());
    for byte in bytes {
        text.push(char::from(DIGITS[usize::from(byte >> 4)]));
        text.push(char::from(DIGITS[usize::from(byte & 15)]));
    }
    text
}

fn parse_hex(text: &str) -> Option<Vec<u8>> {
    let value = |byte: u8| DIGITS.iter().position(|digit| *digit == byte);
    let values: Option<Vec<usize>> = text.bytes().map(value).collect();
    let values = values?;
    if !values.len().is_multiple_of(2) {
        return None;
    }
    let pairs = values.chunks(2);
    Some(pairs.map(|pair| (16 * pair[0] + pair[1]) as u8).collect())
}

/// Exactly so many bytes.
fn parse_array<const N: usize>(text: &str) -> Option<[u8; N]> {
    parse_hex(text)?.try_into().ok()
}

pub fn bytes_text(bytes: &[u8]) -> String {
    if bytes.is_empty() {
        return "-".to_string();
    }
    hex(bytes)
}

pub fn parse_bytes(text: &str) -> Option<Vec<u8>> {
    match text {
        "-" => Some(Vec::new()),
        "" => None,
        _ => parse_hex(text).filter(|bytes| bytes.len() <= MOST_BYTES),
    }
}

pub fn lent_text(lent: &Lent) -> String {
    match lent {
        Lent::Bytes(bytes) => bytes_text(bytes),
        Lent::Absent(length) => format!("@{length}"),
    }
}

pub fn parse_lent(text: &str) -> Option<Lent> {
    match text.strip_prefix('@') {
        Some(length) => parse_number(length).map(Lent::Absent),
        None => parse_bytes(text).map(Lent::Bytes),
    }
}

/// Decimal digits and nothing else, below 2^64, with no needless zero in front.
pub fn parse_number(text: &str) -> Option<u64> {
    let digits = text.bytes().all(|byte| byte.is_ascii_digit());
    let needless = text.len() > 1 && text.starts_with('0');
    (digits && !needless).then(|| text.parse().ok()).flatten()
}

/// A status or a count: the library stores either in a byte.
fn parse_byte(text: &str) -> Option<u8> {
    u8::try_from(parse_number(text)?).ok()
}

/// The library stores the numbers of a record in 32 bits.
fn parse_record_number(text: &str) -> Option<u64> {
    parse_number(text).filter(|number| *number <= u64::from(u32::MAX))
}

pub fn state_text(state: &State) -> String {
    let words: Vec<u8> = state.words.iter().flat_map(|w| w.to_be_bytes()).collect();
    format!("{}:{}:{}", hex(&words), state.total, hex(&state.tail))
}

pub fn parse_state(text: &str) -> Option<State> {
    let fields: Vec<&str> = text.split(':').collect();
    let [words, total, tail] = fields[..] else {
        return None;
    };
    let bytes: [u8; 32] = parse_array(words)?;
    let mut words = [0; 8];
    for (word, four) in words.iter_mut().zip(bytes.chunks(4)) {
        *word = u32::from_be_bytes([four[0], four[1], four[2], four[3]]);
    }
    Some(State {
        words,
        total: parse_number(total)?,
        tail: parse_array(tail)?,
    })
}

/// The inner state, a plus, the outer state.
pub fn code_state_text(state: &CodeState) -> String {
    format!("{}+{}", state_text(&state.inner), state_text(&state.outer))
}

pub fn parse_code_state(text: &str) -> Option<CodeState> {
    let (inner, outer) = text.split_once('+')?;
    Some(CodeState {
        inner: parse_state(inner)?,
        outer: parse_state(outer)?,
    })
}

pub fn slot_text(slot: &Slot) -> String {
    let record = &slot.record;
    format!(
        "{}:{}:{}:{}:{}:{}",
        record.length,
        record.loop_start,
        record.loop_end,
        hex(&record.digest),
        state_text(&slot.state),
        slot.status
    )
}

fn parse_slot(text: &str) -> Option<Slot> {
    let (rest, status) = text.rsplit_once(':')?;
    let fields: Vec<&str> = rest.splitn(5, ':').collect();
    let [length, loop_start, loop_end, digest, state] = fields[..] else {
        return None;
    };
    Some(Slot {
        record: Record {
            length: parse_record_number(length)?,
            loop_start: parse_record_number(loop_start)?,
            loop_end: parse_record_number(loop_end)?,
            digest: parse_array(digest)?,
        },
        state: parse_state(state)?,
        status: parse_byte(status)?,
    })
}

/// The two counts, and then each slot that is not the empty one.
pub fn session_text(session: &Session) -> String {
    let counts = format!("{}:{}", session.listed, session.open);
    let slots = (1..=NOTES)
        .zip(&session.slots)
        .filter(|(_, slot)| **slot != Slot::UNLISTED)
        .map(|(note, slot)| format!("{note}={}", slot_text(slot)));
    [counts]
        .into_iter()
        .chain(slots)
        .collect::<Vec<_>>()
        .join(",")
}

/// The counts are always there. The slots rise, and none of them is the empty
/// one.
pub fn parse_session(text: &str) -> Option<Session> {
    let mut session = Session::unlisted();
    let mut entries = text.split(',');
    let (listed, open) = entries.next()?.split_once(':')?;
    (session.listed, session.open) = (parse_byte(listed)?, parse_byte(open)?);
    let mut last = 0;
    for entry in entries {
        let (note, slot) = entry.split_once('=')?;
        let note = parse_number(note)?;
        if note <= last || note > NOTES {
            return None;
        }
        let slot = parse_slot(slot).filter(|slot| *slot != Slot::UNLISTED)?;
        session.slots[note as usize - 1] = slot;
        last = note;
    }
    Some(session)
}
