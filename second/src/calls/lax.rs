//! Wrong answers of a program that takes more lines than it should. Each mends
//! a line that is no call, and answers it if it is one then.

use crate::calls::answer::answer;
use crate::calls::call::Call;
use crate::calls::values::{parse_number, MOST_BYTES};

fn mended(call: &Call, mend: fn(&[u8]) -> Vec<u8>) -> Option<String> {
    let Call::Line { line } = call else {
        return None;
    };
    match Call::parse(line) {
        Some(_) => None,
        None => answer(&Call::parse(&mend(line))?),
    }
}

/// Tabs in a row count as one, and those around the line as none.
pub fn tabs_joined(call: &Call) -> Option<String> {
    mended(call, |line| {
        let fields = line.split(|byte| *byte == b'\t');
        let full: Vec<&[u8]> = fields.filter(|field| !field.is_empty()).collect();
        full.join(&b'\t')
    })
}

/// A CR before the LF is dropped.
pub fn return_taken(call: &Call) -> Option<String> {
    mended(call, |line| {
        line.strip_suffix(b"\r").unwrap_or(line).to_vec()
    })
}

/// Capital letters are small ones.
pub fn capitals_taken(call: &Call) -> Option<String> {
    mended(call, <[u8]>::to_ascii_lowercase)
}

/// The zeros in front of the last field's number are dropped.
pub fn zeros_taken(call: &Call) -> Option<String> {
    mended(call, |line| {
        let last = line
            .iter()
            .rposition(|byte| *byte == b'\t')
            .map_or(0, |tab| tab + 1);
        let (before, number) = line.split_at(last);
        let zeros = number.iter().take_while(|byte| **byte == b'0').count();
        [before, &number[zeros..]].concat()
    })
}

/// A session's slots may come in any order.
pub fn slots_sorted(call: &Call) -> Option<String> {
    mended(call, |line| {
        let fields = line.split(|byte| *byte == b'\t');
        let sorted: Vec<Vec<u8>> = fields.map(sort_slots).collect();
        sorted.join(&b'\t')
    })
}

fn sort_slots(field: &[u8]) -> Vec<u8> {
    let mut slots: Vec<&[u8]> = field.split(|byte| *byte == b',').collect();
    // One digit comes before two, so that 9 comes before 10.
    slots.sort_by_key(|slot| (slot.iter().position(|byte| *byte == b'='), *slot));
    slots.join(&b',')
}

/// A session may be written without its counts.
pub fn counts_missing(call: &Call) -> Option<String> {
    mended(call, |line| {
        with_first_argument(line, |session| match session {
            b"-" => b"0:0".to_vec(),
            slots => [b"0:0,", slots].concat(),
        })
    })
}

/// A count is cut to a byte.
pub fn counts_cut(call: &Call) -> Option<String> {
    mended(call, |line| {
        with_first_argument(line, |session| {
            let session = String::from_utf8_lossy(session);
            let (counts, slots) = match session.find(',') {
                Some(end) => session.split_at(end),
                None => (&session[..], ""),
            };
            let cut = |count: &str| match parse_number(count) {
                Some(number) => (number % 256).to_string(),
                None => count.to_string(),
            };
            let counts: Vec<String> = counts.split(':').map(cut).collect();
            format!("{}{slots}", counts.join(":")).into_bytes()
        })
    })
}

/// The line with something else for its first argument, if it has any.
fn with_first_argument(line: &[u8], other: fn(&[u8]) -> Vec<u8>) -> Vec<u8> {
    let fields = line.split(|byte| *byte == b'\t');
    let fields: Vec<Vec<u8>> = fields
        .enumerate()
        .map(|(place, field)| match place {
            1 => other(field),
            _ => field.to_vec(),
        })
        .collect();
    fields.join(&b'\t')
}

/// What does not fit is dropped.
pub fn cut_short(call: &Call) -> Option<String> {
    mended(call, |line| {
        let fields = line.split(|byte| *byte == b'\t');
        let cut: Vec<&[u8]> = fields
            .map(|field| &field[..field.len().min(2 * MOST_BYTES)])
            .collect();
        cut.join(&b'\t')
    })
}
