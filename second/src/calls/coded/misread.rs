//! Wrong answers of a program that makes one mistake where it reads a keyed
//! sheet.

use crate::calls::answer::sheet_text;
use crate::calls::call::Call;
use crate::calls::coded::{answer, CodeCall};
use crate::calls::values::Lent;
use crate::code;
use crate::hash;
use crate::keyed::{self, refused};
use crate::padding::LONGEST;
use crate::refusal::{ACCEPTED, NO_MAC_LINE, OTHER_CODE, TOO_LONG};
use crate::session::Session;
use crate::sheet::{self, Sheet};

/// A copy of the reader: the places where the mistaken ones go wrong.
struct Reader {
    /// Where the MAC line begins, and the code in it.
    parted: fn(&[u8]) -> Option<(usize, [u8; 32])>,
    /// What the code goes over, and what is read as a sheet, of a text with a
    /// MAC line at this place.
    covered: fn(&[u8], usize) -> Vec<u8>,
    sheet: fn(&[u8], usize) -> Vec<u8>,
    /// The code of a key and a message.
    code: fn(&[u8], &[u8]) -> [u8; 32],
    /// Whether the code in the line is this one.
    same: fn(&[u8; 32], &[u8; 32]) -> bool,
}

const HONEST: Reader = Reader {
    parted: |text| last_line(text).filter(|(place, _)| begins_line(text, *place)),
    covered: |text, place| text[..place].to_vec(),
    sheet: |text, place| text[..place].to_vec(),
    code: |key, message| code::code_of(key, message).code,
    same: |one, other| one == other,
};

impl Reader {
    fn answer(&self, call: &Call) -> Option<String> {
        let asked = asked(call)?;
        let (key, text) = (asked.key.bytes()?, asked.text.bytes()?);
        let Some((place, mac)) = (self.parted)(text) else {
            return Some(sheet_text(&refused(NO_MAC_LINE)));
        };
        let right = (self.code)(key, &(self.covered)(text, place));
        if !(self.same)(&mac, &right) {
            return Some(sheet_text(&refused(OTHER_CODE)));
        }
        Some(sheet_text(&sheet::read(&(self.sheet)(text, place))))
    }
}

/// What the copy without a mistake answers: if that were wrong, every mistake
/// would be found for its sake.
pub fn honest(call: &Call) -> Option<String> {
    HONEST.answer(call)
}

/// The place and the code of a MAC line that the text ends with, whether it
/// begins a line or not.
fn last_line(text: &[u8]) -> Option<(usize, [u8; 32])> {
    let place = text.len().checked_sub(69)?;
    let line = &text[place..];
    if !line.starts_with(b"MAC\t") || line[68] != b'\n' {
        return None;
    }
    Some((place, sheet::digest_bytes(&line[4..68])?))
}

fn begins_line(text: &[u8], place: usize) -> bool {
    place == 0 || text[place - 1] == b'\n'
}

/// What a keyed reader is asked.
struct Asked<'a> {
    before: Option<&'a Session>,
    key: &'a Lent,
    text: &'a Lent,
}

fn asked(call: &Call) -> Option<Asked<'_>> {
    match call {
        Call::Coded(CodeCall::KeyedRead { before, key, text }) => Some(Asked {
            before: before.as_deref(),
            key,
            text,
        }),
        _ => None,
    }
}

/// The MAC line may stand at a line's end.
pub fn line_start_unjudged(call: &Call) -> Option<String> {
    Reader {
        parted: last_line,
        ..HONEST
    }
    .answer(call)
}

/// A MAC line needs a line before it.
pub fn alone_refused(call: &Call) -> Option<String> {
    Reader {
        parted: |text| (HONEST.parted)(text).filter(|(place, _)| *place > 0),
        ..HONEST
    }
    .answer(call)
}

/// The first MAC line counts, whatever comes after it.
pub fn first_line_taken(call: &Call) -> Option<String> {
    Reader {
        parted: |text| {
            let places = (0..text.len()).filter(|place| begins_line(text, *place));
            let mut whole = places.filter(|place| place + 69 <= text.len());
            whole.find_map(|place| last_line(&text[..place + 69]))
        },
        ..HONEST
    }
    .answer(call)
}

/// The code goes over the MAC line's front too.
pub fn front_covered(call: &Call) -> Option<String> {
    Reader {
        covered: |text, place| text[..place + 4].to_vec(),
        ..HONEST
    }
    .answer(call)
}

/// The code does not go over the LF before the MAC line.
pub fn line_end_uncovered(call: &Call) -> Option<String> {
    Reader {
        covered: |text, place| text[..place.saturating_sub(1)].to_vec(),
        ..HONEST
    }
    .answer(call)
}

/// The code goes over the first line alone.
pub fn first_line_covered(call: &Call) -> Option<String> {
    Reader {
        covered: |text, place| {
            let lines = text[..place].split_inclusive(|byte| *byte == b'\n');
            lines.take(1).flatten().copied().collect()
        },
        ..HONEST
    }
    .answer(call)
}

/// The MAC line is read as a line of the sheet.
pub fn mac_line_read(call: &Call) -> Option<String> {
    Reader {
        sheet: |text, _| text.to_vec(),
        ..HONEST
    }
    .answer(call)
}

/// The sheet is read without the LF of its last line.
pub fn line_end_unread(call: &Call) -> Option<String> {
    Reader {
        sheet: |text, place| text[..place.saturating_sub(1)].to_vec(),
        ..HONEST
    }
    .answer(call)
}

/// The last byte of the code is not compared.
pub fn all_but_last_compared(call: &Call) -> Option<String> {
    Reader {
        same: |one, other| one[..31] == other[..31],
        ..HONEST
    }
    .answer(call)
}

/// The code is not compared.
pub fn code_uncompared(call: &Call) -> Option<String> {
    Reader {
        same: |_, _| true,
        ..HONEST
    }
    .answer(call)
}

/// The empty key is used.
pub fn key_unused(call: &Call) -> Option<String> {
    Reader {
        code: |_, message| code::code_of(b"", message).code,
        ..HONEST
    }
    .answer(call)
}

/// A long key is cut.
pub fn long_key_cut(call: &Call) -> Option<String> {
    Reader {
        code: |key, message| code::code_of(&key[..key.len().min(64)], message).code,
        ..HONEST
    }
    .answer(call)
}

/// The plain digest of the bytes is their code.
pub fn plain_digest(call: &Call) -> Option<String> {
    Reader {
        code: |_, message| hash::digest(message).digest,
        ..HONEST
    }
    .answer(call)
}

/// The text is read as if its last line were another.
fn mended(call: &Call, mend: fn(&mut Vec<u8>)) -> Option<String> {
    let asked = asked(call)?;
    let mut text = asked.text.bytes()?.to_vec();
    mend(&mut text);
    Some(sheet_text(&keyed::read(asked.key.bytes()?, &text)))
}

/// Some bytes of a MAC line at the text's end, counted from its start.
fn in_line(text: &mut [u8], from: usize, to: usize) -> &mut [u8] {
    match text.len().checked_sub(69) {
        Some(place) => &mut text[place + from..place + to],
        None => &mut [],
    }
}

/// Capital digits are taken in the MAC line.
pub fn capitals_taken(call: &Call) -> Option<String> {
    mended(call, |text| in_line(text, 4, 68).make_ascii_lowercase())
}

/// The word may have small letters.
pub fn small_word_taken(call: &Call) -> Option<String> {
    mended(call, |text| in_line(text, 0, 3).make_ascii_uppercase())
}

/// A blank may stand for the tab.
pub fn blank_taken(call: &Call) -> Option<String> {
    mended(call, |text| {
        if let [tab @ b' '] = in_line(text, 3, 4) {
            *tab = b'\t';
        }
    })
}

/// A CR before the last LF is dropped.
pub fn return_taken(call: &Call) -> Option<String> {
    mended(call, |text| {
        if text.ends_with(b"\r\n") {
            text.remove(text.len() - 2);
        }
    })
}

/// The last line needs no LF.
pub fn line_end_not_needed(call: &Call) -> Option<String> {
    mended(call, |text| {
        if !text.ends_with(b"\n") {
            text.push(b'\n');
        }
    })
}

/// Empty lines may follow.
pub fn empty_lines_taken(call: &Call) -> Option<String> {
    mended(call, |text| {
        while text.ends_with(b"\n\n") {
            text.pop();
        }
    })
}

/// What is answered, handed on to be made wrong.
fn after(call: &Call, wrong: fn(&Asked, &mut Sheet)) -> Option<String> {
    let asked = asked(call)?;
    let mut sheet = answer::keyed_read(asked.key, asked.text)?;
    wrong(&asked, &mut sheet);
    Some(sheet_text(&sheet))
}

/// Whether the sheet was never read.
fn unread(sheet: &Sheet) -> bool {
    matches!(sheet.verdict.number, TOO_LONG | NO_MAC_LINE | OTHER_CODE)
}

/// An ill formed MAC line has a code that does not fit.
pub fn code_before_form(call: &Call) -> Option<String> {
    after(call, |_, sheet| {
        if sheet.verdict.number == NO_MAC_LINE {
            sheet.verdict.number = OTHER_CODE;
        }
    })
}

/// The sheet is judged before its code.
pub fn sheet_before_code(call: &Call) -> Option<String> {
    after(call, |asked, sheet| {
        if let (OTHER_CODE, Some(text)) = (sheet.verdict.number, asked.text.bytes()) {
            let judged = sheet::read(&text[..text.len() - 69]);
            if judged.verdict.number != ACCEPTED {
                *sheet = judged;
            }
        }
    })
}

/// A text without a MAC line is judged as a sheet.
pub fn sheet_before_form(call: &Call) -> Option<String> {
    after(call, |asked, sheet| {
        if let (NO_MAC_LINE, Some(text)) = (sheet.verdict.number, asked.text.bytes()) {
            *sheet = sheet::read(text);
        }
    })
}

/// The MAC line is judged before the key.
pub fn form_before_key(call: &Call) -> Option<String> {
    after(call, |asked, sheet| {
        let text = asked.text;
        let ill = text.length() < 69
            || text
                .bytes()
                .is_some_and(|text| (HONEST.parted)(text).is_none());
        if asked.key.length() > LONGEST && ill {
            *sheet = refused(NO_MAC_LINE);
        }
    })
}

/// The number of the text's last line.
fn last_line_number(asked: &Asked) -> u64 {
    let lines = asked
        .text
        .bytes()
        .map(|text| text.split_inclusive(|byte| *byte == b'\n').count());
    lines.unwrap_or_default() as u64
}

/// A missing or ill formed MAC line is named by its number.
pub fn form_has_line(call: &Call) -> Option<String> {
    after(call, |asked, sheet| {
        if sheet.verdict.number == NO_MAC_LINE {
            sheet.verdict.line = last_line_number(asked);
        }
    })
}

/// A MAC line whose code does not fit is named by its number.
pub fn code_has_line(call: &Call) -> Option<String> {
    after(call, |asked, sheet| {
        if sheet.verdict.number == OTHER_CODE {
            sheet.verdict.line = last_line_number(asked);
        }
    })
}

/// A refused key is named by line 1.
pub fn key_has_line(call: &Call) -> Option<String> {
    after(call, |_, sheet| {
        if sheet.verdict.number == TOO_LONG {
            sheet.verdict.line = 1;
        }
    })
}

/// The line of a refused sheet is 0 too.
pub fn sheet_has_no_line(call: &Call) -> Option<String> {
    after(call, |_, sheet| sheet.verdict.line = 0)
}

/// What is refused before the sheet is read leaves the session.
pub fn unread_keeps_session(call: &Call) -> Option<String> {
    after(call, |asked, sheet| {
        if let Some(before) = asked.before.filter(|_| unread(sheet)) {
            sheet.session = *before;
        }
    })
}

/// A refused key leaves the session.
pub fn key_keeps_session(call: &Call) -> Option<String> {
    after(call, |asked, sheet| {
        if let (Some(before), TOO_LONG) = (asked.before, sheet.verdict.number) {
            sheet.session = *before;
        }
    })
}

/// A refused sheet leaves the session.
pub fn refused_keeps_session(call: &Call) -> Option<String> {
    after(call, |asked, sheet| {
        let refused = sheet.verdict.number != ACCEPTED && !unread(sheet);
        if let Some(before) = asked.before.filter(|_| refused) {
            sheet.session = *before;
        }
    })
}

/// What is refused before the sheet is read leaves the counts.
pub fn unread_keeps_counts(call: &Call) -> Option<String> {
    after(call, |asked, sheet| {
        if let Some(before) = asked.before.filter(|_| unread(sheet)) {
            (sheet.session.listed, sheet.session.open) = (before.listed, before.open);
        }
    })
}

/// An accepted sheet leaves the open count that stood there.
pub fn accepted_keeps_open(call: &Call) -> Option<String> {
    after(call, |asked, sheet| {
        if let (Some(before), ACCEPTED) = (asked.before, sheet.verdict.number) {
            sheet.session.open = before.open;
        }
    })
}

/// A code that does not fit leaves the notes listed.
pub fn unfit_lists(call: &Call) -> Option<String> {
    after(call, |asked, sheet| {
        if let (OTHER_CODE, Some(text)) = (sheet.verdict.number, asked.text.bytes()) {
            sheet.session = sheet::read(&text[..text.len() - 69]).session;
        }
    })
}

/// An empty key is refused.
pub fn empty_key_refused(call: &Call) -> Option<String> {
    after(call, |asked, sheet| {
        if asked.key.length() == 0 {
            *sheet = refused(TOO_LONG);
        }
    })
}
