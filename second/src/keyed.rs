//! The keyed sheet reader: a sheet that ends with one more line, the code of
//! all bytes before that line.

use crate::code;
use crate::refusal::{ACCEPTED, NO_MAC_LINE, OTHER_CODE};
use crate::session::Session;
use crate::sheet::{self, Sheet, Verdict};

/// Bytes in the last line: `MAC`, tab, 64 hex characters, LF.
pub const MAC_LINE: u64 = 69;

/// Reads a keyed sheet: the key, the MAC line, the text's length and its code
/// are judged before the sheet.
pub fn read(key: &[u8], text: &[u8]) -> Sheet {
    match coded_bytes(key, text) {
        Ok(bytes) => sheet::read(bytes),
        Err(number) => refused(number),
    }
}

/// What is refused before the sheet is read has no line, and lists no note.
pub fn refused(number: u8) -> Sheet {
    Sheet {
        verdict: Verdict { number, line: 0 },
        session: Session::unlisted(),
    }
}

/// The number of a text by its length: one that has no room for a MAC line.
pub fn text_number(text_length: u64) -> u8 {
    if text_length < MAC_LINE {
        NO_MAC_LINE
    } else {
        ACCEPTED
    }
}

/// The bytes before the MAC line, if its code is theirs.
fn coded_bytes<'a>(key: &[u8], text: &'a [u8]) -> Result<&'a [u8], u8> {
    let number = code::key_number(key.len() as u64);
    if number != ACCEPTED {
        return Err(number);
    }
    let (before, mac) = parted(text).ok_or(NO_MAC_LINE)?;
    // Of the numbers only that of a text that is too long is left.
    let compared = code::compare(key, before, &mac);
    match (compared.number, compared.same) {
        (ACCEPTED, true) => Ok(before),
        (ACCEPTED, false) => Err(OTHER_CODE),
        (refused, _) => Err(refused),
    }
}

/// The bytes before the MAC line and the code in it, if the text ends with a
/// whole one. It begins a line: else it would be the end of another.
fn parted(text: &[u8]) -> Option<(&[u8], [u8; 32])> {
    let place = text.len().checked_sub(MAC_LINE as usize)?;
    let (before, line) = text.split_at(place);
    let begins = before.is_empty() || before.ends_with(b"\n");
    let digits = line.strip_prefix(b"MAC\t")?.strip_suffix(b"\n")?;
    let mac = sheet::digest_bytes(digits)?;
    begins.then_some((before, mac))
}
