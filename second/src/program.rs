//! The program: reads a folder's sheet and samples, and says what became of
//! each note.

use crate::refusal::ACCEPTED;
use crate::session::{Session, NONE, NOTES, OPEN, SHUT, WAITING};
use crate::sheet::{self, Verdict};
use std::fs::File;
use std::io::{ErrorKind, Read};
use std::path::Path;

/// Bytes in a full piece of a sample, and the most that is read of a sheet.
pub const PIECE: usize = 4096;

/// Everything the program prints for a folder.
pub fn load(folder: &Path) -> Vec<u8> {
    let text = read_text(&folder.join("rank.txt"));
    let sheet = sheet::read(&text);
    if sheet.verdict.number != ACCEPTED {
        return refused(&sheet.verdict);
    }
    let mut session = sheet.session;
    let mut printed = String::new();
    for note in 1..=NOTES {
        if session.slots[note as usize - 1].status == NONE {
            continue;
        }
        deliver_file(&mut session, note, folder);
        let answer = session.ask(note);
        let said = word(answer.status);
        printed.push_str(&format!("{note}\t{said}\t{}\n", answer.taken));
    }
    printed.into_bytes()
}

/// The one line that is printed for a refused sheet.
pub fn refused(verdict: &Verdict) -> Vec<u8> {
    format!("refused\t{}\t{}\n", verdict.number, verdict.line).into_bytes()
}

/// How the program says a status.
pub fn word(status: u8) -> &'static str {
    match status {
        WAITING => "waiting",
        OPEN => "open",
        SHUT => "shut",
        other => unreachable!("an accepted sheet gives no status {other}"),
    }
}

/// The sheet's text: a file that cannot be opened is an empty one.
fn read_text(path: &Path) -> Vec<u8> {
    match File::open(path) {
        Ok(mut file) => read_piece(&mut file),
        Err(_) => Vec::new(),
    }
}

/// Delivers a note's file up to its end or its first refusal.
fn deliver_file(session: &mut Session, note: u64, folder: &Path) {
    let Ok(mut file) = File::open(folder.join(format!("{note:02}.raw"))) else {
        return;
    };
    loop {
        let piece = read_piece(&mut file);
        // Nothing left after full pieces: no empty piece is delivered.
        if piece.is_empty() || session.deliver(note, &piece).number != ACCEPTED {
            return;
        }
        if piece.len() < PIECE {
            return;
        }
    }
}

/// A full piece, or what was left before the end. One read may give less than
/// was asked for, so it reads until the piece is full. An error is the end.
fn read_piece(source: &mut impl Read) -> Vec<u8> {
    let mut piece = vec![0; PIECE];
    let mut filled = 0;
    while filled < PIECE {
        match source.read(&mut piece[filled..]) {
            Ok(0) => break,
            Ok(count) => filled += count,
            // A signal came in between: nothing was read and nothing failed.
            Err(error) if error.kind() == ErrorKind::Interrupted => continue,
            Err(_) => break,
        }
    }
    piece.truncate(filled);
    piece
}

#[cfg(test)]
mod tests {
    use super::{read_piece, PIECE};
    use std::io::{Error, ErrorKind, Read};

    /// Gives its steps one by one: some bytes, or an error.
    struct Steps(Vec<Result<usize, ErrorKind>>);

    impl Read for Steps {
        fn read(&mut self, buffer: &mut [u8]) -> std::io::Result<usize> {
            if self.0.is_empty() {
                return Ok(0);
            }
            match self.0.remove(0) {
                Ok(count) => {
                    buffer[..count].fill(7);
                    Ok(count)
                }
                Err(kind) => Err(Error::from(kind)),
            }
        }
    }

    #[test]
    fn short_reads_are_joined_to_a_full_piece() {
        let mut source = Steps(vec![Ok(1), Ok(4000), Ok(95), Ok(3)]);
        assert_eq!(read_piece(&mut source), vec![7; PIECE]);
        assert_eq!(read_piece(&mut source), vec![7; 3]);
        assert_eq!(read_piece(&mut source), Vec::<u8>::new());
    }

    #[test]
    fn an_error_ends_the_piece_and_keeps_what_came_before() {
        let mut source = Steps(vec![Ok(10), Err(ErrorKind::PermissionDenied)]);
        assert_eq!(read_piece(&mut source), vec![7; 10]);
    }

    #[test]
    fn an_interruption_is_no_end() {
        let mut source = Steps(vec![Ok(10), Err(ErrorKind::Interrupted), Ok(5)]);
        assert_eq!(read_piece(&mut source), vec![7; 15]);
    }
}
