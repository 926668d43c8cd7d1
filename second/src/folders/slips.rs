//! Copies of the program, each with one mistake, to show that the comparison
//! of folders finds it. Nothing else uses them.

use crate::folders::loop_rules as rule;
use crate::program::{self, PIECE};
use crate::refusal::{ACCEPTED, DECIDED, PAST_LENGTH};
use crate::session::{Answer, Session, NOTES, WAITING};
use crate::sheet::{self, Sheet};
use std::path::Path;

/// A mistaken program: the places where the copies go wrong.
pub struct Slip {
    pub name: &'static str,
    read: fn(&[u8]) -> Sheet,
    deliver: fn(&mut Session, u64, &[u8]) -> Answer,
    /// Whether a file stops at its first refusal.
    stops: bool,
    /// The pieces of a file that are read at most.
    pieces: usize,
}

/// Every slip.
pub const SLIPS: [Slip; 15] = [
    Slip {
        name: "loop-below",
        read: |text| rule::read(text, rule::below),
        ..HONEST
    },
    Slip {
        name: "loop-old",
        read: |text| rule::read(text, rule::old),
        ..HONEST
    },
    Slip {
        name: "loop-one-frame-refused",
        read: |text| rule::read(text, rule::one_frame_refused),
        ..HONEST
    },
    Slip {
        name: "loop-frame-beyond",
        read: |text| rule::read(text, rule::frame_beyond),
        ..HONEST
    },
    Slip {
        name: "loop-unhalved",
        read: |text| rule::read(text, rule::unhalved),
        ..HONEST
    },
    Slip {
        name: "loop-wrapped",
        read: |text| rule::read(text, rule::wrapped),
        ..HONEST
    },
    // What a sheet has accepted, the laxer rules allow in its slot too.
    Slip {
        name: "slot-loop-old",
        deliver: |session, note, piece| rule::deliver(session, note, piece, rule::old),
        ..HONEST
    },
    Slip {
        name: "after-refusal",
        stops: false,
        ..HONEST
    },
    Slip {
        name: "part-taken",
        deliver: part_taken,
        ..HONEST
    },
    Slip {
        name: "decision-taken-back",
        deliver: decision_taken_back,
        ..HONEST
    },
    Slip {
        name: "1024-pieces",
        pieces: 1024,
        ..HONEST
    },
    Slip {
        name: "last-line-unended",
        read: last_line_unended,
        ..HONEST
    },
    Slip {
        name: "carriage-returns",
        read: carriage_returns,
        ..HONEST
    },
    Slip {
        name: "text-after",
        read: text_after,
        ..HONEST
    },
    Slip {
        name: "line-from-zero",
        read: line_from_zero,
        ..HONEST
    },
];

const HONEST: Slip = Slip {
    name: "",
    read: sheet::read,
    deliver: Session::deliver,
    stops: true,
    pieces: usize::MAX,
};

impl Slip {
    /// Everything the mistaken program prints for a folder.
    pub fn load(&self, folder: &Path) -> Vec<u8> {
        let text = std::fs::read(folder.join("rank.txt")).unwrap_or_default();
        let sheet = (self.read)(&text[..text.len().min(PIECE)]);
        if sheet.verdict.number != ACCEPTED {
            return program::refused(&sheet.verdict);
        }
        let mut session = sheet.session;
        let mut printed = String::new();
        for note in (1..=NOTES).filter(|note| sheet.session.ask(*note).number == ACCEPTED) {
            let file = folder.join(format!("{note:02}.raw"));
            let bytes = std::fs::read(file).unwrap_or_default();
            for piece in bytes.chunks(PIECE).take(self.pieces) {
                let number = (self.deliver)(&mut session, note, piece).number;
                if number != ACCEPTED && self.stops {
                    break;
                }
            }
            let answer = session.ask(note);
            let word = program::word(answer.status);
            printed.push_str(&format!("{note}\t{word}\t{}\n", answer.taken));
        }
        printed.into_bytes()
    }
}

/// What fits of a refused piece is taken, and decides the note.
pub fn part_taken(session: &mut Session, note: u64, piece: &[u8]) -> Answer {
    let answer = session.deliver(note, piece);
    if answer.number != PAST_LENGTH {
        return answer;
    }
    let slot = &session.slots[note as usize - 1];
    let fits = (slot.record.length - slot.state.total) as usize;
    Answer {
        number: PAST_LENGTH,
        ..session.deliver(note, &piece[..fits])
    }
}

/// A piece for a decided note takes the decision back.
fn decision_taken_back(session: &mut Session, note: u64, piece: &[u8]) -> Answer {
    let answer = session.deliver(note, piece);
    if answer.number == DECIDED {
        session.slots[note as usize - 1].status = WAITING;
    }
    answer
}

/// The last line is taken without its LF.
fn last_line_unended(text: &[u8]) -> Sheet {
    let mut text = text.to_vec();
    if !text.is_empty() && !text.ends_with(b"\n") {
        text.push(b'\n');
    }
    sheet::read(&text)
}

/// CR LF is taken for LF.
fn carriage_returns(text: &[u8]) -> Sheet {
    let lines: Vec<&[u8]> = text
        .split(|byte| *byte == b'\n')
        .map(|line| line.strip_suffix(b"\r").unwrap_or(line))
        .collect();
    sheet::read(&lines.join(&b'\n'))
}

/// Text after the notes is not seen.
fn text_after(text: &[u8]) -> Sheet {
    let judged = sheet::read(text);
    let mut read = 0;
    for _ in 1..judged.verdict.line {
        read += text[read..]
            .iter()
            .position(|byte| *byte == b'\n')
            .map_or(0, |end| end + 1);
    }
    let cut = sheet::read(&text[..read]);
    if cut.verdict.number == ACCEPTED {
        cut
    } else {
        judged
    }
}

/// A refused line is counted from 0.
fn line_from_zero(text: &[u8]) -> Sheet {
    let mut sheet = sheet::read(text);
    sheet.verdict.line = sheet.verdict.line.saturating_sub(1);
    sheet
}
