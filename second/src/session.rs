//! The loading session: 32 slots and two counts, deliveries and questions.

use crate::hash::State;
use crate::refusal::{ACCEPTED, DECIDED, PAST_LENGTH, SLOT_NOT_IN_ORDER, UNLISTED};

/// Statuses a slot may have. Any other counts as listed and not in order.
pub const NONE: u8 = 0;
pub const WAITING: u8 = 1;
pub const OPEN: u8 = 2;
pub const SHUT: u8 = 3;

/// How many notes there are.
pub const NOTES: u64 = 32;

/// The longest sample in bytes.
pub const LONGEST_SAMPLE: u64 = 4294967294;

/// What a sheet's line says of a note. Length in bytes, loop in frames.
#[derive(Clone, Copy, Debug, PartialEq, Eq)]
pub struct Record {
    pub length: u64,
    pub loop_start: u64,
    pub loop_end: u64,
    pub digest: [u8; 32],
}

/// A note's place in the session. Every field is free.
#[derive(Clone, Copy, Debug, PartialEq, Eq)]
pub struct Slot {
    pub record: Record,
    pub state: State,
    pub status: u8,
}

/// The slot of note 1 is the first. The counts are as free as the slots: a
/// stored session may hold any two, whatever its slots say.
#[derive(Clone, Copy, Debug, PartialEq, Eq)]
pub struct Session {
    pub slots: [Slot; NOTES as usize],
    /// How many notes are listed.
    pub listed: u8,
    /// How many notes are open.
    pub open: u8,
}

/// A number, a status, and bytes taken.
#[derive(Clone, Copy, Debug, PartialEq, Eq)]
pub struct Answer {
    pub number: u8,
    pub status: u8,
    pub taken: u64,
}

impl Record {
    /// The record of a slot that lists no note.
    pub const ZERO: Record = Record {
        length: 0,
        loop_start: 0,
        loop_end: 0,
        digest: [0; 32],
    };

    /// Rule 3: even, 2 to 4294967294.
    pub fn length_allowed(&self) -> bool {
        self.length.is_multiple_of(2) && (2..=LONGEST_SAMPLE).contains(&self.length)
    }

    /// Rule 4: start <= end < length/2, two bytes being one frame and the end
    /// the last frame played.
    pub fn loop_allowed(&self) -> bool {
        self.loop_start <= self.loop_end && self.loop_end < self.length / 2
    }
}

impl Slot {
    /// The slot of a note that is not listed.
    pub const UNLISTED: Slot = Slot {
        record: Record::ZERO,
        state: State::fresh(),
        status: NONE,
    };

    /// Whether a listed slot is in order.
    pub fn in_order(&self) -> bool {
        if !self.record.length_allowed() || !self.record.loop_allowed() {
            return false;
        }
        match self.status {
            WAITING => self.state.in_order() && self.state.total < self.record.length,
            OPEN | SHUT => self.state == State::fresh(),
            _ => false,
        }
    }

    fn taken(&self) -> u64 {
        if self.status == WAITING {
            self.state.total
        } else {
            self.record.length
        }
    }

    /// A delivery to a slot that is listed and in order.
    fn deliver(&mut self, piece: &[u8]) -> u8 {
        if self.status != WAITING {
            return DECIDED;
        }
        if exceeds(self.state.total, piece.len() as u64, self.record.length) {
            return PAST_LENGTH;
        }
        let number = self.state.update(piece);
        assert_eq!(number, ACCEPTED, "a slot in order takes what fits");
        if self.state.total == self.record.length {
            self.decide();
        }
        ACCEPTED
    }

    fn decide(&mut self) {
        let same = self.state.finish().digest == self.record.digest;
        self.status = if same { OPEN } else { SHUT };
        self.state = State::fresh();
    }
}

impl Session {
    /// A session that lists no note.
    pub const fn unlisted() -> Session {
        Session {
            slots: [Slot::UNLISTED; NOTES as usize],
            listed: 0,
            open: 0,
        }
    }

    /// Lists a note of 1..32 that is not listed yet, waiting, with its record.
    pub fn list(&mut self, note: u64, record: Record) {
        let place = Session::place(note).expect("the sheet's rule 2 is judged before");
        self.slots[place] = Slot {
            record,
            state: State::fresh(),
            status: WAITING,
        };
        self.listed += 1;
    }

    /// Delivers a piece to a note.
    pub fn deliver(&mut self, note: u64, piece: &[u8]) -> Answer {
        match self.usable(note) {
            Err(number) => refused(number),
            Ok(place) => {
                let number = self.slots[place].deliver(piece);
                let answer = self.answer(number, place);
                // What is accepted came to a note that was waiting.
                if answer.number == ACCEPTED && answer.status == OPEN {
                    self.count_open();
                }
                answer
            }
        }
    }

    /// One note more is open. No session has more than 32: a stored count of so
    /// many, or of more, stays.
    fn count_open(&mut self) {
        if u64::from(self.open) < NOTES {
            self.open += 1;
        }
    }

    /// Asks for a note's status and the bytes taken.
    pub fn ask(&self, note: u64) -> Answer {
        match self.usable(note) {
            Err(number) => refused(number),
            Ok(place) => self.answer(ACCEPTED, place),
        }
    }

    /// Whether every listed note is open, by the two counts alone.
    pub fn ready(&self) -> bool {
        self.listed == self.open && self.listed != 0
    }

    /// The place of a listed slot in order, or what refuses it.
    fn usable(&self, note: u64) -> Result<usize, u8> {
        let place = Session::place(note).ok_or(UNLISTED)?;
        if self.slots[place].status == NONE {
            return Err(UNLISTED);
        }
        if !self.slots[place].in_order() {
            return Err(SLOT_NOT_IN_ORDER);
        }
        Ok(place)
    }

    /// The note is judged before it is cut down to an index.
    fn place(note: u64) -> Option<usize> {
        (1..=NOTES).contains(&note).then(|| note as usize - 1)
    }

    fn answer(&self, number: u8, place: usize) -> Answer {
        Answer {
            number,
            status: self.slots[place].status,
            taken: self.slots[place].taken(),
        }
    }
}

/// Whether taken and piece together pass the length.
pub fn exceeds(taken: u64, piece_length: u64, length: u64) -> bool {
    u128::from(taken) + u128::from(piece_length) > u128::from(length)
}

fn refused(number: u8) -> Answer {
    Answer {
        number,
        status: NONE,
        taken: 0,
    }
}
