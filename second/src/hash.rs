//! The hash state, the one-call digest and the comparisons.

use crate::padding;
use crate::refusal::{ACCEPTED, STATE_NOT_IN_ORDER, TOO_LONG, WRONG_SIZE};
use crate::sm3;

/// A hash state. Every field is free: a state may be handed in with any
/// content, and whether it is in order is judged by each call.
#[derive(Clone, Copy, Debug, PartialEq, Eq)]
pub struct State {
    pub words: [u32; 8],
    pub total: u64,
    pub tail: [u8; 64],
}

/// A number and a digest, all zero when refused.
#[derive(Clone, Copy, Debug, PartialEq, Eq)]
pub struct Digested {
    pub number: u8,
    pub digest: [u8; 32],
}

/// A number and a comparison, no when refused.
#[derive(Clone, Copy, Debug, PartialEq, Eq)]
pub struct Compared {
    pub number: u8,
    pub same: bool,
}

impl State {
    /// The state of a message of which nothing was taken yet.
    pub const fn fresh() -> State {
        State {
            words: sm3::START,
            total: 0,
            tail: [0; 64],
        }
    }

    /// Whether the total is allowed and the tail bytes after the kept ones are
    /// zero. The words are free.
    pub fn in_order(&self) -> bool {
        self.total <= padding::LONGEST && self.tail[self.kept()..].iter().all(|byte| *byte == 0)
    }

    /// The number of an update by a piece of this length.
    pub fn update_number(&self, piece_length: u64) -> u8 {
        if !self.in_order() {
            return STATE_NOT_IN_ORDER;
        }
        if u128::from(self.total) + u128::from(piece_length) > u128::from(padding::LONGEST) {
            return TOO_LONG;
        }
        ACCEPTED
    }

    /// Takes a piece, or refuses it and stays the same.
    pub fn update(&mut self, piece: &[u8]) -> u8 {
        let number = self.update_number(piece.len() as u64);
        if number != ACCEPTED {
            return number;
        }
        let mut bytes = self.tail[..self.kept()].to_vec();
        bytes.extend_from_slice(piece);
        let (blocks, rest) = bytes.split_at(bytes.len() - bytes.len() % 64);
        self.words = sm3::fold(&self.words, blocks);
        self.total += piece.len() as u64;
        self.tail = [0; 64];
        self.tail[..rest.len()].copy_from_slice(rest);
        ACCEPTED
    }

    /// The digest of what was taken; the state is left as it was.
    pub fn finish(&self) -> Digested {
        if !self.in_order() {
            return refused_digest(STATE_NOT_IN_ORDER);
        }
        let mut bytes = self.tail[..self.kept()].to_vec();
        bytes.extend_from_slice(&padding::added(self.total));
        Digested {
            number: ACCEPTED,
            digest: sm3::to_bytes(&sm3::fold(&self.words, &bytes)),
        }
    }

    /// The number of a comparison with an expected digest of this length.
    pub fn compare_number(&self, expected_length: u64) -> u8 {
        if !self.in_order() {
            return STATE_NOT_IN_ORDER;
        }
        expected_number(expected_length)
    }

    /// Compares the digest of what was taken with an expected one.
    pub fn compare(&self, expected: &[u8]) -> Compared {
        let number = self.compare_number(expected.len() as u64);
        if number != ACCEPTED {
            return refused_comparison(number);
        }
        compare_digest(&self.finish().digest, expected)
    }

    fn kept(&self) -> usize {
        (self.total % 64) as usize
    }
}

/// The digest of a whole message. It goes over the padded message and not
/// through a state, so that the two ways can be held against each other.
pub fn digest(message: &[u8]) -> Digested {
    let number = padding::length_number(message.len() as u64);
    if number != ACCEPTED {
        return refused_digest(number);
    }
    let words = sm3::fold(&sm3::START, &padding::padded(message));
    Digested {
        number: ACCEPTED,
        digest: sm3::to_bytes(&words),
    }
}

/// The number of a one-call comparison, which lengths alone decide.
pub fn compare_number(message_length: u64, expected_length: u64) -> u8 {
    let number = padding::length_number(message_length);
    if number != ACCEPTED {
        return number;
    }
    expected_number(expected_length)
}

/// Compares the digest of a whole message with an expected one.
pub fn compare(message: &[u8], expected: &[u8]) -> Compared {
    let number = compare_number(message.len() as u64, expected.len() as u64);
    if number != ACCEPTED {
        return refused_comparison(number);
    }
    compare_digest(&digest(message).digest, expected)
}

/// The number of an expected digest, or code, by its length.
pub fn expected_number(length: u64) -> u8 {
    if length == 32 {
        ACCEPTED
    } else {
        WRONG_SIZE
    }
}

/// Compares a digest, or a code, with an expected one.
pub fn compare_digest(digest: &[u8; 32], expected: &[u8]) -> Compared {
    Compared {
        number: ACCEPTED,
        same: digest[..] == *expected,
    }
}

/// What a refused call for a digest answers.
pub fn refused_digest(number: u8) -> Digested {
    Digested {
        number,
        digest: [0; 32],
    }
}

/// What a refused comparison answers.
pub fn refused_comparison(number: u8) -> Compared {
    Compared {
        number,
        same: false,
    }
}
