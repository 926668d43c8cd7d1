//! The code of a message under a key: HMAC as RFC 2104 defines it, over SM3,
//! with blocks of 64 bytes and codes of 32.
//!
//! What depends on lengths alone is worked out by functions over a `u64`, so
//! that lengths no machine can hold are tested too.

use crate::hash::{self, Compared, State};
use crate::padding::{self, LONGEST};
use crate::refusal::{ACCEPTED, STATE_NOT_IN_ORDER, TOO_LONG};

/// Bytes in a block, and so in a key that a pad is laid over.
pub const BLOCK: u64 = 64;

/// The longest message: with the inner block before it, it is still hashed.
pub const LONGEST_MESSAGE: u64 = LONGEST - BLOCK;

const INNER_PAD: u8 = 0x36;
const OUTER_PAD: u8 = 0x5c;

/// A code state: the hash that goes over the message, and the one that then
/// goes over the first one's digest. Every field is free, as in a hash state.
#[derive(Clone, Copy, Debug, PartialEq, Eq)]
pub struct CodeState {
    pub inner: State,
    pub outer: State,
}

/// A number and the state of a key, of the empty one when refused.
#[derive(Clone, Copy, Debug, PartialEq, Eq)]
pub struct Started {
    pub number: u8,
    pub state: CodeState,
}

/// A number and a code, all zero when refused.
#[derive(Clone, Copy, Debug, PartialEq, Eq)]
pub struct Coded {
    pub number: u8,
    pub code: [u8; 32],
}

impl CodeState {
    /// The state of a key of any length that is allowed.
    fn of_key(key: &[u8]) -> CodeState {
        let block = key_block(key);
        CodeState {
            inner: begun(&under(&block, INNER_PAD)),
            outer: begun(&under(&block, OUTER_PAD)),
        }
    }

    /// Whether both are in order, the inner has taken its block and the outer
    /// nothing but its own. The words are free.
    pub fn in_order(&self) -> bool {
        self.inner.in_order()
            && self.outer.in_order()
            && self.inner.total >= BLOCK
            && self.outer.total == BLOCK
    }

    /// The number of an update by a piece of this length. The inner total has
    /// the inner block in it already.
    pub fn update_number(&self, piece_length: u64) -> u8 {
        if !self.in_order() {
            return STATE_NOT_IN_ORDER;
        }
        self.inner.update_number(piece_length)
    }

    /// Takes a piece of the message, or refuses it and stays the same.
    pub fn update(&mut self, piece: &[u8]) -> u8 {
        let number = self.update_number(piece.len() as u64);
        if number != ACCEPTED {
            return number;
        }
        self.inner.update(piece)
    }

    /// The code of what was taken; the state is left as it was.
    pub fn finish(&self) -> Coded {
        if !self.in_order() {
            return refused_code(STATE_NOT_IN_ORDER);
        }
        let mut outer = self.outer;
        let number = outer.update(&self.inner.finish().digest);
        assert_eq!(number, ACCEPTED, "64 bytes leave room for 32");
        accepted_code(outer.finish().digest)
    }

    /// The number of a comparison with an expected code of this length.
    pub fn compare_number(&self, expected_length: u64) -> u8 {
        if !self.in_order() {
            return STATE_NOT_IN_ORDER;
        }
        hash::expected_number(expected_length)
    }

    /// Compares the code of what was taken with an expected one.
    pub fn compare(&self, expected: &[u8]) -> Compared {
        match self.compare_number(expected.len() as u64) {
            ACCEPTED => hash::compare_digest(&self.finish().code, expected),
            refused => hash::refused_comparison(refused),
        }
    }
}

/// The number of a key by its length: none is too short.
pub fn key_number(key_length: u64) -> u8 {
    padding::length_number(key_length)
}

/// The state of a key of which no message byte was taken yet.
pub fn start(key: &[u8]) -> Started {
    match key_number(key.len() as u64) {
        ACCEPTED => Started {
            number: ACCEPTED,
            state: CodeState::of_key(key),
        },
        refused => refused_start(refused),
    }
}

/// The number of a one-call code: of the key first, then of the message.
pub fn number_of(key_length: u64, message_length: u64) -> u8 {
    let number = key_number(key_length);
    if number == ACCEPTED && message_length > LONGEST_MESSAGE {
        return TOO_LONG;
    }
    number
}

/// The code of a whole message. It is made by the RFC's formula and not
/// through a state, so that the two ways can be held against each other.
pub fn code_of(key: &[u8], message: &[u8]) -> Coded {
    let number = number_of(key.len() as u64, message.len() as u64);
    if number != ACCEPTED {
        return refused_code(number);
    }
    let block = key_block(key);
    let inner = hash::digest(&[&under(&block, INNER_PAD), message].concat());
    let outer = hash::digest(&[&under(&block, OUTER_PAD)[..], &inner.digest].concat());
    accepted_code(outer.digest)
}

/// The number of a one-call comparison, which lengths alone decide.
pub fn compare_number(key_length: u64, message_length: u64, expected_length: u64) -> u8 {
    match number_of(key_length, message_length) {
        ACCEPTED => hash::expected_number(expected_length),
        refused => refused,
    }
}

/// Compares the code of a whole message with an expected one.
pub fn compare(key: &[u8], message: &[u8], expected: &[u8]) -> Compared {
    let lengths = [key, message, expected].map(|bytes| bytes.len() as u64);
    match compare_number(lengths[0], lengths[1], lengths[2]) {
        ACCEPTED => hash::compare_digest(&code_of(key, message).code, expected),
        refused => hash::refused_comparison(refused),
    }
}

/// The key with zeros behind it, as long as a block; a longer one's digest with
/// zeros behind that.
fn key_block(key: &[u8]) -> [u8; BLOCK as usize] {
    let mut block = [0; BLOCK as usize];
    if key.len() as u64 > BLOCK {
        block[..32].copy_from_slice(&hash::digest(key).digest);
    } else {
        block[..key.len()].copy_from_slice(key);
    }
    block
}

/// The block with this byte laid over each of its bytes.
fn under(block: &[u8; BLOCK as usize], pad: u8) -> [u8; BLOCK as usize] {
    block.map(|byte| byte ^ pad)
}

fn begun(block: &[u8]) -> State {
    let mut state = State::fresh();
    let number = state.update(block);
    assert_eq!(number, ACCEPTED, "a fresh state takes a block");
    state
}

fn accepted_code(code: [u8; 32]) -> Coded {
    Coded {
        number: ACCEPTED,
        code,
    }
}

/// What a refused call for a code answers.
pub fn refused_code(number: u8) -> Coded {
    Coded {
        number,
        code: [0; 32],
    }
}

/// What a refused start answers.
pub fn refused_start(number: u8) -> Started {
    Started {
        number,
        state: CodeState::of_key(b""),
    }
}
