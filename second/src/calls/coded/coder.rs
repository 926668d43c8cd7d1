//! A copy of the code's making, in which the mistakes with codes are made.

use crate::calls::answer::comparison_text;
use crate::calls::call::Call;
use crate::calls::coded::answer::{code_text, updated_text};
use crate::calls::coded::CodeCall;
use crate::calls::values::Lent;
use crate::code::{CodeState, Coded, LONGEST_MESSAGE};
use crate::hash::{self, Compared, State};
use crate::padding::{self, LONGEST};
use crate::refusal::{ACCEPTED, STATE_NOT_IN_ORDER, TOO_LONG, WRONG_SIZE};
use crate::sm3;

/// The places where the mistaken ones go wrong.
pub struct Coder {
    /// What the pads are laid over.
    pub block: fn(&[u8]) -> [u8; 64],
    pub pads: [u8; 2],
    pub in_order: fn(&CodeState) -> bool,
    pub shortest_key: u64,
    /// The longest inner total that an update may lead to, and the longest
    /// message of the one-call forms.
    pub longest_total: u64,
    pub longest_message: u64,
    /// The refusals in the order in which they are judged.
    pub order: [u8; 3],
    pub refused_start: fn() -> CodeState,
}

pub const HONEST: Coder = Coder {
    block: |key| in_front(&hashed_above(64, key)),
    pads: [0x36, 0x5c],
    in_order: CodeState::in_order,
    shortest_key: 0,
    longest_total: LONGEST,
    longest_message: LONGEST_MESSAGE,
    order: [STATE_NOT_IN_ORDER, TOO_LONG, WRONG_SIZE],
    refused_start: || HONEST.start(b""),
};

impl Coder {
    pub fn answer(&self, call: &Call) -> Option<String> {
        let call = asked(call)?;
        let number = self.number(call);
        match call {
            CodeCall::Start { key } => {
                let state = match number {
                    ACCEPTED => self.start(key.bytes()?),
                    _ => (self.refused_start)(),
                };
                Some(updated_text(number, &state))
            }
            CodeCall::Update { state, piece, .. } => {
                let mut after = **state;
                if number == ACCEPTED {
                    after.inner = taken(&after.inner, piece.bytes()?);
                }
                Some(updated_text(number, &after))
            }
            _ => match number {
                ACCEPTED => code_answer(call, &self.code(call)?),
                _ => Some(refused(call, number)),
            },
        }
    }

    pub fn number(&self, call: &CodeCall) -> u8 {
        let refused = |number: &u8| match *number {
            STATE_NOT_IN_ORDER => state(call).is_some_and(|state| !(self.in_order)(state)),
            TOO_LONG => self.too_long(call),
            _ => expected(call).is_some_and(|expected| expected.length() != 32),
        };
        self.order.into_iter().find(refused).unwrap_or(ACCEPTED)
    }

    fn too_long(&self, call: &CodeCall) -> bool {
        let refused = |key: &Lent| key.length() > LONGEST || key.length() < self.shortest_key;
        match call {
            CodeCall::Start { key } => refused(key),
            CodeCall::Of { key, message } | CodeCall::CompareOf { key, message, .. } => {
                refused(key) || message.length() > self.longest_message
            }
            CodeCall::Update { state, piece, .. } => {
                let sum = u128::from(state.inner.total) + u128::from(piece.length());
                sum > u128::from(self.longest_total)
            }
            _ => false,
        }
    }

    pub fn start(&self, key: &[u8]) -> CodeState {
        let block = (self.block)(key);
        let [inner, outer] = self.pads.map(|pad| {
            let padded = block.map(|byte| byte ^ pad);
            taken(&State::fresh(), &padded)
        });
        CodeState { inner, outer }
    }

    /// The code of a call that has one.
    pub fn code(&self, call: &CodeCall) -> Option<[u8; 32]> {
        let state = match call {
            CodeCall::Of { key, message } | CodeCall::CompareOf { key, message, .. } => {
                let mut state = self.start(key.bytes()?);
                state.inner = taken(&state.inner, message.bytes()?);
                state
            }
            _ => *state(call)?,
        };
        Some(ended(&taken(&state.outer, &ended(&state.inner))))
    }
}

pub fn asked(call: &Call) -> Option<&CodeCall> {
    match call {
        Call::Coded(CodeCall::KeyedRead { .. }) => None,
        Call::Coded(call) => Some(call),
        _ => None,
    }
}

pub fn state(call: &CodeCall) -> Option<&CodeState> {
    match call {
        CodeCall::Update { state, .. } | CodeCall::Finish { state } => Some(state),
        CodeCall::CompareState { state, .. } => Some(state),
        _ => None,
    }
}

pub fn expected(call: &CodeCall) -> Option<&Lent> {
    match call {
        CodeCall::CompareState { expected, .. } | CodeCall::CompareOf { expected, .. } => {
            Some(expected)
        }
        _ => None,
    }
}

pub fn compared(same: bool) -> String {
    comparison_text(Compared {
        number: ACCEPTED,
        same,
    })
}

/// What an accepted call answers by this code, alone or beside the expected one.
pub fn code_answer(call: &CodeCall, code: &[u8; 32]) -> Option<String> {
    match expected(call) {
        Some(expected) => Some(compared(code[..] == *expected.bytes()?)),
        None => Some(code_text(Coded {
            number: ACCEPTED,
            code: *code,
        })),
    }
}

/// What a refused call for a code or a comparison answers.
fn refused(call: &CodeCall, number: u8) -> String {
    match expected(call) {
        Some(_) => comparison_text(hash::refused_comparison(number)),
        None => code_text(Coded {
            number,
            code: [0; 32],
        }),
    }
}

/// A hash state after a piece, whether it is in order or not.
pub fn taken(state: &State, piece: &[u8]) -> State {
    let kept = (state.total % 64) as usize;
    let bytes = [&state.tail[..kept], piece].concat();
    let (blocks, rest) = bytes.split_at(bytes.len() / 64 * 64);
    let mut after = State {
        words: sm3::fold(&state.words, blocks),
        total: state.total.wrapping_add(piece.len() as u64),
        tail: [0; 64],
    };
    after.tail[..rest.len()].copy_from_slice(rest);
    after
}

/// A hash state's digest, whether it is in order or not: its length in bits is
/// cut to 64 of them.
pub fn ended(state: &State) -> [u8; 32] {
    let kept = (state.total % 64) as usize;
    let bytes = [
        &state.tail[..kept],
        &padding::added(state.total % (1 << 61)),
    ]
    .concat();
    sm3::to_bytes(&sm3::fold(&state.words, &bytes))
}

/// A key's digest if the key is longer than this.
pub fn hashed_above(most: usize, key: &[u8]) -> Vec<u8> {
    if key.len() > most {
        hash::digest(key).digest.to_vec()
    } else {
        key.to_vec()
    }
}

/// A block with these bytes at its front, cut if they are more.
pub fn in_front(bytes: &[u8]) -> [u8; 64] {
    let mut block = [0; 64];
    let count = bytes.len().min(64);
    block[..count].copy_from_slice(&bytes[..count]);
    block
}
