//! Wrong answers of a program that makes one mistake with codes.

use crate::calls::call::Call;
use crate::calls::coded::answer::updated_text;
use crate::calls::coded::coder::{
    asked, code_answer, compared, ended, expected, hashed_above, in_front, state, taken, Coder,
    HONEST,
};
use crate::calls::coded::CodeCall;
use crate::calls::values::Lent;
use crate::code::CodeState;
use crate::hash::{self, State};
use crate::padding::LONGEST;
use crate::refusal::{ACCEPTED, STATE_NOT_IN_ORDER, TOO_LONG, WRONG_SIZE};
use crate::sm3;

/// What the copy without a mistake answers: if that were wrong, every mistake
/// would be found for its sake.
pub fn honest(call: &Call) -> Option<String> {
    HONEST.answer(call)
}

/// A block with at most 64 bytes at its end.
fn at_end(bytes: &[u8]) -> [u8; 64] {
    let mut block = [0; 64];
    block[64 - bytes.len()..].copy_from_slice(bytes);
    block
}

/// The two pads are exchanged.
pub fn pads_swapped(call: &Call) -> Option<String> {
    Coder {
        pads: [0x5c, 0x36],
        ..HONEST
    }
    .answer(call)
}

fn with_block(call: &Call, block: fn(&[u8]) -> [u8; 64]) -> Option<String> {
    Coder { block, ..HONEST }.answer(call)
}

/// A key of 64 bytes is hashed.
pub fn full_key_hashed(call: &Call) -> Option<String> {
    with_block(call, |key| in_front(&hashed_above(63, key)))
}

/// A key of 65 bytes is not hashed but cut.
pub fn key_of_65_cut(call: &Call) -> Option<String> {
    with_block(call, |key| in_front(&hashed_above(65, key)))
}

/// No key is hashed: a long one is cut.
pub fn long_key_cut(call: &Call) -> Option<String> {
    with_block(call, in_front)
}

/// A short key is hashed too.
pub fn every_key_hashed(call: &Call) -> Option<String> {
    with_block(call, |key| in_front(&hash::digest(key).digest))
}

/// The zeros come before a long key's digest.
pub fn zeros_before_digest(call: &Call) -> Option<String> {
    with_block(call, |key| match key.len() {
        0..=64 => in_front(key),
        _ => at_end(&hashed_above(64, key)),
    })
}

/// The zeros come before a short key.
pub fn zeros_before_key(call: &Call) -> Option<String> {
    with_block(call, |key| match key.len() {
        0..=64 => at_end(key),
        _ => in_front(&hashed_above(64, key)),
    })
}

/// A long key's digest stands twice where zeros should be.
pub fn digest_twice(call: &Call) -> Option<String> {
    with_block(call, |key| {
        let short = hashed_above(64, key);
        match key.len() {
            0..=64 => in_front(&short),
            _ => in_front(&[&short[..], &short].concat()),
        }
    })
}

/// An update does not count the inner block to the limit.
pub fn update_limit_past(call: &Call) -> Option<String> {
    Coder {
        longest_total: LONGEST + 64,
        ..HONEST
    }
    .answer(call)
}

/// An update counts the inner block twice.
pub fn update_limit_below(call: &Call) -> Option<String> {
    Coder {
        longest_total: LONGEST - 64,
        ..HONEST
    }
    .answer(call)
}

/// The one-call forms do not count the inner block to the limit.
pub fn message_limit_past(call: &Call) -> Option<String> {
    Coder {
        longest_message: LONGEST,
        ..HONEST
    }
    .answer(call)
}

/// The sum of the inner total and the piece is made in 64 bits.
pub fn sum_wraps(call: &Call) -> Option<String> {
    let CodeCall::Update { state, piece, .. } = asked(call)? else {
        return None;
    };
    let sum = state.inner.total.wrapping_add(piece.length());
    let too_long = state.update_number(piece.length()) == TOO_LONG;
    (too_long && sum <= LONGEST).then(|| updated_text(ACCEPTED, state))
}

fn judging(call: &Call, in_order: fn(&CodeState) -> bool) -> Option<String> {
    Coder { in_order, ..HONEST }.answer(call)
}

/// Whether both hash states are in order, whatever their totals.
fn halves_in_order(state: &CodeState) -> bool {
    state.inner.in_order() && state.outer.in_order()
}

/// The outer total is not judged.
pub fn outer_total_unjudged(call: &Call) -> Option<String> {
    judging(call, |state| {
        halves_in_order(state) && state.inner.total >= 64
    })
}

/// The outer total may be more than 64.
pub fn outer_above_taken(call: &Call) -> Option<String> {
    judging(call, |state| {
        halves_in_order(state) && state.inner.total >= 64 && state.outer.total >= 64
    })
}

/// The outer total may be less than 64.
pub fn outer_below_taken(call: &Call) -> Option<String> {
    judging(call, |state| {
        halves_in_order(state) && state.inner.total >= 64 && state.outer.total <= 64
    })
}

/// Of the outer total only a byte is judged.
pub fn outer_total_cut(call: &Call) -> Option<String> {
    judging(call, |state| {
        halves_in_order(state) && state.inner.total >= 64 && state.outer.total as u8 == 64
    })
}

/// The outer tail is not judged.
pub fn outer_tail_unjudged(call: &Call) -> Option<String> {
    judging(call, |state| {
        state.inner.in_order() && state.inner.total >= 64 && state.outer.total == 64
    })
}

/// The inner tail is not judged.
pub fn inner_tail_unjudged(call: &Call) -> Option<String> {
    judging(call, |state| {
        let within = (64..=LONGEST).contains(&state.inner.total);
        within && state.outer.in_order() && state.outer.total == 64
    })
}

/// The inner total may be less than 64.
pub fn inner_below_taken(call: &Call) -> Option<String> {
    judging(call, |state| {
        halves_in_order(state) && state.outer.total == 64
    })
}

/// The inner total may be 63.
pub fn inner_63_taken(call: &Call) -> Option<String> {
    judging(call, |state| {
        halves_in_order(state) && state.inner.total >= 63 && state.outer.total == 64
    })
}

/// An inner total of just 64 is refused.
pub fn inner_64_refused(call: &Call) -> Option<String> {
    judging(call, |state| state.in_order() && state.inner.total > 64)
}

/// Words that no key leads to are refused.
pub fn words_judged(call: &Call) -> Option<String> {
    judging(call, |state| {
        let words = [state.inner.words, state.outer.words];
        state.in_order() && !words.contains(&sm3::START)
    })
}

fn ordered(call: &Call, order: [u8; 3]) -> Option<String> {
    Coder { order, ..HONEST }.answer(call)
}

/// 11 is judged before 10.
pub fn size_before_length(call: &Call) -> Option<String> {
    ordered(call, [STATE_NOT_IN_ORDER, WRONG_SIZE, TOO_LONG])
}

/// 11 is judged before 9.
pub fn size_before_state(call: &Call) -> Option<String> {
    let order = [WRONG_SIZE, STATE_NOT_IN_ORDER, TOO_LONG];
    match asked(call)? {
        CodeCall::CompareState { .. } => ordered(call, order),
        _ => None,
    }
}

/// 10 is judged before 9.
pub fn length_before_state(call: &Call) -> Option<String> {
    ordered(call, [TOO_LONG, STATE_NOT_IN_ORDER, WRONG_SIZE])
}

/// A refused key's state is two fresh hash states.
pub fn refused_start_fresh(call: &Call) -> Option<String> {
    Coder {
        refused_start: || CodeState {
            inner: State::fresh(),
            outer: State::fresh(),
        },
        ..HONEST
    }
    .answer(call)
}

/// A refused key's state is all zero.
pub fn refused_start_zero(call: &Call) -> Option<String> {
    Coder {
        refused_start: || {
            let zero = State {
                words: [0; 8],
                ..State::fresh()
            };
            CodeState {
                inner: zero,
                outer: zero,
            }
        },
        ..HONEST
    }
    .answer(call)
}

/// The one-call forms go on with the empty key where one is refused.
pub fn refused_key_coded(call: &Call) -> Option<String> {
    let mut call = asked(call)?.clone();
    match &mut call {
        CodeCall::Of { key, .. } | CodeCall::CompareOf { key, .. } if key.length() > LONGEST => {
            *key = Lent::Absent(0);
        }
        _ => return None,
    }
    HONEST.answer(&Call::Coded(call))
}

/// An empty key is refused.
pub fn empty_key_refused(call: &Call) -> Option<String> {
    Coder {
        shortest_key: 1,
        ..HONEST
    }
    .answer(call)
}

/// An accepted call's code, handed on to be made wrong.
fn coded(call: &Call, wrong: impl Fn(&CodeCall, [u8; 32]) -> Option<String>) -> Option<String> {
    let call = asked(call)?;
    match call {
        CodeCall::Start { .. } | CodeCall::Update { .. } => None,
        _ if HONEST.number(call) != ACCEPTED => None,
        _ => wrong(call, HONEST.code(call)?),
    }
}

/// The last byte of a state's code is not compared.
pub fn all_but_last_compared(call: &Call) -> Option<String> {
    coded(call, |call, code| match call {
        CodeCall::CompareState { expected, .. } => {
            Some(compared(code[..31] == expected.bytes()?[..31]))
        }
        _ => None,
    })
}

/// The last byte of a message's code is not compared.
pub fn all_but_last_compared_of(call: &Call) -> Option<String> {
    coded(call, |call, code| match call {
        CodeCall::CompareOf { expected, .. } => {
            Some(compared(code[..31] == expected.bytes()?[..31]))
        }
        _ => None,
    })
}

/// The first byte of a code is not compared.
pub fn all_but_first_compared(call: &Call) -> Option<String> {
    coded(call, |call, code| {
        let expected = expected(call)?.bytes()?;
        Some(compared(code[1..] == expected[1..]))
    })
}

/// The code is the inner digest.
pub fn inner_alone(call: &Call) -> Option<String> {
    coded(call, |call, _| {
        let inner = state(call)?.inner;
        code_answer(call, &ended(&inner))
    })
}

/// The code is the digest of the key and the message.
pub fn key_in_front(call: &Call) -> Option<String> {
    coded(call, |call, _| match call {
        CodeCall::Of { key, message } | CodeCall::CompareOf { key, message, .. } => {
            let digest = hash::digest(&[key.bytes()?, message.bytes()?].concat()).digest;
            code_answer(call, &digest)
        }
        _ => None,
    })
}

/// What an update answers and leaves, handed on to be made wrong.
fn updated(call: &Call, wrong: fn(u8, &[u8], &mut CodeState)) -> Option<String> {
    let CodeCall::Update { state, piece, .. } = asked(call)? else {
        return None;
    };
    let mut after = **state;
    let number = after.update(piece.bytes()?);
    wrong(number, piece.bytes()?, &mut after);
    Some(updated_text(number, &after))
}

/// The outer hash takes the piece too.
pub fn outer_fed(call: &Call) -> Option<String> {
    updated(call, |number, piece, after| {
        if number == ACCEPTED {
            after.outer = taken(&after.outer, piece);
        }
    })
}

/// A refused update leaves the empty key's state.
pub fn refused_update_cleared(call: &Call) -> Option<String> {
    updated(call, |number, _, after| {
        if number != ACCEPTED {
            *after = HONEST.start(b"");
        }
    })
}

/// An update that is too long is refused only after its first block was taken.
pub fn refused_update_begun(call: &Call) -> Option<String> {
    updated(call, |number, piece, after| {
        if number == TOO_LONG {
            after.inner = taken(&after.inner, &piece[..piece.len().min(64)]);
        }
    })
}
