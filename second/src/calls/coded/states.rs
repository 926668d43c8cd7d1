//! Code states, keys and messages of every kind, and the calls over them.

use crate::calls::call::Call;
use crate::calls::coded::CodeCall;
use crate::calls::kinds::Wish;
use crate::calls::states::{self, any_length, other_size, too_long, LONGEST_SLICE};
use crate::calls::values::Lent;
use crate::code::{self, CodeState, LONGEST_MESSAGE};
use crate::hash::State;
use crate::making::random::Random;
use crate::padding::LONGEST;
use crate::refusal::ACCEPTED;
use crate::sm3;

/// Key lengths on both sides of a digest, of a block, and of two.
pub const KEYS: [usize; 13] = [0, 1, 31, 32, 33, 63, 64, 65, 66, 127, 128, 129, 200];

/// Totals of an inner state at the edge of something: in order from 64 on, up
/// to the longest message's.
pub const INNER_TOTALS: [u64; 24] = [
    0,
    1,
    32,
    63,
    64,
    65,
    119,
    120,
    127,
    128,
    (1 << 32) - 1,
    1 << 32,
    LONGEST - 64,
    LONGEST - 63,
    LONGEST - 1,
    LONGEST,
    LONGEST + 1,
    LONGEST + 64,
    LONGEST + 65,
    1 << 62,
    1 << 63,
    (1 << 63) + 64,
    u64::MAX - 63,
    u64::MAX,
];

/// Totals of an outer state: 64 is in order, and no other, also where its low
/// bits are those of 64.
pub const OUTER_TOTALS: [u64; 20] = [
    0,
    1,
    32,
    63,
    64,
    65,
    96,
    127,
    128,
    192,
    64 + (1 << 8),
    64 + (1 << 16),
    64 + (1 << 32),
    LONGEST - 63,
    LONGEST,
    LONGEST + 1,
    64 + (1 << 61),
    64 + (1 << 63),
    u64::MAX - 63,
    u64::MAX,
];

pub fn start(wish: &mut Wish) -> Call {
    let key = Lent::Bytes(key(&mut wish.random, wish.ordinal));
    Call::Coded(CodeCall::Start { key })
}

pub fn start_absent(wish: &mut Wish) -> Call {
    let long = too_long(&mut wish.random);
    let key = if wish.random.one_in(8) {
        Lent::Absent(0)
    } else {
        long
    };
    Call::Coded(CodeCall::Start { key })
}

pub fn update(wish: &mut Wish) -> Call {
    let state = state(&mut wish.random, wish.ordinal);
    let length = states::piece_length(&mut wish.random, &state.inner);
    let piece = Lent::Bytes(wish.random.bytes(length));
    updated(wish, state, piece)
}

/// Any piece to a state that is not in order, an empty one, or one that takes
/// the inner state past the longest total, also where the sum is a small number
/// in 64 bits.
pub fn update_absent(wish: &mut Wish) -> Call {
    let random = &mut wish.random;
    let lengths = [0, 1, 64, LONGEST, LONGEST_SLICE];
    let (state, length) = match wish.ordinal % 4 {
        0 => (broken(random), random.pick(&lengths)),
        1 => (good(random), 0),
        _ => {
            let state = good(random);
            let total = state.inner.total;
            let past = LONGEST - total + 1;
            let wrapped = u64::MAX - total + 1;
            let more = random.below(total);
            let lengths = [past, past + 1, wrapped - 1, wrapped, wrapped + more];
            let any = random.within(past, LONGEST_SLICE);
            (
                state,
                random.pick(&[&lengths[..], &[any, u64::MAX]].concat()),
            )
        }
    };
    updated(wish, state, Lent::Absent(length))
}

fn updated(wish: &Wish, state: CodeState, piece: Lent) -> Call {
    Call::Coded(CodeCall::Update {
        in_place: wish.in_place(),
        state: Box::new(state),
        piece,
    })
}

pub fn finish(wish: &mut Wish) -> Call {
    let state = Box::new(state(&mut wish.random, wish.ordinal));
    Call::Coded(CodeCall::Finish { state })
}

pub fn code_of(wish: &mut Wish) -> Call {
    let key = key(&mut wish.random, wish.ordinal);
    let length = any_length(&mut wish.random);
    Call::Coded(CodeCall::Of {
        key: Lent::Bytes(key),
        message: Lent::Bytes(wish.random.bytes(length)),
    })
}

pub fn code_of_absent(wish: &mut Wish) -> Call {
    let (key, message) = refused_or_empty(&mut wish.random);
    Call::Coded(CodeCall::Of { key, message })
}

/// Both the state and the expected code go by turns: twelve and five have no
/// factor in common, so each meets every other.
pub fn compare_state(wish: &mut Wish) -> Call {
    let state = state(&mut wish.random, wish.ordinal);
    // All zero for a state that is not in order: still no.
    let right = state.finish().code;
    Call::Coded(CodeCall::CompareState {
        expected: Lent::Bytes(states::expected(wish, right)),
        state: Box::new(state),
    })
}

/// A state that is not in order, or an expected code of another length.
pub fn compare_state_absent(wish: &mut Wish) -> Call {
    let random = &mut wish.random;
    let (state, expected) = match random.below(2) {
        0 => (broken(random), Lent::Absent(random.pick(&[31, 32, 33]))),
        _ => (good(random), other_size(random)),
    };
    Call::Coded(CodeCall::CompareState {
        state: Box::new(state),
        expected,
    })
}

pub fn compare_of(wish: &mut Wish) -> Call {
    let key = any_key(&mut wish.random);
    let length = any_length(&mut wish.random);
    let message = wish.random.bytes(length);
    let right = code::code_of(&key, &message).code;
    Call::Coded(CodeCall::CompareOf {
        expected: Lent::Bytes(states::expected(wish, right)),
        key: Lent::Bytes(key),
        message: Lent::Bytes(message),
    })
}

/// A key or a message that is too long, an expected code of another length, or
/// several of these.
pub fn compare_of_absent(wish: &mut Wish) -> Call {
    let there = Lent::Bytes(states::expected(wish, code::code_of(b"", b"").code));
    let random = &mut wish.random;
    let (key, message) = refused_or_empty(random);
    let not_there = Lent::Absent(random.pick(&[0, 31, 32, 33, LONGEST_SLICE]));
    let other = other_size(random);
    let refused = code::number_of(key.length(), message.length()) != ACCEPTED;
    let (key, message, expected) = match random.below(3) {
        0 if refused => (key, message, not_there),
        1 => {
            let (key, message) = (any_key(random), random.bytes(70));
            (Lent::Bytes(key), Lent::Bytes(message), other)
        }
        _ => (key, message, there),
    };
    Call::Coded(CodeCall::CompareOf {
        key,
        message,
        expected,
    })
}

/// A key that is too long, with any message; a key that is there with a message
/// that is too long; or none of either.
fn refused_or_empty(random: &mut Random) -> (Lent, Lent) {
    let length = any_length(random);
    let message = Lent::Bytes(random.bytes(length));
    let any = Lent::Absent(random.pick(&[
        0,
        1,
        64,
        LONGEST_MESSAGE,
        LONGEST_MESSAGE + 1,
        LONGEST_SLICE,
    ]));
    let key = Lent::Bytes(any_key(random));
    match random.below(8) {
        0 => (too_long(random), message),
        1 => (too_long(random), any),
        2 => (Lent::Absent(0), message),
        3 => (Lent::Absent(0), Lent::Absent(0)),
        4 => (Lent::Absent(0), message_too_long(random)),
        _ => (key, message_too_long(random)),
    }
}

/// A message that has no room behind its inner block, also one that would have
/// it without, or in a sum of 64 bits.
fn message_too_long(random: &mut Random) -> Lent {
    let first = LONGEST_MESSAGE + 1;
    let any = random.within(first, LONGEST_SLICE);
    Lent::Absent(random.pick(&[
        first,
        first + 1,
        first + 32,
        LONGEST - 1,
        LONGEST,
        LONGEST + 1,
        1 << 62,
        u64::MAX - 64,
        u64::MAX - 63,
        LONGEST_SLICE,
        any,
    ]))
}

/// Every length at an edge in turn, and every other up to 200 now and then. Some
/// have zeros behind them, which are no part of another key.
pub fn key(random: &mut Random, turn: u64) -> Vec<u8> {
    let length = match turn % 2 {
        0 => KEYS[turn as usize / 2 % KEYS.len()],
        _ => any_length(random),
    };
    let mut key = random.bytes(length);
    if random.one_in(8) {
        let zeros = random.index(length + 1);
        key[length - zeros..].fill(0);
    }
    key
}

/// A key for a call whose turns go through something else.
pub fn any_key(random: &mut Random) -> Vec<u8> {
    let turn = random.word();
    key(random, turn)
}

/// How many turns there are for states.
const TURNS: u64 = 12;

/// A state by turns: in order, or with one or both of its halves spoilt.
pub fn state(random: &mut Random, turn: u64) -> CodeState {
    let mut state = free(random);
    let round = (turn / TURNS) as usize;
    match turn % TURNS {
        0 | 1 => state = reached(random),
        2 | 3 => (),
        4 => {
            let total = INNER_TOTALS[round % INNER_TOTALS.len()];
            state.inner = states::in_order(random, total);
        }
        5 => {
            let total = OUTER_TOTALS[round % OUTER_TOTALS.len()];
            state.outer = states::in_order(random, total);
        }
        6 => state.inner = states::dirty(random, state.inner.total),
        7 => state.outer = states::dirty(random, 64),
        8 => spoil_both(random, &mut state),
        9 => {
            let total = LONGEST - random.below(200);
            state.inner = states::in_order(random, total);
        }
        10 => start_words(random, &mut state),
        _ => exchange(random, &mut state),
    }
    state
}

/// A state in order with any words.
fn free(random: &mut Random) -> CodeState {
    let total = match random.below(4) {
        0 => random.pick(&INNER_TOTALS).clamp(64, LONGEST),
        1 => LONGEST - random.below(300),
        2 => random.within(64, LONGEST),
        _ => random.within(64, 400),
    };
    CodeState {
        inner: states::in_order(random, total),
        outer: states::in_order(random, 64),
    }
}

/// A state that some key and message lead to.
fn reached(random: &mut Random) -> CodeState {
    let mut state = code::start(&any_key(random)).state;
    let length = random.below(300) as usize;
    assert_eq!(state.update(&random.bytes(length)), ACCEPTED);
    state
}

fn spoil_both(random: &mut Random, state: &mut CodeState) {
    let inner = random.pick(&[0, 63, 64, 65, LONGEST, LONGEST + 1]);
    let outer = random.pick(&[0, 63, 64, 65, LONGEST, LONGEST + 1]);
    (state.inner, state.outer) = match random.below(3) {
        0 => (states::dirty(random, inner), states::dirty(random, 64)),
        1 => (
            states::in_order(random, inner),
            states::in_order(random, outer),
        ),
        _ => (states::dirty(random, inner), states::dirty(random, outer)),
    };
}

/// In order, though no key leads to it: one half has the words of a hash that
/// has taken nothing, or both have all words zero.
fn start_words(random: &mut Random, state: &mut CodeState) {
    match random.below(4) {
        0 => state.inner.words = sm3::START,
        1 => state.outer.words = sm3::START,
        2 => (state.inner.words, state.outer.words) = (sm3::START, sm3::START),
        _ => (state.inner.words, state.outer.words) = ([0; 8], [0; 8]),
    }
}

/// The two halves exchanged, the same twice, or one of them fresh.
fn exchange(random: &mut Random, state: &mut CodeState) {
    let CodeState { inner, outer } = match random.below(2) {
        0 => *state,
        _ => reached(random),
    };
    (state.inner, state.outer) = match random.below(5) {
        0 => (outer, inner),
        1 => (inner, inner),
        2 => (outer, outer),
        3 => (State::fresh(), outer),
        _ => (inner, State::fresh()),
    };
}

fn good(random: &mut Random) -> CodeState {
    wanted(random, true)
}

fn broken(random: &mut Random) -> CodeState {
    wanted(random, false)
}

/// Any state that is in order, or any that is not.
fn wanted(random: &mut Random, in_order: bool) -> CodeState {
    loop {
        let turn = random.word();
        let state = state(random, turn);
        if state.in_order() == in_order {
            return state;
        }
    }
}
