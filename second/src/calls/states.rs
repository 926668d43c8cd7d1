//! Hash states of every kind, and the calls over them.

use crate::calls::call::Call;
use crate::calls::kinds::Wish;
use crate::calls::values::Lent;
use crate::hash::{self, State};
use crate::making::random::Random;
use crate::padding::LONGEST;
use crate::refusal::ACCEPTED;

/// The longest slice that can be told of, longer than any that is there.
pub const LONGEST_SLICE: u64 = u64::MAX;

/// Totals at the edge of something, most of them in order.
const TOTALS: [u64; 22] = [
    0,
    1,
    55,
    56,
    63,
    64,
    65,
    128,
    (1 << 29) - 1,
    (1 << 32) - 1,
    1 << 32,
    LONGEST - 64,
    LONGEST - 63,
    LONGEST - 8,
    LONGEST - 7,
    LONGEST - 1,
    LONGEST,
    LONGEST + 1,
    LONGEST + 2,
    1 << 62,
    1 << 63,
    u64::MAX,
];

pub fn fresh(_wish: &mut Wish) -> Call {
    Call::Fresh
}

/// Any eight words, and bytes that end anywhere in a block.
pub fn fold(wish: &mut Wish) -> Call {
    let state = state(&mut wish.random, wish.ordinal);
    let length = message_length(&mut wish.random, wish.ordinal);
    Call::Fold {
        bytes: Lent::Bytes(wish.random.bytes(length)),
        state,
    }
}

/// No whole block.
pub fn fold_absent(wish: &mut Wish) -> Call {
    Call::Fold {
        state: state(&mut wish.random, wish.ordinal),
        bytes: Lent::Absent(wish.random.below(64)),
    }
}

pub fn update(wish: &mut Wish) -> Call {
    let state = state(&mut wish.random, wish.ordinal);
    let length = piece_length(&mut wish.random, &state);
    Call::Update {
        in_place: wish.in_place(),
        piece: Lent::Bytes(wish.random.bytes(length)),
        state,
    }
}

/// A piece that takes a state in order past the longest total, an empty one,
/// or any to a state that is not in order.
pub fn update_absent(wish: &mut Wish) -> Call {
    let random = &mut wish.random;
    if wish.ordinal.is_multiple_of(4) {
        let total = random.pick(&TOTALS);
        let length = random.pick(&[0, 1, 64, LONGEST_SLICE]);
        return Call::Update {
            in_place: wish.in_place(),
            state: match length {
                0 => in_order(&mut wish.random, total),
                _ => dirty(&mut wish.random, total),
            },
            piece: Lent::Absent(length),
        };
    }
    let total = match random.below(3) {
        0 => random.pick(&TOTALS).min(LONGEST),
        1 => LONGEST - random.below(300),
        _ => random.below(1 << 61),
    };
    let most = LONGEST_SLICE;
    let past = LONGEST - total + 1;
    let any = random.within(past, most);
    let length = random.pick(&[past, past + 1, LONGEST + 1, most - 1, most, any]);
    Call::Update {
        in_place: wish.in_place(),
        state: in_order(&mut wish.random, total),
        piece: Lent::Absent(length.max(past)),
    }
}

pub fn finish(wish: &mut Wish) -> Call {
    Call::Finish {
        state: state(&mut wish.random, wish.ordinal),
    }
}

pub fn digest(wish: &mut Wish) -> Call {
    let length = message_length(&mut wish.random, wish.ordinal);
    Call::Digest {
        message: Lent::Bytes(wish.random.bytes(length)),
    }
}

pub fn digest_absent(wish: &mut Wish) -> Call {
    let empty = Lent::Absent(0);
    let long = too_long(&mut wish.random);
    Call::Digest {
        message: if wish.random.one_in(8) { empty } else { long },
    }
}

pub fn compare_message(wish: &mut Wish) -> Call {
    let length = any_length(&mut wish.random);
    let message = wish.random.bytes(length);
    let right = hash::digest(&message).digest;
    Call::CompareMessage {
        expected: Lent::Bytes(expected(wish, right)),
        message: Lent::Bytes(message),
    }
}

/// A message that is too long, an expected digest of another length, or both.
pub fn compare_message_absent(wish: &mut Wish) -> Call {
    let there = Lent::Bytes(expected(wish, [0; 32]));
    let random = &mut wish.random;
    let length = any_length(random);
    let (message, expected) = match random.below(3) {
        0 => (too_long(random), there),
        1 => (
            too_long(random),
            Lent::Absent(random.pick(&[0, 31, 32, 33])),
        ),
        _ => (Lent::Bytes(random.bytes(length)), other_size(random)),
    };
    Call::CompareMessage { message, expected }
}

/// A state that is not in order, or an expected digest of another length.
pub fn compare_state_absent(wish: &mut Wish) -> Call {
    let random = &mut wish.random;
    let total = random.pick(&TOTALS);
    let (state, expected) = match random.below(2) {
        0 => (dirty(random, total), Lent::Absent(random.pick(&[32, 33]))),
        _ => (in_order(random, total), other_size(random)),
    };
    Call::CompareState { state, expected }
}

/// An expected digest that has not 32 bytes.
pub fn other_size(random: &mut Random) -> Lent {
    Lent::Absent(random.pick(&[0, 1, 31, 33, 64, 32 + (1 << 32), LONGEST_SLICE]))
}

pub fn compare_state(wish: &mut Wish) -> Call {
    let turn = wish.random.word();
    let state = state(&mut wish.random, turn);
    // All zero for a state that is not in order: still no.
    let right = state.finish().digest;
    Call::CompareState {
        expected: Lent::Bytes(expected(wish, right)),
        state,
    }
}

/// The right digest, one wrong by a bit (in each byte in turn), one of another
/// length, or any 32 bytes.
pub fn expected(wish: &mut Wish, right: [u8; 32]) -> Vec<u8> {
    let random = &mut wish.random;
    let mut digest = right.to_vec();
    match wish.ordinal % 5 {
        0 | 1 => (),
        2 => digest[wish.ordinal as usize / 5 % 32] ^= random.bit(),
        3 => {
            let length = random.pick(&[0, 1, 31, 33, 64]);
            digest.extend_from_slice(&right);
            digest.truncate(length);
        }
        _ => {
            let all = [[0; 32], [255; 32], random.digest()];
            digest = random.pick(&all).to_vec();
        }
    }
    digest
}

/// A message of more bytes than can be hashed.
pub fn too_long(random: &mut Random) -> Lent {
    let first = LONGEST + 1;
    let any = random.within(first, LONGEST_SLICE);
    Lent::Absent(random.pick(&[
        first,
        first + 1,
        first + 55,
        first + 56,
        first + 64,
        1 << 62,
        LONGEST_SLICE - 64,
        LONGEST_SLICE,
        any,
    ]))
}

/// Every length up to 200 in turn; now and then some thousands.
pub fn message_length(random: &mut Random, ordinal: u64) -> usize {
    if random.one_in(50) {
        return random.within(1000, 5000) as usize;
    }
    (ordinal % 201) as usize
}

/// A length for a call whose turns go through something else: two things that
/// go by one count would only meet in step.
pub fn any_length(random: &mut Random) -> usize {
    let turn = random.word();
    message_length(random, turn)
}

/// A state in order or not, by turns.
pub fn state(random: &mut Random, ordinal: u64) -> State {
    let total = total(random);
    match ordinal % 8 {
        0..=2 => reached(random),
        3 | 4 => in_order(random, total),
        5 => dirty(random, total),
        6 => {
            let total = random.below(1 << 61);
            dirty(random, total)
        }
        _ => State {
            total,
            tail: std::array::from_fn(|_| random.word() as u8),
            ..any_words(random)
        },
    }
}

fn total(random: &mut Random) -> u64 {
    match random.below(4) {
        0 => random.below(300),
        1 => LONGEST - random.below(300),
        2 => random.word(),
        _ => random.pick(&TOTALS),
    }
}

/// A state that some message leads to.
fn reached(random: &mut Random) -> State {
    let mut state = State::fresh();
    let length = random.below(300) as usize;
    assert_eq!(state.update(&random.bytes(length)), ACCEPTED);
    state
}

fn any_words(random: &mut Random) -> State {
    State {
        words: std::array::from_fn(|_| random.word() as u32),
        total: 0,
        tail: [0; 64],
    }
}

/// Any words and kept bytes, zero after them; in order if the total is.
pub fn in_order(random: &mut Random, total: u64) -> State {
    let mut state = any_words(random);
    state.total = total;
    let kept = (total % 64) as usize;
    state.tail[..kept].copy_from_slice(&random.bytes(kept));
    state
}

/// Not in order: the first byte after the kept ones, the last, one of them,
/// or all are not zero.
pub fn dirty(random: &mut Random, total: u64) -> State {
    let mut state = in_order(random, total);
    let kept = (total % 64) as usize;
    let any = random.within(kept as u64, 63) as usize;
    match random.below(4) {
        0 => state.tail[kept] = random.bit(),
        1 => state.tail[63] = random.bit(),
        2 => state.tail[any] = random.bit(),
        _ => state.tail[kept..].fill(0xff),
    }
    state
}

/// Around what still fits, around a full block, or any up to 200; now and then
/// some thousands.
pub fn piece_length(random: &mut Random, state: &State) -> usize {
    let kept = state.total % 64;
    let room = LONGEST.saturating_sub(state.total);
    let around = if room <= 300 {
        room
    } else {
        random.pick(&[64, 128]) - kept
    };
    match random.below(40) {
        0 => random.within(1000, 5000) as usize,
        1..=3 => 0,
        4..=20 => (around + 1).saturating_sub(random.below(3)) as usize,
        _ => random.below(201) as usize,
    }
}
