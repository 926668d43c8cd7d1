//! The code of a message under a key: RFC 2104's definition beside both ways to
//! it, the limits of a code state, and the refusals in their order.

use crate::help;
use second::code::{self, CodeState, Coded, Started};
use second::hash::{Compared, State};
use second::sm3;

const HIGHEST: u64 = (1 << 61) - 1;
const KEYS: [usize; 7] = [0, 1, 63, 64, 65, 128, 200];
const MESSAGES: [usize; 9] = [0, 1, 55, 56, 63, 64, 65, 200, 1000];

/// "H(K XOR opad, H(K XOR ipad, text))", the key with zeros behind it up to the
/// block's length, a key of more than 64 bytes being hashed first.
fn by_definition(key: &[u8], text: &[u8]) -> [u8; 32] {
    let mut block = key.to_vec();
    if key.len() > 64 {
        block = help::digest_of(key).to_vec();
    }
    block.resize(64, 0);
    let mut inner: Vec<u8> = block.iter().map(|byte| byte ^ 0x36).collect();
    inner.extend_from_slice(text);
    let mut outer: Vec<u8> = block.iter().map(|byte| byte ^ 0x5c).collect();
    outer.extend_from_slice(&help::digest_of(&inner));
    help::digest_of(&outer)
}

fn started(key: &[u8]) -> CodeState {
    let started = code::start(key);
    assert_eq!(started.number, 0);
    started.state
}

fn accepted(code: [u8; 32]) -> Coded {
    Coded { number: 0, code }
}

fn refused(number: u8) -> Compared {
    Compared {
        number,
        same: false,
    }
}

/// A state in order whose inner hash has taken so many bytes.
fn with_inner(total: u64) -> CodeState {
    let mut state = started(b"key");
    state.inner.total = total;
    state.inner.tail[..(total % 64) as usize].fill(7);
    state
}

fn with_outer(total: u64) -> CodeState {
    let mut state = started(b"key");
    state.outer.total = total;
    state
}

#[test]
fn both_ways_give_what_the_definition_gives() {
    for key in KEYS.map(help::message) {
        for message in MESSAGES.map(help::message) {
            let right = by_definition(&key, &message);
            let lengths = (key.len(), message.len());
            assert_eq!(
                code::code_of(&key, &message),
                accepted(right),
                "{lengths:?}"
            );
            let mut state = started(&key);
            assert_eq!(state.update(&message), 0);
            assert_eq!(state.finish(), accepted(right), "{lengths:?}");
        }
    }
}

#[test]
fn every_key_up_to_two_blocks_and_a_long_one() {
    let message = help::message(77);
    for length in (0..=130).chain([1000, 5000]) {
        let key = help::message(length);
        let right = accepted(by_definition(&key, &message));
        assert_eq!(code::code_of(&key, &message), right, "{length}");
    }
}

#[test]
fn every_cutting_into_two_pieces_gives_the_same() {
    let message = help::message(150);
    for key in [&b""[..], b"key", &help::message(65)] {
        let right = by_definition(key, &message);
        for place in 0..=message.len() {
            let mut state = started(key);
            assert_eq!(state.update(&message[..place]), 0);
            assert_eq!(state.update(b""), 0);
            assert_eq!(state.update(&message[place..]), 0);
            assert_eq!(state.finish(), accepted(right), "{place}");
        }
    }
}

#[test]
fn the_empty_key_is_a_key_and_zeros_behind_a_key_make_no_other() {
    let empty = code::start(b"");
    assert_eq!(empty.number, 0);
    assert_eq!(started(&[0]), empty.state);
    assert_eq!(started(&[0; 64]), empty.state);
    assert_ne!(started(&[0; 65]), empty.state);
    assert_eq!(started(b"key"), started(b"key\0"));
    let long = help::message(65);
    assert_eq!(started(&long), started(&help::digest_of(&long)));
}

#[test]
fn a_key_s_state_has_taken_a_block_in_each_half() {
    let Started { number, state } = code::start(b"key");
    assert_eq!(number, 0);
    for (half, pad) in [(state.inner, 0x36), (state.outer, 0x5c)] {
        let mut block = [pad; 64];
        for (byte, key) in block.iter_mut().zip(b"key") {
            *byte ^= key;
        }
        let words = sm3::fold(&sm3::START, &block);
        assert_eq!((half.words, half.total, half.tail), (words, 64, [0; 64]));
    }
}

#[test]
fn a_finish_leaves_room_for_more() {
    let mut state = started(b"key");
    assert_eq!(state.update(b"one"), 0);
    let before = state;
    assert_eq!(state.finish().code, by_definition(b"key", b"one"));
    assert_eq!(state, before);
    assert_eq!(state.update(b"two"), 0);
    assert_eq!(state.finish().code, by_definition(b"key", b"onetwo"));
}

#[test]
fn the_inner_total_is_in_order_from_64_on() {
    for total in [64, 65, 127, 128, 1 << 40, HIGHEST - 1, HIGHEST] {
        assert!(with_inner(total).in_order(), "{total}");
    }
    for total in [0, 1, 62, 63, HIGHEST + 1, HIGHEST + 65, 1 << 63, u64::MAX] {
        assert!(!with_inner(total).in_order(), "{total}");
    }
}

#[test]
fn the_outer_total_is_64_and_no_other() {
    assert!(with_outer(64).in_order());
    for total in [0, 1, 63, 65, 128, 320, 64 + (1 << 32), HIGHEST, u64::MAX] {
        let mut state = with_outer(total);
        state.outer.tail[..(total % 64) as usize].fill(7);
        assert!(!state.in_order(), "{total}");
    }
}

#[test]
fn a_byte_behind_the_kept_ones_puts_either_half_out_of_order() {
    for place in 0..64 {
        let mut state = with_inner(64 + 10);
        state.inner.tail[place] = 1;
        assert_eq!(state.in_order(), place < 10, "{place}");
        let mut state = started(b"key");
        state.outer.tail[place] = 1;
        assert!(!state.in_order(), "{place}");
    }
}

#[test]
fn nothing_is_asked_of_the_words() {
    for words in [[0; 8], [u32::MAX; 8], sm3::START] {
        let mut state = started(b"key");
        (state.inner.words, state.outer.words) = (words, words);
        assert!(state.in_order());
        let inner = State {
            words,
            ..state.inner
        };
        let mut outer = state.outer;
        outer.update(&inner.finish().digest);
        assert_eq!(state.finish(), accepted(outer.finish().digest));
    }
}

#[test]
fn a_state_not_in_order_is_9_and_stays() {
    let mut dirty_inner = started(b"key");
    dirty_inner.inner.tail[0] = 1;
    let mut dirty_outer = started(b"key");
    dirty_outer.outer.tail[63] = 1;
    let states = [
        with_inner(63),
        with_inner(HIGHEST + 1),
        with_outer(0),
        with_outer(128),
        dirty_inner,
        dirty_outer,
    ];
    for before in states {
        let mut state = before;
        for piece in [&b""[..], b"x", &[0; 200]] {
            assert_eq!(state.update(piece), 9);
        }
        assert_eq!(state.update_number(u64::MAX), 9);
        assert_eq!((state.finish().number, state.finish().code), (9, [0; 32]));
        for expected in [&[0; 32][..], &[0; 31], b""] {
            assert_eq!(state.compare(expected), refused(9));
        }
        assert_eq!(state, before);
    }
}

#[test]
fn an_update_counts_the_inner_block_and_does_not_wrap() {
    assert_eq!(started(b"").update_number(HIGHEST - 64), 0);
    assert_eq!(started(b"").update_number(HIGHEST - 63), 10);
    for total in [64, 65, 1 << 40, HIGHEST - 1, HIGHEST] {
        let state = with_inner(total);
        assert_eq!(state.update_number(HIGHEST - total), 0);
        for length in [HIGHEST - total + 1, u64::MAX - total + 1, u64::MAX] {
            assert_eq!(state.update_number(length), 10, "{total} and {length}");
        }
    }
    let mut state = with_inner(HIGHEST - 3);
    let before = state;
    assert_eq!(state.update(b"abcd"), 10);
    assert_eq!(state, before);
    assert_eq!(state.update(b"abc"), 0);
    assert_eq!(state.inner.total, HIGHEST);
    assert_eq!(state.outer, before.outer);
    assert_eq!(state.finish().number, 0);
}

#[test]
fn keys_and_messages_are_10_from_their_own_limits_on() {
    for (key, message, number) in [
        (0, 0, 0),
        (HIGHEST, HIGHEST - 64, 0),
        (HIGHEST + 1, 0, 10),
        (u64::MAX, u64::MAX, 10),
        (0, HIGHEST - 63, 10),
        (0, HIGHEST, 10),
        (64, u64::MAX - 63, 10),
        (64, u64::MAX, 10),
    ] {
        assert_eq!(code::number_of(key, message), number, "{key} {message}");
        assert_eq!(code::compare_number(key, message, 32), number);
        let sized = if number == 0 { 11 } else { number };
        assert_eq!(code::compare_number(key, message, 31), sized);
    }
    assert_eq!(code::key_number(HIGHEST), 0);
    assert_eq!(code::key_number(HIGHEST + 1), 10);
}

#[test]
fn a_refused_start_has_the_empty_key_s_state_and_a_refused_code_is_zero() {
    let refused = code::refused_start(10);
    assert_eq!((refused.number, refused.state), (10, started(b"")));
    assert_eq!(code::refused_code(10).code, [0; 32]);
}

#[test]
fn comparisons_look_at_every_bit_and_at_the_length() {
    let right = by_definition(b"key", b"message");
    let mut state = started(b"key");
    assert_eq!(state.update(b"message"), 0);
    let both = |expected: &[u8]| {
        let one = code::compare(b"key", b"message", expected);
        assert_eq!(one, state.compare(expected));
        one
    };
    assert_eq!(
        both(&right),
        Compared {
            number: 0,
            same: true
        }
    );
    for place in 0..32 {
        for bit in 0..8 {
            let mut wrong = right;
            wrong[place] ^= 1 << bit;
            assert_eq!(both(&wrong), refused(0), "byte {place}");
        }
    }
    let long = [&right[..], &right].concat();
    for length in [0, 1, 31, 33, 64] {
        assert_eq!(both(&long[..length]), refused(11), "{length}");
    }
}
