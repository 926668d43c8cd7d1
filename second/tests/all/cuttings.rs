//! Any cutting of a message into pieces gives the one call's digest.

use crate::help;
use second::hash::State;

#[test]
fn every_cutting_of_messages_up_to_ten_bytes() {
    for length in 1..=10usize {
        let message = help::message(length);
        let expected = help::digest_of(&message);
        // A bit says whether there is a cut after that byte.
        for cuts in 0..1u32 << (length - 1) {
            let mut state = State::fresh();
            let mut from = 0;
            for to in 1..=length {
                if to == length || cuts & (1 << (to - 1)) != 0 {
                    assert_eq!(state.update(&message[from..to]), 0);
                    from = to;
                }
            }
            assert_eq!(state.finish().digest, expected, "{length}, {cuts:b}");
        }
    }
}

#[test]
fn every_cutting_in_three_around_two_blocks() {
    for length in [55, 56, 63, 64, 65, 119, 120, 128, 130] {
        let message = help::message(length);
        let expected = help::digest_of(&message);
        for first in 0..=length {
            for second in first..=length {
                let mut state = State::fresh();
                state.update(&message[..first]);
                state.update(&message[first..second]);
                state.update(&message[second..]);
                assert_eq!(state.finish().digest, expected);
            }
        }
    }
}

#[test]
fn states_after_every_length_are_in_order_and_exact() {
    for length in 0..=300 {
        let message = help::message(length);
        let mut state = State::fresh();
        assert_eq!(state.update(&message), 0);
        assert!(state.in_order());
        assert_eq!(state.total, length as u64);
        let kept = length % 64;
        assert_eq!(state.tail[..kept], message[length - kept..]);
        assert!(state.tail[kept..].iter().all(|byte| *byte == 0));
        assert_eq!(state.finish().digest, help::digest_of(&message));
    }
}

#[test]
fn byte_by_byte_gives_the_same_state_as_at_once() {
    let message = help::message(300);
    let mut slow = State::fresh();
    for length in 1..=message.len() {
        slow.update(&message[length - 1..length]);
        let mut quick = State::fresh();
        quick.update(&message[..length]);
        assert_eq!(slow, quick, "length {length}");
    }
}

#[test]
fn comparison_from_a_state_is_comparison_of_the_message() {
    for length in [0, 1, 63, 64, 65, 130] {
        let message = help::message(length);
        let digest = help::digest_of(&message);
        let mut state = State::fresh();
        state.update(&message);
        let before = state;
        assert!(state.compare(&digest).same);
        for place in 0..32 {
            let mut other = digest;
            other[place] ^= 0x80;
            let compared = state.compare(&other);
            assert_eq!((compared.number, compared.same), (0, false));
        }
        assert_eq!(state, before);
    }
}
