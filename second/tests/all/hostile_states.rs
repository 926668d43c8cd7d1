//! Hash states of any content.

use crate::help;
use second::hash::State;
use second::padding;
use second::sm3;

const HIGHEST: u64 = (1 << 61) - 1;

fn with_total(total: u64) -> State {
    State {
        total,
        ..State::fresh()
    }
}

#[test]
fn totals_past_the_highest_are_not_in_order() {
    assert!(with_total(HIGHEST).in_order());
    for total in [HIGHEST + 1, HIGHEST + 2, 1 << 63, u64::MAX - 63, u64::MAX] {
        let before = with_total(total);
        let mut state = before;
        assert!(!state.in_order());
        assert_eq!(state.update(b""), 9);
        assert_eq!(state.update(b"x"), 9);
        assert_eq!(state.finish().number, 9);
        assert_eq!(state.finish().digest, [0; 32]);
        assert_eq!(state, before);
    }
}

#[test]
fn the_first_trailing_byte_is_where_dirt_begins_to_matter() {
    for kept in 0..64usize {
        for block in [0, 64, 1 << 40, HIGHEST - 63] {
            let mut state = with_total(block + kept as u64);
            state.tail[..kept].fill(0xff);
            assert!(state.in_order(), "kept {kept}");
            for place in kept..64 {
                let mut dirty = state;
                dirty.tail[place] = 1;
                assert!(!dirty.in_order(), "kept {kept}, place {place}");
                assert_eq!(dirty.update(b""), 9);
                assert_eq!(dirty.finish().number, 9);
            }
        }
    }
}

#[test]
fn a_full_block_kept_back_is_not_in_order() {
    let mut state = with_total(64);
    state.tail = [b'a'; 64];
    assert_eq!(state.update(b"x"), 9);
}

#[test]
fn nine_comes_before_ten() {
    let mut state = with_total(HIGHEST);
    state.tail[63] = 1;
    assert_eq!(state.update(b"x"), 9);
    assert_eq!(state.update_number(u64::MAX), 9);
}

#[test]
fn room_is_counted_without_overflow() {
    assert_eq!(with_total(HIGHEST).update_number(0), 0);
    assert_eq!(with_total(HIGHEST).update_number(1), 10);
    assert_eq!(with_total(HIGHEST).update_number(u64::MAX), 10);
    assert_eq!(with_total(1).update_number(u64::MAX), 10);
    assert_eq!(with_total(1).update_number(HIGHEST - 1), 0);
    assert_eq!(with_total(1).update_number(HIGHEST), 10);
}

#[test]
fn free_words_are_folded_from() {
    let words = [1, 2, 3, 4, 5, 6, 7, 8];
    let mut state = State {
        words,
        ..with_total(3)
    };
    state.tail[..3].copy_from_slice(b"abc");
    let piece = help::message(61 + 64 + 2);
    let mut bytes = b"abc".to_vec();
    bytes.extend_from_slice(&piece);
    assert_eq!(state.update(&piece), 0);
    assert_eq!(state.words, sm3::fold(&words, &bytes[..128]));
    assert_eq!(state.total, 130);
    assert_eq!(state.tail[..2], bytes[128..]);
}

#[test]
fn an_empty_piece_changes_no_state_in_order() {
    for total in [0, 1, 63, 64, 1 << 40, HIGHEST] {
        let mut state = State {
            words: [9; 8],
            ..with_total(total)
        };
        state.tail[..total as usize % 64].fill(3);
        let before = state;
        assert_eq!(state.update(b""), 0);
        assert_eq!(state, before);
    }
}

#[test]
fn the_fullest_state_ends_with_its_own_length() {
    let mut state = with_total(HIGHEST);
    state.tail[..63].fill(5);
    let mut last = vec![5; 63];
    last.extend_from_slice(&padding::added(HIGHEST));
    let words = sm3::fold(&sm3::START, &last);
    let ended = state.finish();
    assert_eq!(last.len(), 128);
    assert_eq!((ended.number, ended.digest), (0, sm3::to_bytes(&words)));
}
