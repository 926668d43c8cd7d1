//! Writing and viewing, over all short lengths and over lengths alone.

use crate::help;
use second::padding::{self, Place, Which};

const HIGHEST: u64 = (1 << 61) - 1;

#[test]
fn padding_has_the_paper_s_shape_for_all_short_lengths() {
    for length in 0..=300usize {
        let message = help::message(length);
        let padded = padding::padded(&message);
        let blocks = padding::block_count(length as u64) as usize;
        assert_eq!(padded.len(), 64 * blocks, "length {length}");
        assert_eq!(padded[..length], message);
        assert_eq!(padded[length], 0x80);
        let end = padded.len() - 8;
        assert!(padded[length + 1..end].iter().all(|byte| *byte == 0));
        assert!(end - length - 1 < 64, "the fewest zero bytes");
        assert_eq!(padded[end..], (8 * length as u64).to_be_bytes());
    }
}

#[test]
fn written_tails_are_the_end_of_the_padded_message() {
    for length in 0..=300 {
        let message = help::message(length);
        let padded = padding::padded(&message);
        let mut tail = [0xaa; 130];
        let written = padding::write(&message, &mut tail);
        let expected = if length % 64 <= 55 { 64 } else { 128 };
        assert_eq!((written.number, written.count), (0, expected));
        assert_eq!(tail[..expected], padded[padded.len() - expected..]);
        assert!(tail[expected..].iter().all(|byte| *byte == 0xaa));
    }
}

#[test]
fn a_buffer_of_exactly_the_needed_size_is_enough() {
    for (length, needed) in [(0, 64), (55, 64), (56, 128), (63, 128), (64, 64)] {
        let mut tail = vec![1; needed];
        let written = padding::write(&help::message(length), &mut tail);
        assert_eq!((written.number, written.count), (0, needed));
    }
}

#[test]
fn viewed_blocks_joined_are_the_padded_message() {
    for length in 0..=300 {
        let message = help::message(length);
        let mut tail = [0xaa; 130];
        padding::write(&message, &mut tail);
        let mut joined = Vec::new();
        for block in 0..padding::block_count(length as u64) as u64 {
            assert_eq!(padding::view_number(&message, &tail, block), 0);
            let part = padding::view_place(&message, &tail, block);
            let inside = 64 * (block + 1) <= length as u64;
            assert_eq!(part.which == Which::Message, inside);
            assert_eq!(part.length, 64);
            joined.extend_from_slice(part.bytes(&message, &tail));
        }
        assert_eq!(joined, padding::padded(&message), "length {length}");
    }
}

#[test]
fn an_empty_part_has_no_bytes() {
    assert!(Place::EMPTY.bytes(b"message", b"tail").is_empty());
}

#[test]
fn places_of_the_longest_message() {
    // 2^61 - 1 leaves 63 bytes: two blocks in the tail after 2^55 - 1 whole.
    let whole = (1 << 55) - 1;
    assert_eq!(padding::tail_size(HIGHEST), 128);
    assert_eq!(padding::block_count(HIGHEST), (1 << 55) + 1);
    for (block, which, offset) in [
        (whole - 1, Which::Message, 64 * (whole - 1)),
        (whole, Which::Buffer, 0),
        (whole + 1, Which::Buffer, 64),
    ] {
        let expected = Place {
            which,
            offset,
            length: 64,
        };
        assert_eq!(padding::block_place(HIGHEST, block), expected);
    }
}

#[test]
fn the_longest_message_s_length_fills_64_bits() {
    let added = padding::added(HIGHEST);
    assert_eq!(added.len(), 65);
    assert_eq!(added[0], 0x80);
    assert_eq!(added[57..], [255, 255, 255, 255, 255, 255, 255, 248]);
}

#[test]
fn lengths_above_4_gigabytes_are_written_in_full() {
    let added = padding::added(1 << 32);
    assert_eq!(added[added.len() - 8..], [0, 0, 0, 8, 0, 0, 0, 0]);
}

#[test]
fn block_counts_do_not_overflow() {
    assert_eq!(padding::block_count(u64::MAX), (1 << 58) + 1);
    assert_eq!(padding::block_count(u64::MAX - 8), 1 << 58);
}
