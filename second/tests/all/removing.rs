//! Removing, held against the plainest meaning: some front part of the bytes,
//! padded, is the bytes.

use crate::help;
use second::padding;

/// The length of the message, found by trying all.
fn searched(bytes: &[u8]) -> Option<usize> {
    (0..bytes.len()).find(|length| padding::padded(&bytes[..*length]) == bytes)
}

fn agrees(bytes: &[u8]) -> bool {
    let number = padding::remove_number(bytes);
    let part = padding::remove_part(bytes);
    match searched(bytes) {
        Some(length) => number == 0 && *part == bytes[..length],
        None => number == 14 && part.is_empty(),
    }
}

#[test]
fn what_was_padded_is_removed() {
    for length in 0..=300 {
        let message = help::message(length);
        let padded = padding::padded(&message);
        assert_eq!(padding::remove_number(&padded), 0, "length {length}");
        assert_eq!(padding::remove_part(&padded), message);
    }
}

#[test]
fn the_empty_message_is_accepted_with_an_empty_part() {
    let padded = padding::padded(b"");
    assert_eq!(padding::remove_number(&padded), 0);
    assert!(padding::remove_part(&padded).is_empty());
}

#[test]
fn every_changed_bit_is_judged_as_the_meaning_says() {
    for length in [0, 1, 54, 55, 56, 63, 64, 70] {
        let padded = padding::padded(&help::message(length));
        for bit in 0..8 * padded.len() {
            let mut changed = padded.clone();
            changed[bit / 8] ^= 1 << (bit % 8);
            assert!(agrees(&changed), "length {length}, bit {bit}");
            let in_message = bit / 8 < length;
            assert_eq!(padding::remove_number(&changed) == 0, in_message);
        }
    }
}

#[test]
fn every_cut_length_is_judged_as_the_meaning_says() {
    let padded = padding::padded(&help::message(120));
    for length in 0..=padded.len() {
        assert!(agrees(&padded[..length]), "length {length}");
        let accepted = padding::remove_number(&padded[..length]) == 0;
        assert_eq!(accepted, length == padded.len());
    }
}

#[test]
fn a_block_too_many_or_too_few_is_refused() {
    // One zero block more than the fewest zero bytes ask for.
    let mut longer = b"abc".to_vec();
    longer.push(0x80);
    longer.resize(120, 0);
    longer.extend_from_slice(&24u64.to_be_bytes());
    assert_eq!(padding::remove_number(&longer), 14);
    // 56 bytes squeezed into one block.
    let mut squeezed = help::message(56);
    squeezed.extend_from_slice(&448u64.to_be_bytes());
    assert_eq!(padding::remove_number(&squeezed), 14);
}

#[test]
fn lengths_that_say_nonsense_are_refused() {
    for bits in [1, 7, 25, 504, 512, 8 << 32, u64::MAX, u64::MAX - 7] {
        let mut bytes = padding::padded(b"abc");
        bytes[56..].copy_from_slice(&u64::to_be_bytes(bits));
        assert_eq!(padding::remove_number(&bytes), 14, "{bits} bits");
        assert!(agrees(&bytes));
    }
}
