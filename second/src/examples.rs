//! The small examples of document 01 that are run: the digest of "abc", and a
//! state that has taken 2^61 - 1 bytes.

use crate::hash::{digest, State};
use crate::padding::LONGEST;

/// What the proved program prints of them, a line each.
pub fn printed() -> String {
    let words: Vec<String> = digest(b"abc").digest.chunks(4).map(hex).collect();
    format!(
        "abc: {}\n{}{}",
        words.join(" "),
        updated("an empty piece", b""),
        updated("one byte", b"x")
    )
}

fn hex(bytes: &[u8]) -> String {
    bytes.iter().map(|byte| format!("{byte:02x}")).collect()
}

fn updated(name: &str, piece: &[u8]) -> String {
    let mut state = State {
        total: LONGEST,
        ..State::fresh()
    };
    let number = state.update(piece);
    format!(
        "total 2^61 - 1, {name}: number {number}, total afterwards {}\n",
        state.total
    )
}
