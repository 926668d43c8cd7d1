//! What several tests need: messages, sheets and folders.

use second::hash;
use second::session::{Record, Session};
use std::path::PathBuf;

/// A message of this length in which neighbouring bytes and blocks differ.
pub fn message(length: usize) -> Vec<u8> {
    (0..length).map(|k| (7 * k + k / 64 + 1) as u8).collect()
}

pub fn digest_of(message: &[u8]) -> [u8; 32] {
    let answer = hash::digest(message);
    assert_eq!(answer.number, 0);
    answer.digest
}

pub fn hex(bytes: &[u8]) -> String {
    bytes.iter().map(|byte| format!("{byte:02x}")).collect()
}

pub fn zeros() -> String {
    "0".repeat(64)
}

/// A sheet out of lines in which blanks stand for tabs and Z for 64 zeros.
pub fn sheet(lines: &[&str]) -> String {
    lines
        .iter()
        .map(|line| line.replace('Z', &zeros()).replace(' ', "\t") + "\n")
        .collect()
}

/// A record of this length that loops over the whole sample.
pub fn record(length: u64, digest: [u8; 32]) -> Record {
    Record {
        length,
        loop_start: 0,
        loop_end: length / 2 - 1,
        digest,
    }
}

/// The greatest number of 32 bits, after which none comes.
const MAX: u64 = 4294967295;

/// Loops on both sides of rule 4's limits: a sample's length, the loops that are
/// allowed, and those that are refused.
type Loops = (u64, &'static [(u64, u64)], &'static [(u64, u64)]);

const LOOPS: [Loops; 4] = [
    (
        2,
        &[(0, 0)],
        &[(0, 1), (1, 1), (1, 0), (0, MAX), (MAX, MAX)],
    ),
    (
        4,
        &[(0, 0), (0, 1), (1, 1)],
        &[
            (0, 2),
            (1, 2),
            (2, 2),
            (2, 1),
            (1, 0),
            (0, 3),
            (0, MAX),
            (MAX, MAX),
        ],
    ),
    (
        64,
        &[(0, 0), (0, 31), (31, 31)],
        &[
            (0, 32),
            (31, 32),
            (32, 32),
            (32, 31),
            (1, 0),
            (0, 63),
            (0, MAX),
            (MAX, MAX),
        ],
    ),
    (
        4294967294,
        &[(0, 0), (0, 2147483646), (2147483646, 2147483646)],
        &[
            (0, 2147483647),
            (2147483646, 2147483647),
            (2147483647, 2147483647),
            (2147483647, 2147483646),
            (1, 0),
            (0, 4294967293),
            (0, MAX),
            (MAX, MAX),
        ],
    ),
];

/// A record with each of these loops, and whether it is allowed.
pub fn loops() -> Vec<(Record, bool)> {
    let mut all = Vec::new();
    for (length, allowed, refused) in LOOPS {
        for (loops, good) in [(allowed, true), (refused, false)] {
            all.extend(loops.iter().map(|(loop_start, loop_end)| {
                let record = Record {
                    length,
                    loop_start: *loop_start,
                    loop_end: *loop_end,
                    digest: [0; 32],
                };
                (record, good)
            }));
        }
    }
    all
}

/// A session that lists note 5 alone, for this very sample.
pub fn session_for(sample: &[u8]) -> Session {
    let mut session = Session::unlisted();
    session.list(5, record(sample.len() as u64, digest_of(sample)));
    session
}

/// An empty folder of a test's own, under the build's folder.
pub fn folder(name: &str) -> PathBuf {
    let path = PathBuf::from(env!("CARGO_TARGET_TMPDIR")).join(name);
    if path.exists() {
        std::fs::remove_dir_all(&path).unwrap();
    }
    std::fs::create_dir_all(&path).unwrap();
    path
}
