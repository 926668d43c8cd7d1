//! Loops on both sides of rule 4's limits: what a rule that is wrong by one
//! frame, by the unit or by a wrapped sum takes for the other side.

use crate::session::{Record, LONGEST_SAMPLE};
use crate::sheet::GREATEST;

/// The two shortest samples, the one of the papers' loops, and the longest.
const LENGTHS: [u64; 4] = [2, 4, 64, LONGEST_SAMPLE];

/// All of them, with no digest yet. They are so few that a run of 2,000 folders
/// or of 50,000 calls goes through all.
pub fn at_limits() -> Vec<Record> {
    LENGTHS.into_iter().flat_map(of_length).collect()
}

/// The one whose turn it is, and how many rounds through all came before.
pub fn in_turn(turn: u64) -> (Record, u64) {
    let all = at_limits();
    let count = all.len() as u64;
    (all[(turn % count) as usize], turn / count)
}

/// The one whose turn it is of those that rule 4 allows.
pub fn allowed_in_turn(turn: u64) -> Record {
    let mut allowed = at_limits();
    allowed.retain(Record::loop_allowed);
    allowed[turn as usize % allowed.len()]
}

fn of_length(length: u64) -> Vec<Record> {
    let frames = length / 2;
    let last = frames - 1;
    let mut loops = vec![
        // All frames, the last alone, the first alone.
        (0, last),
        (last, last),
        (0, 0),
        // One frame beyond the sample.
        (0, frames),
        (last, frames),
        (frames, frames),
        // Backwards by one frame.
        (frames, last),
        (1, 0),
        // The last of as many frames as there are bytes.
        (0, length - 1),
        // After this one comes none in 32 bits.
        (0, GREATEST),
        (GREATEST, GREATEST),
    ];
    // In the shortest sample some of these are the same.
    loops.sort_unstable();
    loops.dedup();
    loops
        .into_iter()
        .map(|(loop_start, loop_end)| Record {
            length,
            loop_start,
            loop_end,
            digest: [0; 32],
        })
        .collect()
}
