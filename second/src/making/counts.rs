//! Counts of a session: those that its slots give, and any that it may hold
//! instead.

use crate::making::random::Random;
use crate::session::Session;
use crate::walk;

/// How many notes are listed, and how many are open.
pub type Counts = (u8, u8);

/// Where something changes: no note and the first, all 32 and what stands beside
/// them, half of a byte, and its end. 200 is any number that no session has.
pub const EDGES: [u8; 13] = [0, 1, 2, 30, 31, 32, 33, 34, 127, 128, 200, 254, 255];

/// The pair of edges whose turn it is: 169 turns go through all.
pub fn in_turn(turn: u64) -> Counts {
    let edge = |turn: u64| EDGES[turn as usize % EDGES.len()];
    (edge(turn / EDGES.len() as u64), edge(turn))
}

/// Counts for these slots: those that fit, others beside them, equal ones, none,
/// or any at an edge.
pub fn some(random: &mut Random, session: &Session) -> Counts {
    let (listed, open) = walk::counts(session);
    let edge = random.pick(&EDGES);
    let any = random.word() as u8;
    let beside = random.pick(&[open.wrapping_sub(1), open + 1]);
    match random.below(10) {
        0 | 1 => (listed, open),
        2 => (listed, beside),
        3 => (listed, edge),
        4 => (edge, open),
        5 => (listed, listed),
        6 => (edge, edge),
        7 => (any, any),
        8 => (0, 0),
        _ => (edge, random.pick(&EDGES)),
    }
}

pub fn put(session: &mut Session, (listed, open): Counts) {
    (session.listed, session.open) = (listed, open);
}
