//! Notes that a delivery decides, in sessions with counts of every kind.

use crate::calls::sessions::{self, Scene};
use crate::making::counts;
use crate::making::random::Random;
use crate::session::{Slot, NONE, NOTES};
use crate::walk;

/// How many turns there are.
pub const TURNS: u64 = 4;

/// By turns: two notes are opened and one is shut, beside any slots, with every
/// pair of counts at an edge; and one is opened in a session of 1 to 32 notes
/// whose counts fit, mostly as the last of them.
pub fn scene(random: &mut Random, round: u64, turn: u64) -> Scene {
    match turn {
        0 | 1 => beside_any(random, true, 2 * round + turn),
        2 => beside_any(random, false, round),
        _ => beside_loaded(random, round % NOTES + 1),
    }
}

fn beside_any(random: &mut Random, opens: bool, turn: u64) -> Scene {
    let (slot, rest) = decided_by(random, opens);
    let mut session = sessions::any(random, turn);
    let place = random.index(session.slots.len());
    session.slots[place] = slot;
    counts::put(&mut session, counts::in_turn(turn));
    Scene {
        session,
        note: place as u64 + 1,
        rest,
    }
}

/// So many notes with the one that is opened.
fn beside_loaded(random: &mut Random, count: u64) -> Scene {
    let (slot, rest) = decided_by(random, true);
    let mut session = match random.below(3) {
        0 => sessions::loaded(random, count),
        _ => sessions::all_open(random, count),
    };
    let mut places: Vec<usize> = (0..session.slots.len()).collect();
    places.retain(|place| session.slots[*place].status != NONE);
    let place = random.pick(&places);
    session.slots[place] = slot;
    let fitting = walk::counts(&session);
    counts::put(&mut session, fitting);
    Scene {
        session,
        note: place as u64 + 1,
        rest,
    }
}

/// A waiting slot and what it lacks, which opens it or shuts it.
fn decided_by(random: &mut Random, opens: bool) -> (Slot, Vec<u8>) {
    let length = 2 * random.within(1, 150);
    let lacking = random.within(1, length);
    let state = sessions::begun(random, length - lacking);
    let rest = random.bytes(lacking as usize);
    let mut digest = sessions::digest_after(state, &rest);
    if !opens {
        digest[random.index(32)] ^= random.bit();
    }
    let slot = sessions::waiting_slot(random, length, digest, state);
    (slot, rest)
}
