//! The full walk over the slots, which the counts of a session stand for: from
//! an accepted sheet on, and after any deliveries, the two must say the same.

use crate::session::{Session, NONE, OPEN};

/// How many slots list a note, and how many hold an open one.
pub fn counts(session: &Session) -> (u8, u8) {
    let with = |wanted: fn(u8) -> bool| {
        let slots = session.slots.iter().filter(|slot| wanted(slot.status));
        slots.count() as u8
    };
    (with(|status| status != NONE), with(|status| status == OPEN))
}

/// Whether a note is listed and every one that is has its slot open.
pub fn all_open(session: &Session) -> bool {
    let mut statuses = session.slots.iter().map(|slot| slot.status);
    let mut listed = statuses.clone().filter(|status| *status != NONE);
    statuses.any(|status| status != NONE) && listed.all(|status| status == OPEN)
}

/// What is wrong with a session that deliveries have led to from an accepted
/// sheet: its counts, what was answered to whether it is ready, or that this is
/// a no where the answer before the last delivery was a yes.
pub fn fault(session: &Session, ready: bool, ready_before: bool) -> Option<&'static str> {
    let (listed, open) = counts(session);
    if session.listed != listed {
        return Some("the listed count is not that of the slots");
    }
    if session.open != open {
        return Some("the open count is not that of the slots");
    }
    if ready != all_open(session) {
        return Some("ready is not what the walk over the slots says");
    }
    (ready_before && !ready).then_some("a delivery turned a yes into a no")
}
