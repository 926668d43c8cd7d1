//! Sessions that are asked whether every listed note is open.

use crate::calls::call::Call;
use crate::calls::kinds::Wish;
use crate::calls::sessions;
use crate::making::counts;
use crate::making::random::Random;
use crate::session::{Session, NONE, NOTES};
use crate::walk;

/// How many turns there are.
const TURNS: u64 = 4;

/// By turns every pair of counts at an edge, over slots that mostly say
/// something else; the counts that fit; and any.
pub fn ready(wish: &mut Wish) -> Call {
    let random = &mut wish.random;
    let (round, turn) = (wish.ordinal / TURNS, wish.ordinal % TURNS);
    let mut session = match (turn, random.below(3)) {
        (2, _) | (_, 0) => loaded(random, round),
        _ => sessions::any(random, wish.ordinal),
    };
    let counts = match turn {
        0 | 1 => counts::in_turn(2 * round + turn),
        2 => walk::counts(&session),
        _ => counts::some(random, &session),
    };
    counts::put(&mut session, counts);
    Call::Ready {
        session: Box::new(session),
    }
}

/// No note to all 32, open but for one of them now and then.
fn loaded(random: &mut Random, round: u64) -> Session {
    let mut session = sessions::all_open(random, round % (NOTES + 1));
    let listed = session.slots.iter_mut().filter(|slot| slot.status != NONE);
    let mut listed: Vec<_> = listed.collect();
    if !listed.is_empty() && random.one_in(2) {
        let place = random.index(listed.len());
        *listed[place] = sessions::in_order(random);
    }
    session
}
