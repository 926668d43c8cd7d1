//! Slots and sessions of every kind, and the calls over them.

use crate::calls::call::Call;
use crate::calls::deciding;
use crate::calls::kinds::Wish;
use crate::calls::states::{self, LONGEST_SLICE};
use crate::calls::values::Lent;
use crate::hash::State;
use crate::making::random::Random;
use crate::making::{counts, faults, loops, notes, sheets};
use crate::padding::LONGEST;
use crate::refusal::ACCEPTED;
use crate::session::{Record, Session, Slot, NONE, NOTES, OPEN, SHUT, WAITING};

pub fn sheet_read(wish: &mut Wish) -> Call {
    let before = before(wish);
    let (_, text) = sheets::at(wish.seed, wish.ordinal);
    let text = Lent::Bytes(text);
    Call::SheetRead { before, text }
}

/// An empty text: any other is read.
pub fn sheet_read_absent(wish: &mut Wish) -> Call {
    let before = before(wish);
    let text = Lent::Absent(0);
    Call::SheetRead { before, text }
}

/// What a sheet is read over, where it is read in place.
pub fn before(wish: &mut Wish) -> Option<Box<Session>> {
    let wanted = wish.in_place();
    wanted.then(|| Box::new(any(&mut wish.random, wish.ordinal)))
}

/// Behind the turns that every kind of slot has come those of notes that are
/// decided.
pub fn deliver(wish: &mut Wish) -> Call {
    let turns = SLOT_TURNS + deciding::TURNS;
    let (round, place) = (wish.ordinal / turns, wish.ordinal % turns);
    let random = &mut wish.random;
    let scene = match place.checked_sub(SLOT_TURNS) {
        Some(turn) => deciding::scene(random, round, turn),
        None => varied(random, round * SLOT_TURNS + place),
    };
    Call::Deliver {
        in_place: wish.in_place(),
        session: Box::new(scene.session),
        note: scene.note,
        piece: Lent::Bytes(scene.rest),
    }
}

/// A scene with any slot, now and then about another note, and with any piece.
fn varied(random: &mut Random, turn: u64) -> Scene {
    let mut scene = scene(random, turn);
    scene.note = note(random, turn, scene.note);
    scene.rest = piece(random, scene.rest);
    scene
}

/// A piece that no slot can take: it is longer than what the slot still lacks,
/// also where a cut to 32 bits would make it fit. Now and then an empty one.
pub fn deliver_absent(wish: &mut Wish) -> Call {
    let scene = scene(&mut wish.random, wish.ordinal);
    let note = note(&mut wish.random, wish.ordinal, scene.note);
    let lacking = match scene.session.slots[scene.note as usize - 1] {
        slot if slot.state.total < slot.record.length => slot.record.length - slot.state.total,
        _ => 0,
    };
    let fits = scene.rest.len() as u64;
    let past = lacking + 1;
    let lengths = [past, (1 << 32) + fits, LONGEST + 1, LONGEST_SLICE];
    let length = if wish.random.one_in(8) {
        0
    } else if note == scene.note {
        wish.random.pick(&lengths).max(past)
    } else {
        LONGEST_SLICE
    };
    Call::Deliver {
        in_place: wish.in_place(),
        session: Box::new(scene.session),
        note,
        piece: Lent::Absent(length),
    }
}

pub fn ask(wish: &mut Wish) -> Call {
    let scene = scene(&mut wish.random, wish.ordinal);
    Call::Ask {
        in_place: wish.in_place(),
        note: note(&mut wish.random, wish.ordinal, scene.note),
        session: Box::new(scene.session),
    }
}

/// A session, the note that it is about, and bytes that would end its sample.
pub struct Scene {
    pub session: Session,
    pub note: u64,
    pub rest: Vec<u8>,
}

/// A session of any slots and counts.
pub fn any(random: &mut Random, turn: u64) -> Session {
    scene(random, turn).session
}

fn scene(random: &mut Random, turn: u64) -> Scene {
    let note = random.within(1, NOTES);
    let mut session = Session::unlisted();
    let crowd = if random.one_in(4) { NOTES } else { 5 };
    let others = random.pick(&[0, 1, 2, 3, 4, crowd]);
    for _ in 0..others {
        let place = random.index(NOTES as usize);
        let turn = random.word();
        session.slots[place] = slot(random, turn).0;
    }
    let (slot, rest) = slot(random, turn);
    session.slots[note as usize - 1] = slot;
    let counts = counts::some(random, &session);
    counts::put(&mut session, counts);
    Scene {
        session,
        note,
        rest,
    }
}

/// Mostly the note itself; else one that is out of bounds or not listed, or
/// whose low bits are the note's. Where each status, or each loop at a limit,
/// has its only turn, it is the note itself.
fn note(random: &mut Random, turn: u64, note: u64) -> u64 {
    if matches!(turn % SLOT_TURNS, LOOP_TURN | STATUS_TURN) {
        return note;
    }
    let outside = [0, 33, 34, 255, 256, 257, 261, 4294967301, u64::MAX];
    let wrapped = [
        1 << 8,
        1 << 16,
        1 << 31,
        1 << 32,
        1 << 63,
        u64::MAX - 255,
        32,
        64,
    ];
    match random.below(12) {
        0 => random.pick(&outside),
        1 => note + random.pick(&wrapped),
        2 => random.within(1, NOTES),
        _ => note,
    }
}

/// The rest, a part of it, more than it, or other bytes.
fn piece(random: &mut Random, mut rest: Vec<u8>) -> Vec<u8> {
    match random.below(12) {
        0 => rest.clear(),
        1 => rest.push(random.word() as u8),
        2 => rest.extend_from_slice(&random.bytes(64)),
        3 => rest.truncate(rest.len().saturating_sub(1)),
        4 | 5 => {
            let length = random.index(rest.len() + 1);
            rest.truncate(length);
        }
        6 => {
            let length = random.below(201) as usize;
            rest = random.bytes(length);
        }
        _ => (),
    }
    rest
}

/// How many turns there are for slots, the one that goes through all loops at
/// the limits, and the one that goes through all statuses.
const SLOT_TURNS: u64 = 12;
const LOOP_TURN: u64 = 4;
const STATUS_TURN: u64 = 6;

/// A slot by turns: in order, or spoilt in one of its parts.
pub fn slot(random: &mut Random, turn: u64) -> (Slot, Vec<u8>) {
    let (mut slot, rest) = waiting(random);
    let decided = random.pick(&[OPEN, SHUT]);
    match turn % SLOT_TURNS {
        0..=3 => (),
        LOOP_TURN => return with_limit_loop(random, turn / SLOT_TURNS),
        5 => slot = decided_slot(slot.record, decided),
        STATUS_TURN => {
            slot.status = (turn / SLOT_TURNS % 256) as u8;
            if random.one_in(2) {
                slot.state = State::fresh();
            }
        }
        7 => {
            slot.record = bad_record(random, &slot.record);
            if random.one_in(3) {
                slot = decided_slot(slot.record, decided);
            }
        }
        8 => spoil_total(random, &mut slot),
        9 => slot.state = states::dirty(random, slot.state.total),
        10 => {
            slot = decided_slot(slot.record, decided);
            spoil_fresh(random, &mut slot);
        }
        // Not listed, whatever else it holds.
        _ => slot.status = NONE,
    }
    (slot, rest)
}

/// A slot that is in order but for its loop, one at a limit by turns: all of
/// them waiting, then open, then shut.
pub fn with_limit_loop(random: &mut Random, turn: u64) -> (Slot, Vec<u8>) {
    let (limit, round) = loops::in_turn(turn);
    let (mut slot, rest) = waiting_for(random, limit.length);
    slot.record = Record {
        digest: slot.record.digest,
        ..limit
    };
    match round % 3 {
        0 => (),
        1 => slot = decided_slot(slot.record, OPEN),
        _ => slot = decided_slot(slot.record, SHUT),
    }
    (slot, rest)
}

/// A listed slot in order: nothing taken, half loaded, open or shut.
pub fn in_order(random: &mut Random) -> Slot {
    let (slot, _) = waiting(random);
    match random.below(4) {
        0 => Slot {
            state: State::fresh(),
            ..slot
        },
        1 => decided_slot(slot.record, OPEN),
        2 => decided_slot(slot.record, SHUT),
        _ => slot,
    }
}

/// So many notes, each in order, at any place of its loading; no counts yet.
pub fn loaded(random: &mut Random, count: u64) -> Session {
    let mut session = Session::unlisted();
    for note in notes::rising(random, count) {
        session.slots[note as usize - 1] = in_order(random);
    }
    session
}

/// So many notes, each open; no counts yet.
pub fn all_open(random: &mut Random, count: u64) -> Session {
    let mut session = loaded(random, count);
    let listed = session.slots.iter_mut().filter(|slot| slot.status != NONE);
    listed.for_each(|slot| *slot = decided_slot(slot.record, OPEN));
    session
}

/// A listed slot that is not in order.
pub fn spoilt(random: &mut Random) -> Slot {
    loop {
        let turn = random.word();
        let (slot, _) = slot(random, turn);
        if slot.status != NONE && !slot.in_order() {
            return slot;
        }
    }
}

/// A slot that lists no note, whatever else it holds.
pub fn unlisted(random: &mut Random) -> Slot {
    let turn = random.word();
    Slot {
        status: NONE,
        ..slot(random, turn).0
    }
}

fn decided_slot(record: Record, status: u8) -> Slot {
    Slot {
        record,
        state: State::fresh(),
        status,
    }
}

/// A waiting slot in order and the bytes it lacks.
fn waiting(random: &mut Random) -> (Slot, Vec<u8>) {
    let length = notes::length(random);
    waiting_for(random, length)
}

/// One for a sample of this length. Two digests of three are those of the
/// sample that the bytes end; the others are wrong by a bit.
fn waiting_for(random: &mut Random, length: u64) -> (Slot, Vec<u8>) {
    let most = if random.one_in(20) { 5000 } else { 200 };
    let lacking = random.within(1, length.min(most));
    let lacking = if random.one_in(4) { length } else { lacking };
    let state = begun(random, length - lacking);
    let rest = random.bytes(if lacking > 5000 {
        100
    } else {
        lacking as usize
    });
    let mut digest = digest_after(state, &rest);
    if random.one_in(3) {
        digest[random.index(32)] ^= random.bit();
    }
    (waiting_slot(random, length, digest, state), rest)
}

pub fn digest_after(mut state: State, rest: &[u8]) -> [u8; 32] {
    assert_eq!(state.update(rest), ACCEPTED);
    state.finish().digest
}

pub fn waiting_slot(random: &mut Random, length: u64, digest: [u8; 32], state: State) -> Slot {
    Slot {
        record: notes::record(random, length, digest),
        state,
        status: WAITING,
    }
}

/// A state that took so many bytes: one that a message leads to if there are
/// few, else any in order.
pub fn begun(random: &mut Random, total: u64) -> State {
    if total > 300 || random.one_in(3) {
        return states::in_order(random, total);
    }
    let mut state = State::fresh();
    assert_eq!(state.update(&random.bytes(total as usize)), ACCEPTED);
    state
}

/// A record that rule 3 or rule 4 refuses.
fn bad_record(random: &mut Random, good: &Record) -> Record {
    let mut bad = *good;
    if random.one_in(3) {
        bad.length = faults::bad_length(random, good.length);
    } else {
        (bad.loop_start, bad.loop_end) = faults::bad_loop(random, good);
    }
    bad
}

/// A total that is not below the length, or not in order at all.
fn spoil_total(random: &mut Random, slot: &mut Slot) {
    let length = slot.record.length;
    let past = [
        length,
        length,
        length + 1,
        length + 64,
        LONGEST,
        LONGEST + 1,
        1 << 63,
        u64::MAX,
    ];
    let total = random.pick(&past);
    slot.state = states::in_order(random, total);
}

/// Any state but the fresh one.
fn spoil_fresh(random: &mut Random, slot: &mut Slot) {
    let state = &mut slot.state;
    match random.below(5) {
        0 => state.words[random.index(8)] ^= 1 << random.below(32),
        1 => state.total = random.pick(&[1, 64, slot.record.length, LONGEST, u64::MAX]),
        2 => state.tail[random.index(64)] = random.bit(),
        3 => {
            *state = State {
                words: [0; 8],
                ..*state
            }
        }
        _ => *state = states::in_order(random, slot.record.length),
    }
}
