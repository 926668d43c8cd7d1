//! Sessions whose sheet is to be written, and the call over them.

use crate::calls::call::Call;
use crate::calls::kinds::Wish;
use crate::calls::sessions::{self, loaded};
use crate::making::random::Random;
use crate::making::{counts, notes, sheets};
use crate::session::{Record, Session, NONE, NOTES, OPEN, SHUT, WAITING};
use crate::sheet;
use crate::writing::{self, LONGEST_SHEET};

pub fn sheet_write(wish: &mut Wish) -> Call {
    let mut session = session(wish);
    // What is written goes by the slots, whatever the counts are.
    let counts = counts::some(&mut wish.random, &session);
    counts::put(&mut session, counts);
    let sheet = writing::text(&session).len();
    let mut size = buffer_size(&mut wish.random, sheet);
    // Every loop that is allowed is to be written.
    if wish.ordinal % TURNS == LOOP_TURN {
        size = size.max(sheet);
    }
    Call::SheetWrite {
        session: Box::new(session),
        buffer: wish.random.bytes(size),
    }
}

/// Exact, longer than the sheet, or too short by one or more. A session that is
/// refused gets all of them too, by what its sheet would be.
fn buffer_size(random: &mut Random, sheet: usize) -> usize {
    let longer = sheet + random.within(2, 5000) as usize;
    let short = random.index(sheet);
    let shortest = random.pick(&[0, 0, 1, 8]);
    let enough = [sheet, sheet, sheet + 1, longer, LONGEST_SHEET.max(sheet)];
    match random.below(12) {
        0 | 1 => sheet - 1,
        2 => short,
        3 => shortest,
        _ => random.pick(&enough),
    }
}

/// How many turns there are for sessions, and the one that goes through all
/// loops at the limits.
const TURNS: u64 = 15;
const LOOP_TURN: u64 = 4;

/// The place of the last note's slot.
const LAST: usize = NOTES as usize - 1;

/// A session by turns: of an accepted sheet, with notes loaded in part or in
/// full, with a loop at a limit, with one slot spoilt or many, with no note
/// listed, or with numbers of every width.
fn session(wish: &mut Wish) -> Session {
    let random = &mut wish.random;
    let few = notes::count(random);
    let many = random.within(2, NOTES);
    match wish.ordinal % TURNS {
        0 | 1 => of_sheet(random, wish.ordinal / TURNS % NOTES + 1),
        2 | 3 => loaded(random, few),
        LOOP_TURN => with_limit_loop(random, few, wish.ordinal / TURNS),
        5 => with_unlisted(random, few),
        6 => spoilt(random, many, |_, listed| [0, listed[0]]),
        7 => spoilt(random, many, |_, listed| [LAST, listed[listed.len() - 1]]),
        8 => spoilt(random, many, |random, listed| [random.pick(listed); 2]),
        9 | 10 => with_unlisted(random, 0),
        11 => longest(random),
        12 => any(random, few),
        13 => tens(random, many),
        _ => with_status(random, few),
    }
}

/// Of a sheet of so many notes: each waiting, and nothing taken.
fn of_sheet(random: &mut Random, count: u64) -> Session {
    let lines = notes::lines(&notes::some(random, count));
    sheet::read(&notes::text(&lines)).session
}

/// So many notes in order, and one slot where nothing but a loop at a limit may
/// be at fault.
fn with_limit_loop(random: &mut Random, count: u64, turn: u64) -> Session {
    let mut session = loaded(random, count);
    let place = random.index(session.slots.len());
    session.slots[place] = sessions::with_limit_loop(random, turn).0;
    session
}

/// So many notes in order, and slots that list none but hold something: that
/// is no fault, however spoilt they are.
fn with_unlisted(random: &mut Random, count: u64) -> Session {
    let mut session = loaded(random, count);
    let times = random.pick(&[1, 4, 16, 64]);
    for slot in &mut session.slots {
        if slot.status == NONE && random.one_in(times) {
            *slot = sessions::unlisted(random);
        }
    }
    session
}

/// The places of the slots that list a note.
fn listed(session: &Session) -> Vec<usize> {
    let places = 0..session.slots.len();
    places
        .filter(|place| session.slots[*place].status != NONE)
        .collect()
}

/// So many notes in order, but for one slot at one of these two places.
fn spoilt(
    random: &mut Random,
    count: u64,
    places: fn(&mut Random, &[usize]) -> [usize; 2],
) -> Session {
    let mut session = loaded(random, count);
    let places = places(random, &listed(&session));
    session.slots[random.pick(&places)] = sessions::spoilt(random);
    session
}

/// The longest sheet, of notes at any place of their loading.
fn longest(random: &mut Random) -> Session {
    let mut session = Session::unlisted();
    for note in 1..=NOTES {
        session.list(note, sheets::longest(random));
        session.slots[note as usize - 1].status = random.pick(&[WAITING, OPEN, SHUT]);
    }
    session
}

/// So many notes whose numbers are powers of ten or stand beside one: there the
/// number of digits grows.
fn tens(random: &mut Random, count: u64) -> Session {
    let mut session = Session::unlisted();
    for note in notes::rising(random, count) {
        session.list(note, record_of_tens(random));
    }
    session
}

/// Such a record that rules 3 and 4 allow.
fn record_of_tens(random: &mut Random) -> Record {
    let mut ten = || {
        let power = 10_u64.pow(random.below(10) as u32);
        random.pick(&[power - 1, power, power, power + 1, 2 * power, 4 * power])
    };
    loop {
        let record = Record {
            length: ten(),
            loop_start: ten(),
            loop_end: ten(),
            digest: [0; 32],
        };
        if record.length_allowed() && record.loop_allowed() {
            let digest = random.digest();
            return Record { digest, ..record };
        }
    }
}

/// So many slots of any kind.
fn any(random: &mut Random, count: u64) -> Session {
    let mut session = Session::unlisted();
    for note in notes::rising(random, count) {
        let turn = random.word();
        session.slots[note as usize - 1] = sessions::slot(random, turn).0;
    }
    session
}

/// So many notes in order, but for one whose status is none of the four.
fn with_status(random: &mut Random, count: u64) -> Session {
    let mut session = loaded(random, count);
    let place = random.pick(&listed(&session));
    session.slots[place].status = random.within(4, 255) as u8;
    session
}
