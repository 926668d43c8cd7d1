//! Sequences of deliveries to several notes, each in two orders.

use crate::calls::call::Call;
use crate::calls::sessions;
use crate::calls::values::Lent;
use crate::hash;
use crate::making::random::Random;
use crate::making::{counts, loops, notes};
use crate::session::{Record, Session, NOTES};
use crate::writing::LONGEST_SHEET;

/// Where a sequence starts from.
pub enum Start {
    /// The session of a sheet, which is accepted.
    Sheet(Vec<u8>),
    /// A stored session of any content.
    Stored(Box<Session>),
}

pub struct Delivery {
    pub note: u64,
    pub piece: Vec<u8>,
}

pub struct Sequence {
    pub start: Start,
    /// In the one order.
    pub deliveries: Vec<Delivery>,
    /// The other order: the same deliveries by their places in the one, those
    /// of each note still in their own order.
    pub other: Vec<usize>,
    pub in_place: bool,
    /// Where the sheet of the session at the end is written to. It always fits.
    pub buffer: Vec<u8>,
}

impl Sequence {
    /// The places of the one order.
    pub fn one(&self) -> Vec<usize> {
        (0..self.deliveries.len()).collect()
    }

    /// The call that makes the delivery at a place.
    pub fn call(&self, place: usize, session: &Session) -> Call {
        let delivery = &self.deliveries[place];
        Call::Deliver {
            in_place: self.in_place,
            session: Box::new(*session),
            note: delivery.note,
            piece: Lent::Bytes(delivery.piece.clone()),
        }
    }

    pub fn kind(&self) -> &'static str {
        match (&self.start, self.in_place) {
            (Start::Sheet(_), false) => "sheet",
            (Start::Sheet(_), true) => "sheet_in_place",
            (Start::Stored(_), false) => "stored",
            (Start::Stored(_), true) => "stored_in_place",
        }
    }
}

/// The sequence at this index: by turns from a sheet or a stored session, by
/// value or in place.
pub fn at(seed: u64, index: u64) -> Sequence {
    let mut random = Random::new(seed, "orders", index);
    let (start, mut parts) = if index.is_multiple_of(2) {
        // Each turn comes by value and in place.
        from_sheet(&mut random, index / 4)
    } else {
        from_stored(&mut random, index / 2)
    };
    let stranger = stranger(&mut random, &parts);
    parts.push(stranger);
    parts.retain(|(_, pieces)| !pieces.is_empty());
    // One order of two is note by note, as files are loaded.
    let one = match random.below(2) {
        0 => note_by_note(&parts),
        _ => mixed(&mut random, &parts),
    };
    let other = mixed(&mut random, &parts);
    let place = |wanted| one.iter().position(|taken| *taken == wanted);
    Sequence {
        start,
        other: other.into_iter().filter_map(place).collect(),
        deliveries: one
            .into_iter()
            .map(|taken| delivery(&parts, taken))
            .collect(),
        in_place: index / 2 % 2 == 1,
        buffer: random.bytes(LONGEST_SHEET),
    }
}

/// A note, and the pieces that it is to get.
type Part = (u64, Vec<Vec<u8>>);

/// Of the turns of sheets one in so many lists all 32 notes.
const FULL_EVERY: u64 = 25;
const FULL_AT: u64 = 6;

/// Two to five notes of a sheet, or all, the first with a loop at a limit. Every
/// third time all of them are to open, so that a session is ready at the end.
fn from_sheet(random: &mut Random, turn: u64) -> (Start, Vec<Part>) {
    let opens = turn.is_multiple_of(3);
    let count = match turn % FULL_EVERY {
        FULL_AT => NOTES,
        _ => random.within(2, 5),
    };
    let mut listed: Vec<(u64, Record)> = Vec::new();
    let mut parts = Vec::new();
    for note in notes::rising(random, count) {
        let (record, sample) = if listed.is_empty() {
            with_limit_loop(random, turn, opens)
        } else {
            with_any_loop(random, opens)
        };
        listed.push((note, record));
        let pieces = match opens {
            true => all_pieces(random, &sample),
            false => pieces(random, &sample),
        };
        parts.push((note, pieces));
    }
    let text = notes::text(&notes::lines(&listed));
    (Start::Sheet(text), parts)
}

fn with_any_loop(random: &mut Random, opens: bool) -> (Record, Vec<u8>) {
    let most = random.pick(&[40, 40, 150, 2500]);
    let sample_length = 2 * random.within(1, most);
    let (sample, digest) = sample(random, sample_length, opens);
    (notes::record(random, sample_length, digest), sample)
}

/// Allowed loops by turns. Of a long sample only the first bytes come.
fn with_limit_loop(random: &mut Random, turn: u64, opens: bool) -> (Record, Vec<u8>) {
    let limit = loops::allowed_in_turn(turn);
    let (sample, digest) = sample(random, limit.length.min(100), opens);
    (Record { digest, ..limit }, sample)
}

/// Bytes, and their digest or, where they need not open a note, a wrong one.
fn sample(random: &mut Random, length: u64, opens: bool) -> (Vec<u8>, [u8; 32]) {
    let sample = random.bytes(length as usize);
    let mut digest = hash::digest(&sample).digest;
    if !opens && random.one_in(3) {
        digest[random.index(32)] ^= random.bit();
    }
    (sample, digest)
}

/// Slots of every kind, in order or not, two to five notes among them, and
/// counts that fit or not.
fn from_stored(random: &mut Random, turn: u64) -> (Start, Vec<Part>) {
    let mut session = Session::unlisted();
    for _ in 0..random.below(5) {
        let place = random.index(NOTES as usize);
        let turn = random.word();
        session.slots[place] = sessions::slot(random, turn).0;
    }
    let mut parts = Vec::new();
    let count = random.within(2, 5);
    for (k, note) in notes::rising(random, count).into_iter().enumerate() {
        let (slot, rest) = sessions::slot(random, turn + 5 * k as u64);
        session.slots[note as usize - 1] = slot;
        parts.push((note, pieces(random, &rest)));
    }
    let counts = counts::some(random, &session);
    counts::put(&mut session, counts);
    (Start::Stored(Box::new(session)), parts)
}

/// A note that is none of these: out of bounds, or one that mostly is not
/// listed.
fn stranger(random: &mut Random, parts: &[Part]) -> Part {
    let any = random.within(1, NOTES);
    let of_part = |note: &u64| parts.iter().any(|(other, _)| other == note);
    let mut free: Vec<u64> = (1..=NOTES).filter(|note| !of_part(note)).collect();
    let outside = random.pick(&[0, 33, 256 + any, (1 << 32) + any, u64::MAX]);
    // A sheet that lists every note leaves none.
    if free.is_empty() {
        free.push(outside);
    }
    let free = random.pick(&free);
    let note = random.pick(&[free, outside]);
    (note, pieces(random, b"anything"))
}

/// The bytes in some pieces, of which now and then the last are missing.
fn pieces(random: &mut Random, bytes: &[u8]) -> Vec<Vec<u8>> {
    let mut pieces = all_pieces(random, bytes);
    if random.one_in(4) {
        pieces.truncate(random.index(pieces.len() + 1));
    }
    pieces
}

/// The bytes in some pieces, with others between and behind them: empty ones,
/// and ones that are too long.
fn all_pieces(random: &mut Random, bytes: &[u8]) -> Vec<Vec<u8>> {
    let mut pieces = Vec::new();
    let mut rest = bytes;
    while !rest.is_empty() {
        if random.one_in(3) {
            pieces.push(noise(random, rest.len()));
        }
        let (piece, after) = rest.split_at(random.index(rest.len()) + 1);
        pieces.push(piece.to_vec());
        rest = after;
    }
    for _ in 0..random.below(3) {
        pieces.push(noise(random, 0));
    }
    pieces
}

fn noise(random: &mut Random, lacking: usize) -> Vec<u8> {
    let longer = lacking + random.within(1, 100) as usize;
    let length = random.pick(&[0, 0, lacking + 1, longer]);
    random.bytes(length)
}

/// A delivery: the part's place and the piece's place in it.
type Taken = (usize, usize);

fn delivery(parts: &[Part], (part, piece): Taken) -> Delivery {
    Delivery {
        note: parts[part].0,
        piece: parts[part].1[piece].clone(),
    }
}

fn note_by_note(parts: &[Part]) -> Vec<Taken> {
    let pieces = |part: usize| (0..parts[part].1.len()).map(move |piece| (part, piece));
    (0..parts.len()).flat_map(pieces).collect()
}

/// Each time the next piece of any note that has one.
fn mixed(random: &mut Random, parts: &[Part]) -> Vec<Taken> {
    let mut next = vec![0; parts.len()];
    let mut order = Vec::new();
    loop {
        let left: Vec<usize> = (0..parts.len())
            .filter(|part| next[*part] < parts[*part].1.len())
            .collect();
        if left.is_empty() {
            return order;
        }
        let part = random.pick(&left);
        order.push((part, next[part]));
        next[part] += 1;
    }
}
