//! Sheets of every kind, good and spoilt.

use crate::making::notes::{self, Fields};
use crate::making::random::Random;
use crate::making::turns::{turn, Weighted};
use crate::making::{faults, loops};
use crate::refusal::{BAD_LENGTH, BAD_LOOP, COUNT_OR_NOTE, FORM};
use crate::session::{Record, NOTES};

/// A kind of sheet. The maker is told the how-manieth of its kind it makes.
pub struct Kind {
    pub name: &'static str,
    weight: u64,
    make: fn(&mut Random, u64) -> Vec<u8>,
}

impl Weighted for Kind {
    fn weight(&self) -> u64 {
        self.weight
    }
}

/// All kinds, and how often each has its turn.
pub const KINDS: [Kind; 11] = [
    kind("good", 3, good),
    kind("rule", 8, rule_at_line),
    kind("loops", 2, loop_at_limit),
    kind("form", 8, form_at_line),
    kind("edge", 6, edge_number),
    kind("faults", 4, several_faults),
    kind("stops", 2, stops),
    kind("ends", 2, line_ends),
    kind("long", 1, long),
    kind("damage", 3, damaged),
    kind("tokens", 1, tokens),
];

const fn kind(name: &'static str, weight: u64, make: fn(&mut Random, u64) -> Vec<u8>) -> Kind {
    Kind { name, weight, make }
}

/// The sheet at this index, and its kind's name.
pub fn at(seed: u64, index: u64) -> (&'static str, Vec<u8>) {
    let (kind, ordinal) = turn(&KINDS, index);
    let mut random = Random::new(seed, kind.name, ordinal);
    (kind.name, (kind.make)(&mut random, ordinal))
}

fn good(random: &mut Random, ordinal: u64) -> Vec<u8> {
    let notes = notes::some(random, ordinal % NOTES + 1);
    notes::text(&notes::lines(&notes))
}

/// What a sheet is refused for, in the order in which a line is judged.
const RULES: [u8; 4] = [FORM, COUNT_OR_NOTE, BAD_LENGTH, BAD_LOOP];

/// How many pairs of a line and a rule a sheet of 32 notes has.
pub const RULES_AT_LINES: u64 = 2 + 4 * NOTES;

/// Line (from 1) and rule of a pair: the first line has form and count only.
pub fn rule_and_line(ordinal: u64) -> (u8, usize) {
    let pair = (ordinal % RULES_AT_LINES) as usize;
    if pair < 2 {
        return (RULES[pair], 1);
    }
    (RULES[(pair - 2) % 4], (pair - 2) / 4 + 2)
}

/// Every rule broken at every line of a sheet of 32 notes. As notes rise
/// strictly to 32, they are 1..32.
pub fn rule_at_line(random: &mut Random, ordinal: u64) -> Vec<u8> {
    let notes = notes::some(random, NOTES);
    let (rule, line) = rule_and_line(ordinal);
    broken(random, &notes, rule, line)
}

/// The sheet of these notes with a rule broken at a line, counted from 1.
fn broken(random: &mut Random, notes: &[(u64, Record)], rule: u8, line: usize) -> Vec<u8> {
    let mut lines = notes::lines(notes);
    if rule == FORM {
        let forms = faults::bad_forms(&lines[line - 1]);
        let form = &forms[random.index(forms.len())];
        return replaced(&lines, line, form);
    }
    if line == 1 {
        let count = faults::bad_count(random, notes.len() as u64);
        lines[0][2] = count.to_string().into_bytes();
        return notes::text(&lines);
    }
    let (note, record) = notes[line - 2];
    let before = if line == 2 { 0 } else { notes[line - 3].0 };
    let fields = &mut lines[line - 1];
    let mut put = |place: usize, value: u64| fields[place] = value.to_string().into_bytes();
    match rule {
        COUNT_OR_NOTE => put(0, faults::bad_note(random, note, before)),
        BAD_LENGTH => put(1, faults::bad_length(random, record.length)),
        _ => {
            let (start, end) = faults::bad_loop(random, &record);
            put(2, start);
            put(3, end);
        }
    }
    notes::text(&lines)
}

/// The sheet with one line's text, LF and all, put in its place.
fn replaced(lines: &[Fields], line: usize, text: &[u8]) -> Vec<u8> {
    let mut sheet = notes::text(&lines[..line - 1]);
    sheet.extend_from_slice(text);
    sheet.extend_from_slice(&notes::text(&lines[line..]));
    sheet
}

/// Every loop at a limit, in the line of one of some notes.
fn loop_at_limit(random: &mut Random, ordinal: u64) -> Vec<u8> {
    let count = notes::count(random);
    let mut notes = notes::some(random, count);
    let record = &mut notes[random.index(count as usize)].1;
    *record = Record {
        digest: record.digest,
        ..loops::in_turn(ordinal).0
    };
    notes::text(&notes::lines(&notes))
}

/// Every spoilt form: those of line 1, then those of a note's line.
fn form_at_line(random: &mut Random, ordinal: u64) -> Vec<u8> {
    let count = notes::count(random);
    let notes = notes::some(random, count);
    let lines = notes::lines(&notes);
    let line = random.index(notes.len()) + 2;
    let first = faults::bad_forms(&lines[0]);
    let other = faults::bad_forms(&lines[line - 1]);
    let place = ordinal as usize % (first.len() + other.len());
    if place < first.len() {
        return replaced(&lines, 1, &first[place]);
    }
    replaced(&lines, line, &other[place - first.len()])
}

/// Every number at an edge, in every field that takes a number.
fn edge_number(random: &mut Random, ordinal: u64) -> Vec<u8> {
    let count = notes::count(random);
    let mut lines = notes::lines(&notes::some(random, count));
    let numbers = faults::edge_numbers();
    let field = ordinal as usize % 5;
    let number = &numbers[ordinal as usize / 5 % numbers.len()];
    if field == 4 {
        lines[0][2] = number.clone();
    } else {
        let line = random.within(1, count) as usize;
        lines[line][field] = number.clone();
    }
    notes::text(&lines)
}

/// Two or three fields spoilt, of one line or of several: the first bad line
/// decides, and in it the first rule.
fn several_faults(random: &mut Random, _ordinal: u64) -> Vec<u8> {
    let count = notes::count(random);
    let mut lines = notes::lines(&notes::some(random, count));
    let numbers = faults::edge_numbers();
    let mut line = random.index(lines.len());
    for _ in 0..random.within(2, 3) {
        let field = random.index(lines[line].len());
        lines[line][field] = match random.below(4) {
            0 => random.pick(&[&b""[..], b"x", b"1", b"RANK"]).to_vec(),
            _ => numbers[random.index(numbers.len())].clone(),
        };
        if random.one_in(2) {
            line = random.index(lines.len());
        }
    }
    notes::text(&lines)
}

/// A good sheet that stops: after every byte of a small one, in turn.
fn stops(random: &mut Random, ordinal: u64) -> Vec<u8> {
    let count = if random.one_in(4) { NOTES } else { 2 };
    let notes = notes::some(random, count);
    let mut text = notes::text(&notes::lines(&notes));
    let length = ordinal as usize % text.len();
    text.truncate(length);
    text
}

/// Line ends that are not LF, and text after the sheet.
fn line_ends(random: &mut Random, ordinal: u64) -> Vec<u8> {
    let count = notes::count(random);
    let notes = notes::some(random, count);
    let good = notes::text(&notes::lines(&notes));
    let after = [
        &b"\n"[..],
        b"\r\n",
        b"\t",
        b" ",
        b"\0",
        b"\x1a",
        b"x",
        b"RANK\t1\t1\n",
    ];
    match ordinal % 6 {
        0 => with_line_ends(&good, b"\r\n"),
        1 => with_line_ends(
            &good,
            random.pick(&[&b"\r"[..], b"", b"\n\n", b"\n\r", b"\0"]),
        ),
        2 => good[..good.len() - 1].to_vec(),
        3 => [&good[..good.len() - 1], random.pick(&[b"\r\n", b"\n\n"])].concat(),
        4 => [&good[..], random.pick(&after)].concat(),
        _ => {
            let again = notes::line_text(&notes::lines(&notes)[count as usize]);
            [good, again].concat()
        }
    }
}

fn with_line_ends(text: &[u8], end: &[u8]) -> Vec<u8> {
    let lines: Vec<&[u8]> = text.split(|byte| *byte == b'\n').collect();
    lines.join(end)
}

/// The longest sheet, 3,233 bytes, and what may stand around it; texts of
/// more than 4,096 bytes.
fn long(random: &mut Random, ordinal: u64) -> Vec<u8> {
    let notes: Vec<(u64, Record)> = (1..=NOTES).map(|note| (note, longest(random))).collect();
    let text = notes::text(&notes::lines(&notes));
    let more = random.pick(&[1, 862, 863, 864, 1000, 5000]);
    match ordinal % 8 {
        0 => text,
        1 => [text, vec![b'\n'; more]].concat(),
        2 => [text, random.bytes(more)].concat(),
        3 => text[..text.len() - 1].to_vec(),
        4 => [&text[..text.len() - 1], &vec![b'0'; more][..], b"\n"].concat(),
        5 => [b"RANK\t1\t", &vec![b'3'; 4000 + more][..], b"\n"].concat(),
        6 => [&vec![b'\n'; 4000 + more][..], &text].concat(),
        _ => [&text[..3000], &vec![b' '; more], &text[3000..]].concat(),
    }
}

/// The record whose line is the longest: the loop starts with ten digits too.
pub fn longest(random: &mut Random) -> Record {
    Record {
        length: 4294967294,
        loop_start: 2147483645,
        loop_end: 2147483646,
        digest: random.digest(),
    }
}

/// Bytes changed, put in, left out or doubled at random.
fn damaged(random: &mut Random, ordinal: u64) -> Vec<u8> {
    let mut text = good(random, random_count(ordinal));
    for _ in 0..random.within(1, 3) {
        damage(random, &mut text);
    }
    text
}

/// Mostly few notes: damage is then seldom in a digest of a later line.
fn random_count(ordinal: u64) -> u64 {
    if ordinal.is_multiple_of(5) {
        ordinal
    } else {
        ordinal % 3
    }
}

/// A byte changed, put in, left out or doubled.
pub fn damage(random: &mut Random, text: &mut Vec<u8>) {
    // Half of the damage is in the first 60 bytes, where the numbers are.
    let bound = if random.one_in(2) { 60 } else { text.len() };
    let place = random.index(bound.min(text.len()).max(1));
    let byte = match random.below(3) {
        0 => random.word() as u8,
        _ => random.pick(b"0123456789abcdef\t\t\t\n\n\n\r RANK"),
    };
    match random.below(5) {
        0 => text.insert(place, byte),
        1 if place < text.len() => {
            text.remove(place);
        }
        2 if place < text.len() => text.insert(place, text[place]),
        3 if place < text.len() => text[place] ^= random.bit(),
        _ if place < text.len() => text[place] = byte,
        _ => text.push(byte),
    }
}

/// Pieces of sheets in no order.
fn tokens(random: &mut Random, _ordinal: u64) -> Vec<u8> {
    let digest = [b'a'; 64];
    let all = [
        &b"RANK\t1\t1\n"[..],
        b"RANK\t1\t2\n",
        b"RANK",
        b"1",
        b"2",
        b"0",
        b"32",
        b"64",
        b"\t",
        b"\t",
        b"\n",
        b"5\t64\t0\t31\t",
        b"9\t6\t0\t2\t",
        &digest,
        &digest,
        b"\n",
    ];
    let mut text = if random.one_in(4) {
        Vec::new()
    } else {
        b"RANK\t1\t2\n".to_vec()
    };
    for _ in 0..random.below(16) {
        text.extend_from_slice(random.pick(&all));
    }
    text
}
