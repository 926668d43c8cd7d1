//! Folders of every kind: a sheet and what stands beside it.

use crate::hash;
use crate::making::random::Random;
use crate::making::turns::{turn, Weighted};
use crate::making::{loops, notes, sheets};
use crate::program::PIECE;
use crate::session::{Record, NOTES};
use std::io;
use std::path::Path;

/// Something with a name in a folder.
pub enum Entry {
    File(Vec<u8>),
    Directory,
    /// A symbolic link to a name in the same folder, which may not be there.
    Link(&'static str),
}

/// A folder that is not written yet.
pub struct Content {
    pub kind: &'static str,
    pub entries: Vec<(String, Entry)>,
}

struct Kind {
    name: &'static str,
    weight: u64,
    make: fn(&mut Random, u64) -> Vec<(String, Entry)>,
}

impl Weighted for Kind {
    fn weight(&self) -> u64 {
        self.weight
    }
}

/// The first kind stands for all kinds of sheets.
const KINDS: [Kind; 6] = [
    kind("sheet", 12, |_, _| Vec::new()),
    kind("no-sheet", 1, no_sheet),
    kind("sizes", 4, sizes),
    kind("many", 2, many),
    kind("skips", 1, skips),
    kind("names", 1, names),
];

const fn kind(
    name: &'static str,
    weight: u64,
    make: fn(&mut Random, u64) -> Vec<(String, Entry)>,
) -> Kind {
    Kind { name, weight, make }
}

/// Of the turns of `names`, which has some to spare, these few are given to
/// large samples: they take long.
const LARGE_EVERY: u64 = 48;
const LARGE_AT: u64 = 4;

/// The folder at this index.
pub fn at(seed: u64, index: u64) -> Content {
    let (kind, ordinal) = turn(&KINDS, index);
    let mut random = Random::new(seed, kind.name, ordinal);
    if kind.name == "names" && ordinal % LARGE_EVERY == LARGE_AT {
        return Content {
            kind: "large",
            entries: large(&mut random, ordinal / LARGE_EVERY),
        };
    }
    if kind.name != "sheet" {
        let entries = (kind.make)(&mut random, ordinal);
        return Content {
            kind: kind.name,
            entries,
        };
    }
    let (kind, text) = sheets::at(seed, ordinal);
    let mut entries = vec![sheet(text)];
    for note in 1..=NOTES {
        if random.one_in(8) {
            entries.push(small_file(&mut random, note));
        }
    }
    Content { kind, entries }
}

impl Content {
    /// Writes the folder, which must not be there yet.
    pub fn write(&self, path: &Path) -> io::Result<()> {
        std::fs::create_dir(path)?;
        for (name, entry) in &self.entries {
            let path = path.join(name);
            match entry {
                Entry::File(bytes) => std::fs::write(path, bytes)?,
                Entry::Directory => std::fs::create_dir(path)?,
                Entry::Link(to) => std::os::unix::fs::symlink(to, path)?,
            }
        }
        Ok(())
    }
}

fn sheet(text: Vec<u8>) -> (String, Entry) {
    ("rank.txt".to_string(), Entry::File(text))
}

fn sample(note: u64, bytes: Vec<u8>) -> (String, Entry) {
    (format!("{note:02}.raw"), Entry::File(bytes))
}

fn small_file(random: &mut Random, note: u64) -> (String, Entry) {
    let length = random.below(80) as usize;
    sample(note, random.bytes(length))
}

/// The sheet is missing, empty, a directory, or a link.
fn no_sheet(random: &mut Random, ordinal: u64) -> Vec<(String, Entry)> {
    let mut entries = vec![small_file(random, 1), small_file(random, 5)];
    let name = "rank.txt".to_string();
    let notes = notes::some(random, 2);
    let good = notes::text(&notes::lines(&notes));
    match ordinal % 7 {
        0 => (),
        1 => entries.push(sheet(Vec::new())),
        2 => entries.push((name, Entry::Directory)),
        3 => entries.push((name, Entry::Link("nowhere"))),
        4 => entries.push((name, Entry::Link("rank.txt"))),
        5 => entries.push(("RANK.TXT".to_string(), Entry::File(good))),
        _ => {
            entries.push(("elsewhere".to_string(), Entry::File(good)));
            entries.push((name, Entry::Link("elsewhere")));
        }
    }
    entries
}

/// A note to be: its record and what its file holds.
struct Voice {
    record: Record,
    file: Vec<u8>,
}

/// Lengths up to this have a sample of their own, whose digest is known.
const KNOWN: u64 = 20000;

/// A note whose file has this size. Of three known samples two have the right
/// digest; the third is wrong by one bit.
fn voice(random: &mut Random, length: u64, size: usize) -> Voice {
    let known = if length <= KNOWN { length as usize } else { 0 };
    let file = random.bytes(size.max(known));
    let mut digest = hash::digest(&file[..known]).digest;
    if random.one_in(3) {
        digest[random.index(32)] ^= random.bit();
    }
    let record = notes::record(random, length, digest);
    let file = file[..size].to_vec();
    Voice { record, file }
}

/// A note with a loop at a limit, the allowed ones by turns, and a file of which
/// every byte is taken.
fn limit_voice(random: &mut Random, turn: u64) -> Voice {
    let limit = loops::allowed_in_turn(turn);
    let Voice { record, file } = voice(random, limit.length, limit.length.min(64) as usize);
    let digest = record.digest;
    Voice {
        record: Record { digest, ..limit },
        file,
    }
}

/// The folder of some notes, each with its file.
fn folder(random: &mut Random, voices: Vec<Voice>) -> Vec<(String, Entry)> {
    let notes = notes::rising(random, voices.len() as u64);
    let listed: Vec<(u64, Record)> = notes
        .iter()
        .zip(&voices)
        .map(|(note, voice)| (*note, voice.record))
        .collect();
    let mut entries = vec![sheet(notes::text(&notes::lines(&listed)))];
    for (note, voice) in notes.iter().zip(voices) {
        entries.push(sample(*note, voice.file));
    }
    entries
}

/// Lengths and sizes around one and two full pieces, and around each other.
fn sizes(random: &mut Random, ordinal: u64) -> Vec<(String, Entry)> {
    let lengths = [
        2, 64, 4094, 4096, 4098, 6000, 8190, 8192, 8194, 12288, 16386, 4294967294,
    ];
    let mut voices = Vec::new();
    for turn in 2 * ordinal..2 * ordinal + 2 {
        let length = lengths[turn as usize % lengths.len()];
        let size = size(random, length.min(KNOWN) as usize);
        voices.push(voice(random, length, size));
    }
    if ordinal.is_multiple_of(4) {
        voices.push(past(random, ordinal as usize / 4));
    }
    if random.one_in(60) {
        voices.push(voice(random, 100000, 100000));
    }
    folder(random, voices)
}

/// A sample of whole pieces and a file that is longer: the note is decided
/// before the bytes too many come.
fn past(random: &mut Random, turn: usize) -> Voice {
    let length = PIECE * (turn % 3 + 1);
    let more = [1, 1, 2, PIECE][turn / 3 % 4];
    voice(random, length as u64, length + more)
}

/// A sample of more than 2,048 pieces: whole and right, cut short behind all
/// of them, wrong in its last byte, or of whole pieces with a byte too many.
fn large(random: &mut Random, turn: u64) -> Vec<(String, Entry)> {
    let length = match turn % 4 {
        3 => PIECE * random.within(2050, 2200) as usize,
        _ => 2 * random.within(4_200_000, 4_500_000) as usize,
    };
    let mut file = random.bytes(length + 1);
    let digest = hash::digest(&file[..length]).digest;
    match turn % 4 {
        0 => file.truncate(length),
        1 => file.truncate(length - random.within(1, 3000) as usize),
        2 => {
            file.truncate(length);
            file[length - 1] ^= random.bit();
        }
        _ => (),
    }
    let record = notes::record(random, length as u64, digest);
    let other = voice(random, 64, 64);
    folder(random, vec![Voice { record, file }, other])
}

/// A file's size: around full pieces, around the length, or a piece longer.
fn size(random: &mut Random, length: usize) -> usize {
    let down = length - length % PIECE;
    let around = random.pick(&[0, PIECE, 2 * PIECE, length, length, length, length + PIECE]);
    match random.below(8) {
        0 => down,
        1 => down + PIECE,
        2 => 2 * length,
        3 => around + 1,
        4 => around.saturating_sub(1),
        5 => around + 2,
        _ => around,
    }
}

/// Many notes with small files: open, shut, waiting, too long; some missing,
/// some a directory or a link.
fn many(random: &mut Random, ordinal: u64) -> Vec<(String, Entry)> {
    let mut voices = Vec::new();
    for _ in 0..ordinal % NOTES + 1 {
        let length = 2 * random.within(1, 100);
        let off = random.pick(&[0, 0, 0, 0, -2, -1, 1, 2, 64]);
        voices.push(voice(random, length, (length as i64 + off) as usize));
    }
    let mut entries = folder(random, voices);
    let mut place = 1;
    while place < entries.len() {
        match random.below(12) {
            0 => {
                entries.remove(place);
                continue;
            }
            1 => entries[place].1 = Entry::Directory,
            2 => entries[place].1 = Entry::Link("nowhere"),
            3 => entries[place].1 = Entry::Link("rank.txt"),
            4 => entries[place].1 = Entry::File(Vec::new()),
            _ => (),
        }
        place += 1;
    }
    entries
}

/// Files of which a piece is refused and the next would fit. The digest is
/// that of the file without the refused piece, which no one may find open.
/// Beside it is a note of which nothing is refused.
fn skips(random: &mut Random, ordinal: u64) -> Vec<(String, Entry)> {
    let whole = ordinal as usize % 3;
    let rest = 2 * random.within(1, PIECE as u64 / 2 - 1) as usize;
    let rest = if ordinal.is_multiple_of(2) { 2 } else { rest };
    let last = random.pick(&[rest, rest, rest, 1, rest - 1]);
    let file = random.bytes((whole + 1) * PIECE + last);
    let mut kept = file[..whole * PIECE].to_vec();
    kept.extend_from_slice(&file[(whole + 1) * PIECE..]);
    let length = (whole * PIECE + rest) as u64;
    let record = notes::record(random, length, hash::digest(&kept).digest);
    let other = limit_voice(random, ordinal);
    folder(random, vec![Voice { record, file }, other])
}

/// Files under names that are not the note's: not to be read.
fn names(random: &mut Random, ordinal: u64) -> Vec<(String, Entry)> {
    let right = voice(random, 64, 64);
    let mut entries = folder(random, vec![right]);
    let note: u64 = entries[1].0[..2].parse().expect("its note");
    entries[1].0 = match ordinal % 8 {
        0 => format!("{note}.raw"),
        1 => format!("{note:03}.raw"),
        2 => format!("{note:02}.RAW"),
        3 => format!("{note:02}"),
        4 => format!("{:02}.raw", note - 1),
        5 => format!("{:02}.raw", note + 1),
        6 => format!("{note:02x}.raw"),
        _ => format!(" {note:02}.raw"),
    };
    entries
}
