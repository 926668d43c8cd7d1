//! Notes and records that a sheet may list, and their lines.

use crate::making::random::Random;
use crate::session::{Record, LONGEST_SAMPLE, NOTES};

/// A line of a sheet: its fields, not yet parted by tabs.
pub type Fields = Vec<Vec<u8>>;

/// So many different notes, rising.
pub fn rising(random: &mut Random, count: u64) -> Vec<u64> {
    let mut left = count;
    let mut notes = Vec::new();
    for note in 1..=NOTES {
        // Of the notes from this one on, `left` are still to be taken.
        if random.below(NOTES + 1 - note) < left {
            notes.push(note);
            left -= 1;
        }
    }
    notes
}

/// How many notes: mostly few, at times all.
pub fn count(random: &mut Random) -> u64 {
    match random.below(8) {
        0 => NOTES,
        1 => random.within(1, NOTES),
        _ => random.within(1, 4),
    }
}

/// A length that rule 3 allows.
pub fn length(random: &mut Random) -> u64 {
    let limits = [2, 4, 62, 64, 66, 254, 256, 258, 4094, 4096, 4098, 65536];
    match random.below(8) {
        0 => random.pick(&limits),
        1 => LONGEST_SAMPLE - 2 * random.below(3),
        2 => 2 * random.within(1, LONGEST_SAMPLE / 2),
        _ => 2 * random.within(1, 150),
    }
}

/// A record that rules 3 and 4 allow, for a sample of this length.
pub fn record(random: &mut Random, length: u64, digest: [u8; 32]) -> Record {
    let any = Record {
        length,
        loop_start: 0,
        loop_end: 0,
        digest,
    };
    let mut records = looped(random, &any, &[]);
    records.retain(Record::loop_allowed);
    random.pick(&records)
}

/// The record with many loops, of which rule 4 allows some: from and to each
/// edge of the sample, some more frames, and a frame at random.
pub fn looped(random: &mut Random, record: &Record, more: &[u64]) -> Vec<Record> {
    let half = record.length / 2;
    let any = random.within(0, half);
    let mut frames = vec![0, 1, any, half.saturating_sub(1), half, half + 1];
    frames.extend(more);
    let mut records = Vec::new();
    for loop_start in &frames {
        for loop_end in &frames {
            records.push(Record {
                loop_start: *loop_start,
                loop_end: *loop_end,
                ..*record
            });
        }
    }
    records
}

/// Some notes with records of any allowed kind.
pub fn some(random: &mut Random, count: u64) -> Vec<(u64, Record)> {
    rising(random, count)
        .into_iter()
        .map(|note| {
            let length = length(random);
            let digest = random.digest();
            (note, record(random, length, digest))
        })
        .collect()
}

/// The fields of a sheet's lines.
pub fn lines(notes: &[(u64, Record)]) -> Vec<Fields> {
    let count = notes.len().to_string().into_bytes();
    let mut lines = vec![vec![b"RANK".to_vec(), b"1".to_vec(), count]];
    for (note, record) in notes {
        let numbers = [*note, record.length, record.loop_start, record.loop_end];
        let mut fields: Fields = numbers.map(|n| n.to_string().into_bytes()).to_vec();
        fields.push(hex(&record.digest));
        lines.push(fields);
    }
    lines
}

/// Fields parted by tabs and ended by LF.
pub fn line_text(fields: &[Vec<u8>]) -> Vec<u8> {
    let mut text = fields.join(&b'\t');
    text.push(b'\n');
    text
}

/// The whole sheet.
pub fn text(lines: &[Fields]) -> Vec<u8> {
    lines.iter().flat_map(|fields| line_text(fields)).collect()
}

fn hex(bytes: &[u8]) -> Vec<u8> {
    bytes
        .iter()
        .flat_map(|byte| format!("{byte:02x}").into_bytes())
        .collect()
}
