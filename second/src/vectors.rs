//! Runs data files of examples: messages with what is printed about them.
//!
//! A line is one of: a comment (`#`), blank, or a capital letter followed by
//! hex: M message, B padded words, K next block, W words, P primed words, R
//! row, V chained words, D digest.

use crate::hash;
use crate::padding;
use crate::sm3::{self, Trace};
use std::ffi::OsString;
use std::path::Path;

/// How many of each thing were compared.
#[derive(Clone, Copy, Debug, Default, PartialEq, Eq)]
pub struct Counts {
    pub messages: usize,
    pub words: usize,
    pub primed: usize,
    pub rows: usize,
    pub chained: usize,
    pub padded: usize,
    pub digests: usize,
}

/// What came of one file.
#[derive(Clone, Debug, PartialEq, Eq)]
pub struct Checked {
    pub counts: Counts,
    /// The lines, from 1, that differ or are malformed.
    pub differing: Vec<usize>,
}

/// What came of all files.
pub struct Run {
    pub printed: String,
    pub good: bool,
}

/// Runs files of a folder, in the order given.
pub fn run(folder: &Path, files: &[OsString]) -> Run {
    let mut printed = String::new();
    let mut good = true;
    for file in files {
        let name = file.to_string_lossy();
        match std::fs::read(folder.join(file)) {
            Err(_) => {
                printed.push_str(&format!("missing {name}\n"));
                good = false;
            }
            Ok(bytes) => {
                let checked = check(&String::from_utf8_lossy(&bytes));
                printed.push_str(&describe(&name, &checked));
                good &= checked.differing.is_empty();
            }
        }
    }
    Run { printed, good }
}

fn describe(name: &str, checked: &Checked) -> String {
    let mut text = String::new();
    for line in &checked.differing {
        text.push_str(&format!("differ {name} line {line}\n"));
    }
    let counts = &checked.counts;
    text.push_str(name);
    for (what, count) in [
        ("messages", counts.messages),
        ("words", counts.words),
        ("primed", counts.primed),
        ("rows", counts.rows),
        ("chained", counts.chained),
        ("padded", counts.padded),
        ("digests", counts.digests),
        ("differ", checked.differing.len()),
    ] {
        text.push_str(&format!("\t{what} {count}"));
    }
    text.push('\n');
    text
}

/// Compares a file's text, line by line.
pub fn check(text: &str) -> Checked {
    let mut reader = Reader::default();
    let mut differing = Vec::new();
    for (index, line) in text.lines().enumerate() {
        if reader.line(line) != Some(true) {
            differing.push(index + 1);
        }
    }
    Checked {
        counts: reader.counts,
        differing,
    }
}

/// A block's trace, and how much of it the file has shown so far.
struct Block {
    trace: Trace,
    words: usize,
    primed: usize,
    rows: usize,
}

/// A message, and how much of it the file has shown so far.
#[derive(Default)]
struct Example {
    message: Vec<u8>,
    padded: usize,
    blocks: usize,
    block: Option<Block>,
}

#[derive(Default)]
struct Reader {
    counts: Counts,
    example: Option<Example>,
    /// Whether the line before was of the message, so that another joins it.
    in_message: bool,
}

impl Reader {
    /// Some(true) for a line that agrees, Some(false) for one that differs,
    /// None for a malformed one.
    fn line(&mut self, line: &str) -> Option<bool> {
        let continued = std::mem::take(&mut self.in_message);
        if line.starts_with('#') || line.trim().is_empty() {
            return Some(true);
        }
        let (letter, hex) = parted(line)?;
        if letter == 'M' {
            return self.message(hex, continued);
        }
        let example = self.example.as_mut()?;
        let counts = &mut self.counts;
        match letter {
            'B' => example.padded_words(&words(hex)?, &mut counts.padded),
            'K' if hex.is_empty() => example.next_block(),
            'W' => example.block.as_mut()?.words(&words(hex)?, counts),
            'P' => example.block.as_mut()?.primed(&words(hex)?, counts),
            'R' => example.block.as_mut()?.row(&eight(hex)?, counts),
            'V' => example.block.as_mut()?.chained(&eight(hex)?, counts),
            'D' => example.digest(&bytes(hex)?, &mut counts.digests),
            _ => None,
        }
    }

    fn message(&mut self, hex: &str, continued: bool) -> Option<bool> {
        let Some(piece) = bytes(hex) else {
            // Without its message nothing of the example can be compared.
            self.example = None;
            return None;
        };
        if !continued {
            self.counts.messages += 1;
            self.example = Some(Example::default());
        }
        self.in_message = true;
        self.example.as_mut()?.message.extend_from_slice(&piece);
        Some(true)
    }
}

impl Example {
    fn padded_words(&mut self, printed: &[u32], count: &mut usize) -> Option<bool> {
        let ours: Vec<u32> = padding::padded(&self.message)
            .chunks(4)
            .map(|four| u32::from_be_bytes([four[0], four[1], four[2], four[3]]))
            .collect();
        Some(next_words(&ours, printed, &mut self.padded, count))
    }

    /// Folds the blocks before the next one and traces that one.
    fn next_block(&mut self) -> Option<bool> {
        self.block = None;
        let padded = padding::padded(&self.message);
        let before = padded.get(..64 * self.blocks)?;
        let block: &[u8; 64] = padded.get(before.len()..)?.first_chunk()?;
        self.block = Some(Block {
            trace: sm3::trace(&sm3::fold(&sm3::START, before), block),
            words: 0,
            primed: 0,
            rows: 0,
        });
        self.blocks += 1;
        Some(true)
    }

    fn digest(&self, printed: &[u8], count: &mut usize) -> Option<bool> {
        if printed.len() != 32 {
            return None;
        }
        *count += 1;
        Some(hash::digest(&self.message).digest[..] == *printed)
    }
}

impl Block {
    fn words(&mut self, printed: &[u32], counts: &mut Counts) -> Option<bool> {
        let (ours, seen) = (&self.trace.words, &mut self.words);
        Some(next_words(ours, printed, seen, &mut counts.words))
    }

    fn primed(&mut self, printed: &[u32], counts: &mut Counts) -> Option<bool> {
        let (ours, seen) = (&self.trace.primed, &mut self.primed);
        Some(next_words(ours, printed, seen, &mut counts.primed))
    }

    /// Rows go by order alone: the first is the state before round 0.
    fn row(&mut self, printed: &[u32; 8], counts: &mut Counts) -> Option<bool> {
        let ours = self.trace.rows.get(self.rows)?;
        self.rows += 1;
        counts.rows += 1;
        Some(ours == printed)
    }

    fn chained(&self, printed: &[u32; 8], counts: &mut Counts) -> Option<bool> {
        counts.chained += 1;
        Some(self.trace.chained == *printed)
    }
}

/// Compares the next printed words with ours. Printed words past our end
/// differ, and are not counted as compared.
fn next_words(ours: &[u32], printed: &[u32], seen: &mut usize, count: &mut usize) -> bool {
    let left = &ours[*seen..];
    let compared = printed.len().min(left.len());
    *seen += compared;
    *count += compared;
    left[..compared] == *printed
}

/// A line's letter and what stands after the blank, which may be nothing.
fn parted(line: &str) -> Option<(char, &str)> {
    let letter = line.chars().next()?;
    let rest = &line[letter.len_utf8()..];
    if !rest.trim().is_empty() && !rest.starts_with(' ') {
        return None;
    }
    Some((letter, rest.trim()))
}

/// Words of eight hex digits each, at least one.
fn words(hex: &str) -> Option<Vec<u32>> {
    let words: Option<Vec<u32>> = hex.split_whitespace().map(word).collect();
    words.filter(|words| !words.is_empty())
}

fn word(hex: &str) -> Option<u32> {
    let four: [u8; 4] = bytes(hex)?.try_into().ok()?;
    Some(u32::from_be_bytes(four))
}

fn eight(hex: &str) -> Option<[u32; 8]> {
    words(hex)?.try_into().ok()
}

/// Bytes of two hex digits each, blanks between them ignored. Printed texts
/// use capitals too, so both cases are digits here.
fn bytes(hex: &str) -> Option<Vec<u8>> {
    let digits: Option<Vec<u32>> = hex
        .chars()
        .filter(|character| !character.is_whitespace())
        .map(|character| character.to_digit(16))
        .collect();
    let digits = digits?;
    if !digits.len().is_multiple_of(2) {
        return None;
    }
    let pairs = digits.chunks(2);
    Some(pairs.map(|pair| (16 * pair[0] + pair[1]) as u8).collect())
}
