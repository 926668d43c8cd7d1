//! What the two drivers report: counts of each kind, and slips found.

use std::collections::BTreeMap;
use std::io::Write;

/// Differences after which a driver stops.
pub const MOST_DIFFERENCES: u64 = 10;

/// How many there were of each kind.
#[derive(Default)]
pub struct Tally {
    counts: BTreeMap<String, u64>,
}

impl Tally {
    pub fn add(&mut self, kind: &str) {
        match self.counts.get_mut(kind) {
            Some(count) => *count += 1,
            None => {
                self.counts.insert(kind.to_string(), 1);
            }
        }
    }

    /// The kinds and their counts, each after a tab.
    pub fn text(&self) -> String {
        self.counts
            .iter()
            .map(|(kind, count)| format!("\t{kind} {count}"))
            .collect()
    }
}

/// One run of a driver: what it compared, and what came of it.
pub struct Report<'a> {
    out: &'a mut dyn Write,
    kinds: Tally,
    answers: Tally,
    pub differ: u64,
    /// Each slip to find, and whether it was found.
    slips: Vec<(&'static str, bool)>,
}

impl<'a> Report<'a> {
    pub fn new(out: &'a mut dyn Write, seed: u64, slips: Vec<&'static str>) -> Report<'a> {
        let mut report = Report {
            out,
            kinds: Tally::default(),
            answers: Tally::default(),
            differ: 0,
            slips: slips.into_iter().map(|name| (name, false)).collect(),
        };
        report.say(&format!("seed {seed}"));
        report
    }

    /// Prints a line. What cannot be printed is lost, but not the status.
    pub fn say(&mut self, line: &str) {
        let _ = writeln!(self.out, "{line}").and_then(|()| self.out.flush());
    }

    /// One case was compared.
    pub fn compared(&mut self, kind: &str) {
        self.kinds.add(kind);
    }

    /// One answer was of this kind.
    pub fn answered(&mut self, kind: &str) {
        self.answers.add(kind);
    }

    pub fn differs(&mut self, description: &str) {
        self.differ += 1;
        self.say(&format!("differ {description}"));
    }

    /// Whether this slip is still to be found.
    pub fn seeks(&self, slip: &str) -> bool {
        self.slips.contains(&(slip, false))
    }

    pub fn found(&mut self, slip: &'static str, by: &str) {
        self.slips.retain(|(name, _)| *name != slip);
        self.slips.push((slip, true));
        self.say(&format!("slip {slip} found by {by}"));
    }

    /// Whether nothing more is to be learnt.
    pub fn done(&self) -> bool {
        let all_found = self.slips.iter().all(|(_, found)| *found);
        self.differ >= MOST_DIFFERENCES || (all_found && !self.slips.is_empty())
    }

    /// The last lines; whether nothing differs and every slip was found.
    pub fn end(mut self, what: &str) -> bool {
        let mut good = self.differ == 0;
        for (name, found) in self.slips.clone() {
            if !found {
                good = false;
                self.say(&format!("slip {name} not found"));
            }
        }
        if self.differ >= MOST_DIFFERENCES {
            self.say(&format!("stopped after {MOST_DIFFERENCES} differences"));
        }
        self.say(&format!("answers{}", self.answers.text()));
        let kinds = self.kinds.text();
        self.say(&format!("{what}{kinds}\tdiffer {}", self.differ));
        good
    }
}
