//! The driver over calls: the proved library's call program and this one
//! answer the same generated calls and must answer the same.

pub mod answer;
pub mod call;
pub mod coded;
pub mod deciding;
pub mod kinds;
pub mod lax;
pub mod lights;
pub mod lines;
pub mod miscounted;
pub mod misjudged;
pub mod miswritten;
pub mod paddings;
pub mod sessions;
pub mod slips;
pub mod states;
pub mod values;
pub mod writings;

use crate::options::Options;
use crate::report::Report;
use answer::{answer, NO_CALL};
use call::Call;
use kinds::Calls;
use slips::{Slip, SLIPS};
use std::io::{self, BufRead, BufReader, BufWriter, Write};
use std::process::{ChildStdin, Stdio};

/// After the program ended early, calls tried one by one to find which did it.
const SINGLE: u64 = 500;

/// Characters that are shown of a call or an answer.
const SHOWN: usize = 400;

/// Compares the calls; whether all is well. A message where nothing could be
/// compared.
pub fn run(options: &Options, out: &mut dyn Write) -> Result<bool, String> {
    options.whole()?;
    let slips = options.chosen(&SLIPS, |slip| slip.name)?;
    let names = slips.iter().map(|slip| slip.name).collect();
    let calls = Calls::new(options.seed, &options.without)?;
    let mut report = Report::new(out, options.seed, names);
    let mut trial = Trial {
        options,
        calls: &calls,
        slips,
        report: &mut report,
    };
    if let Err(error) = trial.all() {
        return Err(format!("{}: {error}", options.program.to_string_lossy()));
    }
    Ok(report.end("calls"))
}

struct Trial<'a, 'b> {
    options: &'a Options,
    calls: &'a Calls,
    slips: Vec<&'static Slip>,
    report: &'a mut Report<'b>,
}

impl Trial<'_, '_> {
    /// All calls in one run of the program. Where it ends early, answers that
    /// it had not yet written out are lost, so the calls after the last answer
    /// are made one by one until one gets none; then the others go on.
    fn all(&mut self) -> io::Result<()> {
        let mut next = 0;
        while next < self.options.count && !self.report.done() {
            next = self.batch(next, self.options.count)?;
            if next == self.options.count || self.report.done() {
                break;
            }
            let first = next;
            let last = self.options.count.min(first + SINGLE);
            while next < last && self.batch(next, next + 1)? > next {
                next += 1;
            }
            if self.report.done() {
                break;
            }
            let culprit = if next < last { next } else { first };
            self.differs(culprit, "no answer: the program ended");
            next = last.min(next + 1);
        }
        Ok(())
    }

    /// One run of the program over some calls; the first call that it did not
    /// answer.
    fn batch(&mut self, from: u64, until: u64) -> io::Result<u64> {
        let mut command = self.options.command();
        command.stdin(Stdio::piped()).stdout(Stdio::piped());
        let mut child = command.spawn()?;
        let input = child.stdin.take().expect("a pipe was asked for");
        let output = child.stdout.take().expect("a pipe was asked for");
        let calls = self.calls;
        let next = std::thread::scope(|scope| {
            scope.spawn(move || feed(input, calls, from, until));
            let mut output = BufReader::new(output);
            let next = self.compare_all(&mut output, from, until);
            // Nothing more is to be learnt from it, and the thread that
            // writes may still wait for it to read. Its output is still open,
            // so that it has no cause to complain.
            if next.as_ref().ok() != Some(&until) {
                let _ = child.kill();
            }
            next
        })?;
        let status = child.wait()?;
        if next == until && !status.success() {
            self.differs(until - 1, &format!("all answered, then {status}"));
        }
        Ok(next)
    }

    fn compare_all(&mut self, output: &mut impl BufRead, from: u64, until: u64) -> io::Result<u64> {
        let mut said = Vec::new();
        for index in from..until {
            if self.report.done() {
                return Ok(index);
            }
            said.clear();
            output.read_until(b'\n', &mut said)?;
            // A line without its end was cut off.
            if said.pop() != Some(b'\n') {
                return Ok(index);
            }
            self.compare(index, &String::from_utf8_lossy(&said));
        }
        said.clear();
        if output.read_until(b'\n', &mut said)? != 0 {
            let more = String::from_utf8_lossy(&said);
            self.differs(until - 1, &format!("more answers than calls: {more}"));
        }
        Ok(until)
    }

    fn compare(&mut self, index: u64, said: &str) {
        let (kind, call) = self.calls.at(index);
        let ours = answer(&call).expect("a call that needs no bytes that are not there");
        self.report.compared(kind);
        self.report.answered(&answer_kind(&call, &ours));
        if said != ours {
            self.differs(index, said);
            return;
        }
        for slip in &self.slips {
            let wrong = |call: &Call| (slip.answer)(call).is_some_and(|wrong| wrong != said);
            if self.report.seeks(slip.name) && wrong(&call) {
                self.report
                    .found(slip.name, &format!("call {index} ({kind})"));
            }
        }
    }

    fn differs(&mut self, index: u64, said: &str) {
        let (kind, call) = self.calls.at(index);
        let ours = answer(&call).unwrap_or_default();
        let difference = difference(&call, said, &ours);
        self.report
            .differs(&format!("call {index} ({kind})\n{difference}"));
    }
}

/// Prints the calls of a run, one a line, and compares nothing.
pub fn print(options: &Options, out: &mut dyn Write) -> Result<bool, String> {
    if options.slip.is_some() || !options.words.is_empty() {
        return Err("calls are printed without a slip and without a program".to_string());
    }
    options.whole()?;
    let calls = Calls::new(options.seed, &options.without)?;
    let mut out = BufWriter::new(out);
    for index in 0..options.count {
        let line = calls.at(index).1.line();
        let written = out.write_all(&line).and_then(|()| out.write_all(b"\n"));
        written.map_err(|error| error.to_string())?;
    }
    out.flush().map_err(|error| error.to_string())?;
    Ok(true)
}

/// Writes the calls. That the program reads no more is seen by its answers.
fn feed(input: ChildStdin, calls: &Calls, from: u64, until: u64) {
    let mut input = BufWriter::with_capacity(1 << 16, input);
    for index in from..until {
        let line = calls.at(index).1.line();
        if input.write_all(&line).is_err() || input.write_all(b"\n").is_err() {
            return;
        }
    }
    let _ = input.flush();
}

/// What came out: the number, and more of it where the number says little.
pub fn answer_kind(call: &Call, ours: &str) -> String {
    let fields: Vec<&str> = ours.split('\t').collect();
    match (call, &fields[..]) {
        (Call::Fresh | Call::Fold { .. }, _) => "state".to_string(),
        (Call::Block { part: true, .. }, [which, ..]) => format!("block-part-{which}"),
        (Call::Remove { part: true, .. }, _) => "removed-part".to_string(),
        (Call::Line { .. }, [NO_CALL]) => "no-call".to_string(),
        (Call::Line { .. }, _) => "still-a-call".to_string(),
        (Call::CompareMessage { .. } | Call::CompareState { .. }, ["0", same]) => {
            format!("compared-{same}")
        }
        (Call::Deliver { .. }, ["0", status, ..]) => format!("delivered-{status}"),
        (Call::Ready { .. }, [ready, ..]) => format!("ready-{ready}"),
        (Call::SheetWrite { .. }, [number, ..]) => format!("sheet-write-{number}"),
        (Call::Coded(call), fields) => coded::answer_kind(call, fields),
        (_, [number, ..]) => format!("number-{number}"),
        (_, []) => unreachable!("a split gives one field at least"),
    }
}

/// A call's line, for reading; one that may hold any byte is escaped.
fn call_text(call: &Call) -> String {
    match call {
        Call::Line { line } => line.escape_ascii().to_string(),
        _ => String::from_utf8_lossy(&call.line()).into_owned(),
    }
}

/// A call and the two answers to it, where they differ.
pub fn difference(call: &Call, said: &str, ours: &str) -> String {
    let at = first_difference(said, ours);
    format!(
        "  call    {}\n  program {}\n  second  {}",
        shown(&call_text(call), 0),
        shown(said, at),
        shown(ours, at)
    )
}

fn first_difference(one: &str, other: &str) -> usize {
    let pairs = one.bytes().zip(other.bytes());
    pairs.take_while(|(a, b)| a == b).count()
}

/// A text, or where it is long what is around a place of it.
fn shown(text: &str, place: usize) -> String {
    let length = text.chars().count();
    if length <= SHOWN {
        return text.to_string();
    }
    let from = place.saturating_sub(SHOWN / 4).min(length - SHOWN);
    let cut: String = text.chars().skip(from).take(SHOWN).collect();
    format!("[characters {from}.. of {length}] {cut}")
}
