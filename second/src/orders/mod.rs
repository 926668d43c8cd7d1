//! The driver over orders: deliveries to several notes are made in one order
//! and in another that keeps each note's own. Each must have the same answer in
//! both, and the session at the end must be the same, counts and all. Then that
//! session's sheet is written, and what was written is read again.
//!
//! Before the first delivery and after each the program is asked whether all is
//! ready. From an accepted sheet on, it must say what a walk over the slots says.
//!
//! Every call gets the session that the program answered to the one before, and
//! this program answers every call too.

pub mod sequences;
pub mod slips;

use crate::calls::answer::{answer, answer_text, ready_text};
use crate::calls::call::Call;
use crate::calls::values::{parse_bytes, parse_session, session_text, Lent};
use crate::calls::{answer_kind, difference};
use crate::options::Options;
use crate::refusal::ACCEPTED;
use crate::report::Report;
use crate::session::{Answer, Session, NONE, NOTES};
use crate::sheet;
use crate::walk;
use sequences::{Sequence, Start};
use slips::{Slip, SLIPS};
use std::io::{self, BufRead, BufReader, Read, Write};
use std::process::{Child, ChildStdin, ChildStdout, ExitStatus, Stdio};

/// Compares the orders; whether all is well. A message where nothing could be
/// compared.
pub fn run(options: &Options, out: &mut dyn Write) -> Result<bool, String> {
    if !options.without.is_empty() {
        return Err("--without is for calls".to_string());
    }
    options.whole()?;
    let slips = options.chosen(&SLIPS, |slip| slip.name)?;
    let names = slips.iter().map(|slip| slip.name).collect();
    let failed = |error| format!("{}: {error}", options.program.to_string_lossy());
    let program = Program::start(options).map_err(failed)?;
    let mut report = Report::new(out, options.seed, names);
    let mut trial = Trial {
        options,
        slips,
        program,
        report: &mut report,
    };
    let mut index = 0;
    while index < options.count && !trial.report.done() {
        trial.sequence(index).map_err(failed)?;
        index += 1;
    }
    trial.end().map_err(failed)?;
    Ok(report.end("orders"))
}

/// What came of a sequence in one order: the answers by the deliveries' places
/// in the sequence, and the session at the end.
#[derive(PartialEq, Eq)]
struct Outcome {
    answers: Vec<String>,
    session: Session,
}

struct Trial<'a, 'b> {
    options: &'a Options,
    slips: Vec<&'static Slip>,
    program: Program,
    report: &'a mut Report<'b>,
}

impl Trial<'_, '_> {
    fn sequence(&mut self, index: u64) -> io::Result<()> {
        let sequence = sequences::at(self.options.seed, index);
        let what = format!("sequence {index} ({})", sequence.kind());
        self.report.compared(sequence.kind());
        let one = self.made(&sequence, &sequence.one(), &what)?;
        let other = self.made(&sequence, &sequence.other, &what)?;
        // Where one is missing, that was said already.
        if one.is_some() && other.is_some() && one != other {
            self.report.differs(&format!("{what}: the two orders"));
        }
        if let Some(one) = one {
            self.written_and_read(&one.session, &sequence.buffer, &what)?;
        }
        for slip in &self.slips {
            let wrong = |order: &[usize]| outcome(&sequence, order, slip.deliver);
            if self.report.seeks(slip.name) && wrong(&sequence.one()) != wrong(&sequence.other) {
                self.report.found(slip.name, &what);
            }
        }
        Ok(())
    }

    /// What the program makes of a sequence in this order, nothing where it
    /// answers no session to go on with.
    fn made(
        &mut self,
        sequence: &Sequence,
        order: &[usize],
        what: &str,
    ) -> io::Result<Option<Outcome>> {
        let mut session = match &sequence.start {
            Start::Stored(session) => **session,
            Start::Sheet(text) => {
                let text = Lent::Bytes(text.clone());
                let call = Call::SheetRead { before: None, text };
                match self.asked(&call, what)? {
                    Some((_, session)) => session,
                    None => return Ok(None),
                }
            }
        };
        let from_sheet = matches!(sequence.start, Start::Sheet(_));
        let mut ready = self.light(&session, from_sheet, false, what)?;
        let mut answers = vec![String::new(); order.len()];
        for place in order {
            let call = sequence.call(*place, &session);
            match self.asked(&call, what)? {
                Some(said) => (answers[*place], session) = said,
                None => return Ok(None),
            }
            ready = self.light(&session, from_sheet, ready, what)?;
        }
        Ok(Some(Outcome { answers, session }))
    }

    /// Whether the program says that this session is ready. From stored counts
    /// it need not be what the slots say, and a yes may become a no.
    fn light(
        &mut self,
        session: &Session,
        from_sheet: bool,
        before: bool,
        what: &str,
    ) -> io::Result<bool> {
        let call = Call::Ready {
            session: Box::new(*session),
        };
        let Some(said) = self.said(&call, what)? else {
            return Ok(before);
        };
        let ready = said == ready_text(true);
        let fault = walk::fault(session, ready, before).filter(|_| from_sheet);
        if let Some(fault) = fault.filter(|_| !self.report.done()) {
            self.report.differs(&format!("{what}: {fault}"));
        }
        Ok(ready)
    }

    /// The program reads the sheet that it writes itself: it must give the same
    /// listed records, every note waiting and nothing taken.
    fn written_and_read(&mut self, session: &Session, buffer: &[u8], what: &str) -> io::Result<()> {
        let written = self.said(
            &Call::SheetWrite {
                session: Box::new(*session),
                buffer: buffer.to_vec(),
            },
            what,
        )?;
        let Some(text) = written.and_then(|said| sheet_of(&said)) else {
            return Ok(());
        };
        let text = Lent::Bytes(text);
        let read = self.said(&Call::SheetRead { before: None, text }, what)?;
        let expected = format!("{ACCEPTED}\t0\t{}", session_text(&begun_again(session)));
        if read.is_some_and(|read| read != expected) {
            let again = format!("{what}: the sheet that was written, read again");
            self.report.differs(&again);
        }
        Ok(())
    }

    /// What the program answers to a call: what stands before the session, and
    /// the session, whether this program answers the same or not.
    fn asked(&mut self, call: &Call, what: &str) -> io::Result<Option<(String, Session)>> {
        let said = self.said(call, what)?.unwrap_or_default();
        let parted = said.rsplit_once('\t');
        Ok(parted
            .and_then(|(answers, session)| Some((answers.to_string(), parse_session(session)?))))
    }

    /// What the program answers to a call, whether this program answers the
    /// same or not; nothing where it ended, and was started again.
    fn said(&mut self, call: &Call, what: &str) -> io::Result<Option<String>> {
        let ours = answer(call).expect("a call whose bytes are there");
        self.report.answered(&answer_kind(call, &ours));
        let said = self.program.ask(call);
        if said.as_ref() != Some(&ours) && !self.report.done() {
            let said = said.as_deref().unwrap_or("no answer: the program ended");
            let difference = difference(call, said, &ours);
            self.report.differs(&format!("{what}\n{difference}"));
        }
        if said.is_none() {
            self.program.kill()?;
            self.program = Program::start(self.options)?;
        }
        Ok(said)
    }

    fn end(self) -> io::Result<()> {
        let status = self.program.end()?;
        if !status.success() {
            let all = format!("all answered, then {status}");
            self.report.differs(&all);
        }
        Ok(())
    }
}

/// The sheet at the front of a buffer, where one was written.
fn sheet_of(said: &str) -> Option<Vec<u8>> {
    let fields: Vec<&str> = said.split('\t').collect();
    let [number, count, buffer] = fields[..] else {
        return None;
    };
    if number != ACCEPTED.to_string() {
        return None;
    }
    let buffer = parse_bytes(buffer)?;
    buffer.get(..count.parse().ok()?).map(<[u8]>::to_vec)
}

/// A session with the same listed records, of which nothing was loaded yet.
fn begun_again(session: &Session) -> Session {
    let mut again = Session::unlisted();
    for (note, slot) in (1..=NOTES).zip(&session.slots) {
        if slot.status != NONE {
            again.list(note, slot.record);
        }
    }
    again
}

/// What this program, or one with a slip, makes of a sequence in this order.
fn outcome(
    sequence: &Sequence,
    order: &[usize],
    deliver: fn(&mut Session, u64, &[u8]) -> Answer,
) -> Outcome {
    let mut session = match &sequence.start {
        Start::Sheet(text) => sheet::read(text).session,
        Start::Stored(session) => **session,
    };
    let mut answers = vec![String::new(); order.len()];
    for place in order {
        let delivery = &sequence.deliveries[*place];
        let answer = deliver(&mut session, delivery.note, &delivery.piece);
        answers[*place] = answer_text(&answer);
    }
    Outcome { answers, session }
}

/// The program while it runs.
struct Program {
    child: Child,
    input: ChildStdin,
    output: BufReader<ChildStdout>,
}

impl Program {
    fn start(options: &Options) -> io::Result<Program> {
        let mut command = options.command();
        command.stdin(Stdio::piped()).stdout(Stdio::piped());
        let mut child = command.spawn()?;
        let input = child.stdin.take().expect("a pipe was asked for");
        let output = child.stdout.take().expect("a pipe was asked for");
        Ok(Program {
            child,
            input,
            output: BufReader::new(output),
        })
    }

    /// What it answers to a call; nothing where it ends instead.
    fn ask(&mut self, call: &Call) -> Option<String> {
        let mut line = call.line();
        line.push(b'\n');
        self.input.write_all(&line).ok()?;
        let mut said = Vec::new();
        self.output.read_until(b'\n', &mut said).ok()?;
        let whole = said.pop() == Some(b'\n');
        whole.then(|| String::from_utf8_lossy(&said).into_owned())
    }

    fn kill(&mut self) -> io::Result<()> {
        self.child.kill()?;
        self.child.wait().map(drop)
    }

    /// Lets it end by itself.
    fn end(mut self) -> io::Result<ExitStatus> {
        drop(self.input);
        self.output.read_to_end(&mut Vec::new())?;
        self.child.wait()
    }
}
