//! A call of the library, and the line that asks for it. A slice that is only
//! read may be lent as a length alone.

use crate::calls::coded::{self, CodeCall};
use crate::calls::values::{self, Lent};
use crate::hash::State;
use crate::session::Session;

/// Every call, with its arguments. `in_place` and `part` tell two calls apart
/// that take the same arguments.
#[derive(Clone, Debug, PartialEq, Eq)]
pub enum Call {
    Fresh,
    Fold {
        state: State,
        bytes: Lent,
    },
    Update {
        in_place: bool,
        state: State,
        piece: Lent,
    },
    Finish {
        state: State,
    },
    Digest {
        message: Lent,
    },
    CompareMessage {
        message: Lent,
        expected: Lent,
    },
    CompareState {
        state: State,
        expected: Lent,
    },
    PadWrite {
        message: Lent,
        buffer: Vec<u8>,
    },
    Block {
        part: bool,
        message: Lent,
        buffer: Lent,
        block: u64,
    },
    Remove {
        part: bool,
        bytes: Lent,
    },
    SheetRead {
        /// What stands behind the pointer before, for the call in place.
        before: Option<Box<Session>>,
        text: Lent,
    },
    Deliver {
        in_place: bool,
        session: Box<Session>,
        note: u64,
        piece: Lent,
    },
    Ask {
        in_place: bool,
        session: Box<Session>,
        note: u64,
    },
    Ready {
        session: Box<Session>,
    },
    SheetWrite {
        session: Box<Session>,
        buffer: Vec<u8>,
    },
    /// A call over codes or a keyed sheet.
    Coded(CodeCall),
    /// A line as it stands, which may be no call at all.
    Line {
        line: Vec<u8>,
    },
}

impl Call {
    pub fn name(&self) -> &'static str {
        match self {
            Call::Fresh => "fresh",
            Call::Fold { .. } => "fold",
            Call::Update { in_place, .. } => either(*in_place, "update_in_place", "update"),
            Call::Finish { .. } => "finish",
            Call::Digest { .. } => "digest",
            Call::CompareMessage { .. } => "compare_message",
            Call::CompareState { .. } => "compare_state",
            Call::PadWrite { .. } => "pad_write",
            Call::Block { part, .. } => either(*part, "block_part", "block_number"),
            Call::Remove { part, .. } => either(*part, "remove_part", "remove_number"),
            Call::SheetRead { before, .. } => {
                either(before.is_some(), "sheet_read_in_place", "sheet_read")
            }
            Call::Deliver { in_place, .. } => either(*in_place, "deliver_in_place", "deliver"),
            Call::Ask { in_place, .. } => either(*in_place, "ask_in_place", "ask"),
            Call::Ready { .. } => "ready",
            Call::SheetWrite { .. } => "sheet_write",
            Call::Coded(call) => call.name(),
            Call::Line { .. } => "line",
        }
    }

    /// The arguments as they are written.
    fn arguments(&self) -> Vec<String> {
        use values::{bytes_text, lent_text, session_text, state_text};
        match self {
            Call::Fresh => vec![],
            Call::Fold { state, bytes } => vec![state_text(state), lent_text(bytes)],
            Call::Update { state, piece, .. } => vec![state_text(state), lent_text(piece)],
            Call::Finish { state } => vec![state_text(state)],
            Call::Digest { message } => vec![lent_text(message)],
            Call::CompareMessage { message, expected } => {
                vec![lent_text(message), lent_text(expected)]
            }
            Call::CompareState { state, expected } => vec![state_text(state), lent_text(expected)],
            Call::PadWrite { message, buffer } => vec![lent_text(message), bytes_text(buffer)],
            Call::Block {
                message,
                buffer,
                block,
                ..
            } => vec![lent_text(message), lent_text(buffer), block.to_string()],
            Call::Remove { bytes, .. } => vec![lent_text(bytes)],
            Call::SheetRead { before, text } => {
                let before = before.iter().map(|session| session_text(session));
                before.chain([lent_text(text)]).collect()
            }
            Call::Deliver {
                session,
                note,
                piece,
                ..
            } => vec![session_text(session), note.to_string(), lent_text(piece)],
            Call::Ask { session, note, .. } => vec![session_text(session), note.to_string()],
            Call::Ready { session } => vec![session_text(session)],
            Call::SheetWrite { session, buffer } => {
                vec![session_text(session), bytes_text(buffer)]
            }
            Call::Coded(call) => call.arguments(),
            Call::Line { .. } => vec![],
        }
    }

    /// The line, without its LF.
    pub fn line(&self) -> Vec<u8> {
        if let Call::Line { line } = self {
            return line.clone();
        }
        let mut line = self.name().to_string();
        for argument in self.arguments() {
            line.push('\t');
            line.push_str(&argument);
        }
        line.into_bytes()
    }

    /// The call of a line, if it is one.
    pub fn parse(line: &[u8]) -> Option<Call> {
        let fields: Vec<&str> = std::str::from_utf8(line).ok()?.split('\t').collect();
        let (name, arguments) = fields.split_first()?;
        hash_call(name, arguments)
            .or_else(|| padding_call(name, arguments))
            .or_else(|| session_call(name, arguments))
            .or_else(|| coded::parse(name, arguments))
    }
}

pub fn either(yes: bool, one: &'static str, other: &'static str) -> &'static str {
    if yes {
        one
    } else {
        other
    }
}

fn hash_call(name: &str, arguments: &[&str]) -> Option<Call> {
    match (name, arguments) {
        ("fresh", []) => Some(Call::Fresh),
        ("fold", [state, bytes]) => Some(Call::Fold {
            state: values::parse_state(state)?,
            bytes: values::parse_lent(bytes)?,
        }),
        ("update" | "update_in_place", [state, piece]) => Some(Call::Update {
            in_place: name == "update_in_place",
            state: values::parse_state(state)?,
            piece: values::parse_lent(piece)?,
        }),
        ("finish", [state]) => Some(Call::Finish {
            state: values::parse_state(state)?,
        }),
        ("digest", [message]) => Some(Call::Digest {
            message: values::parse_lent(message)?,
        }),
        ("compare_message", [message, expected]) => Some(Call::CompareMessage {
            message: values::parse_lent(message)?,
            expected: values::parse_lent(expected)?,
        }),
        ("compare_state", [state, expected]) => Some(Call::CompareState {
            state: values::parse_state(state)?,
            expected: values::parse_lent(expected)?,
        }),
        _ => None,
    }
}

fn padding_call(name: &str, arguments: &[&str]) -> Option<Call> {
    match (name, arguments) {
        ("pad_write", [message, buffer]) => Some(Call::PadWrite {
            message: values::parse_lent(message)?,
            buffer: values::parse_bytes(buffer)?,
        }),
        ("block_number" | "block_part", [message, buffer, block]) => Some(Call::Block {
            part: name == "block_part",
            message: values::parse_lent(message)?,
            buffer: values::parse_lent(buffer)?,
            block: values::parse_number(block)?,
        }),
        ("remove_number" | "remove_part", [bytes]) => Some(Call::Remove {
            part: name == "remove_part",
            bytes: values::parse_lent(bytes)?,
        }),
        _ => None,
    }
}

fn session_call(name: &str, arguments: &[&str]) -> Option<Call> {
    let session = |text: &str| values::parse_session(text).map(Box::new);
    match (name, arguments) {
        ("sheet_read", [text]) => Some(Call::SheetRead {
            before: None,
            text: values::parse_lent(text)?,
        }),
        ("sheet_read_in_place", [before, text]) => Some(Call::SheetRead {
            before: Some(session(before)?),
            text: values::parse_lent(text)?,
        }),
        ("deliver" | "deliver_in_place", [before, note, piece]) => Some(Call::Deliver {
            in_place: name == "deliver_in_place",
            session: session(before)?,
            note: values::parse_number(note)?,
            piece: values::parse_lent(piece)?,
        }),
        ("ask" | "ask_in_place", [before, note]) => Some(Call::Ask {
            in_place: name == "ask_in_place",
            session: session(before)?,
            note: values::parse_number(note)?,
        }),
        ("ready", [counted]) => Some(Call::Ready {
            session: session(counted)?,
        }),
        ("sheet_write", [slots, buffer]) => Some(Call::SheetWrite {
            session: session(slots)?,
            buffer: values::parse_bytes(buffer)?,
        }),
        _ => None,
    }
}
