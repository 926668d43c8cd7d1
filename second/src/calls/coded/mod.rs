//! The calls over codes and keyed sheets: their lines, their answers, what they
//! are made of, and the mistakes that they must find.

pub mod answer;
pub mod coder;
pub mod miscoded;
pub mod misread;
pub mod states;
pub mod texts;

use crate::calls::call::{either, Call};
use crate::calls::values::{self, lent_text, Lent};
use crate::code::CodeState;
use crate::session::Session;

/// Every call over codes, with its arguments.
#[derive(Clone, Debug, PartialEq, Eq)]
pub enum CodeCall {
    Start {
        key: Lent,
    },
    Update {
        in_place: bool,
        state: Box<CodeState>,
        piece: Lent,
    },
    Finish {
        state: Box<CodeState>,
    },
    Of {
        key: Lent,
        message: Lent,
    },
    CompareState {
        state: Box<CodeState>,
        expected: Lent,
    },
    CompareOf {
        key: Lent,
        message: Lent,
        expected: Lent,
    },
    KeyedRead {
        /// What stands behind the pointer before, for the call in place.
        before: Option<Box<Session>>,
        key: Lent,
        text: Lent,
    },
}

impl CodeCall {
    pub fn name(&self) -> &'static str {
        match self {
            CodeCall::Start { .. } => "code_start",
            CodeCall::Update { in_place, .. } => {
                either(*in_place, "code_update_in_place", "code_update")
            }
            CodeCall::Finish { .. } => "code_finish",
            CodeCall::Of { .. } => "code_of",
            CodeCall::CompareState { .. } => "compare_code",
            CodeCall::CompareOf { .. } => "compare_code_of",
            CodeCall::KeyedRead { before, .. } => {
                either(before.is_some(), "keyed_read_in_place", "keyed_read")
            }
        }
    }

    /// The arguments as they are written.
    pub fn arguments(&self) -> Vec<String> {
        use values::{code_state_text, session_text};
        match self {
            CodeCall::Start { key } => vec![lent_text(key)],
            CodeCall::Update { state, piece, .. } => {
                vec![code_state_text(state), lent_text(piece)]
            }
            CodeCall::Finish { state } => vec![code_state_text(state)],
            CodeCall::Of { key, message } => vec![lent_text(key), lent_text(message)],
            CodeCall::CompareState { state, expected } => {
                vec![code_state_text(state), lent_text(expected)]
            }
            CodeCall::CompareOf {
                key,
                message,
                expected,
            } => vec![lent_text(key), lent_text(message), lent_text(expected)],
            CodeCall::KeyedRead { before, key, text } => {
                let before = before.iter().map(|session| session_text(session));
                before.chain([lent_text(key), lent_text(text)]).collect()
            }
        }
    }
}

/// The call of this name and these arguments, if it is one.
pub fn parse(name: &str, arguments: &[&str]) -> Option<Call> {
    let call = match arguments {
        [one] => one_argument(name, one),
        [one, two] => two_arguments(name, one, two),
        [one, two, three] => three_arguments(name, one, two, three),
        _ => None,
    };
    call.map(Call::Coded)
}

fn one_argument(name: &str, one: &str) -> Option<CodeCall> {
    match name {
        "code_start" => Some(CodeCall::Start {
            key: values::parse_lent(one)?,
        }),
        "code_finish" => Some(CodeCall::Finish {
            state: parse_state(one)?,
        }),
        _ => None,
    }
}

fn two_arguments(name: &str, one: &str, two: &str) -> Option<CodeCall> {
    match name {
        "code_update" | "code_update_in_place" => Some(CodeCall::Update {
            in_place: name == "code_update_in_place",
            state: parse_state(one)?,
            piece: values::parse_lent(two)?,
        }),
        "code_of" => Some(CodeCall::Of {
            key: values::parse_lent(one)?,
            message: values::parse_lent(two)?,
        }),
        "compare_code" => Some(CodeCall::CompareState {
            state: parse_state(one)?,
            expected: values::parse_lent(two)?,
        }),
        "keyed_read" => Some(CodeCall::KeyedRead {
            before: None,
            key: values::parse_lent(one)?,
            text: values::parse_lent(two)?,
        }),
        _ => None,
    }
}

fn three_arguments(name: &str, one: &str, two: &str, three: &str) -> Option<CodeCall> {
    match name {
        "compare_code_of" => Some(CodeCall::CompareOf {
            key: values::parse_lent(one)?,
            message: values::parse_lent(two)?,
            expected: values::parse_lent(three)?,
        }),
        "keyed_read_in_place" => Some(CodeCall::KeyedRead {
            before: Some(Box::new(values::parse_session(one)?)),
            key: values::parse_lent(two)?,
            text: values::parse_lent(three)?,
        }),
        _ => None,
    }
}

fn parse_state(text: &str) -> Option<Box<CodeState>> {
    values::parse_code_state(text).map(Box::new)
}

/// What a report says of an answer: every number of every call by itself.
pub fn answer_kind(call: &CodeCall, fields: &[&str]) -> String {
    let name = call.name();
    match (call, fields) {
        (CodeCall::CompareState { .. } | CodeCall::CompareOf { .. }, ["0", same]) => {
            format!("{name}-0-{same}")
        }
        (_, [number, ..]) => format!("{name}-{number}"),
        (_, []) => unreachable!("a split gives one field at least"),
    }
}
