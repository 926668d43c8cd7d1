//! Wrong answers of a program that judges loops by a wrong rule, in the sheets
//! that it reads or in the slots that it is lent.

use crate::calls::answer::{answer_text, delivered_text, sheet_text};
use crate::calls::call::Call;
use crate::calls::values::Lent;
use crate::folders::loop_rules::{self, Rule};

/// The loops of a sheet are judged by this rule.
pub fn in_sheet(call: &Call, rule: Rule) -> Option<String> {
    let Call::SheetRead { text, .. } = call else {
        return None;
    };
    Some(sheet_text(&loop_rules::read(text.bytes()?, rule)))
}

/// The loop of a slot that is asked for or delivered to is judged by this rule.
pub fn in_slot(call: &Call, rule: Rule) -> Option<String> {
    match call {
        Call::Deliver {
            session,
            note,
            piece: Lent::Bytes(piece),
            ..
        } => {
            let mut after = **session;
            let answer = loop_rules::deliver(&mut after, *note, piece, rule);
            Some(delivered_text(&answer, &after))
        }
        Call::Ask { session, note, .. } => {
            Some(answer_text(&loop_rules::ask(session, *note, rule)))
        }
        _ => None,
    }
}
