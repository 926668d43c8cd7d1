//! Wrong answers, each made by one mistake, to show that the comparison of
//! calls finds it. Nothing else uses them.

use crate::calls::answer::{
    answer, comparison_text, delivered_text, digest_text, part_text, sheet_text, updated_text,
    written_text,
};
use crate::calls::call::Call;
use crate::calls::coded::{miscoded, misread};
use crate::calls::lax;
use crate::calls::miscounted;
use crate::calls::misjudged::{in_sheet, in_slot};
use crate::calls::miswritten::{self, in_writing};
use crate::calls::values::Lent;
use crate::folders::loop_rules as rule;
use crate::folders::slips::part_taken;
use crate::hash::{Compared, Digested, State};
use crate::padding::{self, End, LONGEST};
use crate::refusal::{ACCEPTED, OTHER_TAIL, TOO_LONG};
use crate::session::{Session, OPEN, SHUT, WAITING};
use crate::sheet;
use crate::sm3;

/// A mistake: the wrong answer to a call, or nothing where it does not matter
/// for that call.
pub struct Slip {
    pub name: &'static str,
    pub answer: fn(&Call) -> Option<String>,
}

/// Every slip: of padding, of hash, of session, of its counts, of reading a
/// sheet, of writing one, of codes, of reading a keyed sheet, of reading a line.
pub const SLIPS: [Slip; 160] = [
    slip("padding-one-block", one_block),
    slip("padding-rest-cleared", rest_cleared),
    slip("padding-inside-unjudged", inside_unjudged),
    slip("padding-32-bit-length", short_length),
    slip("padding-32-bit-written", short_length_written),
    slip("hash-length-in-bytes", length_in_bytes),
    slip("hash-tail-uncleared", tail_uncleared),
    slip("hash-dirty-tail-taken", dirty_tail_taken),
    slip("hash-limit-refused", limit_refused),
    slip("hash-start-words", start_words),
    slip("hash-30-bytes-compared", thirty_compared),
    slip("session-note-cut", note_cut),
    slip("session-full-waits", full_waits),
    slip("session-part-taken", delivered_in_part),
    slip("session-state-kept", state_kept),
    slip("session-decided-unjudged", decided_unjudged),
    slip("session-loop-below", |call| in_slot(call, rule::below)),
    slip("session-loop-old", |call| in_slot(call, rule::old)),
    slip("session-loop-one-frame-refused", |call| {
        in_slot(call, rule::one_frame_refused)
    }),
    slip("session-loop-frame-beyond", |call| {
        in_slot(call, rule::frame_beyond)
    }),
    slip("session-loop-unhalved", |call| {
        in_slot(call, rule::unhalved)
    }),
    slip("session-loop-wrapped", |call| in_slot(call, rule::wrapped)),
    slip("session-counts-judged", miscounted::counts_judged),
    slip("count-shut-counted", miscounted::shut_counted),
    slip("count-waiting-counted", miscounted::waiting_counted),
    slip("count-counted-again", miscounted::counted_again),
    slip("count-past-32", miscounted::past_most),
    slip("count-wraps", miscounted::wraps),
    slip("count-32-added-to", miscounted::most_added_to),
    slip("count-31-stays", miscounted::below_most_stays),
    slip("count-cut-to-32", miscounted::cut_to_most),
    slip("count-stays-at-listed", miscounted::stays_at_listed),
    slip("count-listed-for-open", miscounted::listed_for_open),
    slip("count-open-walked", miscounted::open_walked),
    slip("count-listed-walked", miscounted::listed_walked),
    slip("ready-walked", miscounted::ready_walked),
    slip("ready-at-zero", miscounted::ready_at_zero),
    slip("ready-at-more", miscounted::ready_at_more),
    slip("ready-within-32", miscounted::ready_within_most),
    slip("sheet-loop-below", |call| in_sheet(call, rule::below)),
    slip("sheet-loop-old", |call| in_sheet(call, rule::old)),
    slip("sheet-loop-one-frame-refused", |call| {
        in_sheet(call, rule::one_frame_refused)
    }),
    slip("sheet-loop-frame-beyond", |call| {
        in_sheet(call, rule::frame_beyond)
    }),
    slip("sheet-loop-unhalved", |call| in_sheet(call, rule::unhalved)),
    slip("sheet-loop-wrapped", |call| in_sheet(call, rule::wrapped)),
    slip("sheet-refused-lists", refused_lists),
    slip("sheet-refused-keeps-counts", miscounted::refused_keeps),
    slip("sheet-refused-counted", miscounted::refused_counted),
    slip("sheet-open-kept", miscounted::accepted_keeps_open),
    slip("sheet-listed-kept", miscounted::accepted_keeps_listed),
    slip("sheet-uncounted", miscounted::accepted_uncounted),
    slip("writing-short-before-slots", miswritten::short_before_slots),
    slip("writing-short-before-none", miswritten::short_before_none),
    slip("writing-none-before-slots", miswritten::none_before_slots),
    slip("writing-exact-refused", miswritten::exact_refused),
    slip("writing-short-accepted", miswritten::short_accepted),
    slip("writing-short-filled", miswritten::short_filled),
    slip("writing-refused-begun", miswritten::refused_begun),
    slip("writing-refused-counted", miswritten::refused_counted),
    slip("writing-rest-cleared", miswritten::rest_cleared),
    slip("writing-unlisted-judged", miswritten::unlisted_judged),
    slip("writing-first-unjudged", miswritten::first_unjudged),
    slip("writing-last-unjudged", miswritten::last_unjudged),
    slip("writing-loop-below", |call| in_writing(call, rule::below)),
    slip("writing-loop-old", |call| in_writing(call, rule::old)),
    slip("writing-loop-one-frame-refused", |call| {
        in_writing(call, rule::one_frame_refused)
    }),
    slip("writing-loop-frame-beyond", |call| {
        in_writing(call, rule::frame_beyond)
    }),
    slip("writing-loop-unhalved", |call| {
        in_writing(call, rule::unhalved)
    }),
    slip("writing-loop-wrapped", |call| {
        in_writing(call, rule::wrapped)
    }),
    slip("writing-none-by-count", miswritten::none_by_count),
    slip("writing-count-for-lines", miswritten::count_for_lines),
    slip("writing-counts-judged", miswritten::counts_judged),
    slip("writing-states-unjudged", miswritten::states_unjudged),
    slip("writing-status-unlisted", miswritten::status_unlisted),
    slip("writing-open-left-out", miswritten::open_left_out),
    slip("writing-begun-left-out", miswritten::begun_left_out),
    slip("writing-taken-for-length", miswritten::taken_for_length),
    slip("writing-capitals", miswritten::capitals),
    slip("writing-two-digits", miswritten::two_digits),
    slip("writing-zero-empty", miswritten::zero_empty),
    slip("writing-tens-narrow", miswritten::tens_narrow),
    slip("code-pads-swapped", miscoded::pads_swapped),
    slip("code-full-key-hashed", miscoded::full_key_hashed),
    slip("code-key-of-65-cut", miscoded::key_of_65_cut),
    slip("code-long-key-cut", miscoded::long_key_cut),
    slip("code-every-key-hashed", miscoded::every_key_hashed),
    slip("code-zeros-before-digest", miscoded::zeros_before_digest),
    slip("code-zeros-before-key", miscoded::zeros_before_key),
    slip("code-digest-twice", miscoded::digest_twice),
    slip("code-update-limit-past", miscoded::update_limit_past),
    slip("code-update-limit-below", miscoded::update_limit_below),
    slip("code-message-limit-past", miscoded::message_limit_past),
    slip("code-sum-wraps", miscoded::sum_wraps),
    slip("code-outer-total-unjudged", miscoded::outer_total_unjudged),
    slip("code-outer-above-taken", miscoded::outer_above_taken),
    slip("code-outer-below-taken", miscoded::outer_below_taken),
    slip("code-outer-total-cut", miscoded::outer_total_cut),
    slip("code-outer-tail-unjudged", miscoded::outer_tail_unjudged),
    slip("code-inner-tail-unjudged", miscoded::inner_tail_unjudged),
    slip("code-inner-below-taken", miscoded::inner_below_taken),
    slip("code-inner-63-taken", miscoded::inner_63_taken),
    slip("code-inner-64-refused", miscoded::inner_64_refused),
    slip("code-words-judged", miscoded::words_judged),
    slip("code-size-before-length", miscoded::size_before_length),
    slip("code-size-before-state", miscoded::size_before_state),
    slip("code-length-before-state", miscoded::length_before_state),
    slip("code-refused-start-fresh", miscoded::refused_start_fresh),
    slip("code-refused-start-zero", miscoded::refused_start_zero),
    slip("code-refused-key-coded", miscoded::refused_key_coded),
    slip("code-empty-key-refused", miscoded::empty_key_refused),
    slip("code-31-compared", miscoded::all_but_last_compared),
    slip("code-of-31-compared", miscoded::all_but_last_compared_of),
    slip("code-first-uncompared", miscoded::all_but_first_compared),
    slip("code-inner-alone", miscoded::inner_alone),
    slip("code-key-in-front", miscoded::key_in_front),
    slip("code-outer-fed", miscoded::outer_fed),
    slip(
        "code-refused-update-cleared",
        miscoded::refused_update_cleared,
    ),
    slip("code-refused-update-begun", miscoded::refused_update_begun),
    slip("keyed-line-start-unjudged", misread::line_start_unjudged),
    slip("keyed-alone-refused", misread::alone_refused),
    slip("keyed-first-line-taken", misread::first_line_taken),
    slip("keyed-front-covered", misread::front_covered),
    slip("keyed-line-end-uncovered", misread::line_end_uncovered),
    slip("keyed-first-line-covered", misread::first_line_covered),
    slip("keyed-mac-line-read", misread::mac_line_read),
    slip("keyed-line-end-unread", misread::line_end_unread),
    slip("keyed-31-compared", misread::all_but_last_compared),
    slip("keyed-code-uncompared", misread::code_uncompared),
    slip("keyed-key-unused", misread::key_unused),
    slip("keyed-long-key-cut", misread::long_key_cut),
    slip("keyed-plain-digest", misread::plain_digest),
    slip("keyed-capitals-taken", misread::capitals_taken),
    slip("keyed-small-word-taken", misread::small_word_taken),
    slip("keyed-blank-taken", misread::blank_taken),
    slip("keyed-return-taken", misread::return_taken),
    slip("keyed-line-end-not-needed", misread::line_end_not_needed),
    slip("keyed-empty-lines-taken", misread::empty_lines_taken),
    slip("keyed-code-before-form", misread::code_before_form),
    slip("keyed-sheet-before-code", misread::sheet_before_code),
    slip("keyed-sheet-before-form", misread::sheet_before_form),
    slip("keyed-form-before-key", misread::form_before_key),
    slip("keyed-form-has-line", misread::form_has_line),
    slip("keyed-code-has-line", misread::code_has_line),
    slip("keyed-key-has-line", misread::key_has_line),
    slip("keyed-sheet-has-no-line", misread::sheet_has_no_line),
    slip("keyed-unread-keeps-session", misread::unread_keeps_session),
    slip("keyed-key-keeps-session", misread::key_keeps_session),
    slip(
        "keyed-refused-keeps-session",
        misread::refused_keeps_session,
    ),
    slip("keyed-unread-keeps-counts", misread::unread_keeps_counts),
    slip("keyed-accepted-keeps-open", misread::accepted_keeps_open),
    slip("keyed-unfit-lists", misread::unfit_lists),
    slip("keyed-empty-key-refused", misread::empty_key_refused),
    slip("line-tabs-joined", lax::tabs_joined),
    slip("line-return-taken", lax::return_taken),
    slip("line-capitals-taken", lax::capitals_taken),
    slip("line-zeros-taken", lax::zeros_taken),
    slip("line-slots-sorted", lax::slots_sorted),
    slip("line-counts-missing", lax::counts_missing),
    slip("line-counts-cut", lax::counts_cut),
    slip("line-cut-short", lax::cut_short),
];

const fn slip(name: &'static str, answer: fn(&Call) -> Option<String>) -> Slip {
    Slip { name, answer }
}

/// A remainder of 56..63 bytes is padded into one block.
fn one_block(call: &Call) -> Option<String> {
    let Call::PadWrite { message, buffer } = call else {
        return None;
    };
    let message = message.bytes()?;
    let kept = message.len() % 64;
    if kept < 56 || buffer.len() < 64 {
        return None;
    }
    let mut after = buffer.clone();
    after[..kept].copy_from_slice(&message[message.len() - kept..]);
    after[kept..64].fill(0);
    after[56..64].copy_from_slice(&(8 * message.len() as u64).to_be_bytes());
    Some(written_text(ACCEPTED, 64, &after))
}

/// The buffer's later bytes are made zero.
fn rest_cleared(call: &Call) -> Option<String> {
    let Call::PadWrite { message, buffer } = call else {
        return None;
    };
    let mut after = buffer.clone();
    let written = padding::write(message.bytes()?, &mut after);
    if written.number == ACCEPTED {
        after[written.count..].fill(0);
    }
    Some(written_text(written.number, written.count, &after))
}

/// For a block inside the message the tail buffer is not judged.
fn inside_unjudged(call: &Call) -> Option<String> {
    let Call::Block {
        part,
        message,
        buffer,
        block,
    } = call
    else {
        return None;
    };
    let (message, buffer) = (message.bytes()?, buffer.bytes()?);
    let number = padding::view_number(message, buffer, *block);
    if number != OTHER_TAIL || *block >= message.len() as u64 / 64 {
        return None;
    }
    let place = padding::block_place(message.len() as u64, *block);
    Some(if *part {
        part_text(&place, message, buffer)
    } else {
        ACCEPTED.to_string()
    })
}

/// Only the last four bytes of the length are looked at.
fn short_length(call: &Call) -> Option<String> {
    let Call::Remove { bytes, .. } = call else {
        return None;
    };
    let mut bytes = bytes.bytes()?.to_vec();
    let end = bytes.len().checked_sub(8)?;
    bytes[end..end + 4].fill(0);
    let bytes = Lent::Bytes(bytes);
    answer(&Call::Remove { part: false, bytes }).filter(|_| call.name() == "remove_number")
}

/// Only the last four bytes of the length are written: no message that fits a
/// call is long enough to tell.
fn short_length_written(call: &Call) -> Option<String> {
    let Call::PadWrite { message, buffer } = call else {
        return None;
    };
    let mut after = buffer.clone();
    let written = End::of_length(message.length())
        .filter(|_| message.length() <= LONGEST)?
        .write(&mut after);
    if written.number == ACCEPTED {
        after[written.count - 8..written.count - 4].fill(0);
    }
    Some(written_text(written.number, written.count, &after))
}

/// The length is written in bytes.
fn length_in_bytes(call: &Call) -> Option<String> {
    let ended = |state: &State| {
        let kept = (state.total % 64) as usize;
        let mut bytes = state.tail[..kept].to_vec();
        bytes.extend_from_slice(&padding::added(state.total));
        let end = bytes.len() - 8;
        bytes[end..].copy_from_slice(&state.total.to_be_bytes());
        sm3::to_bytes(&sm3::fold(&state.words, &bytes))
    };
    match call {
        Call::Finish { state } if state.in_order() => Some(digest_text(Digested {
            number: ACCEPTED,
            digest: ended(state),
        })),
        Call::CompareState { state, expected } if state.in_order() && expected.length() == 32 => {
            Some(comparison_text(Compared {
                number: ACCEPTED,
                same: ended(state)[..] == *expected.bytes()?,
            }))
        }
        _ => None,
    }
}

/// Tail bytes after the kept ones stay as they were.
fn tail_uncleared(call: &Call) -> Option<String> {
    let Call::Update { state, piece, .. } = call else {
        return None;
    };
    let mut after = *state;
    if after.update(piece.bytes()?) != ACCEPTED {
        return None;
    }
    let kept = (after.total % 64) as usize;
    after.tail[kept..].copy_from_slice(&state.tail[kept..]);
    Some(updated_text(ACCEPTED, &after))
}

/// A state with a dirty tail is taken for one in order.
fn dirty_tail_taken(call: &Call) -> Option<String> {
    let mut call = call.clone();
    match &mut call {
        Call::Update { state, .. } | Call::Finish { state } | Call::CompareState { state, .. } => {
            let kept = (state.total % 64) as usize;
            state.tail[kept..].fill(0);
        }
        _ => return None,
    }
    answer(&call)
}

/// The longest total of all is refused.
fn limit_refused(call: &Call) -> Option<String> {
    let Call::Update { state, piece, .. } = call else {
        return None;
    };
    let full = state.in_order() && LONGEST - state.total == piece.length();
    full.then(|| updated_text(TOO_LONG, state))
}

/// Every state is gone on with from the start words.
fn start_words(call: &Call) -> Option<String> {
    let Call::Update { state, piece, .. } = call else {
        return None;
    };
    let mut after = State {
        words: sm3::START,
        ..*state
    };
    let number = after.update(piece.bytes()?);
    (number == ACCEPTED).then(|| updated_text(ACCEPTED, &after))
}

/// The last two bytes of a digest are not compared.
fn thirty_compared(call: &Call) -> Option<String> {
    let Call::CompareState { state, expected } = call else {
        return None;
    };
    if state.compare_number(expected.length()) != ACCEPTED {
        return None;
    }
    Some(comparison_text(Compared {
        number: ACCEPTED,
        same: state.finish().digest[..30] == expected.bytes()?[..30],
    }))
}

/// The note is cut to a byte.
fn note_cut(call: &Call) -> Option<String> {
    let mut call = call.clone();
    match &mut call {
        Call::Deliver { note, .. } | Call::Ask { note, .. } => *note %= 256,
        _ => return None,
    }
    answer(&call)
}

/// A waiting slot that took its whole length is in order.
fn full_waits(call: &Call) -> Option<String> {
    let Call::Ask { session, note, .. } = call else {
        return None;
    };
    let slot = session.slots.get((*note as usize).checked_sub(1)?)?;
    let record = &slot.record;
    let full = slot.status == WAITING
        && slot.state.in_order()
        && slot.state.total == record.length
        && record.length_allowed()
        && record.loop_allowed();
    full.then(|| format!("{ACCEPTED}\t{WAITING}\t{}", record.length))
}

/// What fits of a refused piece is taken.
fn delivered_in_part(call: &Call) -> Option<String> {
    let Call::Deliver {
        session,
        note,
        piece: Lent::Bytes(piece),
        ..
    } = call
    else {
        return None;
    };
    let mut after = **session;
    let answer = part_taken(&mut after, *note, piece);
    Some(delivered_text(&answer, &after))
}

/// A decided slot keeps the hash state it was decided by.
fn state_kept(call: &Call) -> Option<String> {
    let Call::Deliver {
        session,
        note,
        piece: Lent::Bytes(piece),
        ..
    } = call
    else {
        return None;
    };
    let mut after = **session;
    let answer = after.deliver(*note, piece);
    if answer.number == ACCEPTED && matches!(answer.status, OPEN | SHUT) {
        let place = *note as usize - 1;
        after.slots[place].state = session.slots[place].state;
        after.slots[place].state.update(piece);
    }
    Some(delivered_text(&answer, &after))
}

/// A decided slot's hash state is not judged.
fn decided_unjudged(call: &Call) -> Option<String> {
    let mut call = call.clone();
    let session: &mut Session = match &mut call {
        Call::Ask { session, .. } => session,
        _ => return None,
    };
    for slot in &mut session.slots {
        if matches!(slot.status, OPEN | SHUT) {
            slot.state = State::fresh();
        }
    }
    answer(&call)
}

/// The notes before a refused line stay listed.
fn refused_lists(call: &Call) -> Option<String> {
    let Call::SheetRead { text, .. } = call else {
        return None;
    };
    let text = text.bytes()?;
    let mut judged = sheet::read(text);
    let notes = judged.verdict.line.checked_sub(2)? as usize;
    let lines = text.split_inclusive(|byte| *byte == b'\n');
    let mut before = format!("RANK\t1\t{notes}\n").into_bytes();
    before.extend(lines.skip(1).take(notes).flatten());
    judged.session = sheet::read(&before).session;
    Some(sheet_text(&judged))
}
