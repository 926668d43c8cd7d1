//! Loops at rule 4's limits: that every driver is fed with all of them, and that
//! a wrong rule is found by every call that judges loops.

use crate::help;
use second::calls::answer::answer;
use second::calls::call::Call;
use second::calls::kinds::Calls;
use second::calls::misjudged::{in_sheet, in_slot};
use second::calls::miswritten::in_writing;
use second::calls::slips::{Slip, SLIPS};
use second::folders::content::{self, Entry};
use second::folders::loop_rules::{self, Rule};
use second::making::loops;
use second::orders::sequences::{self, Start};
use second::session::{Record, Session, Slot};
use second::sheet;
use std::collections::{BTreeMap, BTreeSet};

/// The calls that judge the loops of a sheet, of a slot, of a session.
const SHEETS: [&str; 2] = ["sheet_read", "sheet_read_in_place"];
const SLOTS: [&str; 4] = ["deliver", "deliver_in_place", "ask", "ask_in_place"];
const WRITER: [&str; 1] = ["sheet_write"];

/// A sample's length, and the loop's start and end.
type Loop = (u64, u64, u64);

fn loop_of(record: &Record) -> Loop {
    (record.length, record.loop_start, record.loop_end)
}

/// The loops that must come, and whether they are allowed.
fn limits() -> BTreeMap<Loop, bool> {
    let all = help::loops().into_iter();
    all.map(|(record, allowed)| (loop_of(&record), allowed))
        .collect()
}

fn listed(session: &Session) -> Vec<&Slot> {
    let slots = session.slots.iter();
    slots.filter(|slot| slot.status != 0).collect()
}

/// The loops of an accepted sheet, or the one that the sheet is refused for, and
/// which of the two it is.
fn judged_in_sheet(text: &[u8]) -> Vec<(Loop, bool)> {
    let read = sheet::read(text);
    match read.verdict.number {
        0 => {
            let slots = listed(&read.session).into_iter();
            slots.map(|slot| (loop_of(&slot.record), true)).collect()
        }
        4 => vec![(loop_in_line(text, read.verdict.line), false)],
        _ => vec![],
    }
}

/// The loop in a line, counted from 1.
fn loop_in_line(text: &[u8], line: u64) -> Loop {
    let mut lines = text.split(|byte| *byte == b'\n');
    let line = std::str::from_utf8(lines.nth(line as usize - 1).unwrap()).unwrap();
    let fields: Vec<&str> = line.split('\t').collect();
    let number = |place: usize| fields[place].parse().unwrap();
    (number(1), number(2), number(3))
}

/// Whether a slot is in order, or would be with another loop.
fn good_but_for_its_loop(slot: &Slot) -> bool {
    let record = Record {
        loop_start: 0,
        loop_end: 0,
        ..slot.record
    };
    Slot { record, ..*slot }.in_order()
}

/// The loops that decide a call, where nothing else can: with the slot's status
/// (1 in a sheet), and whether they are accepted.
fn judged_in_call(call: &Call) -> Vec<(u8, Loop, bool)> {
    let number = || -> u8 {
        let ours = answer(call).unwrap();
        ours.split('\t').next().unwrap().parse().unwrap()
    };
    let judged = |slot: &Slot, accepted: bool| (slot.status, loop_of(&slot.record), accepted);
    match call {
        Call::SheetRead { text, .. } => {
            let loops = judged_in_sheet(text.bytes().unwrap()).into_iter();
            loops.map(|(own, accepted)| (1, own, accepted)).collect()
        }
        Call::Deliver { session, note, .. } | Call::Ask { session, note, .. } => {
            let place = (*note as usize).wrapping_sub(1);
            let slot = session.slots.get(place).into_iter();
            slot.filter(|slot| good_but_for_its_loop(slot))
                .map(|slot| judged(slot, number() != 6))
                .collect()
        }
        Call::SheetWrite { session, .. } => {
            let slots = listed(session);
            let spoilt = slots.iter().filter(|slot| !slot.in_order());
            match (number(), &spoilt.collect::<Vec<_>>()[..]) {
                (0, []) => slots.iter().map(|slot| judged(slot, true)).collect(),
                (6, [slot]) if good_but_for_its_loop(slot) => vec![judged(slot, false)],
                _ => vec![],
            }
        }
        _ => vec![],
    }
}

#[test]
fn the_loops_that_have_turns_are_those_of_the_table() {
    let made = loops::at_limits();
    assert_eq!(made.len(), 39);
    let made: BTreeSet<Loop> = made.iter().map(loop_of).collect();
    assert_eq!(made, limits().into_keys().collect());
    let allowed = limits().into_iter().filter(|(_, allowed)| *allowed);
    let made = (0..10).map(|turn| loop_of(&loops::allowed_in_turn(turn)));
    assert_eq!(
        made.collect::<BTreeSet<Loop>>(),
        allowed.map(|(own, _)| own).collect()
    );
}

#[test]
fn each_of_them_decides_every_call_that_judges_loops_in_a_run_of_50000() {
    let limits = limits();
    let mut missing = BTreeSet::new();
    for own in limits.keys() {
        missing.extend(SHEETS.map(|kind| (kind, 1, *own)));
        for status in 1..=3 {
            missing.extend(SLOTS.map(|kind| (kind, status, *own)));
            missing.extend(WRITER.map(|kind| (kind, status, *own)));
        }
    }
    let calls = Calls::new(5, &[]).unwrap();
    for index in 0..50000 {
        let (kind, call) = calls.at(index);
        for (status, own, accepted) in judged_in_call(&call) {
            let allowed = limits.get(&own).unwrap_or(&accepted);
            assert_eq!(accepted, *allowed, "call {index} ({kind}): {own:?}");
            missing.remove(&(kind, status, own));
        }
    }
    assert!(missing.is_empty(), "{missing:?}");
}

#[test]
fn each_of_them_is_in_the_sheets_of_2000_folders_and_delivered_to_if_allowed() {
    let limits = limits();
    let mut in_sheets = BTreeSet::new();
    let mut delivered = BTreeSet::new();
    for index in 0..2000 {
        let entries = content::at(2, index).entries;
        let files: BTreeMap<&str, &[u8]> = entries
            .iter()
            .filter_map(|(name, entry)| match entry {
                Entry::File(bytes) => Some((name.as_str(), bytes.as_slice())),
                _ => None,
            })
            .collect();
        let text = files.get("rank.txt").copied().unwrap_or_default();
        in_sheets.extend(judged_in_sheet(text));
        let mut session = sheet::read(text).session;
        for note in 1..=32 {
            let file = files.get(format!("{note:02}.raw").as_str());
            let piece = file.map_or(&b""[..], |bytes| &bytes[..bytes.len().min(4096)]);
            if !piece.is_empty() && session.deliver(note, piece).number == 0 {
                delivered.insert(loop_of(&session.slots[note as usize - 1].record));
            }
        }
    }
    for (own, allowed) in limits {
        assert!(in_sheets.contains(&(own, allowed)), "{own:?}");
        assert_eq!(delivered.contains(&own), allowed, "{own:?}");
    }
}

#[test]
fn each_of_them_is_among_1000_orders_stored_and_if_allowed_in_a_sheet() {
    let mut seen = BTreeSet::new();
    for index in 0..1000 {
        let sequence = sequences::at(1, index);
        let session = match &sequence.start {
            Start::Sheet(text) => sheet::read(text).session,
            Start::Stored(session) => **session,
        };
        for slot in listed(&session) {
            seen.insert((sequence.kind(), loop_of(&slot.record)));
        }
    }
    for (own, allowed) in limits() {
        for kind in ["stored", "stored_in_place"] {
            assert!(seen.contains(&(kind, own)), "{kind} {own:?}");
        }
        for kind in ["sheet", "sheet_in_place"] {
            assert_eq!(seen.contains(&(kind, own)), allowed, "{kind} {own:?}");
        }
    }
}

/// No two are the same thing, and none is the right rule: the loops at the
/// limits tell all apart.
#[test]
fn the_wrong_rules_differ_from_the_right_one_and_from_each_other() {
    let rules: [Rule; 7] = [
        Record::loop_allowed,
        loop_rules::old,
        loop_rules::one_frame_refused,
        loop_rules::frame_beyond,
        loop_rules::unhalved,
        loop_rules::wrapped,
        loop_rules::below,
    ];
    let judgements: BTreeSet<Vec<bool>> = rules
        .iter()
        .map(|rule| loops::at_limits().iter().map(rule).collect())
        .collect();
    assert_eq!(judgements.len(), rules.len());
}

#[test]
fn judging_loops_by_the_right_rule_changes_no_answer() {
    let calls = Calls::new(6, &[]).unwrap();
    let mut tried = BTreeMap::new();
    for index in 0..13000 {
        let (kind, call) = calls.at(index);
        for judge in [in_sheet, in_slot, in_writing] {
            if let Some(same) = judge(&call, Record::loop_allowed) {
                assert_eq!(Some(same), answer(&call), "call {index} ({kind})");
                *tried.entry(call.name()).or_insert(0) += 1;
            }
        }
    }
    assert_eq!(tried.len(), SHEETS.len() + SLOTS.len() + WRITER.len());
    assert!(tried.values().all(|count| *count > 500), "{tried:?}");
}

/// A slip of loops, and the calls that it goes wrong in.
fn loop_slips() -> Vec<(&'static Slip, &'static [&'static str])> {
    let all = SLIPS.iter().filter(|slip| slip.name.contains("-loop-"));
    all.map(|slip| match slip.name.split('-').next() {
        Some("sheet") => (slip, &SHEETS[..]),
        Some("session") => (slip, &SLOTS[..]),
        _ => (slip, &WRITER[..]),
    })
    .collect()
}

#[test]
fn every_call_that_judges_loops_finds_every_wrong_rule() {
    let slips = loop_slips();
    let mut missing: BTreeSet<(&str, &str)> = slips
        .iter()
        .flat_map(|(slip, kinds)| kinds.iter().map(|kind| (*kind, slip.name)))
        .collect();
    assert_eq!(missing.len(), 6 * (2 + 4 + 1));
    let calls = Calls::new(7, &[]).unwrap();
    for index in 0..50000 {
        let (kind, call) = calls.at(index);
        for (slip, _) in &slips {
            let wrong =
                || (slip.answer)(&call).filter(|wrong| answer(&call).as_ref() != Some(wrong));
            if missing.contains(&(kind, slip.name)) && wrong().is_some() {
                missing.remove(&(kind, slip.name));
            }
        }
    }
    assert!(missing.is_empty(), "{missing:?}");
}
