//! Codes and keyed sheets in what the drivers are fed with: that every kind of
//! state, key and text comes, and that every mistake with them is found.

use second::calls::answer::answer;
use second::calls::call::Call;
use second::calls::coded::states::{INNER_TOTALS, KEYS, OUTER_TOTALS};
use second::calls::coded::texts::ill_lines;
use second::calls::coded::{miscoded, misread, CodeCall};
use second::calls::kinds::Calls;
use second::calls::slips::{Slip, SLIPS};
use second::calls::values::Lent;
use second::code::{self, CodeState};
use std::collections::hash_map::DefaultHasher;
use std::collections::{BTreeMap, BTreeSet};
use std::hash::{Hash, Hasher};

/// How many calls over codes a run of 50,000 has at least.
const CODED: u64 = 8900;

/// These calls alone: they are the same as beside the others.
fn run(seed: u64) -> impl Iterator<Item = (&'static str, Call)> {
    let mut calls = Calls::new(seed, &[]).unwrap();
    let coded = |name: &str| NUMBERS.iter().any(|(own, _)| *own == name);
    let kinds = &mut calls.kinds;
    kinds.retain(|kind| coded(kind.name.trim_end_matches('@')));
    (0..CODED).map(move |index| calls.at(index))
}

fn state(call: &Call) -> Option<&CodeState> {
    match call {
        Call::Coded(CodeCall::Update { state, .. } | CodeCall::Finish { state }) => Some(state),
        Call::Coded(CodeCall::CompareState { state, .. }) => Some(state),
        _ => None,
    }
}

fn number(call: &Call) -> u8 {
    let ours = answer(call).unwrap();
    ours.split('\t').next().unwrap().parse().unwrap()
}

/// The numbers that each call may answer. The keyed reader's 10 is the key's: no
/// memory holds a text that is too long.
const NUMBERS: [(&str, &[u8]); 9] = [
    ("code_start", &[0, 10]),
    ("code_update", &[0, 9, 10]),
    ("code_update_in_place", &[0, 9, 10]),
    ("code_finish", &[0, 9]),
    ("code_of", &[0, 10]),
    ("compare_code", &[0, 9, 11]),
    ("compare_code_of", &[0, 10, 11]),
    ("keyed_read", &[0, 1, 2, 3, 4, 10, 17, 18]),
    ("keyed_read_in_place", &[0, 1, 2, 3, 4, 10, 17, 18]),
];

/// By a fifth of such a run.
#[test]
fn so_many_of_them_come_in_a_run_of_50000() {
    let calls = Calls::new(4, &[]).unwrap();
    let all = (0..10000).map(|index| calls.at(index));
    let coded = all.filter(|(_, call)| matches!(call, Call::Coded(_)));
    let coded: Vec<(&str, Call)> = coded.collect();
    let fifth = CODED as usize / 5;
    assert!(coded.len() >= fifth, "{}", coded.len());
    assert!(run(4).take(fifth).eq(coded.into_iter().take(fifth)));
}

#[test]
fn every_number_of_every_call_comes_often() {
    let mut seen: BTreeMap<(&str, u8), u32> = BTreeMap::new();
    for (_, call) in run(5) {
        *seen.entry((call.name(), number(&call))).or_default() += 1;
    }
    let all = NUMBERS.iter().flat_map(|(name, numbers)| {
        let name: &str = name;
        numbers.iter().map(move |number| (name, *number))
    });
    let all: BTreeSet<(&str, u8)> = all.collect();
    assert_eq!(seen.keys().copied().collect::<BTreeSet<_>>(), all);
    assert!(seen.values().all(|times| *times >= 15), "{seen:?}");
}

/// Every total at an edge comes with every call that has a state, alone at fault
/// where it is at fault, and so do dirty tails, in one half and in both.
#[test]
fn every_limit_of_a_state_comes_with_every_call_that_has_one() {
    let clean = |total: u64, tail: &[u8]| tail[(total % 64) as usize..].iter().all(|b| *b == 0);
    let mut missing = BTreeSet::new();
    for name in [
        "code_update",
        "code_update_in_place",
        "code_finish",
        "compare_code",
    ] {
        missing.extend(INNER_TOTALS.map(|total| (name, "inner", total)));
        missing.extend(OUTER_TOTALS.map(|total| (name, "outer", total)));
        missing.extend(["inner", "outer", "both"].map(|half| (name, half, u64::MAX - 7)));
    }
    for (kind, call) in run(6) {
        let Some(CodeState { inner, outer }) = state(&call) else {
            continue;
        };
        let tails = [inner, outer].map(|half| clean(half.total, &half.tail));
        let inner_good = inner.in_order() && inner.total >= 64;
        let outer_good = outer.in_order() && outer.total == 64;
        if tails[0] && outer_good {
            missing.remove(&(kind, "inner", inner.total));
        }
        if tails[1] && inner_good {
            missing.remove(&(kind, "outer", outer.total));
        }
        let dirty = match tails {
            [false, true] if outer_good && inner.total >= 64 => "inner",
            [true, false] if inner_good && outer.total == 64 => "outer",
            [false, false] => "both",
            _ => continue,
        };
        missing.remove(&(kind, dirty, u64::MAX - 7));
    }
    assert!(missing.is_empty(), "{missing:?}");
}

#[test]
fn every_key_length_at_an_edge_comes_with_every_call_that_has_a_key() {
    let mut seen = BTreeSet::new();
    for (kind, call) in run(7) {
        match call {
            Call::Coded(
                CodeCall::Start { key }
                | CodeCall::Of { key, .. }
                | CodeCall::CompareOf { key, .. }
                | CodeCall::KeyedRead { key, .. },
            ) => drop(seen.insert((kind, key.length() as usize))),
            _ => continue,
        }
    }
    for kind in ["code_start", "code_of", "compare_code_of", "keyed_read"] {
        for length in KEYS {
            assert!(seen.contains(&(kind, length)), "{kind} {length}");
        }
    }
}

/// Every ill formed MAC line stands behind a good sheet, in place and not.
#[test]
fn every_ill_formed_mac_line_is_read() {
    let count = ill_lines(&[0; 32]).len();
    let mut seen: BTreeMap<&str, BTreeSet<usize>> = BTreeMap::new();
    for (kind, call) in run(8) {
        let Call::Coded(CodeCall::KeyedRead { key, text, .. }) = &call else {
            continue;
        };
        let (Some(key), Lent::Bytes(text)) = (key.bytes(), text) else {
            continue;
        };
        seen.entry(kind).or_default().extend(ill_endings(key, text));
    }
    for kind in ["keyed_read", "keyed_read_in_place"] {
        assert_eq!(seen[kind].len(), count, "{kind}");
    }
}

/// Which ill formed lines the text ends with, behind a sheet that it is the code
/// of: the sheet ends at one of the text's line ends.
fn ill_endings(key: &[u8], text: &[u8]) -> Vec<usize> {
    let ends = (1..=text.len()).filter(|end| text[end - 1] == b'\n');
    let bodies = ends.map(|end| text.split_at(end));
    let sheets = bodies.filter(|(body, _)| second::sheet::read(body).verdict.number == 0);
    let mut endings = Vec::new();
    for (body, ending) in sheets {
        let lines = ill_lines(&code::code_of(key, body).code);
        endings.extend(lines.iter().position(|line| line == ending));
    }
    endings
}

/// The slips of codes and of keyed sheets, and the calls that each goes wrong in.
fn slips() -> Vec<&'static Slip> {
    let ours = |slip: &&Slip| slip.name.starts_with("code-") || slip.name.starts_with("keyed-");
    SLIPS.iter().filter(ours).collect()
}

#[test]
fn every_slip_of_codes_is_found_and_no_two_are_the_same_mistake() {
    let slips = slips();
    assert_eq!(slips.len(), 71);
    let mut found = BTreeSet::new();
    let mut answers: BTreeMap<&str, DefaultHasher> = BTreeMap::new();
    for (_, call) in run(9) {
        let ours = answer(&call);
        for slip in &slips {
            let wrong = (slip.answer)(&call).or_else(|| ours.clone());
            if wrong != ours {
                found.insert(slip.name);
            }
            wrong.hash(answers.entry(slip.name).or_default());
        }
    }
    let missing: Vec<&str> = slips.iter().map(|slip| slip.name).collect();
    let missing: Vec<&&str> = missing
        .iter()
        .filter(|name| !found.contains(*name))
        .collect();
    assert!(missing.is_empty(), "{missing:?}");
    let different: BTreeSet<u64> = answers.values().map(Hasher::finish).collect();
    assert_eq!(different.len(), slips.len());
}

#[test]
fn the_copies_that_are_mistaken_have_no_mistake_themselves() {
    let mut tried = BTreeMap::new();
    for (kind, call) in run(10) {
        for honest in [miscoded::honest, misread::honest] {
            if let Some(same) = honest(&call) {
                assert_eq!(Some(same), answer(&call), "{kind}");
                *tried.entry(call.name()).or_insert(0) += 1;
            }
        }
    }
    let expected: BTreeSet<&str> = NUMBERS.iter().map(|(name, _)| *name).collect();
    assert_eq!(tried.into_keys().collect::<BTreeSet<_>>(), expected);
}
