//! Counts in what the drivers are fed with: that every kind of them comes with
//! every call that has a session, and that every mistake with them is found.

use second::calls::answer::answer;
use second::calls::call::Call;
use second::calls::kinds::Calls;
use second::calls::miscounted;
use second::calls::slips::{Slip, SLIPS};
use second::making::counts::{self, EDGES};
use second::orders::sequences::{self, Start};
use second::session::Session;
use second::walk;
use std::collections::hash_map::DefaultHasher;
use std::collections::{BTreeMap, BTreeSet};
use std::hash::{Hash, Hasher};

const DELIVERIES: [&str; 2] = ["deliver", "deliver_in_place"];
const SLOTS: [&str; 4] = ["deliver", "deliver_in_place", "ask", "ask_in_place"];
const SHEETS: [&str; 2] = ["sheet_read", "sheet_read_in_place"];
const IN_PLACE: [&str; 1] = ["sheet_read_in_place"];
const READY: [&str; 1] = ["ready"];
const WRITER: [&str; 1] = ["sheet_write"];

/// Every pair of edges.
fn edges() -> BTreeSet<(u8, u8)> {
    let pairs = |listed: &u8| EDGES.map(|open| (*listed, open));
    EDGES.iter().flat_map(pairs).collect()
}

/// A run of so many calls, as scripts make it.
fn run(seed: u64) -> impl Iterator<Item = (&'static str, Call)> {
    let calls = Calls::new(seed, &[]).unwrap();
    (0..50000).map(move |index| calls.at(index))
}

/// The session that a call is given, if any.
fn session(call: &Call) -> Option<&Session> {
    match call {
        Call::SheetRead { before, .. } => before.as_deref(),
        Call::Deliver { session, .. } | Call::Ask { session, .. } => Some(session),
        Call::Ready { session } | Call::SheetWrite { session, .. } => Some(session),
        _ => None,
    }
}

/// The number that is answered, and where it is about a note the status.
fn said(call: &Call) -> (u8, u8) {
    let ours = answer(call).unwrap();
    let fields: Vec<&str> = ours.split('\t').collect();
    let status = match call {
        Call::Deliver { .. } | Call::Ask { .. } => fields[1],
        _ => "0",
    };
    (fields[0].parse().unwrap(), status.parse().unwrap())
}

#[test]
fn the_pairs_that_have_turns_are_all_of_the_edges() {
    let made: BTreeSet<(u8, u8)> = (0..169).map(counts::in_turn).collect();
    assert_eq!(made, edges());
    for edge in [0, 1, 30, 31, 32, 33, 34, 200, 254, 255] {
        assert!(EDGES.contains(&edge), "{edge}");
    }
}

/// In a run of 50,000 calls every pair comes with a delivery that opens a note
/// and with one that shuts it, and with the question whether all is ready.
#[test]
fn every_pair_comes_with_every_call_that_it_decides() {
    let mut missing = BTreeSet::new();
    for counts in edges() {
        missing.extend(DELIVERIES.map(|kind| (kind, "opens", counts)));
        missing.extend(DELIVERIES.map(|kind| (kind, "shuts", counts)));
        missing.insert(("ready", "asked", counts));
    }
    let mut opened = BTreeMap::new();
    for (kind, call) in run(5) {
        let Some(Session { listed, open, .. }) = session(&call) else {
            continue;
        };
        let decided = match (&call, said(&call)) {
            (Call::Ready { .. }, _) => "asked",
            (Call::Deliver { .. }, (0, 2)) => "opens",
            (Call::Deliver { .. }, (0, 3)) => "shuts",
            _ => continue,
        };
        missing.remove(&(kind, decided, (*listed, *open)));
        *opened.entry((kind, decided)).or_insert(0) += 1;
    }
    assert!(missing.is_empty(), "{missing:?}");
    for kind in DELIVERIES {
        assert!(opened[&(kind, "opens")] > 900, "{opened:?}");
        assert!(opened[&(kind, "shuts")] > 300, "{opened:?}");
    }
}

fn fits(session: &Session) -> bool {
    walk::counts(session) == (session.listed, session.open)
}

fn equal(session: &Session) -> bool {
    session.listed == session.open
}

/// What may be said of counts, beside slots or by themselves.
type Form = (&'static str, fn(&Session) -> bool);

const FORMS: [Form; 8] = [
    ("fit", fits),
    ("do not fit", |session| !fits(session)),
    ("zero", |session| equal(session) && session.open == 0),
    ("ready", |session| session.ready() && session.open <= 32),
    ("nonsense", |session| equal(session) && session.open > 32),
    ("fewer open", |session| session.open < session.listed),
    ("more open", |session| session.open > session.listed),
    ("stays", |session| session.open >= 32 && session.listed < 32),
];

/// The names of those that hold.
fn forms(session: &Session) -> impl Iterator<Item = &'static str> + '_ {
    let holding = FORMS.iter().filter(|(_, holds)| holds(session));
    holding.map(|(name, _)| *name)
}

/// Whatever comes of a call with a session, it comes with counts of every form,
/// in place too: they must matter nowhere but where they are to.
#[test]
fn every_answer_comes_with_counts_of_every_form() {
    let delivered = [
        (0, 1),
        (0, 2),
        (0, 3),
        (5, 0),
        (6, 0),
        (7, 2),
        (7, 3),
        (8, 1),
    ];
    let asked = [(0, 1), (0, 2), (0, 3), (5, 0), (6, 0)];
    let read = [(0, 0), (1, 0), (2, 0), (3, 0), (4, 0)];
    let mut missing = BTreeSet::new();
    for (kind, answers) in [
        ("deliver", &delivered[..]),
        ("deliver_in_place", &delivered),
        ("ask", &asked),
        ("ask_in_place", &asked),
        ("sheet_read_in_place", &read),
        ("sheet_write", &[(0, 0), (6, 0), (15, 0), (16, 0)]),
    ] {
        for answered in answers {
            missing.extend(FORMS.map(|(form, _)| (kind, *answered, form)));
        }
    }
    for (kind, call) in run(6) {
        if let Some(session) = session(&call) {
            let answered = said(&call);
            for form in forms(session) {
                missing.remove(&(kind, answered, form));
            }
        }
    }
    assert!(missing.is_empty(), "{missing:?}");
}

/// Where a sheet is read in place every edge stands there before, in either
/// count, whether the sheet is accepted or not.
#[test]
fn sheets_are_read_over_every_edge() {
    let mut seen = BTreeSet::new();
    for (kind, call) in run(7) {
        if let Some(before) = session(&call).filter(|_| kind == "sheet_read_in_place") {
            let accepted = said(&call).0 == 0;
            seen.insert((accepted, "listed", before.listed));
            seen.insert((accepted, "open", before.open));
        }
    }
    for edge in EDGES {
        for accepted in [false, true] {
            for count in ["listed", "open"] {
                assert!(seen.contains(&(accepted, count, edge)), "{count} {edge}");
            }
        }
    }
}

/// The counts say yes or no where the walk says either, and ranks of 1 to 32
/// notes become ready with the last of them, the counts being those of the slots.
#[test]
fn the_light_is_asked_with_and_against_the_walk_and_goes_on_in_every_rank() {
    let mut asked = BTreeMap::new();
    let mut goes_on = BTreeSet::new();
    for (kind, call) in run(8) {
        match &call {
            Call::Ready { session } => {
                let both = (session.ready(), walk::all_open(session));
                *asked.entry(both).or_insert(0) += 1;
            }
            Call::Deliver { session, note, .. } => {
                let lacks_one = fits(session) && session.open + 1 == session.listed;
                if lacks_one && said(&call) == (0, 2) {
                    assert!((1..=32).contains(note));
                    goes_on.insert((kind, session.listed));
                }
            }
            _ => (),
        }
    }
    assert_eq!(asked.len(), 4, "{asked:?}");
    assert!(asked.values().all(|times| *times >= 50), "{asked:?}");
    for listed in 1..=32 {
        for kind in DELIVERIES {
            assert!(goes_on.contains(&(kind, listed)), "{kind} {listed}");
        }
    }
}

#[test]
fn counts_of_every_form_are_among_the_stored_sessions_of_1000_orders() {
    let mut seen = BTreeSet::new();
    for index in 0..1000 {
        let sequence = sequences::at(1, index);
        if let Start::Stored(session) = &sequence.start {
            seen.extend(forms(session).map(|form| (sequence.kind(), form)));
        }
    }
    let kinds = ["stored", "stored_in_place"].into_iter();
    let all = kinds.flat_map(|kind| FORMS.map(|(form, _)| (kind, form)));
    assert_eq!(seen, all.collect());
}

/// The slips of counts, and the calls that each goes wrong in.
fn count_slips() -> Vec<(&'static Slip, &'static [&'static str])> {
    let kinds = |name: &str| -> &'static [&'static str] {
        match name {
            "session-counts-judged" => &SLOTS,
            "sheet-refused-counted" | "sheet-uncounted" => &SHEETS,
            "sheet-refused-keeps-counts" | "sheet-open-kept" | "sheet-listed-kept" => &IN_PLACE,
            "writing-none-by-count" | "writing-count-for-lines" | "writing-counts-judged" => {
                &WRITER
            }
            _ if name.starts_with("count-") => &DELIVERIES,
            _ if name.starts_with("ready-") => &READY,
            _ => &[],
        }
    };
    let all = SLIPS.iter().map(|slip| (slip, kinds(slip.name)));
    all.filter(|(_, kinds)| !kinds.is_empty()).collect()
}

#[test]
fn every_call_that_may_miscount_finds_every_slip_of_counts() {
    let slips = count_slips();
    assert_eq!(slips.len(), 25);
    let mut missing: BTreeSet<(&str, &str)> = slips
        .iter()
        .flat_map(|(slip, kinds)| kinds.iter().map(|kind| (*kind, slip.name)))
        .collect();
    for (kind, call) in run(9) {
        let ours = answer(&call);
        for (slip, _) in &slips {
            let wrong = || (slip.answer)(&call).filter(|wrong| ours.as_ref() != Some(wrong));
            if missing.contains(&(kind, slip.name)) && wrong().is_some() {
                missing.remove(&(kind, slip.name));
            }
        }
    }
    assert!(missing.is_empty(), "{missing:?}");
}

/// No two of them are the same mistake.
#[test]
fn the_slips_of_counts_differ_from_each_other() {
    let mut answers: BTreeMap<&str, DefaultHasher> = BTreeMap::new();
    for (_, call) in run(10) {
        let ours = session(&call).and_then(|_| answer(&call));
        for (slip, _) in count_slips() {
            let wrong = (slip.answer)(&call).or_else(|| ours.clone());
            wrong.hash(answers.entry(slip.name).or_default());
        }
    }
    let different: BTreeSet<u64> = answers.values().map(Hasher::finish).collect();
    assert_eq!(different.len(), answers.len());
}

#[test]
fn the_copy_that_counts_are_mistaken_in_has_no_mistake_itself() {
    let mut tried = BTreeMap::new();
    for (kind, call) in run(11) {
        if let Some(same) = miscounted::honest(&call) {
            assert_eq!(Some(same), answer(&call), "{kind}");
            *tried.entry(call.name()).or_insert(0) += 1;
        }
    }
    let expected: Vec<&str> = DELIVERIES.into_iter().chain(READY).chain(SHEETS).collect();
    let tried: Vec<&str> = tried.into_keys().collect();
    assert_eq!(tried, expected);
}
