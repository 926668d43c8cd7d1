//! What the drivers are fed with: that it is what it claims to be.

use second::calls::answer::answer;
use second::calls::call::Call;
use second::calls::kinds::Calls;
use second::calls::lines;
use second::folders::content::{self, Entry};
use second::hash;
use second::making::faults;
use second::making::notes;
use second::making::random::Random;
use second::making::sheets::{self, RULES_AT_LINES};
use second::orders::sequences::{self, Start};
use second::sheet;
use std::collections::{BTreeMap, BTreeSet};

#[test]
fn every_rule_is_broken_at_every_line() {
    let mut seen = BTreeSet::new();
    for ordinal in 0..4 * RULES_AT_LINES {
        let mut random = Random::new(1, "rule", ordinal);
        let (rule, line) = sheets::rule_and_line(ordinal);
        let read = sheet::read(&sheets::rule_at_line(&mut random, ordinal));
        assert_eq!(
            (read.verdict.number, read.verdict.line),
            (rule, line as u64),
            "{ordinal}"
        );
        seen.insert((rule, line));
    }
    assert_eq!(seen.len(), 130);
}

#[test]
fn every_bad_form_is_a_form_fault_of_its_line() {
    let mut random = Random::new(1, "forms", 0);
    let notes = notes::some(&mut random, 3);
    let lines = notes::lines(&notes);
    // So many forms have their turn in a run of 4,000 folders.
    assert!(faults::bad_forms(&lines[0]).len() + faults::bad_forms(&lines[1]).len() < 450);
    for line in 1..=4 {
        let forms = faults::bad_forms(&lines[line - 1]);
        assert!(forms.len() > 80, "{} forms", forms.len());
        for form in forms {
            let before = notes::text(&lines[..line - 1]);
            let text = [before, form, notes::text(&lines[line..])].concat();
            let read = sheet::read(&text);
            let shown = String::from_utf8_lossy(&text);
            assert_eq!(
                (read.verdict.number, read.verdict.line),
                (1, line as u64),
                "{shown:?}"
            );
        }
    }
}

#[test]
fn good_sheets_are_accepted_and_all_kinds_are_made() {
    let mut kinds = BTreeMap::new();
    for index in 0..2000 {
        let (kind, text) = sheets::at(9, index);
        let read = sheet::read(&text);
        assert!(kind != "good" || read.verdict.number == 0);
        *kinds.entry(kind).or_insert(0) += 1;
    }
    assert_eq!(kinds.len(), 11);
    assert!(kinds.values().all(|count| *count >= 50), "{kinds:?}");
}

#[test]
fn the_longest_sheets_are_among_the_long() {
    let lengths: BTreeSet<usize> = (0..4000)
        .map(|index| sheets::at(2, index))
        .filter(|(kind, _)| *kind == "long")
        .map(|(_, text)| text.len())
        .collect();
    assert!(lengths.contains(&3233));
    assert!(lengths.contains(&3232));
    assert!(lengths.contains(&3234));
    assert!(lengths.contains(&4096));
    assert!(lengths.range(4097..).next().is_some());
}

/// The four large samples of a run of 4,000 folders, and among the others a
/// file of 8,193 bytes for a note of 8,192, right and wrong.
#[test]
fn large_samples_and_bytes_past_whole_pieces_are_among_the_folders() {
    let mut large = Vec::new();
    let mut past = BTreeSet::new();
    for index in 0..4000 {
        let content = content::at(1, index);
        let files: Vec<&Vec<u8>> = content.entries.iter().filter_map(file).collect();
        if content.kind == "large" {
            large.push(files.iter().map(|file| file.len()).max());
        }
        let read = sheet::read(files.first().map_or(b"", |text| text));
        let records = read.session.slots.iter().map(|slot| slot.record);
        for (record, file) in records.filter(|record| record.length > 0).zip(&files[1..]) {
            if record.length == 8192 && file.len() == 8193 {
                past.insert(hash::digest(&file[..8192]).digest == record.digest);
            }
        }
    }
    assert_eq!(large.len(), 4);
    assert!(
        large.iter().all(|size| *size > Some(2048 * 4096)),
        "{large:?}"
    );
    assert_eq!(past, [false, true].into());
}

fn file((_, entry): &(String, Entry)) -> Option<&Vec<u8>> {
    match entry {
        Entry::File(bytes) => Some(bytes),
        _ => None,
    }
}

#[test]
fn the_same_seed_gives_the_same_and_another_gives_others() {
    let lines = |seed| -> Vec<Vec<u8>> {
        let calls = Calls::new(seed, &[]).unwrap();
        (0..300).map(|index| calls.at(index).1.line()).collect()
    };
    assert_eq!(lines(1), lines(1));
    assert_ne!(lines(1), lines(2));
    assert_eq!(sheets::at(3, 700), sheets::at(3, 700));
    let names = |seed| -> Vec<usize> {
        let folders = (0..50).map(|index| content::at(seed, index));
        folders.map(|folder| folder.entries.len()).collect()
    };
    assert_eq!(names(1), names(1));
    assert_ne!(names(1), names(2));
}

#[test]
fn no_call_needs_bytes_that_are_not_there_and_every_number_is_answered() {
    let calls = Calls::new(4, &[]).unwrap();
    let mut numbers = BTreeSet::new();
    for index in 0..4000 {
        let (kind, call) = calls.at(index);
        let ours = answer(&call).expect(kind);
        let number = ours.split('\t').next().unwrap().parse::<u8>();
        match call {
            Call::Fresh | Call::Fold { .. } | Call::Ready { .. } | Call::Line { .. } => (),
            Call::Block { part: true, .. } | Call::Remove { part: true, .. } => (),
            _ => drop(numbers.insert(number.unwrap())),
        }
    }
    assert_eq!(numbers, (0..=18).collect());
}

/// Each order has all deliveries, and each note's in its own order; most of
/// the pairs differ, and every number that a delivery may have comes.
#[test]
fn the_other_order_keeps_each_note_s_own() {
    let mut numbers = BTreeSet::new();
    let mut differ = 0;
    for index in 0..400 {
        let sequence = sequences::at(4, index);
        let mut places = sequence.other.clone();
        differ += u32::from(places != sequence.one());
        let notes: BTreeSet<u64> = sequence.deliveries.iter().map(|one| one.note).collect();
        for note in notes {
            let of_note = |place: &&usize| sequence.deliveries[**place].note == note;
            assert!(sequence.other.iter().filter(of_note).is_sorted());
        }
        places.sort_unstable();
        assert_eq!(places, sequence.one());
        let mut session = match sequence.start {
            Start::Sheet(text) => sheet::read(&text).session,
            Start::Stored(session) => *session,
        };
        for delivery in &sequence.deliveries {
            let answer = session.deliver(delivery.note, &delivery.piece);
            numbers.insert((answer.number, answer.status));
        }
    }
    assert!(differ > 300, "{differ} pairs of orders differ");
    let refused = [(5, 0), (6, 0), (7, 2), (7, 3), (8, 1)];
    let all = [(0, 1), (0, 2), (0, 3)].into_iter().chain(refused);
    assert_eq!(numbers, all.collect());
}

#[test]
fn calls_can_be_left_out() {
    let without = ["update_in_place", "deliver@"].map(str::to_string);
    let calls = Calls::new(4, &without).unwrap();
    let kinds: BTreeSet<&str> = (0..1000).map(|index| calls.at(index).0).collect();
    for kind in ["update_in_place", "update_in_place@", "deliver@"] {
        assert!(!kinds.contains(kind), "{kind}");
    }
    assert!(kinds.contains("update@") && kinds.contains("deliver"));
    assert!(Calls::new(4, &["updates".to_string()]).is_err());
}

/// Every fixed line has its turn in a run of 50,000 calls, and so has every
/// long one: the longest call, and one character more.
#[test]
fn every_strange_line_is_made() {
    let calls = Calls::new(4, &[]).unwrap();
    let lines: BTreeSet<Vec<u8>> = (0..50000)
        .map(|index| calls.at(index))
        .filter(|(kind, _)| *kind == "line")
        .map(|(_, call)| call.line())
        .collect();
    let strange = lines::CALLS.map(|(line, _)| line);
    for line in lines::NO_CALLS.iter().chain(&strange) {
        assert!(lines.contains(*line), "{}", line.escape_ascii());
    }
    let lengths: BTreeSet<usize> = lines.iter().map(Vec::len).collect();
    for length in [
        140007, 140009, 280035, 280036, 420018, 420019, 420020, 559999, 560001, 600006,
    ] {
        assert!(lengths.contains(&length), "{length}");
    }
}
