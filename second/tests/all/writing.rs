//! The sheet of a session: what is written, what is refused, what is left.

use crate::help;
use second::calls::answer::answer;
use second::calls::call::Call;
use second::calls::kinds::Calls;
use second::calls::miswritten;
use second::hash::State;
use second::making::sheets;
use second::session::{Record, Session, Slot};
use second::sheet;
use second::writing;
use std::collections::{BTreeMap, BTreeSet};

/// The number and the sheet, written into a buffer of this length. Bytes behind
/// the sheet must be left, of a refused call all of them.
fn written(session: &Session, buffer_length: usize) -> (u8, Vec<u8>) {
    let before = help::message(buffer_length);
    let mut buffer = before.clone();
    let answer = writing::write(session, &mut buffer);
    assert_eq!(buffer[answer.count..], before[answer.count..]);
    assert_eq!(answer.number == 0, answer.count > 0);
    (answer.number, buffer[..answer.count].to_vec())
}

/// The number alone, with all the room that any sheet needs.
fn number(session: &Session) -> u8 {
    written(session, 3233).0
}

fn read(text: &[u8]) -> Session {
    let read = sheet::read(text);
    assert_eq!((read.verdict.number, read.verdict.line), (0, 0));
    read.session
}

/// The same listed records, every note waiting and nothing taken.
fn waiting(session: &Session) -> Session {
    let mut waiting = Session::unlisted();
    for place in 0..32 {
        if session.slots[place].status != 0 {
            waiting.slots[place] = Slot {
                record: session.slots[place].record,
                state: State::fresh(),
                status: 1,
            };
            waiting.listed += 1;
        }
    }
    waiting
}

/// The paper's example, by which note 5 has 64 bytes and note 9 has 6.
fn example() -> String {
    help::sheet(&["RANK 1 2", "5 64 0 31 Z", "9 6 0 2 Z"])
}

fn all_notes(record: Record) -> Session {
    let mut session = Session::unlisted();
    (1..=32).for_each(|note| session.list(note, record));
    session
}

/// Ways to spoil a waiting slot of which nothing was taken.
const SPOILS: [fn(&mut Slot); 14] = [
    |slot| slot.status = 4,
    |slot| slot.status = 255,
    |slot| slot.record.length = 0,
    |slot| slot.record.length += 1,
    |slot| slot.record.length = 4294967295,
    |slot| slot.record.loop_start = slot.record.loop_end + 1,
    |slot| slot.record.loop_end = slot.record.length / 2,
    |slot| slot.state.total = slot.record.length,
    |slot| slot.state.total = u64::MAX,
    |slot| slot.state.tail[0] = 1,
    |slot| slot.state.tail[63] = 1,
    |slot| (slot.status, slot.state.words[0]) = (2, 0),
    |slot| (slot.status, slot.state.total) = (2, slot.record.length),
    |slot| (slot.status, slot.state.tail[63]) = (3, 1),
];

#[test]
fn the_example_read_and_written_gives_the_same_bytes() {
    let text = example().into_bytes();
    assert_eq!(text.len(), 9 + 75 + 73);
    let session = read(&text);
    for room in [0, 1, 100, 4096] {
        let (number, sheet) = written(&session, text.len() + room);
        assert_eq!((number, sheet), (0, text.clone()), "{room} more");
    }
    for length in 0..text.len() {
        assert_eq!(written(&session, length), (16, vec![]), "{length} bytes");
    }
}

#[test]
fn accepted_sheets_read_and_written_give_the_same_bytes() {
    let mut counts = BTreeSet::new();
    for index in 0..4000 {
        let (_, text) = sheets::at(7, index);
        let read = sheet::read(&text);
        if read.verdict.number == 0 {
            let sheet = written(&read.session, text.len());
            assert_eq!(sheet, (0, text.clone()), "sheet {index}");
            let short = written(&read.session, text.len() - 1);
            assert_eq!(short, (16, vec![]), "sheet {index}");
            counts.insert(text.iter().filter(|byte| **byte == b'\n').count() - 1);
        } else {
            assert_eq!(written(&read.session, 4096), (15, vec![]));
        }
    }
    assert_eq!(counts, (1..=32).collect());
}

#[test]
fn half_loaded_open_and_shut_notes_are_written_as_their_records() {
    let text = example().into_bytes();
    let before = read(&text);
    for (note, sample) in [(5, help::message(64)), (9, b"sample".to_vec())] {
        for taken in 0..=sample.len() {
            let mut session = before;
            assert_eq!(session.deliver(note, &sample[..taken]).number, 0);
            assert_eq!(written(&session, 3233), (0, text.clone()));
        }
    }
    let mut session = help::session_for(b"sample");
    let waits = written(&session, 3233);
    assert_eq!(session.deliver(5, b"sample").status, 2);
    assert_eq!(written(&session, 3233), waits);
    assert_eq!(read(&waits.1), help::session_for(b"sample"));
}

#[test]
fn the_longest_sheet_has_3233_bytes_and_fills_a_buffer_of_so_many() {
    let longest = Record {
        length: 4294967294,
        loop_start: 2147483646,
        loop_end: 2147483646,
        digest: [0xff; 32],
    };
    let session = all_notes(longest);
    assert_eq!(written(&session, 3232), (16, vec![]));
    let (number, sheet) = written(&session, 3233);
    assert_eq!((number, sheet.len()), (0, 3233));
    assert_eq!(sheet.len(), writing::LONGEST_SHEET);
    assert_eq!(read(&sheet), session);
}

#[test]
fn every_number_and_every_digest_byte_is_written_as_the_reader_wants_it() {
    for (length, loop_start, loop_end) in [
        (2, 0, 0),
        (22, 9, 10),
        (202, 0, 100),
        (4294967294, 0, 2147483646),
        (4294967294, 2147483645, 2147483646),
    ] {
        for first in [0, 32, 64, 96, 128, 160, 192, 224] {
            let record = Record {
                length,
                loop_start,
                loop_end,
                digest: std::array::from_fn(|k| first + k as u8),
            };
            let session = all_notes(record);
            let (number, sheet) = written(&session, 3233);
            let digest = help::hex(&record.digest);
            let lines: String = (1..=32)
                .map(|note| format!("{note}\t{length}\t{loop_start}\t{loop_end}\t{digest}\n"))
                .collect();
            let expected = format!("RANK\t1\t32\n{lines}");
            assert_eq!((number, sheet), (0, expected.into_bytes()));
        }
    }
}

#[test]
fn six_is_a_listed_slot_not_in_order_wherever_it_stands() {
    for place in 0..32 {
        for (k, spoil) in SPOILS.iter().enumerate() {
            let alone = {
                let mut session = Session::unlisted();
                session.list(place as u64 + 1, help::record(6, [7; 32]));
                session
            };
            for mut session in [alone, all_notes(help::record(6, [7; 32]))] {
                assert_eq!(number(&session), 0);
                spoil(&mut session.slots[place]);
                for length in [0, 9, 84, 3233, 5000] {
                    let got = written(&session, length);
                    assert_eq!(got, (6, vec![]), "place {place}, spoil {k}");
                }
            }
        }
    }
}

#[test]
fn loops_at_the_limits_are_written_or_six() {
    for (record, allowed) in help::loops() {
        let mut session = Session::unlisted();
        session.list(1, help::record(6, [7; 32]));
        session.list(32, record);
        for status in 1..=3 {
            session.slots[31].status = status;
            let (number, sheet) = written(&session, 3233);
            assert_eq!(number, if allowed { 0 } else { 6 }, "{record:?}");
            if allowed {
                assert_eq!(read(&sheet), waiting(&session), "{record:?}");
            }
        }
    }
}

#[test]
fn every_status() {
    for status in 0..=255 {
        let expected = match status {
            0 => 15,
            1..=3 => 0,
            _ => 6,
        };
        let mut session = Session::unlisted();
        session.list(32, help::record(6, [7; 32]));
        session.slots[31].status = status;
        assert_eq!(number(&session), expected, "status {status}");
        // With another note listed, status 0 only leaves this one out.
        session.list(1, help::record(6, [7; 32]));
        let expected = if status == 0 { 0 } else { expected };
        assert_eq!(number(&session), expected, "status {status}");
    }
}

#[test]
fn a_spoilt_slot_that_lists_no_note_is_no_fault() {
    let text = example().into_bytes();
    for spoil in SPOILS {
        let mut session = read(&text);
        for slot in session.slots.iter_mut().filter(|slot| slot.status == 0) {
            slot.record = help::record(6, [7; 32]);
            spoil(slot);
            slot.status = 0;
        }
        assert_eq!(written(&session, text.len()), (0, text.clone()));
        assert_eq!(read(&text), waiting(&session));
        let short = written(&session, text.len() - 1);
        assert_eq!(short, (16, vec![]));
        session.slots[4].status = 0;
        session.slots[8].status = 0;
        assert_eq!(written(&session, text.len()), (15, vec![]));
    }
}

#[test]
fn fifteen_goes_by_the_statuses_and_comes_before_sixteen() {
    for length in [0, 1, 8, 9, 10, 84, 3233, 5000] {
        let got = written(&Session::unlisted(), length);
        assert_eq!(got, (15, vec![]), "{length} bytes");
    }
    let mut session = read(example().as_bytes());
    session.slots[4].status = 0;
    assert_eq!(written(&session, 81), (16, vec![]));
    assert_eq!(written(&session, 82).0, 0);
    session.slots[8].status = 0;
    assert_eq!(written(&session, 81), (15, vec![]));
    assert_eq!(written(&session, 0), (15, vec![]));
}

/// The generated calls, of which the kind alone is made.
fn generated() -> impl Iterator<Item = (Session, Vec<u8>, Call)> {
    let all = Calls::new(11, &[]).unwrap();
    let others = all.kinds.iter().map(|kind| kind.name.to_string());
    let others: Vec<String> = others.filter(|name| name != "sheet_write").collect();
    let calls = Calls::new(11, &others).unwrap();
    (0..2800).map(move |index| match calls.at(index).1 {
        Call::SheetWrite { session, buffer } => {
            let (lent, listing) = (buffer.clone(), *session);
            (listing, lent, Call::SheetWrite { session, buffer })
        }
        other => unreachable!("{}", other.name()),
    })
}

/// The chain of the paper: written, read, written.
#[test]
fn what_was_written_reads_as_the_session_waiting_and_is_written_again() {
    let mut tried = 0;
    for (session, mut buffer, _) in generated() {
        let answer = writing::write(&session, &mut buffer);
        if answer.number != 0 {
            continue;
        }
        let sheet = &buffer[..answer.count];
        assert_eq!(read(sheet), waiting(&session));
        assert_eq!(written(&read(sheet), sheet.len()), (0, sheet.to_vec()));
        tried += 1;
    }
    assert!(tried > 500, "{tried} sheets were written");
}

/// A run of 50,000 calls has as many. Each answer comes hundreds of times, and
/// buffers of every length that makes a difference come with each.
#[test]
fn every_answer_of_the_writer_comes_often() {
    let mut numbers = BTreeMap::new();
    let mut margins = BTreeSet::new();
    let mut counts = BTreeSet::new();
    let mut records = BTreeSet::new();
    for (session, buffer, call) in generated() {
        let ours = answer(&call).unwrap();
        let number: u8 = ours.split('\t').next().unwrap().parse().unwrap();
        let margin = buffer.len() as i64 - writing::text(&session).len() as i64;
        *numbers.entry(number).or_insert(0) += 1;
        margins.insert((number, margin.clamp(-2, 2)));
        margins.extend(buffer.is_empty().then_some((number, -1000)));
        if number == 0 {
            let listed = session.slots.iter().filter(|slot| slot.status != 0);
            counts.insert(listed.clone().count());
            let numbers = |record: Record| [record.length, record.loop_start, record.loop_end];
            records.extend(listed.flat_map(|slot| numbers(slot.record)));
        }
    }
    assert!(numbers.values().all(|count| *count >= 300), "{numbers:?}");
    let all = |number: u8, each: &[i64]| -> Vec<(u8, i64)> {
        each.iter().map(|margin| (number, *margin)).collect()
    };
    let every = [-1000, -2, -1, 0, 1, 2];
    let expected = [
        all(0, &every[3..]),
        all(6, &every),
        all(15, &every),
        all(16, &every[..3]),
    ];
    assert_eq!(margins, expected.concat().into_iter().collect());
    assert_eq!(counts, (1..=32).collect());
    let tens: BTreeSet<u64> = (0..10).map(|k| 10_u64.pow(k)).collect();
    assert!(tens.is_subset(&records), "{tens:?}");
}

#[test]
fn the_copy_that_mistakes_are_made_in_has_none_itself() {
    for (_, _, call) in generated() {
        assert_eq!(miswritten::honest(&call), answer(&call));
    }
}
