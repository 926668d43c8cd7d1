//! The small examples of the paper, all of them.

use crate::help;
use second::hash::{self, State};
use second::padding;
use second::program;
use second::sheet;
use second::sm3;

fn abc_trace() -> sm3::Trace {
    let padded = padding::padded(b"abc");
    sm3::trace(&sm3::START, padded.first_chunk().unwrap())
}

#[test]
fn the_two_permutations() {
    assert_eq!(sm3::p0(0x00000001), 0x00020201);
    assert_eq!(sm3::p1(0x80000000), 0x80404000);
}

#[test]
fn words_and_first_round_of_abc() {
    let trace = abc_trace();
    assert_eq!(trace.words[16], 0x9092e200);
    assert_eq!(trace.words[18], 0x000c0606);
    assert_eq!(trace.primed[11], 0x00000018);
    assert_eq!(trace.primed[54], 0x7fafe5b5);
    assert_eq!(trace.rows[0], sm3::START);
    assert_eq!(trace.rows[1][0], 0xb9edc12b);
    assert_eq!(trace.rows[1][4], 0xb2ad29f4);
}

#[test]
fn compress_is_the_end_of_the_trace() {
    let padded = padding::padded(b"abc");
    let words = sm3::compress(&sm3::START, padded.first_chunk().unwrap());
    assert_eq!(words, abc_trace().chained);
    assert_eq!(sm3::to_bytes(&words), help::digest_of(b"abc"));
}

#[test]
fn block_counts() {
    for (bytes, blocks) in [(0, 1), (55, 1), (56, 2), (63, 2), (64, 2)] {
        assert_eq!(padding::block_count(bytes), blocks, "{bytes} bytes");
    }
}

#[test]
fn loops_with_32_frames() {
    for (bounds, number) in [("0 31", 0), ("31 31", 0), ("0 32", 4), ("32 32", 4)] {
        let text = help::sheet(&["RANK 1 1", &format!("5 64 {bounds} Z")]);
        assert_eq!(
            sheet::read(text.as_bytes()).verdict.number,
            number,
            "loop {bounds}"
        );
    }
}

#[test]
fn digest_of_abc() {
    let expected = "66c7f0f462eeedd9d1f2d46bdc10e4e24167c4875cf2f7a2297da02b8f4ba8e0";
    assert_eq!(help::hex(&help::digest_of(b"abc")), expected);
}

#[test]
fn digest_of_the_second_example() {
    let expected = "debe9ff92275b8a138604889c18e5a4d6fdb70e5387e5765293dcba39c0c5732";
    assert_eq!(help::hex(&help::digest_of(&b"abcd".repeat(16))), expected);
}

#[test]
fn the_fullest_state_takes_an_empty_piece_and_refuses_one_byte() {
    let full = State {
        total: (1 << 61) - 1,
        ..State::fresh()
    };
    let mut state = full;
    assert_eq!(state.update(b""), 0);
    assert_eq!(state, full);
    assert_eq!(state.update(b"x"), 10);
    assert_eq!(state, full);
}

#[test]
fn comparison_of_abc() {
    let digest = help::digest_of(b"abc");
    assert!(hash::compare(b"abc", &digest).same);
    assert!(!hash::compare(b"abd", &digest).same);
}

#[test]
fn the_longest_sheet_has_3233_bytes() {
    let mut lines = vec!["RANK 1 32".to_string()];
    for note in 1..=32 {
        lines.push(format!("{note} 4294967294 2147483646 2147483646 Z"));
    }
    let lines: Vec<&str> = lines.iter().map(String::as_str).collect();
    let text = help::sheet(&lines);
    assert_eq!(text.len(), 3233);
    let read = sheet::read(text.as_bytes());
    assert_eq!((read.verdict.number, read.verdict.line), (0, 0));
    assert!(read.session.slots.iter().all(|slot| slot.status == 1));
}

#[test]
fn the_program_prints_its_example() {
    let folder = help::folder("example");
    let text = help::sheet(&["RANK 1 2", "5 64 0 31 Z", "9 6 0 2 Z"]);
    std::fs::write(folder.join("rank.txt"), text).unwrap();
    std::fs::write(folder.join("05.raw"), b"abcd".repeat(16)).unwrap();
    std::fs::write(folder.join("09.raw"), b"four").unwrap();
    assert_eq!(program::load(&folder), b"5\tshut\t64\n9\twaiting\t4\n");
}
