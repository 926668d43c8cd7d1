//! The checker of data files: it counts, and it finds what is wrong.

use second::vectors::{check, Counts};

const ABC: &str = include_str!("../data/abc.txt");
const SHORT: &str = include_str!("../data/short.txt");
const WRONG: &str = include_str!("../data/wrong.txt");

#[test]
fn the_trace_of_abc_agrees() {
    let checked = check(ABC);
    assert_eq!(checked.differing, []);
    let expected = Counts {
        messages: 1,
        words: 68,
        primed: 64,
        rows: 65,
        chained: 1,
        padded: 16,
        digests: 1,
    };
    assert_eq!(checked.counts, expected);
}

#[test]
fn messages_may_be_empty_or_go_over_lines() {
    let checked = check(SHORT);
    assert_eq!(checked.differing, []);
    let counts = checked.counts;
    assert_eq!((counts.messages, counts.padded, counts.digests), (2, 33, 2));
}

#[test]
fn wrong_and_malformed_lines_are_named() {
    let lines = [3, 5, 7, 8, 10, 11, 12, 13, 14, 15, 16, 17, 18, 19];
    assert_eq!(check(WRONG).differing, lines);
}

#[test]
fn every_changed_digit_of_the_trace_is_found() {
    let lines: Vec<&str> = ABC.lines().collect();
    let mut changes = 0;
    for (index, line) in lines.iter().enumerate() {
        if !line.starts_with(['B', 'W', 'P', 'R', 'V', 'D']) {
            continue;
        }
        for place in (2..line.len()).filter(|place| line.as_bytes()[*place] != b' ') {
            let digit = if &line[place..=place] == "0" {
                "1"
            } else {
                "0"
            };
            let mut changed = line.to_string();
            changed.replace_range(place..=place, digit);
            let mut text = lines.clone();
            text[index] = &changed;
            assert_eq!(check(&text.join("\n")).differing, [index + 1]);
            changes += 1;
        }
    }
    assert_eq!(changes, 8 * (16 + 68 + 64 + 8 * 65 + 8 + 8));
}

#[test]
fn the_second_block_starts_from_the_first_one_s_value() {
    let message = "61".repeat(64);
    let digest = second::hash::digest(&[0x61; 64]).digest;
    let digest = crate::help::hex(&digest);
    let words: Vec<&str> = (0..8).map(|k| &digest[8 * k..8 * k + 8]).collect();
    let text = format!("M {message}\nK\nK\nV {}\nD {digest}\n", words.join(" "));
    let checked = check(&text);
    assert_eq!(checked.differing, []);
    assert_eq!((checked.counts.chained, checked.counts.digests), (1, 1));
    assert_eq!(check(&(text + "K\n")).differing, [6]);
}

#[test]
fn surplus_words_and_rows_differ() {
    let more_words = ABC.replacen("P 6162", "W 00000000\nP 6162", 1);
    assert_eq!(check(&more_words).differing, [16]);
    // The last row once more: good in itself, but there is no 66th.
    let last = ABC.lines().rfind(|line| line.starts_with('R')).unwrap();
    let more_rows = ABC.replacen("\nV ", &format!("\n{last}\nV "), 1);
    assert_eq!(check(&more_rows).differing, [89]);
}

#[test]
fn lines_with_nothing_to_compare_with_are_malformed() {
    for line in [
        "K",
        "D 00",
        "B 00000000",
        "W 00000000",
        "Q",
        "abc",
        "é",
        "M6",
        "m 61",
    ] {
        assert_eq!(check(line).differing, [1], "{line}");
    }
    assert_eq!(check("M 61\nW 00000000\n").differing, [2]);
    assert_eq!(check("M 61\nK\nW\n").differing, [3]);
    assert_eq!(check("M 61é\n").differing, [1]);
}

#[test]
fn comments_and_blank_lines_are_skipped() {
    let checked = check("# é\n\n   \n#M 61\n");
    assert_eq!(checked.differing, []);
    assert_eq!(checked.counts, Counts::default());
}

#[test]
fn messages_are_joined_only_by_lines_directly_after() {
    assert_eq!(check("M 61\nM\nM 62\n").counts.messages, 1);
    assert_eq!(check("M 61\n\nM 62\n").counts.messages, 2);
}
