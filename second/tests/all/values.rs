//! Values and calls as they are written: what is printed is read back.

use crate::help;
use second::calls::answer::{answer, answer_lines};
use second::calls::call::Call;
use second::calls::kinds::Calls;
use second::calls::lines;
use second::calls::values::{self, Lent};
use second::code::{self, CodeState};
use second::hash::State;
use second::session::{Record, Session, Slot};

const FRESH: &str = "7380166f4914b2b9172442d7da8a0600a96f30bc163138aae38dee4db0fb0e4e:0:\
    00000000000000000000000000000000000000000000000000000000000000000000000000000000\
    000000000000000000000000000000000000000000000000";

#[test]
fn bytes_are_two_small_digits_each_and_a_dash_for_none() {
    assert_eq!(values::bytes_text(&[]), "-");
    assert_eq!(values::bytes_text(&[0, 10, 255]), "000aff");
    assert_eq!(values::parse_bytes("-"), Some(vec![]));
    assert_eq!(values::parse_bytes("000aff"), Some(vec![0, 10, 255]));
    for wrong in ["", "0", "0g", "0A", "000", " 00", "--", "@1"] {
        assert_eq!(values::parse_bytes(wrong), None, "{wrong:?}");
    }
    assert!(values::parse_bytes(&"00".repeat(70000)).is_some());
    assert_eq!(values::parse_bytes(&"00".repeat(70001)), None);
}

#[test]
fn lent_slices_may_be_a_length_alone() {
    let longest = Lent::Absent((1 << 63) - 1);
    assert_eq!(values::lent_text(&longest), "@9223372036854775807");
    for lent in [
        longest,
        Lent::Absent(0),
        Lent::Absent(u64::MAX),
        Lent::Bytes(vec![]),
        Lent::Bytes(vec![7; 100]),
    ] {
        assert_eq!(values::parse_lent(&values::lent_text(&lent)), Some(lent));
    }
    for wrong in ["@", "@x", "@-1", "@00", "@18446744073709551616", "@@1"] {
        assert_eq!(values::parse_lent(wrong), None, "{wrong:?}");
    }
}

#[test]
fn numbers_are_digits_below_two_to_the_64th() {
    assert_eq!(values::parse_number("0"), Some(0));
    assert_eq!(values::parse_number("18446744073709551615"), Some(u64::MAX));
    for wrong in [
        "",
        "+1",
        "-1",
        " 1",
        "1 ",
        "0x1",
        "00",
        "01",
        "18446744073709551616",
    ] {
        assert_eq!(values::parse_number(wrong), None, "{wrong:?}");
    }
}

#[test]
fn states_are_words_total_and_tail() {
    assert_eq!(values::state_text(&State::fresh()), FRESH);
    let mut state = State::fresh();
    state.update(&help::message(100));
    let text = values::state_text(&state);
    assert!(text.contains(":100:"));
    assert_eq!(values::parse_state(&text), Some(state));
    for wrong in ["", "::", &FRESH[1..], &FRESH[..FRESH.len() - 2]] {
        assert_eq!(values::parse_state(wrong), None, "{wrong:?}");
    }
}

#[test]
fn code_states_are_two_states_with_a_plus_between() {
    let fresh = CodeState {
        inner: State::fresh(),
        outer: State::fresh(),
    };
    let text = format!("{FRESH}+{FRESH}");
    assert_eq!(values::code_state_text(&fresh), text);
    assert_eq!(values::parse_code_state(&text), Some(fresh));
    let mut state = code::start(b"key").state;
    state.update(&help::message(100));
    let text = values::code_state_text(&state);
    assert!(text.contains(":164:") && text.contains(":64:"));
    assert_eq!(values::parse_code_state(&text), Some(state));
    for wrong in [
        "",
        "+",
        FRESH,
        &format!("{FRESH}+"),
        &format!("+{FRESH}"),
        &format!("{FRESH}{FRESH}"),
        &format!("{FRESH}++{FRESH}"),
        &format!("{FRESH} + {FRESH}"),
        &format!("{FRESH}+{FRESH}+{FRESH}"),
        &format!("{FRESH}+{}", FRESH.replace(":0:", ":+0:")),
    ] {
        assert_eq!(values::parse_code_state(wrong), None, "{wrong:?}");
    }
}

#[test]
fn sessions_are_their_counts_and_their_slots_that_are_not_empty() {
    assert_eq!(values::session_text(&Session::unlisted()), "0:0");
    let mut session = help::session_for(b"sample");
    session.slots[31] = Slot {
        record: Record::ZERO,
        state: State::fresh(),
        status: 255,
    };
    let digest = help::hex(&help::digest_of(b"sample"));
    let zeros = help::zeros();
    let end = session.slots[4].record.loop_end;
    let five = format!("5=6:0:{end}:{digest}:{FRESH}:1");
    let last = format!("32=0:0:0:{zeros}:{FRESH}:255");
    let text = format!("1:0,{five},{last}");
    assert_eq!(values::session_text(&session), text);
    assert_eq!(values::parse_session(&text), Some(session));
    assert_eq!(values::parse_session("0:0"), Some(Session::unlisted()));
    let empty = format!("6={}", values::slot_text(&Slot::UNLISTED));
    for wrong in [
        "",
        "-",
        "5",
        "5=",
        ",",
        &empty,
        &five,
        &text[1..],
        &format!("{five},{last}"),
        &format!("-,{five}"),
        &format!("{five},1:0"),
        &format!("1:0,{empty}"),
        &format!("{text},{text}"),
        &format!("{text},1:0"),
        &format!("1:0,{text}"),
        &format!("1:0,{five},{five}"),
        &format!("1:0,{last},{five}"),
        &format!("1:0,{five},{empty},{last}"),
        &format!("1:0,{five},,{last}"),
        &format!("1:0,,{five}"),
        &format!("1:0{five}"),
        &format!("1:0:{five}"),
        &format!("{text},"),
        &format!(",{text}"),
        &format!("{text},-"),
        &text.replace("32=", "33="),
        &text.replace(",5=", ",0="),
        &text.replace(",5=", ",05="),
        &text.replace("5=6:", "5=4294967296:"),
        &text.replace(":255", ":256"),
        &text.replace(":255", ":0255"),
    ] {
        assert_eq!(values::parse_session(wrong), None, "{wrong:?}");
    }
    let widest = text.replace("5=6:", "5=4294967295:");
    assert!(values::parse_session(&widest).is_some());
}

#[test]
fn the_counts_of_a_session_are_two_numbers_of_a_byte_and_always_there() {
    for listed in 0..=255 {
        for open in 0..=255 {
            let session = Session {
                listed,
                open,
                ..Session::unlisted()
            };
            let text = format!("{listed}:{open}");
            assert_eq!(values::session_text(&session), text);
            assert_eq!(values::parse_session(&text), Some(session));
        }
    }
    for wrong in [
        ":",
        "0",
        "0:",
        ":0",
        "0:0:",
        ":0:0",
        "0:0:0",
        "0,0",
        "0=0",
        "-:0",
        "0:-",
        "00:0",
        "0:00",
        "01:1",
        "1:01",
        "256:0",
        "0:256",
        "+1:1",
        "1:+1",
        "-1:1",
        "1:-1",
        " 1:1",
        "1 :1",
        "1:1 ",
        "1.0:1",
        "0x1:1",
        "a:a",
        "0:0,",
        "0:0,-",
        "0:0,0:0",
        "0:0,1",
        "@0",
        "18446744073709551616:0",
    ] {
        assert_eq!(values::parse_session(wrong), None, "{wrong:?}");
    }
}

#[test]
fn generated_calls_are_read_back() {
    let calls = Calls::new(5, &["line".to_string()]).unwrap();
    for index in 0..1000 {
        let (kind, call) = calls.at(index);
        let line = call.line();
        assert!(line.len() < 60000, "call {index} has {} bytes", line.len());
        assert_eq!(kind.trim_end_matches('@'), call.name());
        assert_eq!(line.contains(&b'@'), kind.ends_with('@'));
        assert_eq!(Call::parse(&line), Some(call), "call {index}");
    }
}

#[test]
fn lines_that_are_no_call() {
    for line in lines::NO_CALLS {
        assert_eq!(Call::parse(line), None, "{}", line.escape_ascii());
    }
}

#[test]
fn strange_lines_that_are_a_call() {
    for (line, answers) in lines::CALLS {
        let call = Call::parse(line).unwrap();
        assert_eq!(answer(&call).as_deref(), Some(answers));
        assert_eq!(call.line(), line);
    }
}

/// What is read is what would be written: each value has one text.
#[test]
fn a_line_that_is_a_call_is_the_call_s_line() {
    let calls = Calls::new(6, &[]).unwrap();
    let lines = (0..20000).map(|index| calls.at(index));
    let mut still = 0;
    for (_, call) in lines.filter(|(kind, _)| *kind == "line") {
        let line = call.line();
        if let Some(call) = Call::parse(&line) {
            assert_eq!(call.line(), line, "{}", line.escape_ascii());
            still += 1;
        }
    }
    assert!(still > 50, "{still} lines are a call");
}

#[test]
fn each_line_has_one_answer_and_the_last_needs_its_end() {
    let answered = |input: &[u8]| {
        let mut out = Vec::new();
        answer_lines(input, &mut out).unwrap();
        String::from_utf8(out).unwrap()
    };
    assert_eq!(answered(b""), "");
    assert_eq!(answered(b"\n"), "?\n");
    assert_eq!(answered(b"remove_number\t-\n\n"), "14\n?\n");
    assert_eq!(answered(b"remove_number\t-\nremove_number\t-"), "14\n?\n");
    assert_eq!(answered(b"remove_number\t-\r\n\xff\n"), "?\n?\n");
    let long = [&[b'0'; 700000][..], b"\nremove_number\t-\n"].concat();
    assert_eq!(answered(&long), "?\n14\n");
}
