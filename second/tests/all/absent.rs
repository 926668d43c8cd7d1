//! Calls that lend bytes that are not there: what they are answered is what
//! they would be answered whatever the bytes were.

use second::calls::answer::answer;
use second::calls::call::Call;
use second::calls::coded::CodeCall;
use second::calls::kinds::Calls;
use second::calls::values::Lent;
use std::collections::BTreeSet;

/// Bytes of this content, where no more than so many are missing.
fn fill(lent: &mut Lent, byte: u8) -> bool {
    match lent {
        Lent::Absent(length) if *length > 70000 => return false,
        Lent::Absent(length) => *lent = Lent::Bytes(vec![byte; *length as usize]),
        Lent::Bytes(_) => (),
    }
    true
}

/// The call with all its bytes there; nothing where that takes too many.
fn filled(call: &Call, byte: u8) -> Option<Call> {
    let mut call = call.clone();
    let done = match &mut call {
        Call::Fold { bytes, .. } | Call::Remove { bytes, .. } => fill(bytes, byte),
        Call::Update { piece, .. } | Call::Deliver { piece, .. } => fill(piece, byte),
        Call::Digest { message } | Call::PadWrite { message, .. } => fill(message, byte),
        Call::CompareMessage { message, expected } => fill(message, byte) && fill(expected, byte),
        Call::CompareState { expected, .. } => fill(expected, byte),
        Call::Block {
            message, buffer, ..
        } => fill(message, byte) && fill(buffer, byte),
        Call::SheetRead { text, .. } => fill(text, byte),
        Call::Fresh | Call::Finish { .. } | Call::Ask { .. } => false,
        Call::Ready { .. } | Call::SheetWrite { .. } | Call::Line { .. } => false,
        Call::Coded(call) => fill_coded(call, byte),
    };
    done.then_some(call)
}

fn fill_coded(call: &mut CodeCall, byte: u8) -> bool {
    let slices = match call {
        CodeCall::Start { key } => vec![key],
        CodeCall::Update { piece, .. } => vec![piece],
        CodeCall::Finish { .. } => vec![],
        CodeCall::Of { key, message } => vec![key, message],
        CodeCall::CompareState { expected, .. } => vec![expected],
        CodeCall::CompareOf {
            key,
            message,
            expected,
        } => vec![key, message, expected],
        CodeCall::KeyedRead { key, text, .. } => vec![key, text],
    };
    slices.into_iter().all(|slice| fill(slice, byte))
}

#[test]
fn bytes_that_are_not_there_do_not_matter() {
    let calls = Calls::new(8, &[]).unwrap();
    let mut tried = BTreeSet::new();
    for index in 0..40000 {
        let (kind, call) = calls.at(index);
        if !kind.ends_with('@') {
            continue;
        }
        for byte in [0, 0x80, 0xff] {
            if let Some(filled) = filled(&call, byte) {
                assert_eq!(answer(&call), answer(&filled), "call {index} ({kind})");
                tried.insert(kind);
            }
        }
    }
    let kinds = calls.kinds.iter().map(|kind| kind.name);
    assert_eq!(tried, kinds.filter(|kind| kind.ends_with('@')).collect());
}

#[test]
fn calls_that_need_a_byte_have_no_answer() {
    let state = second::hash::State::fresh();
    let buffer = Lent::Bytes(vec![0; 128]);
    for call in [
        Call::Fold {
            state,
            bytes: Lent::Absent(64),
        },
        Call::Update {
            in_place: false,
            state,
            piece: Lent::Absent(1),
        },
        Call::Digest {
            message: Lent::Absent(1),
        },
        Call::CompareMessage {
            message: Lent::Absent(1),
            expected: Lent::Bytes(vec![]),
        },
        Call::CompareState {
            state,
            expected: Lent::Absent(32),
        },
        Call::PadWrite {
            message: Lent::Absent(65),
            buffer: vec![0; 128],
        },
        Call::Block {
            part: false,
            message: Lent::Absent(65),
            buffer,
            block: 0,
        },
        Call::Remove {
            part: false,
            bytes: Lent::Absent(64),
        },
        Call::SheetRead {
            before: None,
            text: Lent::Absent(1),
        },
    ] {
        assert_eq!(answer(&call), None, "{}", call.name());
    }
}

/// The longest message of all; a key may be as long.
const LONGEST: u64 = (1 << 61) - 1;

/// The calls of the table's rows that are just not decided.
#[test]
fn calls_over_code_states_that_need_a_byte_have_no_answer() {
    let state = Box::new(second::code::start(b"").state);
    for call in [
        CodeCall::Start {
            key: Lent::Absent(LONGEST),
        },
        CodeCall::Update {
            in_place: false,
            state: state.clone(),
            piece: Lent::Absent(LONGEST - 64),
        },
        CodeCall::CompareState {
            state,
            expected: Lent::Absent(32),
        },
    ] {
        assert_eq!(answer(&Call::Coded(call.clone())), None, "{call:?}");
    }
}

#[test]
fn calls_with_keys_that_need_a_byte_have_no_answer() {
    let there = || Lent::Bytes(vec![7; 32]);
    let of = |key, message| CodeCall::Of { key, message };
    let compared = |key, message, expected| CodeCall::CompareOf {
        key,
        message,
        expected,
    };
    let read = |key, text| CodeCall::KeyedRead {
        before: None,
        key,
        text,
    };
    for call in [
        of(Lent::Absent(1), there()),
        of(Lent::Absent(LONGEST), Lent::Absent(LONGEST)),
        of(there(), Lent::Absent(LONGEST - 64)),
        compared(Lent::Absent(1), there(), Lent::Absent(31)),
        compared(there(), Lent::Absent(LONGEST - 64), Lent::Absent(31)),
        compared(there(), there(), Lent::Absent(32)),
        read(Lent::Absent(1), there()),
        read(Lent::Absent(LONGEST), Lent::Absent(68)),
        read(there(), Lent::Absent(69)),
    ] {
        assert_eq!(answer(&Call::Coded(call.clone())), None, "{call:?}");
    }
}
