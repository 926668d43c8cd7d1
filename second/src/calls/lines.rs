//! Lines that are no call, or just still one: everything that the page of
//! calls leaves no room for, in a line of every call.

use crate::calls::answer::answer;
use crate::calls::call::Call;
use crate::calls::kinds::{self, Wish};
use crate::calls::values::{slot_text, MOST_BYTES};
use crate::making::random::Random;
use crate::session::Slot;
use std::ops::Range;

/// 32 bytes that are zero.
macro_rules! zeros {
    () => {
        "0000000000000000000000000000000000000000000000000000000000000000"
    };
}

/// A hash state that has taken so many bytes.
macro_rules! state {
    ($total:literal) => {
        concat!(zeros!(), ":", $total, ":", zeros!(), zeros!())
    };
}

/// The line that ends a code state that is written so.
macro_rules! code_finish {
    ($($part:expr),+) => {
        concat!("code_finish\t", $($part),+).as_bytes()
    };
}

/// Lines that are no call, each for a reason of its own.
pub const NO_CALLS: [&[u8]; 138] = [
    b"",
    b"\t",
    b"?",
    b"\r",
    b"\0",
    b"line",
    b"Fresh",
    b"FRESH",
    b"fres",
    b"freshh",
    b"fresh ",
    b" fresh",
    b"fresh\r",
    b"fresh\x0b",
    b"fresh\0",
    b"fresh\0\tx",
    b"fresh\t",
    b"\tfresh",
    b"fresh\t-",
    b"digest",
    b"digest\t",
    b"digest\t\t",
    b"digest\t\t00",
    b"digest\t00\t",
    b"\tdigest\t00",
    b"digest 00",
    b"digest\t00\t00",
    b"digest\t--",
    b"digest\t-00",
    b"digest\t00-",
    b"digest\t0",
    b"digest\t000",
    b"digest\t0g",
    b"digest\t0A",
    b"digest\t0x00",
    b"digest\t00 ",
    b"digest\t 00",
    b"digest\t00\r",
    b"digest\t@",
    b"digest\t@00",
    b"digest\t@-1",
    b"digest\t@ff",
    b"digest\t@18446744073709551616",
    b"pad_write\t-\t@64",
    b"pad_write\t-\t@0",
    b"ask\t\t5",
    b"ask\t-\t5",
    b"ask\t--\t5",
    b"ask\t,\t5",
    b"ask\t0:0\t05",
    b"ask\t0:0\t+5",
    b"ask\t0:0\t@5",
    b"ask\t0:0\t18446744073709551616",
    b"sheet_write\t0:0",
    b"sheet_write\t0:0\t@64",
    b"sheet_write\t0:0\t@0",
    b"ready",
    b"Ready\t0:0",
    b"ready\t",
    b"ready\t-",
    b"ready\t0",
    b"ready\t:",
    b"ready\t0:",
    b"ready\t:0",
    b"ready\t-:0",
    b"ready\t0:-",
    b"ready\t0::0",
    b"ready\t0:0:0",
    b"ready\t0,0",
    b"ready\t0=0",
    b"ready\t00:0",
    b"ready\t0:00",
    b"ready\t01:1",
    b"ready\t1:01",
    b"ready\t+1:1",
    b"ready\t1:+1",
    b"ready\t-1:1",
    b"ready\t1: 1",
    b"ready\t 1:1",
    b"ready\t1:1 ",
    b"ready\t256:0",
    b"ready\t0:256",
    b"ready\t257:257",
    b"ready\t4294967296:0",
    b"ready\t18446744073709551616:0",
    b"ready\t0:18446744073709551616",
    b"ready\t0x1:1",
    b"ready\ta:a",
    b"ready\t0:0,",
    b"ready\t,0:0",
    b"ready\t0:0,-",
    b"ready\t-,0:0",
    b"ready\t0:0,0:0",
    b"ready\t0:0,5",
    b"ready\t0:0\t5",
    b"ready\t@0",
    b"ready\t0:0\r",
    b"code_start",
    b"code_start\t",
    b"code_start\t0",
    b"code_start\t0A",
    b"code_start\t@",
    b"code_start\t-\t-",
    b"Code_start\t-",
    b"code-start\t-",
    b"code_of\t-",
    b"code_of\t-\t",
    b"code_of\t-\t-\t-",
    b"code_finish\t-",
    b"code_finish\t@0",
    b"code_finish\t+",
    code_finish!(state!("64")),
    code_finish!(state!("64"), "+"),
    code_finish!("+", state!("64")),
    code_finish!(state!("64"), "+-"),
    code_finish!("-+", state!("64")),
    code_finish!(state!("64"), "++", state!("64")),
    code_finish!(state!("64"), "+", state!("64"), "+"),
    code_finish!(state!("64"), "+", state!("64"), "+", state!("64")),
    code_finish!(state!("64"), state!("64")),
    code_finish!(state!("64"), ":", state!("64")),
    code_finish!(state!("64"), ",", state!("64")),
    code_finish!(state!("64"), "-", state!("64")),
    code_finish!(state!("64"), "\t", state!("64")),
    code_finish!(state!("64"), " + ", state!("64")),
    code_finish!(state!("064"), "+", state!("64")),
    code_finish!(state!("64"), "+", state!("+64")),
    code_finish!(state!("64"), "+", state!("18446744073709551616")),
    b"code_update\t-\t-",
    b"compare_code\t-\t-",
    b"compare_code_of\t-\t-",
    b"compare_code_of\t-\t-\t-\t-",
    b"keyed_read\t-",
    b"keyed_read\t0:0\t-\t-",
    b"keyed_read_in_place\t-\t-",
    b"keyed_read_in_place\t-\t-\t-",
    b"keyed_read_in_place\t0:0\t-",
    b"keyed_write\t-\t0:0\t-",
];

/// Lines that are a call though they look strange, and what they are answered.
pub const CALLS: [(&[u8], &str); 25] = [
    (b"ask\t0:0\t0", "5\t0\t0"),
    (b"ask_in_place\t255:0\t18446744073709551615", "5\t0\t0"),
    (b"remove_number\t-", "14"),
    (b"remove_part\t@18446744073709551615", "0\t0\t-"),
    (b"sheet_read\t@0", "1\t1\t0:0"),
    (b"sheet_read_in_place\t200:200\t-", "1\t1\t0:0"),
    (b"deliver\t200:255\t5\t-", "5\t0\t0\t200:255"),
    (b"ready\t0:0", "0"),
    (b"ready\t1:1", "1"),
    (b"ready\t200:200", "1"),
    (b"ready\t0:255", "0"),
    (b"pad_write\t@18446744073709551615\t-", "10\t0\t-"),
    (b"block_part\t-\t@63\t0", "0\t0\t0\t-"),
    (b"sheet_write\t1:1\t-", "15\t0\t-"),
    (
        b"code_of\t@2305843009213693952\t@5",
        concat!("10\t", zeros!()),
    ),
    (
        b"code_of\t-\t@2305843009213693888",
        concat!("10\t", zeros!()),
    ),
    (
        code_finish!(state!("0"), "+", state!("18446744073709551615")),
        concat!("9\t", zeros!()),
    ),
    (
        code_finish!(state!("64"), "+", state!("63")),
        concat!("9\t", zeros!()),
    ),
    (b"compare_code_of\t-\t-\t@31", "11\t0"),
    (b"compare_code_of\t@0\t@0\t@0", "11\t0"),
    (b"keyed_read\t-\t-", "17\t0\t0:0"),
    (b"keyed_read\t@0\t@68", "17\t0\t0:0"),
    (b"keyed_read\t@2305843009213693952\t@69", "10\t0\t0:0"),
    (b"keyed_read_in_place\t200:200\t-\t-", "17\t0\t0:0"),
    (
        b"keyed_read_in_place\t1:0\t@18446744073709551615\t@0",
        "10\t0\t0:0",
    ),
];

/// By turns one of the lines above, a long one, or one that is made out of a
/// call's. None asks for bytes that are not there.
pub fn line(wish: &mut Wish) -> Call {
    let (round, turn) = (wish.ordinal as usize / 16, wish.ordinal as usize % 16);
    let line = match turn {
        0 | 1 => fixed(2 * round + turn),
        2 if round.is_multiple_of(4) => long(round / 4),
        _ => spoilt(wish),
    };
    let call = Call::Line { line };
    match answer(&call) {
        Some(_) => call,
        None => Call::Line { line: Vec::new() },
    }
}

/// The lines above, one after the other.
fn fixed(turn: usize) -> Vec<u8> {
    let strange = CALLS.map(|(line, _)| line);
    let all = [&NO_CALLS[..], &strange].concat();
    all[turn % all.len()].to_vec()
}

/// The longest calls, and lines longer than any.
fn long(turn: usize) -> Vec<u8> {
    let bytes = |count: usize| vec![b'a'; 2 * count];
    let two = |number: &str| {
        let most = bytes(MOST_BYTES);
        [
            b"block_number\t",
            &most[..],
            b"\t",
            &most,
            b"\t",
            number.as_bytes(),
        ]
        .concat()
    };
    let three = |count: usize| {
        let most = bytes(MOST_BYTES);
        let last = bytes(count);
        [b"compare_code_of", &most[..], &most, &last].join(&b'\t')
    };
    match turn % 11 {
        0 => [b"digest\t", &bytes(MOST_BYTES)[..]].concat(),
        1 => [b"digest\t", &bytes(MOST_BYTES + 1)[..]].concat(),
        2 => two("18446744073709551615"),
        3 => two("184467440737095516150"),
        4 => [b"digest\t", &bytes(279_996)[..]].concat(),
        5 => [b"digest\t", &bytes(279_997)[..]].concat(),
        6 => [b"fresh\t", &vec![b'\t'; 600_000][..]].concat(),
        7 => three(MOST_BYTES),
        8 => [&three(MOST_BYTES)[..], b"a"].concat(),
        9 => three(MOST_BYTES + 1),
        _ => [b"fresh", &vec![0; 300_000][..]].concat(),
    }
}

type Spoil = fn(&mut Random, &mut Vec<u8>);

/// Every way to spoil the line of any call.
const SPOILS: [Spoil; 30] = [
    |_, line| line.insert(0, b'\t'),
    |_, line| line.push(b'\t'),
    |_, line| line.push(b'\r'),
    |_, line| line.push(0),
    |_, line| line.extend_from_slice(b"\t-"),
    |random, line| tab(random, line, b"\t\t"),
    |random, line| tab(random, line, b"\t\t\t"),
    |random, line| tab(random, line, b" "),
    |random, line| tab(random, line, b""),
    |random, line| number(random, line, |old| [b"0", old].concat()),
    |random, line| number(random, line, |old| [&[b'0'; 20], old].concat()),
    |random, line| number(random, line, |old| [b"+", old].concat()),
    |random, line| number(random, line, |old| [old, b"."].concat()),
    |random, line| number(random, line, |_| b"".to_vec()),
    |random, line| number(random, line, |_| b"-".to_vec()),
    |random, line| number(random, line, |_| b"256".to_vec()),
    |random, line| number(random, line, |_| b"4294967296".to_vec()),
    |random, line| number(random, line, |_| b"18446744073709551616".to_vec()),
    |random, line| argument(random, line, |_| b"".to_vec()),
    |random, line| argument(random, line, |_| b"@5".to_vec()),
    |random, line| argument(random, line, |old| [old, b"0"].concat()),
    |random, line| argument(random, line, |old| old[1..].to_vec()),
    slots,
    slots,
    slots,
    counts,
    halves,
    halves,
    |random, line| capital(random, line),
    any_byte,
];

/// The line of a call of every kind in turn, spoilt in every way in turn.
fn spoilt(wish: &mut Wish) -> Vec<u8> {
    let ordinal = wish.ordinal as usize;
    let mut line = kinds::any(wish.seed, ordinal / SPOILS.len(), wish.ordinal).line();
    SPOILS[ordinal % SPOILS.len()](&mut wish.random, &mut line);
    line
}

/// The pieces of a line between these bytes.
fn pieces(line: &[u8], between: &[u8]) -> Vec<Range<usize>> {
    let mut from = 0;
    let lengths = line.split(|byte| between.contains(byte)).map(<[u8]>::len);
    lengths
        .map(|length| {
            let piece = from..from + length;
            from = piece.end + 1;
            piece
        })
        .collect()
}

fn put(line: &mut Vec<u8>, place: Range<usize>, with: &[u8]) {
    line.splice(place, with.iter().copied()).for_each(drop);
}

/// Other bytes in a tab's place, or at the end where there is none.
fn tab(random: &mut Random, line: &mut Vec<u8>, with: &[u8]) {
    let fields = pieces(line, b"\t");
    let end = fields[random.index(fields.len())].end;
    put(line, end..line.len().min(end + 1), with);
}

/// Something else for a run of digits that may be a number.
fn number(random: &mut Random, line: &mut Vec<u8>, other: fn(&[u8]) -> Vec<u8>) {
    let mut all = pieces(line, b"\t:=,@");
    all.retain(|piece| piece.len() <= 20 && line[piece.clone()].iter().all(u8::is_ascii_digit));
    all.push(line.len()..line.len());
    let place = all[random.index(all.len())].clone();
    let with = other(&line[place.clone()]);
    put(line, place, &with);
}

/// Something else for one of the arguments, if there are any.
fn argument(random: &mut Random, line: &mut Vec<u8>, other: fn(&[u8]) -> Vec<u8>) {
    let fields = pieces(line, b"\t");
    if fields.len() > 1 {
        let place = fields[random.within(1, fields.len() as u64 - 1) as usize].clone();
        let with = other(&line[place.clone()]);
        put(line, place, &with);
    }
}

/// A session's parts in another order, twice, with a slot that is empty, or
/// without the counts. What is no session is treated as one.
fn slots(random: &mut Random, line: &mut Vec<u8>) {
    let place = pieces(line, b"\t").get(1).cloned().unwrap_or_default();
    let field = line[place.clone()].to_vec();
    let mut slots: Vec<&[u8]> = field.split(|byte| *byte == b',').collect();
    let empty = format!("32={}", slot_text(&Slot::UNLISTED)).into_bytes();
    let twice = slots[random.index(slots.len())];
    match random.below(8) {
        0 => slots.reverse(),
        1 => slots.push(twice),
        2 => slots.push(&empty),
        3 => slots.push(b"-"),
        4 => slots.insert(0, b""),
        5 => slots.push(b""),
        6 => drop(slots.remove(0)),
        _ => slots.rotate_left(1),
    }
    put(line, place, &slots.join(&b','));
}

/// Something else for a session's counts. What is no session is treated as one.
fn counts(random: &mut Random, line: &mut Vec<u8>) {
    let from = pieces(line, b"\t").get(1).map_or(0, |field| field.start);
    let end = pieces(&line[from..], b"\t,")[0].end;
    let others: [&[u8]; 16] = [
        b"", b"-", b":", b"0", b"0:", b":0", b"0:0:0", b"00:0", b"0:00", b"256:0", b"0:256",
        b"257:1", b"1:-1", b"+1:1", b"1:1:", b"1.0",
    ];
    put(line, from..from + end, random.pick(&others));
}

/// A code state's halves exchanged, one of them missing or twice, or something
/// else between them. What is no code state is treated as one.
fn halves(random: &mut Random, line: &mut Vec<u8>) {
    let place = pieces(line, b"\t").get(1).cloned().unwrap_or_default();
    let field = line[place.clone()].to_vec();
    let halves: Vec<&[u8]> = field.splitn(2, |byte| *byte == b'+').collect();
    let (inner, outer) = (halves[0], halves[halves.len() - 1]);
    let between: [&[u8]; 10] = [
        b"", b"-", b":", b",", b" ", b"++", b"+ ", b" +", b"\t", b"+-",
    ];
    let with = match random.below(6) {
        0 => [outer, b"+", inner].concat(),
        1 => inner.to_vec(),
        2 => [inner, b"+"].concat(),
        3 => [b"+", outer].concat(),
        4 => [inner, b"+", outer, b"+", outer].concat(),
        _ => [inner, random.pick(&between), outer].concat(),
    };
    put(line, place, &with);
}

/// Every small letter from one place on is made a capital.
fn capital(random: &mut Random, line: &mut [u8]) {
    let from = random.index(line.len());
    line[from..].make_ascii_uppercase();
}

/// A byte more, less or another, anywhere; never LF, which would end the line.
fn any_byte(random: &mut Random, line: &mut Vec<u8>) {
    let place = random.index(line.len());
    let any = match random.below(3) {
        0 => random.word() as u8,
        _ => random.pick(b"0123456789afAF\t\t:=,@-+ \r\0"),
    };
    let byte = if any == b'\n' { b'\t' } else { any };
    match random.below(3) {
        0 => line.insert(place, byte),
        1 => line[place] = byte,
        _ => drop(line.remove(place)),
    }
}
