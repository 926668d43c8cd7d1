//! Keyed sheets of every kind, good and spoilt, and the calls that read them.

use crate::calls::call::Call;
use crate::calls::coded::states::any_key;
use crate::calls::coded::CodeCall;
use crate::calls::kinds::Wish;
use crate::calls::sessions;
use crate::calls::states::{too_long, LONGEST_SLICE};
use crate::calls::values::{bytes_text, Lent};
use crate::code;
use crate::hash;
use crate::making::random::Random;
use crate::making::{faults, notes, sheets};

pub fn keyed_read(wish: &mut Wish) -> Call {
    let key = any_key(&mut wish.random);
    let text = text(wish, &key);
    read(wish, Lent::Bytes(key), Lent::Bytes(text))
}

/// A key that is too long with any text, a text that has no room for a MAC line,
/// or an empty key.
pub fn keyed_read_absent(wish: &mut Wish) -> Call {
    let random = &mut wish.random;
    let key = any_key(random);
    let short = Lent::Absent(random.below(69));
    let any = Lent::Absent(random.pick(&[0, 1, 68, 69, 70, LONGEST_SLICE]));
    let body = good(random);
    let (key, text) = match random.below(6) {
        0 => (too_long(random), Lent::Bytes(keyed(&key, &body))),
        1 => (too_long(random), Lent::Bytes(body)),
        2 => (too_long(random), any),
        3 => (Lent::Bytes(key), short),
        4 => (Lent::Absent(0), Lent::Bytes(keyed(b"", &body))),
        _ => (Lent::Absent(0), short),
    };
    read(wish, key, text)
}

/// What it is read over comes last: the call that is not in place has the same
/// key and text.
fn read(wish: &mut Wish, key: Lent, text: Lent) -> Call {
    let before = sessions::before(wish);
    Call::Coded(CodeCall::KeyedRead { before, key, text })
}

/// The MAC line with this code.
pub fn mac_line(code: &[u8; 32]) -> Vec<u8> {
    format!("MAC\t{}\n", bytes_text(code)).into_bytes()
}

/// Any bytes and behind them the line with their code.
pub fn keyed(key: &[u8], body: &[u8]) -> Vec<u8> {
    [body, &mac_line(&code::code_of(key, body).code)].concat()
}

fn good(random: &mut Random) -> Vec<u8> {
    let count = notes::count(random);
    notes::text(&notes::lines(&notes::some(random, count)))
}

/// A sheet that is refused by every number of the reader.
fn bad(random: &mut Random) -> Vec<u8> {
    let turn = random.word();
    sheets::rule_at_line(random, turn)
}

/// How many turns there are for texts, and of these for ill formed MAC lines.
const TURNS: u64 = 20;
const ILL_TURNS: u64 = 3;

/// A text by turns: with the right code, with another, or with a MAC line that
/// is none.
fn text(wish: &mut Wish, key: &[u8]) -> Vec<u8> {
    let (round, turn) = (wish.ordinal / TURNS, wish.ordinal % TURNS);
    let any_sheet = sheets::at(wish.seed, 2 * round + turn).1;
    let random = &mut wish.random;
    let body = good(random);
    match turn {
        0 | 1 => keyed(key, &any_sheet),
        2..=4 => keyed(key, &body),
        5 => keyed(key, &bad(random)),
        6 => keyed(&other_key(random, key), &body),
        7 => body_changed(random, keyed(key, &body)),
        8 => digit_changed(random, keyed(key, &body), round),
        9..=11 => ill_ended(key, &body, ILL_TURNS * round + turn - 9),
        12 => line_not_begun(random, key, body),
        13 => [bad(random), mac_line(&random.digest())].concat(),
        14 => alone(random, key),
        15 => cut(random, key, &body, round),
        16 => doubled(random, key, &body),
        17 => other_code(random, key, &body),
        18 => damaged(random, keyed(key, &body)),
        _ => unkeyed(random, any_sheet),
    }
}

/// A key that is not the one: another, or one that differs in its end. A zero
/// behind a short key makes no other code.
fn other_key(random: &mut Random, key: &[u8]) -> Vec<u8> {
    let mut other = key.to_vec();
    match random.below(6) {
        0 => other.clear(),
        1 => other.push(0),
        2 => other.push(1),
        3 => other.truncate(key.len().saturating_sub(1)),
        4 if !key.is_empty() => other[random.index(key.len())] ^= random.bit(),
        _ => other = any_key(random),
    }
    other
}

/// One bit anywhere before the MAC line is another.
fn body_changed(random: &mut Random, mut text: Vec<u8>) -> Vec<u8> {
    let place = random.index(text.len() - 69);
    text[place] ^= random.bit();
    text
}

/// Each digit of the code in turn is another one, the last first.
fn digit_changed(random: &mut Random, mut text: Vec<u8>, turn: u64) -> Vec<u8> {
    let place = text.len() - 2 - turn as usize % 64;
    let mut others = b"0123456789abcdef".to_vec();
    others.retain(|digit| *digit != text[place]);
    text[place] = random.pick(&others);
    text
}

/// What stands for `MAC` and the tab where there is no MAC line.
const ILL_FRONTS: [&str; 29] = [
    "", "\t", "MAC", "MAC ", "MAC\t\t", "MAC \t", "MAC:", "MAC=", "MAC\0", "MAC\x0b", "MAC\n",
    "mac\t", "Mac\t", "MAc\t", "mAC\t", "MAB\t", "MA\t", "AC\t", "MACS\t", "HMAC\t", "xMAC\t",
    " MAC\t", "\tMAC\t", "\rMAC\t", "\0MAC\t", "#MAC\t", "CAM\t", "MAC\t0x", "RANK\t",
];

/// What stands for its LF.
const ILL_ENDS: [&str; 16] = [
    "",
    "\r",
    "\n\n",
    "\n\r",
    "\n\r\n",
    "\0",
    "\n\0",
    "\t\n",
    "\n ",
    "\n\t",
    "\nx",
    "\nM",
    "\nMAC",
    "\nMAC\t",
    "\nMAC\t\n",
    "\nRANK\t1\t1\n",
];

/// Everything that may stand in the MAC line's place and is none, with the code
/// of what stands before it.
pub fn ill_lines(code: &[u8; 32]) -> Vec<Vec<u8>> {
    let good = mac_line(code);
    let digits = &good[4..68];
    let mut lines: Vec<Vec<u8>> = faults::bad_digests(digits)
        .into_iter()
        .map(|spoilt| [b"MAC\t", &spoilt[..], b"\n"].concat())
        .collect();
    for front in ILL_FRONTS {
        lines.push([front.as_bytes(), digits, b"\n"].concat());
    }
    for end in ILL_ENDS {
        lines.push([b"MAC\t", digits, end.as_bytes()].concat());
    }
    lines.push(Vec::new());
    lines.push([&good[..], &good[..68]].concat());
    lines.push([b"MAC\t", &digits.to_ascii_uppercase()[..], b"\n"].concat());
    lines
}

fn ill_ended(key: &[u8], body: &[u8], turn: u64) -> Vec<u8> {
    let lines = ill_lines(&code::code_of(key, body).code);
    [body, &lines[turn as usize % lines.len()]].concat()
}

/// A right MAC line that begins no line, for the last one before it has no LF.
fn line_not_begun(random: &mut Random, key: &[u8], mut body: Vec<u8>) -> Vec<u8> {
    match random.below(4) {
        0 => body.truncate(random.index(body.len())),
        1 => body = random.pick(&[b"x", b"\t", b"\r", b"\0"]).to_vec(),
        2 => body.extend_from_slice(random.pick(&[&b"\r"[..], b" ", b"\t", b"MAC\t", b"\n\0"])),
        _ => drop(body.pop()),
    }
    keyed(key, &body)
}

/// A MAC line and nothing before it.
fn alone(random: &mut Random, key: &[u8]) -> Vec<u8> {
    let right = code::code_of(key, b"").code;
    let other = code::code_of(&other_key(random, key), b"").code;
    let plain = hash::digest(b"").digest;
    let codes = [right, right, right, other, plain, [0; 32], random.digest()];
    mac_line(&random.pick(&codes))
}

/// A keyed text's first bytes or its last ones, around the length of a MAC line
/// and elsewhere; and a right one with hardly anything before it.
fn cut(random: &mut Random, key: &[u8], body: &[u8], round: u64) -> Vec<u8> {
    let text = keyed(key, body);
    let lengths = [0, 1, 4, 5, 67, 68, 69, 70, 71, 137, 138, 139];
    let length = match random.below(4) {
        0 => random.index(text.len()),
        _ => lengths[round as usize / 3 % lengths.len()],
    };
    let length = length.min(text.len());
    match round % 3 {
        0 => text[text.len() - length..].to_vec(),
        1 => text[..length].to_vec(),
        _ => keyed(
            key,
            random.pick(&[&b"\n"[..], b"\n\n", b"\t\n", b"R\n", b"\0\n"]),
        ),
    }
}

/// Two MAC lines, of which the last one counts, and empty lines before it.
fn doubled(random: &mut Random, key: &[u8], body: &[u8]) -> Vec<u8> {
    let once = keyed(key, body);
    let line = &once[body.len()..];
    let wrong = mac_line(&random.digest());
    match random.below(7) {
        0 => [&once, line].concat(),
        1 => keyed(key, &once),
        2 => keyed(key, &[body, &wrong].concat()),
        3 => [&once[..], &wrong].concat(),
        4 => keyed(key, &[body, b"\n"].concat()),
        5 => keyed(key, &[&once[..], b"\n"].concat()),
        _ => [body, &wrong, line].concat(),
    }
}

/// A code that is not the one: it goes over other bytes, or is made otherwise.
fn other_code(random: &mut Random, key: &[u8], body: &[u8]) -> Vec<u8> {
    let of = |message: &[u8]| code::code_of(key, message).code;
    let zeros = [body, &mac_line(&[0; 32])].concat();
    let first_line = body.split_inclusive(|byte| *byte == b'\n').next();
    let mut reversed = of(body);
    reversed.reverse();
    let codes = [
        of(&[body, b"MAC\t"].concat()),
        of(&body[..body.len() - 1]),
        of(&[body, b"\n"].concat()),
        of(&zeros),
        of(b""),
        of(first_line.unwrap_or_default()),
        of(&hash::digest(body).digest),
        hash::digest(body).digest,
        hash::digest(&[key, body].concat()).digest,
        code::code_of(body, key).code,
        reversed,
        [0; 32],
    ];
    [body, &mac_line(&random.pick(&codes))].concat()
}

/// Bytes changed at random, mostly near the MAC line.
fn damaged(random: &mut Random, text: Vec<u8>) -> Vec<u8> {
    let from = match random.below(3) {
        0 => 0,
        _ => text.len() - 72,
    };
    let (before, rest) = text.split_at(from);
    let mut rest = rest.to_vec();
    sheets::damage(random, &mut rest);
    [before, &rest].concat()
}

/// A sheet without a MAC line, or any bytes.
fn unkeyed(random: &mut Random, sheet: Vec<u8>) -> Vec<u8> {
    match random.below(3) {
        0 => random.bytes(69),
        _ => sheet,
    }
}
