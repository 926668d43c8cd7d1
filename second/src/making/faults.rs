//! Every way to break one line of a sheet: its form, or one of its values.

use crate::making::notes::{line_text, looped, Fields};
use crate::making::random::Random;
use crate::session::{Record, NOTES};

/// Numbers at the edge of something, as they may be written in any field.
pub fn edge_numbers() -> Vec<Vec<u8>> {
    let mut all: Vec<Vec<u8>> = [
        0, 1, 2, 3, 31, 32, 33, 34, 63, 64, 65, 255, 256, 257, 261, 288, 4095, 4096, 65535, 65536,
        65537, 65541, 2147483646, 2147483647, 2147483648, 2147483649, 4294967293, 4294967294,
        4294967295, 4294967296, 4294967297, 4294967298, 4294967301, 4294967328, 9999999999,
    ]
    .iter()
    .map(|number: &u64| number.to_string().into_bytes())
    .collect();
    for written in [
        "10000000000",
        "42949672950",
        "18446744073709551615",
        "18446744073709551616",
        "18446744073709551618",
        "340282366920938463463374607431768211457",
        "00",
        "01",
        "02",
        "0000000000",
        "0000000002",
        "00000000002",
    ] {
        all.push(written.as_bytes().to_vec());
    }
    all.push(vec![b'9'; 100]);
    all.push([b"1".to_vec(), vec![b'0'; 2000]].concat());
    all
}

/// Fields that are no number, out of one that is.
pub fn bad_numbers(good: &[u8]) -> Vec<Vec<u8>> {
    let value: u128 = std::str::from_utf8(good).unwrap().parse().unwrap();
    let mut bad = vec![
        Vec::new(),
        (value + (1 << 32)).to_string().into_bytes(),
        (value + (1 << 64)).to_string().into_bytes(),
        b"4294967296".to_vec(),
        b"9999999999".to_vec(),
        vec![b'1'; 11],
        vec![b'7'; 3000],
    ];
    for front in ["0", "00", "+", "-", " ", "0x", "\r", "\0", "\u{feff}"] {
        bad.push([front.as_bytes(), good].concat());
    }
    for end in [" ", ".0", "e0", "a", "\r", "\0", ",", "_", "\u{660}"] {
        bad.push([good, end.as_bytes()].concat());
    }
    // The bytes beside the digits, and bytes with a digit's low bits.
    for byte in [b'/', b':', b'0' | 0x80, b'0' ^ 0x40, b'o', 0, 255] {
        bad.push(vec![byte]);
        bad.push([&good[..good.len() - 1], &[byte]].concat());
    }
    bad
}

/// Fields that are no digest, out of one that is.
pub fn bad_digests(good: &[u8]) -> Vec<Vec<u8>> {
    let mut bad = vec![
        Vec::new(),
        b"0".to_vec(),
        good[..62].to_vec(),
        good[..63].to_vec(),
        good[1..].to_vec(),
        [good, b"0"].concat(),
        [good, b"00"].concat(),
        [good, b" "].concat(),
        [good, b"\r"].concat(),
        [b" ", good].concat(),
        [good, good].concat(),
    ];
    for byte in *b"/:@AFG`gz \0\x80\xff\xb0\xe1" {
        for place in [0, 1, 31, 62, 63] {
            let mut digest = good.to_vec();
            digest[place] = byte;
            bad.push(digest);
        }
    }
    bad
}

/// Whole lines, LF and all, of which no field is to blame alone.
fn bad_lines(fields: &[Vec<u8>]) -> Vec<Vec<u8>> {
    let good = line_text(fields);
    let body = &good[..good.len() - 1];
    let mut bad = vec![
        body.to_vec(),
        [b"\n", &good[..]].concat(),
        [b"\t", &good[..]].concat(),
        [b" ", &good[..]].concat(),
        [b"\r", &good[..]].concat(),
        [b"#", &good[..]].concat(),
        [body, b"\r\n"].concat(),
        [body, b"\r"].concat(),
        [body, b"\t\n"].concat(),
        [body, b" \n"].concat(),
        [body, b"\0\n"].concat(),
        [body, b"\t0\n"].concat(),
        line_text(&fields[1..]),
        line_text(&fields[..fields.len() - 1]),
    ];
    for (place, _) in good.iter().enumerate().filter(|(_, byte)| **byte == b'\t') {
        let (before, after) = (&good[..place], &good[place + 1..]);
        for between in [
            &b""[..],
            b" ",
            b"\n",
            b"\t\t",
            b"\t ",
            b" \t",
            b"\x0b",
            b"\0",
        ] {
            bad.push([before, between, after].concat());
        }
    }
    bad
}

/// Every spoilt form of a line: the text that stands for it.
pub fn bad_forms(fields: &Fields) -> Vec<Vec<u8>> {
    let mut bad = bad_lines(fields);
    for (place, good) in fields.iter().enumerate() {
        let spoilt = match (fields.len(), place) {
            (3, 0) => words(&["", "rank", "RAN", "RANKS", "RANk", "KNAR", " RANK", "RANK "]),
            (3, 1) => words(&["", "0", "2", "01", "10", "11", "1 ", " 1", "+1", "a", "1\0"]),
            (5, 4) => bad_digests(good),
            _ => bad_numbers(good),
        };
        for field in spoilt {
            let mut line = fields.clone();
            line[place] = field;
            bad.push(line_text(&line));
        }
    }
    bad
}

fn words(all: &[&str]) -> Vec<Vec<u8>> {
    all.iter().map(|word| word.as_bytes().to_vec()).collect()
}

/// A count that rule 2 refuses.
pub fn bad_count(random: &mut Random, count: u64) -> u64 {
    let wrapped = [256 + count, 65536 + count, 4294967040 + count];
    match random.below(3) {
        0 => random.pick(&wrapped),
        1 => random.within(NOTES + 1, 4294967295),
        _ => random.pick(&[0, 33, 34, 64, 255, 256, 257, 4294967294, 4294967295]),
    }
}

/// A note that rule 2 refuses after the note before it (0 for none).
pub fn bad_note(random: &mut Random, note: u64, before: u64) -> u64 {
    let wrapped = [256 + note, 65536 + note, 4294967040 + note];
    match random.below(4) {
        0 => random.pick(&wrapped),
        1 => random.pick(&[33, 34, 255, 256, 257, 261, 4294967294, 4294967295]),
        2 => before,
        _ => random.within(0, before),
    }
}

/// A length that rule 3 refuses.
pub fn bad_length(random: &mut Random, length: u64) -> u64 {
    let odd = 2 * random.below(2147483648) + 1;
    random.pick(&[0, 1, 3, length + 1, length - 1, 4294967293, 4294967295, odd])
}

/// A loop that rule 4 refuses.
pub fn bad_loop(random: &mut Random, record: &Record) -> (u64, u64) {
    let (start, end) = (record.loop_start, record.loop_end);
    let more = [start, end, end + 1, record.length, 4294967295];
    let mut records = looped(random, record, &more);
    records.retain(|record| !record.loop_allowed());
    let bad = random.pick(&records);
    (bad.loop_start, bad.loop_end)
}
