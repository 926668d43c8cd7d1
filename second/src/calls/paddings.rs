//! Messages, tail buffers and padded messages, and the calls over them.

use crate::calls::call::Call;
use crate::calls::kinds::Wish;
use crate::calls::states::{any_length, message_length, too_long};
use crate::calls::values::Lent;
use crate::making::random::Random;
use crate::padding::{self, End, LONGEST};

pub fn pad_write(wish: &mut Wish) -> Call {
    let length = message_length(&mut wish.random, wish.ordinal);
    let size = buffer_size(&mut wish.random, length);
    Call::PadWrite {
        message: Lent::Bytes(wish.random.bytes(length)),
        buffer: wish.random.bytes(size),
    }
}

/// A message that is too long, one of whole blocks of which no byte is needed,
/// or any with a buffer that is too short.
pub fn pad_write_absent(wish: &mut Wish) -> Call {
    let random = &mut wish.random;
    let size = random.pick(&[0, 1, 63, 64, 127, 128, 200]);
    let short = random.below(64) as usize;
    let (message, size) = match wish.ordinal % 4 {
        0 => (too_long(random), size),
        1 => (Lent::Absent(random.below(LONGEST + 1)), short),
        _ => (Lent::Absent(whole_blocks(random)), size),
    };
    Call::PadWrite {
        message,
        buffer: random.bytes(size),
    }
}

/// A length of whole blocks: at the edge of something, or any.
fn whole_blocks(random: &mut Random) -> u64 {
    let any = 64 * random.below(1 << 55);
    random.pick(&[
        0,
        64,
        1 << 16,
        1 << 29,
        (1 << 29) - 64,
        1 << 32,
        (1 << 32) - 64,
        1 << 60,
        LONGEST - 63,
        LONGEST - 127,
        any,
        any,
    ])
}

/// Too short by one or more, exact, or longer than the message needs.
fn buffer_size(random: &mut Random, length: usize) -> usize {
    let need = padding::tail_size(length as u64);
    let longer = need + random.within(1, 100) as usize;
    let short = random.pick(&[0, 1, 55, 56, 63, 64, 127]).min(need - 1);
    random.pick(&[need, need, need, need - 1, need + 1, longer, longer, short])
}

pub fn block(wish: &mut Wish) -> Call {
    let length = any_length(&mut wish.random);
    let message = wish.random.bytes(length);
    let buffer = block_buffer(wish, &message);
    let count = padding::block_count(message.len() as u64) as u64;
    Call::Block {
        part: wish.part(),
        message: Lent::Bytes(message),
        buffer: Lent::Bytes(buffer),
        block: block_index(&mut wish.random, count),
    }
}

/// A message that is too long, a buffer that is too short, or a message of
/// whole blocks of which no byte is needed.
pub fn block_absent(wish: &mut Wish) -> Call {
    let random = &mut wish.random;
    let size = random.pick(&[0, 63, 64, 128, 200]);
    let length = any_length(random);
    let need = padding::tail_size(length as u64) as u64;
    let (message, buffer) = match wish.ordinal % 6 {
        0 => (too_long(random), Lent::Bytes(random.bytes(size))),
        1 => (too_long(random), Lent::Absent(random.word())),
        2 => (
            Lent::Bytes(random.bytes(length)),
            Lent::Absent(random.below(need)),
        ),
        _ => return block_of_absent(wish),
    };
    let block = block_index(random, 4);
    Call::Block {
        part: wish.part(),
        message,
        buffer,
        block,
    }
}

/// A block of a message of whole blocks that is not there: where its bytes are
/// printed, only one that does not lie in the message.
fn block_of_absent(wish: &mut Wish) -> Call {
    let length = whole_blocks(&mut wish.random);
    let mut buffer = wish.random.bytes(100);
    let end = End::of_length(length).expect("whole blocks");
    assert_eq!(end.write(&mut buffer).count, 64);
    if wish.random.one_in(4) {
        let place = wish.random.index(buffer.len());
        buffer[place] ^= wish.random.bit();
    }
    let count = padding::block_count(length) as u64;
    let block = block_index(&mut wish.random, count);
    Call::Block {
        part: wish.part(),
        message: Lent::Absent(length),
        buffer: Lent::Bytes(buffer),
        block: if wish.part() {
            block.max(count - 1)
        } else {
            block
        },
    }
}

/// What the writer leaves; the same damaged at each place in turn, or after
/// what counts; too short; or written for another message.
fn block_buffer(wish: &mut Wish, message: &[u8]) -> Vec<u8> {
    let random = &mut wish.random;
    let need = padding::tail_size(message.len() as u64);
    let more = random.pick(&[0, 0, 1, 64, 100]);
    let mut buffer = random.bytes(need + more);
    padding::write(message, &mut buffer);
    match wish.ordinal % 6 {
        0..=2 => (),
        3 => buffer[wish.ordinal as usize / 6 % need] ^= random.bit(),
        4 => {
            let size = buffer_size(random, message.len());
            buffer.resize(size, 0x5a);
        }
        _ => {
            let other = other_message(random, message);
            padding::write(&other, &mut buffer);
        }
    }
    buffer
}

/// A message that differs in one byte, or by a block, or is empty.
fn other_message(random: &mut Random, message: &[u8]) -> Vec<u8> {
    let mut other = message.to_vec();
    match random.below(3) {
        0 if !message.is_empty() => {
            let place = random.index(message.len());
            other[place] ^= random.bit();
        }
        1 => other.splice(0..0, [7; 64]).for_each(drop),
        _ => other.truncate(message.len().saturating_sub(64)),
    }
    other
}

/// Around the count, or so far off that 64 times it does not fit 64 bits.
fn block_index(random: &mut Random, count: u64) -> u64 {
    let within = random.below(count);
    let far = [
        1 << 8,
        1 << 16,
        1 << 31,
        1 << 32,
        1 << 57,
        1 << 58,
        (1 << 58) - 1,
        1 << 63,
        u64::MAX - count,
        u64::MAX - 1,
        u64::MAX,
    ];
    let off = random.pick(&far).wrapping_add(within);
    match random.below(10) {
        0 => count - 1,
        1 => count,
        2 => count + 1,
        // A sum that wrapped round to a small number is still a number to try.
        3 => off,
        4 => random.pick(&far),
        _ => within,
    }
}

pub fn remove(wish: &mut Wish) -> Call {
    let length = any_length(&mut wish.random);
    let message = wish.random.bytes(length);
    Call::Remove {
        part: wish.part(),
        bytes: Lent::Bytes(padded(wish, &message)),
    }
}

/// A length that no padded message has.
pub fn remove_absent(wish: &mut Wish) -> Call {
    let random = &mut wish.random;
    let length = 64 * random.below(1 << 58) + random.within(1, 63);
    let lengths = [0, 1, 8, 63, 65, length, length, LONGEST, u64::MAX];
    Call::Remove {
        part: wish.part(),
        bytes: Lent::Absent(wish.random.pick(&lengths)),
    }
}

/// A padded message, or one that is spoilt in one of its parts.
fn padded(wish: &mut Wish, message: &[u8]) -> Vec<u8> {
    let random = &mut wish.random;
    let mut bytes = padding::padded(message);
    let round = wish.ordinal as usize / 8;
    let end = bytes.len() - 8;
    match wish.ordinal % 8 {
        0 | 1 => (),
        2 => {
            let added = bytes.len() - message.len();
            bytes[message.len() + round % added] ^= random.bit();
        }
        3 => bytes[end + round % 8] ^= random.bit(),
        4 => {
            let bits = wrong_bits(random, message.len() as u64, bytes.len() as u64);
            bytes[end..].copy_from_slice(&bits.to_be_bytes());
        }
        5 => {
            let size = bytes.len();
            let sizes = [0, 1, 8, 56, 63, size - 1, size + 1, size - 64, size + 64];
            bytes.resize(random.pick(&sizes), 0);
        }
        6 => misplaced(random, message, &mut bytes),
        _ => {
            let size = 64 * random.within(1, 3) as usize;
            bytes = random.bytes(size);
            let bits = 8 * random.within(0, size as u64);
            bytes[size - 8..].copy_from_slice(&bits.to_be_bytes());
        }
    }
    bytes
}

/// Lengths in bits that are not this message's.
fn wrong_bits(random: &mut Random, message: u64, padded: u64) -> u64 {
    let bits = 8 * message;
    random.pick(&[
        bits + 8,
        bits.wrapping_sub(8),
        bits + 1,
        bits + 7,
        bits + 512,
        bits.wrapping_sub(512),
        bits | 1 << 32,
        bits | 1 << 63,
        message,
        0,
        8 * padded,
        8 * (padded - 8),
        8 * (padded - 9),
        u64::MAX,
        u64::MAX - 7,
    ])
}

/// The mark elsewhere or another byte; a block too many; one too few.
fn misplaced(random: &mut Random, message: &[u8], bytes: &mut Vec<u8>) {
    let mark = message.len();
    let end = bytes.len() - 8;
    match random.below(5) {
        0 => bytes[mark] = random.pick(&[0, 1, 0x40, 0x81, 0xc0, 0xff]),
        1 => {
            bytes[mark] = 0;
            bytes[(mark + 1).min(end - 1)] = 0x80;
        }
        2 if mark > 0 => {
            bytes[mark] = 0;
            bytes[mark - 1] = 0x80;
        }
        3 => bytes.splice(end..end, [0; 64]).for_each(drop),
        // The last block alone, with the whole length: where there are two
        // blocks of padding, one of them is lost.
        _ => bytes.drain(..end - 56).for_each(drop),
    }
}
