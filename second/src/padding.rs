//! Padding: the writer, the view of padded blocks, and the remover.
//!
//! What depends on lengths alone is worked out by functions over a `u64`, so
//! that lengths no machine can hold are tested too. Sums are made in 128 bits,
//! where none of them can overflow.

use crate::refusal::{ACCEPTED, NOT_PADDED, NO_SUCH_BLOCK, OTHER_TAIL, TOO_LONG, WRONG_SIZE};

/// The longest message in bytes: eight times it still fits 64 bits.
pub const LONGEST: u64 = (1 << 61) - 1;

/// What the writer answers: the number, and 64, 128 or (refused) 0.
#[derive(Clone, Copy, Debug, PartialEq, Eq)]
pub struct Written {
    pub number: u8,
    pub count: usize,
}

/// Which of the lent slices a part lies in.
#[derive(Clone, Copy, Debug, PartialEq, Eq)]
pub enum Which {
    Neither,
    Message,
    Buffer,
}

/// Where a part of a lent slice lies: it is named and not copied.
#[derive(Clone, Copy, Debug, PartialEq, Eq)]
pub struct Place {
    pub which: Which,
    pub offset: u64,
    pub length: u64,
}

impl Place {
    /// The empty part of a refused call.
    pub const EMPTY: Place = Place {
        which: Which::Neither,
        offset: 0,
        length: 0,
    };

    /// The bytes there, out of the two slices that were lent.
    pub fn bytes<'a>(&self, message: &'a [u8], buffer: &'a [u8]) -> &'a [u8] {
        let from = self.offset as usize;
        let to = from + self.length as usize;
        match self.which {
            Which::Neither => &[],
            Which::Message => &message[from..to],
            Which::Buffer => &buffer[from..to],
        }
    }
}

/// All that the padding needs of a message: its length, and its last
/// `length % 64` bytes. A message that no machine holds has them too.
#[derive(Clone, Copy)]
pub struct End<'a> {
    length: u64,
    kept: &'a [u8],
}

impl<'a> End<'a> {
    pub fn of(message: &'a [u8]) -> End<'a> {
        End {
            length: message.len() as u64,
            kept: &message[message.len() - message.len() % 64..],
        }
    }

    /// The end of a message that is only known to have this length, where none
    /// of its bytes are needed.
    pub fn of_length(length: u64) -> Option<End<'a>> {
        length
            .is_multiple_of(64)
            .then_some(End { length, kept: &[] })
    }

    /// What the writer puts at the front of the tail buffer.
    fn tail_content(&self) -> Vec<u8> {
        [self.kept, &added(self.length)].concat()
    }

    /// Puts the message's last bytes and the padding at the buffer's front.
    pub fn write(&self, buffer: &mut [u8]) -> Written {
        let number = write_number(self.length, buffer.len() as u64);
        if number != ACCEPTED {
            return Written { number, count: 0 };
        }
        let front = self.tail_content();
        buffer[..front.len()].copy_from_slice(&front);
        Written {
            number,
            count: front.len(),
        }
    }

    /// The number of a block view.
    pub fn view_number(&self, buffer: &[u8], block: u64) -> u8 {
        let number = write_number(self.length, buffer.len() as u64);
        if number != ACCEPTED {
            return number;
        }
        // The tail buffer is judged for every block, also one inside the message.
        if buffer[..tail_size(self.length)] != self.tail_content()[..] {
            return OTHER_TAIL;
        }
        if u128::from(block) >= block_count(self.length) {
            return NO_SUCH_BLOCK;
        }
        ACCEPTED
    }

    /// The place of a block view.
    pub fn view_place(&self, buffer: &[u8], block: u64) -> Place {
        if self.view_number(buffer, block) != ACCEPTED {
            return Place::EMPTY;
        }
        block_place(self.length, block)
    }
}

/// How many blocks the padded message of `bytes` bytes has.
pub fn block_count(bytes: u64) -> u128 {
    (u128::from(bytes) + 8) / 64 + 1
}

/// How many bytes of the tail buffer the writer fills.
pub fn tail_size(bytes: u64) -> usize {
    if bytes % 64 < 56 {
        64
    } else {
        128
    }
}

/// The number of a message by its length.
pub fn length_number(bytes: u64) -> u8 {
    if bytes > LONGEST {
        TOO_LONG
    } else {
        ACCEPTED
    }
}

/// The writer's number, which lengths alone decide.
pub fn write_number(bytes: u64, buffer_length: u64) -> u8 {
    let number = length_number(bytes);
    if number == ACCEPTED && buffer_length < tail_size(bytes) as u64 {
        return WRONG_SIZE;
    }
    number
}

/// The bytes added to a message of `bytes` bytes, at most [`LONGEST`].
pub fn added(bytes: u64) -> Vec<u8> {
    let bits = u64::try_from(8 * u128::from(bytes)).expect("judged by refusal 10 before");
    let mut padding = vec![0x80];
    while (bytes % 64 + padding.len() as u64) % 64 != 56 {
        padding.push(0);
    }
    padding.extend_from_slice(&bits.to_be_bytes());
    padding
}

/// The whole padded message, as a copy.
pub fn padded(message: &[u8]) -> Vec<u8> {
    let mut whole = message.to_vec();
    whole.extend_from_slice(&added(message.len() as u64));
    whole
}

/// Puts the message's last bytes and the padding at the buffer's front.
pub fn write(message: &[u8], buffer: &mut [u8]) -> Written {
    End::of(message).write(buffer)
}

/// The number of a block view.
pub fn view_number(message: &[u8], buffer: &[u8], block: u64) -> u8 {
    End::of(message).view_number(buffer, block)
}

/// The place of a block view.
pub fn view_place(message: &[u8], buffer: &[u8], block: u64) -> Place {
    End::of(message).view_place(buffer, block)
}

/// Where a block lies, for a block number below the block count.
pub fn block_place(bytes: u64, block: u64) -> Place {
    if (u128::from(block) + 1) * 64 <= u128::from(bytes) {
        return Place {
            which: Which::Message,
            offset: 64 * block,
            length: 64,
        };
    }
    Place {
        which: Which::Buffer,
        offset: 64 * (block - bytes / 64),
        length: 64,
    }
}

/// The number of a removal.
pub fn remove_number(bytes: &[u8]) -> u8 {
    match message_length(bytes) {
        Some(_) => ACCEPTED,
        None => NOT_PADDED,
    }
}

/// The part of a removal: the message. It is empty for a refusal and also for
/// the empty message, so only the number tells the two apart.
pub fn remove_part(bytes: &[u8]) -> &[u8] {
    match message_length(bytes) {
        Some(length) => &bytes[..length],
        None => &[],
    }
}

/// The length of the message whose padding this is, if it is one.
fn message_length(bytes: &[u8]) -> Option<usize> {
    if bytes.is_empty() || !bytes.len().is_multiple_of(64) {
        return None;
    }
    let (body, end) = bytes.split_at(bytes.len() - 8);
    let bits = end
        .iter()
        .fold(0u64, |value, byte| (value << 8) | u64::from(*byte));
    if !bits.is_multiple_of(8) {
        return None;
    }
    let length = bits / 8;
    if block_count(length) * 64 != bytes.len() as u128 {
        return None;
    }
    // The block count has shown that byte `length` lies in the body.
    let (_, rest) = body.split_at(length as usize);
    let marked = rest[0] == 0x80 && rest[1..].iter().all(|byte| *byte == 0);
    marked.then_some(length as usize)
}
