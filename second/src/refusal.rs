//! The papers' table of refusals, by name. Nothing else writes these numbers:
//! only the tests do, where they stand for the papers.

pub const ACCEPTED: u8 = 0;

/// Sheet form, count or note, length, loop.
pub const FORM: u8 = 1;
pub const COUNT_OR_NOTE: u8 = 2;
pub const BAD_LENGTH: u8 = 3;
pub const BAD_LOOP: u8 = 4;

/// Note 0, above 32, or unlisted.
pub const UNLISTED: u8 = 5;

/// Slot not in order.
pub const SLOT_NOT_IN_ORDER: u8 = 6;

/// Delivery to a decided note, empty piece too.
pub const DECIDED: u8 = 7;

/// Taken and piece exceed the length.
pub const PAST_LENGTH: u8 = 8;

/// Hash state not in order, or code state: one of its hash states is not, or has
/// another total than it may.
pub const STATE_NOT_IN_ORDER: u8 = 9;

/// Message total would pass 2^61 - 1, a code's with its inner block counted; or
/// a key does.
pub const TOO_LONG: u8 = 10;

/// Tail buffer shorter than needed, or expected digest or code not 32 bytes.
pub const WRONG_SIZE: u8 = 11;

/// Block number not below the block count.
pub const NO_SUCH_BLOCK: u8 = 12;

/// The tail buffer's first bytes are not what the padding writer puts there.
pub const OTHER_TAIL: u8 = 13;

/// Not a padded message.
pub const NOT_PADDED: u8 = 14;

/// No note listed, where a sheet is to be written.
pub const NONE_LISTED: u8 = 15;

/// Buffer shorter than the sheet.
pub const SHORT_BUFFER: u8 = 16;

/// MAC line missing or ill formed.
pub const NO_MAC_LINE: u8 = 17;

/// The code in the MAC line is not the text's.
pub const OTHER_CODE: u8 = 18;
