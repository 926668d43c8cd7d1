//! The second implementation of Veenstipper, written from the papers alone.
//!
//! It exists to disagree with the proved one where one of the two is wrong, so
//! it is plain and slow, and shares neither code nor table with it.
//!
//! The drivers `folders`, `calls` and `orders` hold the two against each other.

pub mod calls;
pub mod code;
pub mod coding;
pub mod examples;
pub mod folders;
pub mod hash;
pub mod keyed;
pub mod making;
pub mod options;
pub mod orders;
pub mod padding;
pub mod program;
pub mod refusal;
pub mod report;
pub mod session;
pub mod sheet;
pub mod sm3;
pub mod vectors;
pub mod walk;
pub mod writing;
