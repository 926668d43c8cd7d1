//! What the drivers make their cases with: a seeded source of numbers, turns,
//! sheets that are good or spoilt in a known way, loops at the limits, and counts
//! that fit or not.

pub mod counts;
pub mod faults;
pub mod loops;
pub mod notes;
pub mod random;
pub mod sheets;
pub mod turns;
