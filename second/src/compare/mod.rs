//! What the two comparisons share: random numbers, named tests, stripes to compare with, damaged packs.

pub mod damage;
pub mod random;
pub mod report;
pub mod stripes;
