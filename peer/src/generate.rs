//! Sheets, lent chains and regions from a seed: valid ones, and ones damaged in every way that the
//! replies tell apart.

pub mod damage;
pub mod draft;
pub mod lent;
pub mod random;
pub mod regions;
pub mod valid;

pub use random::Random;
