//! Seeded random inputs: a seed says fully what is made.

pub mod builder;
pub mod damage;
pub mod families;
pub mod lists;
pub mod sample;
pub mod source;
