//! The independent second program: check, migrate, lookup, box and listing,
//! written from the words of document 01 and from nothing else.
//!
//! It is meant to be read beside the document. It prefers maps and sets to
//! speed, trusts no earlier check, and shares no code with the library that it
//! is compared with.

pub mod benchmark;
pub mod boxed;
pub mod comparison;
pub mod foreign;
pub mod image;
pub mod listing;
pub mod lookup;
pub mod mesh;
pub mod migrate;
pub mod move_list;
pub mod random;
pub mod refusal;
pub mod small;
pub mod soundness;
pub mod spread;

pub use boxed::{boxed, Bounds};
pub use listing::listing;
pub use lookup::{lookup, Found};
pub use migrate::{migrate, Migrated};
pub use refusal::Refusal;
pub use soundness::{check, Checked};
