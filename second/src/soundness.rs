//! When a set is sound: rules 7 to 12 in their order, and the check (document 01, "When a set is sound").

mod boundary;
mod copies;
mod fields;
mod order;
mod owner;
mod residence;

pub use owner::poorest;

use crate::image::{self, Row, Set};
use crate::refusal::Refusal;

/// What a check gives: the part count and the total of rows.
#[derive(Clone, Copy, Debug, PartialEq, Eq)]
pub struct Checked {
    pub parts: usize,
    pub rows: usize,
}

pub fn check(image: &[u8]) -> Result<Checked, Refusal> {
    let set = sound_set(image)?;
    Ok(Checked {
        parts: set.parts.len(),
        rows: set.row_count(),
    })
}

/// The set of an image that passes 1 to 12; every entry point starts here.
pub fn sound_set(image: &[u8]) -> Result<Set, Refusal> {
    let set = image::read(image)?;
    fields::judge(&set)?;
    order::judge(&set)?;
    boundary::judge(&set)?;
    copies::judge(&set)?;
    residence::judge(&set)?;
    owner::judge(&set)?;
    Ok(set)
}

/// Refuses at the first row, by part and then by slot, that breaks the rule.
fn refuse_first(
    number: u32,
    set: &Set,
    breaks: impl Fn(usize, usize, &Row) -> bool,
) -> Result<(), Refusal> {
    for (part, rows) in set.parts.iter().enumerate() {
        for (slot, row) in rows.iter().enumerate() {
            if breaks(part, slot, row) {
                return Err(Refusal::at_row(number, part, slot));
            }
        }
    }
    Ok(())
}
