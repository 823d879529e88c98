//! Rule 12, Owner: of the residence parts the poorest in partition objects, of equals the smallest.

use super::refuse_first;
use super::residence::unions_over_bounded;
use crate::image::{parts_in, Set};
use crate::refusal::Refusal;

pub fn judge(set: &Set) -> Result<(), Refusal> {
    let objects = objects_in_parts(set);
    refuse_first(12, set, |_, _, row| {
        row.owner as usize != poorest(row.residence, &objects)
    })
}

/// The residence part with fewest partition objects, given how many each part has.
pub fn poorest(residence: u64, objects_in_parts: &[usize]) -> usize {
    parts_in(residence)
        .min_by_key(|&part| (objects_in_parts[part], part))
        .expect("a residence set is never empty")
}

/// Objects of any dimension count; after rule 11 each of them stands in one row only.
fn objects_in_parts(set: &Set) -> Vec<usize> {
    let bounding = unions_over_bounded(set);
    set.parts
        .iter()
        .map(|rows| {
            rows.iter()
                .filter(|row| !bounding.contains_key(&row.name()))
                .count()
        })
        .collect()
}
