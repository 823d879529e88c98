//! Rule 11, Residence: an object resides in one part, any other entity where what it bounds resides.

use super::refuse_first;
use crate::image::Set;
use crate::mesh::Name;
use crate::refusal::Refusal;
use std::collections::BTreeMap;

pub fn judge(set: &Set) -> Result<(), Refusal> {
    let unions = unions_over_bounded(set);
    refuse_first(11, set, |_, _, row| match unions.get(&row.name()) {
        None => row.residence.count_ones() != 1,
        Some(&union) => row.residence != union,
    })
}

/// For each entity on a boundary, looked for over all parts, the union of the residence sets of
/// what it bounds. An entity that is missing here is a partition object.
pub fn unions_over_bounded(set: &Set) -> BTreeMap<Name, u64> {
    let mut unions = BTreeMap::new();
    for (part, rows) in set.parts.iter().enumerate() {
        for row in rows {
            for face in set.boundary_names(part, row) {
                *unions.entry(face).or_insert(0) |= row.residence;
            }
        }
    }
    unions
}
