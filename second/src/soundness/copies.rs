//! Rule 10, Copies: an entity's rows agree, name each other, and stand in all parts that hold it.

use super::refuse_first;
use crate::image::{parts_in, Row, Set};
use crate::mesh::Name;
use crate::refusal::Refusal;
use std::collections::BTreeMap;

pub fn judge(set: &Set) -> Result<(), Refusal> {
    let holders = parts_that_hold(set);
    refuse_first(10, set, |part, slot, row| {
        let every_holder_is_named = holders[&row.name()] & !row.residence == 0;
        let mut others = parts_in(row.residence).filter(|&other| other != part);
        !(every_holder_is_named && others.all(|other| twin_agrees(set, part, slot, other)))
    })
}

fn parts_that_hold(set: &Set) -> BTreeMap<Name, u64> {
    let mut holders = BTreeMap::new();
    for (part, rows) in set.parts.iter().enumerate() {
        for row in rows {
            *holders.entry(row.name()).or_insert(0) |= 1u64 << part;
        }
    }
    holders
}

/// The row that is named in the other part is the same entity, says the same, and names us back.
fn twin_agrees(set: &Set, part: usize, slot: usize, other: usize) -> bool {
    let row = &set.parts[part][slot];
    let Some(twin) = set.parts[other].get(row.remote_slot(part, other) as usize) else {
        return false;
    };
    twin.name() == row.name()
        && (twin.kind, twin.value) == (row.kind, row.value)
        && twin.residence == row.residence
        && twin.owner == row.owner
        && bodies_agree(set, (part, row), (other, twin))
        && twin.remote_slot(other, part) as usize == slot
}

/// Coordinates by their bits, boundaries as entity numbers: the slots may well differ.
fn bodies_agree(set: &Set, (part, row): (usize, &Row), (other, twin): (usize, &Row)) -> bool {
    if row.dimension == 0 {
        return row.coordinates() == twin.coordinates();
    }
    set.boundary_names(part, row) == set.boundary_names(other, twin)
}
