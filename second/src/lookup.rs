//! Lookup: the residence set and owner of one entity, refusals 1 to 12 and 21.

use crate::mesh::Name;
use crate::refusal::Refusal;
use crate::soundness::sound_set;

#[derive(Clone, Copy, Debug, PartialEq, Eq)]
pub struct Found {
    pub residence: u64,
    pub owner: u8,
}

/// All rows of an entity agree in a sound set, so the first one found answers.
pub fn lookup(image: &[u8], dimension: u8, number: u32) -> Result<Found, Refusal> {
    let set = sound_set(image)?;
    let sought = Name::new(dimension, number);
    let mut rows = set.parts.iter().flatten();
    let row = rows.find(|row| row.name() == sought);
    row.map(|row| Found {
        residence: row.residence,
        owner: row.owner,
    })
    .ok_or(Refusal::whole(21))
}
