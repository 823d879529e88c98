//! Sets that are spread wrongly, for refusals 11 and 12: every copy agrees on the wrong thing.

use super::random_row;
use crate::image::Set;
use crate::mesh::Name;
use crate::random::sample::Sample;
use crate::random::source::Random;
use crate::spread::{objects_in_parts, residence_of, set_from, Residence};

/// Refusal 11: entities live, with their closures, where nothing that they bound lives.
pub fn set_with_wrong_residence(random: &mut Random, sample: &Sample) -> Set {
    let mut residence = residence_of(&sample.mesh, &sample.placement);
    let names: Vec<Name> = residence.keys().copied().collect();
    if !names.is_empty() {
        match random.below(4) {
            0 => every_entity_everywhere(random, sample, &mut residence),
            1 => {
                let object = random.pick(&sample.objects());
                live_in_one_more(random, sample, &mut residence, object);
            }
            _ => {
                let name = random.pick(&names);
                live_in_one_more(random, sample, &mut residence, name);
            }
        }
    }
    let objects = objects_in_parts(sample.part_count, &sample.placement);
    set_from(sample.part_count, &sample.mesh, &residence, &objects)
}

/// The whole mesh in two parts, as in case 11.
fn every_entity_everywhere(random: &mut Random, sample: &Sample, residence: &mut Residence) {
    let two_parts = 1 << random.below(sample.part_count) | 1 << random.below(sample.part_count);
    for set in residence.values_mut() {
        *set = two_parts;
    }
}

fn live_in_one_more(random: &mut Random, sample: &Sample, residence: &mut Residence, name: Name) {
    let absent: Vec<usize> = (0..sample.part_count)
        .filter(|part| residence[&name] >> part & 1 == 0)
        .collect();
    if absent.is_empty() {
        return;
    }
    let part = random.pick(&absent);
    for lower in sample.mesh.closure(name) {
        *residence.entry(lower).or_insert(0) |= 1 << part;
    }
}

/// Refusal 12: one owner changed in all copies, or all owners from counts that are not the ones
/// of this placement, as when they are taken before a move or of one dimension only.
pub fn set_with_wrong_owners(random: &mut Random, sample: &Sample) -> Set {
    if random.chance(60) {
        let mut set = sample.set();
        change_owner(random, &mut set);
        return set;
    }
    let mut counts = objects_in_parts(sample.part_count, &sample.placement);
    match random.below(3) {
        0 => counts.fill(0),
        1 => counts.reverse(),
        _ => {
            let mut highest_only = sample.placement.clone();
            highest_only.retain(|object, _| object.dimension >= 2);
            counts = objects_in_parts(sample.part_count, &highest_only);
        }
    }
    let residence = residence_of(&sample.mesh, &sample.placement);
    set_from(sample.part_count, &sample.mesh, &residence, &counts)
}

/// Another owner for one entity, in all its rows: a part that is there, of its set or not.
pub fn change_owner(random: &mut Random, set: &mut Set) {
    let part_count = set.parts.len();
    let prefer_shared = random.chance(80);
    let shared = random_row(random, set, |_, _, row| {
        !prefer_shared || !row.remote_slots.is_empty()
    });
    let Some((part, slot)) = shared.or_else(|| random_row(random, set, |_, _, _| true)) else {
        return;
    };
    let (name, owner) = (set.parts[part][slot].name(), set.parts[part][slot].owner);
    let step = random.between(1, part_count.max(2) - 1);
    let other = ((owner as usize + step) % part_count) as u8;
    for row in set.parts.iter_mut().flatten() {
        if row.name() == name {
            row.owner = other;
        }
    }
}
