//! Random lists: sound ones of many kinds, and lists damaged for refusals 13 to 16.

use super::sample::Sample;
use super::source::Random;
use crate::mesh::Name;
use crate::move_list::{self, Entry};

/// A list that the sample accepts: some of its objects, each with a part that is there.
pub fn sound(random: &mut Random, sample: &Sample) -> Vec<Entry> {
    let objects = sample.objects();
    let target = random.below(sample.part_count);
    let chosen = match random.below(7) {
        0 => Vec::new(),
        1 | 2 => random.some_of(&objects, 1),
        3 => objects.clone(),
        _ => {
            let count = random.below(objects.len() + 1);
            random.some_of(&objects, count)
        }
    };
    let kind = random.below(6);
    let destination = |random: &mut Random, object: &Name| match kind {
        0 => target,
        1 => sample.placement[object],
        2 => (sample.placement[object] + 1) % sample.part_count,
        3 if random.chance(50) => sample.placement[object],
        _ => random.below(sample.part_count),
    };
    let entries = chosen
        .iter()
        .map(|object| Entry::new(*object, destination(random, object)))
        .collect();
    ascending(entries)
}

/// All objects but lone vertices dealt out to the parts in turn.
pub fn dealt(sample: &Sample) -> Vec<Entry> {
    let objects = sample.placement.keys().filter(|name| name.dimension > 0);
    objects
        .enumerate()
        .map(|(turn, &object)| Entry::new(object, turn % sample.part_count))
        .collect()
}

/// The list that brings the named objects back to where the sample has them now.
pub fn way_back(sample: &Sample, entries: &[Entry]) -> Vec<Entry> {
    entries
        .iter()
        .map(|entry| Entry::new(entry.name, sample.placement[&entry.name]))
        .collect()
}

fn ascending(mut entries: Vec<Entry>) -> Vec<Entry> {
    entries.sort_by_key(|entry| entry.name);
    entries.dedup_by_key(|entry| entry.name);
    entries
}

// ---- damaged lists

/// The bytes of a list with one to three defects, the first of them aimed at the given number.
pub fn damaged(random: &mut Random, sample: &Sample, number: u32, entries: &[Entry]) -> Vec<u8> {
    let mut entries = entries.to_vec();
    let mut left_over = Vec::new();
    damage(random, sample, number, &mut entries, &mut left_over);
    while random.chance(25) {
        let other = random.between(13, 16) as u32;
        damage(random, sample, other, &mut entries, &mut left_over);
    }
    let mut bytes = move_list::write(&entries);
    bytes.extend(left_over);
    bytes
}

fn damage(
    random: &mut Random,
    sample: &Sample,
    number: u32,
    entries: &mut Vec<Entry>,
    left_over: &mut Vec<u8>,
) {
    match number {
        13 => break_form(random, entries, left_over),
        14 => break_destination(random, sample, entries),
        15 => {
            let name = missing_name(random, sample);
            insert_in_order(entries, Entry::new(name, random.below(sample.part_count)));
        }
        _ => {
            if let Some(name) = bounding_name(random, sample) {
                insert_in_order(entries, Entry::new(name, random.below(sample.part_count)));
            }
        }
    }
}

/// Refusal 13: bytes left over, nonzero zeros, dimension above 3, not ascending.
fn break_form(random: &mut Random, entries: &mut Vec<Entry>, left_over: &mut Vec<u8>) {
    let kind = random.below(5);
    if kind == 0 || entries.is_empty() {
        let length = random.between(1, 7);
        *left_over = (0..length).map(|_| random.word() as u8).collect();
        return;
    }
    let place = random.below(entries.len());
    match kind {
        1 => entries[place].zeros[random.below(2)] = random.nonzero_byte(),
        2 => entries[place].name.dimension = random.pick(&[4, 5, 128, 255]),
        3 => entries.insert(place, entries[place]),
        _ => entries.swap(place, random.below(place + 1)),
    }
}

/// Refusal 14: a destination that names no part.
fn break_destination(random: &mut Random, sample: &Sample, entries: &mut [Entry]) {
    if entries.is_empty() {
        return;
    }
    let place = random.below(entries.len());
    let first_missing = sample.part_count as u8;
    entries[place].destination = random.pick(&[first_missing, 64, 255]);
}

/// Refusal 15: a name that no entity has, often next to one that is there.
pub fn missing_name(random: &mut Random, sample: &Sample) -> Name {
    let names: Vec<Name> = sample.mesh.entities.keys().copied().collect();
    loop {
        let name = match random.below(3) {
            0 if !names.is_empty() => {
                let near = random.pick(&names);
                Name::new(near.dimension, near.number.wrapping_add(1))
            }
            1 if !names.is_empty() => {
                let near = random.pick(&names);
                Name::new(random.below(4) as u8, near.number)
            }
            _ => Name::new(random.below(4) as u8, random.word() as u32),
        };
        if !sample.mesh.entities.contains_key(&name) {
            return name;
        }
    }
}

/// Refusal 16: an entity that bounds another one, if the mesh has any.
fn bounding_name(random: &mut Random, sample: &Sample) -> Option<Name> {
    let names = sample.mesh.entities.keys();
    let bounding: Vec<Name> = names
        .filter(|name| !sample.placement.contains_key(name))
        .copied()
        .collect();
    (!bounding.is_empty()).then(|| random.pick(&bounding))
}

fn insert_in_order(entries: &mut Vec<Entry>, entry: Entry) {
    let place = entries.partition_point(|earlier| earlier.name < entry.name);
    entries.insert(place, entry);
}
