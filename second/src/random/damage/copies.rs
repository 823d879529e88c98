//! Damage to copies, for refusal 10: twins that differ, or that do not know each other.

use super::{first_that_works, random_row, Place};
use crate::image::{Row, Set};
use crate::mesh::Name;
use crate::random::builder::Builder;
use crate::random::source::Random;
use crate::spread::{set_from, Residence};

pub fn damage(random: &mut Random, set: &mut Set) {
    let ways = [
        other_value,
        other_coordinates,
        other_owner,
        other_residence,
        other_number,
        other_remote_slot,
        remote_slots_swapped,
        twins_apart,
        one_twin_apart,
    ];
    first_that_works(random, set, &ways);
}

fn random_copy(random: &mut Random, set: &Set, fits: impl Fn(&Row) -> bool) -> Option<Place> {
    random_row(random, set, |_, _, row| {
        !row.remote_slots.is_empty() && fits(row)
    })
}

/// Changes one of the copies of an entity; false when there is none.
fn change(
    random: &mut Random,
    set: &mut Set,
    fits: impl Fn(&Row) -> bool,
    change: impl Fn(&mut Random, &mut Row),
) -> bool {
    let Some((part, slot)) = random_copy(random, set, fits) else {
        return false;
    };
    change(random, &mut set.parts[part][slot]);
    true
}

// ---- what the twins say

fn other_value(random: &mut Random, set: &mut Set) -> bool {
    change(
        random,
        set,
        |_| true,
        |random, row| match row.kind {
            0 => row.kind = random.pick(&[1, 2]),
            1 if random.chance(50) => row.value = row.value.wrapping_add(1),
            2 if random.chance(50) => row.kind = 1,
            _ => (row.kind, row.value) = (2, (-0.0f64).to_bits()),
        },
    )
}

/// One bit, often the sign, which makes minus zero of zero.
fn other_coordinates(random: &mut Random, set: &mut Set) -> bool {
    change(
        random,
        set,
        |row| row.dimension == 0,
        |random, row| {
            let mut point = row.coordinates();
            point[random.below(3)] ^= 1 << random.pick(&[0, 20, 63]);
            row.set_coordinates(point);
        },
    )
}

fn other_owner(random: &mut Random, set: &mut Set) -> bool {
    let part_count = set.parts.len();
    change(
        random,
        set,
        |_| true,
        |random, row| {
            let step = random.between(1, part_count.max(2) - 1);
            row.owner = ((row.owner as usize + step) % part_count) as u8;
        },
    )
}

/// Another part in the set, with a remote slot for it; the twins keep the set they had.
fn other_residence(random: &mut Random, set: &mut Set) -> bool {
    let part_count = set.parts.len();
    let has_room = |row: &Row| (row.residence.count_ones() as usize) < part_count;
    change(random, set, has_room, |random, row| {
        row.residence |= 1 << random.below(part_count);
        let remote_count = row.residence.count_ones() as usize - 1;
        row.remote_slots.resize(remote_count, 0);
    })
}

fn other_number(random: &mut Random, set: &mut Set) -> bool {
    let before_last = |row: &Row| row.number < u32::MAX;
    change(random, set, before_last, |_, row| row.number += 1)
}

// ---- how the twins are named

fn other_remote_slot(random: &mut Random, set: &mut Set) -> bool {
    change(
        random,
        set,
        |_| true,
        |random, row| {
            let place = random.below(row.remote_slots.len());
            let slot = row.remote_slots[place];
            let wrong = [slot.wrapping_add(1), slot.wrapping_sub(1), 0, u32::MAX];
            row.remote_slots[place] = random.pick(&wrong);
        },
    )
}

fn remote_slots_swapped(random: &mut Random, set: &mut Set) -> bool {
    let has_two = |row: &Row| row.remote_slots.len() > 1;
    change(random, set, has_two, |random, row| {
        let place = random.between(1, row.remote_slots.len() - 1);
        row.remote_slots.swap(place - 1, place);
    })
}

fn set_apart(row: &mut Row, part: usize) {
    row.residence = 1 << part;
    row.remote_slots.clear();
}

/// No copy knows of any other: each says that it is alone.
fn twins_apart(random: &mut Random, set: &mut Set) -> bool {
    let Some((part, slot)) = random_copy(random, set, |_| true) else {
        return false;
    };
    let name = set.parts[part][slot].name();
    for (part, rows) in set.parts.iter_mut().enumerate() {
        for row in rows.iter_mut().filter(|row| row.name() == name) {
            set_apart(row, part);
        }
    }
    true
}

/// One part has left the set of all others, and says itself that it is alone.
fn one_twin_apart(random: &mut Random, set: &mut Set) -> bool {
    let Some((leaver, slot)) = random_copy(random, set, |_| true) else {
        return false;
    };
    let name = set.parts[leaver][slot].name();
    for (part, rows) in set.parts.iter_mut().enumerate() {
        for row in rows.iter_mut().filter(|row| row.name() == name) {
            let knows_leaver = row.residence >> leaver & 1 == 1;
            if part == leaver {
                set_apart(row, part);
            } else if knows_leaver && row.residence >> part & 1 == 1 {
                row.remote_slots.remove(row.remote_place(part, leaver));
                row.residence ^= 1 << leaver;
            }
        }
    }
    true
}

// ---- boundaries that differ

/// Twins that are right in all but their boundaries: a triangle over two edges of one vertex
/// pair, which names one of them here and the other one there, or an edge with another end. They
/// live in both parts against rule 11, which is judged later.
pub fn set_with_unlike_boundaries(random: &mut Random) -> Set {
    let triangle = random.chance(60);
    let mut builder = Builder::new(random);
    let v = builder.vertices(4);
    let edges = [[0, 1], [0, 1], [0, 2], [1, 2]].map(|[a, b]| builder.anew(1, &[v[a], v[b]]));
    let name = match triangle {
        true => Name::new(2, builder.anew(2, &[edges[0], edges[2], edges[3]])),
        false => Name::new(1, edges[0]),
    };
    let mesh = builder.mesh;
    let residence: Residence = mesh.entities.keys().map(|&name| (name, 3)).collect();
    let mut set = set_from(2, &mesh, &residence, &[1, 1]);
    let part = random.below(2);
    let (old, new) = match triangle {
        true => (Name::new(1, edges[0]), Name::new(1, edges[1])),
        false => (Name::new(0, v[0]), Name::new(0, v[3])),
    };
    rename_in_boundary(&mut set.parts[part], name, old, new);
    set
}

fn rename_in_boundary(rows: &mut [Row], name: Name, old: Name, new: Name) {
    let slot_of = |sought: Name| rows.iter().position(|row| row.name() == sought);
    let [Some(at), Some(old), Some(new)] = [name, old, new].map(slot_of) else {
        return;
    };
    let mut slots = rows[at].boundary_slots();
    for slot in slots.iter_mut().filter(|slot| **slot == old as u32) {
        *slot = new as u32;
    }
    slots.sort();
    rows[at].set_boundary_slots(&slots);
}
