//! Damage to boundaries, for refusal 9: wrong slots, and simplices that are none.

use super::{first_that_works, random_row};
use crate::image::{Row, Set};
use crate::random::builder::Builder;
use crate::random::families::{add_some, FAMILIES};
use crate::random::source::Random;
use crate::spread::{spread, Placement};

pub fn damage(random: &mut Random, set: &mut Set) {
    let ways = [
        slot_out_of_range,
        slots_swapped,
        slots_equal,
        slot_of_any_row,
        slot_of_the_same_dimension,
        slot_of_the_own_closure,
    ];
    first_that_works(random, set, &ways);
}

/// A set that is right in all but one simplex.
pub fn set_with_bad_simplex(random: &mut Random) -> Set {
    let mut builder = Builder::new(random);
    let size = builder.random.between(1, 8);
    add_some(&mut builder, &FAMILIES, size);
    match builder.random.chance(30) {
        true => builder.bad_triangle(),
        false => builder.bad_tetrahedron(),
    };
    let mesh = builder.mesh;
    let part_count = random.between(1, 4);
    let objects = mesh.partition_objects().into_iter();
    let placement: Placement = objects
        .map(|object| (object, random.below(part_count)))
        .collect();
    spread(part_count, &mesh, &placement)
}

/// Rewrites the boundary slots of a random row; it is handed the row's part as well.
fn rewrite(
    random: &mut Random,
    set: &mut Set,
    rewrite: impl Fn(&mut Random, &[Row], &mut Vec<u32>),
) -> bool {
    let has_slots = |row: &Row| (1..=3).contains(&row.dimension);
    let Some((part, slot)) = random_row(random, set, |_, _, row| has_slots(row)) else {
        return false;
    };
    let mut slots = set.parts[part][slot].boundary_slots();
    rewrite(random, &set.parts[part], &mut slots);
    set.parts[part][slot].set_boundary_slots(&slots);
    true
}

fn slot_out_of_range(random: &mut Random, set: &mut Set) -> bool {
    rewrite(random, set, |random, rows, slots| {
        let place = match random.chance(50) {
            true => slots.len() - 1,
            false => random.below(slots.len()),
        };
        slots[place] = random.pick(&[rows.len() as u32, rows.len() as u32 + 1, u32::MAX]);
    })
}

fn slots_swapped(random: &mut Random, set: &mut Set) -> bool {
    rewrite(random, set, |random, _, slots| {
        let place = random.between(1, slots.len() - 1);
        slots.swap(place - 1, place);
    })
}

fn slots_equal(random: &mut Random, set: &mut Set) -> bool {
    rewrite(random, set, |random, _, slots| {
        let place = random.between(1, slots.len() - 1);
        slots[place] = slots[place - 1];
    })
}

/// Ascending still, so that only what is named can be wrong.
fn slot_of_any_row(random: &mut Random, set: &mut Set) -> bool {
    rewrite(random, set, |random, rows, slots| {
        let place = random.below(slots.len());
        slots[place] = random.below(rows.len()) as u32;
        slots.sort();
    })
}

/// An edge or a vertex of a simplex in the place of one of its faces: no vertex is missed.
fn slot_of_the_own_closure(random: &mut Random, set: &mut Set) -> bool {
    rewrite(random, set, |random, rows, slots| {
        let place = random.below(slots.len());
        let lower: Vec<u32> = slots
            .iter()
            .filter_map(|&slot| rows.get(slot as usize))
            .flat_map(Row::boundary_slots)
            .collect();
        if !lower.is_empty() {
            slots[place] = random.pick(&lower);
            slots.sort();
        }
    })
}

fn slot_of_the_same_dimension(random: &mut Random, set: &mut Set) -> bool {
    rewrite(random, set, |random, rows, slots| {
        let place = random.below(slots.len());
        let dimension = rows.get(slots[place] as usize).map(|row| row.dimension);
        let alike: Vec<u32> = (0..rows.len() as u32)
            .filter(|&slot| Some(rows[slot as usize].dimension) == dimension)
            .collect();
        if !alike.is_empty() {
            slots[place] = random.pick(&alike);
            slots.sort();
        }
    })
}
