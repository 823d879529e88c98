//! Damage to single row fields, for refusal 7. Every row keeps the length it had.

use super::{first_that_works, random_row};
use crate::image::{Row, Set};
use crate::random::source::Random;

pub fn damage(random: &mut Random, set: &mut Set) {
    let ways = [
        wrong_dimension,
        wrong_owner,
        wrong_kind,
        nonzero_zero,
        value_for_nothing,
        value_not_finite,
        coordinate_not_finite,
        nonzero_after_slots,
        bit_of_no_part,
        own_bit_swapped,
        set_of_zero,
    ];
    first_that_works(random, set, &ways);
}

/// Changes one random row that fits; false when there is none.
fn change(
    random: &mut Random,
    set: &mut Set,
    fits: impl Fn(&Row) -> bool,
    change: impl Fn(&mut Random, &mut Row),
) -> bool {
    let Some((part, slot)) = random_row(random, set, |_, _, row| fits(row)) else {
        return false;
    };
    change(random, &mut set.parts[part][slot]);
    true
}

fn wrong_dimension(random: &mut Random, set: &mut Set) -> bool {
    change(
        random,
        set,
        |_| true,
        |random, row| {
            row.dimension = random.pick(&[4, 5, 127, 255]);
        },
    )
}

fn wrong_owner(random: &mut Random, set: &mut Set) -> bool {
    let first_missing = set.parts.len() as u8;
    change(
        random,
        set,
        |_| true,
        |random, row| {
            row.owner = random.pick(&[first_missing, 64, 255]);
        },
    )
}

fn wrong_kind(random: &mut Random, set: &mut Set) -> bool {
    change(
        random,
        set,
        |_| true,
        |random, row| {
            row.kind = random.pick(&[3, 4, 255]);
        },
    )
}

fn nonzero_zero(random: &mut Random, set: &mut Set) -> bool {
    change(
        random,
        set,
        |_| true,
        |random, row| {
            row.zero = random.nonzero_byte();
        },
    )
}

fn value_for_nothing(random: &mut Random, set: &mut Set) -> bool {
    change(
        random,
        set,
        |_| true,
        |random, row| {
            row.kind = 0;
            row.value = 1 << random.below(64);
        },
    )
}

fn value_not_finite(random: &mut Random, set: &mut Set) -> bool {
    change(
        random,
        set,
        |_| true,
        |random, row| {
            row.kind = 2;
            row.value = random.unfinite_bits();
        },
    )
}

fn coordinate_not_finite(random: &mut Random, set: &mut Set) -> bool {
    change(
        random,
        set,
        |row| row.dimension == 0,
        |random, row| {
            let mut point = row.coordinates();
            point[random.below(3)] = random.unfinite_bits();
            row.set_coordinates(point);
        },
    )
}

fn nonzero_after_slots(random: &mut Random, set: &mut Set) -> bool {
    let has_slots = |row: &Row| (1..=3).contains(&row.dimension);
    change(random, set, has_slots, |random, row| {
        let zeros_start = 4 * (row.dimension as usize + 1);
        row.body[random.between(zeros_start, 23)] = random.nonzero_byte();
    })
}

/// A bit that names no part in the place of one that does.
fn bit_of_no_part(random: &mut Random, set: &mut Set) -> bool {
    let part_count = set.parts.len();
    let has_bits = |row: &Row| row.residence != 0 && part_count < 64;
    change(random, set, has_bits, |random, row| {
        row.residence &= row.residence - 1;
        row.residence |= 1 << random.between(part_count, 63);
    })
}

/// The own bit in another place: the row keeps its length but not its own part.
fn own_bit_swapped(random: &mut Random, set: &mut Set) -> bool {
    let part_count = set.parts.len();
    let found = random_row(random, set, |part, _, row| {
        row.residence >> part & 1 == 1 && (row.residence.count_ones() as usize) < part_count
    });
    let Some((part, slot)) = found else {
        return false;
    };
    let row = &mut set.parts[part][slot];
    let free: Vec<usize> = (0..part_count)
        .filter(|other| row.residence >> other & 1 == 0)
        .collect();
    if free.is_empty() {
        return false;
    }
    row.residence ^= 1 << part;
    row.residence |= 1 << random.pick(&free);
    true
}

/// A set of 0 takes 48 bytes, like a set of one bit.
fn set_of_zero(random: &mut Random, set: &mut Set) -> bool {
    let alone = |row: &Row| row.residence.count_ones() == 1;
    change(random, set, alone, |_, row| row.residence = 0)
}
