//! Damage to the order of rows, for refusal 8.

use super::{first_that_works, random_row};
use crate::image::Set;
use crate::random::source::Random;

pub fn damage(random: &mut Random, set: &mut Set) {
    first_that_works(random, set, &[swapped_rows, equal_numbers, lower_number]);
}

/// Two rows of one part change places.
fn swapped_rows(random: &mut Random, set: &mut Set) -> bool {
    let Some((part, slot)) = random_row(random, set, |_, slot, _| slot > 0) else {
        return false;
    };
    let earlier = match random.chance(50) {
        true => slot - 1,
        false => random.below(slot),
    };
    set.parts[part].swap(earlier, slot);
    true
}

/// Two entities of one dimension get the same number.
fn equal_numbers(random: &mut Random, set: &mut Set) -> bool {
    give_number(random, set, |_, before| before)
}

fn lower_number(random: &mut Random, set: &mut Set) -> bool {
    give_number(random, set, |random, before| {
        random.below(before as usize + 1) as u32
    })
}

/// Gives a row a number that is made from the number before it.
fn give_number(
    random: &mut Random,
    set: &mut Set,
    number: impl Fn(&mut Random, u32) -> u32,
) -> bool {
    let found = random_row(random, set, |part, slot, row| {
        slot > 0 && set.parts[part][slot - 1].dimension == row.dimension
    });
    let Some((part, slot)) = found else {
        return false;
    };
    let before = set.parts[part][slot - 1].number;
    set.parts[part][slot].number = number(random, before);
    true
}
