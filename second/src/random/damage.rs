//! Damage aimed at each of refusals 1 to 12, alone and combined, and damage without aim.

mod boundary;
mod copies;
mod header;
mod order;
mod row_fields;
mod spreading;

use super::sample::Sample;
use super::source::Random;
use crate::image::{self, Row, Set};

/// A damaged image. The aim is met mostly, not always: a sample may offer no place for it, and a
/// second fault may come first.
pub fn aimed(random: &mut Random, sample: &Sample, number: u32) -> Vec<u8> {
    if number <= 6 {
        return header::damage(random, number, image::write(&sample.set()));
    }
    image::write(&damaged_set(random, sample, number))
}

/// Two or three faults in one set: which of them is told first is what the order of checks says.
pub fn combined(random: &mut Random, sample: &Sample) -> Vec<u8> {
    let first = random.between(7, 12) as u32;
    let mut set = damaged_set(random, sample, first);
    for _ in 0..random.between(1, 2) {
        match random.between(7, 12) {
            7 => row_fields::damage(random, &mut set),
            8 => order::damage(random, &mut set),
            9 => boundary::damage(random, &mut set),
            10 => copies::damage(random, &mut set),
            _ => spreading::change_owner(random, &mut set),
        }
    }
    let bytes = image::write(&set);
    match random.chance(10) {
        true => {
            let number = random.between(2, 6) as u32;
            header::damage(random, number, bytes)
        }
        false => bytes,
    }
}

/// Bytes flipped, cut off, cut out or doubled, wherever they stand.
pub fn without_aim(random: &mut Random, sample: &Sample) -> Vec<u8> {
    let mut bytes = image::write(&sample.set());
    for _ in 0..random.between(1, 4) {
        let place = random.below(bytes.len() + 1);
        match random.below(10) {
            0 => bytes.truncate(place),
            1 => drop(bytes.drain(place..(place + 4).min(bytes.len()))),
            2 => drop(bytes.splice(place..place, [0, 0, 0, 0])),
            3 if place < bytes.len() => bytes[place] = random.word() as u8,
            _ if place < bytes.len() => bytes[place] ^= 1 << random.below(8),
            _ => {}
        }
    }
    bytes
}

fn damaged_set(random: &mut Random, sample: &Sample, number: u32) -> Set {
    let mut set = sample.set();
    match number {
        7 => row_fields::damage(random, &mut set),
        8 => order::damage(random, &mut set),
        9 if random.chance(50) => return boundary::set_with_bad_simplex(random),
        9 => boundary::damage(random, &mut set),
        10 if random.chance(10) => return copies::set_with_unlike_boundaries(random),
        10 => copies::damage(random, &mut set),
        11 => return spreading::set_with_wrong_residence(random, sample),
        _ => set = spreading::set_with_wrong_owners(random, sample),
    }
    set
}

// ---- choosing rows

/// Where a row stands: part and slot.
type Place = (usize, usize);

/// A random row that fits, if there is any.
fn random_row(
    random: &mut Random,
    set: &Set,
    fits: impl Fn(usize, usize, &Row) -> bool,
) -> Option<Place> {
    let mut places = Vec::new();
    for (part, rows) in set.parts.iter().enumerate() {
        for (slot, row) in rows.iter().enumerate() {
            if fits(part, slot, row) {
                places.push((part, slot));
            }
        }
    }
    (!places.is_empty()).then(|| random.pick(&places))
}

/// Tries the ways in turn, from a random one on, until one finds a place for itself.
fn first_that_works(
    random: &mut Random,
    set: &mut Set,
    ways: &[fn(&mut Random, &mut Set) -> bool],
) {
    let start = random.below(ways.len());
    for step in 0..ways.len() {
        if ways[(start + step) % ways.len()](random, set) {
            return;
        }
    }
}
