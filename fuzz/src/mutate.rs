//! Changes that know what an image is. Bytes changed blindly nearly always break the first rule that they meet; these reach sound images and the
//! later rules. Where a change finds no place (the image is not sound, say) there is none, and libFuzzer changes bytes instead.

use crate::input::{Input, Length};
use second::image::{self, Row, Set};
use second::mesh::{Mesh, Shape, Value};
use second::move_list;
use second::random::sample::{self, Sample};
use second::random::source::Random;
use second::random::{damage, lists};
use second::soundness::sound_set;
use second::spread::placement_of;

/// The input changed in one way, or `None`, a third of the time at least. What cannot be made sound is made unsound in another way.
pub fn changed(random: &mut Random, mut input: Input) -> Option<Input> {
    match random.below(12) {
        0 => change_field(random, &mut input)?,
        1 => change_rows(random, &mut input)?,
        2 | 3 => change_mesh(random, &mut input).or_else(|| change_field(random, &mut input))?,
        4 | 5 => change_list(random, &mut input).or_else(|| change_rows(random, &mut input))?,
        6 => change_question(random, &mut input),
        7 => fresh_image(random, &mut input),
        _ => return None,
    }
    Some(input)
}

/// The sample that a sound image shows.
fn sample_of(input: &Input) -> Option<Sample> {
    let set = sound_set(&input.image).ok()?;
    let mesh = Mesh::of(&set);
    let placement = placement_of(&mesh, &set);
    Some(Sample { part_count: set.parts.len(), mesh, placement })
}

/// A part that has rows, and one of its slots.
fn some_slot(random: &mut Random, set: &Set) -> Option<(usize, usize)> {
    let parts: Vec<usize> = (0..set.parts.len()).filter(|&part| !set.parts[part].is_empty()).collect();
    if parts.is_empty() {
        return None;
    }
    let part = random.pick(&parts);
    Some((part, random.below(set.parts[part].len())))
}

// ---- unsound on purpose

/// One field of one row, often by one bit only.
fn change_field(random: &mut Random, input: &mut Input) -> Option<()> {
    let mut set = image::read(&input.image).ok()?;
    let (part, slot) = some_slot(random, &set)?;
    let part_count = set.parts.len();
    change_row(random, &mut set.parts[part][slot], part, part_count);
    input.image = image::write(&set);
    Some(())
}

fn change_row(random: &mut Random, row: &mut Row, own: usize, part_count: usize) {
    let one_bit = 1u64 << random.below(64);
    let unfinite = random.unfinite_bits();
    match random.below(9) {
        0 => row.number = row.number.wrapping_add(random.pick(&[1, 2, u32::MAX])),
        1 => row.dimension = random.below(5) as u8,
        2 => row.owner = random.below(part_count + 1) as u8,
        3 => row.kind = random.below(4) as u8,
        4 => row.value = random.pick(&[row.value ^ one_bit, 0, unfinite]),
        5 => change_residence(row, own, random.below(part_count)),
        6 => row.body[random.below(24)] ^= 1 << random.below(8),
        7 if !row.remote_slots.is_empty() => {
            let place = random.below(row.remote_slots.len());
            row.remote_slots[place] = row.remote_slots[place].wrapping_add(random.pick(&[1, u32::MAX]));
        }
        _ => row.zero = random.below(2) as u8,
    }
}

/// A part taken into the residence set or out of it. The row has a remote slot more or less for another part, so that it keeps its length.
fn change_residence(row: &mut Row, own: usize, part: usize) {
    let place = row.remote_place(own, part).min(row.remote_slots.len());
    row.residence ^= 1 << part;
    if part == own {
        return;
    }
    match row.residence >> part & 1 {
        1 => row.remote_slots.insert(place, 0),
        _ if place < row.remote_slots.len() => drop(row.remote_slots.remove(place)),
        _ => {}
    }
}

/// A row taken out, doubled or exchanged with its neighbour; or a part added or taken away.
fn change_rows(random: &mut Random, input: &mut Input) -> Option<()> {
    let mut set = image::read(&input.image).ok()?;
    if random.chance(20) {
        match random.chance(50) && set.parts.len() > 1 {
            true => drop(set.parts.pop()),
            false => set.parts.push(Vec::new()),
        }
    } else {
        let (part, slot) = some_slot(random, &set)?;
        let rows = &mut set.parts[part];
        match random.below(3) {
            0 => drop(rows.remove(slot)),
            1 => rows.insert(slot, rows[slot].clone()),
            _ => rows.swap(slot, slot.saturating_sub(1)),
        }
    }
    input.image = image::write(&set);
    Some(())
}

// ---- sound again: everything else follows from mesh and placement

/// An object placed elsewhere, taken out of the mesh, or an entity with another value or other coordinates.
fn change_mesh(random: &mut Random, input: &mut Input) -> Option<()> {
    let mut sample = sample_of(input)?;
    let objects = sample.objects();
    let names: Vec<_> = sample.mesh.entities.keys().copied().collect();
    if names.is_empty() {
        return None;
    }
    match random.below(4) {
        0 => {
            let object = random.pick(&objects);
            sample.placement.insert(object, random.below(sample.part_count));
        }
        1 => {
            let object = random.pick(&objects);
            let part = sample.placement.remove(&object)?;
            sample.mesh.entities.remove(&object);
            // what it alone bounded with is now placed by itself
            for freed in sample.mesh.partition_objects() {
                sample.placement.entry(freed).or_insert(part);
            }
        }
        2 => {
            let bits = random.finite_bits();
            let value = random.pick(&[Value::Nothing, Value::Whole(bits), Value::Real { bits }]);
            sample.mesh.entities.get_mut(&random.pick(&names))?.value = value;
        }
        _ => match &mut sample.mesh.entities.get_mut(&names[random.below(names.len())])?.shape {
            Shape::Point(bits) => bits[random.below(3)] = random.finite_bits(),
            Shape::Boundary(_) => return None,
        },
    }
    input.image = sample.image();
    Some(())
}

/// A list of the sample's own objects, sound or damaged.
fn change_list(random: &mut Random, input: &mut Input) -> Option<()> {
    let sample = sample_of(input)?;
    let entries = lists::sound(random, &sample);
    let list = match random.chance(30) {
        true => {
            let number = random.between(13, 16) as u32;
            lists::damaged(random, &sample, number, &entries)
        }
        false => move_list::write(&entries),
    };
    // its length stands in 16 bits
    if list.len() > usize::from(u16::MAX) {
        return None;
    }
    input.list = list;
    Some(())
}

fn change_question(random: &mut Random, input: &mut Input) {
    let length = |random: &mut Random| Length { kind: random.below(4) as u8, value: random.below(256) as u8 };
    input.stretch = random.pick(&[0, 0, 0, 0, 0, 0, 0, 255]);
    match (random.below(4), sample_of(input)) {
        (0, _) => input.out = length(random),
        (1, _) => input.work = length(random),
        (2, Some(sample)) if !sample.mesh.entities.is_empty() => {
            let names: Vec<_> = sample.mesh.entities.keys().copied().collect();
            let name = random.pick(&names);
            (input.dimension, input.number) = (name.dimension, name.number);
        }
        (_, sample) => input.part = random.below(sample.map_or(66, |sample| sample.part_count + 1)) as u8,
    }
    input.side = random.below(2) as u8;
}

/// A small random image, sound or damaged; a new start for what follows.
fn fresh_image(random: &mut Random, input: &mut Input) {
    let sample = sample::damageable(random);
    input.image = match random.chance(50) {
        true => sample.image(),
        false => {
            let number = random.between(1, 12) as u32;
            damage::aimed(random, &sample, number)
        }
    };
}
