//! A sample: part count, mesh and placement, and the sound set that follows from them.

use super::builder::Builder;
use super::families::{add_some, book_of, lone_vertices, path, FAMILIES, LOCAL_FAMILIES};
use super::lists;
use super::source::Random;
use crate::image::{self, Set, LONGEST_IMAGE, MOST_PARTS};
use crate::mesh::{Mesh, Name};
use crate::move_list::Entry;
use crate::spread::{image_length, residence_of, spread, Placement};

#[derive(Clone, Debug)]
pub struct Sample {
    pub part_count: usize,
    pub mesh: Mesh,
    pub placement: Placement,
}

impl Sample {
    pub fn set(&self) -> Set {
        spread(self.part_count, &self.mesh, &self.placement)
    }

    pub fn image(&self) -> Vec<u8> {
        image::write(&self.set())
    }

    /// Takes over what an accepted list says.
    pub fn follow(&mut self, entries: &[Entry]) {
        let moves = entries.iter();
        self.placement
            .extend(moves.map(|entry| (entry.name, entry.destination as usize)));
    }

    /// How long the image is after a list.
    pub fn length_after(&self, entries: &[Entry]) -> usize {
        let mut after = self.clone();
        after.follow(entries);
        image_length(
            self.part_count,
            &residence_of(&after.mesh, &after.placement),
        )
    }

    pub fn objects(&self) -> Vec<Name> {
        self.placement.keys().copied().collect()
    }
}

// ---- samples of all sizes

/// A sample that is not full: mostly small, sometimes of some thousand rows. It may come out
/// longer than an image may be, which is worth a call too.
pub fn modest(random: &mut Random) -> Sample {
    let largest = random.pick(&[0, 2, 4, 8, 8, 16, 30, 30, 60, 120, 300]);
    let size = random.between(0, largest);
    let mesh = mesh_of_size(random, size);
    let part_count = part_count(random);
    let placement = random_placement(random, part_count, &mesh);
    Sample {
        part_count,
        mesh,
        placement,
    }
}

/// A small sample of at least two parts with at least one simplex: something to damage.
pub fn damageable(random: &mut Random) -> Sample {
    let size = random.pick(&[1, 2, 4, 8, 20, 50]);
    let mesh = mesh_of_size(random, size);
    let part_count = part_count(random).max(2);
    let objects: Vec<Name> = mesh.partition_objects().into_iter().collect();
    let placement = match random.chance(70) {
        true => anywhere(random, part_count, &objects),
        false => random_placement(random, part_count, &mesh),
    };
    Sample {
        part_count,
        mesh,
        placement,
    }
}

fn mesh_of_size(random: &mut Random, size: usize) -> Mesh {
    let mut builder = Builder::new(random);
    if size > 0 {
        add_some(&mut builder, &FAMILIES, size);
        let lone_count = builder.random.pick(&[0, 0, 1, 3]);
        lone_vertices(&mut builder, lone_count);
    }
    builder.mesh
}

/// A sample just under the longest image: a large mesh, filled up with lone vertices to the last
/// row that fits, or nearly so.
pub fn full(random: &mut Random) -> Sample {
    let part_count = random.pick(&[1, 2, 2, 3, 8, 14, 64]);
    let kind = random.below(4);
    let mut size = random.pick(&[300, 1500, 3500]);
    loop {
        let mut builder = Builder::new(random);
        match kind {
            0 => lone_vertices(&mut builder, 1),
            _ => add_some(&mut builder, &LOCAL_FAMILIES, size),
        }
        let mesh = builder.mesh.clone();
        let placement = in_ranges(part_count, &objects_of(&mesh));
        let length = image_length(part_count, &residence_of(&mesh, &placement));
        if length <= LONGEST_IMAGE {
            let free_rows = (LONGEST_IMAGE - length) / 48;
            let unused = builder.random.pick(&[0, 0, 0, 1, 5, 300]).min(free_rows);
            lone_vertices(&mut builder, free_rows - unused);
            let mesh = builder.mesh;
            return placed_further(random, part_count, mesh, placement);
        }
        size = size * 3 / 4;
    }
}

/// The given placement, with all objects that it lacks put anywhere.
fn placed_further(
    random: &mut Random,
    part_count: usize,
    mesh: Mesh,
    mut placement: Placement,
) -> Sample {
    for object in mesh.partition_objects() {
        let part = random.below(part_count);
        placement.entry(object).or_insert(part);
    }
    Sample {
        part_count,
        mesh,
        placement,
    }
}

/// A small sample in one part that swells about the longest image when its objects are dealt out
/// (`lists::dealt`): mostly to the very limit or four bytes over it.
pub fn swelling(random: &mut Random) -> Sample {
    let part_count = random.between(48, MOST_PARTS);
    let over = random.pick(&[0, 4, 48]);
    let mut builder = Builder::new(random);
    builder.doubling = 0;
    let book_count = builder.random.between(3, 4);
    for _ in 0..book_count {
        let page_count = builder.random.between(part_count - 4, part_count + 2);
        book_of(&mut builder, page_count);
    }
    // Each pair of edges shifts the length a little; the lone vertices fill in steps of 48.
    for _ in 0..12 {
        let sample = all_in_part_0(part_count, builder.mesh.clone());
        let dealt = sample.length_after(&lists::dealt(&sample));
        let free = (LONGEST_IMAGE + over).saturating_sub(dealt);
        if free.is_multiple_of(48) {
            lone_vertices(&mut builder, free / 48);
            break;
        }
        path(&mut builder, 2);
    }
    all_in_part_0(part_count, builder.mesh)
}

fn all_in_part_0(part_count: usize, mesh: Mesh) -> Sample {
    let objects = mesh.partition_objects().into_iter();
    let placement = objects.map(|object| (object, 0)).collect();
    Sample {
        part_count,
        mesh,
        placement,
    }
}

// ---- part counts and placements

fn part_count(random: &mut Random) -> usize {
    match random.below(4) {
        0 => random.pick(&[1, 2, MOST_PARTS - 1, MOST_PARTS]),
        1 => random.between(1, MOST_PARTS),
        _ => random.between(1, 6),
    }
}

fn objects_of(mesh: &Mesh) -> Vec<Name> {
    mesh.partition_objects().into_iter().collect()
}

fn random_placement(random: &mut Random, part_count: usize, mesh: &Mesh) -> Placement {
    let objects = objects_of(mesh);
    match random.below(5) {
        0 => all_in_one(random, part_count, &objects),
        1 => in_ranges(part_count, &objects),
        2 => in_few(random, part_count, &objects),
        _ => anywhere(random, part_count, &objects),
    }
}

fn all_in_one(random: &mut Random, part_count: usize, objects: &[Name]) -> Placement {
    let part = random.below(part_count);
    objects.iter().map(|&object| (object, part)).collect()
}

fn anywhere(random: &mut Random, part_count: usize, objects: &[Name]) -> Placement {
    let placed = objects
        .iter()
        .map(|&object| (object, random.below(part_count)));
    placed.collect()
}

/// Neighbours by name share a part, and the parts come in order.
fn in_ranges(part_count: usize, objects: &[Name]) -> Placement {
    let count = objects.len();
    let placed = objects.iter().enumerate();
    placed
        .map(|(index, &object)| (object, index * part_count / count))
        .collect()
}

/// Two or three parts hold all, the others are empty.
fn in_few(random: &mut Random, part_count: usize, objects: &[Name]) -> Placement {
    let parts = [(); 3].map(|_| random.below(part_count));
    let placed = objects.iter().map(|&object| (object, random.pick(&parts)));
    placed.collect()
}
