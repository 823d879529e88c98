//! A mesh spread over parts: everything in a set follows from part count, mesh and placement
//! (document 01, "The move").

use crate::image::{parts_in, row_length, Row, Set};
use crate::mesh::{Mesh, Name, Shape};
use crate::soundness::poorest;
use std::collections::BTreeMap;

/// The part of each partition object.
pub type Placement = BTreeMap<Name, usize>;

/// The residence set of each entity.
pub type Residence = BTreeMap<Name, u64>;

/// The sound set of a mesh, with each partition object in its part.
pub fn spread(part_count: usize, mesh: &Mesh, placement: &Placement) -> Set {
    let residence = residence_of(mesh, placement);
    let objects = objects_in_parts(part_count, placement);
    set_from(part_count, mesh, &residence, &objects)
}

/// Each part holds the closures of its objects.
pub fn residence_of(mesh: &Mesh, placement: &Placement) -> Residence {
    let mut residence = Residence::new();
    for (&object, &part) in placement {
        for name in mesh.closure(object) {
            *residence.entry(name).or_insert(0) |= 1u64 << part;
        }
    }
    residence
}

pub fn objects_in_parts(part_count: usize, placement: &Placement) -> Vec<usize> {
    let mut objects = vec![0; part_count];
    for &part in placement.values() {
        objects[part] += 1;
    }
    objects
}

/// The placement that a sound set shows: an object's residence set is its one part.
pub fn placement_of(mesh: &Mesh, set: &Set) -> Placement {
    let mut placement = Placement::new();
    let objects = mesh.partition_objects();
    for (part, rows) in set.parts.iter().enumerate() {
        for row in rows.iter().filter(|row| objects.contains(&row.name())) {
            placement.insert(row.name(), part);
        }
    }
    placement
}

/// The length of the image, known before any row is made.
pub fn image_length(part_count: usize, residence: &Residence) -> usize {
    let rows: usize = residence
        .values()
        .map(|&set| set.count_ones() as usize * row_length(set))
        .sum();
    8 + 4 * part_count + rows
}

/// The set whose residence sets and object counts are given. The generators hand in wrong ones
/// to make sets that break rule 11 or 12 and no earlier one.
pub fn set_from(
    part_count: usize,
    mesh: &Mesh,
    residence: &Residence,
    objects_in_parts: &[usize],
) -> Set {
    let slots = slots_in_parts(part_count, residence);
    let row = |part: usize, name: Name| {
        let set = residence[&name];
        let owner = poorest(set, objects_in_parts);
        make_row(mesh, &slots, part, name, set, owner)
    };
    let parts = (0..part_count)
        .map(|part| slots[part].keys().map(|&name| row(part, name)).collect())
        .collect();
    Set { parts }
}

/// For each part the slot of each entity in it: rows ascend by dimension, then number.
fn slots_in_parts(part_count: usize, residence: &Residence) -> Vec<BTreeMap<Name, u32>> {
    let mut slots = vec![BTreeMap::new(); part_count];
    for (&name, &set) in residence {
        for part in parts_in(set) {
            let next = slots[part].len() as u32;
            slots[part].insert(name, next);
        }
    }
    slots
}

fn make_row(
    mesh: &Mesh,
    slots: &[BTreeMap<Name, u32>],
    part: usize,
    name: Name,
    residence: u64,
    owner: usize,
) -> Row {
    let (kind, value) = mesh.entities[&name].value.fields();
    let mut row = Row {
        number: name.number,
        dimension: name.dimension,
        owner: owner as u8,
        kind,
        zero: 0,
        residence,
        value,
        body: [0; 24],
        remote_slots: parts_in(residence)
            .filter(|&other| other != part)
            .map(|other| slots[other][&name])
            .collect(),
    };
    match &mesh.entities[&name].shape {
        Shape::Point(bits) => row.set_coordinates(*bits),
        Shape::Boundary(_) => row.set_boundary_slots(&boundary_slots(mesh, &slots[part], name)),
    }
    row
}

/// Slots and names of one part ascend together; sorting keeps that true for any way of listing.
fn boundary_slots(mesh: &Mesh, slots: &BTreeMap<Name, u32>, name: Name) -> Vec<u32> {
    let mut boundary: Vec<u32> = mesh.boundary(name).iter().map(|face| slots[face]).collect();
    boundary.sort();
    boundary
}
