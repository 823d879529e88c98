//! The small meshes of document 01, "Small meshes to try", for tests and examples.

use crate::image::{self, Set};
use crate::mesh::{Entity, Mesh, Name, Shape, Value};
use crate::spread::{set_from, spread, Placement, Residence};

fn add(mesh: &mut Mesh, dimension: u8, number: u32, shape: Shape) {
    let value = Value::Nothing;
    mesh.entities
        .insert(Name::new(dimension, number), Entity { value, shape });
}

fn add_vertex(mesh: &mut Mesh, number: u32, x: f64, y: f64) {
    let point = [x, y, 0.0].map(f64::to_bits);
    add(mesh, 0, number, Shape::Point(point));
}

fn add_bounded(mesh: &mut Mesh, dimension: u8, number: u32, boundary: &[u32]) {
    add(mesh, dimension, number, Shape::Boundary(boundary.to_vec()));
}

/// Triangle 1 with its closure, which is the lower left half of mesh A.
pub fn mesh_of_triangle_1() -> Mesh {
    let mut mesh = Mesh::default();
    add_vertex(&mut mesh, 1, 0.0, 0.0);
    add_vertex(&mut mesh, 2, 1.0, 0.0);
    add_vertex(&mut mesh, 3, 0.0, 1.0);
    add_bounded(&mut mesh, 1, 1, &[1, 2]);
    add_bounded(&mut mesh, 1, 2, &[1, 3]);
    add_bounded(&mut mesh, 1, 3, &[2, 3]);
    add_bounded(&mut mesh, 2, 1, &[1, 2, 3]);
    mesh
}

pub fn mesh_a() -> Mesh {
    let mut mesh = mesh_of_triangle_1();
    add_vertex(&mut mesh, 4, 1.0, 1.0);
    add_bounded(&mut mesh, 1, 4, &[2, 4]);
    add_bounded(&mut mesh, 1, 5, &[3, 4]);
    add_bounded(&mut mesh, 2, 2, &[3, 4, 5]);
    mesh
}

/// Mesh A and a lone vertex 5.
pub fn mesh_a_and_vertex_5() -> Mesh {
    let mut mesh = mesh_a();
    add_vertex(&mut mesh, 5, 2.0, 2.0);
    mesh
}

/// The image in two parts with the given objects in part 1 and all others in part 0.
fn image_in_two_parts(mesh: &Mesh, in_part_1: &[Name]) -> Vec<u8> {
    let placement: Placement = mesh
        .partition_objects()
        .into_iter()
        .map(|object| (object, usize::from(in_part_1.contains(&object))))
        .collect();
    image::write(&spread(2, mesh, &placement))
}

pub fn image_a() -> Vec<u8> {
    image_in_two_parts(&mesh_a(), &[])
}

pub fn image_b() -> Vec<u8> {
    image_in_two_parts(&mesh_a(), &[Name::new(2, 2)])
}

pub fn image_a_and_vertex_5() -> Vec<u8> {
    image_in_two_parts(&mesh_a_and_vertex_5(), &[])
}

/// Parts without a row.
pub fn empty_image(part_count: usize) -> Vec<u8> {
    let parts = vec![Vec::new(); part_count];
    image::write(&Set { parts })
}

// ---- the damaged sets of cases 9 to 11

fn set_b() -> Set {
    image::read(&image_b()).expect("B is well formed")
}

/// Case 9: the remote slot of vertex 2 in part 0 set from 0 to 1.
pub fn image_of_case_9() -> Vec<u8> {
    let mut set = set_b();
    set.parts[0][1].remote_slots[0] = 1;
    image::write(&set)
}

/// Case 10: the owner of edge 3 set to 1 in both parts.
pub fn image_of_case_10() -> Vec<u8> {
    let mut set = set_b();
    let rows = set.parts.iter_mut().flatten();
    for row in rows.filter(|row| row.name() == Name::new(1, 3)) {
        row.owner = 1;
    }
    image::write(&set)
}

/// Case 11: triangle 1 with its closure whole in both parts, all residence sets 3.
pub fn image_of_case_11() -> Vec<u8> {
    let mesh = mesh_of_triangle_1();
    let residence: Residence = mesh.entities.keys().map(|&name| (name, 3)).collect();
    image::write(&set_from(2, &mesh, &residence, &[1, 1]))
}
