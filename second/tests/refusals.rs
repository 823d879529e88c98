//! Every refusal number at least once, with its place; 7 to 10 in several ways each.

use second::image::{self, Row, Set};
use second::mesh::{Entity, Mesh, Name, Shape, Value};
use second::move_list::{self, Entry};
use second::random::builder::Builder;
use second::random::families::book_of;
use second::random::lists;
use second::random::sample::Sample;
use second::random::source::Random;
use second::small::*;
use second::spread::{spread, Placement};
use second::{boxed, check, lookup, migrate, Refusal};

const PLENTY: usize = 1 << 20;

fn refusal(number: u32, major: u32, minor: u32) -> Refusal {
    Refusal {
        number,
        major,
        minor,
    }
}

fn assert_refused(image: &[u8], number: u32, major: u32, minor: u32) {
    assert_eq!(check(image), Err(refusal(number, major, minor)));
}

fn changed_bytes(mut image: Vec<u8>, change: impl Fn(&mut Vec<u8>)) -> Vec<u8> {
    change(&mut image);
    image
}

/// B after a change of its rows. Part 0 holds vertices 1 2 3, edges 1 2 3, triangle 1; part 1
/// holds vertices 2 3 4, edges 3 4 5, triangle 2.
fn changed_b(change: impl Fn(&mut Set)) -> Vec<u8> {
    let mut set = image::read(&image_b()).expect("well formed");
    change(&mut set);
    image::write(&set)
}

fn changed_row(part: usize, slot: usize, change: impl Fn(&mut Row)) -> Vec<u8> {
    changed_b(|set| change(&mut set.parts[part][slot]))
}

// ---- 1 to 6: the image as a whole

#[test]
fn refusal_1_too_long() {
    assert_refused(&vec![0; 1_048_577], 1, 0, 0);
    assert_refused(&vec![0; 1_048_576], 3, 0, 0);
}

#[test]
fn refusal_2_too_short() {
    assert_refused(&[], 2, 0, 0);
    assert_refused(b"DMP\x01\x00\x01\x00", 2, 0, 0);
}

#[test]
fn refusal_3_mark() {
    for place in 0..3 {
        assert_refused(
            &changed_bytes(image_b(), |image| image[place] ^= 32),
            3,
            0,
            0,
        );
    }
}

#[test]
fn refusal_4_version() {
    assert_refused(&changed_bytes(image_b(), |image| image[3] = 2), 4, 0, 0);
    assert_refused(&changed_bytes(image_b(), |image| image[4] = 1), 4, 0, 0);
}

#[test]
fn refusal_5_part_count_and_header_zeros() {
    for (place, byte) in [(5, 0), (5, 65), (6, 1), (7, 1)] {
        assert_refused(
            &changed_bytes(image_b(), |image| image[place] = byte),
            5,
            0,
            0,
        );
    }
}

#[test]
fn refusal_6_counts_and_rows() {
    assert_refused(&changed_bytes(image_b(), |image| image.push(0)), 6, 0, 0);
    assert_refused(
        &changed_bytes(image_b(), |image| image.truncate(711)),
        6,
        0,
        0,
    );
    assert_refused(&changed_bytes(image_b(), |image| image[8] = 6), 6, 0, 0);
    assert_refused(&changed_bytes(image_b(), |image| image[11] = 255), 6, 0, 0);
    // Cut before the first row's residence set, and before the second part's count.
    assert_refused(&image_b()[..19], 6, 0, 0);
    assert_refused(&empty_image(2)[..12], 6, 0, 0);
    // A row that says more remote copies than it has.
    assert_refused(&changed_row(1, 6, |row| row.residence = 3), 6, 0, 0);
}

// ---- 7: fields

#[test]
fn refusal_7_dimension_kind_and_zero() {
    assert_refused(&changed_row(0, 2, |row| row.dimension = 4), 7, 0, 2);
    assert_refused(&changed_row(1, 6, |row| row.kind = 3), 7, 1, 6);
    assert_refused(&changed_row(0, 0, |row| row.zero = 1), 7, 0, 0);
}

#[test]
fn refusal_7_value_outside_its_kind() {
    assert_refused(&changed_row(0, 4, |row| row.value = 1), 7, 0, 4);
    let real = |bits: u64| changed_row(0, 6, |row| (row.kind, row.value) = (2, bits));
    assert_refused(&real(f64::INFINITY.to_bits()), 7, 0, 6);
    assert_refused(&real(f64::NAN.to_bits()), 7, 0, 6);
    assert_eq!(
        check(&real((-0.0f64).to_bits())).map(|checked| checked.rows),
        Ok(14)
    );
}

#[test]
fn refusal_7_body() {
    let infinite = [0.0, 0.0, f64::NEG_INFINITY].map(f64::to_bits);
    assert_refused(
        &changed_row(1, 2, |row| row.set_coordinates(infinite)),
        7,
        1,
        2,
    );
    assert_refused(&changed_row(0, 3, |row| row.body[8] = 1), 7, 0, 3);
    assert_refused(&changed_row(0, 6, |row| row.body[23] = 1), 7, 0, 6);
}

#[test]
fn refusal_7_parts_that_are_not_there() {
    assert_refused(&changed_row(0, 5, |row| row.owner = 2), 7, 0, 5);
    assert_refused(&changed_row(0, 1, |row| row.residence = 5), 7, 0, 1);
    assert_refused(&changed_row(0, 0, |row| row.residence = 1 << 63), 7, 0, 0);
}

#[test]
fn refusal_7_own_bit() {
    assert_refused(&changed_row(0, 0, |row| row.residence = 2), 7, 0, 0);
    assert_refused(&changed_row(1, 2, |row| row.residence = 0), 7, 1, 2);
}

#[test]
fn refusal_7_comes_before_8_wherever_it_is() {
    let image = changed_b(|set| {
        set.parts[0].swap(0, 1);
        set.parts[1][6].zero = 9;
    });
    assert_refused(&image, 7, 1, 6);
}

// ---- 8: order

#[test]
fn refusal_8_rows_not_ascending() {
    assert_refused(&changed_b(|set| set.parts[0].swap(3, 4)), 8, 0, 4);
    assert_refused(&changed_b(|set| set.parts[1].swap(2, 3)), 8, 1, 3);
    assert_refused(&changed_row(1, 5, |row| row.number = 4), 8, 1, 5);
    assert_refused(&changed_row(0, 0, |row| row.number = u32::MAX), 8, 0, 1);
}

// ---- 9: boundary

#[test]
fn refusal_9_slots_out_of_range_or_out_of_order() {
    assert_refused(
        &changed_row(0, 3, |row| row.set_boundary_slots(&[0, 7])),
        9,
        0,
        3,
    );
    assert_refused(
        &changed_row(0, 3, |row| row.set_boundary_slots(&[0, u32::MAX])),
        9,
        0,
        3,
    );
    assert_refused(
        &changed_row(1, 3, |row| row.set_boundary_slots(&[1, 0])),
        9,
        1,
        3,
    );
    assert_refused(
        &changed_row(1, 3, |row| row.set_boundary_slots(&[1, 1])),
        9,
        1,
        3,
    );
}

#[test]
fn refusal_9_slots_of_the_wrong_dimension() {
    assert_refused(
        &changed_row(0, 4, |row| row.set_boundary_slots(&[0, 3])),
        9,
        0,
        4,
    );
    assert_refused(
        &changed_row(0, 6, |row| row.set_boundary_slots(&[2, 3, 4])),
        9,
        0,
        6,
    );
}

#[test]
fn refusal_9_edges_that_make_no_triangle() {
    // Edge 1 from vertex 1 to vertex 3 doubles edge 2: the fault is the triangle's.
    assert_refused(
        &changed_row(0, 3, |row| row.set_boundary_slots(&[0, 2])),
        9,
        0,
        6,
    );
}

fn image_in_one_part(mesh: &Mesh) -> Vec<u8> {
    let objects = mesh.partition_objects().into_iter();
    let placement: Placement = objects.map(|object| (object, 0)).collect();
    image::write(&spread(1, mesh, &placement))
}

#[test]
fn a_tetrahedron_is_sound() {
    let mut random = Random::new(1);
    let mut builder = Builder::new(&mut random);
    let v = builder.vertices(4);
    builder.tetrahedron([v[0], v[1], v[2], v[3]]);
    let checked = check(&image_in_one_part(&builder.mesh));
    assert_eq!(checked.map(|checked| checked.rows), Ok(15));
}

/// Vertices 0 to 3 and four triangles on all triples; the pairs say which vertices the edges
/// join, and the triples which edges the triangles have.
fn tetrahedron_image(pairs: &[[u32; 2]], triples: &[[u32; 3]; 4]) -> Vec<u8> {
    let mut mesh = Mesh::default();
    let mut add = |dimension: u8, number: usize, shape: Shape| {
        let value = Value::Nothing;
        let name = Name::new(dimension, number as u32);
        mesh.entities.insert(name, Entity { value, shape });
    };
    for vertex in 0..4 {
        add(0, vertex, Shape::Point([0; 3]));
    }
    for (number, pair) in pairs.iter().enumerate() {
        add(1, number, Shape::Boundary(pair.to_vec()));
    }
    for (number, triple) in triples.iter().enumerate() {
        add(2, number, Shape::Boundary(triple.to_vec()));
    }
    add(3, 0, Shape::Boundary(vec![0, 1, 2, 3]));
    image_in_one_part(&mesh)
}

const SIX_PAIRS: [[u32; 2]; 6] = [[0, 1], [0, 2], [0, 3], [1, 2], [1, 3], [2, 3]];

#[test]
fn refusal_9_triangles_that_share_vertices_but_no_edge() {
    let pairs_of = |[a, b, c]: [u32; 3]| [[a, b], [a, c], [b, c]];
    let corners = [[0, 1, 2], [0, 1, 3], [0, 2, 3], [1, 2, 3]];
    let pairs = corners.map(pairs_of).concat();
    let triples = [[0, 1, 2], [3, 4, 5], [6, 7, 8], [9, 10, 11]];
    let image = tetrahedron_image(&pairs, &triples);
    // Four vertices, twelve edges, four triangles: the tetrahedron is the row after them.
    assert_refused(&image, 9, 0, 20);
}

#[test]
fn refusal_9_one_edge_of_a_tetrahedron_doubled() {
    let mut pairs = SIX_PAIRS.to_vec();
    let sound = [[0, 1, 3], [0, 2, 4], [1, 2, 5], [3, 4, 5]];
    assert!(check(&tetrahedron_image(&pairs, &sound)).is_ok());
    pairs.push([0, 1]);
    let doubled = [[0, 1, 3], [2, 4, 6], [1, 2, 5], [3, 4, 5]];
    assert_refused(&tetrahedron_image(&pairs, &doubled), 9, 0, 15);
}

#[test]
fn refusal_9_two_triangles_of_a_tetrahedron_on_the_same_vertices() {
    let doubled = [[0, 1, 3], [0, 1, 3], [1, 2, 5], [3, 4, 5]];
    assert_refused(&tetrahedron_image(&SIX_PAIRS, &doubled), 9, 0, 14);
}

// ---- 10: copies

#[test]
fn refusal_10_remote_slot() {
    assert_refused(&changed_row(0, 5, |row| row.remote_slots[0] = 4), 10, 0, 5);
    assert_refused(&changed_row(0, 5, |row| row.remote_slots[0] = 7), 10, 0, 5);
    // The row that is no longer named back comes first.
    assert_refused(&changed_row(1, 1, |row| row.remote_slots[0] = 6), 10, 0, 2);
}

#[test]
fn refusal_10_copies_that_differ() {
    let minus_zero = [1.0, -0.0, 0.0].map(f64::to_bits);
    assert_refused(
        &changed_row(1, 0, |row| row.set_coordinates(minus_zero)),
        10,
        0,
        1,
    );
    assert_refused(&changed_row(0, 1, |row| row.kind = 1), 10, 0, 1);
    assert_refused(
        &changed_row(1, 3, |row| (row.kind, row.value) = (1, 7)),
        10,
        0,
        5,
    );
    assert_refused(&changed_row(1, 3, |row| row.owner = 1), 10, 0, 5);
}

#[test]
fn refusal_10_boundaries_that_differ() {
    // Vertices 1 2 3 and edge 1, all in both parts against rule 11, which is judged later.
    let lone_edge = lone_edge_with_three_vertices();
    let mut set = image::read(&image_of_both(&lone_edge)).expect("well formed");
    assert_refused(&image::write(&set), 11, 0, 2);
    set.parts[1][3].set_boundary_slots(&[0, 2]);
    assert_refused(&image::write(&set), 10, 0, 3);
}

fn image_of_both(mesh: &Mesh) -> Vec<u8> {
    let residence = mesh.entities.keys().map(|&name| (name, 3)).collect();
    image::write(&second::spread::set_from(2, mesh, &residence, &[1, 1]))
}

fn lone_edge_with_three_vertices() -> Mesh {
    let mut mesh = mesh_a();
    mesh.entities.retain(|name, _| *name <= Name::new(1, 1));
    mesh.entities.remove(&Name::new(0, 4));
    mesh
}

#[test]
fn refusal_10_an_entity_missing_from_the_set() {
    let alone = |row: &mut Row, part: usize| {
        row.residence = 1 << part;
        row.remote_slots.clear();
    };
    // Both say that they are alone; one says so; the first row of the entity is the place.
    let both = changed_b(|set| {
        alone(&mut set.parts[0][5], 0);
        alone(&mut set.parts[1][3], 1);
    });
    assert_refused(&both, 10, 0, 5);
    assert_refused(&changed_row(0, 1, |row| alone(row, 0)), 10, 0, 1);
    assert_refused(&changed_row(1, 0, |row| alone(row, 1)), 10, 0, 1);
}

// ---- 11 and 12: residence and owner

#[test]
fn refusal_11_residence() {
    assert_refused(&image_of_case_11(), 11, 0, 6);
    // A part holds a vertex that bounds nothing there.
    let mesh = mesh_of_triangle_1();
    let mut residence: second::spread::Residence =
        mesh.entities.keys().map(|&name| (name, 1)).collect();
    residence.insert(Name::new(0, 2), 3);
    let set = second::spread::set_from(2, &mesh, &residence, &[1, 0]);
    assert_refused(&image::write(&set), 11, 0, 1);
}

#[test]
fn refusal_12_owner() {
    assert_refused(&image_of_case_10(), 12, 0, 5);
    // A part that is there but not in the residence set.
    assert_refused(&changed_row(0, 0, |row| row.owner = 1), 12, 0, 0);
}

// ---- 13 to 16: the list

fn refused_list(list: &[u8]) -> Refusal {
    migrate(&image_b(), list, PLENTY, PLENTY).expect_err("refused")
}

fn list(entries: &[(u8, u32, usize)]) -> Vec<u8> {
    let entry = |&(dimension, number, part): &(u8, u32, usize)| {
        Entry::new(Name::new(dimension, number), part)
    };
    move_list::write(&entries.iter().map(entry).collect::<Vec<_>>())
}

#[test]
fn refusal_13_form_of_the_list() {
    let both = list(&[(2, 1, 1), (2, 2, 0)]);
    assert_eq!(refused_list(&both[..15]), refusal(13, 1, 0));
    assert_eq!(refused_list(&both[..1]), refusal(13, 0, 0));
    let zeros = |place: usize| changed_bytes(both.clone(), |list| list[place] = 1);
    assert_eq!(refused_list(&zeros(6)), refusal(13, 0, 0));
    assert_eq!(refused_list(&zeros(15)), refusal(13, 1, 0));
    assert_eq!(refused_list(&list(&[(4, 0, 0)])), refusal(13, 0, 0));
    assert_eq!(
        refused_list(&list(&[(2, 2, 0), (2, 1, 1)])),
        refusal(13, 1, 0)
    );
    assert_eq!(
        refused_list(&list(&[(2, 1, 0), (2, 1, 1)])),
        refusal(13, 1, 0)
    );
    assert_eq!(
        refused_list(&list(&[(2, 1, 0), (1, 9, 1)])),
        refusal(13, 1, 0)
    );
}

#[test]
fn refusals_14_to_16_pass_one_number_before_the_next() {
    assert_eq!(
        refused_list(&list(&[(2, 1, 1), (2, 2, 2)])),
        refusal(14, 1, 0)
    );
    assert_eq!(
        refused_list(&list(&[(1, 3, 0), (2, 9, 1)])),
        refusal(15, 1, 0)
    );
    assert_eq!(
        refused_list(&list(&[(1, 3, 0), (2, 9, 64)])),
        refusal(14, 1, 0)
    );
    assert_eq!(
        refused_list(&list(&[(1, 3, 0), (2, 1, 1)])),
        refusal(16, 0, 0)
    );
}

// ---- 17 to 21

#[test]
fn refusal_17_working_buffer() {
    let short = migrate(&image_b(), &[], 0, 13);
    assert_eq!(short, Err(refusal(17, 0, 0)));
    // An empty list needs its buffers too.
    assert_eq!(migrate(&image_b(), &[], 711, 14), Err(refusal(19, 0, 0)));
    assert!(migrate(&image_b(), &[], 712, 14).is_ok());
}

/// Tetrahedra with the same boundaries: small in one part, too long when dealt out.
#[test]
fn refusal_18_result_too_long() {
    let mut random = Random::new(18);
    let mut builder = Builder::new(&mut random);
    for _ in 0..16 {
        book_of(&mut builder, 64);
    }
    let mesh = builder.mesh;
    let objects = mesh.partition_objects().into_iter();
    let sample = Sample {
        part_count: 64,
        placement: objects.map(|object| (object, 0)).collect(),
        mesh,
    };
    let (image, list) = (sample.image(), move_list::write(&lists::dealt(&sample)));
    assert_eq!(migrate(&image, &list, 0, PLENTY), Err(refusal(18, 0, 0)));
    assert_eq!(migrate(&image, &list, 0, 0), Err(refusal(17, 0, 0)));
}

#[test]
fn refusal_19_output_buffer() {
    let to_b = list(&[(2, 2, 1)]);
    assert_eq!(migrate(&image_a(), &to_b, 711, 11), Err(refusal(19, 0, 0)));
}

#[test]
fn refusal_20_box_of_no_part() {
    assert_eq!(boxed(&image_b(), 2), Err(refusal(20, 0, 0)));
    assert_eq!(boxed(&image_b(), u32::MAX), Err(refusal(20, 0, 0)));
    assert_eq!(boxed(&image_of_case_9(), 2), Err(refusal(10, 0, 1)));
}

#[test]
fn refusal_21_lookup_of_nothing() {
    assert_eq!(lookup(&image_b(), 1, 6), Err(refusal(21, 0, 0)));
    assert_eq!(lookup(&image_b(), 3, 1), Err(refusal(21, 0, 0)));
    assert_eq!(lookup(&image_b(), 4, 1), Err(refusal(21, 0, 0)));
    assert_eq!(lookup(&image_of_case_10(), 4, 1), Err(refusal(12, 0, 5)));
}
