//! Boxes about numbers that are equal but not alike, and about numbers far from zero.

use second::boxed;
use second::image;
use second::mesh::{Entity, Mesh, Name, Shape, Value};
use second::spread::{spread, Placement};

fn box_of(points: &[[f64; 3]]) -> ([f64; 3], [f64; 3]) {
    let mut mesh = Mesh::default();
    for (number, point) in points.iter().enumerate() {
        let shape = Shape::Point(point.map(f64::to_bits));
        let value = Value::Nothing;
        let name = Name::new(0, number as u32);
        mesh.entities.insert(name, Entity { value, shape });
    }
    let objects = mesh.partition_objects().into_iter();
    let placement: Placement = objects.map(|object| (object, 0)).collect();
    let image = image::write(&spread(1, &mesh, &placement));
    let bounds = boxed(&image, 0).expect("sound").expect("vertices");
    (
        bounds.least.map(f64::from_bits),
        bounds.greatest.map(f64::from_bits),
    )
}

fn bits(point: [f64; 3]) -> [u64; 3] {
    point.map(f64::to_bits)
}

#[test]
fn the_earlier_zero_stays() {
    let (least, greatest) = box_of(&[[-0.0, 0.0, -0.0], [0.0, -0.0, 1.0]]);
    assert_eq!(bits(least), bits([-0.0, 0.0, -0.0]));
    assert_eq!(bits(greatest), bits([-0.0, 0.0, 1.0]));
}

#[test]
fn each_of_the_six_numbers_goes_by_itself() {
    let (least, greatest) = box_of(&[[-1.0, 0.0, 2.0], [0.0, -5e-324, 3.0], [-0.0, 0.0, 2.0]]);
    assert_eq!(bits(least), bits([-1.0, -5e-324, 2.0]));
    assert_eq!(bits(greatest), bits([0.0, 0.0, 3.0]));
}

#[test]
fn the_box_starts_at_the_first_vertex() {
    let (least, greatest) = box_of(&[[5.0, -7.0, f64::MAX], [6.0, -8.0, f64::MAX]]);
    assert_eq!(bits(least), bits([5.0, -8.0, f64::MAX]));
    assert_eq!(bits(greatest), bits([6.0, -7.0, f64::MAX]));
}
