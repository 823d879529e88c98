//! Inputs for measuring: a block of tetrahedra cut into compact parts, and a list that moves a
//! share of them to the next part.

use crate::image::LONGEST_IMAGE;
use crate::mesh::{Mesh, Name};
use crate::move_list::Entry;
use crate::random::builder::Builder;
use crate::random::families::block_of;
use crate::random::sample::Sample;
use crate::random::source::Random;
use crate::spread::Placement;
use std::collections::BTreeMap;

pub struct Benchmark {
    pub sample: Sample,
    pub moves: Vec<Entry>,
}

impl Benchmark {
    /// Every tetrahedron goes to the part after its own.
    pub fn all_moves(&self) -> Vec<Entry> {
        let next = |part: usize| (part + 1) % self.sample.part_count;
        let placement = self.sample.placement.iter();
        placement
            .map(|(&name, &part)| Entry::new(name, next(part)))
            .collect()
    }
}

/// A tetrahedron by its number and the middle of its corners.
#[derive(Clone, Copy)]
struct Element {
    number: u32,
    middle: [f64; 3],
}

/// As many tetrahedra as fit: the image into the given bytes, the moved image into the longest
/// one. None when not even the empty parts fit.
pub fn tetrahedra(part_count: usize, bytes: usize, moved_percent: usize) -> Option<Benchmark> {
    let bytes = bytes.min(LONGEST_IMAGE);
    let fits = |benchmark: &Benchmark| {
        benchmark.sample.length_after(&[]) <= bytes
            && benchmark.sample.length_after(&benchmark.moves) <= LONGEST_IMAGE
    };
    let make = |count: usize| benchmark_of(part_count, count, bytes, moved_percent);
    // No tetrahedron takes less than its own row and two new triangles in the long run.
    let (mut fitting, mut too_many) = (0, bytes / 144 + 8);
    while too_many - fitting > 1 {
        let middle = (fitting + too_many) / 2;
        match fits(&make(middle)) {
            true => fitting = middle,
            false => too_many = middle,
        }
    }
    Some(make(fitting)).filter(fits)
}

fn benchmark_of(part_count: usize, count: usize, bytes: usize, moved_percent: usize) -> Benchmark {
    let (mesh, elements) = block_of_elements(count, bytes);
    let parts = cut(elements, part_count);
    let mut placement = Placement::new();
    for (part, elements) in parts.iter().enumerate() {
        let names = elements.iter().map(|element| Name::new(3, element.number));
        placement.extend(names.map(|name| (name, part)));
    }
    let moves = moves_to_the_next(&parts, moved_percent);
    let sample = Sample {
        part_count,
        mesh,
        placement,
    };
    Benchmark { sample, moves }
}

/// The first so many tetrahedra of a block that is about as high and deep as it is long.
fn block_of_elements(count: usize, bytes: usize) -> (Mesh, Vec<Element>) {
    let mut random = Random::new(3);
    let mut builder = Builder::plain(&mut random);
    let side = ((bytes / 1250) as f64).cbrt().ceil().max(1.0) as usize;
    let long = count / (6 * side * side) + 1;
    let mut points = Vec::new();
    let corners = block_of([long, side, side], |point| {
        points.push(point);
        points.len() as u32 - 1
    });
    let mut vertices = BTreeMap::new();
    let mut elements = Vec::new();
    for corners in corners.into_iter().take(count) {
        let vertices = corners.map(|corner| {
            let point = points[corner as usize].map(f64::to_bits);
            *vertices
                .entry(corner)
                .or_insert_with(|| builder.vertex_at(point))
        });
        elements.push(Element {
            number: builder.tetrahedron(vertices),
            middle: middle_of(&corners.map(|corner| points[corner as usize])),
        });
    }
    (builder.mesh, elements)
}

fn middle_of(points: &[[f64; 3]]) -> [f64; 3] {
    let sum_on = |axis: usize| points.iter().map(|point| point[axis]).sum::<f64>();
    [0, 1, 2].map(|axis| sum_on(axis) / points.len() as f64)
}

fn middle_of_elements(elements: &[Element]) -> [f64; 3] {
    let middles: Vec<[f64; 3]> = elements.iter().map(|element| element.middle).collect();
    middle_of(&middles)
}

/// Cuts across the longest axis again and again, until each piece is one part.
fn cut(mut elements: Vec<Element>, part_count: usize) -> Vec<Vec<Element>> {
    if part_count == 1 {
        return vec![elements];
    }
    let axis = longest_axis(&elements);
    elements.sort_by(|one, two| one.middle[axis].total_cmp(&two.middle[axis]));
    let lower_count = part_count / 2;
    let upper = elements.split_off(elements.len() * lower_count / part_count);
    let mut parts = cut(elements, lower_count);
    parts.extend(cut(upper, part_count - lower_count));
    parts
}

fn longest_axis(elements: &[Element]) -> usize {
    let extent = |axis: usize| {
        let along = || elements.iter().map(|element| element.middle[axis]);
        along().fold(f64::MIN, f64::max) - along().fold(f64::MAX, f64::min)
    };
    (0..3)
        .max_by(|&one, &two| extent(one).total_cmp(&extent(two)))
        .expect("three axes")
}

/// Each part sends the given share of its elements, the nearest ones first, to the part after it.
fn moves_to_the_next(parts: &[Vec<Element>], percent: usize) -> Vec<Entry> {
    let mut moves = Vec::new();
    let mut seen = 0;
    for (part, elements) in parts.iter().enumerate() {
        // Counted over all parts so far, so that small parts round to the right share together.
        seen += elements.len();
        let due = seen * percent / 100 - moves.len();
        let next = (part + 1) % parts.len();
        let target = middle_of_elements(&parts[next]);
        let mut nearest = elements.clone();
        nearest.sort_by(|one, two| {
            distance(one.middle, target).total_cmp(&distance(two.middle, target))
        });
        nearest.truncate(due);
        let names = nearest.iter().map(|element| Name::new(3, element.number));
        moves.extend(names.map(|name| Entry::new(name, next)));
    }
    moves.sort_by_key(|entry| entry.name);
    moves
}

/// The square of the distance, which orders as the distance does.
fn distance(one: [f64; 3], two: [f64; 3]) -> f64 {
    (0..3).map(|axis| (one[axis] - two[axis]).powi(2)).sum()
}
