//! Rule 9, Boundary: a row of dimension d names d+1 rows that make a simplex.

use super::refuse_first;
use crate::image::{Row, Set};
use crate::refusal::Refusal;

/// Rows are judged in slot order and a boundary stands in earlier slots (rule 8), so the
/// boundary of the row at hand is known to be kept by the time its vertices are collected.
pub fn judge(set: &Set) -> Result<(), Refusal> {
    refuse_first(9, set, |part, _, row| {
        let rows = &set.parts[part];
        row.dimension > 0 && !(names_the_dimension_below(rows, row) && makes_a_simplex(rows, row))
    })
}

fn names_the_dimension_below(rows: &[Row], row: &Row) -> bool {
    let slots = row.boundary_slots();
    let ascending = slots.windows(2).all(|pair| pair[0] < pair[1]);
    let is_below = |&slot: &u32| {
        rows.get(slot as usize)
            .is_some_and(|face| face.dimension + 1 == row.dimension)
    };
    ascending && slots.iter().all(is_below)
}

/// d+1 different faces of d vertices each, over d+1 vertices together, are all the faces of one
/// simplex. In a tetrahedron each two triangles share one edge besides.
fn makes_a_simplex(rows: &[Row], row: &Row) -> bool {
    let corner_count = row.dimension as usize + 1;
    let mut faces = faces_as_vertices(rows, row);
    faces.sort();
    faces.dedup();
    let mut corners = faces.concat();
    corners.sort();
    corners.dedup();
    faces.len() == corner_count
        && corners.len() == corner_count
        && (row.dimension < 3 || each_two_share_one_edge(rows, row))
}

fn faces_as_vertices(rows: &[Row], row: &Row) -> Vec<Vec<u32>> {
    row.boundary_slots()
        .into_iter()
        .map(|slot| vertices(rows, slot))
        .collect()
}

/// The vertex slots in the closure of the row at a slot, ascending, each once.
fn vertices(rows: &[Row], slot: u32) -> Vec<u32> {
    let row = &rows[slot as usize];
    if row.dimension == 0 {
        return vec![slot];
    }
    let mut vertices = faces_as_vertices(rows, row).concat();
    vertices.sort();
    vertices.dedup();
    vertices
}

fn each_two_share_one_edge(rows: &[Row], tetrahedron: &Row) -> bool {
    let edges_of: Vec<Vec<u32>> = tetrahedron
        .boundary_slots()
        .into_iter()
        .map(|slot| rows[slot as usize].boundary_slots())
        .collect();
    let shared =
        |one: &Vec<u32>, two: &Vec<u32>| one.iter().filter(|edge| two.contains(edge)).count();
    (0..4).all(|one| (0..one).all(|two| shared(&edges_of[one], &edges_of[two]) == 1))
}
