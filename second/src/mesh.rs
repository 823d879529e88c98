//! The whole mesh, apart from parts: names, values, boundaries, closures (document 01, "What we build").

use crate::image::{Row, Set};
use std::collections::{BTreeMap, BTreeSet};

/// An entity is named by its dimension and its number; names ascend in that order.
#[derive(Clone, Copy, Debug, PartialEq, Eq, PartialOrd, Ord)]
pub struct Name {
    pub dimension: u8,
    pub number: u32,
}

/// A value is nothing, a whole number or a finite real, the real kept by its bits.
#[derive(Clone, Copy, Debug, PartialEq, Eq)]
pub enum Value {
    Nothing,
    Whole(u64),
    Real { bits: u64 },
}

/// What a body says: coordinates by their bits, or the numbers of the boundary, one dimension lower.
#[derive(Clone, Debug, PartialEq, Eq)]
pub enum Shape {
    Point([u64; 3]),
    Boundary(Vec<u32>),
}

#[derive(Clone, Debug, PartialEq, Eq)]
pub struct Entity {
    pub value: Value,
    pub shape: Shape,
}

#[derive(Clone, Debug, Default, PartialEq, Eq)]
pub struct Mesh {
    pub entities: BTreeMap<Name, Entity>,
}

impl Name {
    pub fn new(dimension: u8, number: u32) -> Name {
        Name { dimension, number }
    }
}

impl Value {
    /// The kind byte and the eight value bytes of a row.
    pub fn fields(self) -> (u8, u64) {
        match self {
            Value::Nothing => (0, 0),
            Value::Whole(number) => (1, number),
            Value::Real { bits } => (2, bits),
        }
    }

    /// The value of a row that passed rule 7.
    fn of(row: &Row) -> Value {
        match row.kind {
            0 => Value::Nothing,
            1 => Value::Whole(row.value),
            _ => Value::Real { bits: row.value },
        }
    }
}

impl Mesh {
    /// The mesh of a sound set: any row of an entity says all about it.
    pub fn of(set: &Set) -> Mesh {
        let mut entities = BTreeMap::new();
        for (part, rows) in set.parts.iter().enumerate() {
            for row in rows {
                entities.entry(row.name()).or_insert_with(|| Entity {
                    value: Value::of(row),
                    shape: shape_of(set, part, row),
                });
            }
        }
        Mesh { entities }
    }

    pub fn boundary(&self, name: Name) -> Vec<Name> {
        match &self.entities[&name].shape {
            Shape::Point(_) => Vec::new(),
            Shape::Boundary(numbers) => numbers
                .iter()
                .map(|&number| Name::new(name.dimension - 1, number))
                .collect(),
        }
    }

    /// The closure: the entity itself and the closures of its boundary.
    pub fn closure(&self, name: Name) -> BTreeSet<Name> {
        let mut closure = BTreeSet::from([name]);
        for face in self.boundary(name) {
            closure.append(&mut self.closure(face));
        }
        closure
    }

    /// The partition objects: the entities on the boundary of none.
    pub fn partition_objects(&self) -> BTreeSet<Name> {
        let mut objects: BTreeSet<Name> = self.entities.keys().copied().collect();
        for &name in self.entities.keys() {
            for face in self.boundary(name) {
                objects.remove(&face);
            }
        }
        objects
    }
}

fn shape_of(set: &Set, part: usize, row: &Row) -> Shape {
    if row.dimension == 0 {
        return Shape::Point(row.coordinates());
    }
    let boundary = set.boundary_names(part, row);
    Shape::Boundary(boundary.iter().map(|face| face.number).collect())
}
