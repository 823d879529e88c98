//! Builds random meshes simplex by simplex, so that every boundary is kept unless we ask otherwise.

use super::source::Random;
use crate::mesh::{Entity, Mesh, Name, Shape, Value};
use std::collections::BTreeMap;

/// How fresh numbers of one dimension are chosen.
#[derive(Clone, Copy)]
enum Numbering {
    Upwards,
    Downwards,
    Anywhere,
    Crowded,
}

/// A mesh that grows, with what is needed to find an entity by its boundary again.
pub struct Builder<'r> {
    pub mesh: Mesh,
    pub random: &'r mut Random,
    /// How often, in percent, an entity is made anew although its boundary has one already.
    pub doubling: usize,
    /// How often, in percent, a number is 0 or the greatest if that is free.
    extremes: usize,
    numbering: [Numbering; 4],
    made: [u32; 4],
    by_boundary: BTreeMap<(u8, Vec<u32>), Vec<u32>>,
}

impl<'r> Builder<'r> {
    pub fn new(random: &'r mut Random) -> Builder<'r> {
        let styles = [
            Numbering::Upwards,
            Numbering::Downwards,
            Numbering::Anywhere,
            Numbering::Crowded,
        ];
        let numbering = [(); 4].map(|_| random.pick(&styles));
        let doubling = random.pick(&[0, 0, 0, 10, 40]);
        Builder {
            mesh: Mesh::default(),
            random,
            doubling,
            extremes: 3,
            numbering,
            made: [0; 4],
            by_boundary: BTreeMap::new(),
        }
    }

    /// A builder that numbers upwards from 1 and doubles nothing.
    pub fn plain(random: &'r mut Random) -> Builder<'r> {
        Builder {
            doubling: 0,
            extremes: 0,
            numbering: [Numbering::Upwards; 4],
            ..Builder::new(random)
        }
    }

    // ---- numbers and values

    /// A number that this dimension has not used; 0 and the greatest come up often.
    fn fresh_number(&mut self, dimension: u8) -> u32 {
        let made = self.made[dimension as usize];
        self.made[dimension as usize] += 1;
        loop {
            let number = match self.numbering[dimension as usize] {
                _ if self.random.chance(self.extremes) => self.random.pick(&[0, u32::MAX]),
                Numbering::Upwards => made + 1,
                Numbering::Downwards => u32::MAX - made - 1,
                Numbering::Anywhere => self.random.word() as u32,
                Numbering::Crowded => self.random.below(3 * made as usize + 3) as u32,
            };
            let name = Name::new(dimension, number);
            if !self.mesh.entities.contains_key(&name) {
                return number;
            }
        }
    }

    fn value(&mut self) -> Value {
        match self.random.below(5) {
            0 => Value::Whole(self.random.pick(&[0, 1, 42, u64::MAX])),
            1 => Value::Whole(self.random.word()),
            2 => Value::Real {
                bits: self.random.finite_bits(),
            },
            _ => Value::Nothing,
        }
    }

    fn insert(&mut self, dimension: u8, shape: Shape) -> u32 {
        let number = self.fresh_number(dimension);
        let value = self.value();
        let entity = Entity { value, shape };
        self.mesh
            .entities
            .insert(Name::new(dimension, number), entity);
        number
    }

    // ---- sound simplices

    pub fn vertex(&mut self) -> u32 {
        let point = [(); 3].map(|_| self.random.finite_bits());
        self.vertex_at(point)
    }

    pub fn vertex_at(&mut self, point: [u64; 3]) -> u32 {
        self.insert(0, Shape::Point(point))
    }

    pub fn vertices(&mut self, count: usize) -> Vec<u32> {
        (0..count).map(|_| self.vertex()).collect()
    }

    /// A new entity, even where one with this boundary stands already.
    pub fn anew(&mut self, dimension: u8, boundary: &[u32]) -> u32 {
        let mut boundary = boundary.to_vec();
        boundary.sort();
        let number = self.insert(dimension, Shape::Boundary(boundary.clone()));
        let known = self.by_boundary.entry((dimension, boundary));
        known.or_default().push(number);
        number
    }

    /// An entity with this boundary: one that stands there, or a new one.
    fn on(&mut self, dimension: u8, boundary: &[u32]) -> u32 {
        let mut sorted = boundary.to_vec();
        sorted.sort();
        let known = self.by_boundary.get(&(dimension, sorted)).cloned();
        match known {
            Some(numbers) if !self.random.chance(self.doubling) => self.random.pick(&numbers),
            _ => self.anew(dimension, boundary),
        }
    }

    pub fn edge(&mut self, [a, b]: [u32; 2]) -> u32 {
        self.on(1, &[a, b])
    }

    pub fn triangle(&mut self, [a, b, c]: [u32; 3]) -> u32 {
        let edges = [[a, b], [a, c], [b, c]].map(|pair| self.edge(pair));
        self.on(2, &edges)
    }

    /// Six edges first and four triangles over them, so that each two triangles share one.
    pub fn tetrahedron(&mut self, [a, b, c, d]: [u32; 4]) -> u32 {
        let pairs = [[a, b], [a, c], [a, d], [b, c], [b, d], [c, d]];
        let [ab, ac, ad, bc, bd, cd] = pairs.map(|pair| self.edge(pair));
        let triples = [[ab, ac, bc], [ab, ad, bd], [ac, ad, cd], [bc, bd, cd]];
        let triangles = triples.map(|edges| self.on(2, &edges));
        self.on(3, &triangles)
    }

    /// The simplex on one to four vertices.
    pub fn simplex(&mut self, corners: &[u32]) {
        match *corners {
            [a, b] => self.edge([a, b]),
            [a, b, c] => self.triangle([a, b, c]),
            [a, b, c, d] => self.tetrahedron([a, b, c, d]),
            _ => return,
        };
    }

    // ---- unsound simplices, for refusal 9

    /// Three edges that are not the three pairs of three vertices.
    pub fn bad_triangle(&mut self) -> u32 {
        let v = self.vertices(6);
        let pairs = match self.random.below(5) {
            0 => [[v[0], v[1]], [v[0], v[1]], [v[1], v[2]]],
            1 => [[v[0], v[1]], [v[0], v[1]], [v[0], v[1]]],
            2 => [[v[0], v[1]], [v[1], v[2]], [v[2], v[3]]],
            3 => [[v[0], v[1]], [v[0], v[2]], [v[0], v[3]]],
            _ => [[v[0], v[1]], [v[2], v[3]], [v[4], v[5]]],
        };
        let edges = pairs.map(|pair| self.anew(1, &pair));
        self.anew(2, &edges)
    }

    /// Four triangles with the right vertices but not the right edges, or with wrong vertices.
    pub fn bad_tetrahedron(&mut self) -> u32 {
        let v = self.vertices(5);
        match self.random.below(4) {
            0 => self.tetrahedron_without_shared_edges(&v),
            1 => self.tetrahedron_with_one_edge_doubled(&v),
            2 => {
                let triples = [[v[0], v[1], v[2]], [v[0], v[1], v[3]], [v[0], v[2], v[3]]];
                let mut triangles = triples.map(|triple| self.triangle(triple)).to_vec();
                let doubled = self.new_triangle([v[0], v[1], v[2]]);
                triangles.push(doubled);
                self.anew(3, &triangles)
            }
            _ => {
                let (a, b, c, d, e) = (v[0], v[1], v[2], v[3], v[4]);
                let triples = [[a, b, c], [a, b, d], [a, c, d], [b, c, e]];
                let triangles = triples.map(|triple| self.new_triangle(triple));
                self.anew(3, &triangles)
            }
        }
    }

    fn new_triangle(&mut self, [a, b, c]: [u32; 3]) -> u32 {
        let edges = [[a, b], [a, c], [b, c]].map(|pair| self.edge(pair));
        self.anew(2, &edges)
    }

    /// Four triangles that share vertices but no edge: twelve edges in all.
    fn tetrahedron_without_shared_edges(&mut self, v: &[u32]) -> u32 {
        let (a, b, c, d) = (v[0], v[1], v[2], v[3]);
        let triples = [[a, b, c], [a, b, d], [a, c, d], [b, c, d]];
        let triangles = triples.map(|[p, q, r]| {
            let edges = [[p, q], [p, r], [q, r]].map(|pair| self.anew(1, &pair));
            self.anew(2, &edges)
        });
        self.anew(3, &triangles)
    }

    /// Sound but for one edge: two triangles that should share it have one each.
    fn tetrahedron_with_one_edge_doubled(&mut self, v: &[u32]) -> u32 {
        let (a, b, c, d) = (v[0], v[1], v[2], v[3]);
        let pairs = [[a, b], [a, c], [a, d], [b, c], [b, d], [c, d], [a, b]];
        let [ab, ac, ad, bc, bd, cd, ab_again] = pairs.map(|pair| self.anew(1, &pair));
        let triples = [[ab, ac, bc], [ab_again, ad, bd], [ac, ad, cd], [bc, bd, cd]];
        let triangles = triples.map(|edges| self.anew(2, &edges));
        self.anew(3, &triangles)
    }
}
