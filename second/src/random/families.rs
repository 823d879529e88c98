//! Families of meshes: paths, sheets, blocks, soups, books and lone entities, alone and mixed.

use super::builder::Builder;
use crate::mesh::Name;

/// A family that is added to a mesh; the number says about how many simplices.
pub type Family = fn(&mut Builder, usize);

pub const FAMILIES: [Family; 8] = [
    path,
    sheet,
    block,
    soup,
    book,
    fan,
    lone_entities,
    lone_vertices,
];

/// Families whose size in bytes stays near 48 a row when they are cut into a few ranges.
pub const LOCAL_FAMILIES: [Family; 5] = [path, sheet, block, lone_entities, lone_vertices];

/// Adds one family, or several of them side by side with a few simplices across.
pub fn add_some(builder: &mut Builder, families: &[Family], size: usize) {
    let family_count = builder.random.pick(&[1, 1, 1, 2, 3]);
    for _ in 0..family_count {
        let family = builder.random.pick(families);
        family(builder, size / family_count + 1);
    }
    if family_count > 1 {
        let everyone = vertex_numbers(builder);
        add_across(builder, &everyone, size / 20 + 1);
    }
}

fn vertex_numbers(builder: &Builder) -> Vec<u32> {
    let names = builder.mesh.entities.keys();
    names
        .filter(|name| name.dimension == 0)
        .map(|name| name.number)
        .collect()
}

/// Random simplices of any dimension over the given vertices.
fn add_across(builder: &mut Builder, vertices: &[u32], count: usize) {
    for _ in 0..count {
        let corner_count = builder.random.between(2, 4);
        let mut corners = Vec::new();
        while corners.len() < corner_count.min(vertices.len()) {
            let vertex = builder.random.pick(vertices);
            if !corners.contains(&vertex) {
                corners.push(vertex);
            }
        }
        builder.simplex(&corners);
    }
}

/// One dimension: a chain of edges, sometimes closed, with a branch now and then.
pub fn path(builder: &mut Builder, size: usize) {
    let first = builder.vertex();
    let mut last = first;
    for _ in 0..size {
        let next = builder.vertex();
        builder.edge([last, next]);
        if !builder.random.chance(10) {
            last = next;
        }
    }
    if size > 2 && last != first && builder.random.chance(30) {
        builder.edge([first, last]);
    }
}

/// Two dimensions: a rectangle of squares, each cut into two triangles.
pub fn sheet(builder: &mut Builder, size: usize) {
    let squares = size / 2 + 1;
    let wide = builder.random.between(1, 1 + squares.min(40));
    let high = (squares / wide).max(1);
    let mut grid = Vec::new();
    for y in 0..=high {
        let row: Vec<u32> = (0..=wide)
            .map(|x| builder.vertex_at([x as f64, y as f64, 0.0].map(f64::to_bits)))
            .collect();
        grid.push(row);
    }
    for y in 0..high {
        for x in 0..wide {
            let (a, b) = (grid[y][x], grid[y][x + 1]);
            let (c, d) = (grid[y + 1][x], grid[y + 1][x + 1]);
            builder.triangle([a, b, d]);
            builder.triangle([a, c, d]);
        }
    }
}

/// Three dimensions: a block of cubes, each cut into six tetrahedra about its diagonal.
pub fn block(builder: &mut Builder, size: usize) {
    let cubes = size / 6 + 1;
    let side = (cubes as f64).cbrt() as usize;
    let wide = builder.random.between(1, side + 1);
    let deep = builder.random.between(1, side + 1);
    let long = (cubes / (wide * deep)).max(1);
    let vertex_at = |point: [f64; 3]| builder.vertex_at(point.map(f64::to_bits));
    for corners in block_of([long, wide, deep], vertex_at) {
        builder.tetrahedron(corners);
    }
}

/// The corners of the tetrahedra of a block, cube by cube, with the vertices made by the caller.
pub fn block_of(
    [long, wide, deep]: [usize; 3],
    mut vertex_at: impl FnMut([f64; 3]) -> u32,
) -> Vec<[u32; 4]> {
    let mut vertices = Vec::new();
    for x in 0..=long {
        for y in 0..=wide {
            for z in 0..=deep {
                vertices.push(vertex_at([x, y, z].map(|c| c as f64)));
            }
        }
    }
    let vertex = |[x, y, z]: [usize; 3]| vertices[(x * (wide + 1) + y) * (deep + 1) + z];
    let mut tetrahedra = Vec::new();
    for x in 0..long {
        for y in 0..wide {
            for z in 0..deep {
                let cube = cube_of([x, y, z]);
                tetrahedra.extend(cube.map(|corners| corners.map(vertex)));
            }
        }
    }
    tetrahedra
}

/// Six tetrahedra: one for each order in which the three axes can be walked through a cube.
fn cube_of(origin: [usize; 3]) -> [[[usize; 3]; 4]; 6] {
    let orders = [
        [0, 1, 2],
        [0, 2, 1],
        [1, 0, 2],
        [1, 2, 0],
        [2, 0, 1],
        [2, 1, 0],
    ];
    orders.map(|order| {
        let mut corner = origin;
        let mut corners = [origin; 4];
        for (step, axis) in order.into_iter().enumerate() {
            corner[axis] += 1;
            corners[step + 1] = corner;
        }
        corners
    })
}

/// Simplices of all dimensions over few vertices: mixed and not manifold.
pub fn soup(builder: &mut Builder, size: usize) {
    let vertex_count = builder.random.between(4, 6 + size / 2);
    let vertices = builder.vertices(vertex_count);
    add_across(builder, &vertices, size);
}

/// Many tetrahedra or triangles with one and the same boundary. Spread over many parts they
/// take far more bytes than in one part.
pub fn book(builder: &mut Builder, size: usize) {
    let page_count = builder.random.between(2, 70);
    for _ in 0..size / page_count + 1 {
        book_of(builder, page_count);
    }
}

/// One tetrahedron and others with the same boundary.
pub fn book_of(builder: &mut Builder, page_count: usize) {
    let corners = builder.vertices(4);
    let first = builder.tetrahedron([corners[0], corners[1], corners[2], corners[3]]);
    let boundary = builder.mesh.boundary(Name::new(3, first));
    let numbers: Vec<u32> = boundary.iter().map(|face| face.number).collect();
    for _ in 1..page_count {
        builder.anew(3, &numbers);
    }
}

/// Triangles about one edge, and tetrahedra upon one triangle.
pub fn fan(builder: &mut Builder, size: usize) {
    let hub = builder.vertices(3);
    for _ in 0..size {
        let tip = builder.vertex();
        match builder.random.below(3) {
            0 => builder.triangle([hub[0], hub[1], tip]),
            1 => builder.edge([hub[0], tip]),
            _ => builder.tetrahedron([hub[0], hub[1], hub[2], tip]),
        };
    }
}

/// Vertices, edges, triangles and tetrahedra that touch nothing else.
pub fn lone_entities(builder: &mut Builder, size: usize) {
    for _ in 0..size {
        let corner_count = builder.random.between(1, 4);
        let corners = builder.vertices(corner_count);
        builder.simplex(&corners);
    }
}

pub fn lone_vertices(builder: &mut Builder, size: usize) {
    builder.vertices(size);
}
