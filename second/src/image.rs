//! The set image, edition 1: header, rows, refusals 1 to 6 (document 01, "The set image").

use crate::mesh::Name;
use crate::refusal::Refusal;

pub const LONGEST_IMAGE: usize = 1_048_576;
pub const MOST_PARTS: usize = 64;

const HEADER: usize = 8;
const MARK: &[u8] = b"DMP";
const VERSION: u16 = 1;

/// A set as its bytes say it, field for field: nothing about it is sound yet.
#[derive(Clone, Debug, PartialEq, Eq)]
pub struct Set {
    pub parts: Vec<Vec<Row>>,
}

/// One row. `remote_slots` stand by ascending part, the own part left out.
#[derive(Clone, Debug, PartialEq, Eq)]
pub struct Row {
    pub number: u32,
    pub dimension: u8,
    pub owner: u8,
    pub kind: u8,
    pub zero: u8,
    pub residence: u64,
    pub value: u64,
    pub body: [u8; 24],
    pub remote_slots: Vec<u32>,
}

impl Set {
    pub fn row_count(&self) -> usize {
        self.parts.iter().map(Vec::len).sum()
    }

    /// The names on the boundary of a row. Its slots must be those of rows, as rule 9 has it.
    pub fn boundary_names(&self, part: usize, row: &Row) -> Vec<Name> {
        row.boundary_slots()
            .into_iter()
            .map(|slot| self.parts[part][slot as usize].name())
            .collect()
    }
}

impl Row {
    pub fn name(&self) -> Name {
        Name::new(self.dimension, self.number)
    }

    /// The d+1 slots at the head of the body; a vertex has none.
    pub fn boundary_slots(&self) -> Vec<u32> {
        if self.dimension == 0 {
            return Vec::new();
        }
        self.body
            .chunks_exact(4)
            .take(self.dimension as usize + 1)
            .map(u32_at)
            .collect()
    }

    pub fn set_boundary_slots(&mut self, slots: &[u32]) {
        for (place, slot) in self.body.chunks_exact_mut(4).zip(slots) {
            place.copy_from_slice(&slot.to_le_bytes());
        }
    }

    /// The bits of x, y and z; they mean something in a vertex only.
    pub fn coordinates(&self) -> [u64; 3] {
        [0, 8, 16].map(|start| u64_at(&self.body[start..start + 8]))
    }

    pub fn set_coordinates(&mut self, bits: [u64; 3]) {
        for (place, coordinate) in self.body.chunks_exact_mut(8).zip(bits) {
            place.copy_from_slice(&coordinate.to_le_bytes());
        }
    }

    /// Where the remote slot for `other` stands in a row of part `own`.
    pub fn remote_place(&self, own: usize, other: usize) -> usize {
        let below_other = (1u64 << other) - 1;
        (self.residence & !(1u64 << own) & below_other).count_ones() as usize
    }

    pub fn remote_slot(&self, own: usize, other: usize) -> u32 {
        self.remote_slots[self.remote_place(own, other)]
    }
}

/// The parts of a residence set, ascending.
pub fn parts_in(residence: u64) -> impl Iterator<Item = usize> {
    (0..MOST_PARTS).filter(move |part| residence >> part & 1 == 1)
}

/// 44 bytes and 4 for each bit set, whichever bits they are; a set of 0 takes 48.
pub fn row_length(residence: u64) -> usize {
    44 + 4 * (residence.count_ones() as usize).max(1)
}

pub fn u32_at(bytes: &[u8]) -> u32 {
    u32::from_le_bytes(bytes.try_into().expect("four bytes"))
}

pub fn u64_at(bytes: &[u8]) -> u64 {
    u64::from_le_bytes(bytes.try_into().expect("eight bytes"))
}

// ---- reading

/// The set that an image spells, or the first of refusals 1 to 6.
pub fn read(image: &[u8]) -> Result<Set, Refusal> {
    let part_count = read_header(image)?;
    read_parts(&image[HEADER..], part_count).ok_or(Refusal::whole(6))
}

fn read_header(image: &[u8]) -> Result<usize, Refusal> {
    if image.len() > LONGEST_IMAGE {
        return Err(Refusal::whole(1));
    }
    if image.len() < HEADER {
        return Err(Refusal::whole(2));
    }
    if &image[0..3] != MARK {
        return Err(Refusal::whole(3));
    }
    if u16::from_le_bytes([image[3], image[4]]) != VERSION {
        return Err(Refusal::whole(4));
    }
    let part_count = image[5] as usize;
    if part_count == 0 || part_count > MOST_PARTS || image[6] != 0 || image[7] != 0 {
        return Err(Refusal::whole(5));
    }
    Ok(part_count)
}

/// None when counts and rows don't fill the bytes exactly.
fn read_parts(mut rest: &[u8], part_count: usize) -> Option<Set> {
    let mut parts = Vec::new();
    for _ in 0..part_count {
        let row_count = u32_at(take(&mut rest, 4)?);
        let mut rows = Vec::new();
        for _ in 0..row_count {
            rows.push(read_row(&mut rest)?);
        }
        parts.push(rows);
    }
    rest.is_empty().then_some(Set { parts })
}

fn read_row(rest: &mut &[u8]) -> Option<Row> {
    let residence = u64_at(rest.get(8..16)?);
    let row = take(rest, row_length(residence))?;
    Some(Row {
        number: u32_at(&row[0..4]),
        dimension: row[4],
        owner: row[5],
        kind: row[6],
        zero: row[7],
        residence,
        value: u64_at(&row[16..24]),
        body: row[24..48].try_into().expect("24 bytes"),
        remote_slots: row[48..].chunks_exact(4).map(u32_at).collect(),
    })
}

fn take<'a>(rest: &mut &'a [u8], length: usize) -> Option<&'a [u8]> {
    if rest.len() < length {
        return None;
    }
    let (taken, left) = rest.split_at(length);
    *rest = left;
    Some(taken)
}

// ---- writing

/// The bytes of a set. Unsound sets are written too: the generators need them.
pub fn write(set: &Set) -> Vec<u8> {
    let mut image = MARK.to_vec();
    image.extend(VERSION.to_le_bytes());
    image.extend([set.parts.len() as u8, 0, 0]);
    for rows in &set.parts {
        image.extend((rows.len() as u32).to_le_bytes());
        for row in rows {
            write_row(row, &mut image);
        }
    }
    image
}

fn write_row(row: &Row, image: &mut Vec<u8>) {
    image.extend(row.number.to_le_bytes());
    image.extend([row.dimension, row.owner, row.kind, row.zero]);
    image.extend(row.residence.to_le_bytes());
    image.extend(row.value.to_le_bytes());
    image.extend(row.body);
    for slot in &row.remote_slots {
        image.extend(slot.to_le_bytes());
    }
}
