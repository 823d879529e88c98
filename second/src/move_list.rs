//! The list of a move: its entries and refusals 13 to 16 (document 01, "The move").

use crate::image::u32_at;
use crate::mesh::{Mesh, Name};
use crate::refusal::Refusal;
use crate::spread::Placement;

pub const ENTRY_LENGTH: usize = 8;

/// One entry as its bytes say it; `zeros` should be two zero bytes.
#[derive(Clone, Copy, Debug, PartialEq, Eq)]
pub struct Entry {
    pub name: Name,
    pub destination: u8,
    pub zeros: [u8; 2],
}

impl Entry {
    pub fn new(name: Name, destination: usize) -> Entry {
        Entry {
            name,
            destination: destination as u8,
            zeros: [0, 0],
        }
    }

    fn read(bytes: &[u8]) -> Entry {
        Entry {
            name: Name::new(bytes[4], u32_at(&bytes[0..4])),
            destination: bytes[5],
            zeros: [bytes[6], bytes[7]],
        }
    }

    fn bytes(&self) -> [u8; ENTRY_LENGTH] {
        let [a, b, c, d] = self.name.number.to_le_bytes();
        let [y, z] = self.zeros;
        [a, b, c, d, self.name.dimension, self.destination, y, z]
    }
}

pub fn write(entries: &[Entry]) -> Vec<u8> {
    entries.iter().flat_map(Entry::bytes).collect()
}

/// The entries of a list that passes 13 to 16. All of them pass one number before the next.
pub fn judge(
    list: &[u8],
    part_count: usize,
    mesh: &Mesh,
    placement: &Placement,
) -> Result<Vec<Entry>, Refusal> {
    let entries = read(list)?;
    refuse_first(14, &entries, |entry| {
        entry.destination as usize >= part_count
    })?;
    refuse_first(15, &entries, |entry| {
        !mesh.entities.contains_key(&entry.name)
    })?;
    refuse_first(16, &entries, |entry| !placement.contains_key(&entry.name))?;
    Ok(entries)
}

/// Rule 13 in one pass; left-over bytes count as the entry after the last whole one.
fn read(list: &[u8]) -> Result<Vec<Entry>, Refusal> {
    let mut entries: Vec<Entry> = Vec::new();
    for bytes in list.chunks(ENTRY_LENGTH) {
        let refusal = Refusal::at_entry(13, entries.len());
        if bytes.len() < ENTRY_LENGTH {
            return Err(refusal);
        }
        let entry = Entry::read(bytes);
        let ascends = entries.last().is_none_or(|last| last.name < entry.name);
        if entry.zeros != [0, 0] || entry.name.dimension > 3 || !ascends {
            return Err(refusal);
        }
        entries.push(entry);
    }
    Ok(entries)
}

fn refuse_first(
    number: u32,
    entries: &[Entry],
    breaks: impl Fn(&Entry) -> bool,
) -> Result<(), Refusal> {
    match entries.iter().position(breaks) {
        Some(entry) => Err(Refusal::at_entry(number, entry)),
        None => Ok(()),
    }
}
