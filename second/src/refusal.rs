//! Refusal numbers and their places (document 01, "Refusal numbers").

/// A numbered refusal; its place is two numbers, both zero where the table gives none.
#[derive(Clone, Copy, Debug, PartialEq, Eq)]
pub struct Refusal {
    pub number: u32,
    pub major: u32,
    pub minor: u32,
}

impl Refusal {
    /// A refusal of the whole call: the table's place `0 0`.
    pub fn whole(number: u32) -> Refusal {
        Refusal {
            number,
            major: 0,
            minor: 0,
        }
    }

    /// A refusal that names a row: 7 to 12.
    pub fn at_row(number: u32, part: usize, slot: usize) -> Refusal {
        Refusal {
            number,
            major: part as u32,
            minor: slot as u32,
        }
    }

    /// A refusal that names an entry of the list: 13 to 16.
    pub fn at_entry(number: u32, entry: usize) -> Refusal {
        Refusal {
            number,
            major: u32::try_from(entry).unwrap_or(u32::MAX), // an answer has 32 bits for it
            minor: 0,
        }
    }
}
