//! A refusal: its number, its place, and both in words.

use std::error::Error;
use std::fmt;

/// Why a call was refused: the number, and the first place at fault as two numbers, both 0 where the number has no place.
///
/// ```
/// let refusal = composthum::check(b"DMQ\x01\x00\x01\x00\x00").unwrap_err();
/// assert_eq!(refusal.number, 3);
/// assert_eq!(refusal.to_string(), "refusal 3: mark differs");
/// ```
#[derive(Clone, Copy, Debug, PartialEq, Eq, Hash)]
pub struct Refusal {
    /// 1 to 21; `include/composthum.h` says when each is given.
    pub number: u32,
    /// The part (7 to 12) or the entry of the list (13 to 16), counted from 0.
    pub major: u32,
    /// The slot in that part (7 to 12).
    pub minor: u32,
}

/// What the two numbers of a refusal name.
#[derive(Clone, Copy, Debug, PartialEq, Eq, Hash)]
pub enum Place {
    /// The call as a whole.
    Whole,
    /// A row: the first one, by part and then by slot, that breaks the rule.
    Row { part: u32, slot: u32 },
    /// An entry of the list, counted from 0; bytes left over count as the entry after the last whole one.
    Entry(u32),
}

impl Refusal {
    /// `Ok` where the number of an answer is 0.
    pub(crate) fn unless_accepted(number: u32, major: u32, minor: u32) -> Result<(), Refusal> {
        match number {
            0 => Ok(()),
            _ => Err(Refusal { number, major, minor }),
        }
    }

    /// What its place names.
    ///
    /// ```
    /// use composthum::Place;
    /// let image = std::fs::read("../examples/wrong-remote-slot-of-vertex-2.dmp").unwrap();
    /// let refusal = composthum::check(&image).unwrap_err();
    /// assert_eq!(refusal.place(), Place::Row { part: 0, slot: 1 });
    /// ```
    pub fn place(&self) -> Place {
        match self.number {
            7..=12 => Place::Row { part: self.major, slot: self.minor },
            13..=16 => Place::Entry(self.major),
            _ => Place::Whole,
        }
    }

    /// The reason in words.
    pub fn reason(&self) -> &'static str {
        match self.number {
            1 => "image over 1,048,576 bytes",
            2 => "image under 8 bytes",
            3 => "mark differs",
            4 => "version is not 1",
            5 => "part count 0 or above 64, or a header zero byte is not zero",
            6 => "counts and rows do not fill the image exactly",
            7 => "a row field is outside its layout, owner or a residence bit names no part, or own bit is missing",
            8 => "rows out of order",
            9 => "boundary broken",
            10 => "a remote copy does not agree",
            11 => "residence broken",
            12 => "owner wrong",
            13 => "list: bytes left over, nonzero zeros, dimension above 3, not ascending",
            14 => "destination names no part",
            15 => "no such entity",
            16 => "entity is not a partition object",
            17 => "working buffer short",
            18 => "result over 1,048,576 bytes",
            19 => "result longer than the output buffer",
            20 => "box of a part that is not there",
            21 => "lookup finds no entity",
            _ => "a number that this edition does not know",
        }
    }
}

impl fmt::Display for Refusal {
    fn fmt(&self, to: &mut fmt::Formatter<'_>) -> fmt::Result {
        write!(to, "refusal {}", self.number)?;
        match self.place() {
            Place::Whole => {}
            Place::Row { part, slot } => write!(to, " at part {part}, slot {slot}")?,
            Place::Entry(entry) => write!(to, " at entry {entry}")?,
        }
        write!(to, ": {}", self.reason())
    }
}

impl Error for Refusal {}
