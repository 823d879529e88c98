//! Checks a simplicial mesh cut into parts and migrates it between parts. These are safe calls over a library whose answers are proved for
//! every input; the layout of an image and the meaning of each answer are those of the repository's `include/composthum.h`.
//!
//! A call takes any bytes and trusts no earlier call. It keeps nothing and shares nothing, so it may be made from many threads at once. It
//! needs less than 1 MiB of stack, which a thread of Rust's standard library has.
//!
//! ```
//! use composthum::{check, lookup, migrated, Move};
//!
//! # fn main() -> Result<(), Box<dyn std::error::Error>> {
//! let image = std::fs::read("../examples/mesh-a.dmp")?;
//! assert_eq!(check(&image)?.rows, 11);
//!
//! // triangle 2 goes to part 1: its edge 3 is then in both parts
//! let image = migrated(&image, &[Move { dimension: 2, number: 2, part: 1 }])?;
//! let edge = lookup(&image, 1, 3)?;
//! assert_eq!((edge.residence, edge.owner), (0b11, 0));
//! # Ok(())
//! # }
//! ```

mod foreign;
mod refusal;

pub use refusal::{Place, Refusal};

/// The longest image, in bytes. An output buffer of this length is always long enough.
pub const LONGEST_IMAGE: usize = 1_048_576;
/// The most parts of an image.
pub const MOST_PARTS: usize = 64;
/// The least bytes that a row takes: an image of `n` bytes has at most `n / LEAST_ROW` rows, and a working buffer of so many words is enough.
pub const LEAST_ROW: usize = 48;

/// What a check gives of a sound image.
#[derive(Clone, Copy, Debug, PartialEq, Eq, Hash)]
pub struct Checked {
    /// The part count, 1 to 64.
    pub parts: u32,
    /// The total of rows over all parts.
    pub rows: u32,
}

/// What a migration gives of the image that it wrote.
#[derive(Clone, Copy, Debug, PartialEq, Eq, Hash)]
pub struct Migrated {
    /// Its length: so many bytes at the head of the output buffer.
    pub length: usize,
    /// Its total of rows over all parts.
    pub rows: u32,
    /// How many partition objects are in another part than before.
    pub moved: u32,
}

/// One entry of a list: a partition object (an entity on the boundary of none) and where it goes.
#[derive(Clone, Copy, Debug, PartialEq, Eq, PartialOrd, Ord, Hash)]
pub struct Move {
    /// 0 for a vertex, 1 an edge, 2 a triangle, 3 a tetrahedron.
    pub dimension: u8,
    /// The entity's number; an entity is named by its dimension and its number.
    pub number: u32,
    /// The destination, which may be the present part.
    pub part: u8,
}

/// Where an entity is.
#[derive(Clone, Copy, Debug, PartialEq, Eq, Hash)]
pub struct Found {
    /// Its residence set: bit `p` for part `p`.
    pub residence: u64,
    /// The part that owns it.
    pub owner: u32,
}

/// The least and greatest x, y, z of a part's vertices.
#[derive(Clone, Copy, Debug, PartialEq)]
pub struct Bounds {
    pub least: [f64; 3],
    pub greatest: [f64; 3],
}

impl Move {
    /// The eight bytes of its entry.
    ///
    /// ```
    /// let entry = composthum::Move { dimension: 2, number: 258, part: 5 };
    /// assert_eq!(entry.bytes(), [2, 1, 0, 0, 2, 5, 0, 0]);
    /// ```
    pub fn bytes(self) -> [u8; 8] {
        let [a, b, c, d] = self.number.to_le_bytes();
        [a, b, c, d, self.dimension, self.part, 0, 0]
    }
}

impl Found {
    /// Whether it resides in a part.
    pub fn resides_in(&self, part: u32) -> bool {
        part < MOST_PARTS as u32 && self.residence >> part & 1 == 1
    }
}

/// Whether an image is sound: its part count and total of rows, or the first refusal of 1 to 12.
///
/// ```
/// let image = std::fs::read("../examples/mesh-b.dmp").unwrap();
/// let checked = composthum::check(&image).unwrap();
/// assert_eq!((checked.parts, checked.rows), (2, 14));
/// ```
pub fn check(image: &[u8]) -> Result<Checked, Refusal> {
    // SAFETY: pointer and length are those of one slice, which the call only reads.
    let answer = unsafe { foreign::dmp_check(image.as_ptr(), image.len()) };
    Refusal::unless_accepted(answer.refusal, answer.major, answer.minor)?;
    Ok(Checked { parts: answer.parts, rows: answer.rows })
}

/// Writes the image that a list makes of this one to the head of `out`, or gives the first refusal of 1 to 19.
///
/// The list has 8 bytes an entry (see [`Move::bytes`]), ascending strictly by dimension, then number. `work` needs a word for each row of the
/// image. The bytes of `out` past the new image are as they were, and a refused call leaves all of `out` as it was. All of `work` is zero
/// afterwards, whatever it was before and whatever the answer.
///
/// ```
/// let image = std::fs::read("../examples/mesh-a.dmp").unwrap();
/// let list = std::fs::read("../examples/send-triangle-2-to-1.list").unwrap();
/// let mut out = vec![0; 712];
/// let mut work = vec![0; 11];
/// let migrated = composthum::migrate(&image, &list, &mut out, &mut work).unwrap();
/// assert_eq!((migrated.length, migrated.rows, migrated.moved), (712, 14, 1));
/// assert_eq!(out, std::fs::read("../examples/mesh-b.dmp").unwrap());
///
/// let refusal = composthum::migrate(&image, &list, &mut out[..711], &mut work).unwrap_err();
/// assert_eq!(refusal.to_string(), "refusal 19: result longer than the output buffer");
/// ```
pub fn migrate(image: &[u8], list: &[u8], out: &mut [u8], work: &mut [u64]) -> Result<Migrated, Refusal> {
    // SAFETY: each pointer and its length are those of one slice. The call writes to `out` and `work` only, which are lent for writing and
    // so overlap nothing.
    let answer = unsafe {
        foreign::dmp_migrate(image.as_ptr(), image.len(), list.as_ptr(), list.len(), out.as_mut_ptr(), out.len(), work.as_mut_ptr(), work.len())
    };
    Refusal::unless_accepted(answer.refusal, answer.major, answer.minor)?;
    Ok(Migrated { length: answer.length as usize, rows: answer.rows, moved: answer.moved })
}

/// The image that some moves make of this one, in a vector of its own: [`migrate`] with buffers that are always long enough, so that 17 and
/// 19 do not come up. The moves are taken as they stand: out of order they are refused with 13.
///
/// ```
/// let image = std::fs::read("../examples/mesh-b.dmp").unwrap();
/// let moves = [composthum::Move { dimension: 2, number: 1, part: 1 }];
/// assert_eq!(composthum::migrated(&image, &moves).unwrap().len(), 544);
/// ```
pub fn migrated(image: &[u8], moves: &[Move]) -> Result<Vec<u8>, Refusal> {
    let list: Vec<u8> = moves.iter().flat_map(|entry| entry.bytes()).collect();
    let mut out = vec![0; LONGEST_IMAGE];
    // A longer image is refused before its rows are counted.
    let mut work = vec![0; image.len().min(LONGEST_IMAGE) / LEAST_ROW];
    let answer = migrate(image, &list, &mut out, &mut work)?;
    out.truncate(answer.length);
    out.shrink_to_fit();
    Ok(out)
}

/// The residence set and the owner of an entity, or the first refusal of 1 to 12 and 21.
///
/// ```
/// let image = std::fs::read("../examples/mesh-b.dmp").unwrap();
/// let vertex = composthum::lookup(&image, 0, 2).unwrap();
/// assert!(vertex.resides_in(0) && vertex.resides_in(1));
/// assert_eq!(vertex.owner, 0);
/// assert_eq!(composthum::lookup(&image, 2, 9).unwrap_err().number, 21);
/// ```
pub fn lookup(image: &[u8], dimension: u8, number: u32) -> Result<Found, Refusal> {
    // SAFETY: pointer and length are those of one slice, which the call only reads.
    let answer = unsafe { foreign::dmp_lookup(image.as_ptr(), image.len(), dimension, number) };
    Refusal::unless_accepted(answer.refusal, answer.major, answer.minor)?;
    Ok(Found { residence: answer.residence, owner: answer.owner })
}

/// The box of a part's vertices, `None` where it has none, or the first refusal of 1 to 12 and 20.
///
/// ```
/// let image = std::fs::read("../examples/mesh-b.dmp").unwrap();
/// let bounds = composthum::bounds(&image, 1).unwrap().expect("part 1 has vertices");
/// assert_eq!((bounds.least, bounds.greatest), ([0.0, 0.0, 0.0], [1.0, 1.0, 0.0]));
/// ```
pub fn bounds(image: &[u8], part: u32) -> Result<Option<Bounds>, Refusal> {
    // SAFETY: pointer and length are those of one slice, which the call only reads.
    let answer = unsafe { foreign::dmp_box(image.as_ptr(), image.len(), part) };
    Refusal::unless_accepted(answer.refusal, answer.major, answer.minor)?;
    let bounds = Bounds { least: answer.least, greatest: answer.greatest };
    Ok((answer.any != 0).then_some(bounds))
}
