//! Rule 7: every field of a row is inside its layout, its parts exist, its own bit is set.

use super::refuse_first;
use crate::image::{parts_in, Row, Set};
use crate::refusal::Refusal;

pub fn judge(set: &Set) -> Result<(), Refusal> {
    let part_count = set.parts.len();
    refuse_first(7, set, |part, _, row| {
        !(layout_is_kept(row) && parts_exist(row, part_count) && row.residence >> part & 1 == 1)
    })
}

fn layout_is_kept(row: &Row) -> bool {
    row.dimension <= 3 && row.zero == 0 && value_fits_kind(row) && body_is_kept(row)
}

fn value_fits_kind(row: &Row) -> bool {
    match row.kind {
        0 => row.value == 0,
        1 => true,
        2 => f64::from_bits(row.value).is_finite(),
        _ => false,
    }
}

/// A vertex has finite coordinates; any other body is d+1 slots, whatever they are, then zeros.
fn body_is_kept(row: &Row) -> bool {
    if row.dimension == 0 {
        let coordinates = row.coordinates();
        return coordinates.iter().all(|&x| f64::from_bits(x).is_finite());
    }
    let slots_length = 4 * (row.dimension as usize + 1);
    row.body[slots_length..].iter().all(|&byte| byte == 0)
}

fn parts_exist(row: &Row, part_count: usize) -> bool {
    (row.owner as usize) < part_count && parts_in(row.residence).all(|part| part < part_count)
}
