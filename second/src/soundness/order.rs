//! Rule 8, Order: in a part, rows ascend strictly by dimension, then number.

use super::refuse_first;
use crate::image::Set;
use crate::refusal::Refusal;

pub fn judge(set: &Set) -> Result<(), Refusal> {
    refuse_first(8, set, |part, slot, row| {
        slot > 0 && set.parts[part][slot - 1].name() >= row.name()
    })
}
