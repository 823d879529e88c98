//! Box: the least and greatest x, y, z of a part's vertices, refusals 1 to 12 and 20.

use crate::refusal::Refusal;
use crate::soundness::sound_set;

/// The bits of the least and greatest coordinates.
#[derive(Clone, Copy, Debug, PartialEq, Eq)]
pub struct Bounds {
    pub least: [u64; 3],
    pub greatest: [u64; 3],
}

/// None is the answer "no vertex"; it is no refusal.
pub fn boxed(image: &[u8], part: u32) -> Result<Option<Bounds>, Refusal> {
    let set = sound_set(image)?;
    let rows = set.parts.get(part as usize).ok_or(Refusal::whole(20))?;
    let mut bounds: Option<Bounds> = None;
    for row in rows.iter().filter(|row| row.dimension == 0) {
        let point = row.coordinates();
        // The box starts at the first vertex, not at zero.
        let so_far = bounds.unwrap_or(Bounds {
            least: point,
            greatest: point,
        });
        bounds = Some(grown(so_far, point));
    }
    Ok(bounds)
}

/// Each of the six numbers changes only when the new one is beyond it, so on equal values, minus
/// zero and zero among them, the earlier bits stay.
fn grown(mut bounds: Bounds, point: [u64; 3]) -> Bounds {
    for (axis, bits) in point.into_iter().enumerate() {
        let coordinate = f64::from_bits(bits);
        if coordinate < f64::from_bits(bounds.least[axis]) {
            bounds.least[axis] = bits;
        }
        if coordinate > f64::from_bits(bounds.greatest[axis]) {
            bounds.greatest[axis] = bits;
        }
    }
    bounds
}
