//! The migration of a set by a list (document 01, "The move"), refusals 1 to 19.

use crate::image::{self, LONGEST_IMAGE};
use crate::mesh::Mesh;
use crate::move_list;
use crate::refusal::Refusal;
use crate::soundness::sound_set;
use crate::spread::{
    image_length, objects_in_parts, placement_of, residence_of, set_from, Placement,
};

/// The new image, its total of rows, and the number of objects whose part changed.
#[derive(Clone, Debug, PartialEq, Eq)]
pub struct Migrated {
    pub image: Vec<u8>,
    pub rows: usize,
    pub moved: usize,
}

/// Of the two lent buffers only the lengths matter here: the output in bytes, the work in words.
pub fn migrate(
    image: &[u8],
    list: &[u8],
    out_len: usize,
    work_words: usize,
) -> Result<Migrated, Refusal> {
    let set = sound_set(image)?;
    let part_count = set.parts.len();
    let mesh = Mesh::of(&set);
    let before = placement_of(&mesh, &set);
    let entries = move_list::judge(list, part_count, &mesh, &before)?;
    if work_words < set.row_count() {
        return Err(Refusal::whole(17));
    }
    let mut after = before.clone();
    after.extend(entries.iter().map(|e| (e.name, e.destination as usize)));
    let residence = residence_of(&mesh, &after);
    let length = image_length(part_count, &residence);
    if length > LONGEST_IMAGE {
        return Err(Refusal::whole(18));
    }
    if length > out_len {
        return Err(Refusal::whole(19));
    }
    // Owners follow from the counts after the move.
    let objects = objects_in_parts(part_count, &after);
    let result = set_from(part_count, &mesh, &residence, &objects);
    Ok(Migrated {
        image: image::write(&result),
        rows: result.row_count(),
        moved: count_moved(&before, &after),
    })
}

fn count_moved(before: &Placement, after: &Placement) -> usize {
    before
        .iter()
        .filter(|(object, part)| after[object] != **part)
        .count()
}
