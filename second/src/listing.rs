//! The listing of an image as lines of text (document 01, after "Small meshes to try").

use crate::image::{parts_in, Row, Set};
use crate::refusal::Refusal;
use crate::soundness::sound_set;

pub const LONGEST_LISTED: usize = 65_536;

/// What the listing program prints for an image on its standard input.
pub fn listing(image: &[u8]) -> Vec<u8> {
    if image.len() > LONGEST_LISTED {
        return b"too long\n".to_vec();
    }
    let text = match sound_set(image) {
        Ok(set) => set_lines(&set),
        Err(refusal) => refusal_line(refusal),
    };
    text.into_bytes()
}

fn refusal_line(refusal: Refusal) -> String {
    let Refusal {
        number,
        major,
        minor,
    } = refusal;
    format!("refused {number} {major} {minor}\n")
}

fn set_lines(set: &Set) -> String {
    let mut text = format!("DMP 1 {}\n", set.parts.len());
    for (part, rows) in set.parts.iter().enumerate() {
        for (slot, row) in rows.iter().enumerate() {
            text.push_str(&row_line(part, slot, row));
        }
    }
    text
}

fn row_line(part: usize, slot: usize, row: &Row) -> String {
    let mut line = format!(
        "{part} {slot} {} {} {} {}",
        row.dimension, row.number, row.residence, row.owner
    );
    let others = parts_in(row.residence).filter(|&other| other != part);
    for (other, remote_slot) in others.zip(&row.remote_slots) {
        line.push_str(&format!(" {other}:{remote_slot}"));
    }
    line.push('\n');
    line
}
