//! Damage to the bytes as a whole, for refusals 1 to 6.

use crate::image::{u32_at, LONGEST_IMAGE};
use crate::random::source::Random;

pub fn damage(random: &mut Random, number: u32, mut bytes: Vec<u8>) -> Vec<u8> {
    match number {
        1 => return too_long(random, bytes),
        2 => bytes.truncate(random.below(8)),
        3 => bytes[random.below(3)] ^= random.nonzero_byte(),
        4 => {
            let version: u16 = random.pick(&[0, 2, 0x0101, 0x0100, 0xffff]);
            bytes[3..5].copy_from_slice(&version.to_le_bytes());
        }
        5 if random.chance(50) => bytes[5] = random.pick(&[0, 65, 66, 128, 255]),
        5 => bytes[6 + random.below(2)] = random.nonzero_byte(),
        _ => unfill(random, &mut bytes),
    }
    bytes
}

/// One byte too long, or a whole set of lone vertices that is sound but for its length.
fn too_long(random: &mut Random, mut bytes: Vec<u8>) -> Vec<u8> {
    if random.chance(50) {
        bytes.resize(LONGEST_IMAGE + random.pick(&[1, 4, 48]), 0);
        return bytes;
    }
    let row_count = 21_846u32;
    let mut bytes = b"DMP\x01\x00\x01\x00\x00".to_vec();
    bytes.extend(row_count.to_le_bytes());
    for number in 0..row_count {
        let mut row = [0; 48];
        row[0..4].copy_from_slice(&number.to_le_bytes());
        row[8] = 1;
        bytes.extend(row);
    }
    bytes
}

/// Counts and rows that don't fill the image: cut, lengthened, miscounted, or with a row that
/// says another length than it has.
fn unfill(random: &mut Random, bytes: &mut Vec<u8>) {
    match random.below(5) {
        0 => bytes.truncate(random.between(8, bytes.len() - 1)),
        1 => {
            let more = random.pick(&[1, 3, 4, 48]);
            bytes.resize(bytes.len() + more, 0);
        }
        2 => {
            let part_count = bytes[5];
            bytes[5] = random.pick(&[part_count % 64 + 1, part_count.max(2) - 1]);
        }
        3 => miscount(random, bytes),
        _ if bytes.len() > 28 => bytes[20 + random.below(8)] ^= 1 << random.below(8),
        _ => bytes.push(0),
    }
}

/// Changes the row count of the first part.
fn miscount(random: &mut Random, bytes: &mut [u8]) {
    let count = u32_at(&bytes[8..12]);
    let wrong = random.pick(&[
        count.wrapping_add(1),
        count.wrapping_sub(1),
        u32::MAX,
        1 << 31,
    ]);
    bytes[8..12].copy_from_slice(&wrong.to_le_bytes());
}
