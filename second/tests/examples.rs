//! What the README of the examples says about the small meshes and lists.

use second::mesh::Name;
use second::move_list::{self, Entry};
use second::small::*;
use second::{check, migrate};

const PLENTY: usize = 1 << 20;

/// Parts and rows, or the refusal in one line.
fn said_of(image: &[u8]) -> String {
    match check(image) {
        Ok(checked) => format!("{} parts, {} rows", checked.parts, checked.rows),
        Err(refusal) => format!("{} {} {}", refusal.number, refusal.major, refusal.minor),
    }
}

#[test]
fn what_check_says() {
    assert_eq!(said_of(&image_a()), "2 parts, 11 rows");
    assert_eq!(said_of(&image_b()), "2 parts, 14 rows");
    assert_eq!(said_of(&image_a_and_vertex_5()), "2 parts, 12 rows");
    assert_eq!(said_of(&image_of_case_9()), "10 0 1");
    assert_eq!(said_of(&image_of_case_10()), "12 0 5");
    assert_eq!(said_of(&image_of_case_11()), "11 0 6");
}

fn moved(image: &[u8], moves: &[(u8, u32)]) -> (usize, usize, usize) {
    let to_part_1 = |&(dimension, number): &(u8, u32)| Entry::new(Name::new(dimension, number), 1);
    let entries: Vec<Entry> = moves.iter().map(to_part_1).collect();
    let list = move_list::write(&entries);
    let migrated = migrate(image, &list, PLENTY, PLENTY).expect("accepted");
    (migrated.image.len(), migrated.rows, migrated.moved)
}

#[test]
fn what_a_migration_says() {
    assert_eq!(moved(&image_a(), &[(2, 2)]), (712, 14, 1));
    assert_eq!(moved(&image_a_and_vertex_5(), &[(2, 2)]), (760, 15, 1));
    assert_eq!(moved(&image_b(), &[(2, 1)]), (544, 11, 1));
    assert_eq!(
        moved(&image_a_and_vertex_5(), &[(0, 5), (2, 2)]),
        (760, 15, 2)
    );
    assert_eq!(moved(&image_b(), &[]), (712, 14, 0));
}
