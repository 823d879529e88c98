//! The thirteen cases of document 01, "Small meshes to try", and the listing below them.

use second::image::{self, Set};
use second::mesh::Name;
use second::move_list::{self, Entry};
use second::small::*;
use second::{boxed, check, listing, lookup, migrate, Checked, Found, Migrated, Refusal};

const PLENTY: usize = 1 << 20;

fn list(entries: &[(u8, u32, usize)]) -> Vec<u8> {
    let entry = |&(dimension, number, part): &(u8, u32, usize)| {
        Entry::new(Name::new(dimension, number), part)
    };
    move_list::write(&entries.iter().map(entry).collect::<Vec<_>>())
}

fn moved(image: &[u8], entries: &[(u8, u32, usize)]) -> Migrated {
    migrate(image, &list(entries), PLENTY, PLENTY).expect("accepted")
}

fn refused(image: &[u8], entries: &[(u8, u32, usize)]) -> Refusal {
    migrate(image, &list(entries), PLENTY, PLENTY).expect_err("refused")
}

fn refusal(number: u32, major: u32, minor: u32) -> Refusal {
    Refusal {
        number,
        major,
        minor,
    }
}

fn owner(image: &[u8], dimension: u8, number: u32) -> u8 {
    lookup(image, dimension, number).expect("found").owner
}

#[test]
fn case_1_mesh_a_is_sound() {
    assert_eq!(image_a().len(), 544);
    assert_eq!(check(&image_a()), Ok(Checked { parts: 2, rows: 11 }));
}

#[test]
fn case_2_a_becomes_b() {
    let b = moved(&image_a(), &[(2, 2, 1)]);
    assert_eq!((b.image.len(), b.rows, b.moved), (712, 14, 1));
    assert_eq!(b.image, image_b());
    assert_eq!(check(&b.image), Ok(Checked { parts: 2, rows: 14 }));
}

#[test]
fn case_3_part_0_becomes_empty() {
    let result = moved(&image_b(), &[(2, 1, 1)]);
    assert_eq!((result.image.len(), result.moved), (544, 1));
    let Set { parts } = image::read(&result.image).expect("well formed");
    assert_eq!((parts[0].len(), parts[1].len()), (0, 11));
}

#[test]
fn case_4_a_lone_vertex_makes_part_0_the_richer() {
    let result = moved(&image_a_and_vertex_5(), &[(2, 2, 1)]);
    assert_eq!(result.image.len(), 760);
    let owners = [(0, 2), (0, 3), (1, 3)].map(|(d, n)| owner(&result.image, d, n));
    assert_eq!(owners, [1, 1, 1]);
}

#[test]
fn case_5_the_lone_vertex_goes_along() {
    let result = moved(&image_a_and_vertex_5(), &[(0, 5, 1), (2, 2, 1)]);
    assert_eq!(result.moved, 2);
    let owners = [(0, 2), (0, 3), (1, 3)].map(|(d, n)| owner(&result.image, d, n));
    assert_eq!(owners, [0, 0, 0]);
}

#[test]
fn case_6_empty_parts() {
    assert_eq!(empty_image(1).len(), 12);
    assert_eq!(check(&empty_image(1)), Ok(Checked { parts: 1, rows: 0 }));
    assert_eq!(empty_image(64).len(), 264);
    assert_eq!(check(&empty_image(64)), Ok(Checked { parts: 64, rows: 0 }));
}

#[test]
fn case_7_an_empty_list_gives_the_same_image() {
    let result = moved(&image_b(), &[]);
    assert_eq!(
        (result.image, result.rows, result.moved),
        (image_b(), 14, 0)
    );
}

#[test]
fn case_8_lists_that_name_the_wrong_thing() {
    assert_eq!(refused(&image_b(), &[(1, 3, 0)]), refusal(16, 0, 0));
    assert_eq!(refused(&image_b(), &[(2, 9, 0)]), refusal(15, 0, 0));
    assert_eq!(refused(&image_b(), &[(2, 2, 2)]), refusal(14, 0, 0));
}

#[test]
fn case_9_a_wrong_remote_slot() {
    assert_eq!(check(&image_of_case_9()), Err(refusal(10, 0, 1)));
    assert_eq!(listing(&image_of_case_9()), b"refused 10 0 1\n");
}

#[test]
fn case_10_a_wrong_owner() {
    assert_eq!(check(&image_of_case_10()), Err(refusal(12, 0, 5)));
}

#[test]
fn case_11_a_triangle_in_two_parts() {
    assert_eq!(check(&image_of_case_11()), Err(refusal(11, 0, 6)));
}

#[test]
fn case_12_buffers_just_enough_and_one_short() {
    let (a, to_b) = (image_a(), list(&[(2, 2, 1)]));
    assert_eq!(migrate(&a, &to_b, 711, 11), Err(refusal(19, 0, 0)));
    assert_eq!(migrate(&a, &to_b, 712, 10), Err(refusal(17, 0, 0)));
    let accepted = migrate(&a, &to_b, 712, 11).expect("just enough");
    assert_eq!(accepted.image, image_b());
}

#[test]
fn case_13_boxes() {
    let bounds = boxed(&image_b(), 1).expect("accepted").expect("vertices");
    assert_eq!(bounds.least, [0.0, 0.0, 0.0].map(f64::to_bits));
    assert_eq!(bounds.greatest, [1.0, 1.0, 0.0].map(f64::to_bits));
    assert_eq!(boxed(&image_a(), 1), Ok(None));
}

#[test]
fn lookup_gives_residence_and_owner() {
    let found = |residence, owner| Ok(Found { residence, owner });
    assert_eq!(lookup(&image_b(), 1, 3), found(3, 0));
    assert_eq!(lookup(&image_b(), 2, 2), found(2, 1));
}

#[test]
fn there_and_back_is_the_same_bytes() {
    let there = moved(&image_b(), &[(2, 1, 1), (2, 2, 0)]);
    let back = moved(&there.image, &[(2, 1, 0), (2, 2, 1)]);
    assert_eq!(back.image, image_b());
}

// ---- the listing

const LISTING_OF_B: &str = "\
DMP 1 2
0 0 0 1 1 0
0 1 0 2 3 0 1:0
0 2 0 3 3 0 1:1
0 3 1 1 1 0
0 4 1 2 1 0
0 5 1 3 3 0 1:3
0 6 2 1 1 0
1 0 0 2 3 0 0:1
1 1 0 3 3 0 0:2
1 2 0 4 2 1
1 3 1 3 3 0 0:5
1 4 1 4 2 1
1 5 1 5 2 1
1 6 2 2 2 1
";

#[test]
fn the_listing_of_b_is_the_one_in_the_document() {
    let text = String::from_utf8(listing(&image_b())).expect("plain text");
    assert_eq!(text, LISTING_OF_B);
}

#[test]
fn the_listing_reads_so_many_bytes_and_no_more() {
    assert_eq!(listing(&[0; 65_537]), b"too long\n");
    assert_eq!(listing(&[0; 65_536]), b"refused 3 0 0\n");
    assert_eq!(listing(&[]), b"refused 2 0 0\n");
}
