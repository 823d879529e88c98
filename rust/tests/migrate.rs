//! Migrations of the example files: what document 01 says of them, and the buffers afterwards.

use composthum::{check, lookup, migrate, migrated, Migrated, Move, Refusal, LONGEST_IMAGE};

fn example(name: &str) -> Vec<u8> {
    std::fs::read(format!("{}/../examples/{name}", env!("CARGO_MANIFEST_DIR"))).expect(name)
}

const PATTERN: u8 = 0xa5;

/// Migrates with buffers that are full of a pattern, and looks at both afterwards.
fn tried(image: &[u8], list: &[u8], out_len: usize, work_words: usize) -> Result<(Migrated, Vec<u8>), Refusal> {
    let mut out = vec![PATTERN; out_len];
    let mut work = vec![u64::MAX; work_words];
    let answer = migrate(image, list, &mut out, &mut work);
    assert!(work.iter().all(|&word| word == 0), "the working buffer is zero after every call");
    let written = answer.map_or(0, |migrated| migrated.length);
    assert!(out[written..].iter().all(|&byte| byte == PATTERN), "bytes past the image are as they were");
    out.truncate(written);
    answer.map(|migrated| (migrated, out))
}

fn refused(image: &[u8], list: &[u8], out_len: usize, work_words: usize) -> [u32; 3] {
    let refusal = tried(image, list, out_len, work_words).unwrap_err();
    [refusal.number, refusal.major, refusal.minor]
}

fn triangle(number: u32, part: u8) -> Move {
    Move { dimension: 2, number, part }
}

#[test]
fn mesh_a_becomes_mesh_b() {
    let list = example("send-triangle-2-to-1.list");
    let (answer, image) = tried(&example("mesh-a.dmp"), &list, LONGEST_IMAGE, 100).unwrap();
    assert_eq!(answer, Migrated { length: 712, rows: 14, moved: 1 });
    assert_eq!(image, example("mesh-b.dmp"));
}

#[test]
fn the_other_sound_cases() {
    let cases = [
        ("mesh-b.dmp", "send-triangle-1-to-1.list", 544, 11, 1),
        ("mesh-a-with-vertex-5.dmp", "send-triangle-2-to-1.list", 760, 15, 1),
        ("mesh-a-with-vertex-5.dmp", "send-vertex-5-and-triangle-2-to-1.list", 760, 15, 2),
        ("mesh-b.dmp", "send-nothing.list", 712, 14, 0),
        ("empty-64-parts.dmp", "send-nothing.list", 264, 0, 0),
    ];
    for (image, list, length, rows, moved) in cases {
        let (answer, made) = tried(&example(image), &example(list), length, 14).unwrap();
        assert_eq!(answer, Migrated { length, rows, moved }, "{image}, {list}");
        assert_eq!(check(&made).unwrap().rows, rows, "{image}, {list}");
    }
}

#[test]
fn owners_are_counted_after_the_move() {
    let image = example("mesh-a-with-vertex-5.dmp");
    let one = migrated(&image, &[triangle(2, 1)]).unwrap();
    let vertex = Move { dimension: 0, number: 5, part: 1 };
    let both = migrated(&image, &[vertex, triangle(2, 1)]).unwrap();
    for (dimension, number) in [(0, 2), (0, 3), (1, 3)] {
        assert_eq!(lookup(&one, dimension, number).unwrap().owner, 1);
        assert_eq!(lookup(&both, dimension, number).unwrap().owner, 0);
    }
}

#[test]
fn wrong_lists() {
    let image = example("mesh-b.dmp");
    let wrong = [
        ("wrong-send-edge-3-to-1.list", [16, 0, 0]),
        ("wrong-send-triangle-9-to-1.list", [15, 0, 0]),
        ("wrong-send-triangle-2-to-2.list", [14, 0, 0]),
    ];
    for (list, refusal) in wrong {
        assert_eq!(refused(&image, &example(list), LONGEST_IMAGE, 14), refusal, "{list}");
    }
    assert_eq!(refused(&image, &[0; 9], LONGEST_IMAGE, 14), [13, 1, 0], "a byte left over");
    let refusal = migrated(&image, &[triangle(2, 0), triangle(1, 0)]).unwrap_err();
    assert_eq!(refusal.to_string(), "refusal 13 at entry 1: list: bytes left over, nonzero zeros, dimension above 3, not ascending");
}

#[test]
fn buffers_exactly_enough_and_one_short() {
    let (image, list) = (example("mesh-a.dmp"), example("send-triangle-2-to-1.list"));
    assert_eq!(refused(&image, &list, 711, 11), [19, 0, 0]);
    assert_eq!(refused(&image, &list, 712, 10), [17, 0, 0]);
    assert_eq!(refused(&image, &list, 0, 0), [17, 0, 0]);
    assert!(tried(&image, &list, 712, 11).is_ok());
}

#[test]
fn an_unsound_image_is_refused_first() {
    let image = example("wrong-owner-of-edge-3.dmp");
    assert_eq!(refused(&image, &[1; 3], 0, 0), [12, 0, 5]);
    assert_eq!(migrated(&vec![0; LONGEST_IMAGE + 1], &[]).unwrap_err().number, 1);
    assert_eq!(migrated(&[], &[]).unwrap_err().number, 2);
}

#[test]
fn there_and_back() {
    let start = example("mesh-a.dmp");
    let away = migrated(&start, &[triangle(1, 1), triangle(2, 1)]).unwrap();
    assert_ne!(away, start);
    let back = migrated(&away, &[triangle(1, 0), triangle(2, 0)]).unwrap();
    assert_eq!(back, start);
}

#[test]
fn from_many_threads_at_once() {
    let (image, wanted) = (example("mesh-a.dmp"), example("mesh-b.dmp"));
    std::thread::scope(|threads| {
        for _ in 0..8 {
            threads.spawn(|| {
                for _ in 0..50 {
                    assert_eq!(migrated(&image, &[triangle(2, 1)]).as_deref(), Ok(&wanted[..]));
                }
            });
        }
    });
}

#[test]
fn a_migration_fits_into_the_stack_that_is_promised() {
    let image = example("mesh-a.dmp");
    let thread = std::thread::Builder::new().stack_size(1024 * 1024);
    let call = move || migrated(&image, &[triangle(2, 1)]);
    assert_eq!(thread.spawn(call).unwrap().join().unwrap(), Ok(example("mesh-b.dmp")));
}
