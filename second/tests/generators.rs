//! What the generators promise: sound samples are sound, aimed damage mostly meets its aim.

use second::image::LONGEST_IMAGE;
use second::move_list;
use second::random::sample::{self, Sample};
use second::random::source::Random;
use second::random::{damage, lists};
use second::{check, migrate};

const PLENTY: usize = 1 << 22;

#[test]
fn samples_are_sound_unless_too_long() {
    for seed in 0..150 {
        let sample = sample::modest(&mut Random::new(seed));
        let image = sample.image();
        let expected = if image.len() > LONGEST_IMAGE { 1 } else { 0 };
        let answer = check(&image).map_or_else(|refusal| refusal.number, |_| 0);
        assert_eq!(answer, expected, "seed {seed}");
    }
}

#[test]
fn a_seed_says_all() {
    for seed in [0, 7, u64::MAX] {
        let image = |seed| sample::modest(&mut Random::new(seed)).image();
        assert_eq!(image(seed), image(seed));
    }
}

#[test]
fn full_samples_are_full_and_sound() {
    for seed in 0..4 {
        let image = sample::full(&mut Random::new(seed)).image();
        assert!(image.len() > LONGEST_IMAGE - 300 * 48 - 48, "seed {seed}");
        assert!(check(&image).is_ok(), "seed {seed}");
    }
}

#[test]
fn swelling_samples_reach_the_limit_or_pass_it() {
    let length = |seed| {
        let sample = sample::swelling(&mut Random::new(seed));
        sample.length_after(&lists::dealt(&sample))
    };
    let lengths: Vec<usize> = (0..40).map(length).collect();
    assert!(lengths.contains(&LONGEST_IMAGE));
    assert!(lengths.contains(&(LONGEST_IMAGE + 4)));
}

/// How many of 120 damaged images are refused with the number that was aimed at.
fn hits(number: u32) -> usize {
    let refused = |seed: &u64| {
        let random = &mut Random::new(*seed);
        let sample = sample::damageable(random);
        let image = damage::aimed(random, &sample, number);
        check(&image).is_err_and(|refusal| refusal.number == number)
    };
    (0..120).filter(refused).count()
}

#[test]
fn aimed_damage_mostly_meets_its_aim() {
    for number in 1..=12 {
        let hits = hits(number);
        println!("aim {number}: {hits} of 120");
        assert!(hits >= 60, "aim {number}: {hits} of 120");
    }
}

fn list_hits(number: u32) -> usize {
    let refused = |seed: &u64| {
        let random = &mut Random::new(*seed);
        let sample = sample::damageable(random);
        let entries = lists::sound(random, &sample);
        let list = lists::damaged(random, &sample, number, &entries);
        let answer = migrate(&sample.image(), &list, PLENTY, PLENTY);
        answer.is_err_and(|refusal| refusal.number == number)
    };
    (0..120).filter(refused).count()
}

#[test]
fn damaged_lists_mostly_meet_their_aim() {
    for number in 13..=16 {
        let hits = list_hits(number);
        println!("aim {number}: {hits} of 120");
        assert!(hits >= 60, "aim {number}: {hits} of 120");
    }
}

/// Runs sound lists from a sample and looks at the bytes after each.
fn run_history(random: &mut Random, mut sample: Sample) {
    let start = (sample.placement.clone(), sample.image());
    let mut image = start.1.clone();
    for _ in 0..4 {
        let entries = lists::sound(random, &sample);
        let list = move_list::write(&entries);
        let Ok(migrated) = migrate(&image, &list, PLENTY, PLENTY) else {
            return;
        };
        sample.follow(&entries);
        image = migrated.image;
        assert_eq!(image, sample.image(), "the bytes follow from the placement");
        assert_eq!(check(&image).map(|checked| checked.rows), Ok(migrated.rows));
    }
    let moved = Sample {
        placement: start.0,
        ..sample.clone()
    };
    let back = move_list::write(&lists::way_back(&moved, &all_entries(&sample)));
    let home = migrate(&image, &back, PLENTY, PLENTY).expect("accepted");
    assert_eq!(home.image, start.1, "all objects home, all bytes as before");
}

fn all_entries(sample: &Sample) -> Vec<move_list::Entry> {
    let places = sample.placement.iter();
    places
        .map(|(&object, &part)| move_list::Entry::new(object, part))
        .collect()
}

#[test]
fn histories_end_where_their_placement_says() {
    for seed in 0..60 {
        let random = &mut Random::new(seed);
        let sample = sample::damageable(random);
        run_history(random, sample);
    }
}
