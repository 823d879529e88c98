//! Compares a shared library with the second program on random calls:
//! `compare LIBRARY.so SEED COUNT`.
//!
//! Every scenario has its own seed, counted up from SEED, and that seed says all of it: a
//! scenario that showed a difference is run again by `compare LIBRARY.so ITS-SEED 1`.

use second::comparison::{Comparison, Difference, Outcome};
use second::foreign::Library;
use second::image::LONGEST_IMAGE;
use second::move_list::{self, Entry};
use second::random::sample::{self, Sample};
use second::random::source::Random;
use second::random::{damage, lists};
use std::process::ExitCode;
use std::sync::atomic::{AtomicU64, Ordering};

/// One scenario in so many is of full size, one is full and then damaged, and one swells to it.
const FULL_SHARE: u64 = 100;
/// From this many calls on, every refusal must have come up.
const CALLS_FOR_ALL_REFUSALS: u64 = 20_000;

fn main() -> ExitCode {
    let arguments: Vec<String> = std::env::args().collect();
    let Some((path, seed, count)) = parsed(&arguments) else {
        eprintln!("usage: compare LIBRARY.so SEED COUNT");
        return ExitCode::from(2);
    };
    let library = match Library::open(path) {
        Ok(library) => library,
        Err(message) => {
            eprintln!("cannot open {path}: {message}");
            return ExitCode::from(2);
        }
    };
    tell_seed_on_crash();
    compare(Comparison::new(library), seed, count)
}

fn parsed(arguments: &[String]) -> Option<(&str, u64, u64)> {
    let [_, path, seed, count] = arguments else {
        return None;
    };
    Some((path, seed.parse().ok()?, count.parse().ok()?))
}

// ---- a crash of the library still tells its seed

static CURRENT_SEED: AtomicU64 = AtomicU64::new(0);

const CRASH_SIGNALS: [i32; 5] = [4, 6, 7, 8, 11];

extern "C" {
    fn signal(number: i32, handler: extern "C" fn(i32)) -> usize;
}

extern "C" fn on_crash(number: i32) {
    let seed = CURRENT_SEED.load(Ordering::Relaxed);
    eprintln!("crash at seed {seed}: signal {number}");
    std::process::exit(1);
}

fn tell_seed_on_crash() {
    for number in CRASH_SIGNALS {
        // SAFETY: the handler only prints and ends the program.
        unsafe { signal(number, on_crash) };
    }
}

// ---- the run

fn compare(mut comparison: Comparison, first_seed: u64, count: u64) -> ExitCode {
    let mut seed = first_seed;
    while comparison.calls() < count {
        CURRENT_SEED.store(seed, Ordering::Relaxed);
        if let Err(difference) = run_scenario(&mut comparison, seed) {
            report(seed, &difference);
            return ExitCode::FAILURE;
        }
        seed = seed.wrapping_add(1);
    }
    println!("compared {} calls, 0 differences", comparison.calls());
    println!("seeds {first_seed} to {}", seed.wrapping_sub(1));
    print_answers(&comparison)
}

fn print_answers(comparison: &Comparison) -> ExitCode {
    println!("answer   calls");
    for (number, calls) in comparison.answers.iter().enumerate() {
        println!("{number:>6} {calls:>7}");
    }
    let mut missing: Vec<usize> = (1..22).collect();
    missing.retain(|&number| comparison.answers[number] == 0);
    if comparison.calls() >= CALLS_FOR_ALL_REFUSALS && !missing.is_empty() {
        println!("refusals that never came up: {missing:?}");
        return ExitCode::FAILURE;
    }
    ExitCode::SUCCESS
}

/// Says what differs and leaves the bytes in the current folder.
fn report(seed: u64, difference: &Difference) {
    println!("difference at seed {seed}: {}", difference.what);
    let files = [
        ("image.dmp", &difference.image),
        ("moves.list", &difference.list),
        ("second.out", &difference.second_out),
        ("library.out", &difference.library_out),
    ];
    for (name, bytes) in files {
        let path = format!("difference-{seed}-{name}");
        match std::fs::write(&path, bytes) {
            Ok(()) => println!("  {path}: {} bytes", bytes.len()),
            Err(error) => println!("  {path}: {error}"),
        }
    }
}

// ---- scenarios

fn run_scenario(comparison: &mut Comparison, seed: u64) -> Outcome<()> {
    let random = &mut Random::new(seed);
    match seed % FULL_SHARE {
        0 => {
            let sample = sample::full(random);
            return run_history(comparison, random, sample, 2);
        }
        25 => {
            let sample = sample::swelling(random);
            return run_swelling(comparison, sample);
        }
        50 => {
            let sample = sample::full(random);
            let number = random.between(6, 12) as u32;
            let image = damage::aimed(random, &sample, number);
            return comparison.check(&image);
        }
        _ => {}
    }
    match random.below(100) {
        0..=49 => {
            let sample = sample::modest(random);
            let steps = random.between(1, 6);
            run_history(comparison, random, sample, steps)
        }
        kind => {
            let sample = sample::damageable(random);
            let image = match kind {
                50..=84 => {
                    let number = random.between(1, 12) as u32;
                    damage::aimed(random, &sample, number)
                }
                85..=92 => damage::combined(random, &sample),
                _ => damage::without_aim(random, &sample),
            };
            run_damaged(comparison, random, &sample, &image)
        }
    }
}

/// A move that makes the longest image there may be, or just not, and the way back.
fn run_swelling(comparison: &mut Comparison, sample: Sample) -> Outcome<()> {
    let image = sample.image();
    let entries = lists::dealt(&sample);
    let list = move_list::write(&entries);
    let answer = comparison.migrate(&image, &list, LONGEST_IMAGE, image.len() / 48)?;
    if let Ok(migrated) = answer {
        let back = move_list::write(&lists::way_back(&sample, &entries));
        let _answer = comparison.migrate(&migrated.image, &back, image.len(), migrated.rows)?;
    }
    Ok(())
}

/// Every entry point checks for itself, so a damaged image goes to all four.
fn run_damaged(
    comparison: &mut Comparison,
    random: &mut Random,
    sample: &Sample,
    image: &[u8],
) -> Outcome<()> {
    comparison.check(image)?;
    let list = match random.chance(80) {
        true => move_list::write(&lists::sound(random, sample)),
        false => (0..random.below(30)).map(|_| random.word() as u8).collect(),
    };
    let out_len = random.pick(&[0, image.len(), 2 * image.len()]);
    let work_words = random.pick(&[0, image.len() / 48, image.len()]);
    let _answer = comparison.migrate(image, &list, out_len, work_words)?;
    look_around(comparison, random, sample, image, 1)
}

/// Lookups of entities that are there and are not, boxes of parts that are there and are not.
fn look_around(
    comparison: &mut Comparison,
    random: &mut Random,
    sample: &Sample,
    image: &[u8],
    rounds: usize,
) -> Outcome<()> {
    let numbers: Vec<_> = sample.mesh.entities.keys().copied().collect();
    for _ in 0..rounds {
        let name = match random.chance(70) && !numbers.is_empty() {
            true => random.pick(&numbers),
            false => lists::missing_name(random, sample),
        };
        let dimension = match random.chance(10) {
            true => random.pick(&[4, 5, 128, 255]),
            false => name.dimension,
        };
        comparison.lookup(image, dimension, name.number)?;
        let part_count = sample.part_count as u32;
        let part = match random.chance(75) {
            true => random.below(sample.part_count) as u32,
            false => random.pick(&[part_count, part_count + 1, 64, 256, u32::MAX]),
        };
        comparison.boxed(image, part)?;
    }
    Ok(())
}

// ---- histories: migrations in a chain, each from the last accepted image

struct History {
    sample: Sample,
    image: Vec<u8>,
    rows: usize,
    /// The last list, and the list that undoes the last accepted one.
    last: Vec<Entry>,
    way_back: Vec<Entry>,
}

fn run_history(
    comparison: &mut Comparison,
    random: &mut Random,
    sample: Sample,
    steps: usize,
) -> Outcome<()> {
    let image = sample.image();
    comparison.check(&image)?;
    look_around(comparison, random, &sample, &image, 1)?;
    let mut history = History {
        rows: sample.set().row_count(),
        sample,
        image,
        last: Vec::new(),
        way_back: Vec::new(),
    };
    for _ in 0..steps {
        take_step(comparison, random, &mut history)?;
    }
    comparison.check(&history.image)?;
    look_around(comparison, random, &history.sample, &history.image, 1)
}

fn take_step(
    comparison: &mut Comparison,
    random: &mut Random,
    history: &mut History,
) -> Outcome<()> {
    let entries = match random.below(8) {
        0 => history.last.clone(),
        1 | 2 => history.way_back.clone(),
        _ => lists::sound(random, &history.sample),
    };
    let list = match random.chance(20) {
        true => {
            let number = random.between(13, 16) as u32;
            lists::damaged(random, &history.sample, number, &entries)
        }
        false => move_list::write(&entries),
    };
    let work_words = work_length(random, history.rows);
    let out_len = out_length(random, &history.image, &list);
    let answer = comparison.migrate(&history.image, &list, out_len, work_words)?;
    history.last = entries;
    if let Ok(migrated) = answer {
        history.way_back = lists::way_back(&history.sample, &history.last);
        history.sample.follow(&history.last);
        history.image = migrated.image;
        history.rows = migrated.rows;
        return follows_from_placement(history);
    }
    Ok(())
}

/// Two histories that end with the same placement end with the same bytes: ours is spread afresh.
fn follows_from_placement(history: &History) -> Outcome<()> {
    let afresh = history.sample.image();
    if afresh == history.image {
        return Ok(());
    }
    Err(Box::new(Difference {
        what: "the second program's own image does not follow from the placement".to_string(),
        image: history.image.clone(),
        second_out: afresh,
        ..Difference::default()
    }))
}

/// Mostly one word for each row exactly; else more, one short, or far too short.
fn work_length(random: &mut Random, rows: usize) -> usize {
    match random.below(10) {
        0 => rows.saturating_sub(1),
        1 => random.below(rows + 1),
        2 => rows + random.between(1, 200),
        _ => rows,
    }
}

/// Exactly enough, one short, more than enough, far too short, or the longest there is.
fn out_length(random: &mut Random, image: &[u8], list: &[u8]) -> usize {
    let unlimited = second::migrate(image, list, usize::MAX, usize::MAX);
    let enough = unlimited.map_or(image.len(), |migrated| migrated.image.len());
    match random.below(10) {
        0 | 1 => enough - 1,
        2 => random.below(enough),
        3 | 4 => enough + random.between(1, 500),
        5 => LONGEST_IMAGE,
        _ => enough,
    }
}
