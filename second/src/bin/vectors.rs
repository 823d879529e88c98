//! Runs a program over vectors and compares what it prints with the second program's answers:
//! `vectors PROGRAM`.
//!
//! The program reads one question from standard input: a dimension, an entity number and a part, 32 bits each, lowest
//! byte first, and then an image. It prints three lines, `check`, `lookup` and `box`, each with the numbers of its
//! answer (of a box only whether there is one). The last line here is 'N passed, M failed'.

use second::random::sample::{self, Sample};
use second::random::source::Random;
use second::random::{damage, lists};
use second::{boxed, check, lookup, small, Refusal};
use std::io::Write;
use std::process::{Command, ExitCode, Stdio};

/// How many images are aimed at each refusal of the check.
const AIMED: usize = 10;
/// The longest image that the program reads; longer ones are compared through the C calls.
const LONGEST: usize = 65_536;
/// Every answer that check, lookup and box can give must come up so often; refusal 1 is of longer images only.
const LEAST: usize = 3;

struct Question {
    what: String,
    dimension: u8,
    number: u32,
    part: u32,
    image: Vec<u8>,
}

fn main() -> ExitCode {
    let arguments: Vec<String> = std::env::args().collect();
    let [_, program] = &arguments[..] else {
        eprintln!("usage: vectors PROGRAM");
        return ExitCode::from(2);
    };
    let (mut passed, mut failed) = (0, 0);
    let mut seen = [0usize; 22];
    for question in questions() {
        let wanted = answers(&question, &mut seen);
        match asked(program, &question) {
            Ok(got) if got == wanted => passed += 1,
            Ok(got) => {
                failed += 1;
                println!("{}: wanted\n{wanted}got\n{got}", question.what);
            }
            Err(message) => {
                failed += 1;
                println!("{}: {message}", question.what);
            }
        }
    }
    for number in (2..=12).chain(20..=21) {
        if seen[number] < LEAST {
            failed += 1;
            println!("refusal {number} came up {} times only", seen[number]);
        }
    }
    println!("{passed} passed, {failed} failed");
    match failed {
        0 => ExitCode::SUCCESS,
        _ => ExitCode::FAILURE,
    }
}

// ---- the questions

fn questions() -> Vec<Question> {
    let mut all = small_questions();
    for number in 1..=12 {
        for seed in 0..AIMED as u64 {
            let random = &mut Random::new(1000 * number + seed);
            let sample = sample::damageable(random);
            let image = damage::aimed(random, &sample, number as u32);
            let what = format!("aimed at refusal {number}, seed {seed}");
            all.push(asked_of(random, &sample, what, image));
        }
    }
    for seed in 0..60 {
        let random = &mut Random::new(seed);
        let sample = sample::modest(random);
        let image = sample.image();
        all.push(asked_of(
            random,
            &sample,
            format!("sound, seed {seed}"),
            image,
        ));
    }
    all.retain(|question| question.image.len() <= LONGEST);
    all
}

/// The small meshes of the document: each entity of mesh A, one that is not there, each part and one that is not there.
fn small_questions() -> Vec<Question> {
    let images = [
        ("A", small::image_a()),
        ("B", small::image_b()),
        ("A and vertex 5", small::image_a_and_vertex_5()),
        ("no rows, 1 part", small::empty_image(1)),
        ("no rows, 64 parts", small::empty_image(64)),
        ("case 9", small::image_of_case_9()),
        ("case 10", small::image_of_case_10()),
        ("case 11", small::image_of_case_11()),
    ];
    let mut all = Vec::new();
    for (name, image) in images {
        for (dimension, number) in [
            (0, 1),
            (0, 2),
            (0, 5),
            (1, 3),
            (2, 2),
            (2, 9),
            (4, 1),
            (255, 0),
        ] {
            for part in [0, 1, 2, 63, 64, u32::MAX] {
                all.push(Question {
                    what: format!("{name}, entity {dimension} {number}, part {part}"),
                    dimension,
                    number,
                    part,
                    image: image.clone(),
                });
            }
        }
    }
    all
}

/// A question about an entity and a part that are there or not.
fn asked_of(random: &mut Random, sample: &Sample, what: String, image: Vec<u8>) -> Question {
    let names: Vec<_> = sample.mesh.entities.keys().copied().collect();
    let name = match random.chance(70) && !names.is_empty() {
        true => random.pick(&names),
        false => lists::missing_name(random, sample),
    };
    let part = random.below(sample.part_count + 2) as u32;
    Question {
        what,
        dimension: name.dimension,
        number: name.number,
        part,
        image,
    }
}

// ---- the answers

fn answers(question: &Question, seen: &mut [usize; 22]) -> String {
    let image = &question.image;
    let checked = check(image);
    let found = lookup(image, question.dimension, question.number);
    let bounds = boxed(image, question.part);
    for refusal in [
        checked.as_ref().err(),
        found.as_ref().err(),
        bounds.as_ref().err(),
    ] {
        seen[refusal.map_or(0, |refusal| refusal.number as usize)] += 1;
    }
    let check_line = match checked {
        Ok(checked) => format!("check 0 0 0 {} {}", checked.parts, checked.rows),
        Err(refusal) => format!("check {} 0 0", place(&refusal)),
    };
    let lookup_line = match found {
        Ok(found) => format!("lookup 0 0 0 {} {}", found.owner, found.residence),
        Err(refusal) => format!("lookup {} 0 0", place(&refusal)),
    };
    let box_line = match bounds {
        Ok(Some(_)) => "box 0 0 0 1".to_string(),
        Ok(None) => "box 0 0 0 0".to_string(),
        Err(refusal) => format!("box {} 0", place(&refusal)),
    };
    format!("{check_line}\n{lookup_line}\n{box_line}\n")
}

fn place(refusal: &Refusal) -> String {
    format!("{} {} {}", refusal.number, refusal.major, refusal.minor)
}

fn asked(program: &str, question: &Question) -> Result<String, String> {
    let mut child = Command::new(program)
        .stdin(Stdio::piped())
        .stdout(Stdio::piped())
        .spawn()
        .map_err(|error| format!("{program}: {error}"))?;
    let mut bytes = u32::from(question.dimension).to_le_bytes().to_vec();
    bytes.extend(question.number.to_le_bytes());
    bytes.extend(question.part.to_le_bytes());
    bytes.extend(&question.image);
    let mut input = child.stdin.take().expect("its input is a pipe");
    input.write_all(&bytes).map_err(|error| error.to_string())?;
    drop(input);
    let output = child
        .wait_with_output()
        .map_err(|error| error.to_string())?;
    String::from_utf8(output.stdout).map_err(|error| error.to_string())
}
