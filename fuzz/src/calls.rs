//! One call of each kind to the library, compared with the second program.

use crate::fence::{Fence, Side};
use crate::input::Input;
use second::comparison::{boxed_answer, checked_answer, found_answer, migrated_answer, out_pattern, work_pattern};
use second::foreign::Library;
use second::image::LONGEST_IMAGE;
use second::{boxed, check, lookup, migrate};
use std::fmt::Debug;

/// Room for the longest image and one that is too long.
const ROOM: usize = LONGEST_IMAGE + 65_536;

pub struct Calls {
    library: Library,
    image: Fence,
    list: Fence,
    out: Fence,
    work: Fence,
    /// Calls by the answer that they gave: 0 is accepted.
    answers: [u64; 22],
}

impl Calls {
    pub fn open(path: &str) -> Result<Calls, String> {
        Ok(Calls {
            library: Library::open(path)?,
            image: Fence::new(ROOM),
            list: Fence::new(ROOM),
            out: Fence::new(ROOM),
            work: Fence::new(ROOM),
            answers: [0; 22],
        })
    }

    pub fn print_answers(&self) {
        eprintln!("compared {} calls, by answer (0 is accepted):", self.answers.iter().sum::<u64>());
        for (number, calls) in self.answers.iter().enumerate() {
            eprintln!("{number:>6} {calls:>10}");
        }
    }

    /// What differs, if anything does.
    pub fn compare(&mut self, input: &Input) -> Result<(), String> {
        if input.image.len() > ROOM {
            return Ok(());
        }
        self.compare_looks(input)?;
        self.compare_migration(input)
    }

    fn compare_looks(&mut self, input: &Input) -> Result<(), String> {
        let image = self.image.bytes(input.image.len(), side_of(input));
        image.copy_from_slice(&input.image);
        let checked = checked_answer(check(&input.image));
        let found = found_answer(lookup(&input.image, input.dimension, input.number));
        let bounds = boxed_answer(boxed(&input.image, u32::from(input.part)));
        for number in [checked.refusal, found.refusal, bounds.refusal] {
            self.answers[number as usize] += 1;
        }
        same("check", checked, self.library.check(image))?;
        same("lookup", found, self.library.lookup(image, input.dimension, input.number))?;
        same("box", bounds, self.library.boxed(image, u32::from(input.part)))?;
        unwritten("image", &input.image, image)
    }

    fn compare_migration(&mut self, input: &Input) -> Result<(), String> {
        let (out_length, work_words) = lengths(input);
        let expected = migrate(&input.image, &input.list, out_length, work_words);
        let answer = migrated_answer(&expected);
        self.answers[answer.refusal as usize] += 1;
        let mut wanted = out_pattern(out_length);
        let side = side_of(input);
        let image = self.image.bytes(input.image.len(), side);
        let list = self.list.bytes(input.list.len(), side);
        let out = self.out.bytes(out_length, side);
        let work = self.work.words(work_words, side);
        image.copy_from_slice(&input.image);
        list.copy_from_slice(&input.list);
        out.copy_from_slice(&wanted);
        work.copy_from_slice(&work_pattern(work_words));
        if let Ok(migrated) = &expected {
            wanted[..migrated.image.len()].copy_from_slice(&migrated.image);
        }
        same("migrate", answer, self.library.migrate(image, list, out, work))?;
        if let Some(place) = wanted.iter().zip(&*out).position(|(wanted, byte)| wanted != byte) {
            return Err(format!("migrate: output differs from byte {place} on"));
        }
        if let Some(place) = work.iter().position(|&word| word != 0) {
            return Err(format!("migrate: working word {place} is not zero"));
        }
        unwritten("image", &input.image, image)?;
        unwritten("list", &input.list, list)
    }
}

fn side_of(input: &Input) -> Side {
    match input.side % 2 {
        0 => Side::End,
        _ => Side::Begin,
    }
}

/// How much is lent: what the second program needs, or something beside it. An image that is refused needs nothing.
fn lengths(input: &Input) -> (usize, usize) {
    let Ok(checked) = check(&input.image) else {
        return (input.out.beside(input.image.len().min(LONGEST_IMAGE)), input.work.beside(0));
    };
    let unlimited = migrate(&input.image, &input.list, usize::MAX, usize::MAX);
    let needed = unlimited.map_or(input.image.len(), |migrated| migrated.image.len());
    (input.out.beside(needed), input.work.beside(checked.rows))
}

fn same<T: PartialEq + Debug>(call: &str, second: T, library: T) -> Result<(), String> {
    match second == library {
        true => Ok(()),
        false => Err(format!("{call}: the second program says {second:?}, the library {library:?}")),
    }
}

fn unwritten(what: &str, before: &[u8], after: &[u8]) -> Result<(), String> {
    match before == after {
        true => Ok(()),
        false => Err(format!("the {what} was written to")),
    }
}
