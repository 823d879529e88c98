//! Compares single calls: the library's answer and buffers against what the second program says.

use crate::foreign::{DmpBoxed, DmpChecked, DmpFound, DmpMigrated, Library};
use crate::migrate::{migrate, Migrated};
use crate::refusal::Refusal;
use crate::{boxed, check, lookup};
use std::fmt::Debug;

/// Bytes and words behind each lent buffer that no call may touch.
const GUARD: usize = 16;

/// A call on which the two programs disagree, with all that is needed to look into it.
#[derive(Debug, Default)]
pub struct Difference {
    pub what: String,
    pub image: Vec<u8>,
    pub list: Vec<u8>,
    pub second_out: Vec<u8>,
    pub library_out: Vec<u8>,
}

pub type Outcome<T> = Result<T, Box<Difference>>;

/// A library and a count of the calls by the answer that they gave: 0 is accepted.
pub struct Comparison {
    library: Library,
    pub answers: [u64; 22],
}

impl Comparison {
    pub fn new(library: Library) -> Comparison {
        Comparison {
            library,
            answers: [0; 22],
        }
    }

    pub fn calls(&self) -> u64 {
        self.answers.iter().sum()
    }

    pub fn check(&mut self, image: &[u8]) -> Outcome<()> {
        let second = checked_answer(check(image));
        let lent = image.to_vec();
        let library = self.library.check(&lent);
        self.answers[second.refusal as usize] += 1;
        agree("check", image, second, library)?;
        unchanged("check", image, &lent)
    }

    pub fn lookup(&mut self, image: &[u8], dimension: u8, number: u32) -> Outcome<()> {
        let second = found_answer(lookup(image, dimension, number));
        let lent = image.to_vec();
        let library = self.library.lookup(&lent, dimension, number);
        self.answers[second.refusal as usize] += 1;
        let call = format!("lookup of dimension {dimension} number {number}");
        agree(&call, image, second, library)?;
        unchanged(&call, image, &lent)
    }

    pub fn boxed(&mut self, image: &[u8], part: u32) -> Outcome<()> {
        let second = boxed_answer(boxed(image, part));
        let lent = image.to_vec();
        let library = self.library.boxed(&lent, part);
        self.answers[second.refusal as usize] += 1;
        let call = format!("box of part {part}");
        agree(&call, image, second, library)?;
        unchanged(&call, image, &lent)
    }

    /// Gives what the second program answered, so that a history can go on from it.
    pub fn migrate(
        &mut self,
        image: &[u8],
        list: &[u8],
        out_len: usize,
        work_words: usize,
    ) -> Outcome<Result<Migrated, Refusal>> {
        let expected = migrate(image, list, out_len, work_words);
        let second = migrated_answer(&expected);
        self.answers[second.refusal as usize] += 1;
        let mut second_out = out_pattern(out_len + GUARD);
        if let Ok(migrated) = &expected {
            second_out[..migrated.image.len()].copy_from_slice(&migrated.image);
        }
        let mut out = out_pattern(out_len + GUARD);
        let mut work = work_pattern(work_words + GUARD);
        let (lent_image, lent_list) = (image.to_vec(), list.to_vec());
        let library = self.library.migrate(
            &lent_image,
            &lent_list,
            &mut out[..out_len],
            &mut work[..work_words],
        );
        let faults = [
            (second != library).then(|| format!("answers {second:?} and {library:?}")),
            (out != second_out).then(|| first_unlike_byte(&second_out, &out)),
            work_fault(&work, work_words),
            (lent_image != image).then(|| "the image was written to".to_string()),
            (lent_list != list).then(|| "the list was written to".to_string()),
        ];
        match faults.into_iter().flatten().next() {
            None => Ok(expected),
            Some(fault) => Err(Box::new(Difference {
                what: format!("migrate, {out_len} output bytes, {work_words} words: {fault}"),
                image: image.to_vec(),
                list: list.to_vec(),
                second_out,
                library_out: out,
            })),
        }
    }
}

// ---- what is compared

fn agree<T: PartialEq + Debug>(call: &str, image: &[u8], second: T, library: T) -> Outcome<()> {
    if second == library {
        return Ok(());
    }
    Err(Box::new(Difference {
        what: format!("{call}: answers {second:?} and {library:?}"),
        image: image.to_vec(),
        ..Difference::default()
    }))
}

fn unchanged(call: &str, image: &[u8], lent: &[u8]) -> Outcome<()> {
    let said = match image == lent {
        true => "image unchanged",
        false => "image changed",
    };
    agree(call, image, "image unchanged", said)
}

fn first_unlike_byte(second: &[u8], library: &[u8]) -> String {
    let place = second.iter().zip(library).position(|(a, b)| a != b);
    format!("output differs from byte {} on", place.unwrap_or(0))
}

/// All lent words are zero afterwards, and the words behind them are as they were.
fn work_fault(work: &[u64], work_words: usize) -> Option<String> {
    let left = work[..work_words].iter().position(|&word| word != 0);
    let behind = work[work_words..] != work_pattern(work.len())[work_words..];
    match (left, behind) {
        (Some(word), _) => Some(format!("working word {word} is not zero")),
        (None, true) => Some("words behind the working buffer were written".to_string()),
        (None, false) => None,
    }
}

/// What a buffer holds before a call: never zero, never the same for long.
pub fn out_pattern(length: usize) -> Vec<u8> {
    (0..length)
        .map(|place| (place % 251) as u8 ^ 0xa5)
        .collect()
}

pub fn work_pattern(length: usize) -> Vec<u64> {
    let word = |place: usize| (place as u64 + 1).wrapping_mul(0x9e37_79b9_7f4a_7c15);
    (0..length).map(word).collect()
}

// ---- answers in the form of the C interface: every number 0 that the answer does not set

pub fn checked_answer(answer: Result<crate::Checked, Refusal>) -> DmpChecked {
    match answer {
        Ok(checked) => DmpChecked {
            parts: checked.parts as u32,
            rows: checked.rows as u32,
            ..DmpChecked::default()
        },
        Err(Refusal {
            number,
            major,
            minor,
        }) => DmpChecked {
            refusal: number,
            major,
            minor,
            ..DmpChecked::default()
        },
    }
}

pub fn migrated_answer(answer: &Result<Migrated, Refusal>) -> DmpMigrated {
    match answer {
        Ok(migrated) => DmpMigrated {
            length: migrated.image.len() as u32,
            rows: migrated.rows as u32,
            moved: migrated.moved as u32,
            ..DmpMigrated::default()
        },
        &Err(Refusal {
            number,
            major,
            minor,
        }) => DmpMigrated {
            refusal: number,
            major,
            minor,
            ..DmpMigrated::default()
        },
    }
}

pub fn found_answer(answer: Result<crate::Found, Refusal>) -> DmpFound {
    match answer {
        Ok(found) => DmpFound {
            owner: found.owner as u32,
            residence: found.residence,
            ..DmpFound::default()
        },
        Err(Refusal {
            number,
            major,
            minor,
        }) => DmpFound {
            refusal: number,
            major,
            minor,
            ..DmpFound::default()
        },
    }
}

pub fn boxed_answer(answer: Result<Option<crate::Bounds>, Refusal>) -> DmpBoxed {
    match answer {
        Ok(None) => DmpBoxed::default(),
        Ok(Some(bounds)) => DmpBoxed {
            any: 1,
            least: bounds.least,
            greatest: bounds.greatest,
            ..DmpBoxed::default()
        },
        Err(Refusal {
            number,
            major,
            minor,
        }) => DmpBoxed {
            refusal: number,
            major,
            minor,
            ..DmpBoxed::default()
        },
    }
}
