//! Writes the first inputs: `seeds EXAMPLES FOLDER`. Every image of EXAMPLES with every list of EXAMPLES, and for some seeds a small random image, sound
//! or aimed at a refusal, with a list of its own; and one image that a list makes too long.

use composthum_fuzz::input::{Input, Length};
use second::move_list;
use second::random::source::Random;
use second::random::{damage, lists, sample};
use std::fs;
use std::io;
use std::path::{Path, PathBuf};
use std::process::ExitCode;

/// How many random inputs there are.
const RANDOM: u64 = 200;
/// Longer ones slow the run down and say little more.
const LONGEST: usize = 16_384;

fn main() -> ExitCode {
    let arguments: Vec<String> = std::env::args().collect();
    let [_, examples, folder] = &arguments[..] else {
        eprintln!("usage: seeds EXAMPLES FOLDER");
        return ExitCode::from(2);
    };
    match write_all(Path::new(examples), Path::new(folder)) {
        Ok(()) => ExitCode::SUCCESS,
        Err(error) => {
            eprintln!("{examples} to {folder}: {error}");
            ExitCode::FAILURE
        }
    }
}

fn write_all(examples: &Path, folder: &Path) -> io::Result<()> {
    let mut inputs = of_examples(examples)?;
    inputs.extend(random());
    inputs.extend(swelling());
    inputs.retain(|input| input.image.len() <= LONGEST);
    for (place, input) in inputs.iter().enumerate() {
        fs::write(folder.join(format!("seed-{place:03}")), input.bytes())?;
    }
    Ok(())
}

fn of_examples(examples: &Path) -> io::Result<Vec<Input>> {
    let mut files: Vec<PathBuf> = fs::read_dir(examples)?.map(|file| Ok(file?.path())).collect::<io::Result<_>>()?;
    files.sort();
    let read_all = |ending: &str| -> io::Result<Vec<Vec<u8>>> {
        let wanted = files.iter().filter(|file| file.extension().is_some_and(|found| found == ending));
        wanted.map(fs::read).collect()
    };
    let lists = read_all("list")?;
    let mut inputs = Vec::new();
    for image in read_all("dmp")? {
        for list in &lists {
            inputs.push(Input { number: 1, image: image.clone(), list: list.clone(), ..Input::default() });
        }
    }
    Ok(inputs)
}

fn random() -> Vec<Input> {
    let input = |seed: u64| {
        let random = &mut Random::new(seed);
        let sample = sample::damageable(random);
        let image = match seed % 14 {
            number @ 1..=12 => damage::aimed(random, &sample, number as u32),
            _ => sample.image(),
        };
        Input {
            number: 1,
            out: Length { kind: random.below(4) as u8, value: random.below(256) as u8 },
            work: Length { kind: random.below(4) as u8, value: random.below(256) as u8 },
            list: move_list::write(&lists::sound(random, &sample)),
            image,
            ..Input::default()
        }
    };
    (0..RANDOM).map(input).collect()
}

/// A short image with a list that makes it longer than an image may be.
fn swelling() -> Option<Input> {
    let samples = (0..1000).map(|seed| sample::swelling(&mut Random::new(seed)));
    let mut inputs = samples.map(|sample| Input { list: move_list::write(&lists::dealt(&sample)), image: sample.image(), ..Input::default() });
    let too_long = |input: &Input| second::migrate(&input.image, &input.list, usize::MAX, usize::MAX).is_err_and(|refusal| refusal.number == 18);
    inputs.find(|input| input.image.len() <= LONGEST && too_long(input))
}
