//! Writes images and lists into files:
//! `generate tets PARTS BYTES MOVED_PERCENT IMAGE LIST [LIST_OF_ALL]` for measuring, and
//! `generate examples DIR` for the small meshes of document 01.

use second::mesh::Name;
use second::move_list::{self, Entry};
use second::{benchmark, small};
use std::path::Path;
use std::process::ExitCode;

const USAGE: &str = "\
usage: generate tets PARTS BYTES MOVED_PERCENT IMAGE LIST [LIST_OF_ALL]
       generate examples DIR";

fn main() -> ExitCode {
    let arguments: Vec<String> = std::env::args().skip(1).collect();
    let words: Vec<&str> = arguments.iter().map(String::as_str).collect();
    let done = match words[..] {
        ["tets", parts, bytes, percent, ref files @ ..] if (2..=3).contains(&files.len()) => {
            write_tetrahedra([parts, bytes, percent], files)
        }
        ["examples", folder] => write_examples(Path::new(folder)),
        _ => Err(USAGE.to_string()),
    };
    match done {
        Ok(()) => ExitCode::SUCCESS,
        Err(message) => {
            eprintln!("{message}");
            ExitCode::from(2)
        }
    }
}

fn write(path: &Path, bytes: &[u8]) -> Result<(), String> {
    std::fs::write(path, bytes).map_err(|error| format!("{}: {error}", path.display()))
}

/// The files are the image, the list and, if wanted, the list that moves all.
fn write_tetrahedra(numbers: [&str; 3], files: &[&str]) -> Result<(), String> {
    let [parts, bytes, percent] = numbers.map(|number| number.parse::<usize>().ok());
    let (Some(parts @ 1..=64), Some(bytes), Some(percent @ 0..=100)) = (parts, bytes, percent)
    else {
        return Err("PARTS is 1 to 64, MOVED_PERCENT 0 to 100".to_string());
    };
    let made = benchmark::tetrahedra(parts, bytes, percent)
        .ok_or(format!("{parts} parts take more than {bytes} bytes"))?;
    let image_bytes = made.sample.image();
    write(Path::new(files[0]), &image_bytes)?;
    write(Path::new(files[1]), &move_list::write(&made.moves))?;
    if let Some(list_of_all) = files.get(2) {
        write(Path::new(list_of_all), &move_list::write(&made.all_moves()))?;
    }
    println!(
        "{} tetrahedra in {parts} parts: {} rows, {} bytes; {} entries; {} bytes after the move",
        made.sample.placement.len(),
        made.sample.set().row_count(),
        image_bytes.len(),
        made.moves.len(),
        made.sample.length_after(&made.moves)
    );
    Ok(())
}

fn write_examples(folder: &Path) -> Result<(), String> {
    let entry = |dimension, number, part| Entry::new(Name::new(dimension, number), part);
    let images = [
        ("mesh-a.dmp", small::image_a()),
        ("mesh-b.dmp", small::image_b()),
        ("mesh-a-with-vertex-5.dmp", small::image_a_and_vertex_5()),
        ("empty-1-part.dmp", small::empty_image(1)),
        ("empty-64-parts.dmp", small::empty_image(64)),
        (
            "wrong-remote-slot-of-vertex-2.dmp",
            small::image_of_case_9(),
        ),
        ("wrong-owner-of-edge-3.dmp", small::image_of_case_10()),
        ("triangle-1-in-two-parts.dmp", small::image_of_case_11()),
    ];
    let lists = [
        ("send-triangle-2-to-1.list", vec![entry(2, 2, 1)]),
        ("send-triangle-1-to-1.list", vec![entry(2, 1, 1)]),
        (
            "send-vertex-5-and-triangle-2-to-1.list",
            vec![entry(0, 5, 1), entry(2, 2, 1)],
        ),
        ("send-nothing.list", Vec::new()),
        ("wrong-send-edge-3-to-1.list", vec![entry(1, 3, 1)]),
        ("wrong-send-triangle-9-to-1.list", vec![entry(2, 9, 1)]),
        ("wrong-send-triangle-2-to-2.list", vec![entry(2, 2, 2)]),
    ];
    for (name, image) in images {
        write(&folder.join(name), &image)?;
    }
    for (name, entries) in lists {
        write(&folder.join(name), &move_list::write(&entries))?;
    }
    Ok(())
}
