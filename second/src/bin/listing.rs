//! Prints the listing of the image on standard input, to lay beside the library's own program.

use std::io::{self, Read, Write};

fn main() -> io::Result<()> {
    let mut image = Vec::new();
    io::stdin().read_to_end(&mut image)?;
    io::stdout().write_all(&second::listing(&image))
}
