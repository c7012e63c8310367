//! The second lister: prints the listing of the site file on standard input.

use second::listing::{listing, MOST_BYTES};
use std::io::{self, Read, Write};

fn main() -> io::Result<()> {
    let mut file = Vec::new();
    io::stdin().take(MOST_BYTES as u64).read_to_end(&mut file)?;
    io::stdout().write_all(listing(&file).as_bytes())
}
