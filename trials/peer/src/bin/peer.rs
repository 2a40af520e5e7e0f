//! Reads one case sheet from standard input and prints the answer.

use std::io::{self, Read, Write};

fn main() -> io::Result<()> {
    // One byte over the longest text is enough to know that it is too long.
    let most = peer::sheet::LONGEST as u64 + 1;
    let mut text = Vec::new();
    io::stdin().lock().take(most).read_to_end(&mut text)?;
    io::stdout().write_all(peer::answer(&text).as_bytes())
}
