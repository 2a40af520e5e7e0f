//! Packs of texts: for each a line `@ NAME BYTES`, then so many bytes.

use std::error::Error;
use std::io::{self, BufRead, Write};

/// Gives each text of a pack, with its name.
pub fn each(
    mut input: impl BufRead,
    mut take: impl FnMut(&str, Vec<u8>),
) -> Result<(), Box<dyn Error>> {
    let mut line = String::new();
    while input.read_line(&mut line)? > 0 {
        let mut parts = line.split_whitespace();
        let (Some("@"), Some(name), Some(length)) = (parts.next(), parts.next(), parts.next())
        else {
            return Err(format!("no line `@ NAME BYTES`: {line}").into());
        };
        let mut text = vec![0; length.parse()?];
        input.read_exact(&mut text)?;
        take(name, text);
        line.clear();
    }
    Ok(())
}

/// Answers each text of a pack after a line `@ NAME`.
pub fn answer_all(
    input: impl BufRead,
    out: &mut impl Write,
    answer: impl Fn(&str, &[u8]) -> Vec<u8>,
) -> Result<(), Box<dyn Error>> {
    let mut wrote = Ok(());
    each(input, |name, text| {
        if wrote.is_ok() {
            wrote = write_answer(out, name, &answer(name, &text));
        }
    })?;
    Ok(wrote?)
}

/// Writes one answer after its line `@ NAME`.
pub fn write_answer(out: &mut impl Write, name: &str, answer: &[u8]) -> io::Result<()> {
    writeln!(out, "@ {name}")?;
    out.write_all(answer)
}
