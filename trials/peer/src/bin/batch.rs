//! Answers many case sheets in one process.
//!
//!   batch FOLDER    every file of the folder that ends in .sheet, by name
//!   batch           a pack of sheets from standard input, as `generate` makes
//!
//! Each answer follows a line `@ NAME`.

use peer::packs::{answer_all, write_answer};
use std::error::Error;
use std::io::{self, BufWriter, Write};
use std::path::{Path, PathBuf};

fn main() -> Result<(), Box<dyn Error>> {
    let mut out = BufWriter::new(io::stdout().lock());
    match std::env::args().nth(1) {
        Some(folder) => folder_answers(Path::new(&folder), &mut out)?,
        None => answer_all(io::stdin().lock(), &mut out, |_, text| answer(text))?,
    }
    out.flush()?;
    Ok(())
}

fn folder_answers(folder: &Path, out: &mut impl Write) -> Result<(), Box<dyn Error>> {
    let mut files: Vec<PathBuf> = Vec::new();
    for entry in std::fs::read_dir(folder)? {
        let file = entry?.path();
        if file.extension().is_some_and(|end| end == "sheet") {
            files.push(file);
        }
    }
    files.sort();
    for file in files {
        let name = file.file_stem().unwrap_or_default().to_string_lossy();
        write_answer(out, &name, &answer(&std::fs::read(&file)?))?;
    }
    Ok(())
}

fn answer(text: &[u8]) -> Vec<u8> {
    peer::answer(text).into_bytes()
}
