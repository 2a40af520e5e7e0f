//! Makes case sheets, and texts for the assembler and the lister, from seeds.
//!
//!   generate KIND SEED                one text to standard output
//!   generate KIND FIRST LAST          a pack of texts to standard output
//!   generate KIND FIRST LAST FOLDER   one file for each text
//!
//! KIND is random, sweep, probes, loops, rings, outside, damaged or numbers for
//! sheets, cal or cal-damaged for texts of the assembler, octal for those of the
//! lister; FIRST and LAST are both included. A pack has, for each text, a line
//! `@ NAME BYTES` and then so many bytes.

use peer::cases::{Kind, KINDS};
use std::io::{self, BufWriter, Write};
use std::path::Path;
use std::process::ExitCode;

fn main() -> ExitCode {
    let arguments: Vec<String> = std::env::args().skip(1).collect();
    let arguments: Vec<&str> = arguments.iter().map(String::as_str).collect();
    let done = match arguments[..] {
        [kind, seed] => one(kind, seed),
        [kind, first, last] => pack(kind, first, last),
        [kind, first, last, folder] => files(kind, first, last, folder),
        _ => Err("generate KIND SEED | KIND FIRST LAST [FOLDER]".into()),
    };
    match done {
        Ok(()) => ExitCode::SUCCESS,
        Err(error) => {
            eprintln!("{error}");
            ExitCode::FAILURE
        }
    }
}

type Done = Result<(), Box<dyn std::error::Error>>;

fn kind(name: &str) -> Result<&'static Kind, String> {
    let names = KINDS.map(|kind| kind.name).join(", ");
    peer::cases::kind(name).ok_or_else(|| format!("no kind {name}; there are {names}"))
}

fn name(kind: &Kind, seed: u64) -> String {
    format!("{}-{seed:06}", kind.name)
}

fn one(of: &str, seed: &str) -> Done {
    let text = (kind(of)?.text)(seed.parse()?);
    io::stdout().write_all(&text)?;
    Ok(())
}

fn pack(of: &str, first: &str, last: &str) -> Done {
    let kind = kind(of)?;
    let mut out = BufWriter::new(io::stdout().lock());
    for seed in first.parse()?..=last.parse()? {
        let text = (kind.text)(seed);
        writeln!(out, "@ {} {}", name(kind, seed), text.len())?;
        out.write_all(&text)?;
    }
    out.flush()?;
    Ok(())
}

fn files(of: &str, first: &str, last: &str, folder: &str) -> Done {
    let kind = kind(of)?;
    std::fs::create_dir_all(folder)?;
    for seed in first.parse()?..=last.parse()? {
        let file = format!("{}.{}", name(kind, seed), kind.ending);
        std::fs::write(Path::new(folder).join(file), (kind.text)(seed))?;
    }
    Ok(())
}
