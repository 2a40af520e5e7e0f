//! Counts the sheets that would show a mistake, cell by cell.
//!
//!   cover KIND FIRST LAST ...   sheets of the generator
//!   cover                       a pack of sheets from standard input
//!
//! Prints the cells that fewer than three sheets reach, each after its count,
//! and fails if there are any. With --counts as the first argument it prints
//! all cells.

use peer::cover::Cover;
use peer::{cases, packs};
use std::error::Error;
use std::io;
use std::process::ExitCode;

fn main() -> Result<ExitCode, Box<dyn Error>> {
    let mut arguments: Vec<String> = std::env::args().skip(1).collect();
    let counts = arguments.first().is_some_and(|word| word == "--counts");
    if counts {
        arguments.remove(0);
    }
    let cover = halves(&sheets(&arguments)?);
    if counts {
        cover.print(&mut io::stdout().lock())?;
    }
    let missing = cover.missing();
    for line in &missing {
        println!("{line}");
    }
    println!(
        "{} cells are reached by fewer than three sheets",
        missing.len()
    );
    Ok(ExitCode::from(u8::from(!missing.is_empty())))
}

fn sheets(ranges: &[String]) -> Result<Vec<Vec<u8>>, Box<dyn Error>> {
    let mut sheets = Vec::new();
    if ranges.is_empty() {
        packs::each(io::stdin().lock(), |_, text| sheets.push(text))?;
    }
    for range in ranges.chunks(3) {
        let [name, first, last] = range else {
            return Err("cover KIND FIRST LAST ...".into());
        };
        let kind = cases::kind(name).ok_or_else(|| format!("no kind {name}"))?;
        let seeds = first.parse()?..=last.parse()?;
        sheets.extend(seeds.map(kind.text));
    }
    Ok(sheets)
}

/// Counts half of the sheets in a thread of its own.
fn halves(sheets: &[Vec<u8>]) -> Cover {
    let count = |half: usize| {
        let mut cover = Cover::default();
        let own = sheets.iter().skip(half).step_by(2);
        own.for_each(|text| cover.sheet(text));
        cover
    };
    std::thread::scope(|scope| {
        let other = scope.spawn(|| count(1));
        let mut cover = count(0);
        if let Ok(more) = other.join() {
            cover.add(more);
        }
        cover
    })
}
