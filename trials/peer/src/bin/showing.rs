//! Counts the case sheets that show a deliberate error.
//!
//!   showing COUNT < PACK
//!
//! It prints the answers with no error on, each after a line `@ NAME`, and then
//! COUNT lines: for each error from 1 on, how many sheets it makes answer
//! otherwise. A panic is such an answer too. The errors are only in the copy of
//! these sources that the script `trials/errors` makes.

use peer::packs::answer_all;
use peer::switch;
use std::cell::RefCell;
use std::error::Error;
use std::io::{self, BufWriter, Write};
use std::panic::{catch_unwind, set_hook};
use std::sync::atomic::{AtomicUsize, Ordering};
use std::thread;

/// A sheet and its answer with no error on.
type Case = (Vec<u8>, String);

fn main() -> Result<(), Box<dyn Error>> {
    let count = std::env::args().nth(1).ok_or("showing COUNT < PACK")?;
    let mut out = BufWriter::new(io::stdout().lock());
    let cases = RefCell::new(Vec::new());
    answer_all(io::stdin().lock(), &mut out, |_, text| {
        let answer = peer::answer(text);
        cases.borrow_mut().push((text.to_vec(), answer.clone()));
        answer.into_bytes()
    })?;
    for shown in counts(&cases.into_inner(), count.parse()?) {
        writeln!(out, "{}", shown.into_inner())?;
    }
    out.flush()?;
    Ok(())
}

/// How many cases show each error. Two threads take the errors by turns.
fn counts(cases: &[Case], count: usize) -> Vec<AtomicUsize> {
    set_hook(Box::new(|_| ()));
    let counts: Vec<AtomicUsize> = (0..count).map(|_| AtomicUsize::new(0)).collect();
    let next = AtomicUsize::new(0);
    let work = || loop {
        let place = next.fetch_add(1, Ordering::Relaxed);
        match counts.get(place) {
            Some(shown) => shown.store(showing(cases, place + 1), Ordering::Relaxed),
            None => return,
        }
    };
    thread::scope(|scope| {
        scope.spawn(work);
        scope.spawn(work);
    });
    counts
}

/// How many cases answer otherwise with an error on.
fn showing(cases: &[Case], error: usize) -> usize {
    switch::set(error);
    let differs =
        |case: &&Case| catch_unwind(|| peer::answer(&case.0)).ok().as_ref() != Some(&case.1);
    cases.iter().filter(differs).count()
}
