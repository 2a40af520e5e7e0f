//! Runs case sheets by the library and by the independent program, in one
//! process, and says where they differ.
//!
//!   beside KIND FIRST LAST [KIND FIRST LAST ...]
//!
//! The sheets are those that `generate` makes, FIRST and LAST both included.
//! How the run ended, its steps, what it tells of operands outside, all registers
//! and all of memory are compared.
//! There is a line `NAME: WHAT` for each sheet that differs. A damaged one that
//! no reader takes is passed over: the library has no reader. The last line is
//! `N compared, M passed over, D differ`; the exit status is 1 if any differs.

#![forbid(unsafe_code)]

use beside::sheets::{sheet, Desk};
use std::error::Error;
use std::process::ExitCode;

#[derive(Default)]
struct Tally {
    compared: u64,
    passed_over: u64,
    differ: u64,
}

fn main() -> Result<ExitCode, Box<dyn Error>> {
    let arguments: Vec<String> = std::env::args().skip(1).collect();
    let mut desk = Desk::default();
    let mut tally = Tally::default();
    for range in arguments.chunks(3) {
        let [kind, first, last] = range else {
            return Err("beside KIND FIRST LAST [KIND FIRST LAST ...]".into());
        };
        if peer::cases::kind(kind).is_none() {
            return Err(format!("no kind {kind}").into());
        }
        for seed in first.parse()?..=last.parse()? {
            compare(&mut desk, &mut tally, kind, seed);
        }
    }
    let Tally {
        compared,
        passed_over,
        differ,
    } = tally;
    println!("{compared} compared, {passed_over} passed over, {differ} differ");
    Ok(ExitCode::from(u8::from(differ > 0)))
}

fn compare(desk: &mut Desk, tally: &mut Tally, kind: &str, seed: u64) {
    let Some(sheet) = sheet(kind, seed) else {
        tally.passed_over += 1;
        return;
    };
    tally.compared += 1;
    if let Err(what) = desk.run(&sheet, 0) {
        tally.differ += 1;
        println!("{kind}-{seed:06}: {what}");
    }
}
