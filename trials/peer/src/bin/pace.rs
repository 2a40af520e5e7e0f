//! Times some loops of a million steps and prints nanoseconds for a step.
//!
//!   pace            the loops below
//!   pace FILE ...   case sheets instead, each with its own budget

use peer::{read, run, start, Sheet};
use std::time::Instant;

/// Loops as parcels in octal; each ends in a branch to parcel 0.
const LOOPS: [(&str, &[u16]); 4] = [
    (
        "address and scalar registers",
        &[
            0o030_110, 0o031_223, 0o032_312, 0o060_412, 0o046_545, 0o054_603, 0o006_000, 0,
        ],
    ),
    (
        "scalar memory references",
        &[0o121_100, 0x40, 0o060_112, 0o131_100, 0x40, 0o006_000, 0],
    ),
    (
        "counted branch",
        &[0o022_077, 0o031_000, 0o011_000, 1, 0o006_000, 0],
    ),
    (
        "vectors of 64 elements",
        &[0o176_100, 0o155_212, 0o145_321, 0o177_030, 0o006_000, 0],
    ),
];

fn main() -> Result<(), Box<dyn std::error::Error>> {
    let files: Vec<String> = std::env::args().skip(1).collect();
    for (name, parcels) in LOOPS.iter().filter(|_| files.is_empty()) {
        time(name, &looping(parcels));
    }
    for file in files {
        let sheet = read(&std::fs::read(&file)?);
        let sheet = sheet.map_err(|line| format!("{file} is bad at line {line}"))?;
        time(&file, &sheet);
    }
    Ok(())
}

/// A sheet that runs a loop in monitor mode from word 0400 on, with data from
/// word 0800 on.
fn looping(parcels: &[u16]) -> Sheet {
    let mut words = vec![
        (1, 32 << 29),
        (2, 64 << 29 | 1 << 24),
        (4, 64 << 29),
        (5, 128 << 29),
    ];
    for (n, four) in parcels.chunks(4).enumerate() {
        let mut word = 0;
        for (place, parcel) in four.iter().enumerate() {
            word |= u64::from(*parcel) << (48 - 16 * place);
        }
        words.push((0x400 + n as u16, word));
    }
    let steps = 1_000_000;
    Sheet { steps, words }
}

/// The best of twenty runs, which disturbs least.
fn time(name: &str, sheet: &Sheet) {
    let mut best = f64::INFINITY;
    let mut steps = 0;
    for _ in 0..20 {
        let mut memory = peer::sheet::memory(sheet);
        let Ok(mut state) = start(&memory, 0, 0) else {
            return;
        };
        let begun = Instant::now();
        let ended = run(&mut state, &mut memory, sheet.steps);
        let taken = begun.elapsed().as_nanos() as f64;
        steps = ended.map_or(0, |ended| ended.steps);
        best = best.min(taken / steps.max(1) as f64);
    }
    println!("{name}: {best:.2} ns for a step, {steps} steps");
}
