//! Takes steps of two processors in turn, for the benchmark.
//!
//!   pairs TURN STEPS < SHEET
//!
//! They start from packages 0 and 1 of the sheet. The schedule changes
//! processor after TURN steps. Prints how many steps were taken.

use std::io::{self, Read};

/// The steps of one pair run.
const PART: usize = 50_000;

fn main() -> Result<(), Box<dyn std::error::Error>> {
    let numbers: Vec<String> = std::env::args().skip(1).collect();
    let [turn, count] = &numbers[..] else {
        return Err("two numbers are wanted".into());
    };
    let (turn, count): (usize, u64) = (turn.parse()?, count.parse()?);
    let mut text = Vec::new();
    io::stdin().lock().read_to_end(&mut text)?;
    let sheet = peer::read(&text).map_err(|line| format!("bad at line {line}"))?;
    println!("steps={}", steps(peer::sheet::memory(&sheet), turn, count)?);
    Ok(())
}

/// The steps that were taken, or the number of a refusal.
fn steps(mut memory: Vec<u64>, turn: usize, count: u64) -> Result<u64, String> {
    let refused = |number| format!("refused={number}");
    let schedule: Vec<u8> = (0..PART).map(|n| (n / turn.max(1) % 2) as u8).collect();
    let mut first = peer::start(&memory, 0, 0).map_err(refused)?;
    let mut second = peer::start(&memory, 1, 1).map_err(refused)?;
    let mut steps = 0;
    while steps < count {
        let ended = peer::pair_run(&mut first, &mut second, &mut memory, &schedule);
        let took = ended.map_err(refused)?.steps;
        steps += took;
        if took < PART as u64 {
            break;
        }
    }
    Ok(steps)
}
