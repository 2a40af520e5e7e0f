//! Whole case sheets, run by both.

use crate::{told, try_start, Beside};
use peer::Sheet;
use pulxarrid::Ran;

/// The sheet of a kind's seed, where that is a good one.
pub fn sheet(kind: &str, seed: u64) -> Option<Sheet> {
    let text = peer::cases::text(kind, seed)?;
    peer::read(&text).ok()
}

/// The memory of a good sheet.
pub fn memory(kind: &str, seed: u64) -> Vec<u64> {
    let sheet = sheet(kind, seed).expect("a kind of good sheets");
    peer::sheet::memory(&sheet)
}

/// Two memories that one sheet after the other is run in.
pub struct Desk(Beside);

impl Default for Desk {
    fn default() -> Desk {
        let memory = vec![0; peer::sheet::MEMORY];
        Desk(Beside::new(memory, vec![peer::State::clear(0)]))
    }
}

impl Desk {
    /// Starts a processor from package 0 of a sheet and runs it, by both. The
    /// error says what differs first.
    pub fn run(&mut self, sheet: &Sheet, processor: u32) -> Result<Ran, String> {
        let beside = &mut self.0;
        for memory in [&mut beside.memory, &mut beside.peers] {
            memory.fill(0);
            for (address, value) in &sheet.words {
                memory[usize::from(*address)] = *value;
            }
        }
        let refused = |number| format!("both refuse by {number}");
        let started = try_start(&beside.memory, 0, processor)?;
        (beside.pair.first, beside.states[0]) = started.map_err(refused)?;
        beside.try_run(sheet.steps)?.map_err(refused)
    }
}

/// Runs a good sheet of a kind, `most` steps at most; a difference is a test
/// that fails.
pub fn run(desk: &mut Desk, kind: &str, seed: u64, most: u64) -> Ran {
    let mut sheet = sheet(kind, seed).expect("a kind of good sheets");
    sheet.steps = sheet.steps.min(most);
    let ran = desk.run(&sheet, 0);
    told(ran.map_err(|what| format!("{kind} {seed}: {what}")))
}
