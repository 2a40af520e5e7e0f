//! The case sheet: its reader, and the answer that a program prints.

use crate::machine::{run, start, Cause, Ended, Outside, Stop};
use crate::state::State;
use std::fmt::Write;

/// The longest text that is looked at.
pub const LONGEST: usize = 24_576;
/// The words of memory that a sheet's machine has.
pub const MEMORY: usize = 4_096;

/// A sheet as read: the budget and the words that are not zero by default.
#[derive(Clone, PartialEq, Eq, Debug)]
pub struct Sheet {
    pub steps: u64,
    pub words: Vec<(u16, u64)>,
}

/// Reads a sheet; the error is the number of the first bad line.
pub fn read(text: &[u8]) -> Result<Sheet, u64> {
    if text.len() > LONGEST {
        return Err(0);
    }
    let mut lines = Lines { text, number: 0 };
    let steps = lines.next(|line| setting(line, b"steps=", 1_000_000))?;
    let count = lines.next(|line| setting(line, b"words=", 1_024))?;
    let mut words: Vec<(u16, u64)> = Vec::with_capacity(count as usize);
    for _ in 0..count {
        let floor = words.last().map_or(0, |last| last.0 + 1);
        words.push(lines.next(|line| word(line, floor))?);
    }
    if lines.text.is_empty() {
        Ok(Sheet { steps, words })
    } else {
        Err(lines.number + 1)
    }
}

/// The text not yet read, and the number of the last line taken from it.
struct Lines<'t> {
    text: &'t [u8],
    number: u64,
}

impl Lines<'_> {
    /// Takes a line that ends in a newline and has the wanted form.
    fn next<T>(&mut self, form: impl Fn(&[u8]) -> Option<T>) -> Result<T, u64> {
        self.number += 1;
        let end = self.text.iter().position(|byte| *byte == b'\n');
        let end = end.ok_or(self.number)?;
        let value = form(&self.text[..end]).ok_or(self.number)?;
        self.text = &self.text[end + 1..];
        Ok(value)
    }
}

fn setting(line: &[u8], name: &[u8], most: u64) -> Option<u64> {
    let digits = line.strip_prefix(name)?;
    // No number in range has more than seven digits, so none can overflow.
    if digits.is_empty() || digits.len() > 7 || (digits[0] == b'0' && digits.len() > 1) {
        return None;
    }
    let mut value = 0;
    for digit in digits {
        if !digit.is_ascii_digit() {
            return None;
        }
        value = value * 10 + u64::from(digit - b'0');
    }
    (value <= most).then_some(value)
}

fn word(line: &[u8], floor: u16) -> Option<(u16, u64)> {
    if line.len() != 21 || line[4] != b'=' {
        return None;
    }
    let address = hexadecimal(&line[..4])? as u16;
    let value = hexadecimal(&line[5..])?;
    (address >= floor && usize::from(address) < MEMORY).then_some((address, value))
}

fn hexadecimal(digits: &[u8]) -> Option<u64> {
    let mut value = 0;
    for digit in digits {
        let figure = match digit {
            b'0'..=b'9' => digit - b'0',
            b'A'..=b'F' => digit - b'A' + 10,
            _ => return None,
        };
        value = value << 4 | u64::from(figure);
    }
    Some(value)
}

/// The memory that a sheet describes.
pub fn memory(sheet: &Sheet) -> Vec<u64> {
    let mut words = vec![0; MEMORY];
    for (address, value) in &sheet.words {
        words[usize::from(*address)] = *value;
    }
    words
}

/// The whole answer to a text: the refusal, or the report of the run.
pub fn answer(text: &[u8]) -> String {
    let sheet = match read(text) {
        Ok(sheet) => sheet,
        Err(line) => return format!("refused=8\nline={line}\n"),
    };
    let before = memory(&sheet);
    let mut after = before.clone();
    // Neither call can refuse: memory, package, processor and budget are good.
    let started = start(&before, 0, 0);
    let ran = started.and_then(|mut state| {
        let ended = run(&mut state, &mut after, sheet.steps)?;
        Ok((state, ended))
    });
    match ran {
        Ok((state, ended)) => report(&state, ended, &before, &after),
        Err(number) => format!("refused={number}\n"),
    }
}

/// The report of a run that ended in `state`, the memory being given as it
/// was at the start and as it is now.
pub fn report(state: &State, ended: Ended, before: &[u64], after: &[u64]) -> String {
    let mut text = String::new();
    let stop = match ended.stop {
        Stop::Budget => "budget",
        Stop::NotHeld(_) => "not-held",
        Stop::MonitorFetch(_) => "monitor-fetch",
    };
    let a = state.a.map(|n| format!("{n:06X}")).join(",");
    let s = state.s.map(|n| format!("{n:X}")).join(",");
    // Writing to a string never fails.
    let _ = write!(
        text,
        "stop={stop}\noutside={}\nsteps={}\np={:06X}\nxa={:02X}\nvl={}\nmodes={:02X}\n\
         iba={:05X}\nila={:05X}\ndba={:05X}\ndla={:05X}\nps={}\ncln={}\na={a}\ns={s}\n",
        told(ended.outside),
        ended.steps,
        state.p,
        state.xa,
        state.vl,
        state.modes(),
        state.iba,
        state.ila,
        state.dba,
        state.dla,
        u8::from(state.ps),
        state.cln,
    );
    changes(&mut text, before, after);
    text
}

/// The cause and the element of the last operand outside.
fn told(outside: Option<Outside>) -> String {
    let Some(Outside { cause, element }) = outside else {
        return "none".to_string();
    };
    let cause = match cause {
        Cause::Below => "below",
        Cause::Limit => "limit",
        Cause::Memory => "memory",
    };
    format!("{cause},{element}")
}

fn changes(text: &mut String, before: &[u64], after: &[u64]) {
    let differ = |n: &usize| before[*n] != after[*n];
    let changed: Vec<usize> = (0..after.len()).filter(differ).collect();
    let _ = writeln!(text, "changed={}", changed.len());
    for n in changed {
        let _ = writeln!(text, "{n:04X}={:016X}", after[n]);
    }
}
