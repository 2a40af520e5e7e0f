//! The cells: what stored sheets must show, each with its name.

use super::told::{self, Silence, Tale};
use crate::codes::{
    by_mode, digits, empty, find, is_branch, is_vector, reference, shift, specials, split,
};
use crate::codes::{stores, vectors, Designator, Mode, Operand, Reference, Shift, CODES};
use crate::machine::Cause;
use std::fmt;

/// A place in a list of what can happen. A pattern is its place in `CODES`.
#[derive(Clone, Copy, PartialEq, Eq, Hash, Debug)]
pub enum Cell {
    /// A pattern in user or in monitor mode.
    Code(usize, bool),
    /// One that does something else in the other mode.
    Mode(usize, bool),
    /// A digit at a place of a pattern.
    Digit(usize, usize, u16),
    /// A designator that is zero, where the true register answers otherwise.
    Zero(usize, Operand),
    /// A shift by a count, where other counts answer otherwise.
    Count(usize, u32),
    /// A vector instruction with VL 1 or 64, where 2 or 63 answers otherwise.
    Length(usize, u32),
    /// A conditional branch that is taken, or not.
    Branch(usize, bool),
    /// Vector work with some VL.
    AnyLength(u32),
    /// A result into the register that is operand j or k.
    Same(usize, Designator),
    /// An operand outside: what follows, and the cause.
    Outside(usize, Rule, Cause),
    /// What is told of the first operand outside.
    Told(usize, Tale),
    /// What was told stays, or nothing is told.
    Silent(Silence),
    /// Words partly outside, and then an exchange; whether the first was outside.
    Partly(usize, bool),
    /// A store into the package that an exchange takes, later or by the same
    /// instruction.
    Package(usize, bool),
    /// A store into the parcel that is executed next.
    Next(usize),
    /// A parcel outside: the second or the first, and the mode.
    Fetch(bool, bool, Cause),
    /// An exchange with these flags.
    Flags(u16),
    /// The end of a run.
    End(End),
    /// A code of which nothing is held.
    NotHeld(u16),
    /// A parcel that is not held, but would be with another digit at a place.
    Neighbour(usize, usize),
    /// A pattern that monitor mode does not hold, in monitor mode.
    InMonitor(usize),
}

/// What follows an operand outside depends on this.
#[derive(Clone, Copy, PartialEq, Eq, Hash, Debug)]
pub enum Rule {
    Interrupted,
    User,
    Monitor,
}

#[derive(Clone, Copy, PartialEq, Eq, Hash, Debug)]
pub enum End {
    Budget,
    NotHeld,
    MonitorFetch,
}

/// A count for a shift that is over all counts which have their own cell.
pub const WIDE: u32 = 129;
const COUNTS: [u32; 8] = [0, 1, 63, 64, 65, 127, 128, WIDE];
pub const CAUSES: [Cause; 3] = [Cause::Below, Cause::Limit, Cause::Memory];
pub const RULES: [Rule; 3] = [Rule::Interrupted, Rule::User, Rule::Monitor];
const ENDS: [End; 3] = [End::Budget, End::NotHeld, End::MonitorFetch];
pub const FLAGS: [u16; 5] = [0, 1, 2, 4, 8];
/// The places of i and k among the digits of a parcel.
const I: usize = 3;
const K: usize = 5;

/// The counts of a shift that have a cell.
fn counts(text: &str) -> &'static [u32] {
    match shift(text) {
        Some(Shift::Left) => &[0, 1, 63],
        Some(Shift::Right) => &[1, 63, 64],
        Some(Shift::Register(_)) => &COUNTS,
        None => &[],
    }
}

/// The neighbours of a pattern that a parcel is which is not held: the
/// patterns and places at which one other digit would make it held.
pub fn neighbours(parcel: u16) -> Vec<Cell> {
    let mut cells = Vec::new();
    for (n, code) in CODES.iter().enumerate() {
        let pairs = code.text.bytes().zip(split(parcel));
        let mut wrong = pairs
            .enumerate()
            .filter(|(_, (letter, digit))| !digits(*letter).contains(digit));
        if let (Some((place, _)), None) = (wrong.next(), wrong.next()) {
            if place >= I {
                cells.push(Cell::Neighbour(n, place));
            }
        }
    }
    cells
}

/// All cells, in the order of the codes.
pub fn all() -> Vec<Cell> {
    let mut cells = Vec::new();
    for n in 0..CODES.len() {
        of_code(n, &mut cells);
    }
    cells.extend((1..=64).map(Cell::AnyLength));
    let fetches = fetches().into_iter();
    cells.extend(fetches.map(|(second, mode, cause)| Cell::Fetch(second, mode, cause)));
    cells.extend(told::silences().into_iter().map(Cell::Silent));
    cells.extend(FLAGS.map(Cell::Flags));
    cells.extend(ENDS.map(Cell::End));
    cells.extend((0..128).filter(|gh| empty(*gh)).map(Cell::NotHeld));
    cells.extend(all_neighbours());
    cells
}

/// The parcels outside that can be: the second or the first, the mode, the cause.
pub fn fetches() -> Vec<(bool, bool, Cause)> {
    let mut fetches = Vec::new();
    for monitor in [false, true] {
        for cause in CAUSES {
            fetches.push((false, monitor, cause));
            // The first parcel is inside, so the sum for a second cannot wrap.
            if cause != Cause::Below {
                fetches.push((true, monitor, cause));
            }
        }
    }
    fetches
}

fn of_code(n: usize, cells: &mut Vec<Cell>) {
    let code = CODES[n];
    cells.push(Cell::Code(n, false));
    cells.push(match code.mode {
        Mode::Both => Cell::Code(n, true),
        Mode::User => Cell::InMonitor(n),
    });
    for (place, letter) in code.text.bytes().take(6).enumerate() {
        cells.extend(digits(letter).map(|digit| Cell::Digit(n, place, digit)));
    }
    cells.extend(specials(code.text).iter().map(|at| Cell::Zero(n, *at)));
    cells.extend(counts(code.text).iter().map(|c| Cell::Count(n, *c)));
    cells.extend(vectors(code.text).iter().map(|at| Cell::Same(n, *at)));
    if by_mode(code.text) {
        cells.extend([false, true].map(|monitor| Cell::Mode(n, monitor)));
    }
    if is_branch(code.text) {
        cells.extend([true, false].map(|taken| Cell::Branch(n, taken)));
    }
    if is_vector(code.text) {
        cells.extend([1, 64].map(|length| Cell::Length(n, length)));
    }
    of_memory(n, cells);
}

fn of_memory(n: usize, cells: &mut Vec<Cell>) {
    let kind = reference(CODES[n].text);
    if kind != Reference::No {
        for rule in RULES {
            cells.extend(CAUSES.map(|cause| Cell::Outside(n, rule, cause)));
        }
    }
    let tales = told::tales(CODES[n].text).into_iter();
    cells.extend(tales.map(|tale| Cell::Told(n, tale)));
    if let Reference::Block(store) | Reference::Vector(store) = kind {
        cells.extend([false, true].map(|first| Cell::Partly(n, first)));
        if store {
            cells.push(Cell::Package(n, true));
        }
    }
    if stores(CODES[n].text) {
        cells.extend([Cell::Package(n, false), Cell::Next(n)]);
    }
}

/// The places of patterns at which some other digit is not held.
fn all_neighbours() -> Vec<Cell> {
    let mut cells = Vec::new();
    for parcel in (0..=u16::MAX).filter(|parcel| find(*parcel).is_none()) {
        for cell in neighbours(parcel) {
            if !cells.contains(&cell) {
                cells.push(cell);
            }
        }
    }
    cells
}

impl Cell {
    /// The pattern that it is of, if it is of one, and what is to be seen of it.
    fn of_pattern(self) -> Option<(usize, String)> {
        Some(match self {
            Cell::Code(n, monitor) => (n, format!("in {}", mode(monitor))),
            Cell::Mode(n, monitor) => {
                let [mode, other] = [monitor, !monitor].map(mode);
                (n, format!("in {mode}, not as in {other}"))
            }
            Cell::Digit(n, place, digit) => (n, format!("with {digit} at place {place}")),
            Cell::Zero(n, Operand(at, file)) => (n, format!("with {at:?} 0, not {file:?}0")),
            Cell::Count(n, WIDE) => (n, "by a count over 128".to_string()),
            Cell::Count(n, count) => (n, format!("by {count}")),
            Cell::Length(n, length) => (n, format!("with VL {length}")),
            Cell::Branch(n, true) => (n, "taken".to_string()),
            Cell::Branch(n, false) => (n, "not taken".to_string()),
            Cell::Same(n, at) => (n, format!("with I the same as {at:?}")),
            Cell::Outside(n, rule, cause) => {
                (n, format!("outside, {}, {}", rule.name(), cause.name()))
            }
            Cell::Told(n, tale) => (n, tale.to_string()),
            Cell::Partly(n, first) => {
                let which = if first { "first" } else { "last" };
                (n, format!("with the {which} words outside, exchanged"))
            }
            Cell::Package(n, false) => (n, "into the package taken next".to_string()),
            Cell::Package(n, true) => (n, "into the package it takes".to_string()),
            Cell::Next(n) => (n, "into the next parcel".to_string()),
            Cell::Neighbour(n, place) => {
                let letter = [b'i', b'j', b'k'][place.min(K) - I] as char;
                (n, format!("with {letter} not held"))
            }
            Cell::InMonitor(n) => (n, "in monitor mode, not held".to_string()),
            _ => return None,
        })
    }
}

pub fn mode(monitor: bool) -> &'static str {
    if monitor {
        "monitor mode"
    } else {
        "user mode"
    }
}

impl fmt::Display for Cell {
    fn fmt(&self, out: &mut fmt::Formatter) -> fmt::Result {
        if let Some((n, what)) = self.of_pattern() {
            return write!(out, "{} {what}", CODES[n].text);
        }
        match *self {
            Cell::AnyLength(length) => write!(out, "vector work with VL {length}"),
            Cell::Fetch(second, monitor, cause) => {
                let which = if second { "second" } else { "first" };
                let (mode, cause) = (mode(monitor), cause.name());
                write!(out, "{which} parcel outside, {mode}, {cause}")
            }
            Cell::Silent(silence) => write!(out, "{silence}"),
            Cell::Flags(flags) => write!(out, "exchange with flags {flags}"),
            Cell::End(end) => write!(out, "end by {end:?}"),
            Cell::NotHeld(gh) => write!(out, "{gh:03o}, of which nothing is held"),
            _ => Ok(()),
        }
    }
}

impl Rule {
    pub fn name(self) -> &'static str {
        match self {
            Rule::Interrupted => "user mode with IOR",
            Rule::User => "user mode without IOR",
            Rule::Monitor => "monitor mode",
        }
    }
}

impl Cause {
    pub fn name(self) -> &'static str {
        match self {
            Cause::Below => "below the base",
            Cause::Limit => "at or over the limit",
            Cause::Memory => "beyond memory",
        }
    }
}
