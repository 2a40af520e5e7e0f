//! What there is to see at a step: its cells, each with the rivals that must
//! answer otherwise.

use super::cells::{neighbours, Cell, Rule, WIDE};
use super::rivals::{Rival, Scene};
use crate::codes::{
    by_mode, empty, find, held, is_branch, is_vector, reference, shift, specials, split,
};
use crate::codes::{stores, vectors, Designator, Reference, Shift, CODES};
use crate::machine::{place, Answer, Cause};
use crate::state::{State, MASK24};

pub type Sight = (Cell, Vec<Rival>);

/// The instruction at P, as far as it can be fetched.
pub enum Found {
    /// A parcel is outside.
    Outside(Cell),
    /// A first parcel that is not held.
    NotHeld(u16),
    /// An instruction: its pattern, its first parcel and its second or 0.
    Instruction(usize, u16, u16),
}

/// The parcel at an address of the instruction field, or why it is outside.
fn parcel(scene: &Scene, p: u32) -> Result<u16, Cause> {
    let (state, p) = (&scene.state, p & MASK24);
    let at = place(state.iba, state.ila, scene.memory.len(), p / 4)?;
    Ok((scene.memory[at] >> (48 - 16 * (p % 4))) as u16)
}

pub fn found(scene: &Scene) -> Found {
    let (p, monitor) = (scene.state.p, scene.state.mm);
    let first = match parcel(scene, p) {
        Ok(first) => first,
        Err(cause) => return Found::Outside(Cell::Fetch(false, monitor, cause)),
    };
    let Some(code) = held(first, monitor) else {
        return Found::NotHeld(first);
    };
    if !CODES[code].two_parcels() {
        return Found::Instruction(code, first, 0);
    }
    match parcel(scene, p + 1) {
        Ok(second) => Found::Instruction(code, first, second),
        Err(cause) => Found::Outside(Cell::Fetch(true, monitor, cause)),
    }
}

impl Found {
    /// The first parcel, and the cells of what was found.
    pub fn sights(&self, scene: &Scene) -> (u16, Vec<Sight>) {
        match *self {
            Found::Outside(cell) => (0, vec![(cell, Vec::new())]),
            Found::NotHeld(first) => {
                let cells = not_held(first, scene.state.mm).into_iter();
                (first, cells.map(|cell| (cell, Vec::new())).collect())
            }
            Found::Instruction(code, first, second) => {
                (first, instruction(scene, code, first, second))
            }
        }
    }
}

fn not_held(first: u16, monitor: bool) -> Vec<Cell> {
    match find(first) {
        Some(code) if monitor => vec![Cell::InMonitor(code)],
        _ if empty(first >> 9) => vec![Cell::NotHeld(first >> 9)],
        _ => neighbours(first),
    }
}

/// The cells of an instruction that is about to be executed.
fn instruction(scene: &Scene, code: usize, first: u16, second: u16) -> Vec<Sight> {
    let (state, text) = (&scene.state, CODES[code].text);
    let mut sights = vec![(Cell::Code(code, state.mm), Vec::new())];
    for (place, digit) in split(first).into_iter().enumerate() {
        sights.push((Cell::Digit(code, place, digit), Vec::new()));
    }
    for operand in specials(text) {
        if first >> operand.0.shift() & 7 == 0 {
            let rivals = vec![Rival::TrueRegister(*operand)];
            sights.push((Cell::Zero(code, *operand), rivals));
        }
    }
    sights.extend(shifted(state, code, first));
    if by_mode(text) {
        sights.push((Cell::Mode(code, state.mm), vec![Rival::OtherMode]));
    }
    if is_branch(text) {
        sights.extend(branching(scene, code, first, second));
    }
    if is_vector(text) {
        sights.push((Cell::AnyLength(state.vl), Vec::new()));
        match state.vl {
            1 => sights.push((Cell::Length(code, 1), vec![Rival::Length(2)])),
            64 => sights.push((Cell::Length(code, 64), vec![Rival::Length(63)])),
            _ => {}
        }
    }
    for at in vectors(text) {
        if first >> at.shift() & 7 == first >> 6 & 7 {
            let past = (state.p + 1) & MASK24;
            sights.push((Cell::Same(code, *at), vec![Rival::Branch(past)]));
        }
    }
    sights.extend(referring(scene, code, first, second));
    sights
}

/// A conditional branch, its rival going the other way. Where both ways lead
/// to one place it is neither.
fn branching(scene: &Scene, code: usize, first: u16, second: u16) -> Option<Sight> {
    let mut after = scene.clone();
    after.step();
    let past = (scene.state.p + 2) & MASK24;
    let target = u32::from(first & 0o377) << 16 | u32::from(second);
    let taken = after.state.p == target;
    let rival = Rival::Branch(if taken { past } else { target });
    (past != target).then_some((Cell::Branch(code, taken), vec![rival]))
}

/// A shift by a count that has a cell, with other counts as rivals.
fn shifted(state: &State, code: usize, first: u16) -> Option<Sight> {
    let jk = u32::from(first & 0o77);
    let by_jk = |count: u32| {
        let other = [jk.wrapping_sub(1), jk + 1];
        let other = other.into_iter().filter(|jk| *jk < 64);
        let parcel = |jk: u32| Rival::Parcel(first & !0o77 | jk as u16);
        (Cell::Count(code, count), other.map(parcel).collect())
    };
    match shift(CODES[code].text)? {
        Shift::Left => Some(by_jk(jk)),
        Shift::Right => Some(by_jk(64 - jk)),
        Shift::Register(_) if first & 7 == 0 => None,
        Shift::Register(width) => {
            let count = state.a[usize::from(first & 7)];
            let others = [
                count.wrapping_sub(1),
                count + 1,
                count % 64,
                count % 128,
                count % 256,
            ];
            let differs = |other: &u32| *other != count && *other.min(&count) < width;
            let others = others.into_iter().filter(differs);
            let rivals: Vec<Rival> = others.map(|n| Rival::Count(Designator::K, n)).collect();
            (!rivals.is_empty()).then(|| (Cell::Count(code, count.min(WIDE)), rivals))
        }
    }
}

/// The addresses of a memory reference.
pub fn addresses(state: &State, code: usize, first: u16, second: u16) -> Vec<u32> {
    let register = |at: u16| state.a[usize::from(first >> at & 7)];
    let special = |at: u16, zero: u32| match first >> at & 7 {
        0 => zero,
        _ => register(at),
    };
    let row = |count: u32, stride: u32| {
        let word = |n: u32| state.a[0].wrapping_add(n.wrapping_mul(stride));
        (0..count).map(word).collect()
    };
    match reference(CODES[code].text) {
        Reference::No => Vec::new(),
        Reference::Word(_) => {
            let jkm = u32::from(first & 0o77) << 16 | u32::from(second);
            vec![special(9, 0) + jkm]
        }
        Reference::Block(_) => row(register(6) & 127, 1),
        Reference::Vector(_) => row(state.vl, special(0, 1)),
    }
}

/// Why each address of the data field is outside, if it is.
pub fn causes(scene: &Scene, addresses: &[u32]) -> Vec<Option<Cause>> {
    let (state, length) = (&scene.state, scene.memory.len());
    let places = addresses
        .iter()
        .map(|address| place(state.dba, state.dla, length, *address));
    places.map(Result::err).collect()
}

/// What follows an operand outside.
pub fn rule(state: &State) -> Rule {
    match (state.mm, state.ior) {
        (true, _) => Rule::Monitor,
        (false, true) => Rule::Interrupted,
        (false, false) => Rule::User,
    }
}

/// The cells of operands outside.
fn referring(scene: &Scene, code: usize, first: u16, second: u16) -> Vec<Sight> {
    let addresses = addresses(&scene.state, code, first, second);
    let (causes, rule) = (causes(scene, &addresses), rule(&scene.state));
    let interrupt = Rival::Interrupt(rule != Rule::Interrupted);
    let mut sights: Vec<Sight> = Vec::new();
    for cause in causes.iter().flatten() {
        sights.push((Cell::Outside(code, rule, *cause), vec![interrupt.clone()]));
    }
    let some_inside = causes.iter().any(Option::is_none);
    if rule == Rule::Interrupted && some_inside && !sights.is_empty() {
        let partly = Cell::Partly(code, causes[0].is_some());
        sights.push((partly, vec![Rival::Unmoved]));
        if stores(CODES[code].text) {
            sights.push((Cell::Package(code, true), vec![Rival::OwnPackage]));
        }
    }
    sights
}

/// Stores that may matter to the steps after them.
#[derive(Default)]
pub struct Stores {
    /// Into packages: the code, the package and its words before.
    packages: Vec<(usize, u32, Vec<u64>)>,
    /// Into the parcel that is next.
    next: Option<Sight>,
}

impl Stores {
    /// The cells of a step that was answered so.
    pub fn sights(&mut self, before: &Scene, answer: Answer) -> Vec<Sight> {
        let mut sights: Vec<Sight> = self.next.take().into_iter().collect();
        let Answer::Exchanged(flags) = answer else {
            return sights;
        };
        sights.push((Cell::Flags(flags), Vec::new()));
        let xa = before.state.xa;
        for (code, package, words) in &self.packages {
            if *package == xa {
                let rivals = vec![Rival::Package(words.clone())];
                sights.push((Cell::Package(*code, false), rivals));
            }
        }
        self.packages.retain(|(_, package, _)| *package != xa);
        sights
    }

    /// Takes note of a step that may have stored.
    pub fn note(&mut self, found: &Found, before: &Scene, after: &Scene, answer: Answer) {
        let Found::Instruction(code, ..) = *found else {
            return;
        };
        if !stores(CODES[code].text) || answer != Answer::Stepped {
            return;
        }
        let packages = before.memory.chunks(16).zip(after.memory.chunks(16));
        for (n, (old, new)) in packages.take(256).enumerate() {
            if old != new {
                self.packages.push((code, n as u32, old.to_vec()));
            }
        }
        let (at, p) = (after.state.iba * 32 + after.state.p / 4, after.state.p % 4);
        let words = [before, after].map(|scene| scene.memory.get(at as usize));
        if let [Some(old), Some(new)] = words {
            if (old ^ new) >> (48 - 16 * p) & 0xFFFF != 0 {
                let rivals = vec![Rival::OldWord(at as usize, *old)];
                self.next = Some((Cell::Next(code), rivals));
            }
        }
    }
}
