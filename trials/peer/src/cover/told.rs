//! What is told of operands outside: the cells, and the rivals that must answer
//! otherwise. A run tells what the last step with one told.

use super::cells::{fetches, mode, Cell, End, Rule, CAUSES, FLAGS, RULES};
use super::rivals::{Rival, Scene};
use super::sights::{addresses, causes, rule, Found, Sight};
use crate::codes::{most_words, moved, reference, Reference, CODES};
use crate::machine::{place, Answer, Cause, Outside, OPERAND_RANGE};
use crate::state::MASK22;
use std::fmt;

/// What a step tells of its first operand outside.
#[derive(Clone, Copy, PartialEq, Eq, Hash, Debug)]
pub enum Tale {
    /// Its cause, by what follows: not another, and not nothing.
    Cause(Rule, Cause),
    /// The cause of a word at the very edge.
    Edge(Cause),
    /// The cause that is tested first, not another that is true too.
    Both(Cause, Cause),
    /// Its cause, not that of a later word.
    Later(Cause),
    /// Its number, not one that is counted in another way.
    Element(Number),
    /// It, not what an earlier step told.
    Again,
}

/// A number that is told, and from what it differs.
#[derive(Clone, Copy, PartialEq, Eq, Hash, Debug)]
pub enum Number {
    First,
    Later,
    Over63,
    NotLast,
    NotRegister,
    NotDistance,
}

/// A step without an operand outside tells nothing, and what was told stays.
#[derive(Clone, Copy, PartialEq, Eq, Hash, Debug)]
pub enum Silence {
    /// It stays over an instruction, which refers to memory or does not.
    Kept(bool),
    /// It stays over an exchange with these flags.
    Exchange(u16),
    /// It stays at a stop.
    Stop(End),
    /// A parcel outside is no operand: the second or the first, and the mode.
    Fetch(bool, bool, Cause),
    /// A block move of no words, its address being outside.
    NoWords(usize),
    /// An exchange whose package is outside of the data field.
    Package,
}

/// The cells of a pattern.
pub fn tales(text: &str) -> Vec<Tale> {
    use Number::*;
    let numbers: &[Number] = match reference(text) {
        Reference::No => return Vec::new(),
        Reference::Word(_) => &[First, NotRegister],
        Reference::Block(_) => &[First, Later, Over63, NotLast, NotRegister],
        Reference::Vector(_) => &[First, Later, NotLast, NotRegister, NotDistance],
    };
    let mut tales = vec![Tale::Again];
    tales.extend(numbers.iter().map(|number| Tale::Element(*number)));
    for (n, cause) in CAUSES.into_iter().enumerate() {
        tales.extend(RULES.map(|rule| Tale::Cause(rule, cause)));
        tales.push(Tale::Edge(cause));
        let tested_later = CAUSES[n + 1..].iter();
        tales.extend(tested_later.map(|other| Tale::Both(cause, *other)));
        if most_words(text) > 1 {
            tales.push(Tale::Later(cause));
        }
    }
    tales
}

/// The cells of no pattern.
pub fn silences() -> Vec<Silence> {
    let mut silences = vec![Silence::Package];
    silences.extend([false, true].map(Silence::Kept));
    let flags = FLAGS.into_iter().filter(|flags| *flags != OPERAND_RANGE);
    silences.extend(flags.map(Silence::Exchange));
    silences.extend([End::NotHeld, End::MonitorFetch].map(Silence::Stop));
    let fetches = fetches().into_iter();
    silences.extend(fetches.map(|(second, mode, cause)| Silence::Fetch(second, mode, cause)));
    let is_block = |n: &usize| matches!(reference(CODES[*n].text), Reference::Block(_));
    silences.extend((0..CODES.len()).filter(is_block).map(Silence::NoWords));
    silences
}

/// The step is right, but tells this.
fn told(cause: Cause, element: usize) -> Rival {
    let element = element as u8;
    Rival::Told(Some(Outside { cause, element }))
}

/// The sights of a step that was answered so.
pub fn sights(found: &Found, before: &Scene, answer: Answer) -> Vec<Sight> {
    if let Found::Instruction(code, first, second) = *found {
        let addresses = addresses(&before.state, code, first, second);
        let causes = causes(before, &addresses);
        let outside = causes.into_iter().enumerate();
        let outside: Vec<(usize, Cause)> =
            outside.filter_map(|(n, cause)| Some((n, cause?))).collect();
        if !outside.is_empty() {
            let mut tales = by_cause(before, &addresses, &outside);
            tales.extend(by_number((code, first), &addresses, &outside));
            if before.outside.is_some() {
                tales.push((Tale::Again, vec![Rival::Told(before.outside)]));
            }
            let sight = |(tale, rivals)| (Cell::Told(code, tale), rivals);
            return tales.into_iter().map(sight).collect();
        }
    }
    let silences = match before.outside {
        Some(_) => vec![(kept(found, answer), Rival::Told(None))],
        None => nothing(found, before, answer),
    };
    let sight = |(silence, rival)| (Cell::Silent(silence), vec![rival]);
    silences.into_iter().map(sight).collect()
}

type Told = (Tale, Vec<Rival>);

/// What is told of the first of some words outside, its cause being otherwise.
fn by_cause(before: &Scene, addresses: &[u32], outside: &[(usize, Cause)]) -> Vec<Told> {
    let (state, (element, cause)) = (&before.state, outside[0]);
    let (base, limit, length) = (state.dba * 32, state.dla * 32, before.memory.len() as u32);
    let word = (addresses[element] + base) & MASK22;
    let others = CAUSES.into_iter().filter(|other| *other != cause);
    let others: Vec<Rival> = others.map(|other| told(other, element)).collect();
    let mut tales = Vec::new();
    if word == [base.wrapping_sub(1), limit, length][cause as usize] {
        tales.push((Tale::Edge(cause), others.clone()));
    }
    let fails = [word < base, word >= limit, word >= length];
    for other in CAUSES.into_iter().filter(|other| fails[*other as usize]) {
        tales.push((Tale::Both(cause, other), vec![told(other, element)]));
    }
    if let Some((n, later)) = outside.iter().find(|(_, later)| *later != cause) {
        let rivals = vec![told(*later, *n), told(*later, element)];
        tales.push((Tale::Later(cause), rivals));
    }
    let mut rivals = others;
    rivals.push(Rival::Told(before.outside));
    tales.push((Tale::Cause(rule(state), cause), rivals));
    tales
}

/// What is told of the first of some words outside, its number being otherwise.
fn by_number(
    (code, first): (usize, u16),
    addresses: &[u32],
    outside: &[(usize, Cause)],
) -> Vec<Told> {
    let ((element, cause), text) = (outside[0], CODES[code].text);
    let last = outside.last().map_or(element, |last| last.0);
    let register = match reference(text) {
        Reference::Block(_) => (usize::from(moved(text, first)) + element) % 64,
        _ => moved(text, first).into(),
    };
    let distance = addresses[element].wrapping_sub(addresses[0]) as usize;
    let mut numbers = vec![
        (Number::NotLast, vec![last]),
        (Number::NotRegister, vec![register]),
        (Number::NotDistance, vec![distance]),
    ];
    numbers.push(match element {
        0 => (Number::First, vec![1]),
        _ => (Number::Later, vec![0, element - 1, element + 1]),
    });
    if element > 63 {
        numbers.push((Number::Over63, vec![element - 64]));
    }
    let tale = |(number, others): (Number, Vec<usize>)| {
        let rivals = others.into_iter().map(|other| told(cause, other));
        (Tale::Element(number), rivals.collect())
    };
    numbers.into_iter().map(tale).collect()
}

/// What something that was told stays over.
fn kept(found: &Found, answer: Answer) -> Silence {
    match answer {
        Answer::Stepped => {
            let refers = |code: usize| reference(CODES[code].text) != Reference::No;
            Silence::Kept(matches!(*found, Found::Instruction(code, ..) if refers(code)))
        }
        Answer::Exchanged(flags) => Silence::Exchange(flags),
        Answer::NotHeld(_) => Silence::Stop(End::NotHeld),
        Answer::MonitorFetch(_) => Silence::Stop(End::MonitorFetch),
    }
}

/// What nothing is told of, though something is outside that is no operand.
fn nothing(found: &Found, before: &Scene, answer: Answer) -> Vec<(Silence, Rival)> {
    let (state, length) = (&before.state, before.memory.len());
    let mut silences = Vec::new();
    match *found {
        Found::Outside(Cell::Fetch(second, mode, cause)) => {
            silences.push((Silence::Fetch(second, mode, cause), told(cause, 0)));
        }
        Found::Instruction(code, ..) => {
            let is_block = matches!(reference(CODES[code].text), Reference::Block(_));
            let cause = place(state.dba, state.dla, length, state.a[0]).err();
            if let (true, Some(cause)) = (is_block, cause) {
                silences.push((Silence::NoWords(code), told(cause, 0)));
            }
        }
        _ => {}
    }
    let package = state.xa * 16;
    if let Answer::Exchanged(_) = answer {
        if package < state.dba * 32 {
            silences.push((Silence::Package, told(Cause::Below, 0)));
        } else if package >= state.dla * 32 {
            silences.push((Silence::Package, told(Cause::Limit, 0)));
        }
    }
    silences
}

impl fmt::Display for Tale {
    fn fmt(&self, out: &mut fmt::Formatter) -> fmt::Result {
        let (cause, rest) = match *self {
            Tale::Cause(rule, cause) => (cause, format!("in {}", rule.name())),
            Tale::Edge(cause) => (cause, "at the edge".to_string()),
            Tale::Both(cause, other) => (cause, format!("not {}", other.name())),
            Tale::Later(cause) => (cause, "not as a later word".to_string()),
            Tale::Element(number) => return write!(out, "tells the number {}", number.name()),
            Tale::Again => return write!(out, "tells another than an earlier step"),
        };
        write!(out, "tells {}, {rest}", cause.name())
    }
}

impl Number {
    fn name(self) -> &'static str {
        match self {
            Number::First => "0",
            Number::Later => "over 0",
            Number::Over63 => "over 63",
            Number::NotLast => "of the first, not the last",
            Number::NotRegister => "of the word, not of a register",
            Number::NotDistance => "of the word, not its distance",
        }
    }
}

impl fmt::Display for Silence {
    fn fmt(&self, out: &mut fmt::Formatter) -> fmt::Result {
        match *self {
            Silence::Kept(false) => write!(out, "what was told stays over work"),
            Silence::Kept(true) => write!(out, "what was told stays over a reference inside"),
            Silence::Exchange(flags) => write!(out, "what was told stays over flags {flags}"),
            Silence::Stop(end) => write!(out, "what was told stays at {end:?}"),
            Silence::Fetch(second, monitor, cause) => {
                let which = if second { "second" } else { "first" };
                let (mode, cause) = (mode(monitor), cause.name());
                write!(out, "nothing is told of a {which} parcel, {mode}, {cause}")
            }
            Silence::NoWords(n) => write!(out, "{} tells nothing of no words", CODES[n].text),
            Silence::Package => write!(out, "nothing is told of a package"),
        }
    }
}
