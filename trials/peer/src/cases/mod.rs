//! Texts made from seeds: a kind and a seed name one text for ever. Case sheets
//! come first, the damaged ones last; then texts for the assembler, good and
//! damaged, and for the lister.

mod body;
mod build;
mod cal;
mod cal_damaged;
mod damaged;
mod draw;
mod loops;
mod octal;
mod outside;
mod parts;
mod probes;
mod random;
mod rings;
mod sweep;

pub use cal_damaged::{LATER, REFUSED};
pub use draw::Draw;
pub use sweep::words as sweep_words;

pub struct Kind {
    pub name: &'static str,
    /// What the names of its files end in.
    pub ending: &'static str,
    /// The text of a seed.
    pub text: fn(u64) -> Vec<u8>,
}

#[rustfmt::skip]
pub const KINDS: [Kind; 11] = [
    Kind { name: "random", ending: "sheet", text: random::sheet },
    Kind { name: "sweep", ending: "sheet", text: sweep::sheet },
    Kind { name: "probes", ending: "sheet", text: probes::sheet },
    Kind { name: "loops", ending: "sheet", text: loops::sheet },
    Kind { name: "rings", ending: "sheet", text: rings::sheet },
    Kind { name: "outside", ending: "sheet", text: outside::sheet },
    Kind { name: "damaged", ending: "sheet", text: damaged::sheet },
    Kind { name: "numbers", ending: "sheet", text: damaged::numbers },
    Kind { name: "cal", ending: "cal", text: cal::text },
    Kind { name: "cal-damaged", ending: "cal", text: cal_damaged::text },
    Kind { name: "octal", ending: "octal", text: octal::text },
];

/// The kind of a name, if there is such a kind.
pub fn kind(name: &str) -> Option<&'static Kind> {
    KINDS.iter().find(|kind| kind.name == name)
}

/// The text of a kind's seed, if there is such a kind.
pub fn text(name: &str, seed: u64) -> Option<Vec<u8>> {
    kind(name).map(|kind| (kind.text)(seed))
}
