//! Rivals: what a step would leave if one thing about it were otherwise. A
//! sheet shows a thing if its answer with the rival is another.

use crate::codes::{Designator, File, Operand};
use crate::machine::{Answer, Machine, Outside, OPERAND_RANGE};
use crate::state::{State, MASK24};

/// A processor and its memory between two steps, and what the run tells so far
/// of operands outside.
#[derive(Clone, PartialEq)]
pub struct Scene {
    pub state: State,
    pub memory: Vec<u64>,
    pub outside: Option<Outside>,
}

/// What might be otherwise.
#[derive(Clone, Debug)]
pub enum Rival {
    /// The true register for a designator that is zero.
    TrueRegister(Operand),
    /// Another number in Ak while the instruction is executed.
    Count(Designator, u32),
    /// Another parcel while the instruction is executed.
    Parcel(u16),
    /// Another VL while the instruction is executed.
    Length(u32),
    /// The other mode while the instruction is executed.
    OtherMode,
    /// P goes here, and nothing else is done.
    Branch(u32),
    /// An exchange for operand range follows, or none, against the rule.
    Interrupt(bool),
    /// No word is moved, but the exchange follows.
    Unmoved,
    /// The exchange that the instruction makes takes the package as it was.
    OwnPackage,
    /// The exchange that comes takes the package with these words.
    Package(Vec<u64>),
    /// A word of memory is as it was, while the step is made.
    OldWord(usize, u64),
    /// After the step, this is told so far of operands outside.
    Told(Option<Outside>),
}

impl Scene {
    pub fn step(&mut self) -> Answer {
        let step = Machine::new(&mut self.state, &self.memory).advance(&mut self.memory);
        self.outside = step.outside.or(self.outside);
        step.answer
    }

    fn exchange(&mut self) -> Answer {
        Machine::new(&mut self.state, &self.memory).exchange(&mut self.memory, OPERAND_RANGE)
    }

    /// Where the parcel at P stands: the word of memory and the bits to shift.
    fn place(&self) -> (usize, u32) {
        let p = self.state.p;
        ((self.state.iba * 32 + p / 4) as usize, 48 - 16 * (p % 4))
    }

    /// The step with a rival in it, its first parcel being `first`; none where
    /// that cannot be had.
    pub fn rival(mut self, rival: &Rival, first: u16) -> Option<(Scene, Answer)> {
        let answer = match rival {
            Rival::TrueRegister(operand) => self.true_register(*operand, first),
            Rival::Count(at, count) => self.counted(first >> at.shift() & 7, *count)?,
            Rival::Parcel(parcel) => self.other_parcel(first, *parcel),
            Rival::Length(length) => {
                let true_one = std::mem::replace(&mut self.state.vl, *length);
                let answer = self.step();
                self.state.vl = true_one;
                (answer == Answer::Stepped).then_some(answer)?
            }
            Rival::OtherMode => {
                self.state.mm = !self.state.mm;
                let answer = self.step();
                self.state.mm = !self.state.mm;
                answer
            }
            Rival::Branch(to) => {
                self.state.p = *to;
                Answer::Stepped
            }
            Rival::Interrupt(wanted) => self.interrupted(*wanted),
            Rival::Unmoved => self.unmoved(),
            Rival::OwnPackage => self.own_package(),
            Rival::Package(words) => {
                let at = self.state.xa as usize * 16;
                self.memory[at..at + 16].copy_from_slice(words);
                self.step()
            }
            Rival::OldWord(at, word) => self.old_word(*at, *word),
            Rival::Told(outside) => {
                let answer = self.step();
                self.outside = *outside;
                answer
            }
        };
        Some((self, answer))
    }

    /// A register that the instruction does not name lends its place: it holds
    /// what register 0 holds, and the designator names it.
    fn true_register(&mut self, Operand(at, file): Operand, first: u16) -> Answer {
        let named = [9, 6, 3, 0].map(|shift| first >> shift & 7);
        let Some(lent) = (1..8).find(|n| !named.contains(n)) else {
            return Answer::Stepped;
        };
        let (n, taken) = (usize::from(lent), self.state.xa as usize * 16);
        let (a, s) = (self.state.a[n], self.state.s[n]);
        match file {
            File::A => self.state.a[n] = self.state.a[0],
            File::S => self.state.s[n] = self.state.s[0],
        }
        let answer = self.other_parcel(first, first | lent << at.shift());
        if let Answer::Exchanged(_) = answer {
            // The register was saved: A in the low bits of its word.
            let word = &mut self.memory[taken + n];
            *word = *word & !u64::from(MASK24) | u64::from(a);
            self.memory[taken + 8 + n] = s;
        } else {
            self.state.a[n] = a;
            self.state.s[n] = s;
        }
        answer
    }

    /// A step with another parcel at P, which is put back unless it was stored
    /// into.
    fn other_parcel(&mut self, first: u16, parcel: u16) -> Answer {
        let (at, shift) = self.place();
        let change = u64::from(first ^ parcel) << shift;
        self.memory[at] ^= change;
        let changed = self.memory[at];
        let answer = self.step();
        if self.memory[at] == changed {
            self.memory[at] ^= change;
        }
        answer
    }

    /// A step with another number in an A register, which it only reads; A0
    /// as Ak is no register.
    fn counted(&mut self, k: u16, count: u32) -> Option<Answer> {
        let register = usize::from(k);
        if register == 0 {
            return None;
        }
        let true_one = std::mem::replace(&mut self.state.a[register], count);
        let answer = self.step();
        self.state.a[register] = true_one;
        Some(answer)
    }

    fn interrupted(&mut self, wanted: bool) -> Answer {
        let modes = (self.state.mm, self.state.ior);
        (self.state.mm, self.state.ior) = (false, wanted);
        let answer = self.step();
        if answer == Answer::Stepped {
            (self.state.mm, self.state.ior) = modes;
        }
        answer
    }

    /// The exchange alone; what the step tells is told.
    fn unmoved(&mut self) -> Answer {
        let mut moved = self.clone();
        moved.step();
        self.outside = moved.outside;
        self.state.p = (self.state.p + 1) & MASK24;
        self.exchange()
    }

    /// The words are stored, but the exchange takes the package as it was.
    fn own_package(&mut self) -> Answer {
        let at = self.state.xa as usize * 16;
        let package = self.memory[at..at + 16].to_vec();
        self.interrupted(false);
        self.memory[at..at + 16].copy_from_slice(&package);
        self.exchange()
    }

    /// A step with an old word in memory, which is put back unless the step
    /// stored into it.
    fn old_word(&mut self, at: usize, word: u64) -> Answer {
        let new = std::mem::replace(&mut self.memory[at], word);
        let answer = self.step();
        if self.memory[at] == word {
            self.memory[at] = new;
        }
        answer
    }
}
