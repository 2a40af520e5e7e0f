//! Bodies of programs: instructions drawn from the list of held codes, each
//! after what mostly gives it operands near an edge.

use super::build::{Package, Program, MONITOR};
use super::draw::Draw;
use super::parts::{aim, stride};
use crate::codes::{stores, Code, Mode, CODES};

pub struct Body<'a> {
    pub draw: &'a mut Draw,
    pub program: &'a mut Program,
    pub package: &'a Package,
    /// The packages that 0013j0 mostly names.
    pub slots: &'a [u32],
    pub manner: Manner,
}

/// What instructions a body may have.
#[derive(Clone, Copy, PartialEq, Eq)]
pub enum Manner {
    Any,
    /// It always comes to its end: no exit, no setting of IOR, no stop, and
    /// branches to places further on alone.
    Endless,
    /// Neither does it store.
    Quiet,
}

/// A conditional branch whose target is still to be found: its place among the
/// parcels and the instructions to be skipped.
struct Skip {
    parcel: usize,
    gh: u16,
    after: usize,
}

impl Body<'_> {
    /// Drawn instructions, up to about `most` parcels.
    pub fn write(&mut self, most: usize) {
        let wanted = self.draw.from(1, 45) as usize;
        let mut starts = Vec::new();
        let mut skips = Vec::new();
        while starts.len() < wanted && self.program.parcels.len() < most {
            starts.push(self.program.here());
            if self.manner == Manner::Any && self.draw.below(300) == 0 {
                self.program.parcels.push(self.draw.next() as u16);
                continue;
            }
            let code = self.code();
            let skip = self.instruction(code, &starts);
            skips.extend(skip);
        }
        starts.push(self.program.here());
        for skip in skips {
            let target = starts[skip.after.min(starts.len() - 1)];
            let mut branch = Program::new(0);
            branch.branch(skip.gh, target);
            self.program.parcels[skip.parcel..skip.parcel + 2].copy_from_slice(&branch.parcels);
        }
    }

    /// A pattern, those that end a program or stop it being rare.
    fn code(&mut self) -> Code {
        let monitor = self.package.modes & MONITOR != 0;
        loop {
            let code = self.draw.pick(CODES);
            let rare = match code.text {
                "000000" | "004000" | "002300" if self.manner != Manner::Any => 0,
                text if self.manner == Manner::Quiet && stores(text) => 0,
                "000000" => 15,
                "004000" => 25,
                "006ujkm" | "007ujkm" | "0050jk" => 70,
                _ if code.mode == Mode::User && monitor => u64::from(self.manner == Manner::Any),
                _ => 100,
            };
            if self.draw.often(rare) {
                return code;
            }
        }
    }

    /// Emits one instruction and, before it, what gives it good operands.
    fn instruction(&mut self, code: Code, starts: &[u32]) -> Option<Skip> {
        let mut parcel = self.draw.parcel(code.text);
        let mut second = self.draw.next() as u16;
        match parcel >> 9 {
            0o006..=0o017 if parcel & 0o400 == 0 => return self.branch(parcel, second, starts),
            0o005 if self.manner != Manner::Any || self.draw.often(85) => self.link(parcel),
            0o100..=0o137 => (parcel, second) = self.reference(parcel, second),
            _ => self.operands(parcel),
        }
        self.program.parcels.push(parcel);
        if code.two_parcels() {
            self.program.parcels.push(second);
        }
        None
    }

    fn branch(&mut self, parcel: u16, second: u16, starts: &[u32]) -> Option<Skip> {
        let gh = parcel >> 9;
        match gh {
            0o010..=0o013 if self.draw.often(60) => {
                let any = self.draw.address();
                let value = self.draw.pick(&[0, 0, 1, 0x80_0000, any]);
                self.program.set_a(0, value);
            }
            0o014..=0o017 if self.draw.often(60) => {
                // Ones at the left: none, the sign alone, or more.
                let ones = self.draw.pick(&[0, 0, 1, 63]);
                self.program.one(0o043, 0, ones >> 3, ones & 7);
            }
            _ => {}
        }
        if self.manner == Manner::Any && self.draw.often(40) {
            self.program.parcels.push(parcel);
            self.program.parcels.push(second);
            return None;
        }
        if self.manner == Manner::Any && self.draw.often(8) {
            // Back, or to a place that only a cut address would be.
            let high = 1 << self.draw.from(10, 23);
            let high = self.draw.pick(&[0, 0, high, 1 << 23]);
            self.program.branch(gh, self.draw.pick(starts) | high);
            return None;
        }
        let after = starts.len() + self.draw.below(4) as usize;
        let parcel = self.program.parcels.len();
        self.program.branch(gh, 0);
        Some(Skip { parcel, gh, after })
    }

    /// Puts the address after the branch to Bjk into that register.
    fn link(&mut self, parcel: u16) {
        let via = self.draw.digit();
        self.program.set_a(via, self.program.here() + 4);
        self.program.one(0o025, via, parcel >> 3 & 7, parcel & 7);
    }

    /// Sets Ah so that Ah+jkm meets an address that matters.
    fn reference(&mut self, parcel: u16, second: u16) -> (u16, u16) {
        let target = aim(self.draw, self.package.data);
        let h = parcel >> 9 & 7;
        if h == 0 && self.draw.often(50) {
            return (parcel & !0o77 | (target >> 16) as u16 & 0o77, target as u16);
        }
        let jkm = u32::from(parcel & 0o77) << 16 | u32::from(second);
        if h != 0 && self.draw.often(80) {
            self.program.set_a(h, target.wrapping_sub(jkm) & 0xFF_FFFF);
        }
        (parcel, second)
    }

    /// Sets the A registers that an instruction takes a count, an address, a
    /// length or a package from.
    fn operands(&mut self, parcel: u16) {
        let (i, j, k) = (parcel >> 6 & 7, parcel >> 3 & 7, parcel & 7);
        if self.draw.often(25) {
            return;
        }
        let (draw, program) = (&mut *self.draw, &mut *self.program);
        match parcel >> 9 {
            0o001 if i == 3 => {
                let slot = draw.pick(self.slots);
                program.set_a(j, slot << 4 | draw.below(16) as u32);
            }
            0o002 if i == 0 => program.set_a(k, draw.below(130) as u32),
            0o034..=0o037 => {
                program.set_a(i, draw.count());
                program.set_a(0, aim(draw, self.package.data));
            }
            0o056 | 0o057 | 0o150..=0o153 => program.set_a(k, draw.count()),
            0o176 | 0o177 => {
                program.set_a(k, stride(draw));
                program.set_a(0, aim(draw, self.package.data));
            }
            _ => {}
        }
    }
}
