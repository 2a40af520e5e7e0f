//! Programs, packages and sheets put together from their parts.

use super::draw::Draw;
use std::collections::BTreeMap;
use std::fmt::Write;

/// A program as parcels, its first parcel standing at parcel address `at` of
/// its instruction field.
pub struct Program {
    pub at: u32,
    pub parcels: Vec<u16>,
}

impl Program {
    pub fn new(at: u32) -> Program {
        let parcels = Vec::new();
        Program { at, parcels }
    }

    /// The parcel address of the next instruction.
    pub fn here(&self) -> u32 {
        self.at + self.parcels.len() as u32
    }

    /// A one-parcel instruction by its code and designators.
    pub fn one(&mut self, gh: u16, i: u16, j: u16, k: u16) {
        self.parcels.push(gh << 9 | i << 6 | j << 3 | k);
    }

    /// A two-parcel instruction with a 22-bit jkm.
    pub fn two(&mut self, gh: u16, i: u16, jkm: u32) {
        let jk = (jkm >> 16) as u16 & 0o77;
        self.parcels.push(gh << 9 | i << 6 | jk);
        self.parcels.push(jkm as u16);
    }

    /// A branch; the address has 24 bits.
    pub fn branch(&mut self, gh: u16, target: u32) {
        self.two(gh, (target >> 22) as u16 & 3, target);
    }

    /// The 24-bit constant into an A register, A0 included.
    pub fn set_a(&mut self, register: u16, value: u32) {
        self.two(0o010 | register, 4 | (value >> 22) as u16 & 3, value);
    }
}

/// An exchange package; VL has the seven bits of its place, flags nine.
#[derive(Clone)]
pub struct Package {
    pub p: u32,
    pub code: (u32, u32),
    pub data: (u32, u32),
    pub modes: u32,
    pub xa: u32,
    pub vl: u32,
    pub flags: u32,
    pub ps: u32,
    pub cln: u32,
    pub a: [u32; 8],
    pub s: [u64; 8],
}

pub const MONITOR: u32 = 1;
pub const IOR: u32 = 2;

impl Package {
    /// A package with drawn registers and modes and no fields yet.
    pub fn draw(draw: &mut Draw) -> Package {
        let flags = if draw.often(30) { draw.below(512) } else { 0 };
        Package {
            p: 0,
            code: (0, 0),
            data: (0, 0),
            modes: draw.below(32) as u32,
            xa: 0,
            vl: draw.below(128) as u32,
            flags: flags as u32,
            ps: draw.below(2) as u32,
            cln: draw.below(4) as u32,
            a: [0; 8].map(|_: u32| draw.address()),
            s: [0; 8].map(|_: u64| draw.word()),
        }
    }

    fn words(&self) -> [u64; 16] {
        let mut words = [0; 16];
        for n in 0..8 {
            words[n] = u64::from(self.a[n]);
            words[n + 8] = self.s[n];
        }
        let high = |n: u32, place: u32| u64::from(n) << place;
        words[0] |= high(self.p, 24);
        words[1] |= high(self.code.0, 29);
        words[2] |= high(self.code.1, 29) | high(self.modes, 24);
        words[3] |= high(self.xa, 40) | high(self.vl, 33) | high(self.flags, 24);
        words[4] |= high(self.data.0, 29) | high(self.ps, 28) | high(self.cln, 24);
        words[5] |= high(self.data.1, 29);
        words
    }
}

/// The bits that no field of a package uses, by word; a load ignores them.
const UNUSED: [u64; 8] = [
    0xFFFF_0000_0000_0000,
    0xFFFF_C000_1F00_0000,
    0xFFFF_C000_0000_0000,
    0xFFFF_0000_0000_0000,
    0xFFFF_C000_0C00_0000,
    0xFFFF_C000_1F00_0000,
    0xFFFF_FFFF_FF00_0000,
    0xFFFF_FFFF_FF00_0000,
];

/// A sheet to be written: its budget and its words.
#[derive(Default)]
pub struct Draft {
    pub steps: u64,
    pub words: BTreeMap<u32, u64>,
}

impl Draft {
    pub fn package(&mut self, number: u32, package: &Package) {
        for (n, word) in package.words().into_iter().enumerate() {
            self.words.insert(number * 16 + n as u32, word);
        }
    }

    /// Sets the unused bits of a package, which must not matter.
    pub fn litter(&mut self, number: u32, draw: &mut Draw) {
        for (n, unused) in UNUSED.iter().enumerate() {
            let word = self.words.entry(number * 16 + n as u32).or_default();
            *word |= draw.next() & unused;
        }
    }

    /// Puts a program into the field that begins at word `base`.
    pub fn program(&mut self, base: u32, program: &Program) {
        for (n, parcel) in program.parcels.iter().enumerate() {
            let place = program.at + n as u32;
            let word = base + place / 4;
            if word < 0x1000 {
                let word = self.words.entry(word).or_default();
                *word |= u64::from(*parcel) << (48 - place % 4 * 16);
            }
        }
    }

    pub fn data(&mut self, first: u32, count: u32, draw: &mut Draw) {
        for address in first..first + count {
            self.words.insert(address, draw.word());
        }
    }

    pub fn text(&self) -> Vec<u8> {
        let mut text = format!("steps={}\nwords={}\n", self.steps, self.words.len());
        for (address, value) in &self.words {
            // Writing to a string never fails.
            let _ = writeln!(text, "{address:04X}={value:016X}");
        }
        text.into_bytes()
    }
}
