//! Numbers drawn from a seed by splitmix64, and the values that find faults.

use crate::codes::digits;

pub struct Draw {
    state: u64,
}

impl Draw {
    /// The stream of a kind and a seed.
    pub fn new(kind: u64, seed: u64) -> Draw {
        let mut draw = Draw { state: kind };
        let state = draw.next() ^ seed.wrapping_mul(0xD134_2543_DE82_EF95);
        draw.state = state;
        draw.next();
        draw
    }

    pub fn next(&mut self) -> u64 {
        self.state = self.state.wrapping_add(0x9E37_79B9_7F4A_7C15);
        let mut z = self.state;
        z = (z ^ z >> 30).wrapping_mul(0xBF58_476D_1CE4_E5B9);
        z = (z ^ z >> 27).wrapping_mul(0x94D0_49BB_1331_11EB);
        z ^ z >> 31
    }

    /// A number from 0 to `bound`-1.
    pub fn below(&mut self, bound: u64) -> u64 {
        ((u128::from(self.next()) * u128::from(bound)) >> 64) as u64
    }

    /// A number from `low` to `high`, both included.
    pub fn from(&mut self, low: u64, high: u64) -> u64 {
        low + self.below(high - low + 1)
    }

    /// True in `percent` of a hundred draws.
    pub fn often(&mut self, percent: u64) -> bool {
        self.below(100) < percent
    }

    pub fn pick<T: Copy>(&mut self, list: &[T]) -> T {
        list[self.below(list.len() as u64) as usize]
    }

    pub fn digit(&mut self) -> u16 {
        self.below(8) as u16
    }

    /// A first parcel that fits a pattern.
    pub fn parcel(&mut self, text: &str) -> u16 {
        self.parcel_but(text, 6)
    }

    /// A parcel that fits a pattern, but for a place where it has any digit.
    pub fn parcel_but(&mut self, text: &str, any: usize) -> u16 {
        let letters = text.bytes().take(6).enumerate();
        letters.fold(0, |parcel, (place, letter)| {
            let range = if place == any { 0..=7 } else { digits(letter) };
            let (low, high) = (u64::from(*range.start()), u64::from(*range.end()));
            parcel << 3 | self.from(low, high) as u16
        })
    }

    /// A value for an A register: edges of every width that an instruction
    /// looks at, or any number.
    pub fn address(&mut self) -> u32 {
        const EDGES: [u32; 24] = [
            0, 1, 2, 3, 31, 32, 62, 63, 64, 65, 126, 127, 128, 129, 191, 192, 0x1000, 0x3F_FFFF,
            0x40_0000, 0x40_0001, 0x7F_FFFF, 0x80_0000, 0xFF_FFFE, 0xFF_FFFF,
        ];
        match self.below(4) {
            0 => self.pick(&EDGES),
            1 => self.below(0x1000) as u32,
            _ => self.below(1 << 24) as u32,
        }
    }

    /// A count for a shift.
    pub fn count(&mut self) -> u32 {
        const EDGES: [u32; 14] = [
            0, 1, 2, 31, 62, 63, 64, 65, 66, 126, 127, 128, 129, 0xFF_FFFF,
        ];
        match self.below(8) {
            0 => self.address(),
            1..=4 => self.below(140) as u32,
            _ => self.pick(&EDGES),
        }
    }

    /// A value for an S register or a word of memory.
    pub fn word(&mut self) -> u64 {
        let any = self.next();
        match self.below(8) {
            0 => self.pick(&[0, 1, 2, u64::MAX, u64::MAX - 1, 1 << 63, (1 << 63) - 1]),
            1 => any & self.next() & self.next(),
            2 => any | self.next() | self.next(),
            3 => any >> self.below(64),
            4 => 1 << self.below(64),
            _ => any,
        }
    }
}
