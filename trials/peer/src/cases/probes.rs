//! Single instructions at their edges, each result shown.
//!
//! A program fills the registers and tries instructions one after another: a
//! zero designator beside a register 0 that differs; shifts by counts at the
//! edges; vector work with VL 1 or 64, and into one of its operands; words and
//! rows across each end of the data field; branches. Each result goes into
//! what the end stores. The last parcel is not held, and mostly next to one
//! that is, or branches away.
//!
//! By the remainder of the seed by 3 it is user mode with IOR, user mode
//! without, or monitor mode. Every cause of an operand outside can be: the
//! field begins above word 0 and its limit is above the end of memory. In the
//! first mode a monitor program takes over then, and comes back at once.

use super::build::{Draft, Package, Program, IOR, MONITOR};
use super::draw::Draw;
use super::parts::{fill, fold, WIDE};
use crate::codes::{empty, find, held, is_vector, reference, shift, specials, vectors};
use crate::codes::{Code, Designator, Mode, Reference, Shift, CODES};
use crate::machine::{run, start};

const CODE: u32 = 0x100;
const RETURN: u32 = 0x40;
const BLOCK: u32 = 32;
/// Words at the base of the data field, the last of them drawn from all words.
const WORDS: u32 = 100;
const DENSE: u32 = 30;
/// Where results go, from the base of the data field on.
const OUT: u32 = 0x300;
const PROBES: u32 = 36;
/// Codes of counts, sums and logic.
const PLAIN: [&str; 13] = [
    "026", "027", "030", "031", "032", "044", "045", "046", "047", "050", "051", "060", "061",
];
/// The register that results of vector work are summed in.
const SUM: u16 = 7;

pub fn sheet(seed: u64) -> Vec<u8> {
    let mut draw = Draw::new(0x960B, seed);
    let field = (draw.from(33, 60) as u32, draw.from(129, 140) as u32);
    let mut draft = Draft::default();
    let mut back = Package::draw(&mut draw);
    back.code = (RETURN / BLOCK, RETURN / BLOCK + 1);
    (back.data, back.xa) = (WIDE, 1);
    back.modes |= MONITOR;
    draft.package(1, &back);
    let mut program = Program::new(0);
    program.one(0o004, 0, 0, 0);
    program.branch(0o006, 0);
    draft.program(RETURN, &program);

    let mut package = Package::draw(&mut draw);
    package.code = (CODE / BLOCK, draw.from(128, 130) as u32);
    (package.data, package.xa, package.vl) = (field, 1, 64);
    package.modes = package.modes & !(MONITOR | IOR) | [IOR, 0, MONITOR][(seed % 3) as usize];
    let mut probes = Probes {
        draw: &mut draw,
        program: Program::new(0),
        field,
        out: OUT,
    };
    probes.write();
    let mut program = probes.program;
    let place = (field.0 * BLOCK, seed / 3, seed % 3 == 2);
    last(&mut program, &mut draw, place);
    draft.package(0, &package);
    draft.program(CODE, &program);
    draft.data(field.0 * BLOCK, WORDS, &mut draw);
    for word in WORDS - DENSE..WORDS {
        draft.words.insert(field.0 * BLOCK + word, draw.next());
    }
    draft.steps = 600;
    if let Ending::Spent = ending(seed / 3) {
        draft.steps = steps(&draft);
    }
    draft.text()
}

/// The steps that a sheet takes.
fn steps(draft: &Draft) -> u64 {
    let mut memory = vec![0; 0x1000];
    for (address, word) in &draft.words {
        memory[*address as usize] = *word;
    }
    let started = start(&memory, 0, 0);
    let ended = started.and_then(|mut state| run(&mut state, &mut memory, draft.steps));
    ended.map_or(0, |ended| ended.steps)
}

struct Probes<'a> {
    draw: &'a mut Draw,
    program: Program,
    field: (u32, u32),
    /// Where the next result goes.
    out: u32,
}

impl Probes<'_> {
    fn write(&mut self) {
        fill(&mut self.program, self.draw, WORDS);
        for _ in 0..PROBES {
            match self.draw.below(10) {
                0 | 1 => self.zero(),
                2 | 3 => self.shifted(),
                4 | 5 => self.vector(),
                6 => self.branch(),
                7 => self.plain(),
                _ => self.outside(),
            }
        }
        self.length(64, 6);
        fold(&mut self.program, self.out);
    }

    /// One of the patterns that pass a test.
    fn code(&mut self, test: impl Fn(&Code) -> bool) -> Code {
        let passed: Vec<Code> = CODES.iter().filter(|code| test(code)).copied().collect();
        self.draw.pick(&passed)
    }

    /// Sets VL by way of an A register.
    fn length(&mut self, length: u32, by: u16) {
        self.program.set_a(by, length);
        self.program.one(0o002, 0, 0, by);
    }

    /// Fills an S register with one of the words drawn from all.
    fn dense(&mut self, register: u16) {
        let word = self
            .draw
            .from(u64::from(WORDS - DENSE), u64::from(WORDS) - 1);
        self.program.two(0o120, register, word as u32);
    }

    fn zero(&mut self) {
        let code = self.code(|code| !specials(code.text).is_empty());
        let operand = self.draw.pick(specials(code.text));
        let parcel = self.draw.parcel(code.text) & !(7 << operand.0.shift());
        self.dense(0);
        let (i, j) = (parcel >> 6 & 7, parcel >> 3 & 7);
        if i != 0 {
            self.dense(i);
        }
        if j != 0 {
            self.dense(j);
        }
        let inside = self.draw.below(64) as u32;
        let any = self.draw.address();
        let known = reference(code.text) != Reference::No || self.draw.often(30);
        self.program.set_a(0, if known { inside + 3 } else { any });
        self.finish(code, parcel, inside);
    }

    /// A count, a sum or logic, of numbers of few ones or few zeros.
    fn plain(&mut self) {
        let code = self.code(|code| PLAIN.contains(&&code.text[..3]));
        let parcel = self.draw.parcel(code.text);
        for register in [parcel >> 3 & 7, parcel & 7] {
            let ones = self.draw.pick(&[0, 0, 1, 2, 62, 63]);
            self.program.one(
                self.draw.pick(&[0o042, 0o043]),
                register,
                ones >> 3,
                ones & 7,
            );
            let any = self.draw.address();
            self.program
                .set_a(register, self.draw.pick(&[0xFF_FFFF, 0x80_0000, 1, any]));
        }
        self.finish(code, parcel, 0);
    }

    fn shifted(&mut self) {
        let code = self.code(|code| shift(code.text).is_some());
        let mut parcel = self.draw.parcel(code.text);
        if shift(code.text) == Some(Shift::Register(64)) || code.text.starts_with("15") {
            self.length(64, 6);
        } else {
            self.dense(parcel >> 6 & 7);
            self.dense(parcel >> 3 & 7);
        }
        match shift(code.text) {
            Some(Shift::Register(_)) => {
                parcel |= u16::from(parcel & 7 == 0);
                let wide = (self.draw.from(1, 0x1_FFFF) << 7 | self.draw.below(64)) as u32;
                let less = 0x100_0000 - self.draw.from(1, 63) as u32;
                let count = self.draw.pick(&[0, 1, 63, 64, 65, 127, 128, wide, less]);
                self.program.set_a(parcel & 7, count);
            }
            _ => parcel = parcel & !0o77 | self.draw.pick(&[0, 1, 63, parcel & 0o77]),
        }
        self.finish(code, parcel, 0);
    }

    /// Vector work, mostly into one of its operands; references inside.
    fn vector(&mut self) {
        let code = self.code(|code| is_vector(code.text));
        let mut parcel = self.draw.parcel(code.text);
        let (i, j, k) = (parcel >> 6 & 7, parcel >> 3 & 7, parcel & 7);
        if reference(code.text) != Reference::No {
            self.program.set_a(k, self.draw.below(4) as u32);
            self.program.set_a(0, self.draw.below(100) as u32);
        } else if code.text.starts_with("175") {
            if self.draw.often(50) {
                // No bits of S0 as Sj are in common with anything.
                self.program.one(0o140, j, 0, SUM);
            }
        } else if let (true, Some(at)) = (self.draw.often(75), self.same(code)) {
            parcel = parcel & !(7 << at.shift()) | i << at.shift();
        }
        let any = self.draw.from(1, 64) as u32;
        let length = self.draw.pick(&[1, 1, 64, 64, any]);
        // A6 is free, or A5 where it is the increment.
        self.length(length, 6 - u16::from(k == 6));
        self.finish(code, parcel, 0);
    }

    fn same(&mut self, code: Code) -> Option<Designator> {
        let operands = vectors(code.text);
        (!operands.is_empty()).then(|| self.draw.pick(operands))
    }

    /// A conditional branch: past one parcel if it is taken, else to anywhere.
    fn branch(&mut self) {
        let gh = self.draw.from(0o010, 0o017) as u16;
        let [zero, sign] = self
            .draw
            .pick(&[[true, false], [false, false], [false, true]]);
        if gh < 0o014 {
            let value = [1, 0x80_0000][usize::from(sign)] * u32::from(!zero);
            self.program.set_a(0, value);
        } else {
            // As many ones at the left as jk says, or all but as many.
            let code = if zero || sign { 0o043 } else { 0o042 };
            self.program.one(code, 0, 0, u16::from(!zero));
        }
        let taken = [zero, !zero, !sign, sign][usize::from(gh & 3)];
        let after = self.program.here() + 3;
        let any = self.draw.below(1 << 24) as u32;
        self.program.branch(gh, if taken { after } else { any });
        let i = self.draw.from(1, 7) as u16;
        self.program
            .one(0o022, i, self.draw.digit(), self.draw.digit());
        self.program.two(0o110, i, self.out);
        self.out += 1;
    }

    /// A word outside, or a row that passes an end of the field.
    fn outside(&mut self) {
        let code = self.code(|code| reference(code.text) != Reference::No);
        let parcel = self.draw.parcel(code.text);
        let base = self.field.0 * BLOCK;
        let end = self
            .draw
            .pick(&[0x40_0000, 0x1000 - base, self.field.1 * BLOCK - base]);
        let near = self.draw.below(8) as u32;
        if let Reference::Word(_) = reference(code.text) {
            let before = self.draw.often(30);
            let word = if before { end - 1 - near } else { end + near };
            return self.finish(code, parcel, word & 0x3F_FFFF);
        }
        let count = self.draw.from(4, 14) as u32;
        let (i, k) = (parcel >> 6 & 7, parcel & 7);
        let mut from = end - near;
        if !is_vector(code.text) {
            self.program
                .set_a(i, count | self.draw.below(2) as u32 * 0x80);
        } else {
            self.length(count, 6);
            if k != 0 && self.draw.often(70) {
                let back = self.draw.often(50);
                from = if back { end + near } else { from };
                self.program.set_a(k, if back { 0xFF_FFFF } else { 1 });
            }
        }
        self.program.set_a(0, from & 0xFF_FFFF);
        self.finish(code, parcel, 0);
    }

    /// The instruction, a word reference going to `word`, and what shows its
    /// result.
    fn finish(&mut self, code: Code, mut parcel: u16, word: u32) {
        let (h, i) = (parcel >> 9 & 7, parcel >> 6 & 7);
        let mut second = self.draw.next() as u16;
        if let Reference::Word(_) = reference(code.text) {
            if h == 0 {
                (parcel, second) = (parcel & !0o77 | (word >> 16) as u16, word as u16);
            } else {
                let jkm = u32::from(parcel & 0o77) << 16 | u32::from(second);
                self.program.set_a(h, word.wrapping_sub(jkm) & 0xFF_FFFF);
            }
        }
        self.program.parcels.push(parcel);
        if code.two_parcels() {
            self.program.parcels.push(second);
        }
        self.show(code, i);
    }

    fn show(&mut self, code: Code, i: u16) {
        match &code.text[..3] {
            "001" | "034" | "036" | "035" | "037" | "11h" | "13h" | "177" => return,
            "002" => {
                self.program.one(0o023, 5, 0, 1);
                self.program.two(0o110, 5, self.out);
            }
            "003" | "175" => {
                self.program.one(0o073, 5, 0, 0);
                self.program.two(0o130, 5, self.out);
            }
            "023" | "026" | "027" | "030" | "031" | "032" | "10h" => {
                self.program.two(0o110, i, self.out);
            }
            "052" | "053" => self.program.two(0o130, 0, self.out),
            text if is_vector(text) || text == "077" => {
                self.length(64, 6);
                self.program.one(0o155, SUM, SUM, i);
                return;
            }
            _ => self.program.two(0o130, i, self.out),
        }
        self.out += 1;
    }
}

/// What the last parcels are for.
enum Ending {
    /// A parcel that is not held, and would be with another digit at a place.
    Neighbour(&'static str, usize),
    /// A code of which nothing is held.
    Empty(u16),
    /// A pattern that is held in user mode alone.
    User(&'static str),
    /// A branch by 006 or 007 with this digit as j and as k.
    Far(u16, u32),
    /// An instruction whose second parcel is past the end of memory.
    Edge,
    /// The budget is spent, and the next step would stop.
    Spent,
}

/// Goes through the endings by a number: each is there for a hundred or so.
fn ending(number: u64) -> Ending {
    let mut endings: Vec<Ending> = Vec::new();
    for code in CODES {
        let letters = code.text.bytes().enumerate().skip(3).take(3);
        let fixed = letters.filter(|(_, letter)| !b"ijk".contains(letter));
        endings.extend(fixed.map(|(place, _)| Ending::Neighbour(code.text, place)));
        if code.mode == Mode::User {
            endings.extend([0; 3].map(|_| Ending::User(code.text)));
        }
    }
    endings.extend((0..128).filter(|gh| empty(*gh)).map(Ending::Empty));
    for digit in 0..8 {
        endings.extend([0o006, 0o007].map(|gh| Ending::Far(gh, digit)));
    }
    for _ in 0..4 {
        endings.extend([Ending::Edge, Ending::Spent]);
    }
    let number = number as usize % endings.len();
    endings.swap_remove(number)
}

/// The last parcels: one that is not held where that can be had.
fn last(program: &mut Program, draw: &mut Draw, (base, number, monitor): (u32, u64, bool)) {
    let parcel = match ending(number) {
        Ending::Far(gh, digit) => {
            let rest = draw.below(1 << 24) as u32 & !(0o77 << 16);
            return program.branch(gh, rest | (digit << 3 | digit) << 16);
        }
        Ending::Edge => {
            // The parcel is stored into the last place of memory.
            let gh = draw.pick(&[0o010, 0o017, 0o020, 0o041, 0o101, 0o136]);
            program.two(0o040, 1, gh << 9 | draw.below(0o1000) as u32);
            program.two(0o130, 1, 0xFFF - base);
            return program.branch(0o006, (0xFFF - CODE) * 4 + 3);
        }
        Ending::Empty(gh) => gh << 9 | draw.below(0o1000) as u16,
        Ending::Neighbour(text, place) => {
            tried(draw, (text, place), |parcel| find(parcel).is_none())
        }
        Ending::Spent => 0o000_001,
        Ending::User(text) => {
            // No place of a parcel is its seventh.
            tried(draw, (text, 6), |parcel| held(parcel, monitor).is_none())
        }
    };
    program.parcels.push(parcel);
}

/// A parcel that fits a pattern, but for a place, and passes a test; else one
/// that is not held.
fn tried(draw: &mut Draw, (text, place): (&str, usize), test: impl Fn(u16) -> bool) -> u16 {
    let mut tries = (0..100).map(|_| draw.parcel_but(text, place));
    tries.find(|parcel| test(*parcel)).unwrap_or(0o000_001)
}
