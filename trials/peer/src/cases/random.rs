//! Programs of drawn instructions that pass on to one another by exchanges.
//!
//! Package 0 starts. In most sheets its program fills V, B, T and VM; the next
//! packages run drawn instructions, in either mode, under fields of every
//! shape; the last one mostly writes the hidden registers to memory. XA joins
//! them in a row, so any cause of an exchange goes on to the next program.

use super::body::{Body, Manner};
use super::build::{Draft, Package, Program, MONITOR};
use super::draw::Draw;
use super::parts::{data_field, dump, fill, WIDE};

const DATA: u32 = 0x400;
const DATA_WORDS: u32 = 200;
/// Words of code that each program has room for, and their place.
const ROOM: u32 = 0x60;
const CODE: u32 = 0x100;
/// A block of the field's measure holds 32 words, 128 parcels.
const BLOCK: u32 = 32;

pub fn sheet(seed: u64) -> Vec<u8> {
    let mut case = Case {
        draw: Draw::new(0xDA7A, seed),
        draft: Draft::default(),
        slots: Vec::new(),
    };
    case.fill_in();
    case.draft.text()
}

struct Case {
    draw: Draw,
    draft: Draft,
    /// The package numbers of the programs in a row.
    slots: Vec<u32>,
}

impl Case {
    fn fill_in(&mut self) {
        let programs = self.draw.from(1, 5) as u32;
        self.slots = (0..programs).collect();
        if programs > 1 && self.draw.often(20) {
            self.slots[programs as usize - 1] = self.draw.pick(&[7, 15, 128, 200, 254, 255]);
        }
        let filled = self.draw.often(85);
        let dumped = self.draw.often(75);
        for number in 0..programs {
            match number {
                0 if filled && programs > 1 => self.filler(),
                n if dumped && n + 1 == programs && n > 0 => self.dumper(n),
                n => self.worker(n, filled && programs == 1),
            }
        }
        self.draft.data(DATA, DATA_WORDS, &mut self.draw);
        self.draft.steps = self.budget();
    }

    fn budget(&mut self) -> u64 {
        match self.draw.below(100) {
            0..=9 => self.draw.below(30),
            10..=84 => self.draw.from(60, 400),
            85..=94 => self.draw.from(400, 4_000),
            95..=97 => self.draw.from(4_000, 100_000),
            98 => self.draw.from(100_000, 999_999),
            _ => 1_000_000,
        }
    }

    /// The package that program `number` passes on to.
    fn next_slot(&mut self, number: u32) -> u32 {
        match self.slots.get(number as usize + 1) {
            Some(slot) if self.draw.often(90) => *slot,
            _ if self.draw.often(90) => self.draw.pick(&self.slots),
            _ => self.draw.below(256) as u32,
        }
    }

    fn place(&mut self, number: u32, package: &Package) {
        let slot = self.slots[number as usize];
        self.draft.package(slot, package);
        if self.draw.often(40) {
            self.draft.litter(slot, &mut self.draw);
        }
    }

    fn quiet(&mut self, number: u32) -> Package {
        let block = (CODE + number * ROOM) / BLOCK;
        let mut package = Package::draw(&mut self.draw);
        package.code = (block, block + ROOM / BLOCK);
        package.data = WIDE;
        package.modes |= MONITOR;
        package.vl = self.draw.pick(&[0, 64]);
        package.xa = self.next_slot(number);
        package
    }

    fn filler(&mut self) {
        let package = self.quiet(0);
        let mut program = Program::new(0);
        fill(&mut program, &mut self.draw, DATA_WORDS);
        program.one(0o004, 0, 0, 0);
        program.branch(0o006, 0);
        self.draft.program(CODE, &program);
        self.place(0, &package);
    }

    fn dumper(&mut self, number: u32) {
        let package = self.quiet(number);
        let mut program = Program::new(0);
        dump(&mut program, 0x400);
        match self.draw.below(3) {
            0 => program.one(0o000, 0, 0, 1),
            1 => program.one(0o033, 1, 2, 0),
            _ => program.one(0o004, 0, 0, 0),
        }
        program.branch(0o006, 0);
        self.draft.program(CODE + number * ROOM, &program);
        self.place(number, &package);
    }

    /// A package whose instruction field begins at word `base`, at the end of
    /// memory or not.
    fn placed(&mut self, number: u32, base: u32, last: bool) -> Package {
        let mut package = Package::draw(&mut self.draw);
        package.code.0 = base / BLOCK;
        package.code.1 = base / BLOCK + ROOM / BLOCK;
        if last {
            package.code.1 = self.draw.pick(&[128, 129, 129, 200, 0x1_FFFF]);
        }
        if number > 0 && self.draw.often(4) {
            package.code.0 |= 1 << self.draw.from(8, 16);
        } else if number > 0 && self.draw.often(4) {
            package.p |= 1 << self.draw.from(12, 23);
        }
        package
    }

    /// A program of drawn instructions, at the base of its field or leading to
    /// a tail at the field's end.
    fn worker(&mut self, number: u32, alone: bool) {
        let last = number > 0 && self.draw.often(22);
        let base = if last { 0xFE0 } else { CODE + number * ROOM };
        let blocks = if last { 1 } else { ROOM / BLOCK };
        let mut package = self.placed(number, base, last);
        package.data = if alone {
            WIDE
        } else {
            data_field(&mut self.draw)
        };
        package.xa = self.next_slot(number);
        let mut program = Program::new(0);
        if alone {
            package.vl = 0;
            fill(&mut program, &mut self.draw, DATA_WORDS);
        }
        let most = if last { 80 } else { 300 };
        let mut body = Body {
            draw: &mut self.draw,
            program: &mut program,
            package: &package,
            slots: &self.slots,
            manner: Manner::Any,
        };
        body.write(most);
        if alone && self.draw.often(80) {
            dump(&mut program, 0x400);
        }
        self.ending(&mut program, base, blocks * 128);
        self.draft.program(base, &program);
        self.place(number, &package);
    }

    /// What stands after the body: an exit, a stop, a loop, a branch away, or
    /// a branch to the last parcels of the field.
    fn ending(&mut self, program: &mut Program, base: u32, parcels: u32) {
        // At the end of memory mostly the last parcels are wanted.
        let kinds = if base == 0xFE0 { 7 } else { 10 };
        match self.draw.below(kinds) {
            0 => program.one(0o000, 0, 0, 0),
            1 => program.parcels.push(self.draw.next() as u16),
            2 => program.branch(0o006, 0),
            3 => {
                let wrapped = (0x100_0000 - base * 4) as u64 + self.draw.below(8);
                let any = self.draw.below(1 << 24);
                let target = self
                    .draw
                    .pick(&[wrapped, any, 0xFF_FFFF, u64::from(parcels)]);
                program.branch(0o006, target as u32 & 0xFF_FFFF);
            }
            4..=6 => self.tail(program, base, parcels),
            _ => {
                program.one(0o004, 0, 0, 0);
                program.branch(0o006, 0);
            }
        }
    }

    /// Up to four parcels that end at the field's last parcel.
    fn tail(&mut self, program: &mut Program, base: u32, parcels: u32) {
        let length = self.draw.from(1, 4) as u32;
        let mut tail = Program::new(parcels - length);
        for _ in 1..length {
            tail.one(0o002, 7, 0, 0);
        }
        let any = self.draw.next() as u16;
        let last = match self.draw.below(7) {
            0 => 0o004_000,
            1 => 0o006_400 | any & 0o377,
            2 => 0o005_000 | any & 0o77,
            3 => 0o100_000 | any & 0o37_777,
            4 => 0o010_000 | any & 0o7_777,
            5 => 0o002_700,
            _ => any,
        };
        tail.parcels.push(last);
        program.branch(0o006, tail.at);
        self.draft.program(base, &tail);
    }
}
