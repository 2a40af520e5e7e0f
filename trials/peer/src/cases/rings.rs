//! Programs that pass on to one another again and again.
//!
//! Package 0 starts a monitor program. Before an exit a monitor names the next
//! package by 0013j0, so that processors and packages change places all the
//! time. Programs store into the package that the next exchange takes, some by
//! an instruction that is partly outside and so makes that exchange itself,
//! and into the parcel that comes next. All loop.

use super::body::{Body, Manner};
use super::build::{Draft, Package, Program, IOR, MONITOR};
use super::draw::Draw;
use super::parts::{data_field, dump, harmless};

/// Words of code that each program has room for, and their place.
const CODE: u32 = 0x100;
const ROOM: u32 = 0x60;
const BLOCK: u32 = 32;
const DATA: u32 = 0x400;
const DATA_WORDS: u32 = 100;
/// Words that programs take to store them into code and packages.
const POOL: u32 = DATA + DATA_WORDS;
/// The whole memory as a field.
const ALL: (u32, u32) = (0, 128);
/// The parcel that does nothing.
const PASS: u16 = 0o002_700;

pub fn sheet(seed: u64) -> Vec<u8> {
    let mut ring = Ring {
        draw: Draw::new(0x4149, seed),
        draft: Draft::default(),
        slots: Vec::new(),
        named: 0,
        pool: POOL,
    };
    ring.write();
    ring.draft.text()
}

struct Ring {
    draw: Draw,
    draft: Draft,
    /// The package of each program.
    slots: Vec<u32>,
    /// The package that a monitor named last.
    named: u32,
    /// Where the next word for code goes.
    pool: u32,
}

impl Ring {
    fn write(&mut self) {
        let programs = self.draw.from(3, 6);
        self.slots = vec![0];
        while self.slots.len() < programs as usize {
            let slot = self.draw.pick(&[1, 2, 3, 4, 5, 7, 9, 11, 14, 15, 254, 255]);
            if !self.slots.contains(&slot) {
                self.slots.push(slot);
            }
        }
        for number in 0..self.slots.len() {
            self.program(number);
        }
        self.draft.data(DATA, DATA_WORDS, &mut self.draw);
        self.draft.steps = self.draw.from(200, 2_000);
    }

    fn program(&mut self, number: usize) {
        let base = CODE + ROOM * number as u32;
        let mut package = Package::draw(&mut self.draw);
        package.code = (base / BLOCK, (base + ROOM) / BLOCK);
        package.xa = self.draw.pick(&self.slots);
        package.modes |= IOR;
        if number == 0 || self.draw.often(40) {
            package.modes |= MONITOR;
        } else {
            package.modes &= !MONITOR;
        }
        package.data = match self.draw.below(8) {
            0 => data_field(&mut self.draw),
            // The package that is taken stands at the limit.
            1..=5 if package.xa % 2 == 1 && package.xa < 16 => (0, (package.xa + 1) / 2),
            _ => ALL,
        };
        let mut program = Program::new(0);
        if number == 0 && self.draw.often(60) {
            dump(&mut program, 0x800);
        }
        while program.parcels.len() < 240 {
            self.part(&mut program, &package, base);
        }
        program.branch(0o006, 0);
        let slot = self.slots[number];
        self.draft.package(slot, &package);
        self.draft.litter(slot, &mut self.draw);
        self.draft.program(base, &program);
    }

    /// Some work, and mostly an exchange after it.
    fn part(&mut self, program: &mut Program, package: &Package, base: u32) {
        let most = program.parcels.len() + 30;
        // A store that is drawn may go anywhere; it is to spare code and packages.
        let apart = package.data.0 * BLOCK >= DATA;
        let manner = if apart {
            Manner::Endless
        } else {
            Manner::Quiet
        };
        let mut body = Body {
            draw: &mut self.draw,
            program,
            package,
            slots: &self.slots,
            manner,
        };
        body.write(most);
        if package.data == ALL && self.draw.often(60) {
            self.patch(program, base);
        }
        let mut next = package.xa;
        if package.modes & MONITOR != 0 && self.draw.often(90) {
            while next == self.named {
                next = self.draw.pick(&self.slots);
            }
            self.named = next;
            program.set_a(3, next << 4 | self.draw.below(16) as u32);
            program.one(0o001, 3, 3, 0);
        }
        if package.data == ALL && self.draw.often(70) {
            self.into_package(program, next);
        } else if package.data.1 * BLOCK == package.xa * 16 + 16 {
            self.over_the_limit(program, package.xa);
        }
        match self.draw.below(8) {
            0 => {}
            1 => program.one(0o000, 0, 0, 0),
            _ => program.one(0o004, 0, 0, 0),
        }
    }

    /// Stores into A and S registers of a package.
    fn into_package(&mut self, program: &mut Program, slot: u32) {
        let [a, s] = [6, 8].map(|word| slot * 16 + word);
        let count = self.draw.from(1, 8) as u32;
        match self.draw.below(8) {
            0 => program.two(0o110, self.draw.digit(), a + self.draw.below(2) as u32),
            1 => program.two(0o130, self.draw.digit(), s + self.draw.below(8) as u32),
            2 => {
                program.set_a(0, a);
                self.block(program, 0o035, 1 + count % 2);
            }
            3 => {
                program.set_a(0, s);
                self.block(program, 0o037, count);
            }
            4 => {
                program.set_a(0, s);
                self.vector(program, 0o177, count, 1);
            }
            _ => {
                // Another XA for the program that comes.
                let xa = u64::from(self.draw.pick(&self.slots));
                let word = xa << 40 | self.draw.below(128) << 33 | self.draw.below(1 << 24);
                program.two(0o120, 1, self.kept(word));
                program.two(0o130, 1, slot * 16 + 3);
            }
        }
    }

    /// The place of a word in the pool.
    fn kept(&mut self, word: u64) -> u32 {
        self.draft.words.insert(self.pool, word);
        self.pool += 1;
        self.pool - 1
    }

    /// Moves words at the end of a package, and some that are over the limit
    /// behind it, in either order; in user mode the exchange takes the package.
    fn over_the_limit(&mut self, program: &mut Program, slot: u32) {
        let inside = self.draw.from(1, 8) as u32;
        let count = inside + self.draw.from(1, 30) as u32;
        program.set_a(0, slot * 16 + 16 - inside);
        match self.draw.below(10) {
            0 => self.block(program, 0o034, count),
            1 | 2 => self.block(program, 0o035, count),
            3 => self.block(program, 0o036, count),
            4 | 5 => self.block(program, 0o037, count),
            6 => self.vector(program, 0o176, count, 1),
            7 | 8 => self.vector(program, 0o177, count, 1),
            _ => {
                program.set_a(0, slot * 16 + 16 + 8);
                self.vector(program, 0o177, 16, 0xFF_FFFF);
            }
        }
    }

    /// A block move from A0 on, of drawn registers.
    fn block(&mut self, program: &mut Program, gh: u16, count: u32) {
        program.set_a(1, count);
        program.one(gh, 1, self.draw.digit(), self.draw.digit());
    }

    /// A vector reference from A0 on, of a drawn register.
    fn vector(&mut self, program: &mut Program, gh: u16, length: u32, stride: u32) {
        program.set_a(1, length);
        program.one(0o002, 0, 0, 1);
        program.set_a(2, stride);
        match gh {
            0o176 => program.one(gh, self.draw.digit(), 0, 2),
            _ => program.one(gh, 0, self.draw.digit(), 2),
        }
    }

    /// Stores another parcel into the place that comes next, the last of the
    /// word in which the storing instruction stands.
    fn patch(&mut self, program: &mut Program, base: u32) {
        let gh = self.draw.pick(&[0o035, 0o037, 0o110, 0o130, 0o177]);
        let (old, new) = (harmless(&mut self.draw), harmless(&mut self.draw));
        let pool = self.kept(0);
        let length = storing(gh, 0, new, pool).len() as u32;
        while (program.here() + length) % 4 != 3 {
            program.parcels.push(PASS);
        }
        let word = base + (program.here() + length - 1) / 4;
        program.parcels.extend(storing(gh, word, new, pool));
        let stays = &program.parcels[program.parcels.len() - 3..];
        let word = stays
            .iter()
            .fold(0, |word, parcel| word << 16 | u64::from(*parcel));
        self.draft.words.insert(pool, word << 16 | u64::from(new));
        program.parcels.push(old);
    }
}

/// Parcels that store a word at `to`: the word of the pool, or where the
/// registers have 24 bits only, the parcel `new` alone.
fn storing(gh: u16, to: u32, new: u16, pool: u32) -> Vec<u16> {
    let mut program = Program::new(0);
    match gh {
        0o035 => {
            program.set_a(1, u32::from(new));
            program.one(0o025, 1, 4, 4);
            program.set_a(0, to);
            program.one(0o022, 1, 0, 1);
            program.parcels.push(PASS);
            program.one(gh, 1, 4, 4);
        }
        0o110 => {
            program.set_a(1, u32::from(new));
            program.parcels.push(PASS);
            program.two(gh, 1, to);
        }
        0o130 => {
            program.two(0o120, 1, pool);
            program.parcels.push(PASS);
            program.two(gh, 1, to);
        }
        0o037 => {
            program.two(0o120, 1, pool);
            program.one(0o075, 1, 4, 4);
            program.set_a(0, to);
            program.one(0o022, 1, 0, 1);
            program.parcels.push(PASS);
            program.one(gh, 1, 4, 4);
        }
        _ => {
            program.two(0o120, 1, pool);
            program.one(0o022, 1, 0, 0);
            program.one(0o077, 4, 1, 1);
            program.set_a(0, to);
            program.one(0o002, 0, 0, 0);
            program.parcels.push(PASS);
            program.one(gh, 0, 4, 0);
        }
    }
    program.parcels
}
