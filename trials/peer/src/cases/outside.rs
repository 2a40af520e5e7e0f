//! One instruction with an operand outside, and steps without one after it.
//!
//! A round of 104 seeds goes through the codes that refer to memory, what
//! follows (user mode with IOR, without, monitor mode) and the causes. Three
//! rounds give each code and cause each of three shapes: the first words are
//! outside; the first word that is outside is next to the field's end, and of
//! those before it some are inside; later words have another cause. Half of
//! them have an operand outside before. The last of a round have something
//! outside that is no operand: a block move of no words, or a parcel.
//!
//! Two more programs follow by exchanges, or the run ends before.

use super::build::{Draft, Package, Program, IOR, MONITOR};
use super::draw::Draw;
use super::parts::{harmless, WIDE};
use crate::codes::{most_words, reference, Code, Reference, CODES};
use crate::machine::{place, Cause};

/// Words of code that each program has room for, and their place.
const CODE: u32 = 0x100;
const ROOM: u32 = 0x60;
const BLOCK: u32 = 32;
const MEMORY: u32 = 0x1000;
const CAUSES: [Cause; 3] = [Cause::Below, Cause::Limit, Cause::Memory];
const PROGRAMS: u32 = 3;
const ROUND: u64 = 104;

pub fn sheet(seed: u64) -> Vec<u8> {
    let mut case = Case {
        draw: Draw::new(0x0075, seed),
        draft: Draft::default(),
    };
    match seed % ROUND {
        n @ 0..=89 => case.operand(n, seed / ROUND),
        n @ 90..=93 => case.no_words(n - 90),
        n => case.parcel(n - 94),
    }
    for number in 1..PROGRAMS {
        let package = case.package(number);
        case.place(number, &package, Program::new(0));
    }
    case.draft.data(WIDE.0 * BLOCK, 8, &mut case.draw);
    case.draft.steps = case.draw.from(60, 100);
    case.draft.text()
}

/// The patterns that refer to memory in some way.
fn references(test: impl Fn(Reference) -> bool) -> Vec<Code> {
    let codes = CODES.iter().filter(|code| test(reference(code.text)));
    codes.copied().collect()
}

struct Case {
    draw: Draw,
    draft: Draft,
}

impl Case {
    fn package(&mut self, number: u32) -> Package {
        let block = (CODE + ROOM * number) / BLOCK;
        let mut package = Package::draw(&mut self.draw);
        package.code = (block, block + ROOM / BLOCK);
        (package.data, package.xa) = (WIDE, number + 1);
        package
    }

    /// Puts a program into the sheet, with some more steps and an end.
    fn place(&mut self, number: u32, package: &Package, mut program: Program) {
        self.rest(&mut program, package, number + 1 == PROGRAMS);
        self.draft.package(number, package);
        self.draft.program(CODE + ROOM * number, &program);
    }

    /// The first program: an operand outside.
    fn operand(&mut self, number: u64, round: u64) {
        let code = references(|kind| kind != Reference::No)[(number % 10) as usize];
        let (rule, cause) = (number / 10 % 3, CAUSES[number as usize / 30]);
        let row = Row::draw(&mut self.draw, code, cause, (round + rule) % 3);
        let mut package = self.package(0);
        package.data = row.field;
        package.modes = match rule {
            0 => package.modes & !MONITOR | IOR,
            1 => package.modes & !(MONITOR | IOR),
            _ => package.modes | MONITOR,
        };
        let mut program = Program::new(0);
        if self.draw.often(50) {
            self.earlier(&mut program, row.field, cause);
            if rule == 0 {
                // That one is not to make an exchange.
                package.modes &= !IOR;
                program.one(0o002, 3, 0, 0);
            }
        }
        self.refer(&mut program, code, &row);
        let first = row.field.0 * BLOCK;
        if first < MEMORY {
            let count = (MEMORY - first).min(40);
            self.draft.data(first, count, &mut self.draw);
        }
        self.place(0, &package, program);
    }

    /// A word that is outside for another cause, at one of the edges.
    fn earlier(&mut self, program: &mut Program, (base, limit): (u32, u32), not: Cause) {
        let edges = [base * BLOCK - 1, base.max(limit) * BLOCK, MEMORY];
        let addresses = edges.map(|word| word.wrapping_sub(base * BLOCK) & 0x3F_FFFF);
        let other = |address: &u32| {
            let cause = place(base, limit, MEMORY as usize, *address).err();
            cause.is_some_and(|cause| cause != not)
        };
        let others: Vec<u32> = addresses.into_iter().filter(other).collect();
        let gh = self.draw.pick(&[0o100, 0o110, 0o120, 0o130]);
        program.two(gh, self.draw.digit(), self.draw.pick(&others));
        program.parcels.push(harmless(&mut self.draw));
    }

    /// The instruction, after what gives it these words.
    fn refer(&mut self, program: &mut Program, code: Code, row: &Row) {
        let mut parcel = self.draw.parcel(code.text);
        let first = row.first() & 0x3F_FFFF | (self.draw.below(4) as u32) << 22;
        let second = self.draw.next() as u16;
        match reference(code.text) {
            Reference::Block(_) => {
                // A0 has the address.
                parcel |= u16::from(parcel >> 6 & 7 == 0) << 6;
                let high = (self.draw.below(1 << 17) as u32) << 7;
                program.set_a(parcel >> 6 & 7, high | row.count);
                program.set_a(0, first);
            }
            Reference::Vector(_) => {
                program.set_a(1, row.count);
                program.one(0o002, 0, 0, 1);
                parcel |= u16::from(parcel & 7 == 0 && row.stride != 1);
                if parcel & 7 != 0 {
                    program.set_a(parcel & 7, row.stride & 0xFF_FFFF);
                }
                program.set_a(0, first);
            }
            _ => {
                parcel |= u16::from(parcel >> 9 & 7 == 0) << 9;
                let jkm = u32::from(parcel & 0o77) << 16 | u32::from(second);
                program.set_a(parcel >> 9 & 7, first.wrapping_sub(jkm) & 0xFF_FFFF);
            }
        }
        program.parcels.push(parcel);
        if code.two_parcels() {
            program.parcels.push(second);
        }
    }

    /// The first program: a block move of no words, at an address outside.
    fn no_words(&mut self, number: u64) {
        let code = references(|kind| matches!(kind, Reference::Block(_)))[number as usize];
        let cause = self.draw.pick(&CAUSES);
        let row = Row::draw(&mut self.draw, code, cause, 0);
        let mut package = self.package(0);
        package.data = row.field;
        let mut program = Program::new(0);
        self.refer(&mut program, code, &Row { count: 0, ..row });
        self.place(0, &package, program);
    }

    /// The first program: a first or second parcel outside, in either mode.
    fn parcel(&mut self, number: u64) {
        let mut package = self.package(0);
        package.modes = package.modes & !MONITOR | (number / 5) as u32 * MONITOR;
        let past = match number % 5 {
            // Below the base, by a sum that wraps.
            0 => (1 << 24) - self.draw.from(1, 4 * u64::from(CODE)) as u32,
            // Over the limit, or inside if high bits are lost.
            1 => self.draw.pick(&[4 * ROOM, 1 << 22, 1 << 23]),
            3 => 4 * ROOM,
            _ => {
                package.code.1 = self.draw.from(129, 140) as u32;
                4 * (MEMORY - CODE)
            }
        };
        let mut program = Program::new(0);
        if number % 5 < 3 {
            program.branch(0o006, past);
        } else {
            let twos = CODES.iter().filter(|code| code.two_parcels());
            let twos: Vec<Code> = twos.copied().collect();
            let mut tail = Program::new(past - 1);
            let text = self.draw.pick(&twos).text;
            tail.parcels.push(self.draw.parcel(text));
            self.draft.program(CODE, &tail);
            program.branch(0o006, past - 1);
        }
        self.place(0, &package, program);
    }

    /// Steps without an operand outside, and an end: an exit, a branch out of
    /// the field, a parcel that is not held, or a loop until the budget is spent.
    fn rest(&mut self, program: &mut Program, package: &Package, last: bool) {
        let (base, limit) = package.data;
        let inside = base < limit && base * BLOCK < MEMORY;
        for _ in 0..self.draw.below(5) {
            if inside && self.draw.often(40) {
                let gh = self.draw.pick(&[0o100, 0o110, 0o120, 0o130]);
                program.two(gh, self.draw.digit(), 0);
            } else {
                program.parcels.push(harmless(&mut self.draw));
            }
        }
        let ends = if last { 3 } else { 8 };
        match self.draw.below(ends) {
            0 => program.parcels.push(0o000_001),
            2 if !last || package.modes & MONITOR != 0 => program.branch(0o006, 4 * ROOM),
            1 | 2 => program.branch(0o006, program.here()),
            3 => program.one(0o000, 0, 0, 0),
            _ => program.one(0o004, 0, 0, 0),
        }
    }
}

/// A number from the first to the second, both included.
fn between(draw: &mut Draw, (low, high): (u32, u32)) -> u32 {
    draw.from(low.into(), high.into()) as u32
}

/// Words in a row, some of them outside of a field: the first of these as it
/// stands in memory, its number, how many words there are, and from one to the
/// next.
struct Row {
    field: (u32, u32),
    word: u32,
    element: u32,
    count: u32,
    stride: u32,
}

impl Row {
    fn draw(draw: &mut Draw, code: Code, cause: Cause, shape: u64) -> Row {
        let kind = reference(code.text);
        let mut row = match cause {
            Cause::Below => Row::below(draw, kind, shape),
            Cause::Limit => Row::limit(draw, kind, shape),
            Cause::Memory => Row::memory(draw, kind, shape),
        };
        let most = most_words(code.text);
        row.count = match shape {
            2 => most,
            _ => between(draw, (most.min(row.element + 2), most)),
        };
        row
    }

    /// From the first word that is outside on.
    fn from(field: (u32, u32), word: u32) -> Row {
        Row {
            field,
            word,
            element: 0,
            count: 1,
            stride: 1,
        }
    }

    /// Words inside up to the first that is outside: of a block move so many.
    fn up_to(self, draw: &mut Draw, kind: Reference, elements: (u32, u32)) -> Row {
        let (element, stride) = match kind {
            Reference::Block(_) => (between(draw, elements), 1),
            Reference::Vector(_) => (between(draw, (1, 62)), between(draw, (2, 5))),
            _ => (0, 1),
        };
        Row {
            element,
            stride,
            ..self
        }
    }

    fn below(draw: &mut Draw, kind: Reference, shape: u64) -> Row {
        let base = between(draw, (60, 100));
        let edge = base * BLOCK - 1;
        let near = between(draw, (0, 19));
        match (shape, kind) {
            (0, _) => {
                // It is over the limit and beyond memory too.
                let base = between(draw, (140, 400));
                let limit = between(draw, (0, base - 1));
                let least = MEMORY.max(limit * BLOCK);
                Row::from((base, limit), between(draw, (least, base * BLOCK - 1)))
            }
            (1, Reference::Vector(_)) => Row {
                element: between(draw, (1, 62)),
                stride: between(draw, (1, 5)).wrapping_neg(),
                ..Row::from((base, base + 10 + near), edge)
            },
            // Going up, nothing inside comes before it.
            (1, _) => Row::from((base, base + 10 + near), edge),
            // It is over the limit too.
            (_, Reference::Word(_)) => Row::from((base, base - 1 - near), edge - near),
            _ => {
                let field = draw.pick(&[(base, base), (base, base + 1), (127, 130)]);
                Row::from(field, field.0 * BLOCK - 1 - near)
            }
        }
    }

    fn limit(draw: &mut Draw, kind: Reference, shape: u64) -> Row {
        let base = between(draw, (33, 60));
        let limit = base + between(draw, (12, 60));
        let edge = limit * BLOCK;
        match (shape, kind) {
            (0, _) => {
                // It is beyond memory too.
                let limit = between(draw, (base, 140));
                let word = MEMORY.max(limit * BLOCK) + between(draw, (0, 1 << 21));
                Row::from((base, limit), word)
            }
            (1, _) => Row::from((base, limit), edge).up_to(draw, kind, (1, 63)),
            (_, Reference::Word(_)) => Row::from((base, limit), between(draw, (edge, MEMORY - 1))),
            // The sums wrap later.
            _ => Row::from((base, limit), (1 << 22) - between(draw, (1, 20))),
        }
    }

    fn memory(draw: &mut Draw, kind: Reference, shape: u64) -> Row {
        let (base, limit) = (between(draw, (33, 110)), between(draw, (135, 200)));
        match shape {
            0 => {
                let limit = draw.pick(&[129, limit, 0x1_FFFF]);
                Row::from((base, limit), between(draw, (MEMORY, limit * BLOCK - 1)))
            }
            1 => Row::from((base, limit), MEMORY).up_to(draw, kind, (64, 125)),
            _ => {
                let limit = between(draw, (129, 131));
                Row::from((base, limit), limit * BLOCK - between(draw, (1, 20)))
            }
        }
    }

    /// The address of the first word, in the field.
    fn first(&self) -> u32 {
        let before = self.stride.wrapping_mul(self.element);
        let word = self.word.wrapping_sub(before);
        word.wrapping_sub(self.field.0 * BLOCK)
    }
}
