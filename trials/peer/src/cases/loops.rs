//! Two programs that loop for ever on one memory, from packages 0 and 1.
//!
//! Each fills V, B, T and VM, then goes round: drawn instructions, mostly a
//! dump of those registers, else two stores, a count in memory, a branch back. No step exchanges or stops, so a
//! pair run goes on as long as its schedule; a run takes the first alone.
//! Data fields are the same, overlap, touch or lie apart; code is in neither.

use super::body::{Body, Manner};
use super::build::{Draft, Package, Program, IOR, MONITOR};
use super::draw::Draw;
use super::parts::{dump, fill};

/// Words of code that each program has room for, and their place.
const CODE: [u32; 2] = [0x100, 0x180];
const ROOM: u32 = 0x80;
const BLOCK: u32 = 32;
/// Words at the base of each data field.
const DATA_WORDS: u32 = 150;

pub fn sheet(seed: u64) -> Vec<u8> {
    let mut draw = Draw::new(0x1005, seed);
    let mut draft = Draft::default();
    for (number, field) in fields(&mut draw).into_iter().enumerate() {
        let mut package = Package::draw(&mut draw);
        let block = CODE[number] / BLOCK;
        package.code = (block, block + ROOM / BLOCK);
        package.data = field;
        package.vl = 64;
        if package.modes & MONITOR == 0 {
            package.modes &= !IOR;
        }
        let program = if seed % 16 == number as u64 {
            covering(&mut draw)
        } else {
            looping(&mut draw, &package)
        };
        draft.package(number as u32, &package);
        draft.litter(number as u32, &mut draw);
        draft.program(CODE[number], &program);
        draft.data(field.0 * BLOCK, DATA_WORDS, &mut draw);
    }
    draft.steps = match draw.below(20) {
        0 => draw.from(4_000, 100_000),
        _ => draw.from(300, 4_000),
    };
    draft.text()
}

/// The two data fields, in words 0400 to 0FFF.
fn fields(draw: &mut Draw) -> [(u32, u32); 2] {
    let between = draw.from(48, 112) as u32;
    let over = draw.from(1, 8) as u32;
    let mut pair = match draw.below(4) {
        0 => [(32, 128), (32, 128)],
        1 => [(32, between), (between, 128)],
        2 => [(32, between), (between - over, 128)],
        _ => [(32, between - over), (between, 128)],
    };
    if draw.often(50) {
        pair.reverse();
    }
    pair
}

fn looping(draw: &mut Draw, package: &Package) -> Program {
    let mut program = Program::new(0);
    fill(&mut program, draw, DATA_WORDS);
    let start = program.here();
    let mut body = Body {
        draw,
        program: &mut program,
        package,
        slots: &[0, 1],
        manner: Manner::Endless,
    };
    body.write(360);
    if draw.often(90) {
        dump(&mut program, draw.below(0x100) as u32);
    } else {
        program.two(0o130, draw.digit(), draw.below(0x100) as u32);
        program.two(0o110, draw.digit(), draw.below(0x100) as u32);
    }
    count(&mut program, draw.below(0x100) as u32);
    program.branch(0o006, start);
    program
}

/// Adds 1 to a word of memory, so that no loop comes to store the same again.
fn count(program: &mut Program, word: u32) {
    program.two(0o120, 7, word);
    program.one(0o042, 6, 7, 7);
    program.one(0o060, 7, 7, 6);
    program.two(0o130, 7, word);
}

/// Sums of vectors stored one after another through the whole field, so that
/// over 1,024 words change where it is wide.
fn covering(draw: &mut Draw) -> Program {
    let mut program = Program::new(0);
    fill(&mut program, draw, DATA_WORDS);
    program.set_a(1, 0);
    program.set_a(2, 64);
    let start = program.here();
    let (i, j) = (draw.digit(), draw.digit());
    program.one(0o155, i, i, j);
    program.one(0o030, 0, 0, 1);
    program.one(0o177, 0, i, 0);
    program.one(0o030, 1, 1, 2);
    program.branch(0o006, start);
    program
}
