//! Parts that several kinds of sheets share: fields, addresses near their
//! edges, a program that fills the registers no package holds, and one that
//! folds or writes them to memory so that the answer shows them.

use super::build::Program;
use super::draw::Draw;

/// The data field that the fill and dump programs use: words 0400 to 0FFF.
pub const WIDE: (u32, u32) = (32, 128);

/// A data field: mostly a wide one, else one with some cause for an operand
/// outside.
pub fn data_field(draw: &mut Draw) -> (u32, u32) {
    let any = |draw: &mut Draw| draw.below(1 << 17) as u32;
    match draw.below(16) {
        0 => (0, 128),
        1 => (0, 0x1_FFFF),
        2 | 3 => {
            let base = draw.from(32, 120) as u32;
            (base, base + draw.from(0, 6) as u32)
        }
        4 => (127, draw.from(127, 140) as u32),
        5 => (draw.from(32, 126) as u32, 0x1_FFFF),
        6 => (any(draw), any(draw)),
        7 => (draw.from(0, 200) as u32, draw.from(0, 200) as u32),
        8 => (draw.from(0x1_FFF0, 0x1_FFFF) as u32, any(draw)),
        9 => {
            // Fields that a register cut too short would take for others.
            let high = 1 << draw.from(7, 16);
            draw.pick(&[
                (32 | high, 0x1_FFFF),
                (32, 40 | high),
                (32 | high, 128 | high),
            ])
        }
        _ => WIDE,
    }
}

/// An address, relative to the field, at a place that matters: inside, near
/// the base, the limit or the end of memory, or anywhere. The two high bits
/// of the 24 never count.
pub fn aim(draw: &mut Draw, field: (u32, u32)) -> u32 {
    let (base, limit) = (u64::from(field.0) * 32, u64::from(field.1) * 32);
    let end = limit.min(0x1000).max(base + 1);
    let near = |draw: &mut Draw, place: u64| place + draw.below(5) + (1 << 22) - 2;
    let word = match draw.below(14) {
        0 => near(draw, base),
        1 => near(draw, limit),
        2 => near(draw, 0x1000),
        3 => draw.next(),
        4 => base + (1 << 22) - draw.from(1, 70),
        5 => limit.max(70) - draw.below(70),
        6 => base + draw.below(200),
        // An address that is inside only if its high bits are lost.
        7 => base + draw.below(end - base) + (1 << draw.from(12, 21)),
        _ => base + draw.below(end - base),
    };
    let relative = (word + (1 << 22) - base) as u32 & 0x3F_FFFF;
    relative | (draw.below(4) as u32) << 22
}

/// An increment for a vector reference.
pub fn stride(draw: &mut Draw) -> u32 {
    match draw.below(6) {
        0 => draw.pick(&[0, 1, 2, 3, 31, 32, 33, 64, 0x20_0000]),
        1 => 0x100_0000 - draw.from(1, 40) as u32,
        2 => draw.address(),
        3 => draw.from(1, 8) as u32 | 0xC0_0000,
        _ => draw.from(1, 40) as u32,
    }
}

/// An instruction that any register's contents suit.
pub fn harmless(draw: &mut Draw) -> u16 {
    const CODES: [u16; 10] = [
        0o022, 0o024, 0o030, 0o031, 0o042, 0o043, 0o044, 0o046, 0o060, 0o074,
    ];
    draw.pick(&CODES) << 9 | draw.below(512) as u16
}

/// The instructions that `fill` makes.
pub const FILL_STEPS: u64 = 23;

/// Fills V, B, T and VM from the words at the base of the data field. A1 and
/// S1 are used, and VL is taken to be 64.
pub fn fill(program: &mut Program, draw: &mut Draw, words: u32) {
    let from = |draw: &mut Draw, program: &mut Program| {
        let room = u64::from(words.saturating_sub(64)) + 1;
        program.set_a(0, draw.below(room) as u32);
    };
    for register in 0..8 {
        from(draw, program);
        program.one(0o176, register, 0, 0);
    }
    program.set_a(1, 64);
    from(draw, program);
    program.one(0o034, 1, 0, 0);
    from(draw, program);
    program.one(0o036, 1, 0, 0);
    program.two(0o120, 1, draw.below(u64::from(words)) as u32);
    program.one(0o003, 0, 1, 0);
}

/// Folds V, B, T and VM into V0 by steps that each can be undone, so that one
/// wrong register always shows, and stores it at relative word `to`.
pub fn fold(program: &mut Program, to: u32) {
    program.one(0o157, 0, 0, 1);
    program.one(0o145, 0, 0, 2);
    program.one(0o155, 0, 0, 3);
    program.one(0o157, 0, 4, 0);
    program.one(0o145, 0, 0, 5);
    program.one(0o155, 0, 0, 6);
    program.one(0o145, 0, 0, 7);
    program.set_a(0, to);
    program.set_a(1, 64);
    program.one(0o035, 1, 0, 0);
    program.one(0o176, 1, 0, 0);
    program.one(0o155, 0, 0, 1);
    program.one(0o037, 1, 0, 0);
    program.one(0o176, 1, 0, 0);
    program.one(0o145, 0, 0, 1);
    program.one(0o073, 1, 0, 0);
    program.one(0o154, 0, 1, 0);
    program.one(0o177, 0, 0, 0);
}

/// Stores V, B, T and VM from relative word `to` on, 641 words in all.
pub fn dump(program: &mut Program, to: u32) {
    for register in 0..8 {
        program.set_a(0, to + 64 * u32::from(register));
        program.one(0o177, 0, register, 0);
    }
    program.set_a(1, 64);
    program.set_a(0, to + 512);
    program.one(0o035, 1, 0, 0);
    program.set_a(0, to + 576);
    program.one(0o037, 1, 0, 0);
    program.one(0o073, 1, 0, 0);
    program.two(0o130, 1, to + 640);
}
