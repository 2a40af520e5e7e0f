//! Good texts for the assembler.
//!
//! Seed 0 is empty; seeds 1 to 8 hold every row once, with one digit at every
//! free place; the others draw rows, each alike, and `data=` lines.

use super::draw::Draw;
use crate::cal::{list, spelling, takes_second, SPELLINGS};
use crate::codes::{digits, find};

pub fn text(seed: u64) -> Vec<u8> {
    let parcels = match seed {
        0 => Vec::new(),
        1..=8 => every_row(seed as u16 - 1),
        _ => drawn(&mut Draw::new(0xCA1, seed)),
    };
    list(&parcels)
}

/// Every row with a digit at its free places, or with the nearest that fits.
fn every_row(digit: u16) -> Vec<u16> {
    let second = 0o111_111_u32 * u32::from(digit);
    let near = |letter| digit.clamp(*digits(letter).start(), *digits(letter).end());
    let one = |row: usize| instruction(row, second as u16, near);
    (0..SPELLINGS.len()).flat_map(one).collect()
}

/// The parcels of a row, with a digit for each letter of its pattern.
fn instruction(row: usize, second: u16, digit: impl FnMut(u8) -> u16) -> Vec<u16> {
    let code = SPELLINGS[row].code;
    let first = code.bytes().take(6).map(digit);
    let first = first.fold(0, |parcel, digit| parcel << 3 | digit);
    let parcels = [first, second];
    parcels[..code.len() - 5].to_vec()
}

/// The parcels of a drawn text.
pub fn drawn(draw: &mut Draw) -> Vec<u16> {
    let count = match draw.below(10) {
        0 => draw.below(4),
        1..=7 => draw.from(1, 120),
        _ => draw.from(120, 1_200),
    };
    let mut parcels = Vec::new();
    for _ in 0..count {
        if draw.often(12) {
            parcels.push(data(draw));
        } else {
            parcels.extend(spelled(draw));
        }
    }
    if draw.often(25) {
        parcels.push(drawn_until(draw, takes_second));
    }
    parcels
}

/// A drawn instruction of a drawn row.
pub fn spelled(draw: &mut Draw) -> Vec<u16> {
    let row = draw.below(SPELLINGS.len() as u64) as usize;
    let second = match draw.below(4) {
        0 => draw.pick(&[0, 1, 7, 8, 0o100_000, 0o177_776, u16::MAX]),
        1 => draw.next() as u16 >> draw.below(16),
        _ => draw.next() as u16,
    };
    // Numbers that need few digits have little in the first parcel.
    let low = SPELLINGS[row].code.len() == 7 && draw.often(30);
    instruction(row, second, |letter| {
        let (least, most) = digits(letter).into_inner();
        let any = draw.from(u64::from(least), u64::from(most)) as u16;
        match letter {
            b'u' | b'c' | b'j' | b'k' if low => least,
            _ => any,
        }
    })
}

/// A parcel that has no spelling: any, one next to a spelled one, or one that
/// only does nothing in user mode.
fn data(draw: &mut Draw) -> u16 {
    let bare = |parcel| spelling(parcel).is_none();
    match draw.below(3) {
        0 => drawn_until(draw, bare),
        1 => drawn_until(draw, |parcel| bare(parcel) && find(parcel).is_some()),
        _ => loop {
            let parcel = spelled(draw)[0] ^ draw.from(1, 7) as u16;
            if bare(parcel) {
                return parcel;
            }
        },
    }
}

/// A parcel drawn again and again until it is one of those wanted.
pub fn drawn_until(draw: &mut Draw, wanted: impl Fn(u16) -> bool) -> u16 {
    loop {
        let parcel = draw.next() as u16;
        if wanted(parcel) {
            return parcel;
        }
    }
}
