//! Texts for the lister: parcels as six octal digits, each on a line.
//!
//! The first seeds go through a list; then 64 seeds hold every first parcel
//! once, in a drawn order; the others are drawn, and damaged where the seed's
//! remainder by 3 is 2.

use super::cal::drawn;
use super::cal_damaged::{among, drawn_damage, sized};
use super::draw::Draw;
use crate::cal::{octal_text, spelling, takes_second};

/// Lines that are refused.
const REFUSED: &[&str] = &[
    "",
    "0",
    "00400",
    "04000",
    "0004000",
    "0040000",
    "004008",
    "904000",
    "00400A",
    "200000",
    "200001",
    "377777",
    "400000",
    "777777",
    "1000000",
    " 004000",
    "004000 ",
    " 04000",
    "00400 ",
    "004 000",
    "004000\r",
    "004000\t",
    "00400\0",
    "\x00004000",
    "004000\0",
    "-04000",
    "+04000",
    "0x4000",
    "0o4000",
    "00400\u{e9}",
    "EX",
    "data=004000",
    "004000 004000",
    "004000,",
];
const SWEEPS: u64 = 64;

pub fn text(seed: u64) -> Vec<u8> {
    let mut draw = Draw::new(0x0C7A1, seed);
    if let Some(line) = REFUSED.get(seed as usize) {
        let (before, after) = (any(&mut draw, 9), any(&mut draw, 9));
        return among(&octal_text(&before), line, &octal_text(&after));
    }
    match seed - REFUSED.len() as u64 {
        0 => Vec::new(),
        1 => b"\n".to_vec(),
        2 => b"004000".to_vec(),
        3 => b"004000\n004000".to_vec(),
        4 => b"004000\r\n004000\r\n".to_vec(),
        5 => b"004000\n\n".to_vec(),
        6 => b"004000\n ".to_vec(),
        7 => b"020100\n".to_vec(),
        8 => b"020100\n020100\n020100\n".to_vec(),
        9 => vec![0; 64],
        10 => vec![0xFF; 64],
        11 => octal_text(&edges()),
        n @ 12..=15 => sized(n - 12, b"055177\n"),
        n @ 16.. if n - 16 < SWEEPS => octal_text(&sweep(n - 16)),
        _ => mixed(&mut draw, seed % 3 == 2),
    }
}

/// Up to so many drawn parcels, not all of which begin an instruction.
fn any(draw: &mut Draw, most: u64) -> Vec<u16> {
    let count = draw.below(most + 1);
    (0..count).map(|_| draw.next() as u16).collect()
}

/// A first parcel, with a drawn second one if it takes one.
fn whole(draw: &mut Draw, first: u16) -> Vec<u16> {
    let parcels = [first, draw.next() as u16];
    parcels[..=usize::from(takes_second(first))].to_vec()
}

/// First parcels on both sides of each place where the row changes.
fn edges() -> Vec<u16> {
    let mut draw = Draw::new(0xED6E5, 0);
    let changes = (1..=u16::MAX).filter(|first| spelling(*first) != spelling(first - 1));
    let sides = changes.flat_map(|first| [first - 1, first]);
    sides.flat_map(|first| whole(&mut draw, first)).collect()
}

/// A sixty-fourth of all first parcels in a drawn order.
fn sweep(part: u64) -> Vec<u16> {
    let mut draw = Draw::new(0x5EEE, 0);
    let mut order: Vec<u16> = (0..=u16::MAX).collect();
    for n in (1..order.len()).rev() {
        order.swap(n, draw.below(n as u64 + 1) as usize);
    }
    let mut draw = Draw::new(0x5EEE, part);
    let taken = order
        .into_iter()
        .skip(part as usize)
        .step_by(SWEEPS as usize);
    taken.flat_map(|first| whole(&mut draw, first)).collect()
}

fn mixed(draw: &mut Draw, bad: bool) -> Vec<u8> {
    let parcels = match draw.below(3) {
        0 => drawn(draw),
        1 => any(draw, 600),
        _ => {
            let first = draw.next() as u16;
            let row = (0..draw.below(300) as u16).map(|n| first.wrapping_add(n));
            row.flat_map(|first| whole(draw, first)).collect()
        }
    };
    let mut text = octal_text(&parcels);
    if bad {
        drawn_damage(draw, &mut text, false);
    }
    text
}
