//! Every first parcel once in user mode and once in monitor mode.
//!
//! Package 0 fills the registers and makes a normal exit to package 1, whose
//! program begins with the parcel. Its XA names package 2, which folds the
//! registers that a package does not hold into memory; the exchange to it has
//! saved the A and S registers.

use super::build::{Draft, Package, Program, IOR, MONITOR};
use super::draw::Draw;
use super::parts::{aim, data_field, fill, fold, stride, FILL_STEPS, WIDE};
use crate::sheet::Sheet;

const DATA: u32 = 0x400;
const DATA_WORDS: u32 = 80;

pub fn sheet(seed: u64) -> Vec<u8> {
    draft(seed).text()
}

/// The sheet as it is read, without its text: that is most of the work where
/// all sheets are run one after the other.
pub fn words(seed: u64) -> Sheet {
    let draft = draft(seed);
    let words = draft.words.iter();
    Sheet {
        steps: draft.steps,
        words: words.map(|(n, word)| (*n as u16, *word)).collect(),
    }
}

fn draft(seed: u64) -> Draft {
    let mut draw = Draw::new(0x5EEE, seed);
    let first = (seed & 0xFFFF) as u16;
    let monitor = seed >> 16 & 1 == 1;
    let mut draft = Draft::default();

    let mut setup = Program::new(0);
    fill(&mut setup, &mut draw, DATA_WORDS);
    setup.one(0o004, 0, 0, 0);
    let before = FILL_STEPS + 1;
    draft.program(0x40, &setup);
    draft.package(0, &still(&mut draw, 2, 1));

    let mut finish = Program::new(0);
    fold(&mut finish, 0x400);
    finish.one(0o000, 0, 0, 1);
    draft.program(0x80, &finish);
    draft.package(2, &still(&mut draw, 4, 3));

    swept(&mut draft, &mut draw, first, monitor);
    draft.data(DATA, DATA_WORDS, &mut draw);
    draft.steps = match draw.below(4) {
        0 => before + 1,
        1 => before + draw.from(1, 5),
        _ => before + 40,
    };
    draft
}

/// A monitor package with wide data and code in block `block`.
fn still(draw: &mut Draw, block: u32, xa: u32) -> Package {
    let mut package = Package::draw(draw);
    package.code = (block, block + 1);
    package.data = WIDE;
    package.modes |= MONITOR;
    package.vl = 64;
    package.xa = xa;
    package
}

fn swept(draft: &mut Draft, draw: &mut Draw, first: u16, monitor: bool) {
    let mut package = Package::draw(draw);
    package.code = (3, 4);
    package.data = data_field(draw);
    package.xa = 2;
    package.modes &= !MONITOR;
    if monitor {
        package.modes |= MONITOR;
    } else if draw.often(50) {
        package.modes |= IOR;
    }
    let second = prepare(&mut package, draw, first);
    let mut program = Program::new(draw.pick(&[0, 0, 1, 2, 3, 126, 127]));
    package.p = program.at;
    program.parcels.push(first);
    program.parcels.push(second);
    program.parcels.push(0o004_000);
    // Where the program stands at the field's end, nothing is past it.
    program.parcels.truncate(128 - program.at as usize);
    draft.package(1, &package);
    draft.litter(1, draw);
    draft.program(0x60, &program);
}

/// Sets the registers that the parcel uses so that it does something worth
/// seeing, and gives a second parcel.
fn prepare(package: &mut Package, draw: &mut Draw, first: u16) -> u16 {
    let (gh, low) = (first >> 9, first & 0o377);
    let digit = |shift: u16| usize::from(first >> shift & 7);
    let (h, i, k) = (digit(9), digit(6), digit(0));
    let mut second = draw.next() as u16;
    match gh {
        0o006..=0o017 => {
            package.a[0] = draw.pick(&[0, 1, 0x80_0000, package.a[0]]);
            package.s[0] = draw.pick(&[0, 1, 1 << 63, package.s[0]]);
            if low == 0 {
                second = draw.below(130) as u16;
            }
        }
        0o034..=0o037 => {
            package.a[i] = draw.count();
            package.a[0] = aim(draw, package.data);
        }
        0o056 | 0o057 | 0o150..=0o153 => package.a[k] = draw.count(),
        0o100..=0o137 => {
            let jkm = u32::from(first & 0o77) << 16 | u32::from(second);
            let target = aim(draw, package.data);
            package.a[h] = target.wrapping_sub(jkm) & 0xFF_FFFF;
            if h == 0 && low & 0o77 == 0 {
                second = target as u16;
            }
        }
        0o176 | 0o177 => {
            package.a[k] = stride(draw);
            package.a[0] = aim(draw, package.data);
        }
        _ if draw.often(60) => second = 0o004_000,
        _ => {}
    }
    second
}
