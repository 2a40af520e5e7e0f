//! Instructions of held codes, drawn to fill a large memory.

use crate::Draw;
use peer::codes::{digits, Mode, CODES};
use std::ops::Range;

/// Every so many parcels an instruction begins, for jumps to go to.
pub const LANDING: u32 = 16;
/// How many of these are between a jump and the farthest that it mostly goes to.
const REACH: u64 = 32;

/// A pattern: its fixed bits, those that are free, and what it is.
#[derive(Clone, Copy)]
struct Shape {
    fixed: u16,
    free: u16,
    two: bool,
    jump: bool,
}

/// The patterns, each as often as it is to be drawn.
pub struct Shapes(Vec<Shape>);

impl Default for Shapes {
    fn default() -> Shapes {
        let mut shapes = Vec::new();
        for code in CODES {
            let often = match code.text {
                "000000" | "004000" => 1,
                "0050jk" => 4,
                _ if code.mode == Mode::User => 1,
                _ => 16,
            };
            let (mut fixed, mut free) = (0, 0);
            for letter in code.text.bytes().take(6) {
                let range = digits(letter);
                fixed = fixed << 3 | range.start();
                free = free << 3 | (range.end() - range.start());
            }
            let two = code.two_parcels();
            let jump = code.text.contains('u');
            let shape = Shape {
                fixed,
                free,
                two,
                jump,
            };
            shapes.extend(vec![shape; often]);
        }
        Shapes(shapes)
    }
}

impl Shapes {
    /// Fills words with instructions. The first stands at parcel `at` of its
    /// field, and jumps mostly go to a landing near them, else anywhere.
    pub fn fill(&self, draw: &mut Draw, words: &mut [u64], at: u32) {
        let end = at + 4 * words.len() as u32;
        let mut second = None;
        let mut here = at;
        for word in words {
            for _ in 0..4 {
                let parcel = second.take().unwrap_or_else(|| {
                    let (first, next) = self.instruction(draw, here, at..end);
                    second = next;
                    first
                });
                *word = *word << 16 | u64::from(parcel);
                here += 1;
            }
        }
    }

    /// An instruction that stands at parcel `here`, one parcel long where a
    /// landing comes next.
    fn instruction(&self, draw: &mut Draw, here: u32, within: Range<u32>) -> (u16, Option<u16>) {
        loop {
            let any = draw.word();
            let shape = self.0[(((any >> 32) * self.0.len() as u64) >> 32) as usize];
            let first = shape.fixed | any as u16 & shape.free;
            match (shape.two, shape.jump && any >> 16 & 15 != 0) {
                (false, _) => return (first, None),
                _ if (here + 1) % LANDING == 0 => {}
                (true, false) => return (first, Some((any >> 16) as u16)),
                (true, true) => {
                    let to = near(draw, here, &within);
                    let high = (to >> 16) as u16 & 0o377;
                    return (first & !0o377 | high, Some(to as u16));
                }
            }
        }
    }
}

/// A landing near a parcel.
pub fn near(draw: &mut Draw, here: u32, within: &Range<u32>) -> u32 {
    let to = (here / LANDING + draw.below(2 * REACH) as u32) * LANDING;
    let last = (within.end - 1) / LANDING * LANDING;
    to.saturating_sub(REACH as u32 * LANDING)
        .clamp(within.start, last)
}
