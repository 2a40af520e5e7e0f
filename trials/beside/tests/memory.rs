//! Thousands of short runs, turns and pair runs in the largest memory.
//!
//! All of it has instructions of held codes. Its parts have fields of their own:
//! some begin low, so that P is large, the others high, up to the last blocks.

use beside::program::{near, Shapes, LANDING};
use beside::{cause_of, start, Beside, Draw};
use std::ops::Range;

beside::tests!(calls_in_the_largest_memory);

const WORDS: usize = 4_194_304;
/// The last block that a limit can name; no field has its words.
const LAST: u32 = 0x1_FFFF;
/// Where the packages end.
const PACKAGES: usize = 4_096;

/// Parts of memory: the block at which the field of its programs begins, and its
/// first word. A part ends where the next begins.
const PARTS: [(u32, usize); 8] = [
    (0, PACKAGES),
    // P is over 2^22 in two
    (0, 0x10_0000),
    (0x8000, 0x30_0000),
    // the fields are ever shorter from here
    (0x1_E000, 0x3C_0000),
    (0x1_F800, 0x3F_0000),
    (0x1_FF80, 0x3F_F000),
    (0x1_FFF0, 0x3F_FE00),
    (0x1_FFFE, 0x3F_FFC0),
];

/// The words of a part, and its parcels in its field.
fn reach(part: usize) -> (Range<usize>, Range<u32>) {
    let (base, first) = PARTS[part];
    let end = PARTS.get(part + 1).map(|next| next.1);
    let end = end.unwrap_or(LAST as usize * 32);
    let parcel = |word: usize| 4 * (word as u32 - 32 * base);
    (first..end, parcel(first)..parcel(end))
}

/// A data field: all of memory, that of the program, or one that begins high.
fn data_field(draw: &mut Draw, base: u32) -> (u32, u32) {
    let high = LAST - (draw.bits(17) >> draw.below(17));
    match draw.below(4) {
        0 => (0, LAST),
        1 => (base, LAST),
        2 => (high, LAST),
        _ => (high, LAST - draw.bits(8)),
    }
}

/// A processor about to run one of the programs.
fn state(draw: &mut Draw, processor: u32) -> peer::State {
    let mut state = draw.state(processor);
    let part = draw.below(PARTS.len() as u64) as usize;
    let (_, parcels) = reach(part);
    let length = u64::from(parcels.end - parcels.start);
    state.iba = PARTS[part].0;
    state.ila = LAST;
    state.p = (parcels.start + draw.below(length) as u32) / LANDING * LANDING;
    state.b = [0; 64].map(|_| near(draw, state.p, &parcels));
    (state.dba, state.dla) = data_field(draw, state.iba);
    // so that user mode mostly goes on where an operand is outside
    state.ior &= draw.below(8) == 0;
    state
}

/// Writes packages, and programs into the parts from `first` on.
fn write(draw: &mut Draw, memory: &mut [u64], first: usize) {
    for package in memory[..PACKAGES].chunks_mut(16) {
        package.copy_from_slice(&state(draw, 0).save(0));
    }
    let shapes = Shapes::default();
    for part in first..PARTS.len() {
        let (words, parcels) = reach(part);
        shapes.fill(draw, &mut memory[words], parcels.start);
    }
}

/// What the calls came to.
#[derive(Default, Debug)]
struct Tally {
    runs: u64,
    turns: u64,
    pair_runs: u64,
    /// Calls that told nothing of operands outside, and each cause; no limit is
    /// beyond this memory.
    causes: [u64; 4],
    /// Calls that began with P over 2^22, and that ended so.
    high: u64,
    /// Words that were changed, and those of them in the last 2^16.
    changed: usize,
    changed_high: usize,
}

/// A processor to call, drawn or started from a package.
fn any_state(draw: &mut Draw, memory: &[u64], processor: u32) -> peer::State {
    match draw.below(4) {
        0 => start(memory, draw.below(256), processor).unwrap(),
        _ => state(draw, processor),
    }
}

/// One call of each kind, each from other processors.
fn calls(draw: &mut Draw, beside: &mut Beside, tally: &mut Tally) {
    for kind in 0..3 {
        let states = [0, 1].map(|n| any_state(draw, &beside.memory, n));
        beside.put(states.to_vec());
        let high = beside.states[0].p > 1 << 22;
        let budget = 1 + draw.below(300);
        let outside = match kind {
            0 => {
                let ran = beside.run(budget).unwrap();
                tally.runs += ran.steps;
                ran.outside
            }
            1 => {
                let turned = beside.turn(budget).unwrap();
                tally.turns += turned.steps;
                turned.outside
            }
            _ => {
                let schedule: Vec<u8> = (0..budget).map(|_| draw.bits(1) as u8).collect();
                let ran = beside.pair_run(&schedule).unwrap();
                tally.pair_runs += ran.steps;
                ran.outside[0]
            }
        };
        tally.causes[cause_of(outside)] += 1;
        tally.high += u64::from(high && beside.states[0].p > 1 << 22);
    }
}

fn calls_in_the_largest_memory() {
    let mut draw = Draw::new(5);
    let mut memory = vec![0; WORDS];
    write(&mut draw, &mut memory, 0);
    let mut beside = Beside::new(memory, vec![peer::State::clear(0)]);
    beside.each = false;
    let mut tally = Tally::default();
    for _ in 0..10 {
        let before = beside.memory.clone();
        for _ in 0..500 {
            calls(&mut draw, &mut beside, &mut tally);
        }
        beside.same();
        let changed = (0..WORDS).filter(|n| beside.memory[*n] != before[*n]);
        for n in changed {
            tally.changed += 1;
            tally.changed_high += usize::from(n >= WORDS - 0x1_0000);
        }
        // the short parts have been stored into most
        write(&mut draw, &mut beside.memory, 3);
        beside.peers.copy_from_slice(&beside.memory);
    }
    println!("{tally:?}");
    assert!(tally.runs >= 200_000 && tally.turns >= 150_000 && tally.pair_runs >= 100_000);
    assert!(tally.causes[1] >= 2_500 && tally.causes[2] >= 200);
    assert!(tally.high >= 1_500 && tally.changed >= 100_000 && tally.changed_high >= 20_000);
}
