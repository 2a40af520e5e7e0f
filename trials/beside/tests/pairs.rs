//! Pair runs: with any schedule, and of two programs that loop.

use beside::sheets::memory;
use beside::{cause_of, start, way_of, Beside, Draw};

beside::tests!(pair_runs_with_any_schedule, pair_runs_that_loop);

/// A schedule that changes processor at one byte in `often`.
fn any_schedule(draw: &mut Draw, length: u64, often: u64) -> Vec<u8> {
    let mut turn = draw.bits(1) as u8;
    let next = |_| {
        turn ^= u8::from(draw.below(often) == 0);
        turn
    };
    (0..length).map(next).collect()
}

fn pair_runs_with_any_schedule() {
    let mut draw = Draw::new(4);
    let (mut kinds, mut causes) = ([0; 6], [[0; 4]; 2]);
    for seed in 0..3_000 {
        let memory = memory("random", seed);
        let mut x = start(&memory, 0, 0).unwrap();
        let mut y = match draw.below(4) {
            0 => draw.state(1),
            n => start(&memory, n, 1).unwrap(),
        };
        match draw.below(24) {
            0 => draw.spoil(&mut x),
            1 => draw.spoil(&mut y),
            _ => {}
        }
        let longest = if draw.below(100) == 0 { 65_540 } else { 60 };
        let (length, often) = (draw.below(longest), 1 + draw.below(20));
        let mut schedule = any_schedule(&mut draw, length, often);
        if draw.below(50) == 0 && !schedule.is_empty() {
            let at = draw.below(schedule.len() as u64) as usize;
            schedule[at] = 2;
        }
        let mut beside = Beside::new(memory, vec![x, y]);
        for _ in 0..2 {
            let ran = beside.pair_run(&schedule);
            kinds[way_of(ran.map(|r| r.last))] += 1;
            for (n, outside) in ran.map_or([None; 2], |r| r.outside).into_iter().enumerate() {
                causes[n][cause_of(outside)] += 1;
            }
        }
    }
    assert!(kinds.iter().all(|n| *n > 10), "{kinds:?}");
    let causes = causes.concat();
    assert!(causes.iter().all(|n| *n > 10), "{causes:?}");
}

/// A schedule whose turns have 1 to `most` steps.
fn short_turns(draw: &mut Draw, length: usize, most: u64) -> Vec<u8> {
    let mut schedule = Vec::with_capacity(length);
    let mut turn = draw.bits(1) as u8;
    while schedule.len() < length {
        let steps = 1 + draw.below(most) as usize;
        schedule.resize(length.min(schedule.len() + steps), turn);
        turn ^= 1;
    }
    schedule
}

/// Which of the two change memory in a pair run that is still to be made. The
/// independent program finds it turn by turn, and stops where both have.
fn storing(beside: &Beside, schedule: &[u8]) -> [bool; 2] {
    let (mut x, mut y) = (beside.states[0].clone(), beside.states[1].clone());
    let (mut memory, mut before) = (beside.peers.clone(), beside.peers.clone());
    let mut stored = [false; 2];
    for turn in schedule.chunk_by(|one, next| one == next) {
        peer::pair_run(&mut x, &mut y, &mut memory, turn).unwrap();
        if memory != before {
            stored[usize::from(turn[0])] = true;
            before.copy_from_slice(&memory);
        }
        if stored == [true; 2] {
            break;
        }
    }
    stored
}

/// Three pair runs, each from where the last one ended, on each memory.
fn pair_runs_that_loop() {
    let mut draw = Draw::new(9);
    let mut lengths = Vec::new();
    let (mut both_stepped, mut both_stored, mut both_told) = (0, 0, 0);
    for seed in 0..400 {
        let memory = memory("loops", seed);
        let x = start(&memory, 0, 0).unwrap();
        let y = start(&memory, 1, 1).unwrap();
        let mut beside = Beside::new(memory, vec![x, y]);
        for _ in 0..3 {
            let length = match draw.below(16) {
                0 => 65_536,
                _ => 1_000 + draw.below(10_000) as usize,
            };
            let most = 1 + draw.below(20);
            let schedule = short_turns(&mut draw, length, most);
            both_stored += usize::from(storing(&beside, &schedule) == [true; 2]);
            let ran = beside.pair_run(&schedule).unwrap();
            both_told += usize::from(ran.outside.iter().all(Option::is_some));
            let steps = ran.steps;
            let taken = &schedule[..steps as usize];
            both_stepped += usize::from([0, 1].iter().all(|turn| taken.contains(turn)));
            lengths.push(steps);
        }
    }
    lengths.sort_unstable();
    let (count, median) = (lengths.len(), lengths[lengths.len() / 2]);
    println!("{count} pair runs, median length {median}, both store in {both_stored}");
    println!("both tell of operands outside in {both_told}");
    assert!(median >= 3_000, "{median}");
    assert_eq!(both_stepped, count);
    assert!(both_stored * 4 > count * 3, "{both_stored} of {count}");
    assert!(both_told * 4 > count, "{both_told} of {count}");
}
