//! Starts, steps, turns and runs from any state, refused ones among them.

use beside::{cause_of, start, way_of, Beside, Draw};
use pulxarrid::{Answer, Ending};

beside::tests!(
    starts_from_any_package,
    steps_from_any_state,
    turns_from_any_state,
    runs_from_any_state,
);

/// Words of parcels drawn from all codes, vector and memory ones among them.
fn any_memory(draw: &mut Draw, words: usize) -> Vec<u64> {
    (0..words).map(|_| draw.word()).collect()
}

/// A processor, now and then one to be refused, in a memory of `least` words
/// or some more.
fn any_case(draw: &mut Draw, least: usize) -> Beside {
    let words = least + draw.below(64) as usize;
    let memory = any_memory(draw, words);
    let processor = draw.bits(1);
    let mut state = draw.state(processor);
    if draw.below(16) == 0 {
        draw.spoil(&mut state);
    }
    Beside::new(memory, vec![state])
}

/// A budget, mostly below `most`, else about the largest that is taken.
fn any_budget(draw: &mut Draw, most: u64) -> u64 {
    match draw.below(16) {
        0 => 999_990 + draw.below(20),
        _ => draw.below(most),
    }
}

fn starts_from_any_package() {
    let mut draw = Draw::new(3);
    for _ in 0..1_000 {
        let words = 4_090 + draw.below(20) as usize;
        let memory = any_memory(&mut draw, words);
        let _ = start(&memory, draw.below(260), draw.bits(2));
    }
}

fn steps_from_any_state() {
    let mut draw = Draw::new(1);
    let (mut kinds, mut causes) = ([0; 5], [0; 4]);
    for _ in 0..4_000 {
        let stepped = any_case(&mut draw, 4_096).step();
        causes[stepped.map_or(0, |r| cause_of(r.outside))] += 1;
        let kind = match stepped.map(|r| r.answer) {
            Ok(Answer::Stepped) => 0,
            Ok(Answer::Exchanged(_)) => 1,
            Ok(Answer::NotHeld(_)) => 2,
            Ok(Answer::MonitorFetch(_)) => 3,
            Err(_) => 4,
        };
        kinds[kind] += 1;
    }
    assert!(kinds.iter().all(|n| *n > 20), "{kinds:?}");
    assert!(causes.iter().all(|n| *n > 20), "{causes:?}");
}

fn turns_from_any_state() {
    let mut draw = Draw::new(6);
    let (mut kinds, mut causes) = ([0; 6], [0; 4]);
    for _ in 0..4_000 {
        let mut beside = any_case(&mut draw, 4_095);
        let turned = beside.turn(any_budget(&mut draw, 8));
        causes[turned.map_or(0, |r| cause_of(r.outside))] += 1;
        kinds[way_of(turned.map(|r| r.last))] += 1;
    }
    assert!(kinds.iter().all(|n| *n > 20), "{kinds:?}");
    assert!(causes.iter().all(|n| *n > 20), "{causes:?}");
}

fn runs_from_any_state() {
    let mut draw = Draw::new(2);
    let (mut kinds, mut causes) = ([0; 4], [0; 4]);
    for _ in 0..3_000 {
        let mut beside = any_case(&mut draw, 4_095);
        let ran = beside.run(any_budget(&mut draw, 40));
        causes[ran.map_or(0, |r| cause_of(r.outside))] += 1;
        let kind = match ran.map(|r| r.ending) {
            Ok(Ending::Budget) => 0,
            Ok(Ending::NotHeld(_)) => 1,
            Ok(Ending::MonitorFetch(_)) => 2,
            Err(_) => 3,
        };
        kinds[kind] += 1;
    }
    assert!(kinds.iter().all(|n| *n > 20), "{kinds:?}");
    assert!(causes.iter().all(|n| *n > 20), "{causes:?}");
}
