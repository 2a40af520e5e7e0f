//! Case sheets: every first parcel in both modes, and drawn programs, in runs
//! and in turns.

use beside::sheets::{memory, run, sheet, Desk};
use beside::{start, Beside, Draw};
use peer::codes::{find, CODES};
use pulxarrid::{Answer, Ending, Turned};

beside::tests!(
    every_first_parcel_in_both_modes,
    the_sheets_of_the_sweep,
    sheets_of_each_kind,
    random_sheets_in_turns,
    turns_are_steps,
);

/// The steps that a sheet of the kind sweep takes before its parcel.
const BEFORE: u64 = 24;

/// Whether the parcel of a seed is held in its mode.
fn held(seed: u64) -> bool {
    let monitor = seed >= 65_536;
    find(seed as u16).is_some_and(|n| CODES[n].held(monitor))
}

fn every_first_parcel_in_both_modes() {
    let mut desk = Desk::default();
    let mut stepped = 0;
    for seed in 0..131_072_u64 {
        let sheet = peer::cases::sweep_words(seed);
        // user and monitor mode of a parcel have different processors
        let ran = desk.run(&sheet, seed.count_ones() % 2);
        let ran = ran.unwrap_or_else(|what| panic!("sweep {seed}: {what}"));
        let stops = ran.steps == BEFORE && matches!(ran.ending, Ending::NotHeld(_));
        assert_eq!(stops, !held(seed), "sweep {seed}");
        stepped += u64::from(!stops);
    }
    println!("{stepped} parcels are held");
    assert!(stepped > 90_000, "{stepped}");
}

/// The sweep takes sheets that no text was made of.
fn the_sheets_of_the_sweep() {
    for seed in (0..131_072).step_by(211) {
        let made = peer::cases::sweep_words(seed);
        assert_eq!(sheet("sweep", seed), Some(made), "{seed}");
    }
}

fn sheets_of_each_kind() {
    let mut desk = Desk::default();
    let mut steps = 0;
    let kinds = [
        ("random", 2_000),
        ("probes", 500),
        ("rings", 300),
        ("loops", 100),
        ("outside", 1_040),
    ];
    for (kind, count) in kinds {
        for seed in 0..count {
            steps += run(&mut desk, kind, seed, 10_000).steps;
        }
    }
    assert!(steps > 800_000, "{steps}");
}

/// Turns of all lengths, each after the other.
fn random_sheets_in_turns() {
    let mut draw = Draw::new(7);
    for seed in 0..500 {
        let memory = memory("random", seed);
        let state = start(&memory, 0, 0).unwrap();
        let mut beside = Beside::new(memory, vec![state]);
        for _ in 0..20 {
            beside.turn(draw.below(200)).unwrap();
        }
    }
}

/// A turn of the library is its own steps, one by one.
fn turns_are_steps() {
    let mut draw = Draw::new(8);
    for seed in 0..500 {
        let mut memory = memory("random", seed);
        let mut state = pulxarrid::start(&memory, 0, 0).unwrap();
        for _ in 0..10 {
            let budget = draw.below(20);
            let (mut twin, mut twins) = (state.clone(), memory.clone());
            let (mut last, mut steps, mut outside) = (None, 0, None);
            for _ in 0..budget {
                let step = pulxarrid::step(&mut twin, &mut twins).unwrap();
                let answer = step.answer;
                steps += u64::from(matches!(answer, Answer::Stepped | Answer::Exchanged(_)));
                last = Some(answer);
                outside = step.outside.or(outside);
                if answer != Answer::Stepped {
                    break;
                }
            }
            let turned = pulxarrid::turn(&mut state, &mut memory, budget).unwrap();
            let wanted = Turned {
                last,
                steps,
                outside,
            };
            assert_eq!(turned, wanted);
            assert!(state == twin && memory == twins);
        }
    }
}
