//! The rules' own example and tables, the refusals at their edges, and checks
//! of this program against itself in another form.

use crate::cases;
use crate::codes::{find, CODES};
use crate::cover::Cover;
use crate::machine::{place, Window};
use crate::{answer, pair_run, read, run, start, step};
use crate::{Answer, Cause, Outside, PairEnded, State, Stop};

const EXAMPLE: &str = "steps=4\nwords=5\n0001=0000000400000000\n0002=0000000800000000\n\
    0004=0000000800000000\n0005=0000000C00000000\n0400=2445248730CA90C0\n";

#[test]
fn the_example_is_answered_to_the_byte() {
    let expected = "stop=budget\noutside=none\nsteps=4\np=000005\nxa=00\nvl=64\nmodes=00\n\
        iba=00020\nila=00040\ndba=00040\ndla=00060\nps=0\ncln=0\n\
        a=000000,000005,000007,00000C,000000,000000,000000,000000\n\
        s=0,0,0,0,0,0,0,0\nchanged=1\n0800=000000000000000C\n";
    assert_eq!(answer(EXAMPLE.as_bytes()), expected);
}

/// A monitor-mode processor whose fields are all of a memory of 4,096 words.
fn ready() -> (State, Vec<u64>) {
    let mut state = State::clear(0);
    state.ila = 128;
    state.dla = 128;
    state.mm = true;
    (state, vec![0; 4_096])
}

/// The answer of a step alone.
fn answered(state: &mut State, memory: &mut [u64]) -> Result<Answer, u8> {
    step(state, memory).map(|step| step.answer)
}

/// Steps one instruction of up to two parcels, placed at parcel 0.
fn execute(state: &mut State, first: u16, second: u16) -> Answer {
    let mut memory = vec![0; 4_096];
    memory[0] = u64::from(first) << 48 | u64::from(second) << 32;
    answered(state, &mut memory).unwrap()
}

/// The state after one instruction that must step.
fn after(mut state: State, first: u16, second: u16) -> State {
    assert_eq!(execute(&mut state, first, second), Answer::Stepped);
    state
}

#[test]
fn leading_zeros_and_parity() {
    for (value, zeros) in [(0, 64), (1, 63), (1 << 63, 0)] {
        let (mut state, _) = ready();
        state.s[2] = value;
        assert_eq!(after(state, 0o027_120, 0).a[1], zeros);
    }
    let (mut state, _) = ready();
    state.s[2] = u64::MAX;
    assert_eq!(after(state, 0o026_121, 0).a[1], 0);
}

#[test]
fn address_sums_and_products() {
    let (state, _) = ready();
    assert_eq!(after(state.clone(), 0o031_100, 0).a[1], (1 << 24) - 1);
    assert_eq!(after(state.clone(), 0o030_100, 0).a[1], 1);
    assert_eq!(after(state.clone(), 0o021_100, 5).a[1], (1 << 24) - 6);
    let mut factors = state;
    factors.a[2] = 4_096;
    factors.a[3] = 4_096;
    assert_eq!(after(factors, 0o032_123, 0).a[1], 0);
}

#[test]
fn masks_and_shifts() {
    let (mut state, _) = ready();
    assert_eq!(after(state.clone(), 0o042_100, 0).s[1], u64::MAX);
    assert_eq!(after(state.clone(), 0o042_177, 0).s[1], 1);
    state.s = [3, 5, 7, 9, 11, 13, 15, 17];
    assert_eq!(after(state.clone(), 0o053_100, 0).s[0], 0);
    state.a[3] = 64;
    assert_eq!(after(state.clone(), 0o056_123, 0).s[1], 7);
    state.a[3] = 128;
    assert_eq!(after(state.clone(), 0o056_123, 0).s[1], 0);
}

/// The page's daggers: bits 2^40, 2^33 and 2^32 are 0 but in monitor mode.
#[test]
fn the_status_word_in_both_modes() {
    let (mut state, _) = ready();
    (state.processor, state.cln, state.ps) = (1, 3, true);
    (state.ior, state.fps, state.ifp, state.bdm) = (true, true, true, true);
    let all = 1 << 63 | 1 << 57 | 0b1111 << 48;
    assert_eq!(
        after(state.clone(), 0o073_101, 0).s[1],
        all | 1 << 40 | 3 << 32
    );
    state.mm = false;
    assert_eq!(after(state, 0o073_101, 0).s[1], all);
}

#[test]
fn vector_length_from_0_and_65() {
    for (number, length) in [(0, 64), (65, 1), (64, 64), (127, 63)] {
        let (mut state, _) = ready();
        state.a[2] = number;
        assert_eq!(after(state, 0o002_002, 0).vl, length);
    }
}

/// The examples that the manual prints for 146, 147, 152 and 153.
#[test]
fn vector_examples_of_the_manual() {
    let (mut state, _) = ready();
    state.vl = 4;
    state.vm = 0o60_000 << 48;
    state.s[2] = u64::MAX;
    state.v[6][..4].copy_from_slice(&[1, 2, 3, 4]);
    let done = after(state.clone(), 0o146_726, 0);
    assert_eq!(done.v[7][..5], [1, u64::MAX, u64::MAX, 4, 0]);

    let octal = |text: &str| u64::from_str_radix(text, 8).unwrap();
    let zeros = "0".repeat(16);
    let long = |high: &str, low: &str| octal(&format!("{high}{zeros}{low}"));
    state.a[1] = 3;
    state.v[4][..4].copy_from_slice(&[
        0o7,
        octal("0600000000000000000005"),
        octal("1000000000000000000006"),
        octal("1600000000000000000007"),
    ]);
    let done = after(state.clone(), 0o152_541, 0);
    assert_eq!(done.v[5][..4], [0o73, 0o54, 0o67, 0o70]);

    state.a[6] = 3;
    state.v[2][..4].copy_from_slice(&[
        0o17,
        octal("0600000000000000000006"),
        octal("1000000000000000000006"),
        octal("1600000000000000000007"),
    ]);
    let done = after(state, 0o153_026, 0);
    let expected = [
        1,
        long("166000", ""),
        long("150000", ""),
        long("156000", ""),
    ];
    assert_eq!(done.v[0][..4], expected);
}

#[test]
fn right_double_shift_into_its_own_operand() {
    let (mut state, _) = ready();
    state.vl = 3;
    state.a[1] = 64;
    state.v[2][..4].copy_from_slice(&[5, 6, 7, 8]);
    assert_eq!(after(state.clone(), 0o153_221, 0).v[2][..4], [0, 5, 6, 8]);
    assert_eq!(after(state, 0o152_221, 0).v[2][..4], [6, 7, 0, 8]);
}

#[test]
fn counts_of_held_first_parcels() {
    let mut counts = [0; 3];
    for first in 0..=u16::MAX {
        let code = find(first);
        for monitor in [false, true] {
            let (mut state, _) = ready();
            state.mm = monitor;
            let held = !matches!(execute(&mut state, first, 0), Answer::NotHeld(_));
            assert_eq!(
                held,
                code.is_some_and(|n| CODES[n].held(monitor)),
                "{first:o}"
            );
            counts[usize::from(monitor)] += u32::from(held);
        }
        // With the field ending after the first parcel, a second is outside.
        let (mut state, mut memory) = ready();
        state.p = 127;
        state.ila = 1;
        memory[31] = u64::from(first);
        let two = answered(&mut state, &mut memory) == Ok(Answer::MonitorFetch(127));
        assert_eq!(
            two,
            code.is_some_and(|n| CODES[n].two_parcels()),
            "{first:o}"
        );
        counts[2] += u32::from(two);
    }
    assert_eq!(counts, [47_703, 47_384, 23_040]);
}

#[test]
fn windows_follow_the_rule_for_fields() {
    let edges = [0, 1, 2, 126, 127, 128, 129, 0x1_FFFE, 0x1_FFFF];
    let mut addresses = vec![0, 1, 31, 32, 33, 0x3F_FFFF, 0x40_0000, 0xFF_FFFF];
    for base in edges {
        for near in [4_096, 1 << 22, base * 32, 1 << 24] {
            addresses.extend((0..70).map(|n: u32| (near + n).wrapping_sub(base * 32 + 35)));
        }
    }
    for base in edges {
        for limit in edges {
            for length in [4_096, 4_100, 4_194_304] {
                let window = Window::new(base, limit, length);
                for address in &addresses {
                    let address = address & 0xFF_FFFF;
                    let found = window.word(address);
                    let found = found.ok_or_else(|| window.cause(address));
                    assert_eq!(found, place(base, limit, length, address));
                }
            }
        }
    }
}

fn told(cause: Cause, element: u8) -> Option<Outside> {
    Some(Outside { cause, element })
}

/// Rows from A0 with increment A2 in a data field from word 2048 to the limit,
/// and what a step tells of them.
#[test]
fn a_step_tells_the_first_operand_outside() {
    let minus = |n: u32| 0x100_0000 - n;
    let rows = [
        // 037 and 034 of 100 words, 177 and 176 of 64
        (0o037_100, 1_000, 0, 96, told(Cause::Limit, 24)),
        (0o034_140, 924, 0, 96, None),
        (0o034_140, 925, 0, 96, told(Cause::Limit, 99)),
        (0o177_012, 3, minus(1), 96, told(Cause::Below, 4)),
        (0o176_102, 2_040, 2, 200, told(Cause::Memory, 4)),
        // other causes later, and a word that has two or three
        (0o035_100, minus(5), 0, 64, told(Cause::Below, 0)),
        (0o177_012, 2_048, 0, 96, told(Cause::Limit, 0)),
        (0o177_012, minus(1), 0, 63, told(Cause::Below, 0)),
        (0o176_102, 2_100, 1, 130, told(Cause::Memory, 0)),
        (0o176_102, 2_100, 1, 129, told(Cause::Limit, 0)),
    ];
    for (parcel, a0, a2, limit, wanted) in rows {
        for (monitor, ior) in [(true, true), (true, false), (false, true), (false, false)] {
            let (mut state, mut memory) = ready();
            (state.mm, state.ior, state.xa) = (monitor, ior, 9);
            (state.dba, state.dla) = (64, limit);
            (state.a[0], state.a[1], state.a[2]) = (a0, 100, a2);
            memory[0] = parcel << 48;
            let step = step(&mut state, &mut memory).unwrap();
            assert_eq!(step.outside, wanted, "{parcel:o} {a0} {limit}");
            let exchanged = wanted.is_some() && !monitor && ior;
            assert_eq!(step.answer == Answer::Exchanged(8), exchanged);
        }
    }
}

/// A processor whose step at parcel 0 reads over its data limit, and whose step
/// at parcel 3 reads down to the word before its base.
fn leaving(processor: u32, p: u32) -> (State, Vec<u64>) {
    let (mut state, mut memory) = ready();
    (state.processor, state.p, state.xa) = (processor, p, 9);
    (state.dba, state.dla, state.vl) = (64, 96, 64);
    (state.a[0], state.a[1]) = (62, 0xFF_FFFF);
    // S1 2000,A2; S2 <1; V1 ,A0,A1; S1 2000,A2; EX
    memory[0] = 0o122_100 << 48 | 0o2000 << 32 | 0o042_277 << 16 | 0o176_101;
    memory[1] = 0o122_100 << 48 | 0o2000 << 32 | 0o004_000 << 16;
    (state, memory)
}

#[test]
fn a_run_tells_the_last_that_was_told() {
    let (limit, below) = (told(Cause::Limit, 0), told(Cause::Below, 63));
    let wanted = [None, limit, limit, below, limit, limit];
    for (budget, wanted) in (0..).zip(wanted) {
        let (mut state, mut memory) = leaving(0, 0);
        let ended = run(&mut state, &mut memory, budget).unwrap();
        assert_eq!((ended.steps, ended.outside), (budget, wanted));
    }
}

#[test]
fn each_of_a_pair_tells_its_own() {
    let (limit, below) = (told(Cause::Limit, 0), told(Cause::Below, 63));
    let schedules: [(&[u8], [Option<Outside>; 2]); 5] = [
        (&[], [None, None]),
        (&[0, 0], [limit, None]),
        (&[1], [None, below]),
        (&[0, 1, 0], [limit, below]),
        (&[1, 1, 0, 0, 0], [below, limit]),
    ];
    for (schedule, wanted) in schedules {
        let (mut first, mut memory) = leaving(0, 0);
        let (mut second, _) = leaving(1, 3);
        let ended = pair_run(&mut first, &mut second, &mut memory, schedule);
        assert_eq!(ended.unwrap().outside, wanted);
    }
}

#[test]
fn packages_keep_a_state() {
    let (mut state, _) = ready();
    state.p = 0xFE_DCBA;
    state.a = [1, 2, 3, 4, 5, 6, 7, 0xFF_FFFF];
    state.s = [9; 8];
    (state.iba, state.ila, state.dba, state.dla) = (0x1_FFFF, 1, 0x1_0000, 0xFFFF);
    (state.xa, state.vl, state.cln, state.ps) = (0xA5, 64, 3, true);
    (state.ior, state.fps) = (true, true);
    let package = state.save(0o777);
    let mut other = State::clear(0);
    other.load(&package);
    assert_eq!(other, state);
    assert_eq!(package[3] >> 24 & 0o777, 0o777);
    other.load(&[u64::MAX; 16]);
    assert_eq!(other.vl, 63);
    assert!(other.fits());
}

#[test]
fn the_old_xa_chooses_the_package() {
    let (mut state, mut memory) = ready();
    state.mm = false;
    state.xa = 3;
    state.a[1] = 0x1234;
    memory[0] = 0o004_000 << 48;
    memory[16 * 3 + 3] = 9 << 40;
    assert_eq!(answered(&mut state, &mut memory), Ok(Answer::Exchanged(1)));
    assert_eq!((state.xa, state.vl, state.a[1]), (9, 64, 0));
    assert_eq!(memory[48], 1 << 24);
    assert_eq!(memory[49], 0x1234);
    assert_eq!(memory[51], 3 << 40 | 64 << 33 | 1 << 24);
}

#[test]
fn exits_in_monitor_mode_set_no_flag() {
    for code in [0o000_000, 0o004_000] {
        let (mut state, mut memory) = ready();
        state.xa = 5;
        memory[0] = code << 48;
        assert_eq!(answered(&mut state, &mut memory), Ok(Answer::Exchanged(0)));
        assert_eq!(memory[80] >> 24, 1);
    }
}

#[test]
fn memory_is_refused_outside_its_lengths() {
    for (length, refusal) in [(4_095, 1), (4_096, 0), (4_194_304, 0), (4_194_305, 1)] {
        let mut memory = vec![0; length];
        let started = start(&memory, 0, 0).err().unwrap_or(0);
        let (mut state, _) = ready();
        let stepped = step(&mut state, &mut memory).err().unwrap_or(0);
        let ran = run(&mut state, &mut memory, 0).err().unwrap_or(0);
        let (mut first, mut second) = (State::clear(0), State::clear(1));
        let pair = pair_run(&mut first, &mut second, &mut memory, &[]);
        let pair = pair.err().unwrap_or(0);
        assert_eq!([started, stepped, ran, pair], [refusal; 4]);
    }
}

#[test]
fn packages_budgets_and_processors_are_refused() {
    let (state, mut memory) = ready();
    assert!(start(&memory, 255, 1).is_ok());
    assert_eq!(start(&memory, 256, 2).err(), Some(2));
    assert_eq!(start(&memory, 0, 2).err(), Some(4));
    assert_eq!(start(&memory[..4_095], 256, 2).err(), Some(1));
    let mut odd = state.clone();
    odd.processor = 2;
    odd.vl = 0;
    assert_eq!(run(&mut odd, &mut memory, 1_000_001), Err(3));
    assert_eq!(run(&mut odd, &mut memory, 1_000_000), Err(4));
    assert_eq!(step(&mut odd, &mut memory), Err(4));
    let mut good = state;
    memory[0] = 0o006_000 << 48;
    let ended = run(&mut good, &mut memory, 1_000_000).unwrap();
    assert_eq!((ended.stop, ended.steps), (Stop::Budget, 1_000_000));
    assert_eq!(run(&mut good, &mut memory, 1_000_001), Err(3));
    assert_eq!(run(&mut good, &mut memory, 0).unwrap().steps, 0);
}

#[test]
fn wide_states_are_refused_and_come_back() {
    let spoil: [fn(&mut State); 13] = [
        |s| s.vl = 0,
        |s| s.vl = 65,
        |s| s.a[7] = 1 << 24,
        |s| s.b[63] = 1 << 24,
        |s| s.p = 1 << 24,
        |s| s.xa = 256,
        |s| s.iba = 1 << 17,
        |s| s.ila = 1 << 17,
        |s| s.dba = 1 << 17,
        |s| s.dla = 1 << 17,
        |s| s.cln = 4,
        |s| s.a[0] = u32::MAX,
        |s| s.b[0] = u32::MAX,
    ];
    for spoil in spoil {
        let (mut state, mut memory) = ready();
        spoil(&mut state);
        let handed = state.clone();
        assert_eq!(step(&mut state, &mut memory), Err(7));
        assert_eq!(run(&mut state, &mut memory, 5), Err(7));
        assert_eq!(state, handed);
        let mut other = State::clear(1);
        assert_eq!(pair_run(&mut state, &mut other, &mut memory, &[0]), Err(7));
        assert_eq!(memory, vec![0; 4_096]);
    }
}

#[test]
fn pair_runs_refuse_in_order() {
    let (mut first, mut memory) = ready();
    let mut second = State::clear(1);
    let mut pair = |first: &mut State, second: &mut State, schedule: &[u8]| {
        pair_run(first, second, &mut memory, schedule)
    };
    let idle = PairEnded {
        steps: 0,
        last: None,
        outside: [None; 2],
    };
    assert_eq!(pair(&mut first, &mut second, &[]), Ok(idle));
    assert_eq!(pair(&mut first, &mut second, &[0, 2]), Err(6));
    assert_eq!(pair(&mut first, &mut second, &[2; 65_537]), Err(5));
    assert_eq!(pair(&mut first, &mut second, &[2; 65_536]), Err(6));
    second.vl = 65;
    assert_eq!(pair(&mut first, &mut second, &[2]), Err(6));
    assert_eq!(pair(&mut first, &mut second, &[0]), Err(7));
    second.processor = 0;
    assert_eq!(pair(&mut first, &mut second, &[2; 65_537]), Err(4));
    first.processor = 1;
    second.processor = 1;
    assert_eq!(pair(&mut first, &mut second, &[0]), Err(4));
}

#[test]
fn pair_runs_follow_the_schedule() {
    let (mut first, mut memory) = ready();
    let mut second = first.clone();
    second.processor = 1;
    second.p = 4;
    // The first loops in word 0; the second adds to A1 in word 1 and exits.
    memory[0] = 0o006_000 << 48;
    memory[1] = (0o030_110 << 48) | (0o030_110 << 32) | (0o004_000 << 16);
    let schedule = [0, 1, 0, 1, 0, 1, 0, 1];
    let ended = pair_run(&mut first, &mut second, &mut memory, &schedule).unwrap();
    assert_eq!(ended.steps, 6);
    assert_eq!(ended.last, Some(Answer::Exchanged(0)));
    assert_eq!(memory[1], 2);
    let (mut first, mut memory) = ready();
    memory[0] = 0o006_000 << 48;
    let long = [0; 65_536];
    let ended = pair_run(&mut first, &mut second_idle(), &mut memory, &long).unwrap();
    assert_eq!(ended.steps, 65_536);
    assert_eq!(ended.last, Some(Answer::Stepped));
    let ended = pair_run(&mut first, &mut second_idle(), &mut memory, &[0, 1, 0]);
    let ended = ended.unwrap();
    assert_eq!(
        (ended.steps, ended.last),
        (1, Some(Answer::MonitorFetch(0)))
    );
}

/// A second processor in monitor mode without any field.
fn second_idle() -> State {
    let mut state = State::clear(1);
    state.mm = true;
    state
}

#[test]
fn a_run_takes_the_steps_of_step() {
    for seed in 0..60 {
        let text = cases::text("random", seed).unwrap();
        let sheet = read(&text).unwrap();
        let mut memory = crate::sheet::memory(&sheet);
        let mut state = start(&memory, 0, 0).unwrap();
        let (mut other, mut copy) = (state.clone(), memory.clone());
        let budget = sheet.steps.min(500);
        let ended = run(&mut state, &mut memory, budget).unwrap();
        let mut outside = None;
        for _ in 0..ended.steps {
            let step = step(&mut other, &mut copy).unwrap();
            assert!(matches!(
                step.answer,
                Answer::Stepped | Answer::Exchanged(_)
            ));
            outside = step.outside.or(outside);
        }
        assert_eq!(ended.outside, outside);
        assert!(other == state && copy == memory);
        match ended.stop {
            Stop::Budget => assert_eq!(ended.steps, budget),
            Stop::NotHeld(p) => {
                assert_eq!(answered(&mut other, &mut copy), Ok(Answer::NotHeld(p)));
            }
            Stop::MonitorFetch(p) => {
                assert_eq!(answered(&mut other, &mut copy), Ok(Answer::MonitorFetch(p)));
            }
        }
        assert!(other == state && copy == memory);
    }
}

#[test]
fn bad_sheets_give_their_line() {
    let word = "0001=0000000000000000\n";
    let cases: [(&str, u64); 14] = [
        ("", 1),
        ("steps=1", 1),
        ("steps=01\nwords=0\n", 1),
        ("steps=1000001\nwords=0\n", 1),
        ("steps=18446744073709551616\n", 1),
        ("steps=1\n", 2),
        ("steps=1\nwords=0", 2),
        ("steps=1\nwords=1025\n", 2),
        ("steps=1\nwords=0\n\n", 3),
        ("steps=1\nwords=1\n", 3),
        ("steps=1\nwords=1\n0001=000000000000000a\n", 3),
        ("steps=1\nwords=1\n1000=0000000000000000\n", 3),
        ("steps=1\r\nwords=0\n", 1),
        ("steps=1\nwords=1\n0001=0000000000000000", 3),
    ];
    for (text, line) in cases {
        assert_eq!(read(text.as_bytes()).err(), Some(line), "{text:?}");
    }
    let twice = format!("steps=1\nwords=2\n{word}{word}");
    assert_eq!(read(twice.as_bytes()).err(), Some(4));
    let once = format!("steps=1\nwords=2\n{word}");
    assert_eq!(read(once.as_bytes()).err(), Some(4));
    let more = format!("steps=1\nwords=1\n{word}x");
    assert_eq!(read(more.as_bytes()).err(), Some(4));
    assert_eq!(answer(b"x"), "refused=8\nline=1\n");
}

#[test]
fn the_longest_text_and_one_over_it() {
    let mut text = EXAMPLE.as_bytes().to_vec();
    text.resize(24_576, b'\n');
    assert_eq!(read(&text).err(), Some(8));
    text.push(b'\n');
    assert_eq!(read(&text).err(), Some(0));
    assert_eq!(answer(&vec![b'x'; 24_577]), "refused=8\nline=0\n");
    assert_eq!(answer(&vec![b'x'; 24_576]), "refused=8\nline=1\n");
}

#[test]
fn kinds_make_good_and_bad_sheets() {
    for seed in 0..200 {
        assert!(read(&cases::text("random", seed).unwrap()).is_ok());
        assert!(read(&cases::text("sweep", seed * 655).unwrap()).is_ok());
        assert!(read(&cases::text("outside", seed).unwrap()).is_ok());
    }
    let good = |seed: &u64| read(&cases::text("damaged", *seed).unwrap()).is_ok();
    let whole = (0..1_000).filter(good).count();
    assert!((50..400).contains(&whole), "{whole}");
}

#[test]
fn a_sweep_reaches_its_parcel() {
    for seed in [0o004_000, 0o176_305, 65_536 + 0o001_000, 131_071] {
        let mut cover = Cover::default();
        cover.sheet(&cases::text("sweep", seed).unwrap());
        assert!(cover.tried(seed as u16, seed > 65_535), "{seed}");
    }
}

/// How many of the sheets reach a cell: those that `missing` counts.
fn reaching(cell: &str, sheets: &[String]) -> usize {
    let mut cover = Cover::default();
    sheets.iter().for_each(|text| cover.sheet(text.as_bytes()));
    let missing = cover.missing();
    let line = missing.iter().find(|line| line[2..] == *cell);
    line.map_or(3, |line| usize::from(line.as_bytes()[0] - b'0'))
}

/// A sheet in monitor mode with two numbers in A0 and S0 and one word of code.
fn of_word(steps: u32, a0: u32, s0: u64, code: u64) -> String {
    format!(
        "steps={steps}\nwords=7\n0000=0000000000{a0:06X}\n0001=0000000400000000\n\
         0002=0000000801000000\n0004=0000000800000000\n0005=0000000C00000000\n\
         0008={s0:016X}\n0400={code:016X}\n"
    )
}

#[test]
fn a_cell_wants_another_answer() {
    // 030102, A1 = 0+A2: the true A0 is seen if it is not 0.
    let sum = |a0| of_word(1, a0, 0, 0o030_102 << 48);
    let cell = "030ijk with J 0, not A0";
    assert_eq!(reaching(cell, &[sum(0)]), 0);
    assert_eq!(reaching(cell, &[sum(0), sum(5), sum(6)]), 2);
    assert_eq!(reaching(cell, &[sum(7), sum(5), sum(6)]), 3);
    // 077102, an element of V1 = 0, is seen if 076312 takes it to S3.
    let element = |steps| of_word(steps, 0, 9, 0o077_102 << 48 | 0o076_312 << 32);
    let cell = "077ijk with J 0, not S0";
    assert_eq!(reaching(cell, &[element(1)]), 0);
    assert_eq!(reaching(cell, &[element(2)]), 1);
    // 122300 002000, S3 2000,A2, is over the limit, and that is seen unless
    // 102177 177777, A1 17777777,A2, tells another cause after it.
    let code = 0o122_300 << 48 | 0o2000 << 32 | 0o102_177 << 16 | 0o177_777;
    let outside = |steps| of_word(steps, 0, 0, code);
    let cell = "12hijkm tells at or over the limit, in monitor mode";
    assert_eq!(reaching(cell, &[outside(1)]), 1);
    assert_eq!(reaching(cell, &[outside(2)]), 0);
    let cell = "10hijkm tells another than an earlier step";
    assert_eq!(reaching(cell, &[outside(2)]), 1);
}

/// A number that any change of the texts changes (FNV-1a over their bytes).
fn mark(kind: &str, seeds: std::ops::Range<u64>) -> u64 {
    let mut mark: u64 = 0xCBF2_9CE4_8422_2325;
    for byte in seeds.flat_map(|seed| cases::text(kind, seed).unwrap()) {
        mark = (mark ^ u64::from(byte)).wrapping_mul(0x100_0000_01B3);
    }
    mark
}

#[test]
fn seeds_name_the_same_texts_for_ever() {
    assert_eq!(mark("random", 0..100), 0x2539_B2D0_BAE1_DE06);
    assert_eq!(mark("sweep", 65_500..65_600), 0xC297_A90C_9B50_ED73);
    assert_eq!(mark("damaged", 0..300), 0x2CC1_A50E_A8EF_1784);
    assert_eq!(mark("probes", 0..100), 0xF03A_00E4_9BA8_04AF);
    assert_eq!(mark("rings", 0..100), 0x4168_C04A_32AF_5A22);
    assert_eq!(mark("loops", 0..100), 0x1070_4969_8A70_4C53);
    assert_eq!(mark("outside", 0..312), 0x8AF7_4D3C_9EC3_F71E);
    assert_eq!(mark("numbers", 0..100), 0xE5EB_3C9D_8EB1_14D5);
    assert_eq!(mark("cal", 0..100), 0x75BA_6BDE_5C35_1D85);
    assert_eq!(mark("cal-damaged", 0..400), 0x18B1_1362_AF6A_9045);
    assert_eq!(mark("octal", 0..200), 0x2693_9A00_2EE0_4592);
}
