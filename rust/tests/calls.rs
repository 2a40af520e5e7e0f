//! Small programs with known answers, operands outside, every refusal, the
//! largest memory.

use pulxarrid::{pair_run, run, start, step, turn};
use pulxarrid::{Answer, Ending, Outside, Pair, PairRan, Ran, Refused};
use pulxarrid::{Register, State, Stepped, Turned};
use Outside::*;
use Register::*;

const LEAST: usize = 4_096;
const MOST: usize = 4_194_304;

/// Puts a package with two fields, by word, into memory.
fn put_package(
    memory: &mut [u64],
    number: usize,
    code: std::ops::Range<u64>,
    data: std::ops::Range<u64>,
) {
    let at = number * 16;
    memory[at + 1] = (code.start / 32) << 29;
    memory[at + 2] = (code.end / 32) << 29;
    memory[at + 4] = (data.start / 32) << 29;
    memory[at + 5] = (data.end / 32) << 29;
}

/// Two numbers are added and the sum is stored in word 0800.
fn sum() -> Vec<u64> {
    let mut memory = vec![0; LEAST];
    put_package(&mut memory, 0, 0x400..0x800, 0x800..0xC00);
    memory[0x400] = 0x2445_2487_30CA_90C0;
    memory
}

/// A word of four parcels.
fn word(parcels: [u16; 4]) -> u64 {
    parcels.iter().fold(0, |word, n| word << 16 | u64::from(*n))
}

/// The answer of a step without an operand outside.
fn inside(answer: Answer) -> Result<Stepped, Refused> {
    let outside = None;
    Ok(Stepped { answer, outside })
}

#[test]
fn a_start_fills_each_place() {
    let mut memory = vec![u64::MAX; LEAST];
    let package = &mut memory[16 * 255..];
    for n in 0..8 {
        package[n] = 0xFFFF_0000_0000_0000 | (0x10_0000 + n as u64);
        package[n + 8] = n as u64;
    }
    package[0] |= 0xAB_CDEF << 24;
    package[1] |= 0x1_ABCD << 29;
    package[2] |= 0x1_BCDE << 29 | 0b10101 << 24;
    package[3] |= 0xA5 << 40 | 65 << 33 | 0x1FF << 24;
    package[4] |= 0x1_CDEF << 29 | 1 << 28 | 2 << 24;
    package[5] |= 0x1_DEF0 << 29;
    let mut wanted = State::from_words([0; pulxarrid::STATE_WORDS]);
    let singles = [
        (P, 0xAB_CDEF),
        (Xa, 0xA5),
        (Vl, 1),
        (Iba, 0x1_ABCD),
        (Ila, 0x1_BCDE),
        (Dba, 0x1_CDEF),
        (Dla, 0x1_DEF0),
        (Mm, 1),
        (Ifp, 1),
        (Bdm, 1),
        (Ps, 1),
        (Cln, 2),
        (Processor, 1),
    ];
    for (register, number) in singles {
        wanted.set(register, number);
    }
    for n in 0..8 {
        wanted.set(A(n), 0x10_0000 + n as u64);
        wanted.set(S(n), n as u64);
    }
    assert_eq!(start(&memory, 255, 1), Ok(wanted));
}

#[test]
fn the_places_are_apart() {
    let mut places: Vec<usize> = [
        P, Xa, Vl, Vm, Iba, Ila, Dba, Dla, Mm, Ior, Ifp, Fps, Bdm, Ps, Cln, Processor,
    ]
    .iter()
    .map(|register| register.place())
    .collect();
    places.extend((0..8).map(|n| A(n).place()));
    places.extend((0..8).map(|n| S(n).place()));
    places.extend((0..64).map(|n| B(n).place()));
    places.extend((0..64).map(|n| T(n).place()));
    places.extend((0..512).map(|n| V(n / 64, n % 64).place()));
    assert_eq!(places, (0..pulxarrid::STATE_WORDS).collect::<Vec<_>>());
}

#[test]
fn steps_answer_with_each_kind() {
    let mut memory = sum();
    let mut state = start(&memory, 0, 0).unwrap();
    assert_eq!(state.get(Vl), 64);
    for wanted in [(A(1), 5), (A(2), 7), (A(3), 12), (P, 5)] {
        assert_eq!(step(&mut state, &mut memory), inside(Answer::Stepped));
        assert_eq!(state.get(wanted.0), wanted.1);
    }
    assert_eq!(memory[0x800], 12);
    let answer = step(&mut state, &mut memory);
    assert_eq!(answer, inside(Answer::Exchanged(2)));
    assert_eq!((state.get(P), state.get(A(3))), (0, 0));
    assert_eq!(memory[0] >> 24, 6);
    memory[0x400] = 1 << 48;
    assert_eq!(step(&mut state, &mut memory), inside(Answer::NotHeld(0)));
    state.set(Mm, 1);
    state.set(P, 0x1000);
    let before = state.clone();
    let answer = step(&mut state, &mut memory);
    assert_eq!(answer, inside(Answer::MonitorFetch(0x1000)));
    assert_eq!(state, before);
}

#[test]
fn turns_end_in_each_way() {
    let mut memory = sum();
    let mut state = start(&memory, 0, 0).unwrap();
    let turned = |last, steps| {
        Ok(Turned {
            last,
            steps,
            outside: None,
        })
    };
    let before = (state.clone(), memory.clone());
    assert_eq!(turn(&mut state, &mut memory, 0), turned(None, 0));
    assert!(before == (state.clone(), memory.clone()));
    let three = turn(&mut state, &mut memory, 3);
    assert_eq!(three, turned(Some(Answer::Stepped), 3));
    assert_eq!((state.get(A(3)), memory[0x800]), (12, 0));
    let exchanged = turn(&mut state, &mut memory, 1_000_000);
    assert_eq!(exchanged, turned(Some(Answer::Exchanged(2)), 2));
    assert_eq!((state.get(P), memory[0x800]), (0, 12));
    // 022105 A1 5; 000001, not held
    memory[0x400] = 0x2445_0001_0000_0000;
    for steps in [1, 0] {
        let stopped = turn(&mut state, &mut memory, 7);
        assert_eq!(stopped, turned(Some(Answer::NotHeld(1)), steps));
    }
    state.set(Mm, 1);
    state.set(P, 0x1000);
    let stopped = turn(&mut state, &mut memory, 7);
    assert_eq!(stopped, turned(Some(Answer::MonitorFetch(0x1000)), 0));
}

#[test]
fn runs_end_in_each_way() {
    let mut memory = sum();
    let mut state = start(&memory, 0, 0).unwrap();
    let ran = |ending, steps| {
        Ok(Ran {
            ending,
            steps,
            outside: None,
        })
    };
    assert_eq!(run(&mut state, &mut memory, 0), ran(Ending::Budget, 0));
    assert_eq!(run(&mut state, &mut memory, 4), ran(Ending::Budget, 4));
    assert_eq!(memory[0x800], 12);
    memory[0x401] = 1 << 32;
    let stopped = ran(Ending::NotHeld(5), 0);
    assert_eq!(run(&mut state, &mut memory, 1_000_000), stopped);
    state.set(Mm, 1);
    state.set(P, 0x1000);
    let stopped = ran(Ending::MonitorFetch(0x1000), 0);
    assert_eq!(run(&mut state, &mut memory, 7), stopped);
}

#[test]
fn a_pair_run_follows_its_schedule() {
    let mut memory = vec![0; LEAST];
    put_package(&mut memory, 1, 0x400..0x420, 0x800..0x900);
    put_package(&mut memory, 2, 0x420..0x440, 0x800..0x900);
    // 030110 A1 A1+1; 006000 000000 J 0
    memory[0x400] = 0x3048_0C00_0000_0000;
    // 022103 A1 3; 110100 000005 5,0 A1; 000001, not held
    memory[0x420] = 0x2443_9040_0005_0001;
    let mut pair = Pair {
        first: start(&memory, 1, 0).unwrap(),
        second: start(&memory, 2, 1).unwrap(),
    };
    let ran = |last, steps| {
        Ok(PairRan {
            last,
            steps,
            outside: [None; 2],
        })
    };
    let before = pair.clone();
    assert_eq!(pair_run(&mut pair, &mut memory, &[]), ran(None, 0));
    assert_eq!(pair, before);
    let four = pair_run(&mut pair, &mut memory, &[0, 1, 0, 1]);
    assert_eq!(four, ran(Some(Answer::Stepped), 4));
    let counts = (pair.first.get(A(1)), pair.second.get(A(1)));
    assert_eq!((counts, memory[0x805]), ((1, 3), 3));
    let stopped = pair_run(&mut pair, &mut memory, &[1, 0]);
    assert_eq!(stopped, ran(Some(Answer::NotHeld(3)), 0));
    assert_eq!(pair.first.get(A(1)), 1);
    // a step of one of the two
    let stepped = step(&mut pair.first, &mut memory);
    assert_eq!(stepped, inside(Answer::Stepped));
    assert_eq!(pair.first.get(A(1)), 2);
    assert_eq!(pair.second.get(P), 3);
}

/// Words 0800 to 0BFF.
const FIELD: (u64, u64) = (0x40, 0x60);
/// From word 0800 to past the end of memory.
const WIDE: (u64, u64) = (0x40, 0x1_FFFF);

/// What a step says of its operands, by the data field, A0 to A2 and VL. The
/// second parcel, if there is one, is 0. It says the same in each mode with IOR
/// set and clear, and exchanges in one of the four alone.
fn told(code: u16, field: (u64, u64), a: [u64; 3], vl: u64) -> Option<Outside> {
    let all = [(0, 1), (0, 0), (1, 1), (1, 0)].map(|(mm, ior)| {
        let mut memory = sum();
        memory[0x400] = word([code, 0, 0, 0]);
        let mut state = start(&memory, 0, 0).unwrap();
        let fields = [(Dba, field.0), (Dla, field.1), (Mm, mm), (Ior, ior)];
        let others = [(A(0), a[0]), (A(1), a[1]), (A(2), a[2]), (Vl, vl)];
        for (register, number) in fields.into_iter().chain(others) {
            state.set(register, number);
        }
        let stepped = step(&mut state, &mut memory).unwrap();
        let exchanges = stepped.outside.is_some() && (mm, ior) == (0, 1);
        let wanted = if exchanges {
            Answer::Exchanged(8)
        } else {
            Answer::Stepped
        };
        assert_eq!(stepped.answer, wanted);
        stepped.outside
    });
    assert_eq!(all, [all[0]; 4]);
    all[0]
}

#[test]
fn each_cause_is_told() {
    // 10h, 11h, 12h, 13h, each at A2
    for code in [0o102100, 0o112100, 0o122100, 0o132100] {
        let at = |field, address| told(code, field, [0, 0, address], 64);
        assert_eq!(at(FIELD, 0), None);
        assert_eq!(at(FIELD, 0x3FF), None);
        assert_eq!(at(FIELD, 0x400), Some(OverLimit(0)));
        // 3FFFFF + 0800 = 2^22 + 07FF; the same with 24 bits
        assert_eq!(at(FIELD, 0x3F_FFFF), Some(BelowBase(0)));
        assert_eq!(at(FIELD, 0xFF_FFFF), Some(BelowBase(0)));
        // 3FF800 + 0800 = 2^22: word 0
        assert_eq!(at(FIELD, 0x3F_F800), Some(BelowBase(0)));
        assert_eq!(at(WIDE, 0x7FF), None);
        assert_eq!(at(WIDE, 0x800), Some(BeyondMemory(0)));
    }
    assert_eq!(told(0o022105, FIELD, [0x400; 3], 64), None);
}

#[test]
fn the_first_cause_that_holds_is_told() {
    let at = |field, address| told(0o132100, field, [0, 0, address], 64);
    // word 3FFFFF, over the limit and beyond the memory
    assert_eq!(at(FIELD, 0x3F_F7FF), Some(OverLimit(0)));
    // word 1000, where both field and memory end
    assert_eq!(at((0x40, 0x80), 0x800), Some(OverLimit(0)));
    // words 3FFFDF and 3FFFE0, which is the highest limit
    assert_eq!(at((0, 0x1_FFFF), 0x3F_FFDF), Some(BeyondMemory(0)));
    assert_eq!(at((0, 0x1_FFFF), 0x3F_FFE0), Some(OverLimit(0)));
    // base 0C00 and limit 0800: words 0C00 and, as 3FFF00 + 0C00 is 2^22 + 0B00, 0B00
    assert_eq!(at((0x60, 0x40), 0), Some(OverLimit(0)));
    assert_eq!(at((0x60, 0x40), 0x3F_FF00), Some(BelowBase(0)));
    // all three: 3FFFFF + 3FFFE0 = 2^22 + 3FFFDF
    assert_eq!(at((0x1_FFFF, 0), 0x3F_FFFF), Some(BelowBase(0)));
}

#[test]
fn elements_of_a_block_are_its_words() {
    // from A0, so many as A2 says
    let moved = |code, field, a0, count| told(code, field, [a0, 0, count], 64);
    for code in [0o034200, 0o035200, 0o036200, 0o037200] {
        // 0B82 + 126 = 0C00
        assert_eq!(moved(code, FIELD, 0x382, 127), Some(OverLimit(126)));
        assert_eq!(moved(code, FIELD, 0x382, 255), Some(OverLimit(126)));
        assert_eq!(moved(code, FIELD, 0x382, 126), None);
        assert_eq!(moved(code, FIELD, 0x400, 128), None);
        // 07FF, then words inside
        assert_eq!(moved(code, FIELD, 0xFF_FFFF, 64), Some(BelowBase(0)));
        // 0FF0 + 16 = 1000
        assert_eq!(moved(code, WIDE, 0x7F0, 127), Some(BeyondMemory(16)));
    }
    // B76, B77, then B00 from word 0C00; T75, then T76 to it
    assert_eq!(moved(0o034276, FIELD, 0x3FE, 4), Some(OverLimit(2)));
    assert_eq!(moved(0o037275, FIELD, 0x3FF, 4), Some(OverLimit(1)));
}

#[test]
fn elements_of_a_vector_are_its_own() {
    // 176 and 177, element e at A0 + e * A1
    for code in [0o176201, 0o177021] {
        let at = |field, a0, a1, vl| told(code, field, [a0, a1, 0], vl);
        // 0BF4 + 12 = 0C00
        assert_eq!(at(FIELD, 0x3F4, 1, 64), Some(OverLimit(12)));
        assert_eq!(at(FIELD, 0x3F4, 1, 13), Some(OverLimit(12)));
        assert_eq!(at(FIELD, 0x3F4, 1, 12), None);
        // 5 - 6 = -1, so word 07FF
        assert_eq!(at(FIELD, 5, 0xFF_FFFF, 64), Some(BelowBase(6)));
        assert_eq!(at(FIELD, 5, 0xFF_FFFF, 6), None);
        // 0FC0 + 2 * 32 = 1000
        assert_eq!(at(WIDE, 0x7C0, 2, 64), Some(BeyondMemory(32)));
        // 0FFF, 200FFF and, as 2 * 200000 is 2^22, 0FFF again
        assert_eq!(at(WIDE, 0x7FF, 0x20_0000, 3), Some(BeyondMemory(1)));
        // 0C00, then 07FF; and the other way round
        assert_eq!(at(FIELD, 0x400, 0xFF_FBFF, 64), Some(OverLimit(0)));
        assert_eq!(at(FIELD, 0x3F_FFFF, 0x401, 64), Some(BelowBase(0)));
    }
    // k = 0: the increment is 1, and 0BC1 + 63 = 0C00
    for code in [0o176200, 0o177020] {
        let from = |a0| told(code, FIELD, [a0, 9, 0], 64);
        assert_eq!((from(0x3C0), from(0x3C1)), (None, Some(OverLimit(63))));
    }
}

#[test]
fn what_is_no_operand_has_no_cause() {
    let at = |p, mm| {
        let mut memory = sum();
        // an exit; 000001, not held
        memory[0x400] = word([0o004000, 0o000001, 0, 0]);
        // A1 ?,A2, whose second parcel is outside
        memory[0x7FF] = word([0, 0, 0, 0o102100]);
        let mut state = start(&memory, 0, 0).unwrap();
        for (register, number) in [(P, p), (Mm, mm), (Ior, 1), (A(2), 0x400)] {
            state.set(register, number);
        }
        step(&mut state, &mut memory)
    };
    assert_eq!(at(0x1000, 0), inside(Answer::Exchanged(4)));
    assert_eq!(at(0x1000, 1), inside(Answer::MonitorFetch(0x1000)));
    assert_eq!(at(0xFFF, 0), inside(Answer::Exchanged(4)));
    assert_eq!(at(0xFFF, 1), inside(Answer::MonitorFetch(0xFFF)));
    assert_eq!(at(0, 0), inside(Answer::Exchanged(1)));
    assert_eq!(at(0, 1), inside(Answer::Exchanged(0)));
    assert_eq!(at(1, 0), inside(Answer::NotHeld(1)));
}

/// A store over the limit at element 12, two clean steps, a read below the base,
/// a clean step; then a code that is not held.
fn outside_twice() -> (State, Vec<u64>) {
    let mut memory = sum();
    memory[3] = 1 << 40; // XA
    memory[0x400] = word([0o177021, 0o022105, 0o001000, 0o102300]);
    memory[0x401] = word([0o000000, 0o001000, 0o000001, 0]);
    let mut state = start(&memory, 0, 0).unwrap();
    // 0BF4 + 12 = 0C00; 3FFFFF is word 07FF
    for (register, number) in [(A(0), 0x3F4), (A(1), 1), (A(2), 0x3F_FFFF)] {
        state.set(register, number);
    }
    (state, memory)
}

#[test]
fn turns_and_runs_tell_of_their_last() {
    let (first, second) = (Some(OverLimit(12)), Some(BelowBase(0)));
    let all = [
        (0, 0, None),
        (1, 1, first),
        (2, 2, first),
        (3, 3, first),
        (4, 4, second),
        (5, 5, second),
        (100, 5, second),
    ];
    for (budget, steps, outside) in all {
        // without IOR, and in monitor mode with it
        for mm in [0, 1] {
            let (mut state, mut memory) = outside_twice();
            state.set(Mm, mm);
            state.set(Ior, mm);
            let (mut twin, mut twins) = (state.clone(), memory.clone());
            let ran = run(&mut state, &mut memory, budget).unwrap();
            assert_eq!((ran.steps, ran.outside), (steps, outside));
            let turned = turn(&mut twin, &mut twins, budget).unwrap();
            assert_eq!((turned.steps, turned.outside), (steps, outside));
            // each call begins anew
            let none = turn(&mut state, &mut memory, 0).unwrap().outside;
            let other = run(&mut twin, &mut twins, 0).unwrap().outside;
            assert_eq!((none, other), (None, None));
        }
    }
}

#[test]
fn a_cause_stays_over_exchanges() {
    let (mut state, mut memory) = outside_twice();
    state.set(Ior, 1);
    let turned = Turned {
        last: Some(Answer::Exchanged(8)),
        steps: 1,
        outside: Some(OverLimit(12)),
    };
    assert_eq!(turn(&mut state, &mut memory, 100), Ok(turned));
    // by operand range, and by an exit after the store: then a clean step and a stop
    for (ior, after, steps) in [(1, 0o001000, 2), (0, 0o004000, 3)] {
        let (mut state, mut memory) = outside_twice();
        state.set(Ior, ior);
        memory[0x400] = word([0o177021, after, 0, 0]);
        put_package(&mut memory, 1, 0x440..0x460, 0x800..0xC00);
        memory[0x440] = word([0o022105, 0o000001, 0, 0]);
        let ran = Ran {
            ending: Ending::NotHeld(1),
            steps,
            outside: Some(OverLimit(12)),
        };
        assert_eq!(run(&mut state, &mut memory, 100), Ok(ran));
    }
}

/// The first as above; the second has a clean step, a read below the base, a
/// clean step, a store beyond memory at element 32, then a code that is not held.
fn outside_both() -> (Pair, Vec<u64>) {
    let (first, mut memory) = outside_twice();
    memory[0x400] = word([0o177021, 0o001000, 0o001000, 0o001000]);
    put_package(&mut memory, 2, 0x440..0x460, 0x800..0x1_FFFF * 32);
    memory[0x440] = word([0o022403, 0o102300, 0o000000, 0o001000]);
    memory[0x441] = word([0o177021, 0o000001, 0, 0]);
    let mut second = start(&memory, 2, 1).unwrap();
    // 0FC0 + 2 * 32 = 1000; 3FFFFF is word 07FF
    for (register, number) in [(A(0), 0x7C0), (A(1), 2), (A(2), 0x3F_FFFF)] {
        second.set(register, number);
    }
    (Pair { first, second }, memory)
}

#[test]
fn a_pair_run_tells_of_each() {
    let (over, below) = (Some(OverLimit(12)), Some(BelowBase(0)));
    let beyond = Some(BeyondMemory(32));
    let all = [
        [None, None],
        [over, None],
        [over, None],
        [over, below],
        [over, below],
        [over, below],
        [over, beyond],
        [over, beyond],
    ];
    for (turns, outside) in all.into_iter().enumerate() {
        let (mut pair, mut memory) = outside_both();
        let schedule = &[0, 1, 1, 0, 1, 1, 1][..turns];
        let last = match turns {
            0 => None,
            7 => Some(Answer::NotHeld(5)),
            _ => Some(Answer::Stepped),
        };
        let ran = pair_run(&mut pair, &mut memory, schedule).unwrap();
        assert_eq!((ran.last, ran.steps), (last, turns.min(6) as u64));
        assert_eq!(ran.outside, outside);
    }
    let (mut pair, mut memory) = outside_both();
    pair.second.set(Ior, 1);
    let ran = pair_run(&mut pair, &mut memory, &[1, 1, 0]).unwrap();
    assert_eq!((ran.last, ran.steps), (Some(Answer::Exchanged(8)), 2));
    assert_eq!(ran.outside, [None, below]);
}

#[test]
fn each_refusal_alters_nothing() {
    let memory = sum();
    let x = start(&memory, 0, 0).unwrap();
    let y = start(&memory, 0, 1).unwrap();
    assert_eq!(start(&memory[1..], 0, 0), Err(Refused::Memory));
    assert_eq!(start(&memory, 256, 2), Err(Refused::Package));
    assert_eq!(start(&memory, 0, 2), Err(Refused::Processor));
    let steps = |state: &State, words: usize, budget| {
        let (mut s, mut m) = (state.clone(), memory[..words].to_vec());
        let stepped = step(&mut s, &mut m).err();
        if stepped.is_none() {
            (s, m) = (state.clone(), memory[..words].to_vec());
        }
        let ran = run(&mut s, &mut m, budget).err();
        assert!(ran.is_some() && s == *state && m == memory[..words]);
        let turned = turn(&mut s, &mut m, budget).err();
        assert!(turned == ran && s == *state && m == memory[..words]);
        (stepped, ran.unwrap())
    };
    let same = |refused| (Some(refused), refused);
    assert_eq!(steps(&x, LEAST - 1, 1_000_001), same(Refused::Memory));
    assert_eq!(steps(&x, 0, 1), same(Refused::Memory));
    assert_eq!(steps(&x, 0, 0), same(Refused::Memory));
    assert_eq!(steps(&x, LEAST, 1_000_001), (None, Refused::Budget));
    let with = |register, number| {
        let mut state = x.clone();
        state.set(register, number);
        state
    };
    let bad = with(Processor, 2);
    assert_eq!(steps(&bad, LEAST, 1), same(Refused::Processor));
    let wide = [
        with(P, 1 << 24),
        with(Xa, 256),
        with(Vl, 0),
        with(Vl, 65),
        with(Iba, 1 << 17),
        with(Dla, 1 << 17),
        with(Mm, 2),
        with(Bdm, u64::MAX),
        with(Ps, 2),
        with(Cln, 4),
        with(A(7), 1 << 24),
        with(B(63), 1 << 24),
    ];
    let pairs = |x: &State, y: &State, words: usize, schedule: &[u8]| {
        let (first, second) = (x.clone(), y.clone());
        let before = Pair { first, second };
        let (mut pair, mut m) = (before.clone(), memory[..words].to_vec());
        let refused = pair_run(&mut pair, &mut m, schedule).unwrap_err();
        assert!(pair == before && m == memory[..words]);
        refused
    };
    for state in &wide {
        assert_eq!(steps(state, LEAST, 1), same(Refused::State));
        assert_eq!(steps(state, LEAST, 0), same(Refused::State));
        assert_eq!(pairs(state, &y, LEAST, &[1]), Refused::State);
        let mut second = state.clone();
        second.set(Processor, 1);
        assert_eq!(pairs(&x, &second, LEAST, &[0]), Refused::State);
    }
    assert_eq!(pairs(&x, &y, LEAST - 1, &[2]), Refused::Memory);
    assert_eq!(pairs(&y, &x, LEAST, &[0]), Refused::Processor);
    assert_eq!(pairs(&x, &x, LEAST, &[0]), Refused::Processor);
    assert_eq!(pairs(&x, &y, LEAST, &[2; 65_537]), Refused::ScheduleLength);
    assert_eq!(pairs(&x, &y, LEAST, &[0, 1, 2]), Refused::ScheduleByte);
}

#[test]
fn the_largest_memory_is_lent_whole() {
    let mut memory = vec![0; MOST + 1];
    let top = MOST - 64;
    put_package(
        &mut memory,
        0,
        top as u64..top as u64 + 32,
        top as u64..top as u64 + 32,
    );
    // 022105 A1 5; 110100 000037 37,0 A1; 000001, not held
    memory[top] = 0x2445_9040_001F_0001;
    let mut state = start(&memory[..MOST], 0, 0).unwrap();
    let ran = run(&mut state, &mut memory[..MOST], 10).unwrap();
    assert_eq!((ran.ending, ran.steps), (Ending::NotHeld(3), 2));
    assert_eq!((memory[top + 31], ran.outside), (5, None));
    // a memory that ends before that word
    let mut state = start(&memory[..top + 31], 0, 0).unwrap();
    let ran = run(&mut state, &mut memory[..top + 31], 10).unwrap();
    assert_eq!((ran.steps, ran.outside), (2, Some(BeyondMemory(0))));
    let refused = turn(&mut state, &mut memory, 10);
    assert_eq!(refused, Err(Refused::Memory));
    let refused = run(&mut state, &mut memory, 10);
    assert_eq!(refused, Err(Refused::Memory));
    assert_eq!(start(&memory, 0, 0), Err(Refused::Memory));
}
