//! The integer half of a CRAY X-MP: a start, a step, a turn, a run and a pair
//! run; and its assembly language CAL: a text assembled, parcels listed.
//!
//! Safe functions over the proved library. What each call gives is stated and
//! proved there; this file only gives the numbers names, and copies no processor
//! that a call is made on. The declarations of `extern "C"` are checked by
//! nobody: a slice is a pointer and a length, an array or a pair one pointer.
//!
//! Two numbers are added, and the sum is stored:
//!
//! ```
//! let mut memory = vec![0; 4_096];
//! memory[1] = (0x400 / 32) << 29; // package 0: the instructions are in words 0400
//! memory[2] = (0x800 / 32) << 29; // to 07FF,
//! memory[4] = (0x800 / 32) << 29; // the data in words 0800
//! memory[5] = (0xC00 / 32) << 29; // to 0BFF
//! // 022105 A1 5; 022207 A2 7; 030312 A3 A1+A2; 110300 000000 0,0 A3
//! memory[0x400] = 0x2445_2487_30CA_90C0;
//! let mut state = pulxarrid::start(&memory, 0, 0)?;
//! let ran = pulxarrid::run(&mut state, &mut memory, 4)?;
//! assert_eq!((ran.steps, memory[0x800]), (4, 12));
//! # Ok::<(), pulxarrid::Refused>(())
//! ```

use std::fmt;

/// The words of a processor.
pub const STATE_WORDS: usize = 672;

/// The words of two processors.
pub const PAIR_WORDS: usize = 2 * STATE_WORDS;

// The library is lent a pair as so many words.
const _: () = assert!(std::mem::size_of::<Pair>() == PAIR_WORDS * std::mem::size_of::<u64>());

extern "C" {
    fn pulxarrid_start(
        state: &mut [u64; STATE_WORDS],
        memory: *const u64,
        words: usize,
        package: u64,
        processor: u64,
    ) -> u64;
    fn pulxarrid_step(
        state: &mut [u64; STATE_WORDS],
        memory: *mut u64,
        words: usize,
        answer: &mut [u64; 4],
    ) -> u64;
    fn pulxarrid_turn(
        state: &mut [u64; STATE_WORDS],
        memory: *mut u64,
        words: usize,
        budget: u64,
        report: &mut [u64; 5],
    ) -> u64;
    fn pulxarrid_run(
        state: &mut [u64; STATE_WORDS],
        memory: *mut u64,
        words: usize,
        budget: u64,
        report: &mut [u64; 5],
    ) -> u64;
    fn pulxarrid_pair_run(
        pair: &mut Pair,
        memory: *mut u64,
        words: usize,
        schedule: *const u8,
        turns: usize,
        report: &mut [u64; 7],
    ) -> u64;
    fn pulxarrid_assemble(
        text: *const u8,
        bytes: usize,
        parcels: *mut u16,
        room: usize,
        report: &mut [u64; 1],
    ) -> u64;
    fn pulxarrid_list(
        parcels: *const u16,
        count: usize,
        text: *mut u8,
        room: usize,
        report: &mut [u64; 1],
    ) -> u64;
}

/// A register of a processor. Numbers count from 0; those past the last
/// register of a kind are errors.
#[derive(Clone, Copy, PartialEq, Eq, Debug)]
pub enum Register {
    P,
    Xa,
    Vl,
    Vm,
    Iba,
    Ila,
    Dba,
    Dla,
    Mm,
    Ior,
    Ifp,
    Fps,
    Bdm,
    Ps,
    Cln,
    Processor,
    A(usize),
    S(usize),
    B(usize),
    T(usize),
    /// An element of a vector register: the register, then the element.
    V(usize, usize),
}

impl Register {
    /// The place of its word.
    pub fn place(self) -> usize {
        use Register::*;
        let below = |n: usize, count: usize| {
            assert!(n < count, "there is no such register");
            n
        };
        match self {
            P => 0,
            Xa => 1,
            Vl => 2,
            Vm => 3,
            Iba => 4,
            Ila => 5,
            Dba => 6,
            Dla => 7,
            Mm => 8,
            Ior => 9,
            Ifp => 10,
            Fps => 11,
            Bdm => 12,
            Ps => 13,
            Cln => 14,
            Processor => 15,
            A(n) => 16 + below(n, 8),
            S(n) => 24 + below(n, 8),
            B(n) => 32 + below(n, 64),
            T(n) => 96 + below(n, 64),
            V(n, element) => 160 + 64 * below(n, 8) + below(element, 64),
        }
    }
}

/// A processor. It may hold any numbers; a call refuses one that is too wide
/// for its register.
#[derive(Clone, PartialEq, Eq, Debug)]
#[repr(transparent)]
pub struct State {
    words: [u64; STATE_WORDS],
}

impl State {
    pub fn from_words(words: [u64; STATE_WORDS]) -> State {
        State { words }
    }

    pub fn words(&self) -> &[u64; STATE_WORDS] {
        &self.words
    }

    pub fn get(&self, register: Register) -> u64 {
        self.words[register.place()]
    }

    pub fn set(&mut self, register: Register, number: u64) {
        self.words[register.place()] = number;
    }
}

/// Two processors. Their words stand one after the other, as the library takes
/// them: so a pair run copies nothing, and between two of them a step, a turn
/// or a run may be made of either.
#[derive(Clone, PartialEq, Eq, Debug)]
#[repr(C)]
pub struct Pair {
    pub first: State,
    pub second: State,
}

/// Why a call was refused. It altered nothing.
#[derive(Clone, Copy, PartialEq, Eq, Debug)]
pub enum Refused {
    Memory = 1,
    Package = 2,
    Budget = 3,
    Processor = 4,
    ScheduleLength = 5,
    ScheduleByte = 6,
    State = 7,
}

impl fmt::Display for Refused {
    fn fmt(&self, f: &mut fmt::Formatter) -> fmt::Result {
        f.write_str(match self {
            Refused::Memory => "memory has fewer than 4,096 or more than 4,194,304 words",
            Refused::Package => "the package is over 255",
            Refused::Budget => "the budget is over 1,000,000",
            Refused::Processor => "a processor has another number than it may have",
            Refused::ScheduleLength => "the schedule has over 65,536 bytes",
            Refused::ScheduleByte => "a byte of the schedule is over 1",
            Refused::State => "a processor holds a number too wide for its register",
        })
    }
}

impl std::error::Error for Refused {}

impl Refused {
    /// Done, or why not.
    fn check(number: u64) -> Result<(), Refused> {
        match number {
            0 => Ok(()),
            1 => Err(Refused::Memory),
            2 => Err(Refused::Package),
            3 => Err(Refused::Budget),
            4 => Err(Refused::Processor),
            5 => Err(Refused::ScheduleLength),
            6 => Err(Refused::ScheduleByte),
            7 => Err(Refused::State),
            _ => unreachable!("there are seven refusals"),
        }
    }
}

/// What a step did. Flags: normal exit 1, error exit 2, program range 4,
/// operand range 8. The two stops have the P at which they are.
#[derive(Clone, Copy, PartialEq, Eq, Debug)]
pub enum Answer {
    Stepped,
    Exchanged(u16),
    NotHeld(u32),
    MonitorFetch(u32),
}

/// The kind of no answer.
const NOTHING: u64 = 15;

impl Answer {
    fn new(kind: u64, value: u64) -> Option<Answer> {
        match kind {
            0 => Some(Answer::Stepped),
            1 => Some(Answer::Exchanged(value as u16)),
            2 => Some(Answer::NotHeld(value as u32)),
            3 => Some(Answer::MonitorFetch(value as u32)),
            NOTHING => None,
            _ => unreachable!("there are four answers"),
        }
    }
}

/// Why an operand was outside of the data field: the first of these tests that
/// holds of its word, in this order. The number is the element: that of the
/// operand among those of its instruction, counted from 0.
#[derive(Clone, Copy, PartialEq, Eq, Debug)]
pub enum Outside {
    BelowBase(u8),
    /// At or over the limit.
    OverLimit(u8),
    BeyondMemory(u8),
}

impl Outside {
    fn new(cause: u64, element: u64) -> Option<Outside> {
        let element = element as u8;
        match cause {
            0 => None,
            1 => Some(Outside::BelowBase(element)),
            2 => Some(Outside::OverLimit(element)),
            3 => Some(Outside::BeyondMemory(element)),
            _ => unreachable!("there are three causes"),
        }
    }
}

/// The answer of a step, and its first operand outside, in either mode and
/// whether it exchanged for it or not.
#[derive(Clone, Copy, PartialEq, Eq, Debug)]
pub struct Stepped {
    pub answer: Answer,
    pub outside: Option<Outside>,
}

/// The last answer of a turn, if it took a step, the steps that stepped or
/// exchanged, and what the last step with an operand outside said of it.
#[derive(Clone, Copy, PartialEq, Eq, Debug)]
pub struct Turned {
    pub last: Option<Answer>,
    pub steps: u64,
    pub outside: Option<Outside>,
}

/// How a run ended.
#[derive(Clone, Copy, PartialEq, Eq, Debug)]
pub enum Ending {
    Budget,
    NotHeld(u32),
    MonitorFetch(u32),
}

/// How a run ended, the steps that stepped or exchanged, and what the last step
/// with an operand outside said of it.
#[derive(Clone, Copy, PartialEq, Eq, Debug)]
pub struct Ran {
    pub ending: Ending,
    pub steps: u64,
    pub outside: Option<Outside>,
}

/// The last answer of a pair run, if it took a step, the steps that stepped or
/// exchanged, and what the last step of each processor with an operand outside
/// said of it.
#[derive(Clone, Copy, PartialEq, Eq, Debug)]
pub struct PairRan {
    pub last: Option<Answer>,
    pub steps: u64,
    pub outside: [Option<Outside>; 2],
}

/// A processor loaded from a package.
pub fn start(memory: &[u64], package: u64, processor: u64) -> Result<State, Refused> {
    let mut words = [0; STATE_WORDS];
    let number = unsafe {
        pulxarrid_start(
            &mut words,
            memory.as_ptr(),
            memory.len(),
            package,
            processor,
        )
    };
    Refused::check(number)?;
    Ok(State { words })
}

/// One step.
pub fn step(state: &mut State, memory: &mut [u64]) -> Result<Stepped, Refused> {
    let mut answer = [0; 4];
    let number = unsafe {
        pulxarrid_step(
            &mut state.words,
            memory.as_mut_ptr(),
            memory.len(),
            &mut answer,
        )
    };
    Refused::check(number)?;
    let [kind, value, cause, element] = answer;
    Ok(Stepped {
        answer: Answer::new(kind, value).expect("a step answers"),
        outside: Outside::new(cause, element),
    })
}

/// A turn or a run: steps on one processor, up to a budget.
type Budgeted =
    unsafe extern "C" fn(&mut [u64; STATE_WORDS], *mut u64, usize, u64, &mut [u64; 5]) -> u64;

/// What one of the two reports.
fn within(
    call: Budgeted,
    state: &mut State,
    memory: &mut [u64],
    budget: u64,
) -> Result<[u64; 5], Refused> {
    let mut report = [0; 5];
    let words = &mut state.words;
    let number = unsafe {
        call(
            words,
            memory.as_mut_ptr(),
            memory.len(),
            budget,
            &mut report,
        )
    };
    Refused::check(number)?;
    Ok(report)
}

/// Steps up to and including the first that exchanges or stops, at most
/// `budget`.
pub fn turn(state: &mut State, memory: &mut [u64], budget: u64) -> Result<Turned, Refused> {
    let [kind, value, steps, cause, element] = within(pulxarrid_turn, state, memory, budget)?;
    Ok(Turned {
        last: Answer::new(kind, value),
        steps,
        outside: Outside::new(cause, element),
    })
}

/// Steps until the budget is spent or one stops.
pub fn run(state: &mut State, memory: &mut [u64], budget: u64) -> Result<Ran, Refused> {
    let [kind, value, steps, cause, element] = within(pulxarrid_run, state, memory, budget)?;
    let ending = match kind {
        0 => Ending::Budget,
        2 => Ending::NotHeld(value as u32),
        3 => Ending::MonitorFetch(value as u32),
        _ => unreachable!("a run ends in one of three ways"),
    };
    Ok(Ran {
        ending,
        steps,
        outside: Outside::new(cause, element),
    })
}

/// A step for each byte of the schedule, 0 for the first processor and 1 for
/// the second, up to the first that does more than step.
pub fn pair_run(pair: &mut Pair, memory: &mut [u64], schedule: &[u8]) -> Result<PairRan, Refused> {
    let mut report = [0; 7];
    let number = unsafe {
        pulxarrid_pair_run(
            pair,
            memory.as_mut_ptr(),
            memory.len(),
            schedule.as_ptr(),
            schedule.len(),
            &mut report,
        )
    };
    Refused::check(number)?;
    let [kind, value, steps, x, x_element, y, y_element] = report;
    Ok(PairRan {
        last: Answer::new(kind, value),
        steps,
        outside: [Outside::new(x, x_element), Outside::new(y, y_element)],
    })
}

/// The bytes of the longest line of CAL, its newline among them.
pub const LINE_MOST: usize = 16;

/// The first line of a text, counted from 1, that cannot be assembled.
#[derive(Clone, Copy, PartialEq, Eq, Debug)]
pub struct BadLine(pub usize);

impl fmt::Display for BadLine {
    fn fmt(&self, f: &mut fmt::Formatter) -> fmt::Result {
        write!(f, "line {} cannot be assembled", self.0)
    }
}

impl std::error::Error for BadLine {}

/// Parcels or a text need more room than was lent. It is as it was.
#[derive(Clone, Copy, PartialEq, Eq, Debug)]
pub struct NoRoom;

impl fmt::Display for NoRoom {
    fn fmt(&self, f: &mut fmt::Formatter) -> fmt::Result {
        f.write_str("there is more than the lent room holds")
    }
}

impl std::error::Error for NoRoom {}

/// Why a text was not assembled into lent room. The room is as it was. A bad
/// line is told first.
#[derive(Clone, Copy, PartialEq, Eq, Debug)]
pub enum NotAssembled {
    BadLine(BadLine),
    NoRoom(NoRoom),
}

impl fmt::Display for NotAssembled {
    fn fmt(&self, f: &mut fmt::Formatter) -> fmt::Result {
        match self {
            NotAssembled::BadLine(why) => why.fmt(f),
            NotAssembled::NoRoom(why) => why.fmt(f),
        }
    }
}

impl std::error::Error for NotAssembled {}

/// The parcels of a text of CAL, each line of it ended by a newline.
///
/// ```
/// let text = "022 A1 5\n022 A2 7\nA3 A1+A2\n0,A0 A3\n";
/// let parcels = pulxarrid::assemble(text)?;
/// assert_eq!(parcels, [0o022105, 0o022207, 0o030312, 0o110300, 0]);
/// assert_eq!(pulxarrid::list(&parcels), text);
/// // four parcels to a word, the first the highest
/// let word = parcels[..4].iter().fold(0, |word, parcel| word << 16 | u64::from(*parcel));
/// assert_eq!(word, 0x2445_2487_30CA_90C0);
/// assert_eq!(pulxarrid::assemble("PASS\nA1 5\n"), Err(pulxarrid::BadLine(2)));
/// # Ok::<(), pulxarrid::BadLine>(())
/// ```
pub fn assemble(text: &str) -> Result<Vec<u16>, BadLine> {
    // a parcel takes at least two bytes
    let mut parcels = vec![0; text.len() / 2];
    match assemble_into(text.as_bytes(), &mut parcels) {
        Ok(count) => parcels.truncate(count),
        Err(NotAssembled::BadLine(line)) => return Err(line),
        Err(NotAssembled::NoRoom(_)) => unreachable!("a parcel takes at least two bytes"),
    }
    Ok(parcels)
}

/// Assembles a text into lent room: how many parcels it has. Those past them
/// stay.
pub fn assemble_into(text: &[u8], room: &mut [u16]) -> Result<usize, NotAssembled> {
    let mut report = [0];
    let number = unsafe {
        pulxarrid_assemble(
            text.as_ptr(),
            text.len(),
            room.as_mut_ptr(),
            room.len(),
            &mut report,
        )
    };
    let told = report[0] as usize;
    match number {
        0 => Ok(told),
        10 => Err(NotAssembled::BadLine(BadLine(told))),
        18 => Err(NotAssembled::NoRoom(NoRoom)),
        _ => unreachable!("a text is refused in two ways"),
    }
}

/// Parcels as CAL, a line for each instruction. One that begins none, or whose
/// second parcel is missing, is listed as `data=` with six octal digits.
///
/// ```
/// assert_eq!(pulxarrid::list(&[0o001000, 0o042100, 0o006000]), "PASS\nS1 <100\ndata=006000\n");
/// ```
pub fn list(parcels: &[u16]) -> String {
    let mut text = vec![0; LINE_MOST * parcels.len()];
    let bytes = list_into(parcels, &mut text).expect("a line has at most 16 bytes");
    text.truncate(bytes);
    String::from_utf8(text).expect("CAL is ASCII")
}

/// Lists parcels in lent room: how many bytes that takes. Those past them stay.
pub fn list_into(parcels: &[u16], room: &mut [u8]) -> Result<usize, NoRoom> {
    let mut report = [0];
    let number = unsafe {
        pulxarrid_list(
            parcels.as_ptr(),
            parcels.len(),
            room.as_mut_ptr(),
            room.len(),
            &mut report,
        )
    };
    match number {
        0 => Ok(report[0] as usize),
        18 => Err(NoRoom),
        _ => unreachable!("parcels are refused in one way"),
    }
}
