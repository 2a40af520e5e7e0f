//! Fetch, fields, exchange, and the public functions with their refusals.

use crate::ops::TABLE;
use crate::state::{State, MASK22, MASK24};
use std::ops::Range;

/// What one step did. Flags count from 1 for a normal exit: error exit 2,
/// program range 4, operand range 8.
#[derive(Clone, Copy, PartialEq, Eq, Debug)]
pub enum Answer {
    Stepped,
    Exchanged(u16),
    NotHeld(u32),
    MonitorFetch(u32),
}

pub const NORMAL_EXIT: u16 = 1;
pub const ERROR_EXIT: u16 = 2;
pub const PROGRAM_RANGE: u16 = 4;
pub const OPERAND_RANGE: u16 = 8;

/// Why a word is outside of a field: below its base, at or over its limit, or
/// beyond memory. They are tested in this order.
#[derive(Clone, Copy, PartialEq, Eq, Hash, Debug)]
pub enum Cause {
    Below,
    Limit,
    Memory,
}

/// An operand outside: why, and its number among the words that its
/// instruction moves, from 0.
#[derive(Clone, Copy, PartialEq, Eq, Debug)]
pub struct Outside {
    pub cause: Cause,
    pub element: u8,
}

/// What one step came to: its answer, and the first of its operands that was
/// outside, if any.
#[derive(Clone, Copy, PartialEq, Eq, Debug)]
pub struct Step {
    pub answer: Answer,
    pub outside: Option<Outside>,
}

/// How a run ended.
#[derive(Clone, Copy, PartialEq, Eq, Debug)]
pub enum Stop {
    Budget,
    NotHeld(u32),
    MonitorFetch(u32),
}

/// A run's end, what the last step with an operand outside told of it, and the
/// steps that stepped or exchanged.
#[derive(Clone, Copy, PartialEq, Eq, Debug)]
pub struct Ended {
    pub stop: Stop,
    pub outside: Option<Outside>,
    pub steps: u64,
}

/// A pair run's count, its last answer, none for an empty schedule, and what
/// each processor's last step with an operand outside told of it.
#[derive(Clone, Copy, PartialEq, Eq, Debug)]
pub struct PairEnded {
    pub steps: u64,
    pub last: Option<Answer>,
    pub outside: [Option<Outside>; 2],
}

/// What an instruction tells the step that called it.
#[derive(Clone, Copy, PartialEq, Eq)]
pub(crate) enum Flow {
    Next,
    NormalExit,
    ErrorExit,
    OperandOutside(Outside),
    SecondOutside,
    NotHeld,
}

/// The rule for fields word for word: the place in memory of an address, or
/// why it is outside. The machine uses `Window` instead, and the tests hold one
/// against the other.
pub fn place(base: u32, limit: u32, length: usize, address: u32) -> Result<usize, Cause> {
    let word = ((address & MASK22) + base * 32) & MASK22;
    if word < base * 32 {
        Err(Cause::Below)
    } else if word >= limit * 32 {
        Err(Cause::Limit)
    } else if word as usize >= length {
        Err(Cause::Memory)
    } else {
        Ok(word as usize)
    }
}

/// A field as the words of memory that it allows: `span` words from `base`.
///
/// An address whose sum with the base passes 2^22 wraps to a word below the
/// base, so it is outside. No limit reaches 2^22, so the plain comparison of
/// the address with the span says exactly the same.
#[derive(Clone, Copy)]
pub(crate) struct Window {
    base: usize,
    span: usize,
    limit: usize,
}

impl Window {
    pub(crate) fn new(base: u32, limit: u32, length: usize) -> Window {
        let (base, limit) = (base as usize * 32, limit as usize * 32);
        let span = limit.min(length).saturating_sub(base);
        Window { base, span, limit }
    }

    /// Why a word address is outside, if it is.
    #[cold]
    pub(crate) fn cause(self, address: u32) -> Cause {
        let sum = self.base + (address & MASK22) as usize;
        if sum > MASK22 as usize {
            Cause::Below
        } else if sum >= self.limit {
            Cause::Limit
        } else {
            Cause::Memory
        }
    }

    /// The place in memory of a word address, if it is inside.
    #[inline(always)]
    pub(crate) fn word(self, address: u32) -> Option<usize> {
        let word = (address & MASK22) as usize;
        (word < self.span).then(|| self.base + word)
    }

    /// The places of `count` words from an address on, if that and all of them
    /// are inside.
    #[inline(always)]
    pub(crate) fn words(self, address: u32, count: u32) -> Option<Range<usize>> {
        let first = (address & MASK22) as usize;
        let end = first + count as usize;
        let inside = first < self.span && end <= self.span;
        inside.then(|| self.base + first..self.base + end)
    }
}

/// A processor at work: its registers, and its fields as windows, which only
/// an exchange can change.
pub struct Machine<'s> {
    pub(crate) r: &'s mut State,
    code: Window,
    pub(crate) data: Window,
}

impl<'s> Machine<'s> {
    pub fn new(state: &'s mut State, memory: &[u64]) -> Machine<'s> {
        let none = Window::new(0, 0, 0);
        let mut machine = Machine {
            r: state,
            code: none,
            data: none,
        };
        machine.frame(memory.len());
        machine
    }

    /// The registers as they stand between two steps.
    pub fn state(&self) -> &State {
        self.r
    }

    fn frame(&mut self, length: usize) {
        self.code = Window::new(self.r.iba, self.r.ila, length);
        self.data = Window::new(self.r.dba, self.r.dla, length);
    }

    #[inline(always)]
    fn parcel(&self, memory: &[u64], p: u32) -> Option<u16> {
        let at = self.code.word(p >> 2)?;
        Some((memory[at] >> ((!p & 3) * 16)) as u16)
    }

    /// The second parcel, with P moved past it.
    #[inline(always)]
    pub(crate) fn second(&mut self, memory: &[u64]) -> Option<u32> {
        let parcel = self.parcel(memory, self.r.p)?;
        self.r.p = (self.r.p + 1) & MASK24;
        Some(u32::from(parcel))
    }

    /// What is told of an operand outside.
    pub(crate) fn missed(&self, address: u32, element: usize) -> Outside {
        Outside {
            cause: self.data.cause(address),
            element: element as u8,
        }
    }

    /// One step, the state and the memory having been accepted.
    #[inline(always)]
    pub fn advance(&mut self, memory: &mut [u64]) -> Step {
        let p = self.r.p;
        let Some(first) = self.parcel(memory, p) else {
            let (answer, outside) = (self.outside(memory), None);
            return Step { answer, outside };
        };
        self.r.p = (p + 1) & MASK24;
        let flow = TABLE[usize::from(first >> 9)](self, memory, first);
        let answer = match flow {
            Flow::Next => Answer::Stepped,
            _ => self.settle(memory, flow, p),
        };
        let outside = match flow {
            Flow::OperandOutside(outside) => Some(outside),
            _ => None,
        };
        Step { answer, outside }
    }

    /// Ends a step that did not simply go on. A refused instruction leaves P
    /// at its first parcel.
    #[cold]
    fn settle(&mut self, memory: &mut [u64], flow: Flow, p: u32) -> Answer {
        let user = !self.r.mm;
        let flag = |flag: u16| if user { flag } else { 0 };
        match flow {
            Flow::Next => Answer::Stepped,
            Flow::NormalExit => self.exchange(memory, flag(NORMAL_EXIT)),
            Flow::ErrorExit => self.exchange(memory, flag(ERROR_EXIT)),
            Flow::OperandOutside(_) => {
                if user && self.r.ior {
                    self.exchange(memory, OPERAND_RANGE)
                } else {
                    Answer::Stepped
                }
            }
            Flow::SecondOutside => {
                self.r.p = p;
                self.outside(memory)
            }
            Flow::NotHeld => {
                self.r.p = p;
                Answer::NotHeld(p)
            }
        }
    }

    /// A parcel was outside, P being still at the first one.
    #[cold]
    fn outside(&mut self, memory: &mut [u64]) -> Answer {
        if self.r.mm {
            Answer::MonitorFetch(self.r.p)
        } else {
            self.exchange(memory, PROGRAM_RANGE)
        }
    }

    /// Swaps with the package that XA names now, before the swap changes it.
    pub(crate) fn exchange(&mut self, memory: &mut [u64], flags: u16) -> Answer {
        let at = self.r.xa as usize * 16;
        let mut package = self.r.save(flags);
        memory[at..at + 16].swap_with_slice(&mut package);
        self.r.load(&package);
        self.frame(memory.len());
        Answer::Exchanged(flags)
    }

    fn take(&mut self, memory: &mut [u64], budget: u64) -> Ended {
        let (mut outside, mut steps) = (None, 0);
        while steps < budget {
            let step = self.advance(memory);
            outside = step.outside.or(outside);
            let stop = match step.answer {
                Answer::Stepped | Answer::Exchanged(_) => {
                    steps += 1;
                    continue;
                }
                Answer::NotHeld(p) => Stop::NotHeld(p),
                Answer::MonitorFetch(p) => Stop::MonitorFetch(p),
            };
            return Ended {
                stop,
                outside,
                steps,
            };
        }
        let stop = Stop::Budget;
        Ended {
            stop,
            outside,
            steps,
        }
    }
}

/// Gives refusal `number` unless `good`.
fn demand(good: bool, number: u8) -> Result<(), u8> {
    if good {
        Ok(())
    } else {
        Err(number)
    }
}

fn demand_memory(memory: &[u64]) -> Result<(), u8> {
    demand((4_096..=4_194_304).contains(&memory.len()), 1)
}

/// A processor started from a package; memory is only read.
pub fn start(memory: &[u64], package: u64, processor: u32) -> Result<State, u8> {
    demand_memory(memory)?;
    demand(package <= 255, 2)?;
    demand(processor <= 1, 4)?;
    let at = package as usize * 16;
    let mut words = [0; 16];
    words.copy_from_slice(&memory[at..at + 16]);
    let mut state = State::clear(processor);
    state.load(&words);
    Ok(state)
}

/// One step.
pub fn step(state: &mut State, memory: &mut [u64]) -> Result<Step, u8> {
    demand_memory(memory)?;
    demand(state.processor <= 1, 4)?;
    demand(state.fits(), 7)?;
    Ok(Machine::new(state, memory).advance(memory))
}

/// Steps until the budget is spent or a step stops.
pub fn run(state: &mut State, memory: &mut [u64], budget: u64) -> Result<Ended, u8> {
    demand_memory(memory)?;
    demand(budget <= 1_000_000, 3)?;
    demand(state.processor <= 1, 4)?;
    demand(state.fits(), 7)?;
    Ok(Machine::new(state, memory).take(memory, budget))
}

/// Two processors on one memory, a byte of the schedule choosing each step's.
pub fn pair_run(
    first: &mut State,
    second: &mut State,
    memory: &mut [u64],
    schedule: &[u8],
) -> Result<PairEnded, u8> {
    demand_memory(memory)?;
    demand(first.processor == 0 && second.processor == 1, 4)?;
    demand(schedule.len() <= 65_536, 5)?;
    demand(schedule.iter().all(|turn| *turn <= 1), 6)?;
    demand(first.fits() && second.fits(), 7)?;
    let mut pair = [Machine::new(first, memory), Machine::new(second, memory)];
    let mut ended = PairEnded {
        steps: 0,
        last: None,
        outside: [None; 2],
    };
    for turn in schedule {
        let turn = usize::from(*turn);
        let Step { answer, outside } = pair[turn].advance(memory);
        ended.last = Some(answer);
        ended.outside[turn] = outside.or(ended.outside[turn]);
        if matches!(answer, Answer::Stepped | Answer::Exchanged(_)) {
            ended.steps += 1;
        }
        if answer != Answer::Stepped {
            break;
        }
    }
    Ok(ended)
}
