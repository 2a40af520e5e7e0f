//! The proved library beside the independent program, in one process.
//!
//! `Beside` makes the same call of both and compares what they gave, all words
//! of the processors and all of memory. `sheets` does so with whole case sheets,
//! for the tests and for the program `beside`. `draw` and `program` draw processors
//! and instructions from seeds, and `harness` runs the tests.

#![forbid(unsafe_code)]

mod draw;
pub mod harness;
pub mod program;
pub mod sheets;
mod words;

pub use draw::Draw;

use pulxarrid::{Answer, Ending, Outside, Pair, PairRan, Ran, Refused, State, Stepped, Turned};
use std::fmt::Debug;
use words::{answer_of, difference, is_same, outside_of, words_of};

/// What a call gave, or the number of its refusal.
pub type Given<T> = Result<T, u8>;

/// The library's processors and memory beside those of the independent program.
/// Where that has one processor, the library's second is to stay empty.
pub struct Beside {
    pair: Pair,
    pub states: Vec<peer::State>,
    pub memory: Vec<u64>,
    pub peers: Vec<u64>,
    /// Whether all of memory is compared after each call, and not only where
    /// `same` is called: with a large one that takes far longer than a call.
    pub each: bool,
}

impl Beside {
    pub fn new(memory: Vec<u64>, states: Vec<peer::State>) -> Beside {
        Beside {
            pair: pair_of(&states),
            states,
            peers: memory.clone(),
            memory,
            each: true,
        }
    }

    /// Puts other processors into both.
    pub fn put(&mut self, states: Vec<peer::State>) {
        self.pair = pair_of(&states);
        self.states = states;
    }

    pub fn step(&mut self) -> Given<Stepped> {
        let got = pulxarrid::step(&mut self.pair.first, &mut self.memory);
        let wanted = peer::step(&mut self.states[0], &mut self.peers);
        let wanted = wanted.map(|r| Stepped {
            answer: answer_of(r.answer),
            outside: outside_of(r.outside),
        });
        told(self.agreed(got, wanted))
    }

    pub fn turn(&mut self, budget: u64) -> Given<Turned> {
        let got = pulxarrid::turn(&mut self.pair.first, &mut self.memory, budget);
        let wanted = peers_turn(&mut self.states[0], &mut self.peers, budget);
        told(self.agreed(got, wanted))
    }

    pub fn run(&mut self, budget: u64) -> Given<Ran> {
        told(self.try_run(budget))
    }

    /// A run; the error says what differs first.
    fn try_run(&mut self, budget: u64) -> Result<Given<Ran>, String> {
        let got = pulxarrid::run(&mut self.pair.first, &mut self.memory, budget);
        let wanted = peer::run(&mut self.states[0], &mut self.peers, budget);
        self.agreed(got, wanted.map(ran_of))
    }

    pub fn pair_run(&mut self, schedule: &[u8]) -> Given<PairRan> {
        let [x, y] = &mut self.states[..] else {
            panic!("a pair is two");
        };
        let got = pulxarrid::pair_run(&mut self.pair, &mut self.memory, schedule);
        let wanted = peer::pair_run(x, y, &mut self.peers, schedule);
        let wanted = wanted.map(|r| PairRan {
            last: r.last.map(answer_of),
            steps: r.steps,
            outside: r.outside.map(outside_of),
        });
        told(self.agreed(got, wanted))
    }

    /// What both gave; the error says what differs first.
    fn agreed<T: PartialEq + Debug>(
        &self,
        got: Result<T, Refused>,
        wanted: Given<T>,
    ) -> Result<Given<T>, String> {
        let got = got.map_err(number);
        if got != wanted {
            return Err(format!(
                "the library gives {got:?}, the independent program {wanted:?}"
            ));
        }
        self.same_processors()?;
        if self.each {
            self.same_memory()?;
        }
        Ok(got)
    }

    /// Fails unless all processors and all of memory are the same.
    pub fn same(&self) {
        told(self.same_processors().and_then(|()| self.same_memory()));
    }

    fn same_processors(&self) -> Result<(), String> {
        let got = [&self.pair.first, &self.pair.second];
        for (n, got) in got.into_iter().enumerate() {
            match self.states.get(n) {
                Some(state) if is_same(got, state) => {}
                None if *got.words() == [0; pulxarrid::STATE_WORDS] => {}
                Some(state) => {
                    let what = difference(got, &words_of(state));
                    return Err(format!("processor {n}: {what}"));
                }
                None => return Err("a run of one processor changes another".to_string()),
            }
        }
        Ok(())
    }

    fn same_memory(&self) -> Result<(), String> {
        if self.memory == self.peers {
            return Ok(());
        }
        let differ = |n: &usize| self.memory[*n] != self.peers[*n];
        let n = (0..self.peers.len()).find(differ).unwrap_or_default();
        Err(format!(
            "word {n:04X} is {:016X} by the library, {:016X} by the independent program",
            self.memory[n], self.peers[n]
        ))
    }
}

/// What a call of both gave; a difference is a test that fails.
#[track_caller]
fn told<T>(agreed: Result<T, String>) -> T {
    agreed.unwrap_or_else(|what| panic!("{what}"))
}

/// A processor started by both, as the independent program has it.
pub fn start(memory: &[u64], package: u64, processor: u32) -> Given<peer::State> {
    told(try_start(memory, package, processor)).map(|(_, state)| state)
}

/// A start; the error says what differs first.
fn try_start(
    memory: &[u64],
    package: u64,
    processor: u32,
) -> Result<Given<(State, peer::State)>, String> {
    let got = pulxarrid::start(memory, package, processor.into());
    let wanted = peer::start(memory, package, processor);
    match (got.map_err(number), wanted) {
        (Ok(got), Ok(wanted)) if is_same(&got, &wanted) => Ok(Ok((got, wanted))),
        (Ok(got), Ok(wanted)) => Err(difference(&got, &words_of(&wanted))),
        (Err(got), Err(wanted)) if got == wanted => Ok(Err(got)),
        (got, wanted) => Err(format!(
            "a start: {:?} by the library, {:?} by the independent program",
            got.err(),
            wanted.err()
        )),
    }
}

/// One processor or two for the library; without a second, it has no number in it.
fn pair_of(states: &[peer::State]) -> Pair {
    let empty = || State::from_words([0; pulxarrid::STATE_WORDS]);
    Pair {
        first: words_of(&states[0]),
        second: states.get(1).map_or_else(empty, words_of),
    }
}

/// What was told of operands outside, as numbers to count by.
pub fn cause_of(outside: Option<Outside>) -> usize {
    match outside {
        None => 0,
        Some(Outside::BelowBase(_)) => 1,
        Some(Outside::OverLimit(_)) => 2,
        Some(Outside::BeyondMemory(_)) => 3,
    }
}

/// The six ways in which a turn or a pair run may end, as numbers to count by.
pub fn way_of(last: Given<Option<Answer>>) -> usize {
    match last {
        Ok(None) => 0,
        Ok(Some(Answer::Stepped)) => 1,
        Ok(Some(Answer::Exchanged(_))) => 2,
        Ok(Some(Answer::NotHeld(_))) => 3,
        Ok(Some(Answer::MonitorFetch(_))) => 4,
        Err(_) => 5,
    }
}

fn number(refused: Refused) -> u8 {
    refused as u8
}

fn ran_of(ended: peer::Ended) -> Ran {
    let ending = match ended.stop {
        peer::Stop::Budget => Ending::Budget,
        peer::Stop::NotHeld(p) => Ending::NotHeld(p),
        peer::Stop::MonitorFetch(p) => Ending::MonitorFetch(p),
    };
    Ran {
        ending,
        steps: ended.steps,
        outside: outside_of(ended.outside),
    }
}

/// The independent program has no turns: they are made of its steps.
fn peers_turn(state: &mut peer::State, memory: &mut [u64], budget: u64) -> Given<Turned> {
    // a turn is refused as a run is, even where it would take no step
    let none = if budget > 1_000_000 { budget } else { 0 };
    peer::run(state, memory, none)?;
    let (mut last, mut steps, mut outside) = (None, 0, None);
    for _ in 0..budget {
        let step = peer::step(state, memory)?;
        let answer = answer_of(step.answer);
        last = Some(answer);
        steps += u64::from(matches!(answer, Answer::Stepped | Answer::Exchanged(_)));
        outside = step.outside.or(outside);
        if answer != Answer::Stepped {
            break;
        }
    }
    Ok(Turned {
        last,
        steps,
        outside: outside_of(outside),
    })
}
