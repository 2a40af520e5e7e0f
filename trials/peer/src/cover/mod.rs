//! Counts the sheets that would show a mistake, cell by cell.
//!
//! Each sheet is run step by step. What there is to see at a step is looked at
//! (`sights`): the cells it belongs to, and for most of them rivals, which are
//! what the step would leave if one thing were otherwise. A sheet reaches a
//! cell if each of the rivals, run on to the end, gives another answer than
//! the sheet has. Addresses are worked out here anew and judged by the field
//! rule word for word.

mod cells;
mod rivals;
mod sights;
mod told;

use crate::machine::{run, start, Answer, Ended, Stop};
use crate::sheet::{memory, read};
use crate::state::State;
use cells::{Cell, End};
use rivals::{Rival, Scene};
use sights::{found, Found, Sight, Stores};
use std::collections::{HashMap, HashSet};
use std::io::{self, Write};

/// Each cell is to be reached by so many sheets.
pub const LEAST: u32 = 3;
/// The steps of a sheet that are looked at.
const MOST: u64 = 4_000;

#[derive(Default)]
pub struct Cover {
    sheets: u64,
    refused: u64,
    steps: u64,
    reached: HashMap<Cell, u32>,
    /// First parcels tried, in user and in monitor mode.
    parcels: [HashSet<u16>; 2],
}

/// What the answer to a sheet shows: no B, T or V register, nor VM.
#[derive(PartialEq)]
struct Shown {
    ended: Ended,
    state: State,
    memory: Vec<u64>,
}

/// The end of a sheet of which `done` steps are taken and `left` are not.
fn shown(mut scene: Scene, done: u64, left: u64) -> Shown {
    // The budget is in range, and steps keep numbers as wide as registers.
    let ended = run(&mut scene.state, &mut scene.memory, left);
    let mut ended = ended.unwrap_or(Ended {
        stop: Stop::Budget,
        outside: None,
        steps: 0,
    });
    ended.steps += done;
    ended.outside = ended.outside.or(scene.outside);
    let Scene {
        mut state, memory, ..
    } = scene;
    let hidden = State::clear(0);
    (state.b, state.t, state.v, state.vm) = (hidden.b, hidden.t, hidden.v, hidden.vm);
    Shown {
        ended,
        state,
        memory,
    }
}

/// A sheet that is being looked at.
struct Watch {
    truth: Shown,
    budget: u64,
    done: u64,
    reached: HashSet<Cell>,
}

impl Watch {
    /// Counts a cell if each rival of the step gives another answer.
    fn look(&mut self, before: &Scene, after: &Scene, first: u16, (cell, rivals): Sight) {
        if self.reached.contains(&cell) {
            return;
        }
        let differs = |rival: &Rival| match before.clone().rival(rival, first) {
            None => false,
            Some((scene, Answer::Stepped | Answer::Exchanged(_))) => {
                let left = self.budget - self.done - 1;
                scene != *after && shown(scene, self.done + 1, left) != self.truth
            }
            // The rival stops here, where the sheet did not or tells otherwise.
            Some((scene, _)) => scene != *after,
        };
        if rivals.iter().all(differs) {
            self.reached.insert(cell);
        }
    }
}

impl Cover {
    /// Runs one sheet and counts the cells that it reaches.
    pub fn sheet(&mut self, text: &[u8]) {
        self.sheets += 1;
        let Ok(sheet) = read(text) else {
            self.refused += 1;
            return;
        };
        let memory = memory(&sheet);
        let Ok(state) = start(&memory, 0, 0) else {
            return;
        };
        let scene = Scene {
            state,
            memory,
            outside: None,
        };
        let budget = sheet.steps.min(MOST);
        let mut watch = Watch {
            truth: shown(scene.clone(), 0, budget),
            budget,
            done: 0,
            reached: HashSet::new(),
        };
        self.steps(&mut watch, scene);
        for cell in watch.reached {
            *self.reached.entry(cell).or_default() += 1;
        }
    }

    fn steps(&mut self, watch: &mut Watch, mut scene: Scene) {
        let mut stores = Stores::default();
        while watch.done < watch.budget {
            let before = scene.clone();
            let found = found(&before);
            let answer = scene.step();
            let (first, mut sights) = found.sights(&before);
            if let Found::Instruction(_, first, _) | Found::NotHeld(first) = found {
                self.parcels[usize::from(before.state.mm)].insert(first);
            }
            sights.extend(told::sights(&found, &before, answer));
            sights.extend(stores.sights(&before, answer));
            for sight in sights {
                watch.look(&before, &scene, first, sight);
            }
            if let Answer::NotHeld(_) | Answer::MonitorFetch(_) = answer {
                break;
            }
            stores.note(&found, &before, &scene, answer);
            self.steps += 1;
            watch.done += 1;
        }
        watch
            .reached
            .insert(Cell::End(match watch.truth.ended.stop {
                Stop::Budget => End::Budget,
                Stop::NotHeld(_) => End::NotHeld,
                Stop::MonitorFetch(_) => End::MonitorFetch,
            }));
    }

    /// Whether a first parcel was tried in a mode.
    pub fn tried(&self, parcel: u16, monitor: bool) -> bool {
        self.parcels[usize::from(monitor)].contains(&parcel)
    }

    /// The cells that too few sheets reach, each after its count.
    pub fn missing(&self) -> Vec<String> {
        let count = |cell: &Cell| *self.reached.get(cell).unwrap_or(&0);
        let few = cells::all().into_iter().filter(|cell| count(cell) < LEAST);
        few.map(|cell| format!("{} {cell}", count(&cell))).collect()
    }

    /// Writes how many sheets reach each cell, and what they are.
    pub fn print(&self, out: &mut impl Write) -> io::Result<()> {
        for cell in cells::all() {
            let count = self.reached.get(&cell).unwrap_or(&0);
            writeln!(out, "{count:6} {cell}")?;
        }
        let [user, monitor] = &self.parcels;
        let (user, monitor) = (user.len(), monitor.len());
        writeln!(
            out,
            "first parcels: {user} in user, {monitor} in monitor mode"
        )?;
        let (sheets, refused, steps) = (self.sheets, self.refused, self.steps);
        writeln!(
            out,
            "{sheets} sheets, {refused} of them refused, {steps} steps"
        )
    }

    /// Adds what others counted.
    pub fn add(&mut self, other: Cover) {
        self.sheets += other.sheets;
        self.refused += other.refused;
        self.steps += other.steps;
        for (cell, count) in other.reached {
            *self.reached.entry(cell).or_default() += count;
        }
        for (own, more) in self.parcels.iter_mut().zip(other.parcels) {
            own.extend(more);
        }
    }
}
