//! Launches and resumed runs with a name each. What each answers is written by hand from the page, so that
//! it is copied from no program.

pub mod faults;
pub mod page;
pub mod refusals;
pub mod results;
pub mod shortcuts;
pub mod stopped;
pub mod top;
pub mod waves;

use super::Case;
use crate::capture::Capture;
use crate::refusal::Refusal;
use crate::run::{Answer, Outcome, Settings};
use crate::state::{Block, Lanes, State, first_lanes};
use crate::step::Faults;
use crate::text;

/// A run with a name, and what it answers and leaves in its buffers.
pub struct Named {
    pub name: String,
    pub capture: Capture,
    pub answer: Answer,
    pub registers: Vec<u32>,
    pub device: Vec<u32>,
    pub local: Vec<u32>,
    /// The numbers of a fault's body.
    pub body: Option<Vec<u32>>,
}

/// All of them, in the order of the page.
pub fn all() -> Vec<Named> {
    [
        page::cases(),
        results::cases(),
        waves::cases(),
        faults::cases(),
        top::cases(),
        shortcuts::cases(),
        refusals::cases(),
        stopped::cases(),
    ]
    .into_iter()
    .flatten()
    .collect()
}

/// A launch of kernel 7 with a budget of 1,000, registers of 0 and no memory. The lines are the code's.
fn launch(name: &str, width: u32, lanes: u32, registers: u32, lines: &str) -> Named {
    let code = text::code(lines).unwrap_or_else(|error| panic!("{name}: {error}"));
    let buffer = vec![0; (width * registers) as usize];
    Named {
        name: name.to_string(),
        capture: Capture {
            kernel: 7,
            settings: Settings {
                width,
                registers,
                lanes,
                budget: 1000,
            },
            code,
            registers: buffer.clone(),
            device: vec![],
            local: vec![],
            state: None,
        },
        answer: Answer {
            outcome: Outcome::Ended,
            steps: 0,
            state: State::default(),
        },
        registers: buffer,
        device: vec![],
        local: vec![],
        body: None,
    }
}

/// A state at a place, with p1 to p3 empty.
fn state(place: u32, active: Lanes, halted: Lanes, blocks: &[[u32; 6]]) -> State {
    State {
        place,
        active,
        halted,
        predicates: [0; 3],
        blocks: blocks.iter().copied().map(block).collect(),
    }
}

/// The block of the key's six numbers.
fn block([part, opener, entered, aside, again, left]: [u32; 6]) -> Block {
    Block {
        part,
        opener,
        entered,
        aside,
        again,
        left,
    }
}

/// What a run is lent.
impl Named {
    fn budget(mut self, budget: u32) -> Named {
        self.capture.settings.budget = budget;
        self
    }

    /// Register `register` of the lanes from 0 on.
    fn lent(mut self, register: usize, words: &[u32]) -> Named {
        let each = self.capture.settings.registers as usize;
        for (lane, word) in words.iter().enumerate() {
            self.capture.registers[lane * each + register] = *word;
        }
        self
    }

    fn device(mut self, words: &[u32]) -> Named {
        self.capture.device = words.to_vec();
        self
    }

    fn local(mut self, words: &[u32]) -> Named {
        self.capture.local = words.to_vec();
        self
    }

    /// The state that it goes on with.
    fn resumed(mut self, state: State) -> Named {
        self.capture.state = Some(state);
        self
    }
}

/// What a run answers; said after what it is lent.
impl Named {
    /// The run has ended. Unless more is said, the launched lanes are active, every other set is empty, no
    /// block is open, and the buffers are as lent, but for the local memory that a launch fills with 0.
    fn ends(mut self, steps: u32, place: u32) -> Named {
        self.answer = Answer {
            outcome: Outcome::Ended,
            steps,
            state: state(place, first_lanes(self.capture.settings.lanes), 0, &[]),
        };
        self.registers = self.capture.registers.clone();
        self.device = self.capture.device.clone();
        self.local = self.capture.local.clone();
        if self.capture.state.is_none() {
            self.local.fill(0);
        }
        self
    }

    /// The same, out of budget.
    fn stops(self, steps: u32, place: u32) -> Named {
        let mut stopped = self.ends(steps, place);
        stopped.answer.outcome = Outcome::OutOfBudget;
        stopped
    }

    /// The same, with the lanes of fault kinds 1 to 6, and the body's numbers.
    fn faults(self, steps: u32, place: u32, lanes: Faults, body: &[u32]) -> Named {
        let mut faulted = self.ends(steps, place);
        faulted.answer.outcome = Outcome::Fault(lanes);
        faulted.body = Some(body.to_vec());
        faulted
    }

    /// Refused: nothing lent changes, and the state is the one handed in.
    fn refused(mut self, number: u32, place: u32) -> Named {
        self.answer = Answer {
            outcome: Outcome::Refused(Refusal { number, place }),
            steps: 0,
            state: self.capture.state.clone().unwrap_or_default(),
        };
        self.registers = self.capture.registers.clone();
        self.device = self.capture.device.clone();
        self.local = self.capture.local.clone();
        self
    }

    fn active(mut self, lanes: Lanes) -> Named {
        self.answer.state.active = lanes;
        self
    }

    fn halted(mut self, lanes: Lanes) -> Named {
        self.answer.state.halted = lanes;
        self
    }

    /// p1, p2 and p3.
    fn predicates(mut self, lanes: [Lanes; 3]) -> Named {
        self.answer.state.predicates = lanes;
        self
    }

    /// Part, opener, entered, aside, again and left of each open block, outermost first.
    fn blocks(mut self, blocks: &[[u32; 6]]) -> Named {
        self.answer.state.blocks = blocks.iter().copied().map(block).collect();
        self
    }

    /// Register `register` of the lanes from 0 on, afterwards.
    fn register_after(mut self, register: usize, words: &[u32]) -> Named {
        let each = self.capture.settings.registers as usize;
        for (lane, word) in words.iter().enumerate() {
            self.registers[lane * each + register] = *word;
        }
        self
    }

    fn device_after(mut self, words: &[u32]) -> Named {
        self.device = words.to_vec();
        self
    }

    fn local_after(mut self, words: &[u32]) -> Named {
        self.local = words.to_vec();
        self
    }

    /// The run as a case, with room for one number more than the key has.
    pub fn case(&self) -> Case {
        let numbers = self.body.as_ref().map_or(0, |body| body.len() + 1);
        Case::Run {
            capture: self.capture.clone(),
            key_room: 4 * numbers,
        }
    }
}
