//! A run: launch, resume, the refusals 1 to 11, and the steps until it ends, stops or faults.

use crate::blocks;
use crate::refusal::{Refusal, refuse};
use crate::state::{State, first_lanes};
use crate::step::{self, Faults, Kernel, Lent};

/// The largest step budget.
pub const LARGEST_BUDGET: u32 = 1_000_000_000;
/// The longest code, in words.
pub const LONGEST_CODE: usize = 65_536;
/// The most registers of a lane.
pub const MOST_REGISTERS: u32 = 256;

/// The settings of a run.
#[derive(Clone, Copy, Debug, PartialEq, Eq)]
pub struct Settings {
    pub width: u32,
    /// R, the registers of each lane.
    pub registers: u32,
    /// n, the launched lanes.
    pub lanes: u32,
    pub budget: u32,
}

/// How a run ended.
#[derive(Clone, Copy, Debug, PartialEq, Eq)]
pub enum Outcome {
    Ended,
    OutOfBudget,
    Fault(Faults),
    Refused(Refusal),
}

/// What a run answers.
#[derive(Clone, Debug, PartialEq, Eq)]
pub struct Answer {
    pub outcome: Outcome,
    pub steps: u32,
    pub state: State,
}

/// Runs from a launch (no state) or goes on with a handed-in state.
/// A launch that isn't refused fills local memory with zeros. A refusal changes nothing lent.
pub fn run(settings: Settings, code: &[u32], state: Option<&State>, lent: &mut Lent) -> Answer {
    run_watched(settings, code, state, lent, &mut |_, _| ())
}

/// The same, showing `watch` the state and the registers before each instruction, a faulting one too.
pub fn run_watched(
    settings: Settings,
    code: &[u32],
    state: Option<&State>,
    lent: &mut Lent,
    watch: &mut impl FnMut(&State, &[u32]),
) -> Answer {
    if let Err(refusal) = check(settings, code, state, lent.registers.len()) {
        return Answer {
            outcome: Outcome::Refused(refusal),
            steps: 0,
            state: state.cloned().unwrap_or_default(),
        };
    }
    let first = match state {
        Some(handed_in) => handed_in.clone(),
        None => {
            lent.local.fill(0);
            State::launched(settings.lanes)
        }
    };
    go(settings, code, first, lent, watch)
}

/// Tests 1 to 3, then 4 to 10, then 11.
pub fn check(
    settings: Settings,
    code: &[u32],
    state: Option<&State>,
    register_words: usize,
) -> Result<(), Refusal> {
    if !settings_allowed(settings) {
        return refuse(1, 0);
    }
    if code.len() > LONGEST_CODE {
        return refuse(2, 0);
    }
    if register_words != (settings.width * settings.registers) as usize {
        return refuse(3, 0);
    }
    blocks::check(code, settings.registers)?;
    match state.and_then(|state| state.misfit(code, settings.lanes)) {
        Some(_) => refuse(11, 0),
        None => Ok(()),
    }
}

/// Whether width, registers, lanes and budget are allowed.
fn settings_allowed(settings: Settings) -> bool {
    matches!(settings.width, 8 | 16 | 32)
        && (1..=MOST_REGISTERS).contains(&settings.registers)
        && (1..=settings.width).contains(&settings.lanes)
        && settings.budget <= LARGEST_BUDGET
}

/// Steps until the run has ended, has no budget left, or faults.
fn go(
    settings: Settings,
    code: &[u32],
    mut state: State,
    lent: &mut Lent,
    watch: &mut impl FnMut(&State, &[u32]),
) -> Answer {
    let kernel = Kernel {
        code,
        registers: settings.registers,
        launched: first_lanes(settings.lanes),
    };
    let mut steps = 0;
    let outcome = loop {
        if state.place as usize == code.len() || state.halted == kernel.launched {
            break Outcome::Ended;
        }
        if steps == settings.budget {
            break Outcome::OutOfBudget;
        }
        watch(&state, lent.registers);
        match step::step(&kernel, &mut state, lent) {
            Ok(()) => steps += 1,
            Err(faults) => break Outcome::Fault(faults),
        }
    };
    Answer {
        outcome,
        steps,
        state,
    }
}
