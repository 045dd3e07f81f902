//! One step: the faults of an instruction, and what it does where there are none.

use crate::arithmetic;
use crate::control;
use crate::operations::{Form, Operation};
use crate::state::{Lanes, State, each_lane};
use crate::wave;
use crate::words::{self, Instruction};

/// What a run is lent and may change.
pub struct Lent<'a> {
    /// Register r of lane i stands at i times R plus r.
    pub registers: &'a mut [u32],
    pub device: &'a mut [u32],
    pub local: &'a mut [u32],
}

/// The lanes of each fault kind, kinds 1 to 6 in order.
pub type Faults = [Lanes; 6];

/// The code and the settings that a step needs.
#[derive(Clone, Copy)]
pub struct Kernel<'a> {
    pub code: &'a [u32],
    /// R, the registers of each lane.
    pub registers: u32,
    pub launched: Lanes,
}

/// Carries out the instruction at the state's place.
/// Where it faults, everything is as before and the lanes of each kind are given back.
pub fn step(kernel: &Kernel, state: &mut State, lent: &mut Lent) -> Result<(), Faults> {
    let instruction = words::instruction_at(kernel.code, state.place as usize);
    let executing = executing_lanes(&instruction, state);
    let faults = faults(&instruction, executing, kernel, state, lent);
    if faults != Faults::default() {
        return Err(faults);
    }
    if instruction.operation.form() == Form::Control {
        control::carry_out(instruction.operation, executing, state);
    } else {
        compute(&instruction, executing, kernel, state, lent);
        state.place += instruction.operation.words() as u32;
    }
    Ok(())
}

/// The active lanes whose predicate agrees.
pub fn executing_lanes(instruction: &Instruction, state: &State) -> Lanes {
    let agreeing = match (instruction.predicate, instruction.negate) {
        (0, _) => !0,
        (p, false) => state.predicates[p as usize - 1],
        (p, true) => !state.predicates[p as usize - 1],
    };
    state.active & agreeing
}

/// Where register r of a lane stands.
fn place_of(kernel: &Kernel, lane: usize, register: u32) -> usize {
    lane * kernel.registers as usize + register as usize
}

/// The address that a lane uses: the base plus the offset, which atomics don't have. It may reach 2^32.
fn address(instruction: &Instruction, base: u32) -> u64 {
    match instruction.operation.form() {
        Form::Memory => u64::from(base) + u64::from(instruction.number),
        _ => u64::from(base),
    }
}

/// The faults of an instruction, kind by kind and lane by lane.
fn faults(
    instruction: &Instruction,
    executing: Lanes,
    kernel: &Kernel,
    state: &State,
    lent: &Lent,
) -> Faults {
    let operation = instruction.operation;
    let apart = kernel.launched & !state.halted & !state.active != 0;
    let mut faults = Faults::default();
    match operation.form() {
        Form::Memory | Form::Atomic | Form::CompareAndSwap => {
            for lane in each_lane(executing) {
                let base = lent.registers[place_of(kernel, lane, instruction.rs1)];
                if let Some(kind) = address_fault(address(instruction, base), operation, lent) {
                    faults[kind - 1] |= 1 << lane;
                }
            }
        }
        Form::TwoSources if arithmetic::divides(operation) => {
            for lane in each_lane(executing) {
                let divisor = lent.registers[place_of(kernel, lane, instruction.rs2)];
                faults[3] |= u32::from(divisor == 0) << lane;
            }
        }
        Form::Control if operation == Operation::Barrier && apart => faults[4] = executing,
        _ => (),
    }
    faults
}

/// The fault kind of an address: 6 it reaches 2^32, or else 1 not a multiple of 4, 2 past device memory,
/// 3 past local memory.
fn address_fault(address: u64, operation: Operation, lent: &Lent) -> Option<usize> {
    let (words, kind) = match operation {
        Operation::LocalLoad | Operation::LocalStore => (lent.local.len(), 3),
        _ => (lent.device.len(), 2),
    };
    if address >= 1 << 32 {
        Some(6)
    } else if address % 4 != 0 {
        Some(1)
    } else if address / 4 >= words as u64 {
        Some(kind)
    } else {
        None
    }
}

/// Works out the results of all executing lanes, and then writes them.
fn compute(
    instruction: &Instruction,
    executing: Lanes,
    kernel: &Kernel,
    state: &mut State,
    lent: &mut Lent,
) {
    let results = match instruction.operation.form() {
        Form::Wave | Form::Shuffle => wave::results(instruction, |register| {
            executing_words(register, executing, kernel, lent)
        }),
        _ => lane_results(instruction, executing, kernel, lent),
    };
    if instruction.operation.form() == Form::Comparison {
        let predicate = &mut state.predicates[instruction.rd as usize - 1];
        for lane in each_lane(executing) {
            *predicate = *predicate & !(1 << lane) | results[lane] << lane;
        }
    } else if !matches!(
        instruction.operation,
        Operation::Store | Operation::LocalStore
    ) {
        for lane in each_lane(executing) {
            lent.registers[place_of(kernel, lane, instruction.rd)] = results[lane];
        }
    }
}

/// A register of each executing lane.
fn executing_words(register: u32, executing: Lanes, kernel: &Kernel, lent: &Lent) -> wave::Words {
    let mut words = [None; 32];
    for lane in each_lane(executing) {
        words[lane] = Some(lent.registers[place_of(kernel, lane, register)]);
    }
    words
}

/// What each executing lane gets by its own registers, in rising order.
fn lane_results(
    instruction: &Instruction,
    executing: Lanes,
    kernel: &Kernel,
    lent: &mut Lent,
) -> [u32; 32] {
    let mut results = [0; 32];
    for lane in each_lane(executing) {
        results[lane] = lane_result(instruction, lane, kernel, lent);
    }
    results
}

/// What one lane's register or predicate bit gets. A store or atomic changes its word of memory.
fn lane_result(instruction: &Instruction, lane: usize, kernel: &Kernel, lent: &mut Lent) -> u32 {
    let operation = instruction.operation;
    let register = |r: u32| lent.registers[place_of(kernel, lane, r)];
    match operation.form() {
        Form::TwoSources => arithmetic::two_sources(
            operation,
            register(instruction.rs1),
            register(instruction.rs2),
        ),
        Form::Comparison => u32::from(arithmetic::compare(
            operation,
            register(instruction.rs1),
            register(instruction.rs2),
        )),
        Form::OneSource => arithmetic::one_source(operation, register(instruction.rs1)),
        Form::Special => arithmetic::special(instruction.rs1, lane as u32),
        Form::Immediate => instruction.number,
        Form::Memory | Form::Atomic | Form::CompareAndSwap => {
            access(instruction, lane, kernel, lent)
        }
        Form::Wave | Form::Shuffle | Form::Control => {
            unreachable!("{} isn't carried out lane by lane", operation.name())
        }
    }
}

/// Reads a lane's word of memory, and changes it for a store or an atomic. Answers the old word.
fn access(instruction: &Instruction, lane: usize, kernel: &Kernel, lent: &mut Lent) -> u32 {
    let register = |r: u32| lent.registers[place_of(kernel, lane, r)];
    let word = address(instruction, register(instruction.rs1)) as usize / 4;
    let memory = match instruction.operation {
        Operation::LocalLoad | Operation::LocalStore => &mut lent.local[word],
        _ => &mut lent.device[word],
    };
    let old = *memory;
    match instruction.operation {
        Operation::Load | Operation::LocalLoad => (),
        Operation::Store | Operation::LocalStore => *memory = register(instruction.rd),
        Operation::Cas => {
            if old == register(instruction.rs2) {
                *memory = register(instruction.rs3);
            }
        }
        operation => *memory = arithmetic::atomic(operation, old, register(instruction.rs2)),
    }
    old
}
