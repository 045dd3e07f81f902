//! An interpreter that reads each instruction once, before the run, and chooses what to do with all lanes
//! by one match on the operation. It takes captures that are not refused.

use crate::arithmetic;
use crate::capture::Capture;
use crate::control;
use crate::operations::{Form, Operation};
use crate::run::{Answer, Outcome};
use crate::state::{Lanes, State, first_lanes};
use crate::step::{self, Faults};
use crate::words::{self, Instruction};

/// The run of a launch, as `Capture::run` gives it.
pub fn run(capture: &mut Capture) -> Answer {
    let code = decode(&capture.code);
    capture.local.fill(0);
    let launched = first_lanes(capture.settings.lanes);
    let mut state = State::launched(capture.settings.lanes);
    let mut wave = Wave {
        each: capture.settings.registers as usize,
        launched,
        registers: &mut capture.registers,
        device: &mut capture.device,
        local: &mut capture.local,
    };
    let mut steps = 0;
    let outcome = loop {
        if state.place as usize == code.len() || state.halted == launched {
            break Outcome::Ended;
        }
        if steps == capture.settings.budget {
            break Outcome::OutOfBudget;
        }
        let instruction = &code[state.place as usize];
        match wave.step(instruction, &mut state) {
            Ok(()) => steps += 1,
            Err(faults) => break Outcome::Fault(faults),
        }
    };
    Answer {
        outcome,
        steps,
        state,
    }
}

/// The instruction at each place; at a second word, its own again.
fn decode(code: &[u32]) -> Vec<Instruction> {
    let mut decoded = Vec::new();
    while decoded.len() < code.len() {
        let instruction = words::instruction_at(code, decoded.len());
        for _ in 0..instruction.operation.words() {
            decoded.push(instruction);
        }
    }
    decoded
}

/// The buffers of a run.
struct Wave<'a> {
    /// The registers of each lane.
    each: usize,
    launched: Lanes,
    registers: &'a mut [u32],
    device: &'a mut [u32],
    local: &'a mut [u32],
}

/// Calls with each operation as a constant, so that each has a loop of its own.
macro_rules! by_operation {
    ($operation:expr, $call:expr, [$($name:ident)*]) => {
        match $operation {
            $(Operation::$name => $call(Operation::$name),)*
            _ => unreachable!("an operation of another form"),
        }
    };
}

impl Wave<'_> {
    /// One step, as `step::step` makes it.
    fn step(&mut self, i: &Instruction, state: &mut State) -> Result<(), Faults> {
        let executing = step::executing_lanes(i, state);
        match i.operation.form() {
            Form::Control => return self.control(i.operation, executing, state),
            Form::TwoSources => self.two_sources(i, executing)?,
            Form::Comparison => self.compare(i, executing, state),
            Form::OneSource => self.one_source(i, executing),
            Form::Special => self.write(i, executing, |_, lane| {
                arithmetic::special(i.rs1, lane as u32)
            }),
            Form::Immediate => self.write(i, executing, |_, _| i.number),
            Form::Memory => self.memory(i, executing)?,
            Form::Atomic | Form::CompareAndSwap => self.atomic(i, executing)?,
            Form::Wave => self.wave(i, executing),
            Form::Shuffle => self.shuffle(i, executing),
        }
        state.place += i.operation.words() as u32;
        Ok(())
    }

    fn control(&self, operation: Operation, t: Lanes, state: &mut State) -> Result<(), Faults> {
        let waiting = self.launched & !state.halted & !state.active;
        if operation == Operation::Barrier && t != 0 && waiting != 0 {
            return Err([0, 0, 0, 0, t, 0]);
        }
        control::carry_out(operation, t, state);
        Ok(())
    }

    /// Calls with each lane of a set of launched lanes, rising.
    #[inline(always)]
    fn each(launched: Lanes, lanes: Lanes, mut call: impl FnMut(usize)) {
        for lane in 0..launched.count_ones() as usize {
            if lanes >> lane & 1 == 1 {
                call(lane);
            }
        }
    }

    /// Writes each lane's RD, worked out from its own registers.
    #[inline(always)]
    fn write(&mut self, i: &Instruction, lanes: Lanes, result: impl Fn(&[u32], usize) -> u32) {
        let (rd, each) = (i.rd as usize, self.each);
        Self::each(self.launched, lanes, |lane| {
            let own = &mut self.registers[lane * each..][..each];
            own[rd] = result(own, lane);
        });
    }

    /// The lanes for which something of their own registers holds.
    #[inline(always)]
    fn lanes_where(&self, lanes: Lanes, holds: impl Fn(&[u32]) -> bool) -> Lanes {
        let mut found = 0;
        Self::each(self.launched, lanes, |lane| {
            let own = &self.registers[lane * self.each..][..self.each];
            found |= u32::from(holds(own)) << lane;
        });
        found
    }

    fn two_sources(&mut self, i: &Instruction, t: Lanes) -> Result<(), Faults> {
        let (a, b) = (i.rs1 as usize, i.rs2 as usize);
        if arithmetic::divides(i.operation) {
            let zero = self.lanes_where(t, |own| own[b] == 0);
            if zero != 0 {
                return Err([0, 0, 0, zero, 0, 0]);
            }
        }
        by_operation!(
            i.operation,
            |operation| self.write(i, t, |own, _| arithmetic::two_sources(
                operation, own[a], own[b]
            )),
            [Add Sub Mul Div Udiv Rem Urem Min Max Mulhi And Or Xor Shl Shr Sar]
        );
        Ok(())
    }

    fn compare(&mut self, i: &Instruction, t: Lanes, state: &mut State) {
        let (a, b) = (i.rs1 as usize, i.rs2 as usize);
        let found = by_operation!(
            i.operation,
            |operation| self.lanes_where(t, |own| arithmetic::compare(operation, own[a], own[b])),
            [Eq Ne Lt Ge]
        );
        let predicate = &mut state.predicates[i.rd as usize - 1];
        *predicate = *predicate & !t | found;
    }

    fn one_source(&mut self, i: &Instruction, t: Lanes) {
        let a = i.rs1 as usize;
        by_operation!(
            i.operation,
            |operation| self.write(i, t, |own, _| arithmetic::one_source(operation, own[a])),
            [Neg Abs Not Popcnt Mov]
        );
    }

    /// The faults of addresses in a memory of so many words; `past` is the kind of one past it.
    #[inline(always)]
    fn address_faults(
        &self,
        i: &Instruction,
        t: Lanes,
        words: usize,
        past: usize,
    ) -> Result<(), Faults> {
        let (base, each) = (i.rs1 as usize, self.each);
        let mut wrong = false;
        Self::each(self.launched, t, |lane| {
            let (address, over) = self.registers[lane * each + base].overflowing_add(i.number);
            wrong |= over || address % 4 != 0 || address as usize / 4 >= words;
        });
        match wrong {
            false => Ok(()),
            true => Err(self.kinds(i, t, words, past)),
        }
    }

    /// The lanes of each fault kind of addresses, some of which fault.
    #[cold]
    fn kinds(&self, i: &Instruction, t: Lanes, words: usize, past: usize) -> Faults {
        let sum = |own: &[u32]| own[i.rs1 as usize].overflowing_add(i.number);
        let over = self.lanes_where(t, |own| sum(own).1);
        let odd = self.lanes_where(t & !over, |own| sum(own).0 % 4 != 0);
        let rest = t & !over & !odd;
        let mut faults = [odd, 0, 0, 0, 0, over];
        faults[past - 1] = self.lanes_where(rest, |own| sum(own).0 as usize / 4 >= words);
        faults
    }

    fn memory(&mut self, i: &Instruction, t: Lanes) -> Result<(), Faults> {
        match i.operation {
            Operation::Load | Operation::Store => {
                self.address_faults(i, t, self.device.len(), 2)?;
            }
            _ => self.address_faults(i, t, self.local.len(), 3)?,
        }
        let rd = i.rd as usize;
        match i.operation {
            Operation::Load => self.access(i, t, false, |own, word| own[rd] = *word),
            Operation::Store => self.access(i, t, false, |own, word| *word = own[rd]),
            Operation::LocalLoad => self.access(i, t, true, |own, word| own[rd] = *word),
            _ => self.access(i, t, true, |own, word| *word = own[rd]),
        }
        Ok(())
    }

    /// Calls with each lane's own registers and its word of memory.
    #[inline(always)]
    fn access(
        &mut self,
        i: &Instruction,
        t: Lanes,
        local: bool,
        mut call: impl FnMut(&mut [u32], &mut u32),
    ) {
        let (base, each) = (i.rs1 as usize, self.each);
        let memory = if local {
            &mut *self.local
        } else {
            &mut *self.device
        };
        Self::each(self.launched, t, |lane| {
            let own = &mut self.registers[lane * each..][..each];
            let address = own[base].wrapping_add(i.number);
            call(own, &mut memory[address as usize / 4]);
        });
    }

    fn atomic(&mut self, i: &Instruction, t: Lanes) -> Result<(), Faults> {
        self.address_faults(i, t, self.device.len(), 2)?;
        let [rd, b, c] = [i.rd, i.rs2, i.rs3].map(|register| register as usize);
        if i.operation == Operation::Cas {
            self.access(i, t, false, |own, word| {
                let old = *word;
                *word = if old == own[b] { own[c] } else { old };
                own[rd] = old;
            });
            return Ok(());
        }
        by_operation!(
            i.operation,
            |operation| self.access(i, t, false, |own, word| {
                let old = *word;
                *word = arithmetic::atomic(operation, old, own[b]);
                own[rd] = old;
            }),
            [AtomicAdd AtomicSub AtomicAnd AtomicOr AtomicXor AtomicMin AtomicMax AtomicUmin
             AtomicUmax AtomicXchg]
        );
        Ok(())
    }

    fn wave(&mut self, i: &Instruction, t: Lanes) {
        use Operation::*;
        let a = i.rs1 as usize;
        let not_zero = |own: &[u32]| own[a] != 0;
        let least = |a, b| arithmetic::two_sources(Min, a, b);
        let largest = |a, b| arithmetic::two_sources(Max, a, b);
        let result = match i.operation {
            PrefixSum => return self.prefix_sums(i, t),
            Broadcast => self.word_of(0, a, t),
            ReduceAdd => self.reduce(a, t, 0, u32::wrapping_add),
            ReduceMin => self.reduce(a, t, i32::MAX as u32, least),
            ReduceMax => self.reduce(a, t, i32::MIN as u32, largest),
            Ballot => self.lanes_where(t, not_zero),
            Any => u32::from(self.lanes_where(t, not_zero) != 0),
            _ => u32::from(self.lanes_where(t, not_zero) == t),
        };
        self.write(i, t, |_, _| result);
    }

    /// A register of a lane; 0 where the lane isn't executing or doesn't exist.
    #[inline(always)]
    fn word_of(&self, lane: u32, register: usize, t: Lanes) -> u32 {
        match t.checked_shr(lane) {
            Some(from) if from & 1 == 1 => self.registers[lane as usize * self.each + register],
            _ => 0,
        }
    }

    /// A register of all executing lanes, put together from a start.
    #[inline(always)]
    fn reduce(
        &self,
        register: usize,
        t: Lanes,
        start: u32,
        together: impl Fn(u32, u32) -> u32,
    ) -> u32 {
        let mut found = start;
        Self::each(self.launched, t, |lane| {
            found = together(found, self.registers[lane * self.each + register]);
        });
        found
    }

    fn prefix_sums(&mut self, i: &Instruction, t: Lanes) {
        let (a, rd, each) = (i.rs1 as usize, i.rd as usize, self.each);
        let mut below = 0u32;
        Self::each(self.launched, t, |lane| {
            let own = &mut self.registers[lane * each..][..each];
            let word = own[a];
            own[rd] = below;
            below = below.wrapping_add(word);
        });
    }

    fn shuffle(&mut self, i: &Instruction, t: Lanes) {
        let [a, b] = [i.rs1, i.rs2].map(|register| register as usize);
        let mut results = [0; 32];
        Self::each(self.launched, t, |lane| {
            let from = self.registers[lane * self.each + b];
            results[lane] = self.word_of(from, a, t);
        });
        self.write(i, t, |_, lane| results[lane]);
    }
}
