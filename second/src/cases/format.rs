//! Cases as numbers, and back.

use super::Case;
use crate::bytes;
use crate::capture::{self, Capture};
use crate::operations::Operation;
use crate::refusal::Refusal;
use crate::run::{Outcome, Settings};
use crate::state::State;
use crate::words::Instruction;

/// Bytes as numbers, with zero bytes up to a multiple of four.
pub fn padded(bytes: &[u8]) -> Vec<u32> {
    let mut whole = bytes.to_vec();
    whole.resize(bytes.len().next_multiple_of(4), 0);
    bytes::to_numbers(&whole)
}

/// An instruction's nine numbers.
pub fn instruction_numbers(i: &Instruction) -> [u32; 9] {
    [
        i.operation.number(),
        i.rd,
        i.rs1,
        i.rs2,
        i.rs3,
        i.number,
        i.scope,
        i.predicate,
        u32::from(i.negate),
    ]
}

/// An outcome's nine numbers.
pub fn outcome_numbers(outcome: &Outcome) -> [u32; 9] {
    match *outcome {
        Outcome::Ended => [0; 9],
        Outcome::OutOfBudget => [1, 0, 0, 0, 0, 0, 0, 0, 0],
        Outcome::Fault([k1, k2, k3, k4, k5, k6]) => [2, 0, 0, k1, k2, k3, k4, k5, k6],
        Outcome::Refused(refusal) => [3, refusal.number, refusal.place, 0, 0, 0, 0, 0, 0],
    }
}

impl Case {
    /// The number of its kind.
    pub fn kind(&self) -> u32 {
        match self {
            Case::Read { .. } => 1,
            Case::Write { .. } => 2,
            Case::Run { .. } => 3,
            Case::Key { .. } => 4,
            Case::Make { .. } => 5,
            Case::File { .. } => 6,
            Case::Listing { .. } => 7,
            Case::Text { .. } => 8,
        }
    }

    /// The numbers after kind and count.
    fn content(&self) -> Vec<u32> {
        let mut numbers = Vec::new();
        match self {
            Case::Read { words } => {
                numbers.push(words.len() as u32);
                numbers.extend(words);
            }
            Case::Write { instruction, room } | Case::Text { instruction, room } => {
                numbers.extend(instruction_numbers(instruction));
                numbers.push(*room as u32);
            }
            Case::Run { capture, key_room } => numbers.extend(run_numbers(capture, *key_room)),
            Case::Key {
                kernel,
                outcome,
                state,
                room,
            } => {
                numbers.extend([*kernel, *room as u32]);
                numbers.extend(outcome_numbers(outcome));
                numbers.extend(capture::state_words(state));
            }
            Case::Make { bodies, room } => {
                numbers.extend([bodies.len() as u32, *room as u32]);
                numbers.extend(padded(bodies));
            }
            Case::File { file, record } => {
                numbers.extend([*record, file.len() as u32]);
                numbers.extend(padded(file));
            }
            Case::Listing { file } => {
                numbers.push(file.len() as u32);
                numbers.extend(padded(file));
            }
        }
        numbers
    }

    /// The case's bytes.
    pub fn write(&self) -> Vec<u8> {
        let content = self.content();
        let mut numbers = vec![self.kind(), content.len() as u32];
        numbers.extend(content);
        bytes::from_numbers(&numbers)
    }
}

/// The numbers of a run.
fn run_numbers(capture: &Capture, key_room: usize) -> Vec<u32> {
    let s = capture.settings;
    let state = capture.state.as_ref().map(capture::state_words);
    let state = state.unwrap_or_default();
    let mut numbers = vec![capture.kernel, s.width, s.registers, s.lanes, s.budget];
    let sections = [
        &capture.code,
        &capture.registers,
        &capture.device,
        &capture.local,
        &state,
    ];
    numbers.extend(sections.map(|words| words.len() as u32));
    numbers.push(key_room as u32);
    numbers.extend(sections.into_iter().flatten());
    numbers
}

/// All cases of a file; an error says which case isn't one.
pub fn read_all(file: &[u8]) -> Result<Vec<Case>, String> {
    let numbers = bytes::to_numbers(file);
    let mut rest = &numbers[..];
    let mut cases = Vec::new();
    while !rest.is_empty() {
        let number = cases.len() + 1;
        let case = read_one(&mut rest).ok_or(format!("case {number} isn't of the format"))?;
        cases.push(case);
    }
    match file.len() % 4 {
        0 => Ok(cases),
        _ => Err("the file's length isn't a multiple of 4".to_string()),
    }
}

/// The case that the numbers begin with; they go on after it.
fn read_one(rest: &mut &[u32]) -> Option<Case> {
    let (&[kind, count], after) = rest.split_first_chunk()?;
    let (content, next) = after.split_at_checked(count as usize)?;
    *rest = next;
    let mut take = Take { rest: content };
    let case = match kind {
        1 => take.read()?,
        2 => take.write()?,
        3 => take.run()?,
        4 => take.key()?,
        5 => take.make()?,
        6 => take.file()?,
        7 => take.listing()?,
        8 => take.text()?,
        _ => return None,
    };
    take.rest.is_empty().then_some(case)
}

/// A case's numbers that are still to be read.
struct Take<'a> {
    rest: &'a [u32],
}

impl Take<'_> {
    fn number(&mut self) -> Option<u32> {
        self.numbers().map(|[number]| number)
    }

    fn numbers<const N: usize>(&mut self) -> Option<[u32; N]> {
        let (found, rest) = self.rest.split_first_chunk()?;
        self.rest = rest;
        Some(*found)
    }

    fn words(&mut self, count: usize) -> Option<Vec<u32>> {
        let (found, rest) = self.rest.split_at_checked(count)?;
        self.rest = rest;
        Some(found.to_vec())
    }

    fn bytes(&mut self, length: usize) -> Option<Vec<u8>> {
        let mut found = bytes::from_numbers(&self.words(length.div_ceil(4))?);
        found.truncate(length);
        Some(found)
    }

    fn instruction(&mut self) -> Option<Instruction> {
        let [
            operation,
            rd,
            rs1,
            rs2,
            rs3,
            number,
            scope,
            predicate,
            negate,
        ] = self.numbers()?;
        Some(Instruction {
            operation: Operation::with_number(operation)?,
            rd,
            rs1,
            rs2,
            rs3,
            number,
            scope,
            predicate,
            negate: negate == 1,
        })
    }

    fn outcome(&mut self) -> Option<Outcome> {
        let [outcome, number, place] = self.numbers()?;
        let faults = self.numbers()?;
        match outcome {
            0 => Some(Outcome::Ended),
            1 => Some(Outcome::OutOfBudget),
            2 => Some(Outcome::Fault(faults)),
            3 => Some(Outcome::Refused(Refusal { number, place })),
            _ => None,
        }
    }

    /// The state that is all of the rest; an empty rest has none.
    fn state(&mut self) -> Option<State> {
        let words = self.words(self.rest.len())?;
        capture::state_of(&words, 0).ok().flatten()
    }

    fn read(&mut self) -> Option<Case> {
        let count = self.number()? as usize;
        let words = self.words(count)?;
        Some(Case::Read { words })
    }

    fn write(&mut self) -> Option<Case> {
        let instruction = self.instruction()?;
        let room = self.number()? as usize;
        Some(Case::Write { instruction, room })
    }

    fn key(&mut self) -> Option<Case> {
        let [kernel, room] = self.numbers()?;
        Some(Case::Key {
            kernel,
            outcome: self.outcome()?,
            state: self.state()?,
            room: room as usize,
        })
    }

    fn make(&mut self) -> Option<Case> {
        let [length, room] = self.numbers()?;
        let bodies = self.bytes(length as usize)?;
        let room = room as usize;
        Some(Case::Make { bodies, room })
    }

    fn file(&mut self) -> Option<Case> {
        let [record, length] = self.numbers()?;
        let file = self.bytes(length as usize)?;
        Some(Case::File { file, record })
    }

    fn listing(&mut self) -> Option<Case> {
        let length = self.number()? as usize;
        let file = self.bytes(length)?;
        Some(Case::Listing { file })
    }

    fn text(&mut self) -> Option<Case> {
        let instruction = self.instruction()?;
        let room = self.number()? as usize;
        Some(Case::Text { instruction, room })
    }

    fn run(&mut self) -> Option<Case> {
        let [kernel, width, registers, lanes, budget] = self.numbers()?;
        let counts: [u32; 5] = self.numbers()?;
        let [code, register_words, device, local, state] = counts.map(|count| count as usize);
        let key_room = self.number()? as usize;
        let capture = Capture {
            kernel,
            settings: Settings {
                width,
                registers,
                lanes,
                budget,
            },
            code: self.words(code)?,
            registers: self.words(register_words)?,
            device: self.words(device)?,
            local: self.words(local)?,
            state: match state {
                0 => None,
                _ => Some(self.state()?),
            },
        };
        Some(Case::Run { capture, key_room })
    }
}
