//! What the second program answers to a case.

use super::format::{instruction_numbers, outcome_numbers, padded};
use super::reached::Reached;
use super::{Case, LENT, LENT_WORD};
use crate::assembly;
use crate::blocks::DEEPEST;
use crate::bytes;
use crate::capture::{self, Capture};
use crate::dayfile;
use crate::key;
use crate::listing::listing;
use crate::refusal::Refusal;
use crate::run::Outcome;
use crate::state::State;
use crate::words::{self, Instruction};

/// A named part of an answer.
pub struct Part {
    pub name: &'static str,
    pub numbers: Vec<u32>,
}

/// An answer, part by part.
#[derive(Default)]
pub struct Answer {
    pub parts: Vec<Part>,
}

impl Answer {
    fn add(&mut self, name: &'static str, numbers: impl IntoIterator<Item = u32>) {
        let numbers = numbers.into_iter().collect();
        self.parts.push(Part { name, numbers });
    }

    /// The refusal and its place, or zeros, then the length or a zero.
    fn add_length(&mut self, result: &Result<usize, Refusal>) {
        let (number, place) = refusal_of(result);
        self.add("refusal", [number]);
        self.add("place", [place]);
        self.add("length", [result.unwrap_or(0) as u32]);
    }

    /// All its numbers.
    pub fn numbers(&self) -> Vec<u32> {
        self.parts
            .iter()
            .flat_map(|part| part.numbers.clone())
            .collect()
    }

    /// All its bytes.
    pub fn write(&self) -> Vec<u8> {
        bytes::from_numbers(&self.numbers())
    }
}

/// The refusal's number and place, or zeros.
fn refusal_of<T>(result: &Result<T, Refusal>) -> (u32, u32) {
    match result {
        Ok(_) => (0, 0),
        Err(refusal) => (refusal.number, refusal.place),
    }
}

/// Answers a case, and counts what it reaches.
pub fn answer(case: &Case, reached: &mut Reached) -> Answer {
    match case {
        Case::Read { words } => read(words, reached),
        Case::Write { instruction, room } => write(instruction, *room, reached),
        Case::Run { capture, key_room } => run(capture.clone(), *key_room, reached),
        Case::Key {
            kernel,
            outcome,
            state,
            room,
        } => {
            let mut answer = Answer::default();
            let result = add_key(&mut answer, *kernel, outcome, state, *room);
            reached.refusal("a key written", refusal_of(&result).0);
            answer
        }
        Case::Make { bodies, room } => make(bodies, *room, reached),
        Case::File { file, record } => file_and_record(file, *record, reached),
        Case::Listing { file } => {
            let text = listing(file);
            reached.listing(&text);
            let mut answer = Answer::default();
            answer.add("bytes of text", [text.len() as u32]);
            answer.add("text", padded(text.as_bytes()));
            answer
        }
        Case::Text { instruction, room } => text(instruction, *room, reached),
    }
}

fn read(words: &[u32], reached: &mut Reached) -> Answer {
    let mut answer = Answer::default();
    let result = words::read(words);
    reached.refusal("an instruction read", refusal_of(&result).0);
    answer.add_length(&result.map(|(_, length)| length));
    let numbers = match result {
        Ok((instruction, _)) => instruction_numbers(&instruction),
        Err(_) => {
            reached.wrong_field(words);
            [0; 9]
        }
    };
    answer.add("instruction", numbers);
    answer
}

fn write(instruction: &Instruction, room: usize, reached: &mut Reached) -> Answer {
    let mut answer = Answer::default();
    let mut output = vec![LENT_WORD; room];
    let result = words::write(instruction, &mut output);
    reached.refusal("an instruction written", refusal_of(&result).0);
    answer.add_length(&result);
    answer.add("output", output);
    answer
}

fn text(instruction: &Instruction, room: usize, reached: &mut Reached) -> Answer {
    let mut answer = Answer::default();
    let mut output = vec![LENT; room];
    let result = assembly::write(instruction, &mut output);
    reached.text(instruction.operation, refusal_of(&result).0);
    answer.add_length(&result);
    answer.add("text", padded(&output));
    answer
}

fn run(mut capture: Capture, key_room: usize, reached: &mut Reached) -> Answer {
    let (settings, code) = (capture.settings, capture.code.clone());
    let found = capture.run_watched(&mut |state, registers| {
        reached.step(settings, &code, state, registers);
    });
    reached.run(&capture, &found);
    let mut answer = Answer::default();
    let numbers = outcome_numbers(&found.outcome);
    answer.add("outcome", [numbers[0]]);
    answer.add("refusal", [numbers[1]]);
    answer.add("place of the refusal", [numbers[2]]);
    answer.add("lanes of the fault kinds", numbers[3..].iter().copied());
    answer.add("steps", [found.steps]);
    add_state(&mut answer, &found.state);
    answer.add("registers", capture.registers);
    answer.add("device memory", capture.device);
    answer.add("local memory", capture.local);
    let result = add_key(
        &mut answer,
        capture.kernel,
        &found.outcome,
        &found.state,
        key_room,
    );
    reached.refusal("a run's key", refusal_of(&result).0);
    answer
}

/// The state, at most 32 blocks of it.
fn add_state(answer: &mut Answer, state: &State) {
    let words = capture::state_words(state);
    let names = ["place", "active", "halted", "p1", "p2", "p3", "depth"];
    for (name, word) in names.into_iter().zip(&words) {
        answer.add(name, [*word]);
    }
    let blocks = &words[names.len()..];
    let room = blocks.len().min(6 * DEEPEST);
    answer.add("blocks", blocks[..room].iter().copied());
}

fn add_key(
    answer: &mut Answer,
    kernel: u32,
    outcome: &Outcome,
    state: &State,
    room: usize,
) -> Result<usize, Refusal> {
    let mut output = vec![LENT; room];
    let result = key::write(kernel, outcome, state, &mut output);
    answer.add_length(&result);
    answer.add("key", padded(&output));
    result
}

fn make(bodies: &[u8], room: usize, reached: &mut Reached) -> Answer {
    let mut answer = Answer::default();
    let mut output = vec![LENT; room];
    let result = dayfile::make(bodies, &mut output);
    reached.refusal("a day file made", refusal_of(&result).0);
    answer.add_length(&result);
    answer.add("file", padded(&output));
    answer
}

fn file_and_record(file: &[u8], number: u32, reached: &mut Reached) -> Answer {
    let mut answer = Answer::default();
    let count = dayfile::count(file);
    reached.refusal("a day file read", refusal_of(&count).0);
    answer.add_length(&count);
    let record = dayfile::record(file, number);
    reached.refusal("a record found", refusal_of(&record).0);
    let (refusal, place) = refusal_of(&record);
    answer.add("the record's refusal", [refusal]);
    answer.add("the record's place", [place]);
    let numbers = record.map_or([0; 3], |r| [r.offset, r.length, r.first]);
    answer.add("offset, length and first", numbers.map(|n| n as u32));
    answer
}
