//! Instructions and their words: reading one, writing one, and what is refused.

use crate::operations::{Form, Operation};
use crate::refusal::{Refusal, refuse};

/// An instruction as its fields. A field that the operation doesn't use is 0.
#[derive(Clone, Copy, Debug, PartialEq, Eq)]
pub struct Instruction {
    pub operation: Operation,
    pub rd: u32,
    pub rs1: u32,
    pub rs2: u32,
    pub rs3: u32,
    /// The whole second word of the forms that have a number.
    pub number: u32,
    pub scope: u32,
    pub predicate: u32,
    pub negate: bool,
}

/// What refusal 6 found wrong.
#[derive(Clone, Copy, Debug, PartialEq, Eq)]
pub enum Wrong {
    /// A field that the operation doesn't use, or a bit that is always zero, isn't zero.
    Field,
    /// Predicate 0 negated, IF without a predicate, or a predicate where none may stand.
    PredicateForm,
    /// A comparison's RD isn't 1, 2 or 3.
    PredicateNumber,
    /// MOV_SPECIAL's RS1 is over 2.
    SpecialNumber,
}

impl Instruction {
    /// An instruction of this operation with every field 0.
    pub fn plain(operation: Operation) -> Instruction {
        Instruction {
            operation,
            rd: 0,
            rs1: 0,
            rs2: 0,
            rs3: 0,
            number: 0,
            scope: 0,
            predicate: 0,
            negate: false,
        }
    }

    /// The register numbers it names.
    pub fn registers(&self) -> Vec<u32> {
        match self.operation.form() {
            Form::TwoSources | Form::Atomic | Form::Shuffle => vec![self.rd, self.rs1, self.rs2],
            Form::Comparison => vec![self.rs1, self.rs2],
            Form::OneSource | Form::Memory | Form::Wave => vec![self.rd, self.rs1],
            Form::Special | Form::Immediate => vec![self.rd],
            Form::CompareAndSwap => vec![self.rd, self.rs1, self.rs2, self.rs3],
            Form::Control => vec![],
        }
    }

    /// The instruction's two words; the second is 0 where it takes one. Each field is cut to its room.
    fn to_words(self) -> [u32; 2] {
        let number = self.operation.number();
        let word0 = (number >> 4) << 24
            | (self.rd & 255) << 16
            | (self.rs1 & 255) << 8
            | (number & 15) << 4
            | u32::from(self.negate) << 2
            | (self.predicate & 3);
        let word1 = match self.operation.form() {
            Form::Memory | Form::Immediate => self.number,
            _ => (self.rs2 & 255) << 24 | (self.rs3 & 255) << 16 | (self.scope & 3),
        };
        [word0, word1]
    }
}

/// The operation of a first word, if the desk carries its opcode with this modifier.
pub fn operation_of(word0: u32) -> Option<Operation> {
    Operation::with_number((word0 >> 24) << 4 | (word0 >> 4 & 15))
}

/// The fields that the operation uses, out of its words.
fn fields(operation: Operation, word0: u32, word1: u32) -> Instruction {
    let form = operation.form();
    let only = |used: bool, field: u32| if used { field } else { 0 };
    let swap = form == Form::CompareAndSwap;
    let atomic = swap || form == Form::Atomic;
    let two_sources = atomic || matches!(form, Form::TwoSources | Form::Comparison | Form::Shuffle);
    Instruction {
        operation,
        rd: only(form != Form::Control, word0 >> 16 & 255),
        rs1: only(
            !matches!(form, Form::Control | Form::Immediate),
            word0 >> 8 & 255,
        ),
        rs2: only(two_sources, word1 >> 24),
        rs3: only(swap, word1 >> 16 & 255),
        number: only(matches!(form, Form::Memory | Form::Immediate), word1),
        scope: only(atomic, word1 & 3),
        predicate: word0 & 3,
        negate: word0 >> 2 & 1 == 1,
    }
}

/// Whether an operation may stand on a predicate from 1 to 3.
pub fn takes_predicate(operation: Operation) -> bool {
    use Operation::*;
    !matches!(operation, Else | Endif | Loop | Endloop | Barrier | Nop)
}

/// Whether the predicate may stand with the operation.
fn predicate_form_allowed(instruction: &Instruction) -> bool {
    match instruction.predicate {
        0 => !instruction.negate && instruction.operation != Operation::If,
        _ => takes_predicate(instruction.operation),
    }
}

/// What is wrong with an instruction whose fields are in their room.
fn wrong_numbers(instruction: &Instruction) -> Option<Wrong> {
    let form = instruction.operation.form();
    if !predicate_form_allowed(instruction) {
        Some(Wrong::PredicateForm)
    } else if form == Form::Comparison && !(1..=3).contains(&instruction.rd) {
        Some(Wrong::PredicateNumber)
    } else if form == Form::Special && instruction.rs1 > 2 {
        Some(Wrong::SpecialNumber)
    } else {
        None
    }
}

/// What refusal 6 finds in the words of this operation.
fn wrong(operation: Operation, word0: u32, word1: u32) -> Option<Wrong> {
    let instruction = fields(operation, word0, word1);
    if instruction.to_words() != [word0, word1] {
        return Some(Wrong::Field);
    }
    wrong_numbers(&instruction)
}

/// What refusal 6 finds in the instruction that these words begin with; none where 4 or 5 comes first.
pub fn wrong_field(words: &[u32]) -> Option<Wrong> {
    let word0 = *words.first()?;
    let operation = operation_of(word0)?;
    let word1 = second_word(operation, words)?;
    wrong(operation, word0, word1)
}

/// The second word, 0 for an operation of one word; none where it is missing.
fn second_word(operation: Operation, words: &[u32]) -> Option<u32> {
    match operation.words() {
        1 => Some(0),
        _ => words.get(1).copied(),
    }
}

/// Reads the instruction that the words begin with, and says how many words it takes.
/// Tests 5 for no word at all, then 4, 5, 6, at place 0.
pub fn read(words: &[u32]) -> Result<(Instruction, usize), Refusal> {
    let Some(&word0) = words.first() else {
        return refuse(5, 0);
    };
    let Some(operation) = operation_of(word0) else {
        return refuse(4, 0);
    };
    let Some(word1) = second_word(operation, words) else {
        return refuse(5, 0);
    };
    match wrong(operation, word0, word1) {
        Some(_) => refuse(6, 0),
        None => Ok((fields(operation, word0, word1), operation.words())),
    }
}

/// The instruction at a place of code that was checked.
pub fn instruction_at(code: &[u32], place: usize) -> Instruction {
    let operation = operation_of(code[place]).expect("checked code has an operation here");
    let word1 = second_word(operation, &code[place..]).expect("checked code has the second word");
    fields(operation, code[place], word1)
}

/// Writes an instruction and says how many words it took. Tests 12, 13, at place 0.
/// Output past the result stays as lent.
pub fn write(instruction: &Instruction, output: &mut [u32]) -> Result<usize, Refusal> {
    let words = instruction.to_words();
    let length = instruction.operation.words();
    match read(&words[..length]) {
        Ok((again, _)) if again == *instruction => (),
        _ => return refuse(12, 0),
    }
    if output.len() < length {
        return refuse(13, 0);
    }
    output[..length].copy_from_slice(&words[..length]);
    Ok(length)
}
