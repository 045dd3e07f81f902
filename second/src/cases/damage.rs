//! Damage to settings and code, for every refusal from 1 to 10.

use super::code::{instruction, words_of};
use super::random::Random;
use crate::capture::Capture;
use crate::operations::{Form, Operation};
use crate::words::{self, Instruction};

/// How many kinds of damage to code there are.
const KINDS: usize = 15;

/// One setting that isn't allowed.
pub fn setting(random: &mut Random, capture: &mut Capture) {
    let settings = &mut capture.settings;
    let huge = random.pick(&[0x80000000, 0xFFFFFFFF]);
    match random.below(4) {
        0 => settings.width = random.pick(&[0, 1, 7, 9, 24, 31, 33, 64, 256, huge]),
        1 => settings.registers = random.pick(&[0, 257, 258, 512, huge]),
        2 => settings.lanes = random.pick(&[0, settings.width.wrapping_add(1), 33, huge]),
        _ => settings.budget = random.pick(&[1_000_000_001, 1_000_000_002, huge]),
    }
}

/// A register buffer of another length.
pub fn registers(random: &mut Random, capture: &mut Capture) {
    let length = capture.registers.len();
    let lengths = [0, length.saturating_sub(1), length + 1, length / 2];
    capture.registers.resize(random.pick(&lengths), 7);
}

/// The places of the instructions' first words, and the end.
pub fn boundaries(code: &[u32]) -> Vec<usize> {
    let mut places = vec![0];
    let mut at = 0;
    while at < code.len() {
        at += words::read(&code[at..]).map_or(1, |(_, length)| length);
        places.push(at.min(code.len()));
    }
    places
}

/// Puts words at a random boundary between instructions.
fn insert(random: &mut Random, code: &mut Vec<u32>, words: &[u32]) {
    let at = random.pick(&boundaries(code));
    code.splice(at..at, words.iter().copied());
}

/// One random damage to the code.
pub fn code(random: &mut Random, code: &mut Vec<u32>, registers: u32) {
    match random.below(KINDS) {
        0 if !code.is_empty() => {
            let at = random.below(code.len());
            code[at] ^= 1 << random.below(32);
        }
        1 if !code.is_empty() => {
            let at = random.below(code.len());
            code[at] = random.word();
        }
        2 => {
            let words = [random.bits(), random.bits()];
            insert(random, code, &words);
        }
        3 => cut(random, code),
        4 => {
            let opener = random.pick(&[Operation::If, Operation::Loop]);
            let words = words_of(&instruction(random, opener, registers));
            insert(random, code, &words);
        }
        5 => {
            let words = stray(random);
            insert(random, code, &words);
        }
        6 => drop_one(random, code),
        7 | 8 => {
            let operation = two_words(random);
            let words = words_of(&instruction(random, operation, registers));
            code.push(words[0]);
        }
        _ => {
            let words = bad_words(random, registers);
            insert(random, code, &words);
        }
    }
}

/// Cuts the code off somewhere.
fn cut(random: &mut Random, code: &mut Vec<u32>) {
    let at = random.below(code.len() + 1);
    code.truncate(at);
}

/// An end, ELSE, BREAK or CONTINUE, to be put where it may be stray.
fn stray(random: &mut Random) -> Vec<u32> {
    use Operation::*;
    let operation = random.pick(&[Else, Endif, Endloop, Break, Continue]);
    words_of(&Instruction::plain(operation))
}

/// Takes one instruction out.
fn drop_one(random: &mut Random, code: &mut Vec<u32>) {
    let places = boundaries(code);
    if places.len() > 1 {
        let index = random.below(places.len() - 1);
        code.drain(places[index]..places[index + 1]);
    }
}

/// The words of an instruction with one thing wrong: opcode, modifier, a field, the predicate, a
/// predicate number, a special number, or a register number.
pub fn bad_words(random: &mut Random, registers: u32) -> Vec<u32> {
    let operation = random.pick(Operation::ALL);
    let mut words = words_of(&instruction(random, operation, registers));
    match random.below(8) {
        0 => words[0] = words[0] & 0x00FFFFFF | random.bits() << 24,
        1 => words[0] = words[0] & !0xF0 | random.bits() & 0xF0,
        2 => words[0] |= 8,
        3 => words[0] = words[0] & !7 | bad_predicate(random, operation),
        4 => {
            let last = words.len() - 1;
            words[last] |= 1 << random.below(32);
        }
        5 => {
            let compare = random.pick(&[Operation::Eq, Operation::Lt, Operation::Ge]);
            words = words_of(&instruction(random, compare, registers));
            words[0] = words[0] & 0xFF00FFFF | random.pick(&[0, 4, 5, 255]) << 16;
        }
        6 => {
            words = words_of(&instruction(random, Operation::MovSpecial, registers));
            words[0] |= random.pick(&[3, 4, 128, 255]) << 8;
        }
        _ => words = words_of(&far_register(random, registers)),
    }
    words
}

/// An operation of two words.
fn two_words(random: &mut Random) -> Operation {
    let two = |op: &&Operation| op.words() == 2;
    let found: Vec<Operation> = Operation::ALL.iter().filter(two).copied().collect();
    random.pick(&found)
}

/// Predicate and negate as they may not stand with the operation.
fn bad_predicate(random: &mut Random, operation: Operation) -> u32 {
    match operation {
        Operation::If => random.pick(&[0, 4]),
        _ if words::takes_predicate(operation) => 4,
        _ => 1 + random.below(7) as u32,
    }
}

/// An instruction with one register number that is R or more, where there is one.
fn far_register(random: &mut Random, registers: u32) -> Instruction {
    let with_registers = |op: &&Operation| op.form() != Form::Control;
    let found: Vec<Operation> = Operation::ALL
        .iter()
        .filter(with_registers)
        .copied()
        .collect();
    let operation = random.pick(&found);
    let mut i = instruction(random, operation, registers);
    let far = random.pick(&[registers, registers + 1, 255]).min(255);
    match (random.below(4), operation.form()) {
        (0, form) if form != Form::Comparison => i.rd = far,
        (1, Form::TwoSources | Form::Comparison | Form::Atomic | Form::Shuffle) => i.rs2 = far,
        (2, Form::CompareAndSwap) => i.rs3 = far,
        (_, Form::Special | Form::Immediate) => i.rd = far,
        _ => i.rs1 = far,
    }
    i
}
