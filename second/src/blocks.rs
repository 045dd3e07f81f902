//! The code's blocks: the check of the whole code, and the blocks that are open at a place.

use crate::operations::Operation;
use crate::refusal::{Refusal, refuse};
use crate::words;

/// The deepest nesting of blocks.
pub const DEEPEST: usize = 32;

/// The part of an IF's block before its ELSE.
pub const BEFORE_ELSE: u32 = 1;
/// The part of an IF's block after its ELSE.
pub const AFTER_ELSE: u32 = 2;
/// The one part of a loop's block.
pub const LOOP: u32 = 3;

/// An open block as the code alone gives it.
#[derive(Clone, Copy, Debug, PartialEq, Eq)]
pub struct Open {
    pub part: u32,
    pub opener: u32,
}

/// Tests instruction by instruction 4 to 9, then 10.
pub fn check(code: &[u32], registers: u32) -> Result<(), Refusal> {
    let mut open = Vec::new();
    let mut place = 0;
    while place < code.len() {
        match check_instruction(&code[place..], registers, place as u32, &mut open) {
            Ok(length) => place += length,
            Err(number) => return refuse(number, place as u32),
        }
    }
    match open.last() {
        Some(innermost) => refuse(10, innermost.opener),
        None => Ok(()),
    }
}

/// Tests 4 to 9 on the instruction that the words begin with, and passes it.
/// Answers its length, or the number of the first rule broken.
fn check_instruction(
    words: &[u32],
    registers: u32,
    place: u32,
    open: &mut Vec<Open>,
) -> Result<usize, u32> {
    let (instruction, length) = words::read(words).map_err(|refusal| refusal.number)?;
    if instruction.registers().iter().any(|&r| r >= registers) {
        return Err(7);
    }
    pass(open, instruction.operation, place)?;
    Ok(length)
}

/// What passing an instruction does to the blocks open before it; 8 or 9 where it can't stand there.
fn pass(open: &mut Vec<Open>, operation: Operation, place: u32) -> Result<(), u32> {
    use Operation::*;
    let innermost = open.last().map(|block| block.part);
    match operation {
        If => enter(open, BEFORE_ELSE, place)?,
        Loop => enter(open, LOOP, place)?,
        Else => match open.last_mut() {
            Some(block) if block.part == BEFORE_ELSE => block.part = AFTER_ELSE,
            _ => return Err(8),
        },
        Endif => match innermost {
            Some(BEFORE_ELSE | AFTER_ELSE) => drop(open.pop()),
            _ => return Err(8),
        },
        Endloop => match innermost {
            Some(LOOP) => drop(open.pop()),
            _ => return Err(8),
        },
        Break | Continue if !open.iter().any(|block| block.part == LOOP) => return Err(8),
        _ => (),
    }
    Ok(())
}

/// Opens a block; 9 where it would be the 33rd.
fn enter(open: &mut Vec<Open>, part: u32, opener: u32) -> Result<(), u32> {
    if open.len() == DEEPEST {
        return Err(9);
    }
    open.push(Open { part, opener });
    Ok(())
}

/// The blocks open at a place of checked code, outermost first.
/// None where the place is neither an instruction's first word nor the end.
pub fn open_at(code: &[u32], place: u32) -> Option<Vec<Open>> {
    let mut open = Vec::new();
    let mut at = 0;
    while at < code.len() && at < place as usize {
        let instruction = words::instruction_at(code, at);
        pass(&mut open, instruction.operation, at as u32).expect("checked code passes");
        at += instruction.operation.words();
    }
    (at == place as usize).then_some(open)
}
