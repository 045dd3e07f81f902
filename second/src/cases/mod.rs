//! Cases for the page's functions, random ones and runs with a name: making them, answering them, and
//! comparing the answers of another program with one's own.
//!
//! # Cases and answers as numbers
//!
//! Cases and answers are files of numbers of four bytes, low byte first. Bytes stand as they are, followed
//! by zero bytes up to a multiple of four. Words and bytes that a function is lent for its output are
//! all A5 before the call.
//!
//! A case is its kind, the count of the numbers that follow in it, and those numbers; the cases follow
//! each other to the end of the file. The answers follow each other in the same order, without kind or
//! count.
//!
//! | Kind | The case's numbers | The answer's numbers |
//! |---|---|---|
//! | 1 read one instruction | count, the words | refusal, place, length, INSTRUCTION |
//! | 2 write one instruction | INSTRUCTION, room in words | refusal, place, length, the room's words |
//! | 3 run | kernel, width, registers, lanes, budget, counts of code, register, device, local and state words, key room in bytes; then the words of each in that order | OUTCOME, steps, STATE, the register, device and local words, then the key of this outcome: refusal, place, length, the room's bytes |
//! | 4 write a key | kernel, room in bytes, OUTCOME, STATE | refusal, place, length, the room's bytes |
//! | 5 make a day file | count of bytes, room in bytes, the bodies' bytes | refusal, place, length, the room's bytes |
//! | 6 read a day file | record number, count of bytes, the file's bytes | refusal, place, count of records; for the record: refusal, place, offset, length, first equal record |
//! | 7 list a day file | count of bytes, the file's bytes | count of bytes, the text's bytes |
//! | 8 text of an instruction | INSTRUCTION, room in bytes | refusal, place, length, the room's bytes |
//!
//! Refusal and place are 0 where nothing is refused; what is left out by a refusal is 0.
//!
//! - INSTRUCTION is nine numbers: operation (opcode × 16 + modifier), RD, RS1, RS2, RS3, number, scope,
//!   predicate, negate. Unused fields are 0. Negate is 0 or 1, and the operation is one that the desk
//!   carries, in cases too.
//! - OUTCOME is nine numbers: 0 ended, 1 out of budget, 2 fault or 3 refused; refusal, place; the lanes
//!   of fault kinds 1 to 6, 0 where there are none.
//! - STATE is 7 + 6 × depth numbers: place, active, halted, p1, p2, p3, depth, then part, opener, entered,
//!   aside, again, left for each block, outermost first. In an answer at most the first 32 blocks follow.
//! - The text of an instruction tests 12, then 13, as writing one does.
//! - A run whose state has no words is a launch.
//! - Counts in cases stay in these bounds: 65,537 code words, 8,193 register words, 2,048 words of each
//!   memory, depth 40, 66,000 bytes of bodies, files and rooms.

pub mod agreement;
pub mod answer;
pub mod code;
pub mod commands;
pub mod damage;
pub mod directed;
pub mod files;
pub mod format;
pub mod make;
pub mod named;
pub mod random;
pub mod reached;
pub mod states;
pub mod waves;

use crate::capture::Capture;
use crate::run::Outcome;
use crate::state::State;
use crate::words::Instruction;

/// The byte that fills what is lent for output.
pub const LENT: u8 = 0xA5;
/// The word of four such bytes.
pub const LENT_WORD: u32 = 0xA5A5A5A5;

/// One call of one function.
#[derive(Clone, Debug, PartialEq, Eq)]
pub enum Case {
    Read {
        words: Vec<u32>,
    },
    Write {
        instruction: Instruction,
        room: usize,
    },
    Run {
        capture: Capture,
        key_room: usize,
    },
    Key {
        kernel: u32,
        outcome: Outcome,
        state: State,
        room: usize,
    },
    Make {
        bodies: Vec<u8>,
        room: usize,
    },
    File {
        file: Vec<u8>,
        record: u32,
    },
    Listing {
        file: Vec<u8>,
    },
    Text {
        instruction: Instruction,
        room: usize,
    },
}
