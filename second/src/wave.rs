//! What the wave operations give. They read executing lanes only: no other lane has a word here.

use crate::arithmetic::signed;
use crate::operations::Operation;
use crate::words::Instruction;

/// A register of each executing lane.
pub type Words = [Option<u32>; 32];

/// What a wave operation gives each executing lane, with `words` giving a register of all of them.
pub fn results(i: &Instruction, words: impl Fn(u32) -> Words) -> [u32; 32] {
    let rs1 = words(i.rs1);
    match i.operation {
        Operation::PrefixSum => prefix_sums(&rs1),
        Operation::Shuffle => words(i.rs2).map(|lane| lane.map_or(0, |lane| word_of(&rs1, lane))),
        operation => [common(operation, &rs1); 32],
    }
}

/// The word of a lane; 0 where the lane isn't executing or doesn't exist.
fn word_of(words: &Words, lane: u32) -> u32 {
    let found = words.get(lane as usize).copied();
    found.flatten().unwrap_or(0)
}

/// For each lane the sum over the executing lanes below it.
fn prefix_sums(words: &Words) -> [u32; 32] {
    let mut below = 0u32;
    words.map(|word| {
        let sum = below;
        below = below.wrapping_add(word.unwrap_or(0));
        sum
    })
}

/// What an operation gives that gives every lane the same.
fn common(operation: Operation, words: &Words) -> u32 {
    use Operation::*;
    let mut each = words.iter().flatten().copied();
    match operation {
        Broadcast => word_of(words, 0),
        ReduceAdd => each.fold(0, u32::wrapping_add),
        ReduceMin => each.map(signed).min().unwrap_or(0) as u32,
        ReduceMax => each.map(signed).max().unwrap_or(0) as u32,
        Ballot => (0..32)
            .filter(|lane| word_of(words, *lane) != 0)
            .fold(0, |set, lane| set | 1 << lane),
        Any => u32::from(each.any(|word| word != 0)),
        All => u32::from(each.all(|word| word != 0)),
        _ => unreachable!("{} doesn't give every lane the same", operation.name()),
    }
}
