//! What a wave operation is about to meet, as labels to be counted.

use crate::operations::Operation;
use crate::state::{Lanes, each_lane};
use crate::words::Instruction;

/// Every label.
pub const LABELS: [&str; 17] = [
    "no lane executes",
    "RD is RS1",
    "RD is RS2",
    "BROADCAST from lane 0",
    "BROADCAST from a lane that doesn't execute",
    "REDUCE_ADD wraps",
    "REDUCE_MIN of either sign",
    "REDUCE_MAX of either sign",
    "PREFIX_SUM wraps",
    "SHUFFLE from a lane that executes",
    "SHUFFLE from a lane that doesn't execute",
    "SHUFFLE from a lane past the width",
    "BALLOT of some lanes",
    "ANY gives 0",
    "ANY gives 1",
    "ALL gives 0",
    "ALL gives 1",
];

/// The labels of a wave operation with these executing lanes of a width.
pub fn met(i: &Instruction, executing: Lanes, width: u32, registers: &[u32]) -> Vec<&'static str> {
    let each = registers.len() / width as usize;
    let words = |register: u32| -> Vec<u32> {
        let place = |lane: usize| lane * each + register as usize;
        each_lane(executing).map(|l| registers[place(l)]).collect()
    };
    if executing == 0 {
        return vec!["no lane executes"];
    }
    let shuffles = i.operation == Operation::Shuffle;
    let mut found: Vec<&str> = match shuffles {
        true => shuffled_from(&words(i.rs2), executing, width),
        false => of_words(i.operation, &words(i.rs1), executing)
            .into_iter()
            .collect(),
    };
    if i.rd == i.rs1 {
        found.push("RD is RS1");
    }
    if shuffles && i.rd == i.rs2 {
        found.push("RD is RS2");
    }
    found
}

/// Where a SHUFFLE reads, for each lane number.
fn shuffled_from(lanes: &[u32], executing: Lanes, width: u32) -> Vec<&'static str> {
    let from = |lane: &u32| match *lane < width {
        true if executing >> lane & 1 == 1 => "SHUFFLE from a lane that executes",
        true => "SHUFFLE from a lane that doesn't execute",
        false => "SHUFFLE from a lane past the width",
    };
    lanes.iter().map(from).collect()
}

/// What is to be seen of RS1 of the executing lanes.
fn of_words(operation: Operation, words: &[u32], executing: Lanes) -> Option<&'static str> {
    use Operation::*;
    let (_, below_last) = words.split_last()?;
    let wraps = |words: &[u32]| words.iter().map(|word| u64::from(*word)).sum::<u64>() >> 32 != 0;
    let negative = words.iter().filter(|word| **word >> 31 == 1).count();
    let either_sign = negative != 0 && negative != words.len();
    let zeros = words.iter().filter(|word| **word == 0).count();
    match operation {
        Broadcast if executing & 1 == 1 => Some("BROADCAST from lane 0"),
        Broadcast => Some("BROADCAST from a lane that doesn't execute"),
        ReduceAdd => wraps(words).then_some("REDUCE_ADD wraps"),
        ReduceMin => either_sign.then_some("REDUCE_MIN of either sign"),
        ReduceMax => either_sign.then_some("REDUCE_MAX of either sign"),
        PrefixSum => wraps(below_last).then_some("PREFIX_SUM wraps"),
        Ballot => (zeros != 0 && zeros != words.len()).then_some("BALLOT of some lanes"),
        Any if zeros == words.len() => Some("ANY gives 0"),
        Any => Some("ANY gives 1"),
        _ if zeros == 0 => Some("ALL gives 1"),
        _ => Some("ALL gives 0"),
    }
}
