//! The page's marked table, T1 to T14, and its listing; T10 and T11 by page 02, which makes MULHI signed, and a
//! sum of base and offset that reaches 2^32 a fault. The words of page 02's wave operations.

mod common;

use common::{desk, hex};
use second::arithmetic;
use second::bytes;
use second::dayfile;
use second::key;
use second::listing::listing;
use second::operations::Operation;
use second::run::Outcome;
use second::words::{self, Instruction};

/// Reads the words, checks the instruction, and checks that writing it gives the words back.
fn both_ways(text: &str, expected: Instruction) {
    let given = hex(text);
    assert_eq!(words::read(&given), Ok((expected, given.len())));
    let mut output = vec![7; given.len() + 1];
    assert_eq!(words::write(&expected, &mut output), Ok(given.len()));
    assert_eq!(output[..given.len()], given[..]);
    assert_eq!(output[given.len()], 7);
}

fn refused(text: &str) -> (u32, u32) {
    let refusal = words::read(&hex(text)).expect_err("a refusal");
    (refusal.number, refusal.place)
}

#[test]
fn t1_to_t6() {
    let plain = Instruction::plain;
    both_ways(
        "00030100 02000000",
        Instruction {
            rd: 3,
            rs1: 1,
            rs2: 2,
            ..plain(Operation::Add)
        },
    );
    both_ways(
        "F1000000 00000005",
        Instruction {
            number: 5,
            ..plain(Operation::MovImm)
        },
    );
    both_ways(
        "3F000005",
        Instruction {
            predicate: 1,
            negate: true,
            ..plain(Operation::If)
        },
    );
    assert_eq!(refused("3F000004"), (6, 0));
    both_ways(
        "3F000041",
        Instruction {
            predicate: 1,
            ..plain(Operation::Break)
        },
    );
    assert_eq!(refused("3F000070"), (4, 0));
}

#[test]
fn words_of_the_wave_operations() {
    let plain = Instruction::plain;
    both_ways(
        "3E010010 00000000",
        Instruction {
            rd: 1,
            ..plain(Operation::ReduceAdd)
        },
    );
    both_ways(
        "3E010050 01000000",
        Instruction {
            rd: 1,
            rs2: 1,
            ..plain(Operation::Shuffle)
        },
    );
    assert_eq!(refused("3E000090"), (4, 0));
    assert_eq!(refused("3E000090 00000000"), (4, 0));
    assert_eq!(refused("3E010010"), (5, 0));
    assert_eq!(refused("3E010010 01000000"), (6, 0));
    assert_eq!(refused("3E010050 01000001"), (6, 0));
}

#[test]
fn t7_to_t10() {
    use Operation::*;
    let two = arithmetic::two_sources;
    assert_eq!(two(Div, 0xFFFFFFF9, 2), 0xFFFFFFFD);
    assert_eq!(two(Rem, 0xFFFFFFF9, 2), 0xFFFFFFFF);
    assert_eq!(two(Div, 0x80000000, 0xFFFFFFFF), 0x80000000);
    assert_eq!(two(Rem, 0x80000000, 0xFFFFFFFF), 0);
    assert_eq!(two(Sar, 0x80000000, 33), 0xC0000000);
    assert_eq!(two(Mulhi, 0xFFFFFFFF, 0xFFFFFFFF), 0);
    assert_eq!(arithmetic::one_source(Abs, 0x80000000), 0x80000000);
}

#[test]
fn t11_a_sum_past_the_top() {
    let mut desk = desk(8, 1, 2, "30010000 00000008");
    desk.registers[0] = 0xFFFFFFFC;
    desk.device = vec![11, 22, 33];
    assert_eq!(desk.launch().outcome, Outcome::Fault([0, 0, 0, 0, 0, 1]));
    assert_eq!(desk.register(0, 1), 0);
}

#[test]
fn t12() {
    let mut desk = desk(
        8,
        4,
        2,
        "F2000000 F1010000 00000002 2A010000 01000000 3F000001 F1010000 00000007
         3F000010 3F000090 3F000020 00010100 00000000",
    );
    let answer = desk.launch();
    assert_eq!(answer.outcome, Outcome::Ended);
    assert_eq!(answer.steps, 9);
    let r1: Vec<u32> = (0..4).map(|lane| desk.register(lane, 1)).collect();
    assert_eq!(r1, [7, 8, 2, 2]);
    assert_eq!(answer.state.halted, 0b1100);
}

/// The body of kernel 7 for a run of the code that faults after some steps.
fn body_after(steps: u32, lanes: u32, code: &str) -> Vec<u8> {
    let answer = desk(8, lanes, 2, code).launch();
    assert!(matches!(answer.outcome, Outcome::Fault(_)));
    assert_eq!(answer.steps, steps);
    let mut output = vec![0; key::LONGEST_BODY];
    let length = key::write(7, &answer.outcome, &answer.state, &mut output).expect("a key");
    output.truncate(length);
    output
}

#[test]
fn t13() {
    let body = body_after(1, 2, "F2000000 03010000 00000000");
    assert_eq!(bytes::to_numbers(&body), [7, 1, 1, 4, 1, 3, 0, 0]);
}

#[test]
fn t14() {
    let body = body_after(
        5,
        3,
        "F2000000 F1010000 00000001 28010000 01000000 3F000030 3F000041
         03010100 00000000 3F000060",
    );
    let expected = [7, 7, 1, 4, 1, 5, 0, 1, 3, 5, 7, 2, 0, 0];
    assert_eq!(bytes::to_numbers(&body), expected);
}

#[test]
fn the_listing_of_two_copies_of_t13() {
    let body = body_after(1, 2, "F2000000 03010000 00000000");
    let mut file = vec![0; 100];
    let length = dayfile::make(&[&body[..], &body[..]].concat(), &mut file).expect("a file");
    assert_eq!(length, 84);
    assert_eq!(
        listing(&file[..length]),
        "record first kernel place kinds depth\n\
         1 1 7 1 4 0\n\
         2 1 7 1 4 0\n\
         total 2 distinct 1\n"
    );
}
