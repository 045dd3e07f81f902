//! Every refusal, its number and its place.

mod common;

use common::{Desk, desk, hex};
use second::bytes;
use second::dayfile;
use second::key;
use second::listing::listing;
use second::operations::Operation;
use second::refusal::Refusal;
use second::run::Outcome;
use second::state::{Block, State};
use second::words::{self, Instruction};

fn at(number: u32, place: u32) -> Refusal {
    Refusal { number, place }
}

fn nops(count: usize) -> Vec<u32> {
    vec![0x3F0000F0; count]
}

#[test]
fn settings_are_refused_first() {
    let good = desk(8, 1, 1, "FFFFFFFF");
    let with = |change: fn(&mut Desk)| {
        let mut bad = good.clone();
        bad.code = vec![0xFFFFFFFF; 65_537];
        bad.registers.clear();
        change(&mut bad);
        bad.refusal(None)
    };
    assert_eq!(with(|desk| desk.settings.width = 0), (1, 0));
    assert_eq!(with(|desk| desk.settings.width = 24), (1, 0));
    assert_eq!(with(|desk| desk.settings.registers = 0), (1, 0));
    assert_eq!(with(|desk| desk.settings.registers = 257), (1, 0));
    assert_eq!(with(|desk| desk.settings.lanes = 0), (1, 0));
    assert_eq!(with(|desk| desk.settings.lanes = 9), (1, 0));
    assert_eq!(with(|desk| desk.settings.budget = 1_000_000_001), (1, 0));
    assert_eq!(with(|_| ()), (2, 0));
    assert_eq!(with(|desk| desk.code = vec![0xFFFFFFFF]), (3, 0));
    assert_eq!(good.refusal(None), (4, 0));
}

#[test]
fn the_longest_code_is_run() {
    let mut desk = desk(8, 1, 1, "");
    desk.code = nops(65_536);
    desk.settings.budget = 1_000_000_000;
    let answer = desk.launch();
    assert_eq!(answer.outcome, Outcome::Ended);
    assert_eq!(answer.steps, 65_536);
}

#[test]
fn code_is_refused_instruction_by_instruction() {
    let refusal = |code: &str| desk(8, 1, 2, &format!("3F0000F0 {code}")).refusal(None);
    assert_eq!(refusal("3B000000"), (4, 1), "no such opcode");
    assert_eq!(refusal("3C0000A0 00000000"), (4, 1), "no such modifier");
    assert_eq!(refusal("3E000090 00000000"), (4, 1), "no such modifier");
    assert_eq!(refusal("00000010 00000000"), (4, 1), "no modifier listed");
    assert_eq!(refusal("00020000"), (5, 1), "before 7");
    assert_eq!(refusal("00020008 00000000"), (6, 1), "before 7");
    assert_eq!(refusal("00020000 00000000"), (7, 1), "RD");
    assert_eq!(refusal("00000200 00000000"), (7, 1), "RS1");
    assert_eq!(refusal("00000000 02000000"), (7, 1), "RS2");
    assert_eq!(refusal("3D000000 00020000"), (7, 1), "RS3");
    assert_eq!(refusal("3E000050 02000000"), (7, 1), "SHUFFLE's RS2");
    assert_eq!(refusal("3E000060 02000000"), (6, 1), "not 7");
    assert_eq!(
        refusal("28030000 00000000 F2000200 3F000010"),
        (8, 4),
        "not 7"
    );
    assert_eq!(refusal("3F000030 3F000001 FFFFFFFF"), (4, 3), "before 10");
    assert_eq!(refusal("3F000030 3F000001"), (10, 2), "the innermost");
    assert_eq!(refusal("3F000030 3F000001 3F000020"), (10, 1));
}

#[test]
fn stray_control_is_refused() {
    let refusal = |code: &str| desk(8, 1, 1, code).refusal(None);
    for stray in ["3F000010", "3F000020", "3F000060", "3F000040", "3F000050"] {
        assert_eq!(refusal(stray), (8, 0));
    }
    assert_eq!(refusal("3F000001 3F000010 3F000010"), (8, 2));
    assert_eq!(refusal("3F000030 3F000010"), (8, 1));
    assert_eq!(refusal("3F000030 3F000020"), (8, 1));
    assert_eq!(refusal("3F000001 3F000060"), (8, 1));
    assert_eq!(refusal("3F000001 3F000040"), (8, 1));
    assert_eq!(refusal("3F000030 3F000060 3F000050"), (8, 2));
}

#[test]
fn reading_one_instruction() {
    let read = |text: &str| words::read(&hex(text)).map(|(_, length)| length);
    assert_eq!(read(""), Err(at(5, 0)));
    assert_eq!(read("3B000000"), Err(at(4, 0)));
    assert_eq!(read("00000000"), Err(at(5, 0)));
    assert_eq!(read("00FFFF00 FF000000"), Ok(2));
    for modifier in 0..16 {
        let word = 0x3E000000 | modifier << 4;
        let refusal = if modifier < 9 { 5 } else { 4 };
        assert_eq!(words::read(&[word]), Err(at(refusal, 0)), "{word:08X}");
    }
    for wrong in [
        "00000000 00000001",
        "00000000 00010000",
        "00000000 00000100",
        "00000000 00000004",
        "00000008 00000000",
        "00000004 00000000",
        "28000000 00000000",
        "28040000 00000000",
        "F2000300",
        "F1000100 00000000",
        "3D000000 00000100",
        "3C000000 00010000",
        "3E000010 01000000",
        "3E000080 00010000",
        "3E000050 00010000",
        "3E000050 00000100",
        "3E000050 00000004",
        "3E000050 00000001",
        "3E000014 00000000",
        "3E000018 00000000",
        "3F000000",
        "3F000011",
        "3F010090",
        "3F0001F0",
        "3F0000A4",
    ] {
        assert_eq!(read(wrong), Err(at(6, 0)), "{wrong}");
    }
    assert_eq!(read("3D000000 00000003"), Ok(2));
    assert_eq!(read("3EFFFF57 FF000000"), Ok(2));
    assert_eq!(read("3F000095"), Ok(1));
}

/// Writes an instruction into so many words, which stay as lent where it is refused.
fn write(instruction: Instruction, room: usize) -> Result<usize, Refusal> {
    let mut output = vec![7; room];
    let result = words::write(&instruction, &mut output);
    if result.is_err() {
        assert_eq!(output, vec![7; room]);
    }
    result
}

#[test]
fn writing_one_instruction() {
    use Operation::*;
    assert_eq!(write(Instruction::plain(Add), 2), Ok(2));
    assert_eq!(write(Instruction::plain(Add), 1), Err(at(13, 0)));
    let branch = Instruction::plain(If);
    assert_eq!(write(branch, 0), Err(at(12, 0)), "before 13");
    type Change = fn(&mut Instruction);
    let changes: [(Operation, Change); 16] = [
        (Add, |i| i.rd = 256),
        (Add, |i| i.rs1 = 256),
        (Add, |i| i.rs2 = 256),
        (Add, |i| i.rs3 = 1),
        (Add, |i| i.number = 1),
        (Add, |i| i.scope = 1),
        (Add, |i| i.predicate = 4),
        (Add, |i| i.negate = true),
        (Eq, |i| i.rd = 4),
        (MovSpecial, |i| i.rs1 = 3),
        (Neg, |i| i.rs2 = 1),
        (Halt, |i| i.rd = 1),
        (Cas, |i| i.scope = 4),
        (Load, |i| i.rs2 = 1),
        (Ballot, |i| i.rs2 = 1),
        (Shuffle, |i| i.scope = 1),
    ];
    for (operation, change) in changes {
        let mut bad = Instruction::plain(operation);
        change(&mut bad);
        assert_eq!(write(bad, 2), Err(at(12, 0)), "{bad:?}");
    }
}

/// A desk stopped inside an IF inside a loop, and its state.
fn stopped() -> (Desk, State) {
    let code = "F2000000 F1010000 00000001 3F000030 2A010000 01000000 3F000001 3F0000F0
                3F000020 3F000041 3F000060";
    let mut desk = desk(8, 3, 2, code);
    desk.settings.budget = 5;
    let state = desk.launch().state;
    assert_eq!(state.place, 7);
    assert_eq!(state.blocks.len(), 2);
    (desk, state)
}

#[test]
fn states_that_do_not_fit() {
    let (desk, state) = stopped();
    assert_eq!(
        desk.clone().go(Some(&state)).outcome,
        Outcome::OutOfBudget,
        "as it stands it fits"
    );
    let with = |change: fn(&mut State)| {
        let mut bad = state.clone();
        change(&mut bad);
        desk.refusal(Some(&bad))
    };
    let changes: [fn(&mut State); 19] = [
        |s| s.place = 2,
        |s| s.place = 99,
        |s| s.place = 6,
        |s| s.blocks.clear(),
        |s| s.blocks[1].part = 2,
        |s| s.blocks[0].part = 1,
        |s| s.blocks[1].opener = 3,
        |s| s.blocks.swap(0, 1),
        |s| s.blocks.resize(33, Block::default()),
        |s| s.active |= 8,
        |s| s.predicates[2] = 8,
        |s| s.blocks[0].entered |= 1 << 31,
        |s| s.halted = 1,
        |s| s.active = 0,
        |s| s.blocks[1].again = 2,
        |s| s.blocks[1].left = 1,
        |s| s.blocks[1].left = 8,
        |s| s.blocks[0].entered = 3,
        |s| s.blocks[1].entered = 3,
    ];
    for change in changes {
        assert_eq!(with(change), (11, 0));
    }
    let mut end = state.clone();
    end.place = desk.code.len() as u32;
    assert_eq!(desk.refusal(Some(&end)), (11, 0), "blocks open at the end");
    end.blocks.clear();
    end.active = 7;
    assert_eq!(desk.clone().go(Some(&end)).outcome, Outcome::Ended);
}

/// A body with one block of kernel 1.
fn body() -> Vec<u32> {
    vec![1, 65_535, 2, 1, 4, 3, 8, 3, 0, 1, 3, 65_535, 15, 0, 1, 0]
}

#[test]
fn bodies_of_the_layout() {
    let length = |numbers: &[u32]| key::read(&bytes::from_numbers(numbers)).map(|b| b.length);
    assert_eq!(length(&body()), Some(64));
    assert_eq!(length(&body()[..15]), None);
    for (index, number) in [
        (1, 65_536),
        (2, 0),
        (2, 1),
        (3, 3),
        (5, 1),
        (5, 4),
        (4, 0),
        (6, 0),
        (6, 12),
        (9, 2),
        (9, 33),
        (10, 0),
        (10, 4),
        (10, 1),
        (10, 2),
        (11, 65_536),
    ] {
        let mut bad = body();
        bad[index] = number;
        assert_eq!(length(&bad), None, "{number} at {index}");
    }
}

/// A body of kernel 7 with these kinds, each with its lanes, in so many loops.
fn body_by(kinds: &[[u32; 2]], depth: usize) -> Vec<u8> {
    let mut numbers = vec![7, 0, kinds.len() as u32];
    numbers.extend(kinds.as_flattened());
    numbers.extend([0xF, 0, depth as u32]);
    numbers.extend([3, 1, 0xF, 0, 0, 0].repeat(depth));
    bytes::from_numbers(&numbers)
}

#[test]
fn kinds_of_the_layout() {
    let length = |kinds: &[[u32; 2]], depth| key::read(&body_by(kinds, depth)).map(|b| b.length);
    assert_eq!(length(&[[6, 1]], 0), Some(32));
    for kind in [1, 2, 3] {
        assert_eq!(length(&[[kind, 1], [6, 2]], 0), Some(40), "{kind} 6");
    }
    for past in [2, 3] {
        let three = [[1, 2], [past, 4], [6, 8]];
        assert_eq!(length(&three, 0), Some(48), "1 {past} 6");
        assert_eq!(length(&three, 32), Some(816), "1 {past} 6");
        assert_eq!(length(&three, 33), None, "1 {past} 6");
        for sets in [
            [1, 2, 2],
            [1, 1, 2],
            [1, 2, 1],
            [0, 1, 2],
            [1, 0, 2],
            [1, 2, 0],
        ] {
            let wrong = [[1, sets[0]], [past, sets[1]], [6, sets[2]]];
            assert_eq!(length(&wrong, 0), None, "1 {past} 6, {sets:?}");
        }
    }
}

#[test]
fn kinds_of_no_layout() {
    let lists: [&[u32]; 15] = [
        &[0],
        &[7],
        &[6, 1],
        &[6, 2],
        &[6, 6],
        &[4, 6],
        &[5, 6],
        &[1, 7],
        &[2, 3, 6],
        &[1, 2, 3],
        &[1, 6, 2],
        &[6, 1, 2],
        &[1, 4, 6],
        &[1, 2, 3, 6],
        &[1, 2, 6, 6],
    ];
    for kinds in lists {
        let apart: Vec<[u32; 2]> = (0..).zip(kinds).map(|(k, kind)| [*kind, 1 << k]).collect();
        assert_eq!(key::read(&body_by(&apart, 0)), None, "{kinds:?}");
    }
}

#[test]
fn writing_a_key() {
    let state = State::launched(3);
    let write = |outcome: &Outcome, state: &State, room: usize| {
        let mut output = vec![7; room];
        let result = key::write(9, outcome, state, &mut output);
        let length = result.unwrap_or(0);
        assert!(output[length..].iter().all(|byte| *byte == 7));
        result
    };
    let fault = Outcome::Fault([0, 0, 0, 1, 0, 0]);
    assert_eq!(write(&fault, &state, 40), Ok(32));
    assert_eq!(write(&fault, &state, 31), Err(at(13, 0)));
    assert_eq!(write(&Outcome::Ended, &state, 0), Err(at(14, 0)));
    for faults in [
        [0; 6],
        [1, 1, 0, 0, 0, 0],
        [0, 1, 2, 0, 0, 0],
        [1, 2, 4, 0, 0, 0],
        [0, 0, 0, 1, 0, 2],
        [0, 0, 0, 0, 1, 2],
        [0, 1, 2, 0, 0, 4],
        [1, 2, 4, 0, 0, 8],
        [1, 2, 0, 0, 0, 2],
        [1, 0, 2, 0, 0, 1],
    ] {
        assert_eq!(write(&Outcome::Fault(faults), &state, 99), Err(at(14, 0)));
    }
    let mut deep = state.clone();
    deep.blocks = vec![
        Block {
            part: 3,
            ..Block::default()
        };
        32
    ];
    let three = Outcome::Fault([1, 2, 0, 0, 0, 4]);
    assert_eq!(write(&three, &state, 48), Ok(48));
    assert_eq!(write(&three, &deep, 815), Err(at(13, 0)));
    assert_eq!(write(&three, &deep, 816), Ok(816));
    deep.blocks.push(deep.blocks[0]);
    assert_eq!(write(&fault, &deep, 2000), Err(at(14, 0)));
}

#[test]
fn making_a_day_file() {
    let small = bytes::from_numbers(&[7, 1, 1, 4, 1, 3, 0, 0]);
    let make = |bodies: &[u8], room: usize| dayfile::make(bodies, &mut vec![0; room]);
    assert_eq!(make(&[], 4), Ok(4));
    assert_eq!(make(&[], 3), Err(at(13, 0)));
    assert_eq!(make(&small.repeat(1024), 40_964), Ok(40_964));
    assert_eq!(make(&small.repeat(1024), 40_963), Err(at(13, 0)));
    assert_eq!(make(&small.repeat(1025), 0), Err(at(15, 0)));
    let mut tail = small.repeat(1024);
    tail.push(0);
    assert_eq!(make(&tail, 0), Err(at(15, 0)), "before the body is read");
    assert_eq!(make(&tail[32..], 0), Err(at(14, 32_736)), "its first byte");
}

#[test]
fn reading_a_day_file() {
    let one = bytes::from_numbers(&[7, 1, 1, 4, 1, 3, 0, 0]);
    let two = bytes::from_numbers(&[8, 1, 1, 4, 1, 3, 0, 0]);
    let mut file = vec![0; 124];
    let made = dayfile::make(&[one.clone(), two, one].concat(), &mut file);
    assert_eq!(made, Ok(124));
    let first = |i| dayfile::record(&file, i).map(|record| record.first);
    assert_eq!([first(1), first(2), first(3)], [Ok(1), Ok(2), Ok(1)]);
    assert_eq!(first(0), Err(at(16, 0)));
    assert_eq!(first(4), Err(at(16, 0)));
    for index in [0, 4, 8, 12, 36, 68] {
        let mut bad = file.clone();
        bad[index] ^= 1 << 6;
        assert_eq!(dayfile::record(&bad, 0), Err(at(14, 0)), "byte {index}");
    }
    assert_eq!(dayfile::count(&file[..123]), Err(at(14, 0)));
    assert_eq!(dayfile::count(&[1, 4, 0]), Err(at(14, 0)));
    assert_eq!(dayfile::count(&[0, 4, 0, 0]), Err(at(14, 0)));
    assert_eq!(dayfile::count(&[1, 4, 0, 0]), Err(at(15, 0)));
    assert_eq!(dayfile::count(&[0, 0, 0, 0]), Ok(0));
}

#[test]
fn listings() {
    assert_eq!(listing(&[1, 4, 0, 0]), "refused 15\n");
    assert_eq!(listing(&vec![0; 65_536]), "refused 14\n");
    assert_eq!(listing(&vec![0; 65_537]), "too long\n");
    let empty = "record first kernel place kinds depth\ntotal 0 distinct 0\n";
    assert_eq!(listing(&[0, 0, 0, 0]), empty);
    let mut file = vec![0; 76];
    dayfile::make(&bytes::from_numbers(&body()), &mut file).expect("a file");
    assert!(listing(&file).contains("\n1 1 1 65535 1,3 1\n"));
    let mut file = vec![0; 60];
    dayfile::make(&body_by(&[[1, 2], [2, 4], [6, 8]], 0), &mut file).expect("a file");
    assert!(listing(&file).contains("\n1 1 7 0 1,2,6 0\n"));
}
