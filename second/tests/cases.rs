//! The random cases: their format, what they reach, and what every run they make keeps to.

use std::collections::BTreeSet;

use second::assembly;
use second::bench::decoded;
use second::bytes;
use second::capture::Capture;
use second::cases::agreement;
use second::cases::answer::answer;
use second::cases::format;
use second::cases::make;
use second::cases::reached::Reached;
use second::cases::{Case, random::Random};
use second::operations::Operation;
use second::run::Outcome;
use second::state::first_lanes;
use second::step;
use second::text;
use second::words::{self, Instruction};

fn cases(seed: u64, count: u64) -> Vec<Case> {
    (1..=count).map(|number| make::case(seed, number)).collect()
}

/// The launches and resumed runs among the cases.
fn captures(seed: u64, count: u64) -> Vec<Capture> {
    let capture = |case| match case {
        Case::Run { capture, .. } => Some(capture),
        _ => None,
    };
    cases(seed, count).into_iter().filter_map(capture).collect()
}

#[test]
fn cases_are_read_as_they_were_written() {
    let made = cases(11, 1500);
    let file: Vec<u8> = made.iter().flat_map(Case::write).collect();
    assert_eq!(format::read_all(&file), Ok(made));
    assert!(format::read_all(&file[..file.len() - 4]).is_err());
    assert!(format::read_all(&file[..file.len() - 1]).is_err());
}

#[test]
fn cases_keep_to_their_bounds() {
    for case in cases(12, 3000) {
        match case {
            Case::Run { capture, key_room } => {
                assert!(capture.code.len() <= 65_537);
                assert!(capture.registers.len() <= 8_193);
                assert!(capture.device.len() <= 2_048 && capture.local.len() <= 2_048);
                assert!(capture.state.is_none_or(|state| state.blocks.len() <= 40));
                assert!(key_room <= 66_000);
            }
            Case::Key { state, room, .. } => assert!(state.blocks.len() <= 40 && room <= 66_000),
            Case::Make { bodies, room } => assert!(bodies.len().max(room) <= 66_000),
            Case::File { file, .. } | Case::Listing { file } => assert!(file.len() <= 66_000),
            Case::Read { words } => assert!(words.len() <= 4),
            Case::Write { room, .. } => assert!(room <= 4),
            Case::Text { room, .. } => assert!(room <= 60),
        }
    }
}

#[test]
fn everything_is_reached() {
    let reached = &mut Reached::default();
    for case in cases(13, 3000) {
        answer(&case, reached);
    }
    assert_eq!(reached.check(), Ok(()));
    assert!(Reached::default().check().is_err());
}

#[test]
fn each_list_of_an_address_s_kinds_is_made() {
    let lists: [&[usize]; 11] = [
        &[1],
        &[2],
        &[3],
        &[1, 2],
        &[1, 3],
        &[6],
        &[1, 6],
        &[2, 6],
        &[3, 6],
        &[1, 2, 6],
        &[1, 3, 6],
    ];
    for seed in 0..100 {
        for (number, kinds) in (13..).zip(lists) {
            let Case::Run { mut capture, .. } = make::case(seed, number) else {
                panic!("a run, as case {number} of each seed")
            };
            let Outcome::Fault(lanes) = capture.run().outcome else {
                panic!("a fault, as case {number} of each seed")
            };
            let found: Vec<usize> = (1..=6).filter(|kind| lanes[kind - 1] != 0).collect();
            assert_eq!(found, kinds, "case {number} of seed {seed}");
        }
    }
}

#[test]
fn each_wave_operation_is_made_on_each_guard_in_some_lanes() {
    let all = Operation::ALL;
    let waves = all.iter().filter(|operation| operation.form().is_wave());
    let first = 13 + 11 + 3 + all.len() as u64;
    for seed in 0..100 {
        for (number, operation) in (first..).zip(waves.clone()) {
            let Case::Run { mut capture, .. } = make::case(seed, number) else {
                panic!("a run, as case {number} of each seed")
            };
            let (code, lanes) = (capture.code.clone(), capture.settings.lanes);
            let mut guards = BTreeSet::new();
            capture.run_watched(&mut |state, _| {
                let i = words::instruction_at(&code, state.place as usize);
                let executing = step::executing_lanes(&i, state);
                if i.operation == *operation && executing != 0 && executing != first_lanes(lanes) {
                    guards.insert((i.predicate, i.negate));
                }
            });
            let expected = [(0, false), (3, false), (3, true)];
            assert_eq!(guards, expected.into(), "case {number} of seed {seed}");
        }
    }
}

#[test]
fn the_first_difference_is_named() {
    let made = cases(14, 60);
    let reached = &mut Reached::default();
    let answers: Vec<u8> = made
        .iter()
        .flat_map(|c| answer(c, reached).write())
        .collect();
    let numbers = bytes::to_numbers(&answers);
    assert_eq!(agreement::compare_all(&made, 1, &numbers, reached), Ok(()));
    let mut random = Random::new(14, 0);
    for _ in 0..20 {
        let mut changed = numbers.clone();
        changed[random.below(numbers.len())] ^= 1 << random.below(32);
        let difference = agreement::compare_all(&made, 1, &changed, reached);
        assert!(difference.is_err_and(|text| text.starts_with("case ")));
    }
    let short = &numbers[..numbers.len() - 1];
    assert!(agreement::compare_all(&made, 1, short, reached).is_err());
    let long = [&numbers[..], &[0]].concat();
    assert!(agreement::compare_all(&made, 1, &long, reached).is_err());
}

#[test]
fn every_state_of_a_run_fits() {
    for mut capture in captures(15, 600) {
        let (code, lanes) = (capture.code.clone(), capture.settings.lanes);
        if code.len() < 1000 {
            let answer = capture.run_watched(&mut |state, _| {
                assert_eq!(state.misfit(&code, lanes), None);
            });
            if !matches!(answer.outcome, Outcome::Refused(_)) {
                assert_eq!(answer.state.misfit(&code, lanes), None);
            }
        }
    }
}

#[test]
fn a_run_in_parts_is_the_whole_run() {
    let mut random = Random::new(16, 0);
    for mut whole in captures(16, 1500) {
        let mut parts = whole.clone();
        let expected = whole.run();
        if matches!(expected.outcome, Outcome::Refused(_)) {
            continue;
        }
        let budget = parts.settings.budget;
        parts.settings.budget = random.below(budget as usize + 1) as u32;
        let stopped = parts.run();
        parts.settings.budget = budget - stopped.steps;
        parts.state = Some(stopped.state);
        let answer = parts.run();
        assert_eq!(answer.outcome, expected.outcome);
        assert_eq!(answer.steps + stopped.steps, expected.steps);
        assert_eq!(answer.state, expected.state);
        assert_eq!(parts.registers, whole.registers);
        assert_eq!(parts.device, whole.device);
        assert_eq!(parts.local, whole.local);
    }
}

#[test]
fn the_decoding_interpreter_gives_the_same() {
    for mut capture in captures(18, 3000) {
        let mut other = capture.clone();
        let expected = capture.run();
        let refused = matches!(expected.outcome, Outcome::Refused(_));
        if capture.state.is_none() && !refused {
            assert_eq!(decoded::run(&mut other), expected);
            assert_eq!(other, capture);
        }
    }
}

#[test]
fn captures_are_packed_and_shown_and_packed_again() {
    for capture in captures(17, 600) {
        assert_eq!(Capture::read(&capture.write()), Ok(capture.clone()));
        let read = text::read(&text::print(&capture)).expect("a capture");
        assert_eq!(read.capture, capture);
        assert_eq!(read.doubtful, []);
    }
}

#[test]
fn texts_are_asked_for_with_every_room() {
    let mut rooms = [false; 61];
    let (mut short, mut exact) = (0, 0);
    for case in cases(19, 20_000) {
        if let Case::Text { instruction, room } = case {
            rooms[room] = true;
            let length = assembly::write(&instruction, &mut [0; 60]);
            short += u32::from(length.is_ok_and(|length| room + 1 == length));
            exact += u32::from(length == Ok(room));
        }
    }
    assert!(rooms.iter().all(|reached| *reached), "{rooms:?}");
    assert!(short > 50 && exact > 50);
}

#[test]
fn a_text_is_answered_as_the_format_says() {
    let mut instruction = Instruction::plain(Operation::Mov);
    (instruction.rd, instruction.rs1) = (1, 2);
    let numbers = |instruction: Instruction, room: usize| {
        let case = Case::Text { instruction, room };
        let file = case.write();
        assert_eq!(bytes::to_numbers(&file)[..2], [8, 10]);
        assert_eq!(format::read_all(&file), Ok(vec![case.clone()]));
        answer(&case, &mut Reached::default()).write()
    };
    let length = |number: u8| [[0; 8].as_slice(), &[number, 0, 0, 0]].concat();
    let text = b"MOV r1, r2\xA5\xA5\xA5\0\0\0";
    assert_eq!(numbers(instruction, 13), [&length(10)[..], text].concat());
    let text = b"MOV r1, r2\0\0";
    assert_eq!(numbers(instruction, 10), [&length(10)[..], text].concat());
    let refused = |number: u8| [&[number][..], &[0; 11]].concat();
    let lent = [&[0xA5; 9][..], &[0; 3]].concat();
    assert_eq!(numbers(instruction, 9), [&refused(13)[..], &lent].concat());
    instruction.scope = 1;
    assert_eq!(numbers(instruction, 0), refused(12));
}
