//! What the page asks to be run besides, the fault kinds, and the shortcuts that broke the old tool.

mod common;

use common::{Desk, desk};
use second::run::Outcome;
use second::state::{Block, State};

/// So many IF on p1, then as many ENDIF.
fn nested(depth: usize) -> String {
    "3F000001 ".repeat(depth) + &"3F000020 ".repeat(depth)
}

#[test]
fn depth_32_and_33() {
    let answer = desk(8, 8, 1, &nested(32)).launch();
    assert_eq!(answer.outcome, Outcome::Ended);
    assert_eq!(answer.steps, 64);
    assert_eq!(desk(8, 8, 1, &nested(33)).refusal(None), (9, 32));
}

#[test]
fn depth_32_stops_and_goes_on() {
    let mut desk = desk(8, 8, 1, &nested(32));
    desk.settings.budget = 32;
    let stopped = desk.launch();
    assert_eq!(stopped.outcome, Outcome::OutOfBudget);
    assert_eq!(stopped.state.blocks.len(), 32);
    let answer = desk.go(Some(&stopped.state));
    assert_eq!(answer.outcome, Outcome::Ended);
    assert_eq!(answer.state.active, 255);
}

#[test]
fn empty_code_has_ended() {
    for budget in [0, 5] {
        let mut desk = desk(16, 3, 4, "");
        desk.settings.budget = budget;
        let answer = desk.launch();
        assert_eq!(answer.outcome, Outcome::Ended);
        assert_eq!(answer.steps, 0);
        assert_eq!(answer.state, State::launched(3));
    }
}

#[test]
fn budget_0_on_code_that_would_fault() {
    let mut desk = desk(8, 1, 1, "03000000 00000000");
    desk.local = vec![9];
    desk.settings.budget = 0;
    let answer = desk.launch();
    assert_eq!(answer.outcome, Outcome::OutOfBudget);
    assert_eq!(desk.local, [0]);
}

#[test]
fn budget_0_on_code_that_has_ended() {
    let mut desk = desk(8, 1, 1, "3F0000F0");
    let ended = desk.launch();
    desk.settings.budget = 0;
    desk.local = vec![9];
    let answer = desk.go(Some(&ended.state));
    assert_eq!(answer.outcome, Outcome::Ended);
    assert_eq!(answer.state, ended.state);
    assert_eq!(desk.local, [9], "a resumed run doesn't fill local memory");
}

#[test]
fn no_memory_faults_every_address() {
    let mut load = desk(8, 2, 1, "30000000 00000000");
    assert_eq!(load.launch().outcome, Outcome::Fault([0, 3, 0, 0, 0, 0]));
    let mut local = desk(8, 2, 1, "39000000 00000000");
    assert_eq!(local.launch().outcome, Outcome::Fault([0, 0, 3, 0, 0, 0]));
}

#[test]
fn every_lane_halted_in_a_loop_ends_there() {
    let answer = desk(8, 2, 1, "3F000030 3F000090 3F0000F0 3F000060").launch();
    assert_eq!(answer.outcome, Outcome::Ended);
    assert_eq!(answer.steps, 2);
    assert_eq!(answer.state.place, 2);
    let block = Block {
        part: 3,
        opener: 0,
        entered: 3,
        left: 3,
        ..Block::default()
    };
    assert_eq!(answer.state.blocks, [block]);
}

/// A desk of four lanes whose r0 are given, with one word of device memory and one of local.
fn with_r0(code: &str, r0: [u32; 4]) -> Desk {
    let mut desk = desk(8, 4, 1, code);
    desk.registers[..4].copy_from_slice(&r0);
    desk.device = vec![5];
    desk.local = vec![0];
    desk
}

#[test]
fn fault_kinds_lane_by_lane() {
    let device = "30000000 00000000";
    let outcome = with_r0(device, [0, 1, 4, 6]).launch().outcome;
    assert_eq!(outcome, Outcome::Fault([0b1010, 0b100, 0, 0, 0, 0]));
    let local = "38000000 00000000";
    let outcome = with_r0(local, [0, 1, 4, 6]).launch().outcome;
    assert_eq!(outcome, Outcome::Fault([0b1010, 0, 0b100, 0, 0, 0]));
    for divide in [
        "03000000 00000000",
        "04000000 00000000",
        "05000000 00000000",
        "06000000 00000000",
    ] {
        let outcome = with_r0(divide, [0, 1, 0, 6]).launch().outcome;
        assert_eq!(outcome, Outcome::Fault([0, 0, 0, 0b101, 0, 0]));
    }
}

#[test]
fn a_sum_that_reaches_the_top_has_kind_6_alone() {
    let bases = [0xFFFFFFF8, 0xFFFFFFF9, 0xFFFFFFFC, 0xFFFFFFFF];
    for (code, past) in [
        ("30000000 00000004", 2),
        ("31000000 00000004", 2),
        ("38000000 00000004", 3),
        ("39000000 00000004", 3),
    ] {
        let mut expected = [0b0010, 0, 0, 0, 0, 0b1100];
        expected[past - 1] = 0b0001;
        let mut desk = with_r0(code, bases);
        assert_eq!(desk.launch().outcome, Outcome::Fault(expected));
        assert_eq!(desk.registers[..4], bases);
        assert_eq!((desk.device, desk.local), (vec![5], vec![0]));
    }
}

#[test]
fn an_atomic_has_no_offset_and_no_kind_6() {
    for code in ["3C000000 00000000", "3D000000 00000000"] {
        let outcome = with_r0(code, [0xFFFFFFFC, 0xFFFFFFFF, 0, 4])
            .launch()
            .outcome;
        assert_eq!(outcome, Outcome::Fault([0b0010, 0b1001, 0, 0, 0, 0]));
    }
}

#[test]
fn a_faulting_store_writes_no_lane() {
    let mut desk = with_r0("31000000 00000000", [0, 4, 0, 0]);
    let answer = desk.launch();
    assert_eq!(answer.outcome, Outcome::Fault([0, 0b10, 0, 0, 0, 0]));
    assert_eq!(answer.steps, 0);
    assert_eq!(desk.device, [5]);
}

#[test]
fn a_barrier_faults_where_some_launched_lane_is_inactive() {
    let compared = "F2000000 28010000 00000000 3F000001";
    let waiting = desk(8, 4, 2, &format!("{compared} 3F0000A0 3F000020")).launch();
    assert_eq!(waiting.outcome, Outcome::Ended, "every lane is equal");
    let split = "F2000000 F1010000 00000002 2A010000 01000000";
    let half = desk(8, 4, 2, &format!("{split} 3F000001 3F0000A0 3F000020")).launch();
    assert_eq!(half.outcome, Outcome::Fault([0, 0, 0, 0, 0b11, 0]));
    let halted = desk(8, 4, 2, &format!("{split} 3F000091 3F0000A0")).launch();
    assert_eq!(halted.outcome, Outcome::Ended, "the others have halted");
    assert_eq!(halted.state.halted, 0b11);
}

#[test]
fn a_barrier_with_no_active_lane_does_not_fault() {
    let never = "28010000 00000000 3F000001 3F000010 3F0000A0 3F000020";
    assert_eq!(desk(8, 4, 1, never).launch().outcome, Outcome::Ended);
}

#[test]
fn the_highest_store_stays_and_atomics_see_lower_lanes() {
    let mut store = desk(8, 3, 2, "F2010000 31010000 00000000");
    store.device = vec![0];
    store.launch();
    assert_eq!(store.device, [2]);
    let mut atomic = desk(8, 3, 2, "F2010000 3C010000 01000000");
    atomic.device = vec![10];
    atomic.launch();
    assert_eq!(atomic.device, [13]);
    let old: Vec<u32> = (0..3).map(|lane| atomic.register(lane, 1)).collect();
    assert_eq!(old, [10, 10, 11]);
}

/// A launch of four lanes at width 8 with registers of 0: its steps, and r0 and r1 of the lanes.
fn four(code: &str) -> (u32, [u32; 4], [u32; 4]) {
    let mut desk = desk(8, 4, 2, code);
    let answer = desk.launch();
    assert_eq!(answer.outcome, Outcome::Ended);
    assert_eq!(desk.registers[8..], [0; 8], "lanes that weren't launched");
    let register = |r| std::array::from_fn(|lane| desk.register(lane as u32, r));
    (answer.steps, register(0), register(1))
}

#[test]
fn wave_operations_of_the_lane_numbers() {
    for (operation, r1) in [
        ("3E010000 00000000", [0; 4]),
        ("3E010010 00000000", [6; 4]),
        ("3E010020 00000000", [0; 4]),
        ("3E010030 00000000", [3; 4]),
        ("3E010040 00000000", [0, 0, 1, 3]),
        ("3E010050 00000000", [0, 1, 2, 3]),
        ("3E010060 00000000", [0xE; 4]),
        ("3E010070 00000000", [1; 4]),
        ("3E010080 00000000", [0; 4]),
    ] {
        let code = format!("F2000000 {operation}");
        assert_eq!(four(&code), (2, [0, 1, 2, 3], r1), "{operation}");
    }
    assert_eq!(four("3E010011 00000000"), (1, [0; 4], [0; 4]));
}

#[test]
fn wave_operations_on_not_p1() {
    let split = "F2000000 F1010000 00000002 2A010000 01000000";
    for (operation, r1) in [
        ("3E010045 00000000", [2, 2, 0, 2]),
        ("3E010005 00000000", [2, 2, 0, 0]),
    ] {
        let code = format!("{split} {operation}");
        assert_eq!(four(&code), (4, [0, 1, 2, 3], r1), "{operation}");
    }
}

#[test]
fn a_shuffle_of_the_lane_numbers() {
    let turned = "F2000000 F1010000 00000003 01010100 00000000 3E000050 01000000";
    assert_eq!(four(turned), (4, [3, 2, 1, 0], [3, 2, 1, 0]));
    let moved = "F2000000 F1010000 00000002 00010100 00000000 3E000050 01000000";
    assert_eq!(four(moved), (4, [2, 3, 0, 0], [2, 3, 4, 5]));
    let far = "F2000000 F1010000 FFFFFFFF 3E000050 01000000";
    assert_eq!(four(far), (3, [0; 4], [0xFFFFFFFF; 4]));
}

#[test]
fn endif_does_not_wake_broken_lanes_nor_endloop_halted_ones() {
    let code = "F2000000 F1010000 00000001 3F000030 28010000 01000000 3F000001 3F000040
                3F000020 28020000 00000000 3F000092 3F0000F0 3F000060";
    let mut desk = desk(8, 3, 2, code);
    desk.settings.budget = 9;
    let answer = desk.launch();
    assert_eq!(answer.state.halted, 0b101);
    assert_eq!(answer.state.blocks[0].aside, 0b010);
    desk.settings.budget = 1000;
    assert_eq!(desk.go(Some(&answer.state)).outcome, Outcome::Ended);
}

#[test]
fn else_does_not_test_the_predicate_again() {
    let code = "F2000000 F1010000 00000001 2A010000 01000000 3F000001 2B010000 01000000
                3F000010 F1010000 00000009 3F000020";
    let mut desk = desk(8, 2, 2, code);
    desk.launch();
    assert_eq!([desk.register(0, 1), desk.register(1, 1)], [1, 9]);
}

#[test]
fn a_stopped_run_that_goes_on_is_the_whole_run() {
    let code = "F2000000 F1010000 00000001 3F000030 00020200 01000000 2B020200 00000000
                3F000042 00030306 02000000 3F000060 3F0000F0";
    let mut whole = desk(8, 4, 4, code);
    let expected = whole.launch();
    assert_eq!(expected.outcome, Outcome::Ended);
    for first in 0..=expected.steps {
        let mut parts = desk(8, 4, 4, code);
        parts.settings.budget = first;
        let stopped = parts.launch();
        parts.settings.budget = 1000;
        let answer = parts.go(Some(&stopped.state));
        assert_eq!(answer.outcome, expected.outcome);
        assert_eq!(answer.state, expected.state);
        assert_eq!(answer.steps + stopped.steps, expected.steps);
        assert_eq!(parts.registers, whole.registers);
    }
}
