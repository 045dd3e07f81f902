//! The fault kinds 1 to 5, alone and with another; what a faulting instruction leaves alone; the order of
//! stores and atomics.

use super::{Named, launch};
use crate::step::Faults;

/// The kinds 1 to 5, two at once, no change by a fault, rising lanes, and a key with every set.
pub fn cases() -> Vec<Named> {
    let mut cases = addresses();
    cases.extend(divisions());
    cases.extend(barriers());
    cases.extend(unchanged());
    cases.extend(rising());
    cases.push(every_set());
    cases
}

/// A launch of three lanes that faults at once, with r0 of the lanes and two words of each memory.
pub fn at_once(name: &str, line: &str, r0: [u32; 3], lanes: Faults, kinds: &[u32]) -> Named {
    let body = [&[7, 0, kinds.len() as u32 / 2], kinds, &[7, 0, 0]].concat();
    launch(name, 8, 3, 2, line)
        .lent(0, &r0)
        .lent(1, &[11, 12, 13])
        .device(&[21, 22])
        .local(&[31, 32])
        .faults(0, 0, lanes, &body)
}

fn addresses() -> Vec<Named> {
    vec![
        at_once(
            "kind 1: a load that isn't on a multiple of 4",
            "LOAD r1, [r0 + 0]",
            [0, 2, 4],
            [0b010, 0, 0, 0, 0, 0],
            &[1, 2],
        ),
        at_once(
            "kind 1 alone: an odd address past the memory",
            "LOAD r1, [r0 + 0]",
            [0, 0xFFFFFFFF, 9],
            [0b110, 0, 0, 0, 0, 0],
            &[1, 6],
        ),
        at_once(
            "kind 2: a store past the device memory",
            "STORE [r0 + 4], r1",
            [0, 4, 0xFFFFFFF8],
            [0, 0b110, 0, 0, 0, 0],
            &[2, 6],
        ),
        at_once(
            "kind 3: a store past the local memory",
            "LOCAL_STORE [r0 + 0], r1",
            [8, 4, 12],
            [0, 0, 0b101, 0, 0, 0],
            &[3, 5],
        ),
        at_once(
            "kinds 1 and 2: an atomic",
            "ATOMIC_ADD r1, [r0], r1",
            [8, 1, 4],
            [0b010, 0b001, 0, 0, 0, 0],
            &[1, 2, 2, 1],
        ),
        at_once(
            "kinds 1 and 3: a local load",
            "LOCAL_LOAD r1, [r0 + 2]",
            [0, 2, 6],
            [0b001, 0, 0b100, 0, 0, 0],
            &[1, 1, 3, 4],
        ),
    ]
}

fn divisions() -> Vec<Named> {
    let faulting = |name: &str| {
        at_once(
            &format!("kind 4: {name} by 0"),
            &format!("{name} r1, r1, r0"),
            [5, 0, 0],
            [0, 0, 0, 0b110, 0, 0],
            &[4, 6],
        )
    };
    let mut cases: Vec<Named> = ["DIV", "UDIV", "REM", "UREM"].map(faulting).into();
    let guarded = "
        NE p1, r0, r2
        DIV r1, r1, r0 on p1
    ";
    cases.push(
        launch(
            "a lane whose predicate disagrees doesn't fault",
            8,
            3,
            3,
            guarded,
        )
        .lent(0, &[0, 2, 0xFFFFFFFF])
        .lent(1, &[8, 0xFFFFFFF9, 0x80000000])
        .ends(2, 4)
        .predicates([0b110, 0, 0])
        .register_after(1, &[8, 0xFFFFFFFD, 0x80000000]),
    );
    cases
}

fn barriers() -> Vec<Named> {
    let waiting = "
        EQ p1, r0, r1
        IF on p1
          BARRIER
        ENDIF
    ";
    let halted = "
        EQ p1, r0, r1
        HALT on p1
        BARRIER
    ";
    let nobody = "
        IF on p1
          BARRIER
        ENDIF
    ";
    vec![
        launch("kind 5: a barrier while lanes wait", 8, 3, 2, waiting)
            .lent(0, &[0, 1, 0])
            .faults(
                2,
                3,
                [0, 0, 0, 0, 0b101, 0],
                &[7, 3, 1, 5, 5, 5, 0, 1, 1, 2, 7, 2, 0, 0],
            )
            .active(0b101)
            .predicates([0b101, 0, 0])
            .blocks(&[[1, 2, 7, 2, 0, 0]]),
        launch("a barrier that the halted lanes miss", 8, 3, 2, halted)
            .lent(0, &[0, 1, 1])
            .ends(3, 4)
            .active(0b110)
            .halted(0b001)
            .predicates([0b001, 0, 0]),
        launch("a barrier with no lane active", 8, 3, 2, nobody).ends(3, 3),
    ]
}

/// The highest lane faults; the lanes below it keep registers and memory.
fn unchanged() -> Vec<Named> {
    let lines = [
        "LOAD r1, [r0 + 0]",
        "STORE [r0 + 0], r1",
        "ATOMIC_XCHG r1, [r0], r1",
        "CAS r1, [r0], r1, r0",
    ];
    let faulting = |line: &str| {
        at_once(
            &format!("lanes below the faulting one are as before: {line}"),
            line,
            [0, 4, 8],
            [0, 0b100, 0, 0, 0, 0],
            &[2, 4],
        )
    };
    let mut cases: Vec<Named> = lines.map(faulting).into();
    cases.push(at_once(
        "lanes below the faulting one are as before: DIV r1, r1, r0",
        "DIV r1, r1, r0",
        [3, 4, 0],
        [0, 0, 0, 0b100, 0, 0],
        &[4, 4],
    ));
    cases
}

fn rising() -> Vec<Named> {
    let halves = "
        MOV_SPECIAL r0, lane
        STORE [r1 + 0], r0
        LOCAL_STORE [r1 + 4], r0
    ";
    let compare_and_swap = "CAS r2, [r1], r0, r3";
    vec![
        launch(
            "stores in rising lane order: the highest stays",
            8,
            5,
            2,
            halves,
        )
        .device(&[9, 9])
        .local(&[9, 9])
        .ends(3, 5)
        .register_after(0, &[0, 1, 2, 3, 4])
        .device_after(&[4, 9])
        .local_after(&[0, 4]),
        launch(
            "atomics in rising lane order",
            8,
            3,
            2,
            "ATOMIC_ADD r0, [r1], r0",
        )
        .lent(0, &[1, 10, 100])
        .device(&[1000])
        .ends(1, 2)
        .register_after(0, &[1000, 1001, 1011])
        .device_after(&[1111]),
        launch(
            "a compare-and-swap sees the lower lanes' work",
            8,
            4,
            4,
            compare_and_swap,
        )
        .lent(0, &[5, 6, 5, 7])
        .lent(3, &[6, 7, 8, 9])
        .device(&[5])
        .ends(1, 2)
        .register_after(2, &[5, 6, 7, 7])
        .device_after(&[9]),
        launch("a load into its own base", 8, 2, 1, "LOAD r0, [r0 + 0]")
            .lent(0, &[4, 0])
            .device(&[70, 80])
            .ends(1, 2)
            .register_after(0, &[80, 70]),
    ]
}

/// Lane 0 has broken, 1 continued, 2 halted, 3 waits, and 4 faults.
fn every_set() -> Named {
    let code = "
        LOOP
          EQ p1, r0, r1
          BREAK on p1
          EQ p1, r0, r2
          CONTINUE on p1
          EQ p1, r0, r3
          HALT on p1
          EQ p1, r0, r4
          IF on p1
            NOP
          ELSE
            LOAD r5, [r0 + 0]
          ENDIF
        ENDLOOP
    ";
    let blocks = [[3, 0, 31, 1, 2, 4], [2, 12, 24, 8, 0, 0]];
    let body = [&[7, 15, 1, 2, 16, 16, 4, 2], blocks.as_flattened()].concat();
    launch("a key with every set", 8, 5, 6, code)
        .lent(0, &[0, 1, 2, 3, 4])
        .lent(2, &[1; 5])
        .lent(3, &[2; 5])
        .lent(4, &[3; 5])
        .faults(11, 15, [0, 16, 0, 0, 0, 0], &body)
        .active(16)
        .halted(4)
        .predicates([0b01111, 0, 0])
        .blocks(&blocks)
}
