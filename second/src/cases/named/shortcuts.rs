//! The shortcuts that broke the old tool. A lane that one of them would wake, or leave out, shows in r2.

use super::{Named, launch};

/// The three shortcuts of ENDIF, ENDLOOP and ELSE, and two faults that only their keys tell apart.
/// Writing lanes below the faulting one is among the faults.
pub fn cases() -> Vec<Named> {
    let mut cases = waking();
    cases.extend(testing_again());
    cases.extend(same_place_and_kind());
    cases
}

/// Three lanes with their numbers in r0 and 1 in r3; p1 becomes lane 0.
fn three(name: &str, code: &str) -> Named {
    launch(name, 8, 3, 4, &format!("EQ p1, r0, r1\n{code}"))
        .lent(0, &[0, 1, 2])
        .lent(3, &[1, 1, 1])
}

fn waking() -> Vec<Named> {
    let broken = "
        LOOP
          IF on p1
            BREAK
          ENDIF
          ADD r2, r2, r3
          BREAK
        ENDLOOP
    ";
    let continued = "
        LOOP
          IF on p1
            EQ p1, r2, r3
            CONTINUE on not p1
          ENDIF
          ADD r2, r2, r3
          BREAK
        ENDLOOP
    ";
    let halted = "
        LOOP
          HALT on p1
          BREAK
        ENDLOOP
        ADD r2, r2, r3
    ";
    let halted_before_a_round = "
        LOOP
          ADD r2, r2, r3
          EQ p2, r2, r0
          BREAK on p2
          HALT on p1
        ENDLOOP
        ADD r2, r2, r3
    ";
    vec![
        three("ENDIF doesn't wake lanes that broke out", broken)
            .ends(8, 10)
            .predicates([0b001, 0, 0])
            .register_after(2, &[0, 1, 1]),
        three("ENDIF doesn't wake lanes that continued", continued)
            .budget(8)
            .stops(8, 11)
            .active(0)
            .blocks(&[[3, 2, 7, 6, 1, 0]])
            .register_after(2, &[0, 1, 1]),
        three("ENDLOOP doesn't wake lanes that halted", halted)
            .ends(6, 8)
            .active(0b110)
            .halted(0b001)
            .predicates([0b001, 0, 0])
            .register_after(2, &[0, 1, 1]),
        three(
            "ENDLOOP goes round without the halted lanes",
            halted_before_a_round,
        )
        .ends(13, 12)
        .active(0b110)
        .halted(0b001)
        .predicates([0b001, 0b110, 0])
        .register_after(2, &[1, 2, 3]),
    ]
}

fn testing_again() -> Vec<Named> {
    let leaves = "
        IF on p1
          NE p1, r0, r0
        ELSE
          ADD r2, r2, r3
        ENDIF
    ";
    let joins = "
        IF on not p1
          EQ p1, r0, r0
        ELSE
          ADD r2, r2, r3
        ENDIF
    ";
    vec![
        three("ELSE doesn't test again: the first half clears it", leaves)
            .ends(6, 9)
            .register_after(2, &[0, 1, 1]),
        three("ELSE doesn't test again: the first half sets it", joins)
            .ends(6, 9)
            .predicates([0b111, 0, 0])
            .register_after(2, &[1, 0, 0]),
    ]
}

fn same_place_and_kind() -> Vec<Named> {
    let code = "
        LOOP
          EQ p1, r0, r1
          BREAK on p1
          SUB r0, r0, r2
          DIV r3, r3, r0
        ENDLOOP
    ";
    let counting = |name: &str, r0: [u32; 2]| {
        launch(name, 8, 2, 4, code)
            .lent(0, &r0)
            .lent(2, &[1, 1])
            .lent(3, &[8, 8])
    };
    vec![
        counting("a fault in the first round", [1, 5])
            .faults(
                4,
                6,
                [0, 0, 0, 1, 0, 0],
                &[7, 6, 1, 4, 1, 3, 0, 1, 3, 0, 3, 0, 0, 0],
            )
            .blocks(&[[3, 0, 3, 0, 0, 0]])
            .register_after(0, &[0, 4]),
        counting("the same place, kind and lanes in the second round", [2, 0])
            .faults(
                9,
                6,
                [0, 0, 0, 1, 0, 0],
                &[7, 6, 1, 4, 1, 1, 0, 1, 3, 0, 3, 2, 0, 0],
            )
            .active(1)
            .predicates([2, 0, 0])
            .blocks(&[[3, 0, 3, 2, 0, 0]])
            .register_after(0, &[0, 0]),
    ]
}
