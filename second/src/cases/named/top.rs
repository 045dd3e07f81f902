//! Kind 6: sums of base and offset that reach 2^32.

use super::faults::at_once;
use super::{Named, launch};
use crate::step::Faults;

/// T11, either side of 2^32, kind 6 with others, who doesn't fault by it, and what such a fault leaves alone.
pub fn cases() -> Vec<Named> {
    let mut cases = marked();
    cases.extend(edges());
    cases.extend(with_others());
    cases.extend(not_executing());
    cases.extend(walks());
    cases
}

fn marked() -> Vec<Named> {
    let number_first = "
        MOV_IMM r0, 0xFFFFFFFC
        LOAD r1, [r0 + 8]
    ";
    vec![
        launch("T11: a sum past the top", 8, 1, 2, "LOAD r1, [r0 + 8]")
            .lent(0, &[0xFFFFFFFC])
            .device(&[11, 22, 33])
            .faults(0, 0, [0, 0, 0, 0, 0, 1], &[7, 0, 1, 6, 1, 1, 0, 0]),
        launch("T11's sum, of a number", 8, 2, 2, number_first)
            .faults(1, 2, [0, 0, 0, 0, 0, 3], &[7, 2, 1, 6, 3, 3, 0, 0])
            .register_after(0, &[0xFFFFFFFC, 0xFFFFFFFC]),
    ]
}

/// One lane's base in r0, with no memory: the sum is below 2^32, or reaches it. An atomic has no offset.
fn edges() -> Vec<Named> {
    [
        ("FFFFFFFF", "LOAD r1, [r0 + 3]", 0xFFFFFFFC, 1),
        ("FFFFFFFC", "LOAD r1, [r0 + 0]", 0xFFFFFFFC, 2),
        ("2^32", "LOAD r1, [r0 + 4]", 0xFFFFFFFC, 6),
        ("2^32, base 1", "STORE [r0 + 0xFFFFFFFF], r1", 1, 6),
        ("FFFFFFFF, base 0", "STORE [r0 + 0xFFFFFFFF], r1", 0, 1),
        ("2^32 + 1, not 1", "LOAD r1, [r0 + 2]", 0xFFFFFFFF, 6),
        ("the largest", "LOAD r1, [r0 + 0xFFFFFFFF]", 0xFFFFFFFF, 6),
        ("local, 2^32", "LOCAL_LOAD r1, [r0 + 4]", 0xFFFFFFFC, 6),
        ("local, FFFFFFFC", "LOCAL_STORE [r0 + 4], r1", 0xFFFFFFF8, 3),
        ("an atomic", "ATOMIC_ADD r1, [r0], r1", 0xFFFFFFFC, 2),
        ("an odd atomic", "ATOMIC_XCHG r1, [r0], r1", 0xFFFFFFFF, 1),
        ("a CAS", "CAS r1, [r0], r1, r1", 0xFFFFFFFC, 2),
    ]
    .map(|(sum, line, base, kind)| {
        let mut lanes = Faults::default();
        lanes[kind - 1] = 1;
        let body = [7, 0, 1, kind as u32, 1, 1, 0, 0];
        launch(&format!("at the top: {sum}"), 8, 1, 2, line)
            .lent(0, &[base])
            .faults(0, 0, lanes, &body)
    })
    .into()
}

/// Sums of 4, 5, 12 and 2^32 in two words of each memory: lane 0 finds its word, and nothing is written.
fn three_kinds(line: &str, lanes: Faults, past: u32) -> Named {
    launch(&format!("three kinds: {line}"), 8, 4, 2, line)
        .lent(0, &[0, 1, 8, 0xFFFFFFFC])
        .lent(1, &[11, 12, 13, 14])
        .device(&[21, 22])
        .local(&[31, 32])
        .faults(0, 0, lanes, &[7, 0, 3, 1, 2, past, 4, 6, 8, 0xF, 0, 0])
}

fn with_others() -> Vec<Named> {
    let device = [2, 4, 0, 0, 0, 8];
    let local = [2, 0, 4, 0, 0, 8];
    vec![
        three_kinds("LOAD r1, [r0 + 4]", device, 2),
        three_kinds("STORE [r0 + 4], r1", device, 2),
        three_kinds("LOCAL_LOAD r1, [r0 + 4]", local, 3),
        three_kinds("LOCAL_STORE [r0 + 4], r1", local, 3),
        at_once(
            "kind 6 in the highest lane: no lane below is stored",
            "STORE [r0 + 4], r1",
            [0, 0, 0xFFFFFFFC],
            [0, 0, 0, 0, 0, 0b100],
            &[6, 4],
        ),
        at_once(
            "kind 6 in the lowest lane: no lane above is stored",
            "LOCAL_STORE [r0 + 4], r1",
            [0xFFFFFFFD, 0, 0],
            [0, 0, 0, 0, 0, 0b001],
            &[6, 1],
        ),
        at_once(
            "kinds 1 and 6: a sum past the top isn't tested for 1",
            "LOAD r1, [r0 + 4]",
            [0xFFFFFFFD, 0xFFFFFFF9, 0],
            [0b010, 0, 0, 0, 0, 0b001],
            &[1, 2, 6, 1],
        ),
        at_once(
            "kinds 2 and 6: a store",
            "STORE [r0 + 4], r1",
            [0, 4, 0xFFFFFFFC],
            [0, 0b010, 0, 0, 0, 0b100],
            &[2, 2, 6, 4],
        ),
        at_once(
            "kinds 3 and 6: a local store",
            "LOCAL_STORE [r0 + 8], r1",
            [0xFFFFFFF8, 0xFFFFFFF4, 0],
            [0, 0, 0b110, 0, 0, 0b001],
            &[3, 6, 6, 1],
        ),
    ]
}

/// Lanes whose predicate disagrees, or that aren't launched, have sums past the top.
fn not_executing() -> Vec<Named> {
    let guarded = "
        NE p1, r0, r2
        LOAD r1, [r0 + 4] on p1
    ";
    let nobody = "
        STORE [r0 + 4], r1 on p1
        LOCAL_LOAD r1, [r0 + 4] on p1
    ";
    vec![
        launch(
            "a lane past the top whose predicate disagrees",
            8,
            3,
            3,
            guarded,
        )
        .lent(0, &[0xFFFFFFFC, 0, 4])
        .lent(1, &[11, 12, 13])
        .lent(2, &[0xFFFFFFFC; 3])
        .device(&[21, 22, 23])
        .ends(2, 4)
        .predicates([0b110, 0, 0])
        .register_after(1, &[11, 22, 23]),
        launch("sums past the top, and no executing lane", 8, 3, 2, nobody)
            .lent(0, &[0xFFFFFFFC; 3])
            .ends(2, 4),
        launch(
            "lanes past the top that aren't launched",
            8,
            2,
            2,
            "LOAD r1, [r0 + 4]",
        )
        .lent(0, &[0, 4, 0xFFFFFFFC, 0xFFFFFFFC, 0xFFFFFFFC])
        .device(&[21, 22, 23])
        .ends(1, 2)
        .register_after(1, &[22, 23]),
    ]
}

/// FFFFFFFC as an offset isn't -4: from any base but 0 to 3 the sum is past the top.
fn walks() -> Vec<Named> {
    let down = "
        LOOP
          LOAD r1, [r0 + 0xFFFFFFFC]
          ADD r2, r2, r1
          SUB r0, r0, r3
        ENDLOOP
    ";
    let taken_off = "
        SUB r0, r0, r3
        LOAD r1, [r0 + 0]
    ";
    let left = "LOAD r1, [r0 + 0xFFFFFFFC]";
    vec![
        launch("a walk down by an offset of FFFFFFFC", 8, 2, 4, down)
            .lent(0, &[8, 4])
            .lent(3, &[4, 4])
            .device(&[21, 22])
            .faults(
                1,
                1,
                [0, 0, 0, 0, 0, 3],
                &[7, 1, 1, 6, 3, 3, 0, 1, 3, 0, 3, 0, 0, 0],
            )
            .blocks(&[[3, 0, 3, 0, 0, 0]]),
        launch("a step down by SUB, which wraps", 8, 3, 4, taken_off)
            .lent(0, &[8, 4, 0])
            .lent(3, &[4, 4, 4])
            .device(&[21, 22])
            .faults(1, 2, [0, 4, 0, 0, 0, 0], &[7, 2, 1, 2, 4, 7, 0, 0])
            .register_after(0, &[4, 0, 0xFFFFFFFC]),
        at_once(
            "the left neighbour by an offset of FFFFFFFC",
            left,
            [0, 4, 8],
            [0, 0b001, 0, 0, 0, 0b110],
            &[2, 1, 6, 6],
        ),
    ]
}
