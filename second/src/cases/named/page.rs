//! The marked table's runs, and what the page asks to be run besides.

use super::{Named, launch, state};

/// T12 to T14, then depth, empty code, budget 0, no memory, and every lane halted in a loop.
pub fn cases() -> Vec<Named> {
    let mut cases = marked();
    cases.extend(depths());
    cases.extend(empty_code());
    cases.extend(budget_0());
    cases.extend(no_memory());
    cases.extend(all_halted());
    cases
}

fn marked() -> Vec<Named> {
    let t12 = "
        MOV_SPECIAL r0, lane
        MOV_IMM r1, 2
        LT p1, r0, r1
        IF on p1
          MOV_IMM r1, 7
        ELSE
          HALT
        ENDIF
        ADD r1, r1, r0
    ";
    let t13 = "
        MOV_SPECIAL r0, lane
        DIV r1, r0, r0
    ";
    let t14 = "
        MOV_SPECIAL r0, lane
        MOV_IMM r1, 1
        EQ p1, r0, r1
        LOOP
          BREAK on p1
          DIV r1, r1, r0
        ENDLOOP
    ";
    vec![
        launch("T12: an IF whose second half halts", 8, 4, 2, t12)
            .ends(9, 13)
            .active(0b0011)
            .halted(0b1100)
            .predicates([0b0011, 0, 0])
            .register_after(0, &[0, 1, 2, 3])
            .register_after(1, &[7, 8, 2, 2]),
        launch("T13: a division by 0", 8, 2, 2, t13)
            .faults(1, 1, [0, 0, 0, 1, 0, 0], &[7, 1, 1, 4, 1, 3, 0, 0])
            .register_after(0, &[0, 1]),
        launch(
            "T14: a division by 0 in a loop that a lane broke",
            8,
            3,
            2,
            t14,
        )
        .faults(
            5,
            7,
            [0, 0, 0, 1, 0, 0],
            &[7, 7, 1, 4, 1, 5, 0, 1, 3, 5, 7, 2, 0, 0],
        )
        .active(0b101)
        .predicates([0b010, 0, 0])
        .blocks(&[[3, 5, 7, 2, 0, 0]])
        .register_after(0, &[0, 1, 2])
        .register_after(1, &[1, 1, 1]),
    ]
}

/// So many blocks inside each other, with one instruction in the innermost.
fn nested(depth: usize, opener: &str, inside: &str, end: &str) -> String {
    let open = format!("{opener}\n").repeat(depth);
    let close = format!("{end}\n").repeat(depth);
    format!("{open}{inside}\n{close}")
}

fn depths() -> Vec<Named> {
    let ifs = nested(32, "IF on p1", "NOP", "ENDIF");
    let waiting: Vec<[u32; 6]> = (0..32)
        .map(|opener| match opener {
            0 => [1, 0, 0xFF, 0xFF, 0, 0],
            _ => [1, opener, 0, 0, 0, 0],
        })
        .collect();
    let inside = nested(32, "IF on not p1", "LOCAL_STORE [r0 + 0], r0", "ENDIF");
    let entered: Vec<[u32; 6]> = (0..32).map(|opener| [1, opener, 3, 0, 0, 0]).collect();
    let body = [&[7, 32, 2, 1, 1, 3, 2, 3, 0, 32], entered.as_flattened()].concat();
    let in_loops = nested(32, "LOOP", "LOCAL_STORE [r0 + 4], r0", "ENDLOOP");
    let around: Vec<[u32; 6]> = (0..32).map(|opener| [3, opener, 7, 0, 0, 0]).collect();
    let numbers = [7, 32, 3, 1, 1, 3, 2, 6, 4, 7, 0, 32];
    let longest = [&numbers[..], around.as_flattened()].concat();
    let loops = nested(33, "LOOP", "BREAK", "ENDLOOP");
    vec![
        launch("depth 32", 8, 8, 1, &ifs).ends(65, 65),
        launch("depth 32, stopped inside", 8, 8, 1, &ifs)
            .budget(32)
            .stops(32, 32)
            .active(0)
            .blocks(&waiting),
        launch("depth 32, gone on from inside", 8, 8, 1, &ifs)
            .resumed(state(32, 0, 0, &waiting))
            .ends(33, 65),
        launch("depth 32, a fault of two kinds inside", 8, 2, 1, &inside)
            .lent(0, &[1, 0])
            .faults(32, 32, [1, 0, 2, 0, 0, 0], &body)
            .blocks(&entered),
        launch(
            "depth 32, a fault of three kinds inside: the longest key",
            8,
            3,
            1,
            &in_loops,
        )
        .lent(0, &[1, 0, 0xFFFFFFFC])
        .faults(32, 32, [1, 0, 2, 0, 0, 4], &longest)
        .blocks(&around),
        launch("depth 33", 8, 8, 1, &nested(33, "IF on p1", "NOP", "ENDIF")).refused(9, 32),
        launch("depth 33 of loops", 8, 8, 1, &loops).refused(9, 32),
    ]
}

fn empty_code() -> Vec<Named> {
    vec![
        launch("empty code", 16, 3, 4, "").local(&[5, 6]).ends(0, 0),
        launch("empty code, budget 0", 16, 3, 4, "")
            .budget(0)
            .ends(0, 0),
        launch("empty code, the largest settings", 32, 32, 256, "")
            .budget(1_000_000_000)
            .ends(0, 0),
        launch("empty code, gone on with one lane halted", 8, 2, 1, "")
            .resumed(state(0, 1, 2, &[]))
            .ends(0, 0)
            .active(1)
            .halted(2),
    ]
}

fn budget_0() -> Vec<Named> {
    vec![
        launch("budget 0 at the end of the code", 8, 1, 1, "NOP")
            .budget(0)
            .local(&[9])
            .resumed(state(1, 1, 0, &[]))
            .ends(0, 1),
        launch(
            "budget 0 with every lane halted before the end",
            8,
            2,
            1,
            "HALT\nNOP",
        )
        .budget(0)
        .resumed(state(1, 0, 3, &[]))
        .ends(0, 1)
        .active(0)
        .halted(3),
        launch(
            "budget 0 on code that would fault",
            8,
            1,
            1,
            "DIV r0, r0, r0",
        )
        .budget(0)
        .local(&[9])
        .stops(0, 0),
        launch("the last step of the budget ends the run", 8, 1, 1, "NOP")
            .budget(1)
            .ends(1, 1),
    ]
}

fn no_memory() -> Vec<Named> {
    let guarded = "
        LOAD r0, [r0 + 0] on p1
        STORE [r0 + 0], r0 on p1
        LOCAL_LOAD r0, [r0 + 0] on p1
        CAS r0, [r0], r0, r0 on p1
    ";
    vec![
        launch("no memory: a load", 8, 2, 1, "LOAD r0, [r0 + 0]").faults(
            0,
            0,
            [0, 3, 0, 0, 0, 0],
            &[7, 0, 1, 2, 3, 3, 0, 0],
        ),
        launch(
            "no memory: a local load",
            8,
            2,
            1,
            "LOCAL_LOAD r0, [r0 + 0]",
        )
        .faults(0, 0, [0, 0, 3, 0, 0, 0], &[7, 0, 1, 3, 3, 3, 0, 0]),
        launch("no memory, and no executing lane", 8, 2, 1, guarded).ends(4, 8),
    ]
}

fn all_halted() -> Vec<Named> {
    let at_once = "
        LOOP
          HALT
          NOP
        ENDLOOP
    ";
    let one_by_one = "
        LOOP
          EQ p1, r0, r1
          HALT on p1
          ADD r1, r1, r2
        ENDLOOP
    ";
    vec![
        launch("every lane halted in a loop", 8, 2, 1, at_once)
            .ends(2, 2)
            .active(0)
            .halted(3)
            .blocks(&[[3, 0, 3, 0, 0, 3]]),
        launch(
            "every lane halted in a loop, one in each round",
            8,
            3,
            3,
            one_by_one,
        )
        .lent(0, &[0, 1, 2])
        .lent(2, &[1, 1, 1])
        .ends(11, 4)
        .active(0)
        .halted(0b111)
        .predicates([0b111, 0, 0])
        .blocks(&[[3, 0, 7, 0, 0, 7]])
        .register_after(1, &[0, 1, 2]),
    ]
}
