//! Every refusal of a run, 1 to 11, with its place.

use super::{Named, launch, state};
use crate::state::State;

/// Refusals 1 to 11, then which of two comes first.
pub fn cases() -> Vec<Named> {
    let mut cases = settings();
    cases.extend(lengths());
    cases.extend(words());
    cases.extend(fields());
    cases.extend(registers());
    cases.extend(stray());
    cases.extend(open());
    cases.extend(misfits());
    cases.extend(order());
    cases
}

fn settings() -> Vec<Named> {
    let with = |name: &str, width, lanes, registers| {
        launch(
            &format!("refusal 1: {name}"),
            width,
            lanes,
            registers,
            "NOP",
        )
        .local(&[5])
        .refused(1, 0)
    };
    vec![
        with("width 0", 0, 0, 1),
        with("width 4", 4, 1, 1),
        with("width 33", 33, 1, 1),
        with("no register", 8, 1, 0),
        with("257 registers", 8, 1, 257),
        with("no lane", 8, 0, 1),
        with("more lanes than the width", 8, 9, 1),
        launch("refusal 1: a budget over 1,000,000,000", 8, 1, 1, "NOP")
            .budget(1_000_000_001)
            .refused(1, 0),
    ]
}

fn lengths() -> Vec<Named> {
    let mut too_long = launch("refusal 2: 65,537 words of code", 8, 1, 1, "");
    too_long.capture.code = vec![0x3F0000F0; 65_537];
    let mut short = launch("refusal 3: a register word too few", 8, 1, 2, "NOP");
    short.capture.registers.pop();
    let mut long = launch("refusal 3: a register word too many", 8, 1, 2, "NOP");
    long.capture.registers.push(0);
    vec![
        too_long.refused(2, 0),
        short.refused(3, 0),
        long.refused(3, 0),
    ]
}

/// A launch of two instructions of three words, then these lines.
fn after_three_words(name: &str, lines: &str) -> Named {
    let code = format!("MOV_IMM r0, 5\nNOP\n{lines}");
    launch(name, 8, 2, 2, &code).local(&[5])
}

fn words() -> Vec<Named> {
    let not_carried = [
        ("0C, no opcode", "word 0C000000"),
        ("T6, control 7", "word 3F000070"),
        ("ADD with modifier 1", "word 00000010\nword 00000000"),
        ("ATOMIC with modifier 10", "word 3C0000A0\nword 00000000"),
        ("3E with modifier 9, cut off", "word 3E000090"),
        ("3E with modifier 9", "word 3E000090\nword 00000000"),
        ("3E with modifier 15", "word 3E0000F0\nword 00000000"),
    ];
    let cut_off = [
        ("ADD", "word 00000000"),
        ("MOV_IMM", "word F1000000"),
        ("ATOMIC", "word 3C000000"),
        ("REDUCE_ADD", "word 3E010010"),
        ("SHUFFLE", "word 3E010050"),
    ];
    let not_carried = not_carried
        .map(|(name, lines)| after_three_words(&format!("refusal 4: {name}"), lines).refused(4, 3));
    let cut_off = cut_off.map(|(name, lines)| {
        after_three_words(&format!("refusal 5: {name} without its second word"), lines)
            .refused(5, 3)
    });
    not_carried.into_iter().chain(cut_off).collect()
}

fn fields() -> Vec<Named> {
    let wrong = [
        ("T4, predicate 0 negated", "word 3F000004"),
        ("IF on no predicate", "word 3F000000"),
        ("NOP on p1", "word 3F0000F1"),
        ("BARRIER on p1", "word 3F0000A1"),
        ("bit 3", "word 3F000098"),
        ("HALT with RD 1", "word 3F010090"),
        ("MOV_IMM with RS1 1", "word F1000100\nword 00000005"),
        ("ADD with RS3 1", "word 00000000\nword 00010000"),
        ("ADD with RS4 1", "word 00000000\nword 00000100"),
        ("ADD with a scope", "word 00000000\nword 00000001"),
        (
            "CAS with bit 2 of its second word",
            "word 3D000000\nword 00000004",
        ),
        ("REDUCE_ADD with RS2 1", "word 3E010010\nword 01000000"),
        ("ALL with RS2 255", "word 3E010080\nword FF000000"),
        ("SHUFFLE with RS3 1", "word 3E010050\nword 01010000"),
        ("BALLOT with RS4 1", "word 3E010060\nword 00000100"),
        ("SHUFFLE with a scope", "word 3E010050\nword 01000001"),
        (
            "ANY with bit 7 of its second word",
            "word 3E010070\nword 00000080",
        ),
        (
            "BROADCAST on predicate 0 negated",
            "word 3E010004\nword 00000000",
        ),
        (
            "a comparison into predicate 0",
            "word 28000000\nword 00000000",
        ),
        (
            "a comparison into predicate 4",
            "word 28040000\nword 00000000",
        ),
        ("special number 3", "word F2000300"),
    ];
    wrong
        .map(|(name, lines)| after_three_words(&format!("refusal 6: {name}"), lines).refused(6, 3))
        .into()
}

fn registers() -> Vec<Named> {
    let wrong = [
        ("RD", "ADD r2, r0, r1"),
        ("RS1", "NEG r0, r2"),
        ("RS2", "EQ p1, r0, r255"),
        ("RS3", "CAS r0, [r1], r1, r2"),
        ("a stored register", "STORE [r0 + 0], r2"),
        ("BROADCAST's RD", "BROADCAST r2, r0"),
        ("PREFIX_SUM's RS1", "PREFIX_SUM r0, r2"),
        ("SHUFFLE's RS2", "SHUFFLE r0, r0, r2"),
    ];
    let refused = |(name, line): (&str, &str)| {
        after_three_words(&format!("refusal 7: {name} not below R"), line).refused(7, 3)
    };
    let mut cases: Vec<Named> = wrong.map(refused).into();
    let numbers = "
        MOV_SPECIAL r0, waves
        LT p3, r0, r0
    ";
    cases.push(
        launch(
            "a predicate and a special number are no registers",
            8,
            2,
            1,
            numbers,
        )
        .ends(2, 3)
        .register_after(0, &[1, 1]),
    );
    cases.push(
        launch(
            "refusal 7: SHUFFLE's RS2 at R 1",
            8,
            2,
            1,
            "SHUFFLE r0, r0, r1",
        )
        .refused(7, 0),
    );
    cases.push(launch("a BALLOT at R 1", 8, 2, 1, "BALLOT r0, r0").ends(1, 2));
    cases
}

fn stray() -> Vec<Named> {
    let refused = |(name, place, lines): (&str, u32, &str)| {
        after_three_words(&format!("refusal 8: {name}"), lines).refused(8, place)
    };
    [
        ("ELSE", 3, "ELSE"),
        ("ENDIF", 3, "ENDIF"),
        ("ENDLOOP", 3, "ENDLOOP"),
        ("BREAK", 3, "BREAK on p1"),
        ("CONTINUE", 3, "CONTINUE"),
        ("BREAK in an IF alone", 4, "IF on p1\nBREAK\nENDIF"),
        ("CONTINUE after the loop", 5, "LOOP\nENDLOOP\nCONTINUE"),
        ("a second ELSE", 5, "IF on p1\nELSE\nELSE\nENDIF"),
        (
            "ELSE in a loop of the IF",
            5,
            "IF on p1\nLOOP\nELSE\nENDLOOP\nENDIF",
        ),
        ("ENDIF in a loop", 5, "IF on p1\nLOOP\nENDIF\nENDLOOP"),
        ("ENDLOOP in an IF", 5, "LOOP\nIF on p1\nENDLOOP\nENDIF"),
    ]
    .map(refused)
    .into()
}

fn open() -> Vec<Named> {
    let refused = |(name, place, lines): (&str, u32, &str)| {
        after_three_words(&format!("refusal 10: {name}"), lines).refused(10, place)
    };
    [
        ("an open IF", 3, "IF on p1\nNOP"),
        ("an open IF after its ELSE", 3, "IF on p1\nELSE"),
        ("the innermost of two", 4, "IF on p1\nLOOP\nNOP"),
        (
            "the outer of two, the inner closed",
            3,
            "LOOP\nIF on p1\nENDIF",
        ),
    ]
    .map(refused)
    .into()
}

/// Three lanes at a NOP inside an IF inside a loop.
const INSIDE: &str = "
    MOV_IMM r0, 5
    LOOP
      IF on p1
        NOP
      ELSE
        NOP
      ENDIF
      BREAK
    ENDLOOP
";

/// What is done to a state so that it doesn't fit.
type Change = fn(&mut State);

/// A state that fits it: lane 0 is active, 1 waits, 2 has broken.
fn fitting() -> State {
    state(4, 1, 0, &[[3, 2, 7, 4, 0, 0], [1, 3, 3, 2, 0, 0]])
}

fn misfits() -> Vec<Named> {
    let changes: [(&str, Change); 17] = [
        ("the place of a second word", |s| s.place = 1),
        ("a place past the end", |s| s.place = 11),
        ("the end with blocks open", |s| s.place = 10),
        ("the other half of the IF", |s| s.blocks[1].part = 2),
        ("another opener", |s| s.blocks[1].opener = 4),
        ("a block missing", |s| s.blocks.truncate(1)),
        ("the blocks in the other order", |s| s.blocks.swap(0, 1)),
        ("a depth of 33", |s| s.blocks.resize(33, s.blocks[1])),
        ("a lane active and halted", |s| s.halted = 1),
        ("a lane waiting and broken", |s| s.blocks[0].aside = 6),
        ("a lane nowhere", |s| s.blocks[0].aside = 0),
        ("a lane active that wasn't launched", |s| s.active = 9),
        ("p2 of a lane that wasn't launched", |s| s.predicates[1] = 8),
        ("left by a lane that wasn't launched", |s| {
            s.blocks[1].left = 8
        }),
        ("continued lanes in an IF", |s| {
            (s.blocks[1].aside, s.blocks[1].again) = (0, 2);
        }),
        ("an entered set too small", |s| s.blocks[1].entered = 1),
        ("a lane that left and is here", |s| s.blocks[0].left = 1),
    ];
    let mut cases = vec![
        launch("a state that fits", 8, 3, 1, INSIDE)
            .resumed(fitting())
            .ends(6, 10),
    ];
    cases.extend(changes.map(|(name, change)| {
        let mut state = fitting();
        change(&mut state);
        launch(&format!("refusal 11: {name}"), 8, 3, 1, INSIDE)
            .local(&[5])
            .resumed(state)
            .refused(11, 0)
    }));
    cases
}

/// Where two rules are broken.
fn order() -> Vec<Named> {
    let misfit = State::default();
    let mut lengths = launch("3 comes before 4", 8, 1, 1, "word 0C000000");
    lengths.capture.registers.clear();
    vec![
        launch("1 comes before 3, 4 and 11", 9, 1, 1, "word 0C000000")
            .resumed(misfit.clone())
            .refused(1, 0),
        lengths.refused(3, 0),
        launch("4 comes before 5", 8, 1, 1, "word 00000010").refused(4, 0),
        launch("5 comes before 6", 8, 1, 1, "word 00000008").refused(5, 0),
        launch("6 comes before 7", 8, 1, 1, "word 00050500\nword 00000001").refused(6, 0),
        launch(
            "8 at one word comes before 4 at the next",
            8,
            1,
            1,
            "ENDIF\nword 0C000000",
        )
        .refused(8, 0),
        launch(
            "7 at a later word comes before 10",
            8,
            1,
            1,
            "LOOP\nNEG r1, r0",
        )
        .refused(7, 1),
        launch("10 comes before 11", 8, 1, 1, "LOOP")
            .resumed(misfit)
            .refused(10, 0),
    ]
}
