//! The wave operations: what each gives, of which lanes, and to which.

use super::{Named, launch, state};

/// Every operation on the lanes' numbers, on each guard and in no lane; the lanes that SHUFFLE reads; sums, signs and
/// ballots; lanes that parted; a stop between two of them.
pub fn cases() -> Vec<Named> {
    let mut cases = lane_numbers();
    cases.extend(behind_a_comparison());
    cases.extend(guards());
    cases.extend(no_lane());
    cases.extend(shuffles());
    cases.extend(lanes_not_read());
    cases.extend(numbers());
    cases.extend(other_lanes());
    cases.extend(whole_widths());
    cases.extend(own_sources());
    cases.push(rounds());
    cases.extend(stopped());
    cases
}

/// Four lanes' numbers, 0 to 3, and what each operation gives of them.
fn lane_numbers() -> Vec<Named> {
    [
        ("BROADCAST", [0, 0, 0, 0]),
        ("REDUCE_ADD", [6, 6, 6, 6]),
        ("REDUCE_MIN", [0, 0, 0, 0]),
        ("REDUCE_MAX", [3, 3, 3, 3]),
        ("PREFIX_SUM", [0, 0, 1, 3]),
        ("BALLOT", [0xE, 0xE, 0xE, 0xE]),
        ("ANY", [1, 1, 1, 1]),
        ("ALL", [0, 0, 0, 0]),
    ]
    .map(|(name, r1)| {
        let code = format!("MOV_SPECIAL r0, lane\n{name} r1, r0");
        launch(&format!("{name} of the lane numbers"), 8, 4, 2, &code)
            .lent(1, &[9; 8])
            .ends(2, 3)
            .register_after(0, &[0, 1, 2, 3])
            .register_after(1, &r1)
    })
    .into()
}

/// p1 becomes lanes 0 and 1 of four, and the operation is carried out by the others.
fn behind_a_comparison() -> Vec<Named> {
    [
        ("PREFIX_SUM r1, r0 on not p1", [2, 2, 0, 2]),
        ("BROADCAST r1, r0 on not p1", [2, 2, 0, 0]),
    ]
    .map(|(line, r1)| {
        let code = format!("MOV_SPECIAL r0, lane\nMOV_IMM r1, 2\nLT p1, r0, r1\n{line}");
        launch(&format!("behind a comparison: {line}"), 8, 4, 2, &code)
            .ends(4, 7)
            .predicates([0b0011, 0, 0])
            .register_after(0, &[0, 1, 2, 3])
            .register_after(1, &r1)
    })
    .into()
}

/// Each operation in lanes 0 and 2, whose words are 5 and -3, and in lanes 1 and 3, whose words are 0 and 7.
fn guards() -> Vec<Named> {
    [
        ("BROADCAST r2, r0", [5, 5], [0, 0]),
        ("REDUCE_ADD r2, r0", [2, 2], [7, 7]),
        ("REDUCE_MIN r2, r0", [0xFFFF_FFFD, 0xFFFF_FFFD], [0, 0]),
        ("REDUCE_MAX r2, r0", [5, 5], [7, 7]),
        ("PREFIX_SUM r2, r0", [0, 5], [0, 0]),
        ("SHUFFLE r2, r0, r1", [0xFFFF_FFFD, 5], [7, 0]),
        ("BALLOT r2, r0", [0b0101, 0b0101], [0b1000, 0b1000]),
        ("ANY r2, r0", [1, 1], [1, 1]),
        ("ALL r2, r0", [1, 1], [0, 0]),
    ]
    .into_iter()
    .flat_map(|(line, even, odd)| {
        [
            guarded(line, "p1", [even[0], 99, even[1], 99]),
            guarded(line, "not p1", [99, odd[0], 99, odd[1]]),
        ]
    })
    .collect()
}

/// p1 becomes lanes 0 and 2 of four. Each lane's r1 is the lane two away.
fn guarded(line: &str, guard: &str, r2: [u32; 4]) -> Named {
    let code = format!("EQ p1, r3, r4\n{line} on {guard}");
    launch(&format!("in some lanes: {line} on {guard}"), 8, 4, 5, &code)
        .lent(0, &[5, 0, 0xFFFF_FFFD, 7, 1000, 1000, 1000, 1000])
        .lent(1, &[2, 3, 0, 1])
        .lent(2, &[99; 8])
        .lent(3, &[0, 1, 0, 1])
        .ends(2, 4)
        .predicates([0b0101, 0, 0])
        .register_after(2, &r2)
}

/// Nothing is written, and the step counts.
fn no_lane() -> Vec<Named> {
    [
        "BROADCAST r1, r0",
        "REDUCE_ADD r1, r0",
        "REDUCE_MIN r1, r0",
        "REDUCE_MAX r1, r0",
        "PREFIX_SUM r1, r0",
        "SHUFFLE r1, r0, r0",
        "BALLOT r1, r0",
        "ANY r1, r0",
        "ALL r1, r0",
    ]
    .map(|line| {
        launch(
            &format!("in no lane: {line}"),
            8,
            4,
            2,
            &format!("{line} on p1"),
        )
        .lent(0, &[1; 8])
        .lent(1, &[9; 8])
        .ends(1, 2)
    })
    .into()
}

/// The lane number is all 32 bits of RS2: lanes from the width on don't exist, and none stands for another.
fn shuffles() -> Vec<Named> {
    let turned = "
        MOV_SPECIAL r0, lane
        MOV_IMM r1, 3
        SUB r1, r1, r0
        SHUFFLE r0, r0, r1
    ";
    let moved = "
        MOV_SPECIAL r0, lane
        MOV_IMM r1, 2
        ADD r1, r1, r0
        SHUFFLE r0, r0, r1
    ";
    let no_lane = "
        MOV_SPECIAL r0, lane
        MOV_IMM r1, 0xFFFFFFFF
        SHUFFLE r0, r0, r1
    ";
    let past_8 = [7, 6, 8, 0x8000_0000, 0xFFFF_FFFF, 32, 16, 0];
    let past_32 = [[32, 0x8000_0000, 63, 0xFFFF_FFE0], [31, 30, 1, 0]].concat();
    let line = "SHUFFLE r2, r0, r1";
    vec![
        launch("SHUFFLE turns the lanes round", 8, 4, 2, turned)
            .ends(4, 7)
            .register_after(0, &[3, 2, 1, 0])
            .register_after(1, &[3, 2, 1, 0]),
        launch("SHUFFLE by two, past the launched lanes", 8, 4, 2, moved)
            .lent(0, &[9; 8])
            .ends(4, 7)
            .register_after(0, &[2, 3, 0, 0])
            .register_after(1, &[2, 3, 4, 5]),
        launch("SHUFFLE from lane FFFFFFFF", 8, 4, 2, no_lane)
            .ends(3, 5)
            .register_after(0, &[0, 0, 0, 0])
            .register_after(1, &[0xFFFF_FFFF; 4]),
        launch("SHUFFLE past a width of 8", 8, 8, 3, line)
            .lent(0, &[10, 11, 12, 13, 14, 15, 16, 17])
            .lent(1, &past_8)
            .lent(2, &[99; 8])
            .ends(1, 2)
            .register_after(2, &[17, 16, 0, 0, 0, 0, 0, 10]),
        launch("SHUFFLE past a width of 32", 32, 32, 3, line)
            .lent(0, &[&[10, 11], &[99; 28][..], &[40, 41]].concat())
            .lent(1, &past_32)
            .lent(2, &[99; 32])
            .ends(1, 2)
            .register_after(2, &[&[0, 0, 0, 0, 41, 40, 11, 10], &[10; 24][..]].concat()),
    ]
}

/// Lanes 2 and 3 read each other, and 3 doesn't execute: by its guard, or because it wasn't launched, waits, has
/// halted or has broken the loop.
fn lanes_not_read() -> Vec<Named> {
    let guard = "
        LT p1, r0, r3
        SHUFFLE r2, r0, r1 on p1
    ";
    let halves = "
        LT p1, r0, r3
        IF on p1
          SHUFFLE r2, r0, r1
        ELSE
          SHUFFLE r2, r0, r1
        ENDIF
    ";
    let halted = "
        LT p1, r0, r3
        HALT on not p1
        SHUFFLE r2, r0, r1
    ";
    let broken = "
        LT p1, r0, r3
        LOOP
          BREAK on not p1
          SHUFFLE r2, r0, r1
          BREAK
        ENDLOOP
    ";
    let exchanged = |name: &str, lanes, code: &str| {
        launch(&format!("SHUFFLE from a lane {name}"), 8, lanes, 4, code)
            .lent(0, &[10, 11, 12, 13])
            .lent(1, &[1, 0, 3, 2])
            .lent(2, &[99; 8])
            .lent(3, &[13; 4])
    };
    vec![
        exchanged("whose guard doesn't hold", 4, guard)
            .ends(2, 4)
            .predicates([0b0111, 0, 0])
            .register_after(2, &[11, 10, 0, 99]),
        exchanged("that wasn't launched", 3, "SHUFFLE r2, r0, r1")
            .ends(1, 2)
            .register_after(2, &[11, 10, 0]),
        exchanged("in the other half of an IF", 4, halves)
            .ends(6, 9)
            .predicates([0b0111, 0, 0])
            .register_after(2, &[11, 10, 0, 0]),
        exchanged("that has halted", 4, halted)
            .ends(3, 5)
            .active(0b0111)
            .halted(0b1000)
            .predicates([0b0111, 0, 0])
            .register_after(2, &[11, 10, 0]),
        exchanged("that has broken the loop", 4, broken)
            .ends(6, 8)
            .predicates([0b0111, 0, 0])
            .register_after(2, &[11, 10, 0]),
    ]
}

/// Sums wrap, and minimum and maximum are signed.
fn numbers() -> Vec<Named> {
    let below_0 = |line: &str| format!("MOV_SPECIAL r0, lane\nNEG r0, r0\n{line}");
    let wrapped = "
        MOV_IMM r0, 0x80000000
        REDUCE_ADD r1, r0
    ";
    let edges = [0x7FFF_FFFF, 0x8000_0000, 0, 0xFFFF_FFFF];
    let of_edges = |line: &str, r1: u32| {
        launch(&format!("the largest and the least: {line}"), 8, 4, 2, line)
            .lent(0, &edges)
            .ends(1, 2)
            .register_after(1, &[r1; 4])
    };
    vec![
        launch(
            "the least of 0 and -1",
            8,
            2,
            2,
            &below_0("REDUCE_MIN r1, r0"),
        )
        .ends(3, 4)
        .register_after(0, &[0, 0xFFFF_FFFF])
        .register_after(1, &[0xFFFF_FFFF; 2]),
        launch(
            "the largest of 0 and -1",
            8,
            2,
            2,
            &below_0("REDUCE_MAX r1, r0"),
        )
        .ends(3, 4)
        .register_after(0, &[0, 0xFFFF_FFFF])
        .register_after(1, &[0; 2]),
        of_edges("REDUCE_MIN r1, r0", 0x8000_0000),
        of_edges("REDUCE_MAX r1, r0", 0x7FFF_FFFF),
        of_edges("REDUCE_ADD r1, r0", 0xFFFF_FFFE),
        launch("a sum of 2^32", 8, 2, 2, wrapped)
            .lent(1, &[9; 2])
            .ends(2, 4)
            .register_after(0, &[0x8000_0000; 2])
            .register_after(1, &[0; 2]),
        launch("sums below that wrap", 8, 4, 2, "PREFIX_SUM r1, r0")
            .lent(0, &[0x8000_0000, 0x8000_0001, 0xFFFF_FFFF, 5])
            .ends(1, 2)
            .register_after(1, &[0, 0x8000_0000, 1, 0]),
    ]
}

/// What lanes hold that weren't launched is neither read nor written.
fn other_lanes() -> Vec<Named> {
    [
        ("BROADCAST", [42, 0, 1], [7; 5], [42; 3]),
        ("REDUCE_ADD", [1, 2, 3], [100; 5], [6; 3]),
        ("REDUCE_MIN", [5, 4, 6], [0x8000_0000; 5], [4; 3]),
        (
            "REDUCE_MAX",
            [0xFFFF_FFFE, 0xFFFF_FFFC, 0xFFFF_FFFD],
            [9; 5],
            [0xFFFF_FFFE; 3],
        ),
        ("BALLOT", [1, 0, 0x8000_0000], [1; 5], [0b101; 3]),
        ("ANY", [0, 0, 0], [1; 5], [0; 3]),
        ("ALL", [1, 2, 3], [0; 5], [1; 3]),
    ]
    .map(|(name, r0, others, r1)| {
        let line = format!("{name} r1, r0");
        launch(
            &format!("lanes that weren't launched: {name}"),
            8,
            3,
            2,
            &line,
        )
        .lent(0, &[&r0[..], &others].concat())
        .lent(1, &[9; 8])
        .ends(1, 2)
        .register_after(1, &r1)
    })
    .into()
}

/// Every lane of a width executes.
fn whole_widths() -> Vec<Named> {
    let ballot = "
        MOV_IMM r0, 1
        BALLOT r0, r0
    ";
    let mut cases: Vec<Named> = [(8, 0xFF), (16, 0xFFFF), (32, 0xFFFF_FFFF)]
        .map(|(width, set)| {
            launch(
                &format!("a ballot of {width} lanes"),
                width,
                width,
                1,
                ballot,
            )
            .ends(2, 4)
            .register_after(0, &vec![set; width as usize])
        })
        .into();
    let places: Vec<u32> = (0..32).collect();
    cases.push(
        launch(
            "a place for each of 32 lanes",
            32,
            32,
            2,
            "PREFIX_SUM r1, r0",
        )
        .lent(0, &[1; 32])
        .ends(1, 2)
        .register_after(1, &places),
    );
    cases.push(
        launch("the sum of 32 lane numbers", 32, 32, 2, "REDUCE_ADD r1, r0")
            .lent(0, &places)
            .ends(1, 2)
            .register_after(1, &[496; 32]),
    );
    cases
}

/// The result goes where it came from: all lanes are read before any is written.
fn own_sources() -> Vec<Named> {
    let own = |line: &str, r0: [u32; 4], after: [u32; 4]| {
        launch(&format!("into its own source: {line}"), 8, 4, 1, line)
            .lent(0, &r0)
            .ends(1, 2)
            .register_after(0, &after)
    };
    vec![
        own("REDUCE_ADD r0, r0", [1, 2, 3, 4], [10; 4]),
        own("PREFIX_SUM r0, r0", [1, 2, 3, 4], [0, 1, 3, 6]),
        own("ALL r0, r0", [1, 2, 3, 0], [0; 4]),
        own("SHUFFLE r0, r0, r0", [1, 2, 3, 0], [2, 3, 0, 1]),
        launch(
            "SHUFFLE into its lane numbers",
            8,
            4,
            2,
            "SHUFFLE r1, r0, r1",
        )
        .lent(0, &[10, 11, 12, 13])
        .lent(1, &[3, 2, 1, 0])
        .ends(1, 2)
        .register_after(1, &[13, 12, 11, 10]),
    ]
}

/// Each round finds the least number of the lanes still there, and its lane leaves.
fn rounds() -> Named {
    let code = "
        LOOP
          REDUCE_MIN r1, r0
          EQ p1, r0, r1
          BREAK on p1
        ENDLOOP
    ";
    launch("the least number of each round", 8, 3, 2, code)
        .lent(0, &[2, 0, 1])
        .ends(13, 7)
        .predicates([0b111, 0, 0])
        .register_after(1, &[2, 0, 1])
}

/// A sum in the first half of an IF, sums below in the second, and the largest of both; stopped before the second.
fn stopped() -> Vec<Named> {
    let code = "
        LT p1, r0, r1
        IF on p1
          REDUCE_ADD r2, r0
        ELSE
          PREFIX_SUM r2, r0
        ENDIF
        REDUCE_MAX r0, r2
    ";
    let lent = |name: &str| {
        launch(name, 8, 4, 3, code)
            .lent(0, &[1, 2, 3, 4])
            .lent(1, &[3; 4])
    };
    let blocks = [[2, 2, 15, 3, 0, 0]];
    let mut between = state(6, 0b1100, 0, &blocks);
    between.predicates = [0b0011, 0, 0];
    vec![
        lent("stopped before a PREFIX_SUM")
            .budget(4)
            .stops(4, 6)
            .active(0b1100)
            .predicates([0b0011, 0, 0])
            .blocks(&blocks)
            .register_after(2, &[3, 3]),
        lent("gone on with a PREFIX_SUM")
            .lent(2, &[3, 3])
            .resumed(between)
            .ends(3, 11)
            .predicates([0b0011, 0, 0])
            .register_after(2, &[3, 3, 0, 3])
            .register_after(0, &[3; 4]),
    ]
}
