//! What an operation gives of registers, and which lanes it writes.

use super::{Named, launch};

/// POPCNT, then MULHI.
pub fn cases() -> Vec<Named> {
    let mut cases = ones();
    cases.extend(high_halves());
    cases.push(fixed_point());
    cases
}

/// POPCNT where some lanes execute, and where none does.
fn ones() -> Vec<Named> {
    let lent = [0, 0xFFFF_FFFF, 0x8000_0000, 7, 7, 7, 7, 7];
    vec![
        launch("POPCNT in the launched lanes", 8, 3, 2, "POPCNT r1, r0")
            .lent(0, &lent)
            .lent(1, &[9; 8])
            .ends(1, 1)
            .register_after(1, &[0, 32, 1]),
        launch("POPCNT in no lane", 8, 3, 2, "POPCNT r0, r0 on p1")
            .lent(0, &lent)
            .ends(1, 1),
    ]
}

/// MULHI of a register by itself, of pairs of either sign, and as a divisor: lane 0's is 0, which faults,
/// and of the unsigned product it would be FFFFFFFE.
fn high_halves() -> Vec<Named> {
    let pairs = [
        (0xFFFF_FFFF, 0xFFFF_FFFF, 0),
        (0x8000_0000, 0x8000_0000, 0x4000_0000),
        (0x8000_0000, 0xFFFF_FFFF, 0),
        (0x8000_0000, 1, 0xFFFF_FFFF),
        (0x8000_0000, 2, 0xFFFF_FFFF),
        (0x7FFF_FFFF, 0x7FFF_FFFF, 0x3FFF_FFFF),
        (0x7FFF_FFFF, 0x8000_0000, 0xC000_0000),
        (0xDEAD_BEEF, 3, 0xFFFF_FFFF),
        (0xFFFF_FFFF, 0, 0),
        (0x1234_5678, 0xFFFF_FFFF, 0xFFFF_FFFF),
    ];
    let divided = "
        MULHI r1, r0, r0
        DIV r1, r0, r1
    ";
    vec![
        launch("MULHI of a register by itself", 8, 2, 2, "MULHI r1, r0, r0")
            .lent(0, &[0xFFFF_FFFF, 0x8000_0000])
            .ends(1, 2)
            .register_after(1, &[0, 0x4000_0000]),
        launch("MULHI of either sign", 16, 10, 3, "MULHI r2, r0, r1")
            .lent(0, &pairs.map(|(a, _, _)| a))
            .lent(1, &pairs.map(|(_, b, _)| b))
            .ends(1, 2)
            .register_after(2, &pairs.map(|(_, _, high)| high)),
        launch("a division by what MULHI gave", 8, 2, 2, divided)
            .lent(0, &[0xFFFF_FFFF, 0x8000_0000])
            .faults(1, 2, [0, 0, 0, 1, 0, 0], &[7, 2, 1, 4, 1, 3, 0, 0])
            .register_after(1, &[0, 0x4000_0000]),
    ]
}

/// Both halves make a product of numbers with 16 bits after the point: -1.5 by 2.25 and by -2.25.
fn fixed_point() -> Named {
    let code = "
        MOV_IMM r4, 16
        MULHI r2, r0, r1
        MUL r3, r0, r1
        SHL r2, r2, r4
        SHR r3, r3, r4
        OR r2, r2, r3
    ";
    launch("a fixed-point product", 8, 2, 5, code)
        .lent(0, &[0xFFFE_8000, 0xFFFE_8000])
        .lent(1, &[0x0002_4000, 0xFFFD_C000])
        .ends(6, 12)
        .register_after(2, &[0xFFFC_A000, 0x0003_6000])
        .register_after(3, &[0xA000, 0x6000])
        .register_after(4, &[16, 16])
}
