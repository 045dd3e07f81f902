//! What an operation does to numbers. Sums and products wrap at 2^32.

use crate::operations::Operation;

/// A register read as a signed number.
pub fn signed(value: u32) -> i32 {
    value as i32
}

/// The result of an operation on two registers. The divisor isn't 0: that is a fault, told apart before.
#[inline(always)]
pub fn two_sources(operation: Operation, a: u32, b: u32) -> u32 {
    use Operation::*;
    match operation {
        Add => a.wrapping_add(b),
        Sub => a.wrapping_sub(b),
        Mul => a.wrapping_mul(b),
        Div => signed(a).wrapping_div(signed(b)) as u32,
        Udiv => a / b,
        Rem => signed(a).wrapping_rem(signed(b)) as u32,
        Urem => a % b,
        Min => signed(a).min(signed(b)) as u32,
        Max => signed(a).max(signed(b)) as u32,
        Mulhi => ((i64::from(signed(a)) * i64::from(signed(b))) >> 32) as u32,
        And => a & b,
        Or => a | b,
        Xor => a ^ b,
        Shl => a << (b % 32),
        Shr => a >> (b % 32),
        Sar => (signed(a) >> (b % 32)) as u32,
        _ => unreachable!("{} has not two sources", operation.name()),
    }
}

/// Whether an operation divides, so that a divisor of 0 is a fault.
pub fn divides(operation: Operation) -> bool {
    use Operation::*;
    matches!(operation, Div | Udiv | Rem | Urem)
}

/// Whether a comparison of two registers holds.
#[inline(always)]
pub fn compare(operation: Operation, a: u32, b: u32) -> bool {
    use Operation::*;
    match operation {
        Eq => a == b,
        Ne => a != b,
        Lt => signed(a) < signed(b),
        Ge => signed(a) >= signed(b),
        _ => unreachable!("{} is no comparison", operation.name()),
    }
}

/// The result of an operation on one register.
#[inline(always)]
pub fn one_source(operation: Operation, a: u32) -> u32 {
    use Operation::*;
    match operation {
        Neg => a.wrapping_neg(),
        Abs => signed(a).wrapping_abs() as u32,
        Not => !a,
        Popcnt => a.count_ones(),
        Mov => a,
        _ => unreachable!("{} has not one source", operation.name()),
    }
}

/// The special number that MOV_SPECIAL gives a lane: 0 lane number, 1 wave number = 0, 2 waves = 1.
pub fn special(number: u32, lane: u32) -> u32 {
    match number {
        0 => lane,
        1 => 0,
        _ => 1,
    }
}

/// The word that an ATOMIC leaves in memory, from the old word and its operand.
#[inline(always)]
pub fn atomic(operation: Operation, old: u32, operand: u32) -> u32 {
    use Operation::*;
    match operation {
        AtomicAdd => old.wrapping_add(operand),
        AtomicSub => old.wrapping_sub(operand),
        AtomicAnd => old & operand,
        AtomicOr => old | operand,
        AtomicXor => old ^ operand,
        AtomicMin => signed(old).min(signed(operand)) as u32,
        AtomicMax => signed(old).max(signed(operand)) as u32,
        AtomicUmin => old.min(operand),
        AtomicUmax => old.max(operand),
        AtomicXchg => operand,
        _ => unreachable!("{} is not atomic", operation.name()),
    }
}
