#!/usr/bin/env python3
"""What crates/arith_cases has to print, worked out from the pages with Python's integers: every operation on corner values.
It shares no text with the crates. --write stores the answers; --check fails where the stored ones differ.

A line has the operation, the first operand, and after the colon the result for each second operand. A divisor of zero is
printed as `fault`. An operation on one operand has one line, over that operand. CAS finds the first operand, expects the
second and desires 5."""

from lib import stored

CORNERS = [0, 1, 2, 3, 7, 31, 32, 33, 0x12345678, 0x7FFFFFFF, 0x80000000, 0x80000001, 0xDEADBEEF, 0xFFFFFFF9, 0xFFFFFFFE, 0xFFFFFFFF]


def signed(x):
    return x - (1 << 32) if x >> 31 else x


def wrap(x):
    return x & 0xFFFFFFFF


def div(a, b):
    """Cut toward zero."""
    a, b = signed(a), signed(b)
    size = abs(a) // abs(b)
    return wrap(size if (a < 0) == (b < 0) else -size)


def rem(a, b):
    """With the dividend's sign."""
    a, b = signed(a), signed(b)
    size = abs(a) % abs(b)
    return wrap(-size if a < 0 else size)


TWO = [
    ("ADD", lambda a, b: wrap(a + b)),
    ("SUB", lambda a, b: wrap(a - b)),
    ("MUL", lambda a, b: wrap(a * b)),
    ("DIV", div),
    ("UDIV", lambda a, b: a // b),
    ("REM", rem),
    ("UREM", lambda a, b: a % b),
    ("MIN", lambda a, b: min(a, b, key=signed)),
    ("MAX", lambda a, b: max(a, b, key=signed)),
    ("MULHI", lambda a, b: wrap((signed(a) * signed(b)) >> 32)),
    ("AND", lambda a, b: a & b),
    ("OR", lambda a, b: a | b),
    ("XOR", lambda a, b: a ^ b),
    ("SHL", lambda a, b: wrap(a << (b % 32))),
    ("SHR", lambda a, b: a >> (b % 32)),
    ("SAR", lambda a, b: wrap(signed(a) >> (b % 32))),
]

ONE = [
    ("NEG", lambda a: wrap(-a)),
    ("ABS", lambda a: wrap(abs(signed(a)))),
    ("NOT", lambda a: a ^ 0xFFFFFFFF),
    ("POPCNT", lambda a: bin(a).count("1")),
    ("MOV", lambda a: a),
]

COMPARE = [
    ("EQ", lambda a, b: int(a == b)),
    ("NE", lambda a, b: int(a != b)),
    ("LT", lambda a, b: int(signed(a) < signed(b))),
    ("GE", lambda a, b: int(signed(a) >= signed(b))),
]

ATOMIC = [
    ("ATOMIC ADD", lambda old, v: wrap(old + v)),
    ("ATOMIC SUB", lambda old, v: wrap(old - v)),
    ("ATOMIC AND", lambda old, v: old & v),
    ("ATOMIC OR", lambda old, v: old | v),
    ("ATOMIC XOR", lambda old, v: old ^ v),
    ("ATOMIC MIN", lambda old, v: min(old, v, key=signed)),
    ("ATOMIC MAX", lambda old, v: max(old, v, key=signed)),
    ("ATOMIC UMIN", lambda old, v: min(old, v)),
    ("ATOMIC UMAX", lambda old, v: max(old, v)),
    ("ATOMIC XCHG", lambda old, v: v),
    ("CAS", lambda old, expected: 5 if old == expected else old),
]

ADDRESS = [("ADDRESS", lambda base, offset: wrap(base + offset))]


def result(f, a, b):
    try:
        return f"{f(a, b):08x}"
    except ZeroDivisionError:
        return "fault"


def line(name, a, results):
    return f"{name} {a:08x}: {' '.join(results)}\n"


def lines(operations):
    return "".join(line(name, a, [result(f, a, b) for b in CORNERS]) for name, f in operations for a in CORNERS)


def answers():
    ones = "".join(line(name, 0, [f"{f(a):08x}" for a in CORNERS]) for name, f in ONE)
    return lines(TWO) + ones + lines(COMPARE) + lines(ATOMIC) + lines(ADDRESS)


stored.main(__doc__, lambda: {"crates/arith_cases/stdout": answers()})
