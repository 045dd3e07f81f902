"""A fault in words: for each faulting lane the register, the address and the cause.

The report says which lanes fault and by which kind. The causes are worked out from the instruction's text and the registers of the end state,
which a faulting instruction leaves as it found them. Where a cause doesn't give the report's kind, only what the report says is said.
"""
from desk import blocks, instruction
from desk.lanes import first, lanes_in, named
from desk.numerals import numeral

ODD, DEVICE, LOCAL, DIVISOR, BARRIER, TOP = 1, 2, 3, 4, 5, 6

KINDS = {
    ODD: 'the address is not a multiple of 4',
    DEVICE: 'the address is past device memory',
    LOCAL: 'the address is past local memory',
    DIVISOR: 'the divisor is 0',
    BARRIER: 'some lanes have not reached the barrier',
    TOP: 'base + offset reaches 2^32',
}


def lines(report, end):
    """The lines of a fault; `end` is the capture of the end state."""
    if report.instruction is None:
        return [f'{named(mask)}: {KINDS[kind]}' for kind, mask in report.kinds.items()]
    if BARRIER in report.kinds:
        return barrier_lines(report, end)
    found = [(lane, kind) for kind, mask in report.kinds.items() for lane in lanes_in(mask)]
    return [f'lane {lane}: {told(report.instruction, end, lane, kind)}' for lane, kind in sorted(found)]


def told(text, end, lane, kind):
    """Why a lane faults by this kind: the cause with its numbers, or the kind alone where the cause is of another."""
    for cause_kind, cause in (address_cause(text, end, lane), divisor_cause(text, end, lane)):
        if cause_kind == kind:
            return cause
    return KINDS[kind]


def address_cause(text, end, lane):
    """The kind that a lane's address gives, and its words; None and None where it gives none."""
    found = instruction.address(text)
    value = found and end.register(lane, found[0])
    if value is None:
        return None, None
    base, offset = found
    address = value + (offset or 0)
    if address >= 2 ** 32:
        return TOP, f'address r{base} {numeral(value)} + {numeral(offset)}: {KINDS[TOP]}'
    source = f'in r{base}' if offset is None else f'= r{base} {numeral(value)} + {numeral(offset)}'
    where = f'address {numeral(address)} {source}'
    if address % 4:
        return ODD, f'{where}: not a multiple of 4'
    local = instruction.is_local(text)
    size = 4 * (end.local_words if local else end.device_words)
    if address >= size:
        return (LOCAL if local else DEVICE), f'{where}: past {"local" if local else "device"} memory of {size} bytes'
    return None, None


def divisor_cause(text, end, lane):
    """The kind that a lane's divisor gives, and its words; None and None where it gives none."""
    register = instruction.divisor(text)
    if register is None or end.register(lane, register) != 0:
        return None, None
    return DIVISOR, f'divisor r{register} is 0'


def barrier_lines(report, end):
    """Which lanes reached the barrier, and where those are that have not."""
    missing = first(end.lanes) & ~report.sets['halted'] & ~report.sets['active']
    told = [f'BARRIER: reached by {named(report.kinds[BARRIER])}, not by {named(missing)}']
    for block in report.blocks:
        for mask, what in blocks.set_aside(block):
            if mask & missing:
                told.append(f'{named(mask & missing)}: {what} ({blocks.head(block)})')
    return told
