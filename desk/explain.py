"""What a report says, in words that stand behind its fixed lines."""
from desk import blocks, faults, refusals
from desk.lanes import first, in_words


def words(report, capture, end):
    """The lines of words; `capture` is the one handed in, and `end` that of the end state, None where the run was refused."""
    if report.refusal:
        return refusals.lines(report, capture)
    return outcome_lines(report, end) + lane_lines(report, end) + blocks.lines(report.blocks)


def outcome_lines(report, end):
    """What ended the run, and where."""
    shown = f': {report.instruction}' if report.instruction else ''
    if report.outcome == 'fault':
        return [f'fault at place {report.place}, after {steps(report.steps)}{shown}'] + faults.lines(report, end)
    if report.outcome == 'out of budget':
        return [f'out of budget after {steps(report.steps)}, before place {report.place}{shown}']
    if report.place == end.code_words:
        return [f'ended after {steps(report.steps)}, at the end of the code']
    return [f'ended after {steps(report.steps)}, before place {report.place}: every launched lane has halted']


def steps(count):
    """A number of steps with its word."""
    return '1 step' if count == 1 else f'{count:,} steps'


def lane_lines(report, end):
    """The lanes' sets, and the predicates'."""
    sets = report.sets
    lanes = f'lanes: launched {in_words(first(end.lanes))}; active {in_words(sets["active"])}; halted {in_words(sets["halted"])}'
    predicates = '; '.join(f'{name} {in_words(sets[name])}' for name in ('p1', 'p2', 'p3'))
    return [lanes, f'predicates: {predicates}']
