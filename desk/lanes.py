"""Sets of lanes: from a report's eight digits to lanes, and in words."""


def lanes_in(mask):
    """The lanes of a set in rising order."""
    return [lane for lane in range(32) if mask >> lane & 1]


def first(n):
    """The set of lanes 0 to n-1."""
    return (1 << n) - 1


def in_words(mask):
    """A set as `0,3-8`; an empty one as `none`."""
    runs = []
    for lane in lanes_in(mask):
        if runs and runs[-1][1] == lane - 1:
            runs[-1][1] = lane
        else:
            runs.append([lane, lane])
    return ','.join(f'{a}' if a == b else f'{a}-{b}' for a, b in runs) or 'none'


def named(mask):
    """A set with the word for it: `lane 3`, `lanes 3-8`, `no lane`."""
    count = len(lanes_in(mask))
    if count == 0:
        return 'no lane'
    return ('lane ' if count == 1 else 'lanes ') + in_words(mask)
