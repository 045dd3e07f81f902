"""How far a long run has come."""
import time

from desk import streams


def line(steps, budget, seconds):
    """Per cent of the budget, steps, steps a second, and the time that is left at most."""
    rate = steps / seconds if seconds > 0 else 0
    text = f'{100 * steps // budget}%: {steps:,} of {budget:,} steps'
    if rate < 1:
        return text
    return f'{text}, {round(rate):,} a second, at most {duration((budget - steps) / rate)} left'


def duration(seconds):
    """A time in its two largest units."""
    whole = round(seconds)
    if whole < 60:
        return f'{whole} s'
    if whole < 3600:
        return f'{whole // 60} min {whole % 60} s'
    return f'{whole // 3600} h {whole % 3600 // 60} min'


class Progress:
    """A line on the terminal that is written over; nothing where standard error is no terminal."""

    def __init__(self, budget):
        self.budget = budget
        self.began = 0
        self.shown = streams.is_terminal(streams.ERROR)

    def begin(self):
        """Starts the clock."""
        self.began = time.monotonic()

    def at(self, steps):
        """Shows how far the run has come."""
        if self.shown:
            streams.show('\r\x1b[K' + line(steps, self.budget, time.monotonic() - self.began))

    def clear(self):
        """Takes the line away."""
        if self.shown:
            streams.show('\r\x1b[K')
