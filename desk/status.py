"""The exit statuses, and what ends a command before it has an answer."""

ENDED = 0
NOT_DONE = 1
WRONG_USE = 2
FAULT = 10
OUT_OF_BUDGET = 11
REFUSED = 12

# A report's outcome and its status.
OUTCOMES = {'ended': ENDED, 'fault': FAULT, 'out of budget': OUT_OF_BUDGET, 'refused': REFUSED}


class Trouble(Exception):
    """Something wasn't read or not written; the text is the line that says so, with the file's name."""
    status = NOT_DONE


class WrongUse(Trouble):
    """The command line isn't one that the help has."""
    status = WRONG_USE


class Refused(Trouble):
    """What was handed in breaks a rule; the text says which, and where."""
    status = REFUSED


class Stopped(Exception):
    """A signal asked the run to stop; `signal` is its number."""

    def __init__(self, signal):
        super().__init__(signal)
        self.signal = signal
