"""A capture file's numbers, for the front's words about them. Whether a file is a capture is decided by the proved program alone."""
import struct

# The longest capture that the proved program takes has fewer bytes; what stands behind them changes no answer.
MOST_BYTES = 128 << 20

HEADER = struct.Struct('<4sI11I')
BUDGET_AT = 24
MOST_BUDGET = 1_000_000_000
STATE_WORDS = 7
BLOCK_WORDS = 6


class Capture:
    """The settings and words of a file that the proved program has read."""

    def __init__(self, data):
        self.data = data
        (_, _, self.kernel, self.width, self.registers, self.lanes, self.budget,
         self.code_words, self.register_words, self.device_words, self.local_words, self.state_words, _) = HEADER.unpack_from(data)

    def word(self, index):
        """The word at an index, counted from the header's end; None past the file's end."""
        at = HEADER.size + 4 * index
        return int.from_bytes(self.data[at:at + 4], 'little') if at + 4 <= len(self.data) else None

    def code(self, place):
        """The code's word at a place; None past its end."""
        return self.word(place) if place < self.code_words else None

    def register(self, lane, number):
        """A register of a lane."""
        return self.word(self.code_words + lane * self.registers + number)

    def state(self):
        """The state's words; none for a launch."""
        first = self.code_words + self.register_words + self.device_words + self.local_words
        return [self.word(first + k) for k in range(self.state_words)]

    def blocks(self):
        """The six numbers of each of the state's open blocks."""
        words = self.state()[STATE_WORDS:]
        return [words[k:k + BLOCK_WORDS] for k in range(0, len(words), BLOCK_WORDS)]


def budget_of(data):
    """The budget of a capture's bytes; 0 where they don't reach that far."""
    return int.from_bytes(data[BUDGET_AT:BUDGET_AT + 4], 'little')


def with_budget(data, budget):
    """The same bytes with another budget; unchanged where they don't reach that far."""
    if len(data) < BUDGET_AT + 4:
        return data
    return data[:BUDGET_AT] + budget.to_bytes(4, 'little') + data[BUDGET_AT + 4:]
