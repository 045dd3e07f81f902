"""A stand-in for the replay program: CAPTURE OUT KEY [slices]. It goes in slices as that one does, with pauses that a test can follow.

The state after a slice is the capture with the steps so far as its kernel number.
"""
import os
import sys
import time

PAUSE = 0.3
FIRST, NEXT = 1_000_000, 20_000_000

REPORT = """\
outcome ended
steps {steps}
place 0
active 00000003
halted 00000000
p1 00000000
p2 00000000
p3 00000000
depth 0
"""


def keep(path, data, steps):
    """Writes the state after so many steps beside its place, and renames it."""
    with open(path + '.new', 'wb') as file:
        file.write(data[:8] + steps.to_bytes(4, 'little') + data[12:])
    os.rename(path + '.new', path)


def main(given, out, key, *slices):
    with open(given, 'rb') as file:
        data = file.read()
    budget = int.from_bytes(data[24:28], 'little')
    steps = FIRST
    if not slices:
        time.sleep(2 * PAUSE)
    while slices and steps < budget:
        keep(out, data, steps)
        os.write(2, b'steps %d\n' % steps)
        time.sleep(PAUSE)
        steps += NEXT
    keep(out, data, budget)
    os.write(1, REPORT.format(steps=budget).encode())


main(*sys.argv[1:])
