"""The programs that rt ci built, taken for the front, so that a gate that has just proved them doesn't prove them once more.

python3 -m desk.taking say              before rt ci: a line for each program, its name and the digest of what it is made from
python3 -m desk.taking take < LINES     once it has passed: what it left in the crates' folders is made from that
"""
import sys

from desk import building, freshness, programs


def main(words):
    """Does what the word asks for."""
    if words == ['say']:
        for program in programs.PROVED:
            print(program, freshness.sources(program))
    elif words == ['take']:
        with building.lock():
            for line in sys.stdin:
                program, digest = line.split()
                building.take(program)
                freshness.note(program, digest)
    else:
        sys.exit(__doc__)


if __name__ == '__main__':
    main(sys.argv[1:])
