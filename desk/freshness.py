"""What a program is built from, and whether the one that is built is that.

Beside a program stands its state: a digest of the sources it was built from, one of the program itself, and the toolchain's name.
"""
import hashlib
import os
import shutil
from pathlib import Path

from desk.home import BIN, CRATES, CRATES_TXT

# The parts of a crate that a program is made of.
PARTS = ('src', 'specs', 'proofs')


def kit():
    """The toolchain's folder; None where there is none."""
    rt = shutil.which('rt')
    if rt is None:
        return None
    return Path(os.environ.get('RATTLE_HOME') or Path(rt).resolve().parent.parent)


def kit_name():
    """The toolchain's line about itself; None where there is none."""
    folder = kit()
    try:
        return folder and (folder / 'KIT-ID').read_text().strip()
    except OSError:
        return None


def dependencies():
    """From each crate of the project to the crates that it names."""
    crates = {}
    for line in CRATES_TXT.read_text().splitlines():
        name, colon, rest = line.partition('#')[0].partition(':')
        if colon:
            crates[name.strip()] = rest.split()
    return crates


def plan(program):
    """The crates that a program is made of, each behind those it needs, in the order in which rt proves them."""
    crates, found = dependencies(), []

    def add(name):
        if name not in found:
            for need in crates[name]:
                if need in crates:
                    add(need)
            found.append(name)
    add(program)
    return found


def sources(program):
    """A digest of all that a program is made from."""
    digest = hashlib.sha256(CRATES_TXT.read_bytes())
    for crate in plan(program):
        for part in PARTS:
            for path in sorted((CRATES / crate / part).rglob('*')):
                if path.is_file():
                    digest.update(f'\0{path.relative_to(CRATES)}\0'.encode())
                    digest.update(hashlib.sha256(path.read_bytes()).digest())
    return digest.hexdigest()


def state_of(program, digest):
    """The lines of the state of a program that was built from sources of this digest."""
    made = hashlib.sha256((BIN / program).read_bytes()).hexdigest()
    return [f'sources {digest}', f'program {made}', f'toolchain {kit_name()}']


def state_file(program):
    """Where a program's state stands."""
    return BIN / f'{program}.state'


def is_fresh(program):
    """Whether a program is what is checked out, by the toolchain that is here, or by any where there is none."""
    try:
        stored = state_file(program).read_text().splitlines()
        now = state_of(program, sources(program))
    except FileNotFoundError:
        return False
    return stored == now or (kit() is None and stored[:2] == now[:2])


def note(program, digest):
    """Writes down that a program was built from sources of this digest."""
    state_file(program).write_text('\n'.join(state_of(program, digest)) + '\n')
