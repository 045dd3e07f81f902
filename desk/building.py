"""Building the proved programs from what is checked out, by rt, which proves only what has changed."""
import contextlib
import fcntl
import os
import re
import selectors
import shutil
import subprocess

from desk import running, streams
from desk.freshness import is_fresh, kit, note, plan, sources
from desk.home import BIN, CRATES, CRATES_TXT
from desk.status import Stopped, Trouble

# A check that finds nothing changed takes less than these seconds, and isn't told of.
PATIENCE = 5


def ensure(program):
    """Has a program be what is checked out: it is built where it isn't. Where that can't be, the user is told."""
    try:
        if is_fresh(program):
            return
        if kit() is None:
            without_toolchain(program)
            return
        with lock() as held:
            if not is_fresh(program):
                digest = sources(program)
                build(program, held)
                note(program, digest)
    except OSError as error:
        raise Trouble(f'{program} was not built: {error.filename}: {error.strerror}') from error


def without_toolchain(program):
    """What can be done where there is no toolchain: to say that the program is an old one, or that there is none."""
    if not (BIN / program).exists():
        raise Trouble(f'{program} is not built, and rt, which builds it, is not found')
    streams.say(f'warning: {program} may not be what is checked out, and rt, which would build it, is not found')


@contextlib.contextmanager
def lock():
    """Waits until no other run builds, and keeps others from it; gives the file that holds the lock."""
    with CRATES_TXT.open('rb') as file:
        try:
            fcntl.flock(file, fcntl.LOCK_EX | fcntl.LOCK_NB)
        except BlockingIOError:
            streams.say('waiting for another run that is building')
            fcntl.flock(file, fcntl.LOCK_EX)
        yield file.fileno()


def build(program, held):
    """Proves and builds a program, and takes it. What the prover says goes to a log; a line counts the crates.

    rt run starts what it has built: with no word and no input, which gives it nothing to do, and how it ends doesn't count. rt has the lock's
    file too, so that it is held as long as rt runs, even where this process is killed.
    """
    BIN.mkdir(parents=True, exist_ok=True)
    log = BIN.parent / f'{program}.log'
    try:
        with log.open('wb') as text, running.started(['rt', 'run'], cwd=CRATES / program, pass_fds=[held], stdin=subprocess.DEVNULL,
                                                     stdout=subprocess.PIPE, stderr=subprocess.STDOUT) as rt, rt.stdout:
            is_built = follow(rt, program, text)
            rt.wait()
    except Stopped:
        streams.say(f'stopped while {program} was built; what is proved stays proved')
        raise
    if not is_built:
        raise Trouble(f'{program} was not built: what the prover said is in {log}')
    take(program)


def take(program):
    """Puts the program that rt left in its crate's folder where the front has its programs, whole: rt ci clears the crates' folders."""
    BIN.mkdir(parents=True, exist_ok=True)
    new = BIN / f'{program}.new'
    shutil.copy(CRATES / program / 'out' / program, new)
    os.replace(new, BIN / program)


def follow(rt, program, log):
    """Copies what rt says to the log until it ends, and tells how far it is; answers whether the program was built."""
    counter = Counter(program)
    rest = b''
    with selectors.DefaultSelector() as ready:
        ready.register(rt.stdout, selectors.EVENT_READ)
        while True:
            if not ready.select(PATIENCE):
                counter.tell_slow(log.name)
                continue
            data = os.read(rt.stdout.fileno(), 1 << 16)
            if not data:
                break
            log.write(data)
            *lines, rest = (rest + data).split(b'\n')
            for line in lines:
                counter.read(line)
    counter.clear()
    return counter.is_built


class Counter:
    """The line that counts the crates: on a terminal it is written over, elsewhere there is one line where it takes long."""

    def __init__(self, program):
        self.program = program
        self.crates = plan(program)
        self.done = 0
        self.is_built = False
        self.on_terminal = streams.is_terminal(streams.ERROR)
        self.told = False
        self.shown = None
        self.show()

    def line(self):
        """How far the proving is."""
        return f'proving {self.done + 1} of {len(self.crates)}: {self.crates[self.done]}'

    def show(self):
        """Writes the line over, on a terminal, where it is another and crates are left."""
        if self.on_terminal and self.done < len(self.crates) and self.shown != self.done:
            streams.show(f'\r\x1b[K{self.line()}')
            self.shown = self.done

    def read(self, line):
        """Counts by a line of rt's: that a crate is begun, that it is proved, or that the program is built and started."""
        begun, proved = re.match(rb'rt: chose --jobs \d+ for (\w+)', line), re.match(rb'crate (\w+): modules ', line)
        told = begun or proved
        crate = told and told[1].decode()
        if crate in self.crates:
            self.done = self.crates.index(crate) + bool(proved)
            self.show()
        self.is_built = self.is_built or line.startswith(f'rt: running out/{self.program};'.encode())

    def tell_slow(self, log):
        """Says once, where there is no terminal, that this takes long."""
        if not (self.on_terminal or self.told):
            streams.say(f'proving and building {self.program}, {len(self.crates)} crates, which takes minutes, once; log: {log}')
            self.told = True

    def clear(self):
        """Takes the line away."""
        if self.on_terminal:
            streams.show('\r\x1b[K')
