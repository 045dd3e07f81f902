"""What the front's tests share: running it, folders of their own, and captures made from numbers."""
import functools
import os
import pathlib
import shutil
import signal
import struct
import subprocess
import sys
import tempfile
import unittest

ROOT = pathlib.Path(__file__).resolve().parents[2]
FRONT = str(ROOT / 'llinosfar')
CAPTURES = ROOT / 'captures'
SAMPLES = sorted(path.stem for path in CAPTURES.glob('*.cap'))

sys.path.insert(0, str(ROOT))

# Seconds that no call may take.
PATIENCE = 120


@functools.lru_cache(maxsize=None)
def build():
    """Has the programs built once, however long it takes, so that no test waits for it."""
    subprocess.run([FRONT, 'build'], check=True)


def heed_signals():
    """Has whatever a test starts heed an interrupt and a hang-up: what a shell starts in the background, or nohup, ignores them."""
    for number in (signal.SIGINT, signal.SIGHUP):
        if signal.getsignal(number) == signal.SIG_IGN:
            signal.signal(number, signal.SIG_DFL)


def front(*words, **how):
    """Runs llinosfar with standard input empty and its outputs kept, unless `how` says otherwise."""
    build()
    how = {'stdin': subprocess.DEVNULL, 'stdout': subprocess.PIPE, 'stderr': subprocess.PIPE, 'timeout': PATIENCE, **how}
    if 'input' in how:
        del how['stdin']
    return subprocess.run([FRONT, *map(str, words)], **how)


def second(*words):
    """Runs the second program; it must succeed."""
    return subprocess.run([str(ROOT / 'second' / 'run'), *map(str, words)], check=True, capture_output=True, timeout=PATIENCE)


def sample(name, kind='cap'):
    """The path of one of a sample's files."""
    return CAPTURES / f'{name}.{kind}'


def capture(code, width=8, registers=2, lanes=2, budget=1000, kernel=7, values=None, device=(), local=(), state=()):
    """The bytes of a capture, by the table of its format. Registers are 0 where none are given."""
    values = [0] * (width * registers) if values is None else values
    parts = (code, values, device, local, state)
    numbers = [1, kernel, width, registers, lanes, budget, *map(len, parts), 0, *(word for part in parts for word in part)]
    return b'WCAP' + struct.pack(f'<{len(numbers)}I', *numbers)


class InFolder(unittest.TestCase):
    """A test with a folder of its own, `room`, which goes when it is done."""

    def setUp(self):
        heed_signals()
        self.room = pathlib.Path(tempfile.mkdtemp(prefix='front-'))
        self.addCleanup(shutil.rmtree, self.room, ignore_errors=True)

    def file(self, name, data=b'earlier'):
        """A file in the folder."""
        path = self.room / name
        path.write_bytes(data)
        return path

    def left(self):
        """The names of what is in the folder."""
        return sorted(os.listdir(self.room))

    def says(self, ran, status, error):
        """Holds a run to its exit status, and to a part of its one line on standard error."""
        text = ran.stderr.decode()
        self.assertEqual(status, ran.returncode, text)
        self.assertIn(error, text)
        self.assertEqual(1, text.count('\n'), text)
