"""Standard streams that are full, broken or closed: an answer that isn't written is status 1, and nothing crashes."""
import os
import subprocess
import time
import unittest

from support import FRONT, InFolder, build, front, sample

EXPLAINED = sample('t14', 'explained').read_bytes()


def shell(line, *words):
    """Runs a line of shell, in which $0 is llinosfar."""
    build()
    return subprocess.run(['bash', '-c', line, FRONT, *map(str, words)], stdin=subprocess.DEVNULL, capture_output=True)


class Output(InFolder):
    setUpClass = build

    def test_full(self):
        key, out = self.room / 'key', self.room / 'out'
        with open('/dev/full', 'wb') as full:
            self.says(front('replay', sample('t14'), '-k', key, '-o', out, stdout=full), 1, 'standard output: No space left on device')
        self.assertEqual(['key', 'out'], self.left())
        for words in (('make', key), ('list', self.day(key)), ('show', sample('t14')), ('pack', sample('t14', 'txt')), ('help',),
                      ('--version',), ('completion', 'bash')):
            with self.subTest(words[0]), open('/dev/full', 'wb') as full:
                self.says(front(*words, stdout=full), 1, 'standard output: No space left on device')

    def day(self, key):
        """A day file of one key."""
        front('make', key, '-o', self.room / 'day')
        return self.room / 'day'

    def broken(self, *words):
        """Runs llinosfar with an output whose reader has gone."""
        reader, writer = os.pipe()
        os.close(reader)
        try:
            return front(*words, stdout=writer)
        finally:
            os.close(writer)

    def test_broken_pipe(self):
        out = self.room / 'out'
        self.says(self.broken('replay', sample('t14'), '-o', out), 1, 'standard output: Broken pipe')
        self.assertTrue(out.exists())

    def test_broken_pipe_of_a_text_to_read(self):
        for words in (('show', sample('t14')), ('help',)):
            ran = self.broken(*words)
            self.assertEqual((1, b''), (ran.returncode, ran.stderr))

    def test_closed(self):
        key = self.room / 'key'
        ran = shell('exec "$0" replay "$1" -k "$2" >&-', sample('t14'), key)
        self.says(ran, 1, 'standard output: Bad file descriptor')
        self.assertEqual(32 + 24, key.stat().st_size)

    def test_one_write(self):
        """A pipe that hands on each write by itself gives the whole report at once."""
        reader, writer = os.pipe2(os.O_DIRECT)
        run = subprocess.Popen([FRONT, 'replay', sample('t14')], stdout=writer)
        os.close(writer)
        self.assertEqual(EXPLAINED, os.read(reader, 1 << 16))
        os.close(reader)
        self.assertEqual(10, run.wait())

    def test_not_to_wait(self):
        """A pipe that makes no writer wait, and a reader that is slow."""
        reader, writer = os.pipe()
        os.set_blocking(writer, False)
        filled = 0
        try:
            while True:
                filled += os.write(writer, bytes(4096))
        except BlockingIOError:
            pass
        run = subprocess.Popen([FRONT, 'replay', sample('t14')], stdout=writer)
        os.close(writer)
        time.sleep(1.5)
        with open(reader, 'rb') as pipe:
            self.assertEqual(bytes(filled) + EXPLAINED, pipe.read())
        self.assertEqual(10, run.wait())


class Error(InFolder):
    def test_closed(self):
        ran = shell('exec "$0" replay "$1" 2>&-', sample('t14'))
        self.assertEqual((10, EXPLAINED), (ran.returncode, ran.stdout))
        self.assertEqual(1, shell('exec "$0" replay "$1" 2>&-', self.room / 'none').returncode)

    def test_full(self):
        self.assertEqual(1, shell('exec "$0" replay "$1" 2> /dev/full', self.room / 'none').returncode)


class Input(InFolder):
    def test_closed(self):
        for command in ('replay', 'make', 'list', 'show', 'pack'):
            self.says(shell('exec "$0" "$1" - <&-', command), 1, 'standard input: it is closed')

    def test_closed_and_not_asked_for(self):
        ran = shell('exec "$0" replay "$1" <&-', sample('t14'))
        self.assertEqual((10, EXPLAINED), (ran.returncode, ran.stdout))


class All(InFolder):
    def test_closed(self):
        out = self.room / 'out'
        ran = shell('exec "$0" replay "$1" -o "$2" <&- >&- 2>&-', sample('t14'), out)
        self.assertEqual(1, ran.returncode)
        whole = self.room / 'whole'
        front('replay', sample('t14'), '-o', whole)
        self.assertEqual(whole.read_bytes(), out.read_bytes())


if __name__ == '__main__':
    unittest.main()
