"""Long runs: slices kept in OUT, progress on a terminal, and what a stopped run says and leaves."""
import os
import pty
import re
import select
import signal
import subprocess
import sys
import time
import unittest

from support import FRONT, PATIENCE, ROOT, InFolder, build, capture, front, second

BUDGET = 61_000_000
DATA = capture([0], budget=BUDGET)
LOOP, ENDLOOP = 0x3F000030, 0x3F000060
ONE_IN_R1, COUNT_IN_R0 = (0xF1010000, 1), (0x00000000, 0x01000000)


def after(steps):
    """What the stand-in keeps after so many steps."""
    return DATA[:8] + steps.to_bytes(4, 'little') + DATA[12:]


class Slow(InFolder):
    """Runs over the stand-in, which pauses after 1, 21 and 41 million steps."""

    def setUp(self):
        super().setUp()
        self.given, self.out, self.pid = self.file('long.cap', DATA), self.room / 'out', self.room / 'pid'
        self.temporary = self.room / 'temporary'
        self.temporary.mkdir()

    def words(self, *words):
        return [sys.executable, ROOT / 'tests' / 'front' / 'slow_front.py', self.pid, 'replay', self.given, *words]

    def start(self, *words):
        return subprocess.Popen(self.words(*words), stdout=subprocess.PIPE, stderr=subprocess.PIPE, env=self.environment())

    def environment(self):
        return {**os.environ, 'TMPDIR': str(self.temporary)}

    def wait_for(self, what):
        """Waits until something holds."""
        end = time.monotonic() + PATIENCE
        while not what():
            self.assertLess(time.monotonic(), end, 'it never came')
            time.sleep(0.02)

    def ended(self):
        """Whether the program that was started has ended, be it reaped or not."""
        try:
            with open(f'/proc/{int(self.pid.read_text())}/stat') as file:
                return file.read().rpartition(')')[2].split()[0] == 'Z'
        except FileNotFoundError:
            return True

    def left_clean(self):
        """Holds the folders to what a run may leave in them."""
        self.wait_for(self.ended)
        self.assertEqual([], os.listdir(self.temporary))
        self.assertEqual([], [name for name in self.left() if name.startswith('.')])


class Stopped(Slow):
    def stop(self, number, *words):
        """Starts a run with OUT, sends it a signal when the first slice is kept, and answers what it said."""
        run = self.start('-o', self.out, *words)
        self.wait_for(self.out.exists)
        run.send_signal(number)
        out, error = run.communicate(timeout=PATIENCE)
        self.assertEqual((-number, b''), (run.returncode, out))
        return error.decode()

    def test_by_a_signal(self):
        for number in (signal.SIGINT, signal.SIGTERM, signal.SIGHUP):
            with self.subTest(number):
                self.assertEqual(f'llinosfar: stopped: {self.out} has the state after 1,000,000 of 61,000,000 steps; '
                                 f'to go on: llinosfar replay {self.out} --budget 60000000 -o NEXT\n', self.stop(number))
                self.assertEqual(after(1_000_000), self.out.read_bytes())
                self.left_clean()
                self.out.unlink()

    def test_the_command_to_go_on_can_be_pasted(self):
        self.out = self.room / "end of it's run"
        self.assertIn(f"""replay '{self.room}/end of it'"'"'s run' --budget""", self.stop(signal.SIGINT))

    def test_later(self):
        run = self.start('-o', self.out)
        self.wait_for(lambda: self.out.exists() and self.out.read_bytes() == after(21_000_000))
        run.send_signal(signal.SIGINT)
        self.assertIn(b'has the state after 21,000,000 of 61,000,000 steps; to go on', run.communicate(timeout=PATIENCE)[1])
        self.assertEqual(after(21_000_000), self.out.read_bytes())

    def test_without_out(self):
        """However early the signal comes, the program that was started is ended."""
        for pause in (0, 0.1, 0.2):
            run = self.start()
            self.wait_for(lambda: self.pid.exists() and self.pid.read_text())
            time.sleep(pause)
            run.send_signal(signal.SIGINT)
            error = run.communicate(timeout=PATIENCE)[1]
            self.assertEqual((-signal.SIGINT, b'llinosfar: stopped in the first slice of steps; nothing is written\n'), (run.returncode, error))
            self.left_clean()
            self.pid.unlink()

    def test_killed(self):
        run = self.start('-o', self.out)
        self.wait_for(lambda: self.out.exists() and self.out.read_bytes() == after(21_000_000))
        run.kill()
        run.communicate(timeout=PATIENCE)
        self.assertEqual(after(21_000_000), self.out.read_bytes())
        self.wait_for(self.ended)

    def test_ignored(self):
        """A signal that the caller ignores, as nohup does, stops nothing."""
        ignoring = ['sh', '-c', 'trap "" HUP INT; exec "$@"', 'sh', *map(str, self.words('-o', self.out))]
        run = subprocess.Popen(ignoring, stdout=subprocess.PIPE, env=self.environment())
        self.wait_for(self.out.exists)
        run.send_signal(signal.SIGHUP)
        run.send_signal(signal.SIGINT)
        self.assertIn(b'outcome ended', run.communicate(timeout=PATIENCE)[0])
        self.assertEqual(0, run.returncode)


class ToTheEnd(Slow):
    def test_state_and_report(self):
        run = self.start('-o', self.out)
        self.wait_for(self.out.exists)
        out, error = run.communicate(timeout=PATIENCE)
        self.assertEqual((0, b'', f'steps {BUDGET}'.encode()), (run.returncode, error, out.splitlines()[1]))
        self.assertEqual(after(BUDGET), self.out.read_bytes())
        self.left_clean()

    def test_mode_of_a_replaced_file(self):
        self.file('out').chmod(0o600)
        run = self.start('-f', '-o', self.out)
        run.communicate(timeout=PATIENCE)
        self.assertEqual((0, 0o600), (run.returncode, self.out.stat().st_mode & 0o777))

    def test_out_that_is_taken_away(self):
        """What can't be kept is said, and the run goes on to its report."""
        run = self.start('-o', self.out)
        self.wait_for(self.out.exists)
        self.out.unlink()
        self.out.mkdir()
        out, error = run.communicate(timeout=PATIENCE)
        self.assertEqual((1, b'outcome ended'), (run.returncode, out.splitlines()[0]))
        self.assertEqual({f'llinosfar: {self.out}: it exists and is no regular file'}, set(error.decode().splitlines()))

    def test_short_runs_have_no_slices(self):
        self.given.write_bytes(capture([0], budget=1_000_000))
        self.start('-o', self.out).communicate(timeout=PATIENCE)
        self.assertEqual(1_000_000, int.from_bytes(self.out.read_bytes()[8:12], 'little'))


class OnATerminal(Slow):
    def start_on_terminal(self, *words):
        """A run with a terminal of its own: its process, and the terminal's other end."""
        process, terminal = pty.fork()
        if process == 0:
            words = list(map(str, self.words(*words)))
            os.execve(words[0], words, self.environment())
        self.addCleanup(os.close, terminal)
        return process, terminal

    def read_to_end(self, terminal, until=None):
        """What comes from a terminal, to its end or to some bytes."""
        data = b''
        while not (until and until in data):
            self.assertTrue(select.select([terminal], [], [], PATIENCE)[0], data)
            try:
                more = os.read(terminal, 4096)
            except OSError:
                break
            if not more:
                break
            data += more
        return data

    def test_progress(self):
        process, terminal = self.start_on_terminal()
        data = self.read_to_end(terminal).decode()
        self.assertEqual(0, os.waitstatus_to_exitcode(os.waitpid(process, 0)[1]))
        line, after, clear = r'\r\x1b\[K', r' of 61,000,000 steps, [\d,]+ a second, at most \d+ (s|min \d+ s) left', '\r\x1b[K'
        self.assertRegex(data, line + '1%: 1,000,000' + after + line + '34%: 21,000,000' + after + line + '67%: 41,000,000' + after)
        self.assertIn(clear + 'outcome ended\r\n', data)

    def test_control_c(self):
        process, terminal = self.start_on_terminal('-o', self.out)
        data = self.read_to_end(terminal, b'1%: 1,000,000')
        os.write(terminal, b'\x03')
        data += self.read_to_end(terminal)
        self.assertEqual(-signal.SIGINT, os.waitstatus_to_exitcode(os.waitpid(process, 0)[1]))
        self.assertIn(b'has the state after 1,000,000 of 61,000,000 steps; to go on: llinosfar replay', data)
        self.assertNotIn(b'Traceback', data)
        self.left_clean()

    def test_control_c_without_out(self):
        process, terminal = self.start_on_terminal()
        self.read_to_end(terminal, b'1%: 1,000,000')
        os.write(terminal, b'\x03')
        self.assertIn(b'stopped after 1,000,000 of 61,000,000 steps; no state is kept (-o OUT keeps it)', self.read_to_end(terminal))
        os.waitpid(process, 0)


class Proved(InFolder):
    """The proved program itself, on a loop that counts, beside the second program in one run."""
    setUpClass = build

    def setUp(self):
        super().setUp()
        self.out, self.other = self.room / 'out', self.room / 'other'

    def loop(self, name, budget):
        return self.file(name, capture([*ONE_IN_R1, LOOP, *COUNT_IN_R0, ENDLOOP], budget=budget))

    def test_slices_give_the_same(self):
        given = self.loop('loop.cap', 2_500_001)
        ran = front('replay', given, '-o', self.out)
        self.assertEqual((11, b'steps 2500001'), (ran.returncode, ran.stdout.splitlines()[1]))
        second('replay', given, self.other)
        self.assertEqual(self.other.read_bytes(), self.out.read_bytes())

    def test_a_stopped_run_has_the_state_that_it_says(self):
        run = subprocess.Popen([FRONT, 'replay', self.loop('loop.cap', 1_000_000_000), '-o', self.out], stderr=subprocess.PIPE)
        end = time.monotonic() + PATIENCE
        while not self.out.exists():
            self.assertLess(time.monotonic(), end)
            time.sleep(0.01)
        run.send_signal(signal.SIGINT)
        said = run.communicate(timeout=PATIENCE)[1].decode()
        self.assertEqual(-signal.SIGINT, run.returncode, said)
        steps = int(re.search(r'has the state after ([\d,]+) of 1,000,000,000 steps', said).group(1).replace(',', ''))
        self.assertIn(f'--budget {1_000_000_000 - steps} -o NEXT', said)
        second('replay', self.loop('beginning.cap', steps), self.other)
        without_budget = lambda data: data[:24] + data[28:]
        self.assertEqual(without_budget(self.other.read_bytes()), without_budget(self.out.read_bytes()))


if __name__ == '__main__':
    unittest.main()
