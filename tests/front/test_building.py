"""What runs is what is checked out: building at first use and after a change, over a toolchain that only pretends."""
import os
import pty
import shutil
import signal
import stat
import subprocess
import sys
import time
import unittest

from support import PATIENCE, ROOT, InFolder

# Builds a program that prints what its sources were, in its crate's folder, and says what rt says. It notes each call, and waits for a file
# named `slow` to go. At last it is as if the program had been started and had ended with a status of its own, which isn't rt's.
RT = """\
#!/bin/sh
program="$(basename "$PWD")"
cd ../..
echo "$* in $program" >> calls
[ "$*" = run ] || exit 2
echo 'rt: chose --jobs 2 for low'
echo 'crate low: modules loaded=3 checked=2'
while [ -e slow ]; do sleep 0.05; done
echo 'logic=proved and much more text'
grep -q broken crates/*/src/* && { echo 'error: not proved'; exit 1; }
echo 'crate middle: modules loaded=3 checked=1'
out="crates/$program/out"
mkdir -p "$out"
{ echo '#!/bin/sh'; echo 'cat > /dev/null'; cat crates/low/src/lib.rt "crates/$program/src/main.rt" | sed 's/^/echo /'; } > "$out/$program"
chmod +x "$out/$program"
echo "rt: chose --jobs 2 for $program"
echo "crate $program: modules loaded=3 checked=1"
echo "rt: running out/$program; to give it other input, run that file yourself"
exit 3
"""

# The emulator's place: it drops the words that come before the program.
EMULATOR = """\
#!/bin/sh
[ "$1" = -s ] || exit 9
shift 5
exec "$@"
"""

CRATES = """\
# lowest first
low:
middle: low io
list_day: middle low io
other: low
"""


class Checkout(InFolder):
    """A small project with the front, and a toolchain that only pretends."""

    def setUp(self):
        super().setUp()
        self.home, self.kit = self.room / 'home', self.room / 'kit'
        shutil.copytree(ROOT / 'desk', self.home / 'desk', ignore=shutil.ignore_patterns('__pycache__'))
        shutil.copy(ROOT / 'llinosfar', self.home)
        (self.home / 'crates.txt').write_text(CRATES)
        for name, file in (('low', 'lib.rt'), ('middle', 'lib.rt'), ('list_day', 'main.rt'), ('other', 'lib.rt')):
            (self.home / 'crates' / name / 'src').mkdir(parents=True)
            (self.home / 'crates' / name / 'src' / file).write_text(f'{name} 1\n')
        tools = self.kit / 'on' / os.uname().machine / 'toolchain' / 'bin'
        tools.mkdir(parents=True)
        (self.kit / 'bin').mkdir()
        (self.kit / 'KIT-ID').write_text('a kit that pretends\n')
        for path, text in ((self.kit / 'bin' / 'rt', RT), (tools / 'qemu-x86_64', EMULATOR)):
            path.write_text(text)
            path.chmod(0o755)

    def environment(self, kit=True):
        """The environment, with or without a toolchain."""
        tools = os.environ['PATH'].split(os.pathsep)
        tools = [folder for folder in tools if not os.path.exists(os.path.join(folder, 'rt'))]
        kept = {name: value for name, value in os.environ.items() if name != 'RATTLE_HOME'}
        return {**kept, 'PATH': os.pathsep.join(([str(self.kit / 'bin')] if kit else []) + tools)}

    def words(self):
        return [self.home / 'llinosfar', 'list', '-']

    def run_front(self, kit=True, words=None):
        return subprocess.run(words or self.words(), input=b'', capture_output=True, env=self.environment(kit), timeout=PATIENCE)

    def prints(self, *lines):
        """Runs the program, and holds it to what it prints of its sources."""
        ran = self.run_front()
        self.assertEqual(('\n'.join(lines) + '\n', ''), (ran.stdout.decode(), ran.stderr.decode()))

    def run_rt(self):
        """Has rt build the program with no word of the front's."""
        subprocess.run(['rt', 'run'], cwd=self.home / 'crates' / 'list_day', env=self.environment(), stdout=subprocess.DEVNULL)

    def calls(self):
        """How often rt was called."""
        path = self.home / 'calls'
        return len(path.read_text().splitlines()) if path.exists() else 0

    def wait_for_calls(self, count):
        end = time.monotonic() + PATIENCE
        while self.calls() < count:
            self.assertLess(time.monotonic(), end)
            time.sleep(0.02)

    def write(self, crate, text):
        (self.home / 'crates' / crate / 'src' / ('main.rt' if crate == 'list_day' else 'lib.rt')).write_text(text)


class Fresh(Checkout):
    def test_first_use_and_second(self):
        self.prints('low 1', 'list_day 1')
        self.prints('low 1', 'list_day 1')
        self.assertEqual(1, self.calls())
        self.assertEqual('run in list_day\n', (self.home / 'calls').read_text())

    def test_log(self):
        self.prints('low 1', 'list_day 1')
        self.assertIn('logic=proved and much more text', (self.home / 'target' / 'list_day.log').read_text())

    def test_a_change(self):
        self.prints('low 1', 'list_day 1')
        self.write('low', 'low 2\n')
        self.prints('low 2', 'list_day 1')
        self.write('list_day', 'list_day 2\n')
        self.prints('low 2', 'list_day 2')
        self.assertEqual(3, self.calls())

    def test_changes_that_count(self):
        self.prints('low 1', 'list_day 1')
        (self.home / 'crates' / 'middle' / 'proofs').mkdir()
        (self.home / 'crates' / 'middle' / 'proofs' / 'Law.antt').write_text('a law')
        self.run_front()
        self.assertEqual(2, self.calls())
        (self.home / 'crates.txt').write_text(CRATES + 'more: low\n')
        self.run_front()
        self.assertEqual(3, self.calls())
        (self.kit / 'KIT-ID').write_text('another kit\n')
        self.run_front()
        self.assertEqual(4, self.calls())

    def test_changes_that_do_not(self):
        self.prints('low 1', 'list_day 1')
        self.write('other', 'other 2\n')
        (self.home / 'crates' / 'low' / 'must-fail').mkdir()
        (self.home / 'crates' / 'low' / 'must-fail' / 'x.edit').write_text('an edit')
        self.run_front()
        self.assertEqual(1, self.calls())

    def test_there_and_back(self):
        """A program that rt built from other sources in between isn't taken for the old one."""
        self.prints('low 1', 'list_day 1')
        self.write('low', 'low 2\n')
        self.run_rt()
        self.write('low', 'low 1\n')
        self.prints('low 1', 'list_day 1')
        self.assertEqual(2, self.calls())

    def test_a_change_while_it_is_built(self):
        """What was changed meanwhile is not taken for what was built."""
        slow = self.home / 'slow'
        slow.touch()
        run = subprocess.Popen(self.words(), stdin=subprocess.DEVNULL, stdout=subprocess.PIPE, env=self.environment())
        self.wait_for_calls(1)
        (self.home / 'crates' / 'middle' / 'src' / 'lib.rt').write_text('middle 2\n')
        slow.unlink()
        run.communicate(timeout=PATIENCE)
        self.prints('low 1', 'list_day 1')
        self.assertEqual(2, self.calls())

    def test_built_by_rt_itself(self):
        self.run_rt()
        self.prints('low 1', 'list_day 1')
        self.prints('low 1', 'list_day 1')
        self.assertEqual(2, self.calls())

    def test_not_proved(self):
        self.prints('low 1', 'list_day 1')
        self.write('low', 'broken\n')
        ran = self.run_front()
        self.assertEqual(b'', ran.stdout)
        self.says(ran, 1, f'list_day was not built: what the prover said is in {self.home}/target/list_day.log')


class Taken(Checkout):
    """What rt ci built is taken as made from what was checked out before it."""

    def setUp(self):
        super().setUp()
        programs = self.home / 'desk' / 'programs.py'
        programs.write_text(programs.read_text().replace("PROVED = ('replay_capture', 'make_day', 'list_day', 'agree')", "PROVED = ('list_day',)"))

    def taking(self, word, lines=b''):
        words = [sys.executable, '-m', 'desk.taking', word]
        ran = subprocess.run(words, cwd=self.home, env=self.environment(), input=lines, capture_output=True, timeout=PATIENCE)
        self.assertEqual((0, b''), (ran.returncode, ran.stderr))
        return ran.stdout

    def test_nothing_changed(self):
        said = self.taking('say')
        self.run_rt()
        self.assertEqual(b'', self.taking('take', said))
        self.prints('low 1', 'list_day 1')
        self.assertEqual(1, self.calls())

    def test_a_change_meanwhile(self):
        said = self.taking('say')
        self.run_rt()
        self.write('low', 'low 2\n')
        self.taking('take', said)
        self.prints('low 2', 'list_day 1')
        self.assertEqual(2, self.calls())

    def test_cleared(self):
        """rt ci clears the crates' folders; what was taken stays."""
        self.prints('low 1', 'list_day 1')
        shutil.rmtree(self.home / 'crates' / 'list_day' / 'out')
        self.prints('low 1', 'list_day 1')
        self.assertEqual(1, self.calls())


class WithoutToolchain(Checkout):
    def test_nothing_built(self):
        self.says(self.run_front(kit=False), 1, 'list_day is not built, and rt, which builds it, is not found')

    @unittest.skipUnless(os.uname().machine == 'x86_64', 'elsewhere the toolchain has the emulator')
    def test_built(self):
        self.prints('low 1', 'list_day 1')
        self.assertEqual((b'low 1\nlist_day 1\n', b''), (lambda ran: (ran.stdout, ran.stderr))(self.run_front(kit=False)))

    def test_old(self):
        """The user is told. Where the machine is another than x86-64 the emulator is missing too."""
        self.prints('low 1', 'list_day 1')
        self.write('low', 'low 2\n')
        error = self.run_front(kit=False).stderr.decode()
        self.assertIn('warning: list_day may not be what is checked out, and rt, which would build it, is not found', error)


class Together(Checkout):
    def test_one_builds(self):
        slow = self.home / 'slow'
        slow.touch()
        runs = [subprocess.Popen(self.words(), stdin=subprocess.DEVNULL, stdout=subprocess.PIPE, stderr=subprocess.PIPE, env=self.environment())
                for _ in range(3)]
        time.sleep(1)
        slow.unlink()
        ended = [run.communicate(timeout=PATIENCE) for run in runs]
        self.assertEqual([b'low 1\nlist_day 1\n'] * 3, [out for out, _ in ended])
        self.assertEqual(1, self.calls())
        self.assertEqual([b'', *[b'llinosfar: waiting for another run that is building\n'] * 2], sorted(error for _, error in ended))

    def test_a_killed_one(self):
        """rt holds the lock for as long as it runs, though the run that started it is gone."""
        slow = self.home / 'slow'
        slow.touch()
        first = subprocess.Popen(self.words(), stdin=subprocess.DEVNULL, env=self.environment())
        self.wait_for_calls(1)
        first.kill()
        first.wait()
        later = subprocess.Popen(self.words(), stdin=subprocess.DEVNULL, stdout=subprocess.PIPE, env=self.environment())
        time.sleep(0.5)
        self.assertEqual(1, self.calls())
        slow.unlink()
        self.assertEqual(b'low 1\nlist_day 1\n', later.communicate(timeout=PATIENCE)[0])

    def test_stopped(self):
        """Ctrl-C ends the prover too, and the next run builds."""
        slow = self.home / 'slow'
        slow.touch()
        run = subprocess.Popen(self.words(), stdin=subprocess.DEVNULL, stdout=subprocess.PIPE, stderr=subprocess.PIPE, env=self.environment())
        self.wait_for_calls(1)
        run.send_signal(signal.SIGINT)
        out, error = run.communicate(timeout=PATIENCE)
        self.assertEqual((-signal.SIGINT, b'', b'llinosfar: stopped while list_day was built; what is proved stays proved\n'),
                         (run.returncode, out, error))
        self.assertFalse((self.home / 'target' / 'bin' / 'list_day').exists())
        slow.unlink()
        self.prints('low 1', 'list_day 1')


class Counting(Checkout):
    def test_on_a_terminal(self):
        ours, theirs = pty.openpty()
        run = subprocess.Popen(self.words(), stdin=subprocess.DEVNULL, stdout=subprocess.DEVNULL, stderr=theirs, env=self.environment())
        os.close(theirs)
        run.wait(timeout=PATIENCE)
        data = os.read(ours, 4096).decode()
        os.close(ours)
        clear = '\r\x1b[K'
        self.assertEqual(f'{clear}proving 1 of 3: low{clear}proving 2 of 3: middle{clear}proving 3 of 3: list_day{clear}', data)

    def test_elsewhere(self):
        """One line where it takes more than some seconds."""
        (self.home / 'desk' / 'building.py').write_text((ROOT / 'desk' / 'building.py').read_text().replace('PATIENCE = 5', 'PATIENCE = 0.1'))
        slow = self.home / 'slow'
        slow.touch()
        run = subprocess.Popen(self.words(), stdin=subprocess.DEVNULL, stdout=subprocess.PIPE, stderr=subprocess.PIPE, env=self.environment())
        time.sleep(1)
        slow.unlink()
        self.assertEqual(f'llinosfar: proving and building list_day, 3 crates, which takes minutes, once; log: {self.home}/target/list_day.log\n',
                         run.communicate(timeout=PATIENCE)[1].decode())


class OtherFolders(Checkout):
    def test_by_a_link(self):
        link = self.room / 'link'
        link.symlink_to(self.home / 'llinosfar')
        ran = self.run_front(words=[link, 'list', '-'])
        self.assertEqual(b'low 1\nlist_day 1\n', ran.stdout)

    def test_a_project_that_may_not_be_written(self):
        """What is built runs all the same."""
        self.prints('low 1', 'list_day 1')
        for folder in (self.home / 'target' / 'bin', self.home / 'target', self.home):
            folder.chmod(stat.S_IRUSR | stat.S_IXUSR)
            self.addCleanup(folder.chmod, 0o755)
        self.prints('low 1', 'list_day 1')


if __name__ == '__main__':
    unittest.main()
