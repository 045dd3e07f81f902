"""Evidence is never lost: what OUT, KEY and DAY may replace, and what is left when something goes wrong."""
import os
import resource
import signal
import stat
import subprocess
import sys
import unittest

from support import FRONT, ROOT, InFolder, build, front, sample

from desk import files
from desk.status import Trouble, WrongUse

FAULT, ENDED = sample('t14'), sample('t12')


class Names(InFolder):
    def test_captures_are_not_overwritten(self):
        names = [self.file(f'{k}.cap', FAULT.read_bytes()) for k in range(3)]
        for count in (2, 3):
            self.says(front('replay', *names[:count]), 2, 'found another: ')
        self.assertEqual([FAULT.read_bytes()] * 3, [name.read_bytes() for name in names])

    def test_a_name_is_wanted(self):
        self.says(front('replay'), 2, 'expected a capture')
        self.says(front('replay', FAULT, '-o'), 2, 'requires argument')
        self.says(front('replay', FAULT, '-o', '-'), 2, '-o takes the name of a file')
        self.says(front('replay', FAULT, '-o', self.room / 'a', '-o', self.room / 'b'), 2, '-o is given twice')
        self.assertEqual([], self.left())


class Existing(InFolder):
    setUpClass = build

    def refused(self, name, error, *words):
        """Holds a run that may not write to its line, and to the report that isn't printed."""
        for option in ('-o', '-k'):
            ran = front('replay', FAULT, option, name, *words)
            self.says(ran, 1, f'{name}: {error}')
            self.assertEqual(b'', ran.stdout)

    def test_without_force(self):
        name = self.file('there')
        self.refused(name, 'it exists (-f replaces it)')
        self.assertEqual(b'earlier', name.read_bytes())

    def test_with_force(self):
        out, key = self.file('out'), self.file('key')
        out.chmod(0o640)
        key.chmod(0o444)
        self.assertEqual(10, front('replay', FAULT, '-f', '-o', out, '-k', key).returncode)
        self.assertEqual([b'WCAP', b'\7\0\0\0'], [out.read_bytes()[:4], key.read_bytes()[:4]])
        self.assertEqual([0o640, 0o444], [stat.S_IMODE(name.stat().st_mode) for name in (out, key)])
        self.assertEqual(['key', 'out'], self.left())

    def test_a_new_file_has_the_usual_mode(self):
        out = self.room / 'out'
        subprocess.run(['sh', '-c', 'umask 027; exec "$0" "$@"', FRONT, 'replay', FAULT, '-o', out], stdout=subprocess.DEVNULL)
        self.assertEqual(0o640, stat.S_IMODE(out.stat().st_mode))

    def test_links(self):
        target, link, dangling = self.file('target'), self.room / 'link', self.room / 'dangling'
        link.symlink_to(target)
        dangling.symlink_to(self.room / 'nothing')
        for name in (link, dangling):
            for words in ((), ('-f',)):
                self.refused(name, 'it exists and is no regular file', *words)
            self.assertTrue(name.is_symlink())
        self.assertEqual(b'earlier', target.read_bytes())

    def test_folders_pipes_and_devices(self):
        folder, pipe, device = self.room / 'folder', self.room / 'pipe', self.room / 'device'
        folder.mkdir()
        os.mkfifo(pipe)
        try:
            os.mknod(device, 0o666 | stat.S_IFCHR, os.makedev(1, 3))
        except PermissionError:
            device = os.devnull
        for name in (folder, pipe, device):
            self.refused(name, 'it exists and is no regular file', '-f')
        self.assertTrue(stat.S_ISCHR(os.stat(device).st_mode))

    def test_missing_folder(self):
        self.refused(self.room / 'none' / 'out', 'No such file or directory')

    def test_a_folder_that_is_a_file(self):
        self.refused(self.file('file') / 'out', 'Not a directory')


class Evidence(InFolder):
    def setUp(self):
        super().setUp()
        self.capture = self.file('crash.cap', FAULT.read_bytes())

    def kept(self, name, *words):
        for option in ('-o', '-k'):
            self.says(front('replay', *words, '-f', option, name), 1, 'this is the file that is read, and it is never written')
        self.assertEqual(FAULT.read_bytes(), self.capture.read_bytes())

    def test_itself(self):
        self.kept(self.capture, self.capture)
        self.kept(self.room / '.' / 'crash.cap', self.capture)

    def test_by_a_hard_link(self):
        os.link(self.capture, self.room / 'other')
        self.kept(self.room / 'other', self.capture)

    def test_by_a_symbolic_link(self):
        link = self.room / 'link.cap'
        link.symlink_to(self.capture)
        self.kept(self.capture, link)

    def test_on_standard_input(self):
        for option in ('-o', '-k'):
            with self.capture.open('rb') as file:
                self.says(front('replay', '-', '-f', option, self.capture, stdin=file), 1, 'never written')
        self.assertEqual(FAULT.read_bytes(), self.capture.read_bytes())

    def test_out_is_not_key(self):
        both = self.room / 'both'
        for other in (both, self.room / '.' / 'both', f'{self.room}/../{self.room.name}/both'):
            self.says(front('replay', self.capture, '-o', both, '-k', other), 2, 'it is given for two files')
        self.file('both')
        os.link(both, self.room / 'linked')
        self.says(front('replay', self.capture, '-f', '-o', both, '-k', self.room / 'linked'), 2, 'it is given for two files')
        self.assertEqual(b'earlier', both.read_bytes())


class Stale(InFolder):
    def test_no_key(self):
        key = self.file('key')
        ran = front('replay', ENDED, '-f', '-k', key)
        self.says(ran, 0, f'{key}: removed: this run gives no key (ended)')
        self.assertEqual([], self.left())

    def test_refused(self):
        capture = self.file('bad.cap', FAULT.read_bytes()[:12] + b'\7' + FAULT.read_bytes()[13:])
        out, key = self.file('out'), self.file('key')
        ran = front('replay', capture, '-f', '-o', out, '-k', key)
        self.assertEqual(12, ran.returncode)
        self.assertEqual([f'llinosfar: {out}: removed: this run gives no end state (refused)',
                          f'llinosfar: {key}: removed: this run gives no key (refused)'], ran.stderr.decode().splitlines())
        self.assertEqual(['bad.cap'], self.left())


class Full(InFolder):
    """A file system with no room left: the earlier file stays, nothing is left beside it, and the error names OUT."""

    def mounted(self):
        """A folder on a full small file system; the test is another where none can be mounted."""
        folder = self.room / 'small'
        folder.mkdir()
        mount = subprocess.run(['mount', '-t', 'tmpfs', '-o', 'size=64k', 'none', folder], capture_output=True)
        if mount.returncode != 0:
            return None
        self.addCleanup(subprocess.run, ['umount', folder])
        return folder

    def fill(self, folder):
        with open(folder / 'filling', 'wb', buffering=0) as file:
            try:
                while True:
                    file.write(bytes(4096))
            except OSError:
                pass

    def test_out(self):
        folder = self.mounted()
        if folder is None:
            return self.limited()
        out = folder / 'out'
        out.write_bytes(b'earlier')
        self.fill(folder)
        ran = front('replay', FAULT, '-f', '-o', out)
        self.says(ran, 1, f'{out}: No space left on device')
        self.assertEqual(b'outcome fault', ran.stdout.splitlines()[0])
        self.assertEqual(b'earlier', out.read_bytes())
        self.assertEqual(['filling', 'out'], sorted(os.listdir(folder)))

    def limited(self):
        """The same by a limit on the size of files, where nothing can be mounted."""
        out = self.file('out')
        soft, hard = resource.getrlimit(resource.RLIMIT_FSIZE)
        ignored = signal.signal(signal.SIGXFSZ, signal.SIG_IGN)
        resource.setrlimit(resource.RLIMIT_FSIZE, (8, hard))
        try:
            with self.assertRaisesRegex(Trouble, f'{out}: File too large'):
                files.Target(str(out), True, []).put(bytes(100))
        finally:
            resource.setrlimit(resource.RLIMIT_FSIZE, (soft, hard))
            signal.signal(signal.SIGXFSZ, ignored)
        self.assertEqual((b'earlier', ['out', 'small']), (out.read_bytes(), self.left()))

    def test_limit(self):
        (self.room / 'small').mkdir()
        self.limited()

    def test_temporary_files(self):
        """Room for the capture's copy and for no end state: the error is said, and nothing is left."""
        folder = self.mounted()
        if folder is None:
            self.skipTest('nothing can be mounted here')
        self.fill(folder)
        os.truncate(folder / 'filling', os.stat(folder / 'filling').st_size - 4096)
        ran = front('replay', sample('reduction'), env={**os.environ, 'TMPDIR': str(folder)})
        self.says(ran, 1, 'No space left on device')
        self.assertEqual((b'', ['filling']), (ran.stdout, os.listdir(folder)))


class Together(InFolder):
    setUpClass = build

    def test_two_runs_with_one_out(self):
        """Whole bytes of one of them, and without -f the later one is told."""
        for force in ((), ('-f',)):
            out = self.room / f'out{len(force)}'
            runs = [subprocess.Popen([FRONT, 'replay', sample(name), '-o', out, *force], stdout=subprocess.PIPE, stderr=subprocess.PIPE)
                    for name in ('t12', 't14') * 3]
            ended = [(run.communicate()[1], run.returncode) for run in runs]
            wholes = []
            for name in ('t12', 't14'):
                alone = self.room / f'{name}{len(force)}'
                front('replay', sample(name), '-o', alone)
                wholes.append(alone.read_bytes())
            self.assertIn(out.read_bytes(), wholes)
            if force:
                self.assertEqual([0, 10] * 3, [status for _, status in ended])
            else:
                told = [error for error, status in ended if status == 1]
                self.assertEqual(5, len(told), ended)
                self.assertTrue(all(b'exists' in error and bytes(out) in error for error in told), told)
        self.assertEqual([], [name for name in self.left() if name.startswith('.')])

    def test_a_file_that_came_meanwhile(self):
        out = self.room / 'out'
        target = files.Target(str(out), False, [])
        self.file('out')
        with self.assertRaisesRegex(Trouble, 'it exists'):
            target.put(b'mine')
        self.assertEqual((b'earlier', ['out']), (out.read_bytes(), self.left()))

    def test_a_file_that_came_at_the_last_moment(self):
        """Behind the last look at what stands there."""
        target = files.Target(str(self.room / 'out'), False, [])
        target.check = lambda: self.file('out')
        with self.assertRaisesRegex(Trouble, 'File exists'):
            target.put(b'mine')
        self.assertEqual((b'earlier', ['out']), ((self.room / 'out').read_bytes(), self.left()))

    def test_a_move_never_replaces(self):
        mine, there = self.file('mine', b'mine'), self.file('there')
        with self.assertRaises(FileExistsError):
            files.link(mine, there)
        self.assertEqual((b'earlier', b'mine'), (there.read_bytes(), mine.read_bytes()))

    def test_an_own_file_is_replaced(self):
        out = self.room / 'out'
        target = files.Target(str(out), False, [])
        target.put(b'first')
        target.put(b'second')
        self.assertEqual(b'second', out.read_bytes())
        out.unlink()
        self.file('out')
        with self.assertRaisesRegex(Trouble, 'it exists'):
            target.put(b'third')
        self.assertEqual(b'earlier', out.read_bytes())

    def test_apart(self):
        with self.assertRaises(WrongUse):
            files.apart(*[files.Target(str(self.room / 'x'), False, []) for _ in range(2)])


class ReadOnlyFolder(InFolder):
    def test_before_the_run(self):
        """A folder that may not be written, for a user who isn't root, is told of before any time is spent."""
        folder = self.room / 'folder'
        folder.mkdir()
        folder.chmod(0o555)
        self.room.chmod(0o755)
        script = ('import os, sys; sys.path.insert(0, sys.argv[1])\nfrom desk import files\nif os.geteuid() == 0: os.setuid(65534)\n'
                  'files.Target(sys.argv[2], False, [])')
        ran = subprocess.run([sys.executable, '-c', script, ROOT, folder / 'out'], capture_output=True, text=True)
        self.assertIn(f'{folder}/out: Permission denied', ran.stderr)


if __name__ == '__main__':
    unittest.main()
