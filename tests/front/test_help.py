"""Help, version, completion, the man page, and an installed copy."""
import os
import pathlib
import re
import shutil
import subprocess
import unittest

from support import ROOT, InFolder, front, sample

from desk import help, main

STATUSES = ('0 ended', '10 fault', '11 out of budget', '12 refused', 'not read or not written', 'wrong use')


def squeezed(text):
    """A text with one blank for each run of white space."""
    return re.sub(r'\s+', ' ', text)


class Help(unittest.TestCase):
    def test_whole(self):
        for words in (('help',), ('--help',), ('-h',)):
            ran = front(*words)
            self.assertEqual((0, b''), (ran.returncode, ran.stderr))
            for command in main.COMMANDS:
                self.assertIn(f'\n  llinosfar {command} ', ran.stdout.decode())

    def test_each_command(self):
        self.assertEqual(set(main.COMMANDS), set(help.COMMANDS))
        for command in main.COMMANDS:
            texts = {front(*words).stdout.decode() for words in ((command, '--help'), (command, '-h'), ('help', command))}
            self.assertEqual(1, len(texts))
            text = texts.pop()
            self.assertTrue(text.startswith(f'llinosfar {command}'), text)
            self.assertIn('\nExample:\n  ', text)
            for status in STATUSES:
                self.assertIn(status, squeezed(text))

    def test_statuses_are_the_same_everywhere(self):
        for name in ('README.md', 'docs/DESK.md'):
            text = squeezed((ROOT / name).read_text())
            for status in STATUSES:
                self.assertTrue(status in text, f'{name}: {status}')

    def test_wrong_use(self):
        for words, line in (((), 'expected a command'), (('reply',), 'reply is no command'), (('help', 'reply'), 'help: expected a command'),
                            (('replay', '--fast', 'x'), 'option --fast not recognized'), (('agree', 'x'), 'it takes no name'),
                            (('completion',), 'expected bash'), (('completion', 'fish'), 'expected bash, and found fish'),
                            (('--version', '--fast'), 'not recognized')):
            ran = front(*words)
            self.assertEqual((2, b''), (ran.returncode, ran.stdout), words)
            self.assertIn(line, ran.stderr.decode())

    def test_version(self):
        text = front('--version').stdout.decode()
        self.assertRegex(text, r'^llinosfar \d+\.\d+.*\ntoolchain .+\n$')
        if shutil.which('rt'):
            self.assertIn(subprocess.run(['rt', 'version'], capture_output=True, text=True).stdout.strip(), text)


class Completion(unittest.TestCase):
    def complete(self, *words):
        """What bash offers for the last of these words."""
        script = ('source <("$0" completion bash); COMP_WORDS=("$@"); COMP_CWORD=$(($# - 1)); _llinosfar; printf "%s\\n" "${COMPREPLY[@]}"')
        ran = subprocess.run(['bash', '-c', script, ROOT / 'llinosfar', 'llinosfar', *words], capture_output=True, text=True, cwd=ROOT)
        self.assertEqual('', ran.stderr)
        return ran.stdout.split()

    def test_commands(self):
        self.assertEqual(['replay'], self.complete('re'))
        self.assertEqual(set(main.COMMANDS) | {'help', '--help', '--version'}, set(self.complete('')))

    def test_options_and_files(self):
        self.assertEqual(['--budget'], self.complete('replay', '--b'))
        self.assertEqual(['captures/t14.cap'], self.complete('replay', 'captures/t14.c'))
        self.assertEqual(['captures'], self.complete('make', 'capt'))
        self.assertEqual(['bash'], self.complete('completion', 'b'))


class ManPage(unittest.TestCase):
    def test_has_every_command_and_option(self):
        text = (ROOT / 'docs' / 'llinosfar.1').read_text().replace('\\-', '-')
        for command in main.COMMANDS:
            self.assertIn(f'.B {command}', text)
        for word in ('-o', '-k', '-f', '--budget', '--json', '--plain', '--version', '--help', *(f'.B {n}\n' for n in (0, 1, 2, 10, 11, 12))):
            self.assertIn(word, text)

    @unittest.skipUnless(shutil.which('man'), 'there is no man here')
    def test_is_well_formed(self):
        ran = subprocess.run(['man', '--warnings', '-l', ROOT / 'docs' / 'llinosfar.1'], capture_output=True, text=True,
                             env={**os.environ, 'LC_ALL': 'C.UTF-8'})
        self.assertEqual('', ran.stderr)
        self.assertIn('llinosfar replay CAPTURE', squeezed(re.sub('.\b', '', ran.stdout)))


class Installed(InFolder):
    @unittest.skipUnless(shutil.which('make'), 'there is no make here')
    def test_runs_without_the_sources(self):
        subprocess.run(['make', '--silent', '-C', ROOT, 'install', f'PREFIX={self.room}'], check=True, capture_output=True)
        program = self.room / 'bin' / 'llinosfar'
        run = lambda *words: subprocess.run([program, *words], capture_output=True, cwd='/')
        self.assertEqual(sample('t14', 'explained').read_bytes(), run('replay', sample('t14')).stdout)
        self.assertEqual(front('show', sample('t14')).stdout, run('show', sample('t14')).stdout)
        self.assertEqual(front('--version').stdout, run('--version').stdout)
        self.assertIn(b'_llinosfar()', (self.room / 'share/bash-completion/completions/llinosfar').read_bytes())
        self.assertTrue((self.room / 'share/man/man1/llinosfar.1').exists())
        self.assertTrue((self.room / 'share/doc/llinosfar/DESK.md').exists())
        subprocess.run(['make', '--silent', '-C', ROOT, 'uninstall', f'PREFIX={self.room}'], check=True)
        self.assertEqual([], [path for path in pathlib.Path(self.room).rglob('*') if path.is_file() or path.is_symlink()])


if __name__ == '__main__':
    unittest.main()
