"""llinosfar show and pack."""
import os
import unittest

from support import SAMPLES, InFolder, front, sample, second

TEXT = """\
kernel 7
width 8
registers 2
lanes 2
budget 1000

code
    NOP

register words
    16 of 0
"""


class Texts(InFolder):
    def test_there_and_back(self):
        for name in SAMPLES:
            with self.subTest(name):
                ran = front('show', sample(name))
                self.assertEqual((0, second('show', sample(name)).stdout), (ran.returncode, ran.stdout))
                out = self.room / f'{name}.cap'
                self.assertEqual(0, front('pack', '-', '-o', out, input=ran.stdout).returncode)
                self.assertEqual(sample(name).read_bytes(), out.read_bytes())

    def test_samples(self):
        for name in SAMPLES:
            ran = front('pack', sample(name, 'txt'))
            self.assertEqual((0, sample(name).read_bytes()), (ran.returncode, ran.stdout))

    def test_standard_input(self):
        self.assertEqual(front('show', sample('t14')).stdout, front('show', '-', input=sample('t14').read_bytes()).stdout)

    def test_source_is_kept(self):
        text = self.file('text', TEXT.encode())
        os.link(text, self.room / 'linked')
        for name in (text, self.room / 'linked'):
            self.says(front('pack', text, '-f', '-o', name), 1, 'never written')
        self.says(front('pack', text, '-o', self.file('there')), 1, 'it exists (-f replaces it)')
        self.says(front('pack', text, self.room / 'other'), 2, 'found another')
        self.assertEqual(TEXT.encode(), text.read_bytes())
        self.assertEqual(['linked', 'text', 'there'], self.left())

    def test_mistakes(self):
        out = self.room / 'out'
        bad = self.file('bad', TEXT.replace('NOP', 'NOPE').encode())
        self.says(front('pack', bad, '-o', out), 1, f'{bad}: line 8: ')
        self.says(front('pack', '-', '-o', out, input=b'\xff'), 1, 'standard input: ')
        self.says(front('show', bad), 1, f'{bad}: no capture: expected the bytes 57 43 41 50 at byte 0')
        self.says(front('show', self.room), 1, f'{self.room}: Is a directory')
        self.assertEqual(['bad'], self.left())

    def test_what_cant_be_replayed(self):
        out = self.room / 'out'
        self.says(front('pack', self.file('text', TEXT.replace('width 8', 'width 7').encode()), '-o', out), 12, 'refused 1 at place 0')
        self.assertFalse(out.exists())

    def test_warnings(self):
        ran = front('pack', self.file('text', TEXT.replace('16 of 0', '16 of 12345678').encode()), '-o', self.room / 'out')
        self.says(ran, 0, "text: line 11: warning: '12345678' is read as hexadecimal")
        self.assertTrue((self.room / 'out').exists())


if __name__ == '__main__':
    unittest.main()
