"""llinosfar replay on the samples, on damaged and refused captures: what it prints, writes and answers."""
import json
import os
import unittest

from support import SAMPLES, InFolder, build, capture, front, sample, second

STATUS = {'ended': 0, 'fault': 10, 'out of budget': 11, 'refused': 12}

NOP, LOOP, ENDLOOP = 0x3F0000F0, 0x3F000030, 0x3F000060


def outcome(name):
    """The outcome of a sample's stored report."""
    return sample(name, 'report').read_text().splitlines()[0].removeprefix('outcome ')


class Samples(InFolder):
    def test_report_state_and_key(self):
        for name in SAMPLES:
            with self.subTest(name):
                out, key, other_out, other_key = (self.room / f'{name}.{part}' for part in ('out', 'key', 'other-out', 'other-key'))
                ran = front('replay', sample(name), '-o', out, '-k', key)
                second('replay', sample(name), other_out, other_key)
                self.assertEqual(STATUS[outcome(name)], ran.returncode)
                self.assertEqual(sample(name, 'explained').read_text(), ran.stdout.decode())
                self.assertEqual(b'', ran.stderr)
                self.assertEqual(other_out.read_bytes(), out.read_bytes())
                self.assertEqual(outcome(name) == 'fault', key.exists())
                if key.exists():
                    self.assertEqual(other_key.read_bytes(), key.read_bytes())
        self.assertEqual([], [name for name in self.left() if name.startswith('.')])

    def test_plain(self):
        ran = front('replay', '--plain', sample('misaligned'))
        self.assertEqual(sample('misaligned', 'report').read_bytes(), ran.stdout)
        self.assertEqual(10, ran.returncode)

    def test_json(self):
        ran = front('replay', sample('misaligned'), '--json')
        self.assertEqual(1, ran.stdout.count(b'\n'))
        found = json.loads(ran.stdout)
        explained = sample('misaligned', 'explained').read_text()
        self.assertEqual(explained.split('\n\n')[1].splitlines(), found.pop('words'))
        loop = {'part': 3, 'opener': 8, 'entered': [1, 2, 3, 4, 5, 6, 7, 8, 9], 'aside': [9], 'again': [], 'left': []}
        self.assertEqual(loop, found.pop('blocks')[0])
        self.assertEqual(explained.split('key ')[1].split()[0], found.pop('key'))
        self.assertEqual({'outcome': 'fault', 'steps': 59, 'place': 36, 'instruction': 'STORE [r2 + 4], r5',
                          'kinds': [{'kind': 1, 'lanes': [3, 5, 7]}, {'kind': 2, 'lanes': [6]}], 'active': [3, 4, 5, 6, 7, 8],
                          'halted': [0], 'p1': [0, 3, 4, 5, 6, 7, 8], 'p2': [6, 9], 'p3': [1, 2], 'depth': 3}, found)

    def test_json_without_words(self):
        found = json.loads(front('replay', sample('t12'), '--json', '--plain').stdout)
        self.assertNotIn('words', found)
        self.assertEqual(('ended', [2, 3]), (found['outcome'], found['halted']))

    def test_standard_input(self):
        ran = front('replay', '-', input=sample('t14').read_bytes())
        self.assertEqual(sample('t14', 'explained').read_bytes(), ran.stdout)

    def test_goes_on_to_the_end(self):
        now = sample('collatz')
        for k in range(10):
            after = self.room / f'{k}.cap'
            ran = front('replay', now, '-o', after)
            now = after
            if ran.returncode == 0:
                break
        self.assertEqual(0, ran.returncode)
        self.assertGreater(k, 0)
        end = self.room / 'end'
        second('replay', sample('collatz-stopped'), end)
        self.assertEqual(end.read_bytes(), now.read_bytes())


class Budgets(InFolder):
    def test_in_place_of_editing(self):
        out = self.room / 'out'
        ran = front('replay', sample('collatz'), '--budget', '3', '-o', out)
        self.assertEqual((11, b'steps 3'), (ran.returncode, ran.stdout.splitlines()[1]))
        self.assertEqual(3, int.from_bytes(out.read_bytes()[24:28], 'little'))
        self.assertEqual(118, 62 + 56)
        self.assertEqual((0, b'steps 118'), (lambda r: (r.returncode, r.stdout.splitlines()[1]))(front('replay', sample('collatz'), '--budget=118')))

    def test_zero(self):
        ran = front('replay', sample('t13'), '--budget', '0')
        self.assertEqual((11, b'outcome out of budget'), (ran.returncode, ran.stdout.splitlines()[0]))

    def test_no_number(self):
        for text in ('-1', '1000000001', 'many', '1.5', '', '٣'):
            self.says(front('replay', sample('t13'), '--budget', text), 2, '--budget takes a number from 0 to 1,000,000,000')


class Damaged(InFolder):
    """A file that is no capture: one line with the place, as the second program has it, and nothing on standard output."""

    def test_cut(self):
        data = sample('t14').read_bytes()
        for size in (0, 3, 4, 8, 51, 52, len(data) - 1):
            with self.subTest(size):
                path = self.file('cut.cap', data[:size])
                expected = self.second_says(path)
                ran = front('replay', path)
                self.assertEqual((1, b'', expected), (ran.returncode, ran.stdout, ran.stderr.decode().removeprefix('llinosfar: ')))

    def second_says(self, path):
        import subprocess
        with self.assertRaises(subprocess.CalledProcessError) as caught:
            second('replay', path)
        return caught.exception.stderr.decode().removeprefix('second: ')

    def test_byte_too_many(self):
        data = sample('t14').read_bytes()
        self.says(front('replay', self.file('long.cap', data + b'x')), 1,
                  f'long.cap: no capture: expected the end of the file after the words at byte {len(data)}')

    def test_name_of_standard_input(self):
        self.says(front('replay', '-', input=b'WCAQ' + bytes(60)), 1, 'standard input: no capture: expected the bytes 57 43 41 50 at byte 0')

    def test_not_there(self):
        self.says(front('replay', self.room / 'none.cap'), 1, 'none.cap: No such file or directory')
        self.says(front('replay', self.room), 1, f'{self.room}: Is a directory')

    def test_keeps_earlier_files(self):
        out, key = self.file('out'), self.file('key')
        ran = front('replay', self.file('bad.cap', b'WCAP'), '-f', '-o', out, '-k', key)
        self.assertEqual(1, ran.returncode)
        self.assertEqual((b'earlier', b'earlier'), (out.read_bytes(), key.read_bytes()))

    def test_temporary_folder_of_any_name(self):
        folder = os.fsencode(self.room) + b'/no text \xff'
        os.mkdir(folder)
        ran = front('replay', '--plain', sample('t14'), env={**os.environb, b'TMPDIR': folder})
        self.assertEqual((10, b''), (ran.returncode, ran.stderr))
        self.assertIn(b'\nplace 7\n', ran.stdout)
        self.assertEqual([], os.listdir(folder))

    def test_name_with_a_newline(self):
        self.says(front('replay', self.room / 'a\nb'), 1, r'a\nb')


class Refused(InFolder):
    def replay(self, data, *words):
        return front('replay', self.file('refused.cap', data), *words)

    def test_writes_neither(self):
        ran = self.replay(capture([], width=7), '-o', self.room / 'out', '-k', self.room / 'key')
        self.assertEqual(12, ran.returncode)
        self.assertEqual(['refused.cap'], self.left())
        text = ran.stdout.decode()
        self.assertTrue(text.startswith('outcome refused 1 place 0\nsteps 0\nplace 0\n'), text)
        self.assertIn('\n\nrefused by rule 1: a setting is not allowed\nwidth 7: it is 8, 16 or 32\n', text)

    def test_each_rule(self):
        """The words hang on the program's own number and place."""
        cases = (
            (2, 0, capture([NOP] * 65537), 'the code has 65,537 words'),
            (3, 0, capture([], values=[0] * 15), '15 register words'),
            (4, 1, capture([NOP, 0x3B000000]), 'word 3B000000: opcode 3B is not carried'),
            (5, 1, capture([NOP, 0xF1000000]), 'word F1000000 is the first of two'),
            (6, 1, capture([NOP, 0x3F000004]), 'word 3F000004: predicate 0 is negated'),
            (7, 1, capture([NOP, 0x00030100, 0x02000000]), 'a register number is too large'),
            (8, 1, capture([NOP, 0x3F000020]), 'has no block'),
            (9, 32, capture([LOOP] * 33 + [ENDLOOP] * 33), 'a 33rd block is opened'),
            (10, 1, capture([NOP, LOOP]), 'a block is open at the end of the code'),
            (11, 0, capture([NOP], state=[0, 1, 0, 0, 0, 0, 0]), 'lane 1: launched, and neither active nor halted'),
        )
        for number, place, data, words in cases:
            with self.subTest(number):
                ran = self.replay(data)
                fixed, _, told = ran.stdout.decode().partition('\n\n')
                self.assertEqual((12, f'outcome refused {number} place {place}'), (ran.returncode, fixed.splitlines()[0]))
                self.assertIn(f'refused by rule {number}', told)
                self.assertIn(words, told)


class Parallel(InFolder):
    setUpClass = build

    def test_one_write_for_one_report(self):
        """Eight runs at once into one pipe: each report stands whole."""
        import os
        import subprocess
        from support import FRONT
        reader, writer = os.pipe()
        runs = [subprocess.Popen([FRONT, 'replay', str(sample('misaligned'))], stdout=writer, stderr=writer) for _ in range(8)]
        os.close(writer)
        with open(reader, 'rb') as pipe:
            together = pipe.read()
        self.assertEqual({10}, {run.wait() for run in runs})
        self.assertEqual(sample('misaligned', 'explained').read_bytes() * 8, together)


if __name__ == '__main__':
    unittest.main()
