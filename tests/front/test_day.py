"""llinosfar make and list."""
import os
import pty
import unittest

from support import InFolder, front, sample


def body(kernel, place=1, kind=4, lanes=1, active=3, halted=0, blocks=()):
    """A key of one kind, by the page's layout."""
    numbers = [kernel, place, 1, kind, lanes, active, halted, len(blocks), *(number for block in blocks for number in block)]
    return b''.join(number.to_bytes(4, 'little') for number in numbers)


def day_of(*bodies):
    """The day file of some keys, by the page's layout."""
    rows, at = [len(bodies)], 4 + 8 * len(bodies)
    for one in bodies:
        rows += [at, len(one)]
        at += len(one)
    return b''.join(row.to_bytes(4, 'little') for row in rows) + b''.join(bodies)


DEEP = body(9, blocks=[(3, 5, 7, 2, 0, 0)])


class Making(InFolder):
    def setUp(self):
        super().setUp()
        self.day = self.room / 'day'

    def test_many_files(self):
        one, two = self.file('one', body(7)), self.file('two', DEEP + body(8))
        ran = front('make', one, two, one, '-o', self.day)
        self.assertEqual((0, b'', b''), (ran.returncode, ran.stdout, ran.stderr))
        self.assertEqual(day_of(body(7), DEEP, body(8), body(7)), self.day.read_bytes())
        ran = front('list', self.day)
        self.assertEqual((0, b'record first kernel place kinds depth\n1 1 7 1 4 0\n2 2 9 1 4 1\n3 3 8 1 4 0\n4 1 7 1 4 0\ntotal 4 distinct 3\n'),
                         (ran.returncode, ran.stdout))

    def test_a_replays_key(self):
        """From two captures to the page's listing."""
        keys = [self.room / 'a.key', self.room / 'b.key']
        for key in keys:
            front('replay', sample('t13'), '-k', key)
        front('make', *keys, '-o', self.day)
        self.assertEqual(b'record first kernel place kinds depth\n1 1 7 1 4 0\n2 1 7 1 4 0\ntotal 2 distinct 1\n', front('list', self.day).stdout)

    def test_standard_input_and_output(self):
        ran = front('make', '-', input=body(7) + body(8))
        self.assertEqual((0, day_of(body(7), body(8))), (ran.returncode, ran.stdout))
        self.assertEqual(b'record first kernel place kinds depth\n1 1 7 1 4 0\ntotal 1 distinct 1\n',
                         front('list', '-', input=day_of(body(7))).stdout)
        self.says(front('make', '-', '-', input=b''), 2, 'standard input is given twice')

    def test_no_record(self):
        self.assertEqual(bytes(4), front('make', '-', input=b'').stdout)
        self.says(front('make', self.file('empty', b''), '-o', self.day), 1, 'empty: it is empty, and has no key')
        self.assertEqual(['empty'], self.left())

    def test_what_cant_be_read(self):
        key = self.file('key', body(7))
        self.says(front('make', key, self.room, '-o', self.day), 1, f'{self.room}: Is a directory')
        self.says(front('make', key, self.room / 'none', '-o', self.day), 1, 'none: No such file or directory')
        self.says(front('make', '-o', self.day), 2, 'expected the names of keys')
        self.assertEqual(['key'], self.left())

    def test_refused(self):
        key, bad = self.file('key', body(7)), self.file('bad', DEEP + b'bytes')
        self.says(front('make', key, bad, '-o', self.day), 12, f'refused 14: {bad}: no whole key begins at byte {len(DEEP)}')
        self.says(front('make', self.file('many', body(7) * 1025), '-o', self.day), 12, 'refused 15: there are more than 1,024 records')
        self.assertEqual(['bad', 'key', 'many'], self.left())

    def test_a_key_over_two_files(self):
        """The bytes of both are keys, and the first file ends inside one."""
        cut, rest = self.file('cut', (body(7) + body(8))[:40]), self.file('rest', (body(7) + body(8))[40:])
        self.says(front('make', cut, rest, '-o', self.day), 1, f'{cut}: it ends inside a key, which goes on in {rest}')
        self.assertFalse(self.day.exists())

    def test_existing(self):
        key, day = self.file('key', body(7)), self.file('day')
        self.says(front('make', key, '-o', day), 1, f'{day}: it exists (-f replaces it)')
        self.says(front('make', key, day, '-f', '-o', day), 1, 'never written')
        self.says(front('make', key, '-f', '-o', key), 1, 'never written')
        self.assertEqual((b'earlier', body(7)), (day.read_bytes(), key.read_bytes()))
        self.assertEqual(0, front('make', key, '-f', '-o', day).returncode)
        self.assertEqual(day_of(body(7)), day.read_bytes())

    def test_too_long_to_list(self):
        key = self.file('key', body(7) * 1024)
        self.assertEqual(4 + 1024 * 40, len(day_of(*[body(7)] * 1024)))
        self.assertEqual(b'', front('make', key, '-o', self.day).stderr)
        deep = self.file('deep', DEEP * 1024)
        ran = front('make', deep, '-f', '-o', self.day)
        self.says(ran, 0, f'warning: {self.day} has 65,540 bytes, and list takes at most 65,536')
        ran = front('list', self.day)
        self.assertEqual(b'too long\n', ran.stdout)
        self.says(ran, 12, 'it has more than 65,536 bytes, the most that list takes')

    def test_not_to_a_terminal(self):
        for words in (('make', self.file('key', body(7))), ('pack', sample('t14', 'txt'))):
            ours, theirs = pty.openpty()
            ran = front(*words, stdout=theirs)
            os.close(theirs)
            self.says(ran, 2, 'is not text: give it a file with -o')
            os.close(ours)


class Listing(InFolder):
    def test_no_day_file(self):
        ran = front('list', self.file('key', body(7)))
        self.assertEqual(b'refused 14\n', ran.stdout)
        self.says(ran, 12, 'key: no day file: the bytes are not of the layout')

    def test_what_cant_be_read(self):
        self.says(front('list', self.room), 1, f'{self.room}: Is a directory')
        self.says(front('list', self.room / 'none'), 1, 'No such file or directory')
        self.says(front('list'), 2, 'expected a day file')
        self.says(front('list', 'a', 'b'), 2, 'found another: b')


if __name__ == '__main__':
    unittest.main()
