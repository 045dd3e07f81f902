"""Faults in words: each cause from the instruction's text and the registers, held to the report's kinds."""
import unittest

from support import CAPTURES, SAMPLES, InFolder, capture, sample, second

from desk import explain, lanes, numerals, progress
from desk.capture import Capture
from desk.report import Report, parse


def report(instruction, kinds, active='000000FF', halted='00000000', blocks=()):
    """A fault's report at place 4, after 6 steps."""
    lines = ['outcome fault', 'steps 6', 'place 4'] + ([f'instruction {instruction}'] if instruction else [])
    lines += [f'kind {kind} lanes {mask}' for kind, mask in kinds]
    lines += [f'active {active}', f'halted {halted}', 'p1 00000000', 'p2 00000000', 'p3 00000000', f'depth {len(blocks)}']
    return Report('\n'.join([*lines, *(f'block {block}' for block in blocks), 'key 00']) + '\n')


def end(values, device=0, local=0, lanes=8):
    """The end state of eight lanes of four registers; `values` are r0 to r3 of the first lanes."""
    words = [word for row in values for word in row]
    return Capture(capture([0], registers=4, lanes=lanes, values=words + [0] * (32 - len(words)), device=[0] * device, local=[0] * local))


def told(found, state):
    """The lines about the faulting lanes."""
    lines = explain.words(found, state, state)
    return lines[1:next(k for k, line in enumerate(lines) if line.startswith('lanes: '))]


class Causes(unittest.TestCase):
    def test_store_odd_and_past(self):
        state = end([[0, 0, 6, 0], [0, 0, 64, 0], [0, 0, 8, 0]], device=16)
        found = report('STORE [r2 + 4], r1', [(1, '00000001'), (2, '00000002')])
        self.assertEqual(['lane 0: address 10 = r2 6 + 4: not a multiple of 4',
                          'lane 1: address 68 = r2 64 + 4: past device memory of 64 bytes'], told(found, state))

    def test_lanes_rise_over_kinds(self):
        state = end([[64, 0, 0, 0], [1, 0, 0, 0], [68, 0, 0, 0]], device=16)
        found = report('LOAD r1, [r0 + 0]', [(1, '00000002'), (2, '00000005')])
        self.assertEqual(['lane 0', 'lane 1', 'lane 2'], [line[:6] for line in told(found, state)])

    def test_lanes_rise_over_three_kinds(self):
        state = end([[0xFFFFFFFC, 0, 0, 0], [8, 0, 0, 0], [0, 0, 0, 0], [1, 0, 0, 0], [0xFFFFFFFF, 0, 0, 0]], device=2)
        found = report('STORE [r0 + 4], r1', [(1, '00000008'), (2, '00000002'), (6, '00000011')])
        self.assertEqual(['lane 0: address r0 0xFFFFFFFC + 4: base + offset reaches 2^32',
                          'lane 1: address 12 = r0 8 + 4: past device memory of 8 bytes',
                          'lane 3: address 5 = r0 1 + 4: not a multiple of 4',
                          'lane 4: address r0 0xFFFFFFFF + 4: base + offset reaches 2^32'], told(found, state))

    def test_first_and_last_word(self):
        state = end([[60, 0, 0, 0], [64, 0, 0, 0]], device=16)
        found = report('LOAD r1, [r0 + 0]', [(2, '00000003')])
        self.assertEqual(['lane 0: the address is past device memory',
                          'lane 1: address 64 = r0 64 + 0: past device memory of 64 bytes'], told(found, state))

    def test_local(self):
        state = end([[0, 12, 0, 0]], device=16, local=3)
        self.assertEqual(['lane 0: address 12 = r1 12 + 0: past local memory of 12 bytes'],
                         told(report('LOCAL_LOAD r0, [r1 + 0]', [(3, '00000001')]), state))
        self.assertEqual(['lane 0: address 13 = r1 12 + 1: not a multiple of 4'],
                         told(report('LOCAL_STORE [r1 + 1], r0', [(1, '00000001')]), state))

    def test_no_memory(self):
        self.assertEqual(['lane 0: address 0 = r0 0 + 0: past device memory of 0 bytes'],
                         told(report('LOAD r0, [r0 + 0]', [(2, '00000001')]), end([])))

    def test_either_side_of_the_top(self):
        state = end([[0xFFFFFFF4, 0, 0, 0], [0xFFFFFFF7, 0, 0, 0], [0xFFFFFFF8, 0, 0, 0], [0xFFFFFFF9, 0, 0, 0]], device=1, local=1)
        memories = {'LOAD r1, [r0 + 8] on not p1': (2, 'device'), 'LOCAL_STORE [r0 + 8], r1': (3, 'local')}
        for text, (past, memory) in memories.items():
            found = report(text, [(1, '00000002'), (past, '00000001'), (6, '0000000C')])
            self.assertEqual([f'lane 0: address 0xFFFFFFFC = r0 0xFFFFFFF4 + 8: past {memory} memory of 4 bytes',
                              'lane 1: address 0xFFFFFFFF = r0 0xFFFFFFF7 + 8: not a multiple of 4',
                              'lane 2: address r0 0xFFFFFFF8 + 8: base + offset reaches 2^32',
                              'lane 3: address r0 0xFFFFFFF9 + 8: base + offset reaches 2^32'], told(found, state))

    def test_a_large_offset(self):
        state = end([[0, 0, 0, 0], [4, 0, 0, 0]], device=1)
        self.assertEqual(['lane 0: address 0xFFFFFFFC = r0 0 + 0xFFFFFFFC: past device memory of 4 bytes',
                          'lane 1: address r0 4 + 0xFFFFFFFC: base + offset reaches 2^32'],
                         told(report('LOAD r1, [r0 + 0xFFFFFFFC]', [(2, '00000001'), (6, '00000002')]), state))

    def test_offset_in_hexadecimal(self):
        self.assertEqual(['lane 0: address 0x00989684 = r3 4 + 0x00989680: past device memory of 4 bytes'],
                         told(report('STORE [r3 + 0x00989680], r0', [(2, '00000001')]), end([[0, 0, 0, 4]], device=1)))

    def test_atomics(self):
        state = end([[0, 6, 0, 0]], device=2)
        self.assertEqual(['lane 0: address 6 in r1: not a multiple of 4'],
                         told(report('ATOMIC_UMAX r0, [r1], r2 scope 3 on p1', [(1, '00000001')]), state))
        self.assertEqual(['lane 0: address 6 in r1: not a multiple of 4'],
                         told(report('CAS r0, [r1], r2, r3', [(1, '00000001')]), state))
        self.assertEqual(['lane 0: address 0xFFFFFFFC in r1: past device memory of 8 bytes'],
                         told(report('ATOMIC_ADD r0, [r1], r2', [(2, '00000001')]), end([[0, 0xFFFFFFFC, 0, 0]], device=2)))

    def test_divisor(self):
        state = end([[7, 0, 1, 0], [7, 3, 1, 0]])
        for name in ('DIV', 'UDIV', 'REM', 'UREM'):
            self.assertEqual(['lane 0: divisor r1 is 0'], told(report(f'{name} r0, r0, r1', [(4, '00000001')]), state))

    def test_held_to_the_report(self):
        state = end([[8, 0, 0, 0], [8, 1, 0, 0]], device=4)
        self.assertEqual(['lane 0: the address is not a multiple of 4'], told(report('LOAD r1, [r0 + 0]', [(1, '00000001')]), state))
        self.assertEqual(['lane 1: the divisor is 0'], told(report('DIV r0, r0, r1', [(4, '00000002')]), state))
        self.assertEqual(['lane 0: the address is past local memory'], told(report('LOAD r1, [r0 + 0]', [(3, '00000001')]), state))

    def test_a_cause_of_another_kind(self):
        state = end([[6, 0, 0, 0], [400, 0, 0, 0]], device=4)
        self.assertEqual(['lane 0: the address is past device memory', 'lane 1: the address is not a multiple of 4'],
                         told(report('LOAD r1, [r0 + 0]', [(1, '00000002'), (2, '00000001')]), state))
        self.assertEqual(['lane 0: the address is past device memory'], told(report('DIV r0, r0, r1', [(2, '00000001')]), state))
        self.assertEqual(['lane 0: base + offset reaches 2^32'], told(report('LOAD r1, [r0 + 0]', [(6, '00000001')]), state))
        top = end([[0xFFFFFFFF, 0, 0, 0]], device=4)
        self.assertEqual(['lane 0: the address is not a multiple of 4'], told(report('LOAD r1, [r0 + 2]', [(1, '00000001')]), top))

    def test_without_the_instruction(self):
        found = report(None, [(1, '000000A8'), (2, '00000040'), (6, '00000003')])
        self.assertEqual(['lanes 3,5,7: the address is not a multiple of 4', 'lane 6: the address is past device memory',
                          'lanes 0-1: base + offset reaches 2^32'], told(found, end([])))


class Barriers(unittest.TestCase):
    def test_who_has_not_reached_it(self):
        blocks = ['3 1 0000007F 00000010 00000020 00000000', '1 3 0000000F 0000000C 00000000 00000000']
        found = report('BARRIER', [(5, '00000003')], active='00000003', halted='00000040', blocks=blocks)
        self.assertEqual(['BARRIER: reached by lanes 0-1, not by lanes 2-5',
                          'lane 4: broke the loop (LOOP at place 1)',
                          'lane 5: continued the loop (LOOP at place 1)',
                          'lanes 2-3: waiting for the other half (IF at place 3, before ELSE)'], told(found, end([], lanes=7)))

    def test_after_else(self):
        found = report('BARRIER', [(5, '00000002')], active='00000002', blocks=['2 0 00000003 00000001 00000000 00000000'])
        self.assertEqual(['BARRIER: reached by lane 1, not by lane 0', 'lane 0: done with the first half (IF at place 0, after ELSE)'],
                         told(found, end([], lanes=2)))


class Words(unittest.TestCase):
    def test_sets(self):
        for mask, text in ((0, 'none'), (1, '0'), (0x1F8, '3-8'), (0x1F9, '0,3-8'), (0xFFFFFFFF, '0-31'), (0x80000003, '0-1,31')):
            self.assertEqual(text, lanes.in_words(mask))
        self.assertEqual(['no lane', 'lane 4', 'lanes 4-5'], [lanes.named(mask) for mask in (0, 16, 48)])

    def test_numerals(self):
        self.assertEqual(['0', '9999999', '0x00989680', '0xFFFFFFFF'], [numerals.numeral(n) for n in (0, 9999999, 10000000, 2 ** 32 - 1)])
        self.assertEqual([10, 16], [numerals.number_of(text) for text in ('10', '0x00000010')])

    def test_every_lane_halted(self):
        text = ('outcome ended\nsteps 3\nplace 2\ninstruction NOP\nactive 00000000\nhalted 000000FF\np1 00000000\np2 00000000\np3 00000000\n'
                'depth 1\nblock 1 0 000000FF 00000000 00000000 000000FF\n')
        self.assertEqual(['ended after 3 steps, before place 2: every launched lane has halted',
                          'lanes: launched 0-7; active none; halted 0-7',
                          'predicates: p1 none; p2 none; p3 none',
                          'open blocks, outermost first:',
                          '  IF at place 0, before ELSE: entered by lanes 0-7; lanes 0-7 halted or left for an outer loop'],
                         explain.words(Report(text), end([]), end([])))

    def test_no_report(self):
        for data in (b'', b'outcome ended\n', b'outcome ended\nsteps 1\nplace 0\ndepth 0', b'steps 1\nplace 0\ndepth 0\n', b'\xff\n'):
            with self.assertRaises(Exception) as caught:
                parse(data)
            self.assertEqual('replay_capture gave no whole report', str(caught.exception))

    def test_progress(self):
        self.assertEqual('42%: 420,000,000 of 1,000,000,000 steps, 21,000,000 a second, at most 28 s left',
                         progress.line(420_000_000, 1_000_000_000, 20))
        self.assertEqual(['59 s', '1 min 5 s', '2 h 5 min'], [progress.duration(seconds) for seconds in (59.4, 65, 7530)])


class Samples(InFolder):
    def test_words_of_the_second_programs_end_state(self):
        for name in SAMPLES:
            with self.subTest(name):
                out = self.room / 'out'
                second('replay', sample(name), out, self.room / 'key')
                fixed, _, words = sample(name, 'explained').read_text().partition('\n\n')
                given, after = (Capture(path.read_bytes()) for path in (sample(name), out))
                self.assertEqual(words.splitlines(), explain.words(Report(fixed + '\n'), given, after))

    def test_each_sample_is_explained(self):
        self.assertEqual(SAMPLES, sorted(path.stem for path in CAPTURES.glob('*.explained')))


if __name__ == '__main__':
    unittest.main()
