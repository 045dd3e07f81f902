"""Refusals in words: the rule, and what broke it."""
import unittest

from support import capture

from desk import explain
from desk.capture import Capture
from desk.report import Report

ADD = [0x00030100, 0x02000000]


def told(number, place, data, instruction=None):
    """The words about a refusal of a capture."""
    text = f'outcome refused {number} place {place}\nsteps 0\nplace 0\n' + (f'instruction {instruction}\n' if instruction else '')
    text += 'active 00000000\nhalted 00000000\np1 00000000\np2 00000000\np3 00000000\ndepth 0\n'
    return explain.words(Report(text), Capture(data), None)


class Rules(unittest.TestCase):
    def test_settings(self):
        self.assertEqual(['refused by rule 1: a setting is not allowed', 'width 7: it is 8, 16 or 32', 'registers 0: 1 to 256 for each lane',
                          'lanes 8: 1 to the width, 7', 'budget 1000000001: at most 1,000,000,000'],
                         told(1, 0, capture([], width=7, registers=0, lanes=8, budget=1_000_000_001)))
        self.assertEqual(['lanes 0: 1 to the width, 8'], told(1, 0, capture([], lanes=0))[1:])

    def test_lengths(self):
        self.assertEqual(['refused by rule 2: the code is too long', 'the code has 65,537 words, at most 65,536'],
                         told(2, 0, capture([0x3F0000F0] * 65537)))
        self.assertEqual(['refused by rule 3: the register words are not width times registers',
                          '15 register words, and 8 lanes of 2 registers are 16'], told(3, 0, capture([], values=[0] * 15)))

    def test_opcodes(self):
        self.assertEqual(['refused by rule 4 at place 2: an opcode is not carried, or its modifier is not listed',
                          'word 3B000000: opcode 3B is not carried'], told(4, 2, capture([*ADD, 0x3B000000])))
        for word, cause in ((0x3F000070, 'modifier 7 is not listed for opcode 3F, control'),
                            (0x3C0000A0, 'modifier 10 is not listed for opcode 3C, ATOMIC'),
                            (0x3E000090, 'modifier 9 is not listed for opcode 3E, wave operation'),
                            (0x07000010, 'modifier 1 is not listed for opcode 07, NEG')):
            self.assertEqual([f'word {word:08X}: {cause}'], told(4, 0, capture([word]))[1:])

    def test_missing_word(self):
        self.assertEqual(['refused by rule 5 at place 2: the second word of an instruction is missing',
                          'word F1000000 is the first of two, and the last of the code'], told(5, 2, capture([*ADD, 0xF1000000])))

    def test_fields(self):
        cases = (
            ([0x3F000004], 'predicate 0 is negated'),
            ([0x3F000000], 'IF is on no predicate'),
            ([0x3F000021], 'ENDIF is on predicate 1, and takes none'),
            ([0x3F0100F0], 'RD is 1, not 0, and NOP does not use it'),
            ([0x07010008], 'bit 3 is 1, not 0, and NEG does not use it'),
            ([0xF2000300], 'special number 3, and there are 0 to 2'),
            ([0xF1000500, 7], 'RS1 is 5, not 0, and MOV_IMM does not use it'),
            ([0x28040000, 0], 'EQ sets predicate 4, and there are 1 to 3'),
            ([0x28000000, 0], 'EQ sets predicate 0, and there are 1 to 3'),
            ([0x00000000, 0x00000001], 'scope is 1, not 0, and ADD does not use it'),
            ([0x00000000, 0x00000400], 'RS4 is 4, not 0, and ADD does not use it'),
            ([0x3C000000, 0x00020003], 'RS3 is 2, not 0, and ATOMIC does not use it'),
            ([0x3D000000, 0x00000004], 'field 7:2 of the second word is 1, not 0, and CAS does not use it'),
            ([0x3E010010, 0x01000000], 'RS2 is 1, not 0, and REDUCE_ADD does not use it'),
            ([0x3E010050, 0x01020000], 'RS3 is 2, not 0, and SHUFFLE does not use it'),
            ([0x3E010050, 0x01000001], 'scope is 1, not 0, and SHUFFLE does not use it'),
            ([0x3E010084, 0x00000000], 'predicate 0 is negated'),
        )
        for code, cause in cases:
            self.assertEqual([f'word {code[0]:08X}: {cause}'], told(6, 0, capture(code))[1:])

    def test_registers(self):
        self.assertEqual(['refused by rule 7 at place 0: a register number is too large: ADD r3, r1, r2 on p2',
                          'r3, r2: each lane has 2 registers, r0 to r1'], told(7, 0, capture(ADD), 'ADD r3, r1, r2 on p2'))
        self.assertEqual(1, len(told(7, 0, capture(ADD))))

    def test_blocks(self):
        for text, cause in (('ELSE', 'ELSE stands directly in no IF that is before its ELSE'), ('ENDIF', 'ENDIF stands directly in no IF'),
                            ('ENDLOOP', 'ENDLOOP stands directly in no LOOP'), ('BREAK on p1', 'BREAK stands in no LOOP'),
                            ('CONTINUE on not p2', 'CONTINUE stands in no LOOP')):
            self.assertEqual([f'refused by rule 8 at place 3: an ELSE, ENDIF, ENDLOOP, BREAK or CONTINUE has no block: {text}', cause],
                             told(8, 3, capture([]), text))
        self.assertEqual(['refused by rule 9 at place 32: a 33rd block is opened: LOOP'], told(9, 32, capture([]), 'LOOP'))
        self.assertEqual(['refused by rule 10 at place 5: a block is open at the end of the code: IF on p1',
                          'the IF at the place is closed nowhere'], told(10, 5, capture([]), 'IF on p1'))


class States(unittest.TestCase):
    """Rule 11, on code of one loop, with lanes 0 to 3 launched."""
    CODE = [0x3F000030, 0x3F0000F0, 0x3F000060]

    def causes(self, *state):
        return told(11, 0, capture(self.CODE, lanes=4, state=state))[1:]

    def test_rule(self):
        self.assertEqual('refused by rule 11: the state does not fit the code', told(11, 0, capture(self.CODE, state=[1, 3, 0, 0, 0, 0, 0]))[0])

    def test_place(self):
        self.assertEqual(['place 4: the code has 3 words'], self.causes(4, 15, 0, 0, 0, 0, 0))

    def test_lanes(self):
        self.assertEqual(['lane 4: not launched, and in a set of the state'], self.causes(0, 15, 0, 16, 0, 0, 0))
        self.assertEqual(['lanes 2-3: launched, and neither active nor halted nor set aside in a block'], self.causes(0, 3, 0, 0, 0, 0, 0))
        self.assertEqual(['lane 0: in more than one of active, halted and the sets aside in blocks'], self.causes(0, 15, 1, 0, 0, 0, 0))

    def test_entered(self):
        self.assertEqual(['LOOP at place 0: its entered lanes are not its left lanes and, apart from them, those active or set aside in it'],
                         self.causes(1, 15, 0, 0, 0, 0, 1, 3, 0, 7, 0, 0, 0))
        self.assertEqual([], [line for line in self.causes(1, 7, 0, 0, 0, 0, 1, 3, 0, 15, 8, 0, 0) if 'LOOP' in line])

    def test_again_of_an_if(self):
        self.assertEqual(['IF at place 0, before ELSE: lane 3 continued it, and it is no loop'],
                         self.causes(1, 7, 0, 0, 0, 0, 1, 1, 0, 15, 0, 8, 0))

    def test_blocks_of_the_code(self):
        self.assertEqual(['the place is no first word of an instruction, or the open blocks are not those that the code has open there'],
                         self.causes(1, 15, 0, 0, 0, 0, 0))


if __name__ == '__main__':
    unittest.main()
