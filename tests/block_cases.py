#!/usr/bin/env python3
"""The cases of the program block_cases and the answers to them, written from page 01 and page 02 (wave operations) alone.

    block_cases.py --write    writes crates/block_cases/stdin and stdout
    block_cases.py --check    fails if the stored files are not what --write would write
"""
from lib import stored

# The words

RS2_FORM = [0x00, 0x01, 0x02, 0x03, 0x04, 0x05, 0x06, 0x09, 0x0A, 0x0B, 0x20, 0x21, 0x22, 0x24, 0x25, 0x26]
COMPARISONS = [0x28, 0x29, 0x2A, 0x2B]
ONE_WORD = [0x07, 0x08, 0x23, 0x27, 0xF0]
MOV_IMM, MOV_SPECIAL, ATOMIC, CAS, WAVE, CONTROL = 0xF1, 0xF2, 0x3C, 0x3D, 0x3E, 0x3F
MEMORY = [0x30, 0x38, 0x31, 0x39]
REDUCE_ADD, SHUFFLE, BALLOT = 1, 5, 6
IF, ELSE, ENDIF, LOOP, BREAK, CONTINUE, ENDLOOP, HALT, BARRIER, NOP = CONTROLS = 0, 1, 2, 3, 4, 5, 6, 9, 10, 15
NEEDS_NONE = [ELSE, ENDIF, LOOP, ENDLOOP, BARRIER, NOP]

# For each opcode and modifier: whether RD and RS1 are registers, and word 1: none, a number, or the registers of RS2, RS3 and whether scope is used.
CARRIED = {}
for code in RS2_FORM:
    CARRIED[code, 0] = ('register', 'register', (True, False, False))
for code in COMPARISONS:
    CARRIED[code, 0] = ('predicate', 'register', (True, False, False))
for code in ONE_WORD:
    CARRIED[code, 0] = ('register', 'register', None)
for code in MEMORY:
    CARRIED[code, 0] = ('register', 'register', 'number')
CARRIED[MOV_SPECIAL, 0] = ('register', 'special', None)
CARRIED[MOV_IMM, 0] = ('register', 'unused', 'number')
for number in range(10):
    CARRIED[ATOMIC, number] = ('register', 'register', (True, False, True))
CARRIED[CAS, 0] = ('register', 'register', (True, True, True))
for number in range(9):
    CARRIED[WAVE, number] = ('register', 'register', (number == SHUFFLE, False, False))
for number in CONTROLS:
    CARRIED[CONTROL, number] = ('unused', 'unused', None)


def word0(opcode, rd=0, rs1=0, modifier=0, negate=0, predicate=0, bit3=0):
    return opcode << 24 | rd << 16 | rs1 << 8 | modifier << 4 | bit3 << 3 | negate << 2 | predicate


def word1(rs2=0, rs3=0, rs4=0, spare=0, scope=0):
    return rs2 << 24 | rs3 << 16 | rs4 << 8 | spare << 2 | scope


def read(code, at, registers):
    """The control modifier or None, and the width, of the instruction at a place; or the number of the rule it breaks."""
    w = code[at]
    opcode, rd, rs1, modifier = w >> 24, w >> 16 & 255, w >> 8 & 255, w >> 4 & 15
    bit3, negate, predicate = w >> 3 & 1, w >> 2 & 1, w & 3
    if (opcode, modifier) not in CARRIED:
        return 4
    rd_is, rs1_is, second = CARRIED[opcode, modifier]
    width = 1 if second is None else 2
    if at + width > len(code):
        return 5
    used = []
    if bit3 or (predicate == 0 and negate):
        return 6
    if opcode == CONTROL and ((modifier == IF and predicate == 0) or (modifier in NEEDS_NONE and predicate != 0)):
        return 6
    for field, kind in ((rd, rd_is), (rs1, rs1_is)):
        if kind == 'register':
            used.append(field)
        elif kind == 'predicate' and not 1 <= field <= 3:
            return 6
        elif kind == 'special' and field > 2:
            return 6
        elif kind == 'unused' and field != 0:
            return 6
    if width == 2 and second != 'number':
        v = code[at + 1]
        for field, is_register in ((v >> 24, second[0]), (v >> 16 & 255, second[1])):
            if is_register:
                used.append(field)
            elif field != 0:
                return 6
        if v >> 2 & 0x3FFF or (v & 3 and not second[2]):
            return 6
    if any(field >= registers for field in used):
        return 7
    return (modifier if opcode == CONTROL else None, width)


# Blocks

def check(registers, code):
    """`fine`, or the number and place of the first broken rule."""
    blocks, at = [], 0  # each open block: what it is and its opener
    while at < len(code):
        got = read(code, at, registers)
        if isinstance(got, int):
            return f'{got} {at}'
        control, width = got
        inside = blocks[-1][0] if blocks else None
        if control in (IF, LOOP):
            if len(blocks) == 32:
                return f'9 {at}'
            blocks.append(('if' if control == IF else 'loop', at))
        elif control == ELSE:
            if inside != 'if':
                return f'8 {at}'
            blocks[-1] = ('else', blocks[-1][1])
        elif control == ENDIF:
            if inside not in ('if', 'else'):
                return f'8 {at}'
            blocks.pop()
        elif control == ENDLOOP:
            if inside != 'loop':
                return f'8 {at}'
            blocks.pop()
        elif control in (BREAK, CONTINUE):
            if 'loop' not in [kind for kind, _ in blocks]:
                return f'8 {at}'
        at += width
    return f'10 {blocks[-1][1]}' if blocks else 'fine'


# The cases

def control(modifier):
    return [word0(CONTROL, modifier=modifier, predicate=1 if modifier == IF else 0)]


if_, else_, endif, loop, break_, continue_, endloop = map(control, (IF, ELSE, ENDIF, LOOP, BREAK, CONTINUE, ENDLOOP))
nop = control(NOP)
add = [word0(0x00, 3, 1), word1(2)]
mov_imm = [word0(MOV_IMM), 5]


def instruction(opcode, rd=0, rs1=0, rs2=0, rs3=0, modifier=0):
    rd_is, _, second = CARRIED[opcode, modifier]
    predicate = 1 if opcode == CONTROL and modifier == IF else 0
    rd = 1 if rd_is == 'predicate' else rd
    return [word0(opcode, rd, rs1, modifier, 0, predicate)] + ([] if second is None else [0xFFFFFFFF] if second == 'number' else [word1(rs2, rs3)])


def whole_instructions():
    yield 16, []
    for opcode, modifier in sorted(CARRIED):
        words = instruction(opcode, modifier=modifier)
        yield 1, words
        if len(words) == 2:  # the second word is missing, at place 0 and behind others
            yield 1, words[:1]
            yield 4, add + nop + words[:1]


def not_carried():
    for opcode in (0x0C, 0x1F, 0x2C, 0x32, 0x3A, 0x3B, 0x40, 0xEF, 0xF3, 0xFF):
        yield 16, nop + [word0(opcode)]
    for opcode in sorted({opcode for opcode, _ in CARRIED}):
        for modifier in range(16):
            if (opcode, modifier) not in CARRIED and (modifier in (1, 15) or opcode in (ATOMIC, WAVE, CONTROL)):
                yield 16, [word0(opcode, modifier=modifier)]
    yield 16, [word0(WAVE, modifier=9), 0]


def fields():
    for bad in (word0(CONTROL, modifier=NOP, bit3=1), word0(0x07, negate=1), word0(CONTROL, modifier=IF), word0(CONTROL, modifier=IF, negate=1),
                word0(CONTROL, modifier=HALT, rd=1), word0(CONTROL, modifier=HALT, rs1=1), word0(MOV_SPECIAL, rs1=3), word0(MOV_SPECIAL, rs1=255)):
        yield 16, [bad]
        yield 16, add + [bad] + nop
    for modifier in NEEDS_NONE:
        for predicate in (1, 2, 3):
            yield 16, [word0(CONTROL, modifier=modifier, predicate=predicate)]
    for predicate in (1, 2, 3):
        for negate in (0, 1):
            yield 16, loop + [word0(CONTROL, modifier=IF, predicate=predicate, negate=negate)] + endif + endloop
            yield 16, loop + [word0(CONTROL, modifier=BREAK, predicate=predicate, negate=negate)] + endloop
            yield 16, [word0(CONTROL, modifier=HALT, predicate=predicate, negate=negate)]
    for rd in (0, 1, 2, 3, 4, 255):
        yield 16, [word0(0x2A, rd=rd), 0]
    for second in (word1(rs3=1), word1(rs4=1), word1(spare=1), word1(spare=32), word1(scope=1)):
        for opcode in (0x00, 0x28, ATOMIC, CAS):
            yield 16, [word0(opcode, rd=1), second]
    yield 16, [word0(MOV_IMM, rs1=1), 0]
    for modifier in (REDUCE_ADD, SHUFFLE, BALLOT):
        for second in (word1(rs2=1), word1(rs2=255), word1(rs3=1), word1(rs4=1), word1(spare=1), word1(spare=32), word1(scope=1)):
            yield 256, [word0(WAVE, rd=1, modifier=modifier), second]
        for predicate in (0, 1, 2, 3):
            yield 16, [word0(WAVE, modifier=modifier, predicate=predicate, negate=1), 0]
        yield 16, [word0(WAVE, modifier=modifier, bit3=1), 0]


def registers():
    for opcode, modifier in sorted(CARRIED):
        if modifier != 0 and opcode != WAVE:
            continue
        rd_is, rs1_is, second = CARRIED[opcode, modifier]
        for field in ('rd', 'rs1', 'rs2', 'rs3'):
            is_register = {'rd': rd_is == 'register', 'rs1': rs1_is == 'register',
                           'rs2': isinstance(second, tuple) and second[0], 'rs3': isinstance(second, tuple) and second[1]}[field]
            if is_register:
                for count, at in ((1, 0), (1, 1), (16, 15), (16, 16), (256, 255)):
                    yield count, instruction(opcode, modifier=modifier, **{field: at})
    for count in (1, 255):
        yield count, nop + instruction(0x00, rd=255) + nop
    yield 1, [word0(0x28, rd=3), 0]  # a comparison's RD is a predicate,
    yield 1, [word0(MOV_SPECIAL, rs1=2)]  # and a special number is a number


def depth(blocks):
    """Blocks one in the other: each its opening words and its end."""
    return [w for opener, _ in blocks for w in opener] + [w for _, end in reversed(blocks) for w in end]


A_IF, A_HALF, A_LOOP = (if_, endif), (if_ + else_, endif), (loop, endloop)


def nesting():
    for kinds in ([A_IF], [A_LOOP], [A_IF, A_LOOP], [A_LOOP, A_IF]):
        for count in (1, 31, 32, 33):
            yield 16, depth((kinds * 33)[:count])
    yield 16, depth([A_HALF] * 20 + [A_IF] * 12)
    yield 16, depth([A_HALF] * 20 + [A_IF] * 13)
    yield 16, depth([A_LOOP] * 32)[:32] + break_ + continue_ + depth([A_LOOP] * 32)[32:]
    yield 16, depth([A_IF] * 32) + depth([A_LOOP] * 32)[:62]
    yield 16, depth([A_IF] * 31)[:31] + 3 * (loop + endloop + if_ + else_ + endif) + depth([A_IF] * 31)[31:]
    yield 16, depth([A_IF] * 33)[:33]
    yield 16, depth([A_LOOP] * 32)[:32]
    yield 16, depth([A_LOOP] * 32)[:63]


SURROUNDINGS = [[], [A_IF], [A_HALF], [A_LOOP], [A_LOOP, A_IF], [A_LOOP, A_HALF], [A_IF, A_LOOP], [A_HALF, A_LOOP], [A_LOOP, A_IF, A_HALF],
                [A_IF, A_IF], [A_HALF, A_IF], [A_LOOP, A_LOOP]]


def standing():
    for around in SURROUNDINGS:
        whole = depth(around)
        inside = len(whole) - len(around)
        for one in (else_, endif, endloop, break_, continue_, if_, loop, add, else_ + else_):
            yield 16, whole[:inside] + one + whole[inside:]
        for one in (endif, endloop, break_):  # behind a block that was closed
            yield 16, whole + loop + endloop + one
    for one in (else_, endif, endloop, break_, continue_):
        yield 16, if_ + endif + one
        yield 16, loop + endloop + nop + one


def left_open():
    for around in SURROUNDINGS:
        whole = depth(around)
        for kept in range(1, len(whole)):
            yield 16, add + whole[:kept]
    yield 16, if_ + loop + endloop
    yield 16, loop + if_ + else_ + endif + mov_imm
    yield 16, nop + if_ + mov_imm + else_ + if_ + endif


def first_broken():
    yield 16, [word0(0x0C, modifier=1, bit3=1)]  # 4 before 6
    yield 16, [word0(0x00, rd=16, bit3=1)]  # 5 before 6 and 7
    yield 16, [word0(0x00, rd=16, bit3=1), 0]  # 6 before 7
    yield 16, [word0(CONTROL, modifier=ELSE, predicate=1)]  # 6 before 8
    yield 16, depth([A_IF] * 32)[:32] + [word0(CONTROL, modifier=IF)]  # 6 before 9
    yield 16, else_ + [word0(0xFF)]
    yield 16, if_ + [word0(0xFF)] + else_
    yield 16, depth([A_LOOP] * 33)[:33] + [word0(0xFF)]
    yield 16, loop + [word0(0xFF)]
    yield 16, loop + add[:1]
    yield 2, loop + add
    yield 16, [word0(MOV_IMM), 0x3F000010] + nop  # a second word is no instruction
    yield 16, [word0(MOV_IMM), 0xFFFFFFFF]


def drawn(count):
    """Short code drawn at random, by a generator of its own so that every Python draws the same."""
    state = 2024

    def draw(n):
        nonlocal state
        state = (state * 6364136223846793005 + 1442695040888963407) % 2 ** 64
        return (state >> 33) % n

    parts = [if_, if_, else_, endif, endif, loop, loop, endloop, endloop, break_, continue_, nop, add, mov_imm]
    for _ in range(count):
        words = [w for _ in range(draw(14)) for w in parts[draw(len(parts))]]
        if words and draw(6) == 0:
            words[draw(len(words))] ^= 1 << draw(32)
        yield 4, words


def cases():
    for group in (whole_instructions(), not_carried(), fields(), registers(), nesting(), standing(), left_open(), first_broken(), drawn(200)):
        yield from group


def texts():
    """The cases and the answers to them."""
    made = list(cases())
    files = {
        'crates/block_cases/stdin': ''.join(' '.join(f'{w:08x}' for w in [count] + code) + '\n' for count, code in made),
        'crates/block_cases/stdout': ''.join(check(count, code) + '\n' for count, code in made),
    }
    assert len(files['crates/block_cases/stdin']) <= 65536 and all(len(code) < 128 for _, code in made), 'more than the program takes'
    return files


stored.main(__doc__, texts)
