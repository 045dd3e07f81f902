#!/usr/bin/env python3
"""The cases of the program state_cases and the answers to them, written from page 01 alone.

    state_cases.py --write    writes crates/state_cases/stdin and stdout
    state_cases.py --check    fails if the stored files are not what --write would write
"""
from lib import stored

REGISTERS, DEEPEST, WIDEST = 4, 32, 32

# The words that the kernels here are made of

ADD, NOP, HALT, BARRIER = [0x00030100, 0x02000000], [0x3F0000F0], [0x3F000090], [0x3F0000A0]
IF, ELSE, ENDIF, LOOP, BREAK, CONTINUE, ENDLOOP = [0x3F000001], [0x3F000010], [0x3F000020], [0x3F000030], [0x3F000041], [0x3F000051], [0x3F000060]
CONTROL = {0: 'if', 1: 'else', 2: 'endif', 3: 'loop', 4: 'break', 5: 'continue', 6: 'endloop', 9: 'halt'}


def instruction(code, at):
    """What the instruction at a place is to the wave, and how many words it has."""
    word = code[at]
    if word >> 24 == 0x3F:
        return CONTROL.get(word >> 4 & 15, 'plain'), 1
    return 'plain', 2


def open_blocks(code, place):
    """The part and the opener of each block open at a place, outermost first; None if no instruction starts and the code does not end there."""
    blocks, at = [], 0
    while at < place and at < len(code):
        kind, width = instruction(code, at)
        if kind in ('if', 'loop'):
            blocks.append((1 if kind == 'if' else 3, at))
        elif kind == 'else':
            blocks[-1] = (2, blocks[-1][1])
        elif kind in ('endif', 'endloop'):
            blocks.pop()
        at += width
    return blocks if at == place else None


# A state: place, active, halted, the three predicates, and the open blocks, outermost first: part, opener, entered, aside, again, left. Sets are numbers, lane i bit i.

class State:
    def __init__(self, place, active, halted=0, predicates=(0, 0, 0), blocks=(), depth=None, past=()):
        self.place, self.active, self.halted, self.predicates = place, active, halted, list(predicates)
        self.blocks, self.depth, self.past = [list(b) for b in blocks], depth, list(past)

    def copy(self):
        return State(self.place, self.active, self.halted, self.predicates, self.blocks, self.depth, self.past)

    def numbers(self):
        """As the program is handed it. `depth` is what the state says, `past` what stands past its open blocks."""
        depth = len(self.blocks) if self.depth is None else self.depth
        return [self.place, self.active, self.halted] + self.predicates + [depth] + [x for b in self.blocks for x in b] + self.past


def has(lanes, lane):
    return lanes >> lane & 1


def fits(code, n, numbers):
    place, active, halted, p1, p2, p3, depth = numbers[:7]
    words = (numbers[7:] + [0] * 192)[:192]
    if depth > DEEPEST or n > WIDEST:
        return False
    blocks = [words[6 * i:6 * i + 6] for i in range(depth)]
    if open_blocks(code, place) != [(part, opener) for part, opener, *_ in blocks]:
        return False
    if any(again and part != 3 for part, _, _, _, again, _ in blocks):
        return False
    for lane in range(WIDEST):
        standing = [active, halted] + [s for _, _, _, aside, again, _ in blocks for s in (aside, again)]
        others = [p1, p2, p3] + [s for _, _, entered, _, _, left in blocks for s in (entered, left)]
        count = sum(has(s, lane) for s in standing)
        if lane < n and count != 1:
            return False
        if lane >= n and count + sum(has(s, lane) for s in others):
            return False
        for i, (_, _, entered, _, _, left) in enumerate(blocks):
            inside = [left, active] + [s for _, _, _, aside, again, _ in blocks[i:] for s in (aside, again)]
            if has(entered, lane) != sum(has(s, lane) for s in inside):
                return False
    return True


# A run by the rules of one step, with the executing lanes drawn

def innermost_loop(blocks):
    return max(i for i, b in enumerate(blocks) if b[0] == 3)


def step(code, state, t):
    kind, width = instruction(code, state.place)
    s, blocks, at = state.copy(), None, state.place
    blocks = s.blocks
    s.place = at + width
    if kind == 'if':
        blocks.append([1, at, s.active, s.active & ~t, 0, 0])
        s.active = t
    elif kind == 'else':
        s.active, blocks[-1][3] = blocks[-1][3], s.active
        blocks[-1][0] = 2
    elif kind == 'endif':
        s.active |= blocks.pop()[3]
    elif kind == 'loop':
        blocks.append([3, at, s.active, 0, 0, 0])
    elif kind in ('break', 'continue'):
        loop = innermost_loop(blocks)
        blocks[loop][3 if kind == 'break' else 4] |= t
        for b in blocks[loop + 1:]:
            b[5] |= t
        s.active &= ~t
    elif kind == 'endloop':
        s.active |= blocks[-1][4]
        blocks[-1][4] = 0
        if s.active:
            s.place = blocks[-1][1] + 1
        else:
            s.active = blocks.pop()[3]
    elif kind == 'halt':
        s.halted |= t
        s.active &= ~t
        for b in blocks:
            b[5] |= t
    return s


SEED = [2024]


def draw(n):
    """A number below n, by a generator of its own so that every Python draws the same."""
    SEED[0] = (SEED[0] * 6364136223846793005 + 1442695040888963407) % 2 ** 64
    return (SEED[0] >> 33) % n


def drawn_lanes(lanes):
    return lanes & (draw(2 ** 16) | draw(2 ** 16) << 16)


def kernel(depth, in_loop):
    """Some instructions, whole blocks among them."""
    code = []
    for _ in range(1 + draw(3)):
        kind = draw(7 if depth else 3)
        if kind == 0:
            code += ADD
        elif kind == 1:
            code += HALT if draw(2) else NOP
        elif kind == 2:
            code += (BREAK if draw(2) else CONTINUE) if in_loop else BARRIER
        elif kind in (3, 4):
            code += IF + kernel(depth - 1, in_loop) + (ELSE + kernel(depth - 1, in_loop) if draw(2) else []) + ENDIF
        else:
            code += LOOP + kernel(depth - 1, True) + ENDLOOP
    return code


def walked(code, n):
    """The states of a run of at most 40 steps, and one drawn from them."""
    state, seen = State(0, 2 ** n - 1), []
    for _ in range(40):
        state.predicates = [drawn_lanes(2 ** n - 1) for _ in range(3)]
        seen.append(state.copy())
        if state.place == len(code) or state.halted == 2 ** n - 1:
            break
        state = step(code, state, drawn_lanes(state.active))
    return seen


def damaged(state, n):
    """The state with one number changed."""
    s = state.copy()
    lane = 1 << (draw(n) if draw(3) else draw(32))
    what = draw(8)
    if what == 0:
        s.place += 1 - 2 * draw(2) if s.place else 1
    elif what == 1:
        s.active ^= lane
    elif what == 2:
        s.halted ^= lane
    elif what == 3:
        s.predicates[draw(3)] ^= lane
    elif what == 4:
        s.depth = max(0, len(s.blocks) + 1 - 2 * draw(2))
    elif s.blocks:
        b, k = s.blocks[draw(len(s.blocks))], draw(6)
        b[k] = (1 + draw(4)) if k == 0 else (b[k] + 1) if k == 1 else b[k] ^ lane
    else:
        s.active ^= lane
    return s


# The cases: code, n and a state's numbers

def launches():
    for n in (0, 1, 2, 31, 32):
        yield ADD + NOP, n, State(0, 2 ** n - 1).numbers()
        yield ADD + NOP, n, State(3, 0, 2 ** n - 1).numbers()
    yield ADD + NOP, 33, State(0, 2 ** 32 - 1).numbers()
    yield ADD + NOP, 2 ** 32 - 1, State(0, 2 ** 32 - 1).numbers()
    for place in (0, 1, 2, 3, 4, 2 ** 32 - 1):  # a second word, the end, past it
        yield ADD + NOP, 4, State(place, 15).numbers()
    yield [], 4, State(0, 15).numbers()
    yield [], 4, State(1, 15).numbers()
    for sets in ((0, 0), (15, 1), (7, 0), (7, 8), (31, 0), (15, 16), (0, 15)):
        yield NOP, 4, State(0, *sets).numbers()
    for predicates in ((15, 0, 5), (16, 0, 0), (0, 2 ** 31, 0), (0, 0, 32)):
        yield NOP, 4, State(0, 15, 0, predicates).numbers()


def halves():
    code = NOP + IF + NOP + ELSE + NOP + ENDIF + NOP
    for part in (0, 1, 2, 3, 4):
        for place in range(8):
            yield code, 4, State(place, 3, 0, (0, 0, 0), [[part, 1, 15, 12, 0, 0]]).numbers()
    for block in ([1, 1, 15, 12, 0, 0], [1, 1, 15, 0, 12, 0], [1, 1, 15, 8, 4, 0], [1, 0, 15, 12, 0, 0], [1, 2, 15, 12, 0, 0], [1, 1, 7, 12, 0, 0],
                  [1, 1, 15, 14, 0, 0], [1, 1, 15, 12, 0, 1], [1, 1, 31, 12, 0, 16], [1, 1, 15, 12, 1, 0], [1, 1, 15, 4, 0, 8], [1, 1, 0, 0, 0, 0]):
        yield code, 4, State(2, 3, 0, (0, 0, 0), [block]).numbers()
    yield code, 4, State(2, 3, 8, (0, 0, 0), [[1, 1, 15, 4, 0, 8]]).numbers()  # lane 3 has halted, and left
    yield code, 4, State(2, 3, 8, (0, 0, 0), [[1, 1, 7, 4, 0, 0]]).numbers()  # it had halted before the IF
    yield code, 4, State(2, 3, 8, (0, 0, 0), [[1, 1, 15, 4, 0, 0]]).numbers()
    yield code, 4, State(2, 3, 8, (0, 0, 0), [[1, 1, 7, 4, 0, 8]]).numbers()


def loops():
    code = LOOP + IF + BREAK + ENDIF + IF + CONTINUE + ELSE + NOP + ENDIF + ENDLOOP + NOP
    for blocks in ([[3, 0, 15, 8, 4, 0]], [[3, 0, 15, 8, 0, 4]], [[3, 0, 15, 12, 4, 0]], [[3, 0, 15, 4, 4, 0]], [[3, 0, 15, 0, 0, 12]], [[3, 0, 3, 8, 4, 0]],
                   [[3, 0, 31, 8, 4, 16]], [[1, 0, 15, 8, 4, 0]], [[3, 0, 15, 8, 4, 0], [1, 1, 3, 0, 0, 0]]):
        yield code, 4, State(4, 3, 0, (0, 0, 0), blocks).numbers()
        yield code, 4, State(9, 3, 0, (0, 0, 0), blocks).numbers()
    inner = [[3, 0, 15, 8, 0, 0], [1, 1, 15, 4, 0, 8]]
    yield code, 4, State(3, 3, 0, (0, 0, 0), inner).numbers()
    for outer, within in ((4, 1), (2, 5), (3, 3), (5, 5), (3, 2), (4, 2), (5, 3)):
        changed = [list(b) for b in inner]
        changed[0][outer] ^= 4
        changed[1][within] ^= 4
        yield code, 4, State(3, 3, 0, (0, 0, 0), changed).numbers()
    yield code, 4, State(3, 3, 0, (0, 0, 0), inner[::-1]).numbers()
    yield code, 4, State(3, 3, 0, (0, 0, 0), inner[:1]).numbers()
    yield code, 4, State(3, 3, 0, (0, 0, 0), inner[1:]).numbers()


def deep():
    for depth in (31, 32):
        code = LOOP * depth + NOP + ENDLOOP * depth
        blocks = [[3, i, 3, 0, 0, 0] for i in range(depth)]
        yield code, 2, State(depth, 3, 0, (0, 0, 0), blocks).numbers()
        yield code, 2, State(depth, 3, 0, (0, 0, 0), blocks[:-1]).numbers()
        yield code, 2, State(depth, 1, 0, (0, 0, 0), [[3, 0, 3, 2, 0, 0]] + [[3, i, 1, 0, 0, 0] for i in range(1, depth)]).numbers()
        for said in (33, 64, 2 ** 32 - 1):
            yield code, 2, State(depth, 3, 0, (0, 0, 0), blocks, said).numbers()


def past():
    code = IF + NOP + ENDIF
    for numbers in ([1], [3, 0, 15, 0, 0, 0], [2 ** 32 - 1] * 12):
        yield code, 4, State(0, 15, past=numbers).numbers()
        yield code, 4, State(1, 15, 0, (0, 0, 0), [[1, 0, 15, 0, 0, 0]], past=numbers).numbers()
        yield code, 4, State(1, 15, 0, (0, 0, 0), [[1, 0, 15, 0, 0, 0]], 2, past=numbers).numbers()


def drawn(count):
    for _ in range(count):
        n = (1, 2, 4, 8, 16, 32)[draw(6)]
        code = kernel(3, False)
        if len(code) > 24:
            continue
        states = walked(code, n)
        state = states[draw(len(states))]
        yield code, n, state.numbers()
        yield code, n, damaged(state, n).numbers()
        yield code, n, damaged(state, n).numbers()


def cases():
    for group in (launches(), halves(), loops(), deep(), past(), drawn(130)):
        yield from group


def texts():
    """The cases and the answers to them."""
    made = list(cases())
    files = {
        'crates/state_cases/stdin': ''.join(' '.join(f'{x:x}' for x in [REGISTERS, n, len(code)] + code + numbers) + '\n' for code, n, numbers in made),
        'crates/state_cases/stdout': ''.join(('fits' if fits(code, n, numbers) else '11') + '\n' for code, n, numbers in made),
    }
    assert len(files['crates/state_cases/stdin']) <= 65536 and all(len(code) + len(numbers) + 3 <= 320 for code, _, numbers in made), 'more than the program takes'
    return files


stored.main(__doc__, texts)
