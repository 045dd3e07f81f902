#!/usr/bin/env python3
"""The stored inputs and answers of the day file's programs.

Written from page 01 ("The key", "The day file" and the table of refusals) and page 02 (fault kind 6) alone, it shares nothing with the
crates. `--write` puts each program's files into crates/; `--check` fails where a stored file is not what this script gives.

day_cases reads cases one after another, each three numbers of four bytes, low byte first, and then bytes:
an operation, its argument, how many bytes (FFFFFFFF: the bytes of the case before). It prints an answer for each.
  1 AT     the length of the body at AT                         length N       or refused 14 AT
  2 ROOM   a day file made in a buffer of ROOM bytes, all A5    made N SUM     or refused N PLACE SUM   (SUM: of the whole buffer, after)
  3 I      record I of a day file                               record PLACE LENGTH FIRST   or refused N PLACE
  4 -      the listing of a day file                            its text
"""
import itertools
import random

from lib import stored

LAST_PLACE, MOST_DEPTH, MOST_RECORDS, MOST_BYTES = 65535, 32, 1024, 65536
KINDS = ([1], [2], [3], [4], [5], [1, 2], [1, 3], [6], [1, 6], [2, 6], [3, 6], [1, 2, 6], [1, 3, 6])
MOST_KINDS = 3


# ---- the page

def number(n):
    return n.to_bytes(4, 'little')


def number_at(data, at):
    return int.from_bytes(data[at:at + 4], 'little')


def body(kernel, place, faults, active, halted, blocks=()):
    numbers = [kernel, place, len(faults)] + [x for f in faults for x in f] + [active, halted, len(blocks)] + [x for b in blocks for x in b]
    return b''.join(map(number, numbers))


def body_length(data, at):
    """The length of the body of the layout that starts at `at`, or None."""
    def take():
        nonlocal at
        if len(data) < at + 4:
            raise EOFError
        at += 4
        return number_at(data, at - 4)
    start = at
    try:
        take()
        place, count = take(), take()
        if place > LAST_PLACE or count > MOST_KINDS:
            return None
        faults = [(take(), take()) for _ in range(count)]
        if [k for k, _ in faults] not in KINDS or not all(lanes for _, lanes in faults):
            return None
        if any(one & other for (_, one), (_, other) in itertools.combinations(faults, 2)):
            return None
        take(), take()
        depth = take()
        if depth > MOST_DEPTH:
            return None
        for _ in range(depth):
            part, opener, _, _, again, _ = (take() for _ in range(6))
            if part not in (1, 2, 3) or opener > LAST_PLACE or (part != 3 and again):
                return None
    except EOFError:
        return None
    return at - start


def file_of(bodies):
    rows, at = b'', 4 + 8 * len(bodies)
    for b in bodies:
        rows += number(at) + number(len(b))
        at += len(b)
    return number(len(bodies)) + rows + b''.join(bodies)


def make(data, room):
    """A file, or a refusal's number and place."""
    bodies, at = [], 0
    while at < len(data):
        if len(bodies) == MOST_RECORDS:
            return 15, 0
        length = body_length(data, at)
        if length is None:
            return 14, at
        bodies.append(data[at:at + length])
        at += length
    made = file_of(bodies)
    return made if len(made) <= room else (13, 0)


def bodies_of(data):
    """The bodies of an accepted file, or the refusal's number."""
    if len(data) < 4:
        return 14
    count = number_at(data, 0)
    if count > MOST_RECORDS:
        return 15
    bodies, at = [], 4 + 8 * count
    for _ in range(count):
        length = body_length(data, at)
        if length is None:
            return 14
        bodies.append(data[at:at + length])
        at += length
    return bodies if file_of(bodies) == data else 14


def read(data, i):
    bodies = bodies_of(data)
    if isinstance(bodies, int):
        return f'refused {bodies} 0'
    if not 1 <= i <= len(bodies):
        return 'refused 16 0'
    return f'record {number_at(data, 8 * i - 4)} {number_at(data, 8 * i)} {bodies.index(bodies[i - 1]) + 1}'


def listing(data):
    if len(data) > MOST_BYTES:
        return 'too long\n'
    bodies = bodies_of(data)
    if isinstance(bodies, int):
        return f'refused {bodies}\n'
    lines = ['record first kernel place kinds depth']
    for i, b in enumerate(bodies, 1):
        count = number_at(b, 8)
        kinds = ','.join(str(number_at(b, 12 + 8 * k)) for k in range(count))
        lines.append(f'{i} {bodies.index(b) + 1} {number_at(b, 0)} {number_at(b, 4)} {kinds} {number_at(b, 20 + 8 * count)}')
    lines.append(f'total {len(bodies)} distinct {len(set(bodies))}')
    return '\n'.join(lines) + '\n'


# ---- the cases

T13 = body(7, 1, [(4, 1)], 3, 0)
T14 = body(7, 7, [(4, 1)], 5, 0, [(3, 5, 7, 2, 0, 0)])
BOTH = body(0xFFFFFFFF, 65535, [(1, 5), (2, 10)], 15, 0, [(1, 0, 15, 0, 0, 0), (2, 65535, 15, 0, 0, 0)])
THREE = body(7, 0, [(1, 2), (2, 4), (6, 8)], 15, 0)
LONGEST = body(9, 40, [(1, 1), (3, 2), (6, 4)], 7, 0, [(3, k, 7, 0, 0, 0) for k in range(32)])
LOOP_AGAIN = body(1, 2, [(5, 1)], 1, 0, [(3, 1, 3, 0, 2, 0)])


def apart(kinds, lanes):
    """Lanes for each kind, out of `lanes` where it can be, so that no lane has two."""
    every = sum(1 << lane for lane in range(0, 32, len(kinds)))
    return [(kind, lanes & every << j or 1 << j) for j, kind in enumerate(kinds)]


def wrong_bodies():
    yield body(7, 65536, [(4, 1)], 3, 0)
    yield body(7, 1, [], 3, 0)
    for kinds in ([0], [7], [2, 1], [3, 1], [1, 1], [2, 3], [1, 4], [1, 5], [4, 5], [6, 1], [4, 6], [5, 6], [6, 6], [1, 7],
                  [1, 2, 3], [2, 3, 6], [1, 4, 6], [1, 6, 2], [6, 1, 2], [2, 1, 6], [1, 2, 7], [1, 2, 3, 6], [1, 2, 6, 6]):
        yield body(7, 1, apart(kinds, 15), 15, 0)
    for sets in ((1, 2, 2), (1, 1, 2), (3, 4, 2), (0, 1, 2), (1, 0, 2), (1, 2, 0)):
        yield body(7, 1, list(zip((1, 2, 6), sets)), 7, 0)
        yield body(7, 1, list(zip((1, 3, 6), sets)), 7, 0)
    yield body(7, 1, [(1, 1), (3, 2), (6, 4)], 7, 0, [(3, 1, 7, 0, 0, 0)] * 33)
    yield body(7, 1, [(4, 0)], 3, 0)
    yield body(7, 1, [(1, 0), (2, 1)], 3, 0)
    yield body(7, 1, [(1, 1), (2, 0)], 3, 0)
    yield body(7, 1, [(1, 3), (2, 2)], 3, 0)
    yield body(7, 1, [(4, 1)], 3, 0, [(3, 1, 3, 0, 0, 0)] * 33)
    yield body(7, 1, [(4, 1)], 3, 0, [(0, 1, 3, 0, 0, 0)])
    yield body(7, 1, [(4, 1)], 3, 0, [(4, 1, 3, 0, 0, 0)])
    yield body(7, 1, [(4, 1)], 3, 0, [(3, 65536, 3, 0, 0, 0)])
    yield body(7, 1, [(4, 1)], 3, 0, [(1, 1, 3, 0, 1, 0)])
    yield body(7, 1, [(4, 1)], 3, 0, [(3, 1, 3, 0, 1, 0), (2, 1, 3, 0, 1, 0)])


def random_body(rng):
    faults = apart(rng.choice(KINDS), rng.randrange(1, 1 << 32))
    blocks = []
    for _ in range(rng.choice((0, 0, 0, 1, 2, 5))):
        part = rng.randrange(1, 4)
        again = rng.randrange(1 << 32) if part == 3 else 0
        blocks.append((part, rng.randrange(65536), rng.randrange(1 << 32), rng.randrange(1 << 32), again, rng.randrange(1 << 32)))
    return body(rng.randrange(4), rng.randrange(65536), faults, rng.randrange(1 << 32), rng.randrange(1 << 32), blocks)


def flipped(data, at):
    return data[:at] + bytes([data[at] ^ 1]) + data[at + 1:]


def body_cases():
    for b in (T13, T14, BOTH, THREE, LONGEST, LOOP_AGAIN):
        yield 1, 0, b
        yield 1, 0, b + b'\xff'
        yield 1, 0, b[:-1]
        yield 1, 5, b'12345' + b
    yield 1, 0, b''
    yield 1, 1, b''
    yield 1, 0xFFFFFFFF, T13
    yield 1, 1, T13
    yield 1, len(T13), T13
    yield 1, len(T13), T13 + T14
    for b in wrong_bodies():
        yield 1, 0, b
    for kinds in KINDS:
        yield 1, 0, body(7, 1, apart(kinds, 15), 15, 0)
    for b in (T14, THREE):
        for n in range(0, len(b)):
            yield 1, 0, b[:n]


def make_cases(full):
    two = T13 + T13
    for data in (b'', T13, two, T14 + BOTH + T13, LONGEST + T14, THREE + T13):
        made = len(make(data, MOST_BYTES))
        for room in (made, made + 3, made - 1, 4, 3, 0):
            yield 2, room, data
    for b in wrong_bodies():
        yield 2, 1000, T13 + b
    yield 2, 1000, T13 + T14[:-1]
    yield 2, 0, T13 + b'x'
    # 1,024 bodies, and what follows them
    yield 2, MOST_BYTES, b''.join(full)
    yield 2, 100, b''.join(full)
    yield 2, MOST_BYTES, b''.join(full) + T13
    yield 2, MOST_BYTES, b''.join(full) + b'x'
    yield 2, 0, b''.join(full) + b'x'
    yield 2, MOST_BYTES, b''.join(full[:-1]) + b'x' + T13


def read_cases(full):
    page = file_of([T13, T13])
    empty = file_of([])
    mixed = file_of([T13, T14, BOTH, T13, LONGEST, T14, THREE])
    for i in (0, 1, 2, 3, 0xFFFFFFFF):
        yield 3, i, page
        yield 3, i, empty
    for i in range(9):
        yield 3, i, mixed
    for n in range(len(page)):
        yield 3, 1, page[:n]
    for n in range(len(page)):
        yield 3, 2, flipped(page, n)
    yield 3, 1, page + b'\0'
    yield 3, 9, page + b'\0'
    yield 3, 0, page[:-1]
    # a count over 1,024 before anything else, and 1,024 in a file too short for its table
    yield 3, 1, number(1025)
    yield 3, 0, number(1025) + page[4:]
    yield 3, 1, number(0xFFFFFFFF) + page[4:]
    yield 3, 1, number(1024) + page[4:]
    yield 3, 1, number(1) + page[4:]
    yield 3, 1, number(3) + page[4:]
    # a gap between bodies, bodies that share bytes, rows in another order, a body named too long
    one, two = 4 + 8 * 2, 4 + 8 * 2 + len(T13)
    yield 3, 1, number(2) + number(one) + number(32) + number(two + 4) + number(32) + T13 + b'gap!' + T13
    yield 3, 1, number(2) + number(one) + number(32) + number(one) + number(32) + T13 + T13
    yield 3, 1, number(2) + number(one) + number(32) + number(one) + number(32) + T13
    yield 3, 1, number(2) + number(two) + number(32) + number(one) + number(32) + T13 + T13
    yield 3, 1, number(1) + number(12) + number(64) + T13 + T13
    yield 3, 1, number(2) + number(one + 4) + number(32) + number(two + 4) + number(32) + b'gap!' + T13 + T13
    for b in wrong_bodies():
        yield 3, 1, file_of([T13, b])
    whole = file_of(full)
    yield 3, 1, file_of(full + [T13])
    yield 3, 1024, flipped(whole, len(whole) // 2)
    for i in (0, 1, 2, 700, 1023, 1024, 1025):
        yield 3, i, whole
    yield 4, 0, whole


def list_cases(full):
    for bodies in ([T13, T13], [], [T14], [THREE], [BOTH, T13, BOTH, LONGEST, T13, T14, THREE]):
        yield 4, 0, file_of(bodies)
    yield 4, 0, b''
    yield 4, 0, b'abc'
    yield 4, 0, number(1025)
    yield 4, 0, file_of([T13])[:-1]
    yield 4, 0, number(0) + bytes(MOST_BYTES - 4)
    yield 4, 0, number(0) + bytes(MOST_BYTES - 3)


def random_cases(rng):
    for _ in range(60):
        pool = [random_body(rng) for _ in range(rng.randrange(1, 5))]
        bodies = [rng.choice(pool) for _ in range(rng.randrange(1, 7))]
        data = file_of(bodies)
        yield 3, rng.randrange(len(bodies) + 2), data
        yield 4, 0, data
        yield 2, len(data) + rng.randrange(-1, 2), b''.join(bodies)
        for _ in range(3):
            at = rng.randrange(len(data))
            hurt = bytearray(data)
            hurt[at] = rng.randrange(256)
            yield 3, rng.randrange(1, len(bodies) + 1), bytes(hurt)


def answer(case):
    operation, argument, data = case
    if operation == 1:
        length = body_length(data, argument)
        return f'refused 14 {argument}\n' if length is None else f'length {length}\n'
    if operation == 2:
        buffer = bytearray(b'\xa5' * argument)
        made = make(data, argument)
        if isinstance(made, bytes):
            buffer[:len(made)] = made
        total = 0
        for x in buffer:
            total = (31 * total + x) % (1 << 32)
        return f'made {len(made)} {total}\n' if isinstance(made, bytes) else f'refused {made[0]} {made[1]} {total}\n'
    if operation == 3:
        return read(data, argument) + '\n'
    return listing(data)


def packed(cases):
    """The cases as day_cases reads them."""
    out, before = [], None
    for operation, argument, data in cases:
        same = data == before
        out.append(number(operation) + number(argument) + number(0xFFFFFFFF if same else len(data)) + (b'' if same else data))
        before = data
    return b''.join(out)


def files():
    """Every stored file and its bytes."""
    rng = random.Random(1)
    pool = [random_body(rng) for _ in range(900)]
    short = [b for b in pool if len(b) == 32]
    full = [rng.choice(short) for _ in range(MOST_RECORDS - 3)] + [b for b in pool if len(b) == 40][:3]
    cases = [*body_cases(), *make_cases(full), *read_cases(full), *list_cases(full), *random_cases(rng)]
    page = file_of([T13, T13])
    return {
        'day_cases/stdin': packed(cases),
        'day_cases/stdout': ''.join(map(answer, cases)).encode(),
        'list_day/stdin': page,
        'list_day/stdout': listing(page).encode(),
        'make_day/args': b'bodies\n',
        'make_day/data/bodies': T13 + T13,
        'make_day/stdout': page,
    }


stored.main(__doc__, lambda: {f'crates/{name}': data for name, data in files().items()})
