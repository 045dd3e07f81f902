"""llinosfar make and list: day files from keys, and their listings."""
import subprocess
import tempfile

from desk import files, options, programs, running, streams
from desk.refusals import RULES
from desk.status import ENDED, Refused, Trouble, WrongUse

# The listing program takes files up to this many bytes.
MOST_LISTED = 65_536

NUMBER = 4


def make(words):
    """Makes a day file of the keys in the files that the words name."""
    given = options.parse('make', words, 'o:f')
    if not given.names:
        raise options.wrong('make', 'expected the names of keys')
    if given.names.count(files.STANDARD_INPUT) > 1:
        raise options.wrong('make', 'standard input is given twice')
    keys = [read_key(name) for name in given.names]
    day = given.value('-o') and files.Target(given.value('-o'), given.has('-f'), keys)
    if not day and streams.is_terminal(streams.OUT):
        raise WrongUse('make: a day file is not text: give it a file with -o DAY')
    ran = answer('make_day', b''.join(key.data for key in keys))
    if not ran.out:
        raise refusal(ran.error.decode('ascii', 'replace'), keys)
    hold_to_keys(ran.out, keys)
    if day:
        day.put(ran.out)
    else:
        streams.put(ran.out)
    if len(ran.out) > MOST_LISTED:
        name = files.shown(day.name) if day else 'this day file'
        streams.say(f'warning: {name} has {len(ran.out):,} bytes, and list takes at most {MOST_LISTED:,}')
    return ENDED


def read_key(name):
    """A file of keys, which has some bytes; standard input may have none."""
    key = files.read(name)
    if not key.data and name != files.STANDARD_INPUT:
        raise Trouble(f'{files.shown(name)}: it is empty, and has no key')
    return key


def answer(program, data):
    """What a proved program gives for bytes on its standard input."""
    try:
        with tempfile.TemporaryFile() as file:
            file.write(data)
            file.seek(0)
            ran = running.run(programs.proved(program), programs.environment(), stdin=file)
    except OSError as error:
        raise Trouble(f'temporary files: {error.strerror or error}') from error
    if ran.status != 0:
        raise Trouble(f'{program} {ran.ending()}')
    if ran.error and not ran.error.startswith(b'refused '):
        raise Trouble(f'{program}: {ran.error.decode("utf-8", "replace").strip()}')
    return ran


def refusal(said, keys):
    """What make_day said of the keys, in words: which rule, and where it has a place, in which file and at which byte."""
    words = said.split()
    if len(words) != 4 or words[0] != 'refused':
        return Trouble(said.strip() or 'make_day gave no day file')
    number, place = int(words[1]), int(words[3])
    if number == 14:
        key, at = file_at(keys, place)
        return Refused(f'refused 14: {files.shown(key.name)}: no whole key begins at byte {at}')
    return Refused(f'refused {number}: {RULES[number]}')


def file_at(keys, place):
    """The file that has a place among the bytes of all, and the byte in it."""
    for key in keys:
        if place < len(key.data):
            return key, place
        place -= len(key.data)
    return keys[-1], len(keys[-1].data)


def hold_to_keys(day, keys):
    """Trouble where a file of keys doesn't begin where a record does: the file before it ends inside a key."""
    count = number_at(day, 0)
    offsets = [number_at(day, NUMBER + 2 * NUMBER * k) for k in range(count)]
    starts = set(offsets) | {len(day)}
    at = NUMBER + 2 * NUMBER * count
    for key, after in zip(keys, keys[1:]):
        at += len(key.data)
        if at not in starts:
            raise Trouble(f'{files.shown(key.name)}: it ends inside a key, which goes on in {files.shown(after.name)}')


def number_at(data, at):
    """The number of four bytes at a place."""
    return int.from_bytes(data[at:at + NUMBER], 'little')


def list_day(words):
    """Lists the day file that the words name."""
    name = options.parse('list', words).only('a day file')
    day = files.read(name, MOST_LISTED + 1)
    listing = answer('list_day', day.data).out
    if not listing.endswith(b'\n'):
        raise Trouble('list_day gave no whole listing')
    streams.put(listing)
    first, second, *_ = listing.decode('ascii', 'replace').split()
    if first == 'refused':
        raise Refused(f'{files.shown(name)}: no day file: {RULES[int(second)]}')
    if (first, second) == ('too', 'long'):
        raise Refused(f'{files.shown(name)}: it has more than {MOST_LISTED:,} bytes, the most that list takes')
    return ENDED
