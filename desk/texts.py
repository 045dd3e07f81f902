"""llinosfar show and pack: captures as readable text and back, by the second program."""
import os
import re
import tempfile

from desk import capture, files, options, programs, running, streams
from desk.status import ENDED, Refused, Trouble, WrongUse


def show(words):
    """Prints the capture that the words name as text."""
    read = files.read(options.parse('show', words).only('a capture'), capture.MOST_BYTES)
    with folder() as room:
        ran = second('show', read, room)
    streams.put(ran.out, quiet=True)
    return ENDED


def pack(words):
    """Packs the text that the words name into a capture."""
    given = options.parse('pack', words, 'o:f')
    read = files.read(given.only('a text (CAPTURE is given by -o)'))
    out = given.value('-o') and files.Target(given.value('-o'), given.has('-f'), [read])
    if not out and streams.is_terminal(streams.OUT):
        raise WrongUse('pack: a capture is not text: give it a file with -o CAPTURE')
    with folder() as room:
        packed = os.path.join(room, 'packed')
        ran = second('pack', read, room, packed)
        streams.show(in_names(ran, read, room))
        with open(packed, 'rb') as file:
            data = file.read()
    if out:
        out.put(data)
    else:
        streams.put(data)
    return ENDED


class folder(tempfile.TemporaryDirectory):
    """A folder for the files of one call, which goes when it is done."""

    def __init__(self):
        try:
            super().__init__(prefix='llinosfar-')
        except OSError as error:
            raise Trouble(f'temporary files: {error.strerror or error}') from error


def second(command, read, room, *more):
    """What the second program gives for a copy of a file; Trouble in its words where it fails."""
    given = os.path.join(room, 'given')
    try:
        with open(given, 'wb') as file:
            file.write(read.data)
    except OSError as error:
        raise Trouble(f'temporary files: {error.strerror}') from error
    ran = running.run(programs.second(command, given, *more))
    if ran.status != 0:
        said = in_names(ran, read, room).removeprefix('llinosfar: ').rstrip('\n')
        refused = re.search(r'\brefused \d+ at place \d+', said)
        raise (Refused if refused else Trouble)(said or f'the second program {ran.ending()}')
    return ran


def in_names(ran, read, room):
    """What the second program said, with the name that the user gave for the file, and the front's own."""
    text = ran.error.decode('utf-8', 'replace').replace(os.path.join(room, 'given'), files.shown(read.name))
    return ''.join(f'llinosfar: {line.removeprefix("second: ")}\n' for line in text.splitlines())
