"""The three standard streams: one write for one answer, and no surprise where a stream is closed."""
import errno
import os
import select

from desk.status import Trouble

IN, OUT, ERROR = 0, 1, 2

_closed = set()


def settle():
    """Puts the empty device where a standard stream is closed, so that no file that is opened later takes its number."""
    for fd in (IN, OUT, ERROR):
        try:
            os.fstat(fd)
        except OSError:
            _closed.add(fd)
            null = os.open(os.devnull, os.O_RDWR)
            if null != fd:
                os.dup2(null, fd)
                os.close(null)


def is_closed(fd):
    """Whether a standard stream was closed when the program began."""
    return fd in _closed


def is_terminal(fd):
    """Whether a standard stream is a terminal."""
    return fd not in _closed and os.isatty(fd)


def put(data, quiet=False):
    """Writes bytes to standard output, in one write where the system takes them so.

    What can't be written is Trouble. Where `quiet`, a reader that has stopped reading is Trouble with no line.
    """
    try:
        if OUT in _closed:
            raise OSError(errno.EBADF, os.strerror(errno.EBADF))
        write_all(OUT, data)
        os.close(os.dup(OUT))
    except BrokenPipeError as error:
        raise Trouble('' if quiet else f'standard output: {error.strerror}') from error
    except OSError as error:
        raise Trouble(f'standard output: {error.strerror}') from error


def write_all(fd, data):
    """Writes all bytes to a file, going on after short writes; where the file makes writers wait, it waits."""
    left = memoryview(data)
    while left:
        try:
            left = left[os.write(fd, left):]
        except BlockingIOError:
            select.select([], [fd], [])


def say(line):
    """A line on standard error, with the program's name; nothing where the line is empty or can't be written."""
    if line:
        show(f'llinosfar: {line}\n')


def show(text):
    """Text on standard error as it is, in one write; nothing where it can't be written."""
    try:
        write_all(ERROR, text.encode('utf-8', 'surrogateescape'))
    except OSError:
        pass
