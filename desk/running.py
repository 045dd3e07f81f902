"""Running another program to its end, and stopping it where a signal asks for that."""
import contextlib
import os
import selectors
import signal
import subprocess

from desk.status import Stopped, Trouble

SIGNALS = (signal.SIGINT, signal.SIGTERM, signal.SIGHUP)


class Ran:
    """What a program gave: its exit status (negative: the signal that ended it), and the bytes of its two outputs."""

    def __init__(self, status, out, error):
        self.status = status
        self.out = out
        self.error = error

    def ending(self):
        """How the program ended, in words."""
        return f'ended by signal {-self.status}' if self.status < 0 else f'ended with status {self.status}'


def listen():
    """Has the signals that ask for a stop raise Stopped, but for those that are ignored."""
    def stop(number, frame):
        raise Stopped(number)
    for number in SIGNALS:
        if signal.getsignal(number) is not signal.SIG_IGN:
            signal.signal(number, stop)


@contextlib.contextmanager
def undisturbed():
    """Has the signals that ask for a stop wait until what is done here is done."""
    earlier = signal.pthread_sigmask(signal.SIG_BLOCK, SIGNALS)
    try:
        yield
    finally:
        signal.pthread_sigmask(signal.SIG_SETMASK, earlier)


def end_by(number):
    """Ends this process by the signal that stopped it, so that a shell sees what happened."""
    signal.signal(number, signal.SIG_DFL)
    os.kill(os.getpid(), number)


def become(words, env):
    """Becomes another program, with the streams and the broken pipes that it would have had without this one."""
    signal.signal(signal.SIGPIPE, signal.SIG_DFL)
    try:
        os.execve(words[0], words, env)
    except OSError as error:
        raise Trouble(f'{words[0]}: {error.strerror}') from error


@contextlib.contextmanager
def started(words, **streams):
    """Starts a program in a session of its own, so that the terminal's signals reach this process alone. It is ended when this is left.

    No signal can come between its start and the care for its end; it starts with those signals open that this process had open.
    """
    earlier = signal.pthread_sigmask(signal.SIG_BLOCK, SIGNALS)
    process = None
    try:
        process = subprocess.Popen(words, start_new_session=True, preexec_fn=lambda: signal.pthread_sigmask(signal.SIG_SETMASK, earlier), **streams)
        signal.pthread_sigmask(signal.SIG_SETMASK, earlier)
        yield process
    except OSError as error:
        if process:
            raise
        raise Trouble(f'{words[0]}: {error.strerror}') from error
    finally:
        if process:
            end(process)
        signal.pthread_sigmask(signal.SIG_SETMASK, earlier)


def end(process):
    """Ends a program that was started here and still runs, with all that it started."""
    if process.poll() is None:
        os.killpg(process.pid, signal.SIGKILL)
        process.wait()


def run(words, env=None, stdin=subprocess.DEVNULL, told=None, cwd=None):
    """Runs a program to its end, in the folder `cwd` where one is given.

    `told` gets each line of its standard error as it comes, and says whether it is kept.
    """
    with started(words, env=env, stdin=stdin, cwd=cwd, stdout=subprocess.PIPE, stderr=subprocess.PIPE) as process, process.stdout, process.stderr:
        out, error = collect(process, told or (lambda line: True))
        return Ran(process.wait(), out, error)


def collect(process, told):
    """Both outputs of a program to their ends; the second without the lines that `told` took."""
    out, lines, rest = [], [], b''
    with selectors.DefaultSelector() as ready:
        for stream in (process.stdout, process.stderr):
            ready.register(stream, selectors.EVENT_READ)
        while ready.get_map():
            for key, _ in ready.select():
                data = os.read(key.fd, 1 << 16)
                if not data:
                    ready.unregister(key.fileobj)
                elif key.fileobj is process.stdout:
                    out.append(data)
                else:
                    *whole, rest = (rest + data).split(b'\n')
                    lines += [line + b'\n' for line in whole if told(line)]
    return b''.join(out), b''.join(lines) + rest
