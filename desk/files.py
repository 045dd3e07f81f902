"""Files that are read, and files that are written whole or not at all.

A file that is read is evidence: none that is written may take its place. A file is written under a name of its own in the folder of its
place, synced, and then put there in one move.
"""
import os
import stat
import tempfile

from desk import streams
from desk.status import Trouble, WrongUse

STANDARD_INPUT = '-'


def shown(name):
    """A file's name as it is printed: on one line, whatever bytes it has."""
    if name == STANDARD_INPUT:
        return 'standard input'
    return name if name.isprintable() else ascii(name)


def trouble(name, error):
    """Trouble with a file, from what the system said."""
    return Trouble(f'{shown(name)}: {error.strerror or error}')


class Read:
    """A file that was read: its name, its bytes, and which file it is."""

    def __init__(self, name, data, identity):
        self.name = name
        self.data = data
        self.identity = identity


def read(name, most=None):
    """Reads a file, or standard input for `-`: the whole of it, or its first `most` bytes."""
    try:
        if name == STANDARD_INPUT:
            if streams.is_closed(streams.IN):
                raise Trouble('standard input: it is closed')
            file = open(streams.IN, 'rb', closefd=False)
        else:
            file = open(name, 'rb')
        with file:
            data = file.read() if most is None else file.read(most)
            return Read(name, data, identity(os.fstat(file.fileno())))
    except ValueError as error:
        raise Trouble(f'{shown(name)}: {error}') from error
    except OSError as error:
        raise trouble(name, error) from error


def identity(status):
    """Which file a status is of, whatever its name."""
    return status.st_dev, status.st_ino


class Target:
    """A file to write. Where `force`, a regular file that stands there already is replaced, and its mode kept."""

    def __init__(self, name, force, evidence):
        self.name = name
        self.force = force
        self.evidence = {file.identity for file in evidence}
        self.own = None  # what was put there last, kept open, so that no other file gets its number
        self.check()
        self.probe()

    def there(self):
        """The status of what stands at the name now; None where nothing does."""
        try:
            return os.lstat(self.name)
        except FileNotFoundError:
            return None
        except (OSError, ValueError) as error:
            raise self.trouble(error) from error

    def check(self):
        """Trouble where what stands at the name may not be replaced."""
        found = self.there()
        if found is None or self.own is not None and identity(found) == identity(os.fstat(self.own)):
            return
        if identity(found) in self.evidence:
            raise Trouble(f'{shown(self.name)}: this is the file that is read, and it is never written')
        if not stat.S_ISREG(found.st_mode):
            raise Trouble(f'{shown(self.name)}: it exists and is no regular file')
        if not self.force:
            raise Trouble(f'{shown(self.name)}: it exists (-f replaces it)')

    def probe(self):
        """Trouble where no file can be made beside the name, before any time is spent."""
        try:
            fd, beside = self.beside()
            os.close(fd)
            os.unlink(beside)
        except OSError as error:
            raise self.trouble(error) from error

    def beside(self):
        """A new file of its own in the folder of the name: open for writing, and its path."""
        return tempfile.mkstemp(prefix='.llinosfar-', dir=folder_of(self.name))

    def put(self, data):
        """Makes the file one of these bytes, whole and on the disk, or leaves what stands there as it is."""
        try:
            fd, beside = self.beside()
            done_with = fd
            try:
                streams.write_all(fd, data)
                self.adopt(fd)
                os.fsync(fd)
                self.move(beside)
                done_with, self.own = self.own, fd
            finally:
                discard(beside)
                if done_with is not None:
                    os.close(done_with)
            sync_folder(self.name)
        except OSError as error:
            raise self.trouble(error) from error

    def adopt(self, fd):
        """Gives the new file the owner and mode of the one that it replaces, or those of a new file."""
        found = self.there()
        if found is None:
            os.fchmod(fd, 0o666 & ~current_umask())
            return
        if (found.st_uid, found.st_gid) != (os.geteuid(), os.getegid()) and os.geteuid() == 0:
            os.fchown(fd, found.st_uid, found.st_gid)
        os.fchmod(fd, stat.S_IMODE(found.st_mode))

    def move(self, beside):
        """Moves the new file to its name: in place of what may be replaced, or where nothing stands."""
        self.check()
        if self.force or self.own is not None:
            os.rename(beside, self.name)
        else:
            link(beside, self.name)

    def drop(self, why):
        """Removes an earlier file that this run was told to replace and gives nothing for, and says so."""
        if not self.force or self.there() is None:
            return
        self.check()
        try:
            os.unlink(self.name)
            sync_folder(self.name)
        except OSError as error:
            raise self.trouble(error) from error
        streams.say(f'{shown(self.name)}: removed: {why}')

    def trouble(self, error):
        """Trouble with this file, under the name that the user gave."""
        return Trouble(f'{shown(self.name)}: {getattr(error, "strerror", None) or error}')


def folder_of(name):
    """The folder that a name stands in."""
    return os.path.dirname(name) or '.'


def current_umask():
    """The mode bits that new files don't get."""
    mask = os.umask(0)
    os.umask(mask)
    return mask


def link(beside, name):
    """Moves a file to a name where nothing may stand; on a file system without links, where nothing does stand."""
    try:
        os.link(beside, name)
    except FileExistsError:
        raise
    except OSError:
        if os.path.lexists(name):
            raise
        os.rename(beside, name)


def discard(path):
    """Removes a file of our own, where it is still there."""
    try:
        os.unlink(path)
    except FileNotFoundError:
        pass


def sync_folder(name):
    """Makes a move in a name's folder last, where the file system can."""
    fd = os.open(folder_of(name), os.O_RDONLY)
    try:
        os.fsync(fd)
    except OSError:
        pass
    finally:
        os.close(fd)


def apart(*targets):
    """WrongUse where two of the files to write are one and the same; None among them is passed over."""
    seen = {}
    for target in filter(None, targets):
        found = target.there()
        place = os.path.join(os.path.realpath(folder_of(target.name)), os.path.basename(target.name))
        for mark in (place, found and identity(found)):
            if mark and mark in seen:
                raise WrongUse(f'{shown(target.name)}: it is given for two files')
            seen[mark] = target
