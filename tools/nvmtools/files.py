"""The files that tools read and write: no more is read than there can be, and a plain file alone is replaced."""
import contextlib
import os
import stat
import sys
import tempfile

from nvmtools.tool import NO_INPUT, Stop

# the program takes no longer input, and no image is longer
MOST = 16_777_216


def read_file(path, most=MOST):
    """The bytes of a file, or of standard input where the path is '-'."""
    if path == "-" and sys.stdin is None:
        raise Stop("standard input is closed", NO_INPUT)
    try:
        with contextlib.nullcontext(sys.stdin.buffer) if path == "-" else open(path, "rb") as file:
            data = file.read(most + 1)
    except OSError as error:
        raise Stop(f"{path}: {error.strerror}") from None
    except ValueError as error:
        raise Stop(f"{path}: {error}") from None
    if len(data) > most:
        raise Stop(f"{path}: it has more than {most:,} bytes")
    return data


def read_text(path, most=MOST):
    try:
        text = read_file(path, most).decode()
    except UnicodeDecodeError as error:
        raise Stop(f"{path}: byte {error.start} isn't UTF-8") from None
    if text.startswith("\ufeff"):
        raise Stop(f"{path}:1:1: it begins with a byte order mark, which the program doesn't read: store it as UTF-8 without one")
    return text


def stop_unless_plain(path):
    """Ends where what has a path isn't a plain file."""
    if not path or os.path.lexists(path) and not stat.S_ISREG(os.lstat(path).st_mode):
        raise Stop(f"{path or 'an empty name'} is no plain file, which alone is replaced: move it, or give what a link leads to")


@contextlib.contextmanager
def in_place_of(path):
    """A new file beside a path, which gets its name where nothing stops, and is gone else."""
    with in_places_of([path]) as [beside], told_of(path):
        yield beside


@contextlib.contextmanager
def in_places_of(paths):
    """New files beside some paths, which get their names one behind the other once all are whole, and are gone else."""
    made = []
    try:
        for path in paths:
            stop_unless_plain(path)
            with told_of(path):
                handle, beside = tempfile.mkstemp(prefix=f".{os.path.basename(path)}.", dir=folder_of(path))
            made.append(beside)
            os.close(handle)
        yield made
        mask = os.umask(0)
        os.umask(mask)
        for path, beside in zip(paths, made):
            with told_of(path):
                os.chmod(beside, 0o666 & ~mask)
                sync(beside)
        for path, beside in zip(paths, made):
            with told_of(path):
                os.rename(beside, path)
                sync(folder_of(path))
    finally:
        for beside in filter(os.path.exists, made):
            os.unlink(beside)


@contextlib.contextmanager
def told_of(path):
    """Tells what the system refuses of a path."""
    try:
        yield
    except OSError as error:
        raise Stop(f"{path}: {error.strerror}") from None


def folder_of(path):
    return os.path.dirname(os.path.abspath(path))


def sync(path):
    file = os.open(path, os.O_RDONLY)
    try:
        os.fsync(file)
    finally:
        os.close(file)


def scratch():
    """A folder that is gone behind its use, in memory where there is such a file system."""
    return tempfile.TemporaryDirectory(prefix="nvm-", dir="/dev/shm" if os.path.isdir("/dev/shm") else None)
