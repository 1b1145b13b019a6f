"""A unit over an image file: each operation of the flash is on the disk before the next one, as it is where the program has the file.

docs/IMAGE.md ('The file') tells how the file is made, held and read, which is the same here: a path never holds a part of an image, one process
at a time has it, and what a start-up reads is on the disk."""
from __future__ import annotations

import fcntl
import os
import stat
import weakref
from collections.abc import Callable
from typing import Any, Optional, Union

from natukeri.answers import ImageFault, ImageInUse, Turn, WrongImageSize
from natukeri.configuration import Configuration, UnitPath, configuration_of
from natukeri.unit import Unit

ERASED = b"\xff"


class ImageFile:
    """The file of an image of so many bytes, locked until it is closed; `image` has its bytes as they are on the disk.

    ImageInUse where another process has it, WrongImageSize where it has another size, and else ImageFault."""

    def __init__(self, path: Union[str, "os.PathLike[str]"], size: int, page: int):
        self.path, self._size, self._page = os.fspath(path), size, page
        self._file: Optional[int] = None
        try:
            self._open()
            self.image = self._settled()
        except BaseException:
            self.close()
            raise

    def close(self) -> None:
        """Gives the file back, also where it is closed already."""
        if self._file is not None:
            os.close(self._file)
            self._file = None

    def _asked(self, path: str, call: Callable[..., Any], *given: Any, **more: Any) -> Any:
        """A call of the system, whose failure names the path."""
        try:
            return call(*given, **more)
        except BlockingIOError:
            raise ImageInUse(f"{path}: another process has it, or makes it") from None
        except OSError as error:
            raise ImageFault(f"{path}: {error.strerror}") from None

    def _locked(self, path: str, flags: int) -> int:
        file: int = self._asked(path, os.open, path, os.O_RDWR | os.O_CLOEXEC | flags, 0o666)
        try:
            self._asked(path, fcntl.flock, file, fcntl.LOCK_EX | fcntl.LOCK_NB)
            held = self._asked(path, os.fstat, file)
            if not stat.S_ISREG(held.st_mode):
                raise ImageFault(f"{path} is no plain file")
            if not os.path.exists(path) or not os.path.samestat(held, self._asked(path, os.stat, path)):
                raise ImageInUse(f"{path}: another process has made it, or taken it away")
        except BaseException:
            os.close(file)
            raise
        return file

    def _open(self) -> None:
        if not os.path.lexists(self.path):
            self._make()
            return
        # (a link that leads to nothing is filled where it leads to)
        self._file = self._locked(self.path, 0 if os.path.exists(self.path) else os.O_CREAT)
        found = self._asked(self.path, os.fstat, self._file).st_size
        if found not in (0, self._size):
            raise WrongImageSize(f"{self.path} has {found} bytes, and the flash {self._size}")
        if not found:
            self._fill(self.path)

    def _make(self) -> None:
        """A blank image, which gets its name once it is whole."""
        beside = f"{self.path}.new"
        self._file = self._locked(beside, os.O_CREAT | os.O_NOFOLLOW)
        # (a part of a blank image is what a call leaves that was killed as it made one)
        left = self._asked(beside, os.fstat, self._file).st_size
        if left > self._size or self._asked(beside, os.pread, self._file, left, 0).strip(ERASED):
            raise ImageFault(f"{beside} is no image that was begun: move it away")
        if os.path.lexists(self.path):
            self._asked(beside, os.unlink, beside)
            raise ImageInUse(f"{self.path}: another process has made it")
        self._asked(beside, os.ftruncate, self._file, 0)
        self._fill(beside)
        self._asked(self.path, os.rename, beside, self.path)
        self._sync_folder()

    def _fill(self, path: str) -> None:
        self._write(path, ERASED * self._size, 0)

    def _write(self, path: str, data: bytes, at: int) -> None:
        """Writes bytes and syncs them."""
        while data:
            done = self._asked(path, os.pwrite, self._file, data, at)
            data, at = data[done:], at + done
        self._asked(path, os.fsync, self._file)

    def _read(self) -> bytes:
        found = b""
        while len(found) < self._size:
            part = self._asked(self.path, os.pread, self._file, self._size - len(found), len(found))
            if not part:
                raise ImageFault(f"{self.path}: it was cut while it was read")
            found += part
        return found

    def _settled(self) -> bytes:
        """The bytes of the file, once each is written again and synced: what is read is on the disk then, also behind a call that was killed."""
        found = self._read()
        self._write(self.path, found, 0)
        self._sync_folder()
        return found

    def _sync_folder(self) -> None:
        path = os.path.dirname(os.path.abspath(self.path))
        folder = self._asked(path, os.open, path, os.O_RDONLY | os.O_CLOEXEC)
        try:
            self._asked(path, os.fsync, folder)
        finally:
            os.close(folder)

    def store(self, image: bytes) -> None:
        """Writes what changed, from its first page to its last, in its place, and syncs it. ImageFault where that failed: then the file is given
        back, since nobody knows what of it is on the disk."""
        if image == self.image:
            return
        if self._file is None:
            raise ImageFault(f"{self.path} was given back")
        first, last = self._changed(image)
        try:
            self._write(self.path, image[first:last], first)
        except ImageFault:
            self.close()
            raise
        self.image = image

    def _changed(self, image: bytes) -> tuple[int, int]:
        """Where the pages begin and end that aren't as they are on the disk, first by many pages at once."""
        first, last = 0, self._size
        for step in (64 * self._page, self._page):
            places = [at for at in range(first, last, step) if image[at:at + step] != self.image[at:at + step]]
            first, last = places[0], min(places[-1] + step, self._size)
        return first, last


class StoredUnit(Unit):
    """A unit whose flash is an image file, which is made where it is absent. What a turn changed is on the disk when the turn is over, so what a
    job is posted with holds behind a crash of the machine too. Its turns raise ImageFault behind a write or a sync that failed."""

    def __init__(self, unit: Union[UnitPath, Configuration], path: Union[str, "os.PathLike[str]"], cuts: int = 1000, keeps_history: bool = True):
        config = configuration_of(unit)
        self._file = ImageFile(path, config.flash_size, config.page)
        try:
            super().__init__(config, self._file.image, cuts, keeps_history)
        except BaseException:
            self._file.close()
            raise
        # (the file is given back too where the unit isn't closed, but forgotten)
        weakref.finalize(self, self._file.close)

    def turn(self) -> Turn:
        turned = super().turn()
        self._file.store(self.image)
        return turned

    def close(self) -> bytes:
        image = super().close()
        self._file.close()
        return image
