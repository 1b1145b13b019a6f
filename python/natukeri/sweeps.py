"""Power cuts at each operation of what a function does with a unit."""
from __future__ import annotations

from collections.abc import Callable, Iterable, Iterator
from contextlib import suppress
from dataclasses import dataclass
from typing import Optional, Union

from natukeri.answers import PowerOff, UnitError
from natukeri.configuration import Configuration, UnitPath, configuration_of
from natukeri.unit import Unit

# what is cut: it makes requests of a unit, the same at each call, and leaves PowerOff to its caller
Drive = Callable[[Unit], object]
# how many bytes of an operation are done: "some" is none, half of a page, all but one byte and all of it, "each" every count; or a list
Keep = Union[str, Iterable[int]]
AnyUnit = Union[UnitPath, Configuration]


@dataclass(frozen=True, order=True)
class Cut:
    """A power cut in the nth changing operation of the flash, with so many bytes of it done."""
    nth: int
    keep: int

    def __str__(self) -> str:
        return f"operation {self.nth}, {self.keep} bytes"


def image_behind(unit: AnyUnit, before: Drive) -> bytes:
    """The image that a function leaves of a unit whose flash was blank."""
    with Unit(unit) as it:
        before(it)
        return it.image


def operations_of(unit: AnyUnit, drive: Drive, image: Optional[bytes] = None) -> int:
    """How many changing operations of the flash a function makes, over an image or a blank flash: a cut in the next one doesn't come. It
    is called twice for each power of two up to their number."""
    config, most = configuration_of(unit), 1
    while _is_cut(config, drive, most, image):
        most *= 2
    least = most // 2
    while least + 1 < most:
        middle = (least + most) // 2
        least, most = (middle, most) if _is_cut(config, drive, middle, image) else (least, middle)
    return least


def _is_cut(config: Configuration, drive: Drive, nth: int, image: Optional[bytes]) -> bool:
    with Unit(config, image) as it:
        it.cut(nth)
        with suppress(PowerOff):
            drive(it)
        return it.is_off


def keeps_of(page: int, keep: Keep = "some") -> list[int]:
    """How many bytes of an operation are done, of a flash with pages of so many bytes."""
    if isinstance(keep, str):
        kept = {"some": [0, page // 2, page - 1, page], "each": list(range(page + 1))}.get(keep, [])
    else:
        kept = list(keep)
    if not kept or not all(isinstance(it, int) and 0 <= it <= page for it in kept):
        raise ValueError(f'keep is "some", "each", or numbers of 0 to {page}: {keep!r} isn\'t')
    return kept


def cuts_of(unit: AnyUnit, drive: Drive, image: Optional[bytes] = None, keep: Keep = "some") -> list[Cut]:
    """Each power cut of what a function does; ValueError where it changes nothing in the flash."""
    config = configuration_of(unit)
    kept, count = keeps_of(config.page, keep), operations_of(config, drive, image)
    if not count:
        raise ValueError(f"{getattr(drive, '__name__', drive)} makes no operation of the flash, so no power cut comes")
    return [Cut(nth, it) for nth in range(1, count + 1) for it in kept]


def behind_cut(unit: AnyUnit, drive: Drive, cut: Cut, image: Optional[bytes] = None) -> Unit:
    """A unit in which a function was cut, behind the next start-up."""
    it = Unit(unit, image)
    it.cut(cut.nth, cut.keep)
    with suppress(PowerOff):
        drive(it)
    if not it.is_off:
        raise UnitError(f"no power cut came at {cut}: what is cut makes other operations than at first, or restarts by itself")
    it.restart()
    return it


def sweep(unit: AnyUnit, drive: Drive, image: Optional[bytes] = None, keep: Keep = "some") -> Iterator[tuple[Cut, Unit]]:
    """Each power cut of what a function does, with the unit behind it and the next start-up."""
    config = configuration_of(unit)
    for cut in cuts_of(config, drive, image, keep):
        with behind_cut(config, drive, cut, image) as it:
            yield cut, it
