"""Where a script switches banks, by the bytes of the flash behind its operations: docs/IMAGE.md, 'The banks'."""
import functools
import os
from collections import namedtuple

from nvmtools import calls, histories, images, steps

# of more switches none is looked for, nor in a longer history: each takes some runs of the script
MOST, MOST_ENTRIES = 20, 5_000
# more than a page has: an operation is done whole before the power goes off behind it
WHOLE = 256

# the flash behind an operation: the generation of the active bank, and by bank a number of its bytes, and whether it is blank
Behind = namedtuple("Behind", "generation bytes blank")
# a switch: the bank, its generation, the operations of the first and the last erase, and the one from which on it counts
Switch = namedtuple("Switch", "bank generation first erased sealed")


class Flash:
    """The flash behind each of its operations in a script: the script is played again up to there, and cut off. Operations of a second
    device's flash aren't counted, and own has the place of each other one among all."""

    def __init__(self, unit, entries, own, folder):
        self.unit, self.path, self.own, self.second = unit, f"{folder}/behind", own, calls.second_in_memory(unit)
        self.starts = [entry.ops for entry in entries if entry.kind == "found"]
        places = [place for place, line in enumerate(unit.script) if line == "restart"]
        self.lives = list(zip([0, *(place + 1 for place in places)], [*places, len(unit.script)]))
        self.at = functools.lru_cache(None)(self.behind)

    def behind(self, operation):
        image = self.image(operation) if operation else images.Image(self.unit, b"\xff" * self.unit.size)
        banks = range(self.unit.banks)
        return Behind(max((it.generation for it in image.banks if it), default=0),
                      [hash(image.pages(bank, 0, self.unit.bank_pages)) for bank in banks],
                      [image.is_blank(bank, 0, self.unit.bank_pages) for bank in banks])

    def image(self, operation):
        life = max(number for number, ops in enumerate(self.starts) if ops < self.own[operation - 1])
        first, last = self.lives[life]
        steps_then = [line for line in self.unit.script[first:last] if not steps.is_cut(line)]
        cut = f"cut {sum(self.starts[life] < it for it in self.own[:operation])} {WHOLE}"
        calls.play_well([self.unit.line, *self.unit.script[:first], cut, *steps_then], self.path, self.second)
        image = images.read_image(self.path, self.unit)
        os.unlink(self.path)
        return image


def first_operation(low, high, holds):
    """The first operation behind low, up to high, from which on something holds."""
    while high - low > 1:
        middle = (low + high) // 2
        low, high = (low, middle) if holds(middle) else (middle, high)
    return high


def switches_of(unit, entries, count):
    """The switches of a script, so many of them, whose history these entries are; none where more would be looked for than are."""
    if count > MOST or len(entries) > MOST_ENTRIES:
        return []
    own = histories.operations_of(unit, entries)[0]
    total, found, sealed = len(own), [], 0
    with calls.scratch() as folder:
        flash = Flash(unit, entries, own, folder)
        for generation in range(1, count + 1):
            before, bank = sealed, (generation - 1) % unit.banks
            sealed = first_operation(before, total, lambda it: flash.at(it).generation >= generation)
            kept = flash.at(before)
            changed = first_operation(before, sealed, lambda it: flash.at(it).bytes[bank] != kept.bytes[bank])
            erases = unit.sectors // unit.banks
            # (an erase of a blank bank changes nothing, and what is changed first then is the page behind the erases)
            first = changed - erases if kept.blank[bank] else changed
            found.append(Switch(bank, generation, *(own[it - 1] for it in (first, first + erases - 1, sealed))))
    return found
