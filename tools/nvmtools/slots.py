"""The bytes of a second device's image, read as docs/IMAGE.md says: the two slots of each instance, what a start-up finds, and whether
the image is sound."""
from collections import namedtuple

from nvmtools.calls import Stop, read_file
from nvmtools.images import CONTENT, ERASED, INVALID

LETTER = 0x45
# where the head's own bytes end, and behind them their complements
SAID, HEAD_END = 8, 16
# the sectors of an instance
SECTORS = 4

# what a slot says where it stands, and what its pages look like else
Slot = namedtuple("Slot", "kind length count content")


class SlotImage:
    """An image of a unit's second device. A slot that doesn't stand is None."""

    def __init__(self, unit, data):
        self.unit, self.shape, self.data, self.lengths = unit, unit.second, data, unit.lengths(is_first=False)
        self.numbers = sorted(self.lengths)
        self.slots = {number: [self.read_slot(number, slot) for slot in (0, 1)] for number in self.numbers}
        # the slot that counts: of the greater sequence, on a tie slot 0
        self.holds = {number: max((it for it in (0, 1) if slots[it]), key=lambda it: (slots[it].count, -it), default=None)
                      for number, slots in self.slots.items()}
        held = {number: self.slots[number][slot] for number, slot in self.holds.items() if slot is not None}
        self.found = {number: it for number, it in held.items() if it.kind != ERASED}

    def sector(self, number, slot, part):
        """The number of a slot's sector: of its head, or of its body where the part is 1."""
        return SECTORS * self.numbers.index(number) + 2 * slot + part

    def page(self, number, slot, part, page=0):
        start = self.sector(number, slot, part) * self.shape.sector + page * self.shape.page
        return self.data[start:start + self.shape.page]

    def read_slot(self, number, slot):
        head = self.page(number, slot, 0)
        kind, length = head[1], int.from_bytes(head[2:4], "big")
        if any(self.page(number, slot, 0, 1)) or not is_head(head) or kind == CONTENT and length != self.lengths[number]:
            return None
        start = self.sector(number, slot, 1) * self.shape.sector
        return Slot(kind, length, int.from_bytes(head[4:SAID], "big"), self.data[start:start + length])

    def is_blank(self, number, slot):
        start = self.sector(number, slot, 0) * self.shape.sector
        return not self.data[start:start + 2 * self.shape.sector].strip(b"\xff")

    def is_sound(self):
        """Whether no torn erase can make a slot stand: 'The second image'."""
        return not any(not any(self.page(number, slot, 0, 1)) and not is_head(self.page(number, slot, 0))
                       and may_become_head(self.page(number, slot, 0)) for number in self.numbers for slot in (0, 1))


def is_head(page):
    """Whether a page is the head of a slot, of any length."""
    kind, length = page[1], int.from_bytes(page[2:4], "big")
    return (page[0] == LETTER and kind in (CONTENT, INVALID, ERASED) and (kind == CONTENT) == (length > 0)
            and all(page[SAID + place] == 0xff - page[place] for place in range(SAID)) and not page[HEAD_END:].strip(b"\xff"))


def may_become_head(page):
    """Whether some head of a slot has ones wherever the page has."""
    def fits(byte, place):
        return not (page[place] & ~byte or page[SAID + place] & byte)

    is_free = not any(page[place] & page[SAID + place] for place in range(2, SAID))
    # (a length may be greater than the page's, where its complement leaves room for that)
    may_have_length = any(page[SAID + place] != 0xff for place in (2, 3))
    return fits(LETTER, 0) and is_free and (fits(CONTENT, 1) and may_have_length
                                            or any(fits(kind, 1) for kind in (INVALID, ERASED)) and all(fits(0, place) for place in (2, 3)))


def read_second(path, unit):
    """The image of a unit's second device."""
    if not unit.second:
        raise Stop(f'{unit.path} has no second device ("eeprom"), so {path} is none of its images')
    data = read_file(path)
    if len(data) != unit.second.size:
        raise Stop(f"{path} has {len(data)} bytes, and the flash of the second device of {unit.path} has {unit.second.size}: "
                   f"{unit.second.sectors} sectors of {unit.second.sector}")
    return SlotImage(unit, data)
