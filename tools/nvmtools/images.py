"""The bytes of an image, read as docs/IMAGE.md says: banks, records, what a start-up finds, and whether the image is sound."""
from collections import namedtuple

from nvmtools.calls import Stop, read_file
from nvmtools.contents import print_content

CONTENT, INVALID, ERASED = 1, 2, 3
HEAD_LETTER, RECORD_LETTER = 0x42, 0x52
FORMATS = (1, 2)
# where the fields of a record's header end, by format; the rest of its page is blank
HEADER_END = {1: 6, 2: 10}
HEAD_END = 12

Record = namedtuple("Record", "page pages number kind length count committed content")
Bank = namedtuple("Bank", "format generation records end tail_is_used")


class Image:
    """An image of a unit. A bank that doesn't stand is None."""

    def __init__(self, unit, data):
        self.unit, self.data, self.lengths = unit, data, unit.lengths()
        self.banks = [self.read_bank(bank) for bank in range(unit.banks)]
        standing = [bank for bank in range(unit.banks) if self.banks[bank]]
        self.active = max(standing, key=lambda bank: (self.banks[bank].generation, -bank), default=None)
        self.found = self.read_found()

    def pages(self, bank, page, count=1):
        start = (bank * self.unit.bank_pages + page) * self.unit.page
        return self.data[start:start + count * self.unit.page]

    def is_gate(self, bank, page):
        return not any(self.pages(bank, page))

    def is_blank(self, bank, page, count=1):
        return not self.pages(bank, page, count).strip(b"\xff")

    def read_bank(self, bank):
        head = self.pages(bank, 0)
        if not (head[0] == HEAD_LETTER and head[1] in FORMATS and all(head[6 + i] == 0xff - head[i] for i in range(6))
                and set(head[HEAD_END:]) <= {0xff} and self.is_gate(bank, 1)):
            return None
        records = self.walk(bank, head[1])
        page = records[-1].page + records[-1].pages if records else 2
        used = not self.is_blank(bank, page, self.unit.bank_pages - page)
        return Bank(head[1], int.from_bytes(head[2:6], "big"), records, page, used)

    def walk(self, bank, form):
        """The records of a bank of a format, whether it stands or not."""
        records, page = [], 2
        while record := self.read_record(bank, page, form):
            records.append(record)
            page += record.pages
        return records

    def read_record(self, bank, page, form):
        """The record whose header is on a page, or None where the log ends there."""
        if page + 3 > self.unit.bank_pages or not self.is_gate(bank, page + 1):
            return None
        head = self.pages(bank, page)
        kind, number, length = head[1], int.from_bytes(head[2:4], "big"), int.from_bytes(head[4:6], "big")
        pages = self.unit.record_pages(length)
        if not (head[0] == RECORD_LETTER and kind in (CONTENT, INVALID, ERASED) and number not in (0, 0xffff)
                and (kind == CONTENT) == (length > 0)
                and set(head[HEADER_END[form]:]) <= {0xff} and page + pages <= self.unit.bank_pages):
            return None
        count = int.from_bytes(head[6:10], "big") if form == 2 else 0
        return Record(page, pages, number, kind, length, count, self.is_gate(bank, page + pages - 1),
                      self.pages(bank, page + 2, pages - 3)[:length])

    def is_closed(self, bank):
        """Whether nothing is appended to a bank any more."""
        return self.banks[bank].tail_is_used or self.banks[bank].format == 1

    def free_pages(self, bank):
        return 0 if self.is_closed(bank) else self.unit.bank_pages - self.banks[bank].end

    def fits(self, record):
        """Whether a record is of an instance of the unit, with its length."""
        length = self.lengths.get(record.number)
        return length is not None and (record.kind != CONTENT or record.length == length)

    def read_found(self):
        """By device number the record that a start-up finds, the last committed one that fits, of what isn't Erased."""
        records = self.banks[self.active].records if self.active is not None else []
        last = {record.number: record for record in records if record.committed and self.fits(record)}
        return {number: last[number] for number in sorted(last) if last[number].kind != ERASED}

    def is_sound(self):
        """Whether no torn erase can make a bank stand: 'Torn erases, and sound images'."""
        return not any(self.is_gate(bank, 1) and not self.banks[bank] and may_become_head(self.pages(bank, 0))
                       for bank in range(self.unit.banks))


def may_become_head(page):
    """Whether some bank head has ones wherever the page has."""
    def fits(byte, place):
        return not (page[place] & ~byte or page[6 + place] & byte)
    return (fits(HEAD_LETTER, 0) and any(fits(form, 1) for form in FORMATS)
            and not any(page[place] & page[6 + place] for place in range(2, 6)))


def read_image(path, unit):
    data = read_file(path)
    if len(data) != unit.size:
        raise Stop(f"{path} has {len(data)} bytes, and a flash of {unit.path} has {unit.size}: "
                   f"{unit.sectors} sectors of {unit.sector}")
    image = Image(unit, data)
    other = other_page_size(unit, data) if image.active is None else None
    if other:
        raise Stop(f"{path} has pages of {other} bytes, and {unit.path} has pages of {unit.page}: no bank stands with these")
    return image


def other_page_size(unit, data):
    """The size of a page with which the first bank that has a head stands."""
    for bank in range(unit.banks):
        start = bank * len(data) // unit.banks
        head = data[start:start + HEAD_END]
        if head[0] == HEAD_LETTER and all(head[6 + i] == 0xff - head[i] for i in range(6)):
            for size in (16, 32, 64, 128, 256):
                behind = data[start + size:start + 2 * size]
                if size != unit.page and set(data[start + HEAD_END:start + size]) <= {0xff} and not any(behind):
                    return size
    return None


def mark_of(record):
    """A mark in words: a content as the program prints it, invalid, or erased."""
    if record is None or record.kind == ERASED:
        return "erased"
    return print_content(record.content) if record.kind == CONTENT else "invalid"


def values(unit, found):
    """What a read gives of each block, by name, where a start-up finds these records: a content, "invalid", or null where nothing is
    stored."""
    given = {}
    for block in unit.blocks:
        if block == 1:
            continue
        if unit.copies(block) == 2:
            given[unit.key(block, 0)] = value_of(found.get(block * 64) or found.get(block * 64 + 1))
            continue
        for index in range(unit.instances(block)):
            given[unit.key(block, index)] = value_of(found.get(block * 64 + index))
    return given


def value_of(record):
    return None if record is None else mark_of(record)
