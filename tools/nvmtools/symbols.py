"""The bytes that the symbols of a program hold: ELF (System V ABI, chapter 4), 32 and 64 bits, both byte orders, linked or not."""
import struct
from collections import namedtuple

from nvmtools.tool import Stop

CLASS, ORDER = 4, 5
# the types of sections: symbols, those that a loader sees, no bytes in the file, and what the linker fills in, with a sum and without
TABLES, NO_BYTES, WITH_SUM, WITHOUT_SUM = (2, 11), 8, 4, 9
SYMBOL_BYTES = {1: 16, 2: 24}
UNLINKED = 1
FIRST_RESERVED = 0xFF00
GLOBAL, WEAK = 1, 2
# the fields of a section's head that are read
Section = namedtuple("Section", "type address at size link info entry")
# a symbol: its section, its value, its size, and whether other files see it
Symbol = namedtuple("Symbol", "section value size is_global")
# what a symbol holds: its bytes, and its size, which is 0 where the program doesn't tell it
Held = namedtuple("Held", "data size")

HEADS = {1: ("IHH", (0x20, 0x2E, 0x30), "4xI4xIIIII4xI", "III"), 2: ("QHH", (0x28, 0x3A, 0x3C), "4xI8xQQQII8xQ", "QQq")}


class Program:
    """The symbols of an ELF file."""

    def __init__(self, path, data, wrong):
        self.path, self.data, self.wrong = path, data, wrong
        if data[:4] != b"\x7fELF" or len(data) < 64 or data[CLASS] not in HEADS or data[ORDER] not in (1, 2):
            raise Stop(f"{path}: no ELF file", wrong)
        self.order = "<" if data[ORDER] == 1 else ">"
        self.is_64 = data[CLASS] == 2
        self.is_unlinked = self.read("H", 0x10) == (UNLINKED,)
        try:
            self.sections = self.read_sections()
            self.found = self.read_symbols()
        except (struct.error, IndexError, OverflowError, ValueError):
            raise Stop(f"{path}: an ELF file that is cut off or broken", wrong) from None

    def read(self, form, place):
        return struct.unpack_from(self.order + form, self.data, place)

    def read_sections(self):
        forms, places, head, _ = HEADS[self.data[CLASS]]
        start, size, count = (self.read(form, place)[0] for form, place in zip(forms, places))
        if start and not count:
            # (more than 65,279 sections: their number is the size of the first)
            count = Section(*self.read(head, start)).size
        if start + size * count > len(self.data) or size < struct.calcsize("<" + head):
            raise ValueError
        return [Section(*self.read(head, start + i * size)) for i in range(count)]

    def read_symbols(self):
        """The symbols by their names: a name may stand for several of one file each."""
        found = {}
        for table in (it for it in self.sections if it.type in TABLES):
            names = self.sections[table.link]
            text = self.data[names.at:names.at + names.size]
            if table.entry != SYMBOL_BYTES[self.data[CLASS]]:
                raise ValueError
            for place in range(table.at, table.at + table.size, table.entry):
                if self.is_64:
                    name, info, _, section, value, size = self.read("IBBHQQ", place)
                else:
                    name, value, size, info, _, section = self.read("IIIBBH", place)
                if name and 0 < section < min(len(self.sections), FIRST_RESERVED):
                    of_name = text[name:text.index(b"\0", name)].decode(errors="replace")
                    found.setdefault(of_name, []).append(Symbol(section, value, size, info >> 4 in (GLOBAL, WEAK)))
        return found

    def held_by(self, name, length):
        """What a symbol holds, up to a length, or None where there is no such symbol; an end where several hold different bytes, or where
        they aren't there."""
        symbols = self.found.get(name)
        if not symbols:
            return None
        chosen = [it for it in symbols if it.is_global] or symbols
        try:
            held = {self.bytes_of(name, it, length) for it in chosen}
        except (struct.error, OverflowError):
            raise Stop(f"{self.path}: an ELF file that is cut off or broken", self.wrong) from None
        if len(held) > 1:
            raise Stop(f"{self.path}: {len(chosen)} symbols have the name {name}, and hold different bytes", self.wrong)
        return held.pop()

    def bytes_of(self, name, symbol, length):
        section, size = self.sections[symbol.section], min(symbol.size or length, length)
        first = symbol.value if self.is_unlinked else symbol.value - section.address
        if first < 0 or first + size > section.size:
            raise Stop(f"{self.path}: the symbol {name} reaches out of its section", self.wrong)
        if self.is_filled_later(symbol, size):
            raise Stop(f"{self.path}: the symbol {name} holds an address, which the linker fills in: give the linked program", self.wrong)
        if section.type == NO_BYTES:
            return Held(bytes(size), symbol.size)
        data = self.data[section.at + first:section.at + first + size]
        if len(data) < size:
            raise Stop(f"{self.path}: an ELF file that is cut off or broken", self.wrong)
        return Held(data, symbol.size)

    def is_filled_later(self, symbol, size):
        """Whether a relocation of a file that isn't linked lies in a symbol."""
        form = self.order + HEADS[self.data[CLASS]][3]
        for it in self.sections if self.is_unlinked else ():
            if it.type not in (WITH_SUM, WITHOUT_SUM) or it.info != symbol.section:
                continue
            entry = struct.calcsize(form) if it.type == WITH_SUM else struct.calcsize(form[:3])
            for place in range(it.at, it.at + it.size, entry):
                if symbol.value <= self.read(form[1], place)[0] < symbol.value + size:
                    return True
        return False
