"""The device over banks: records behind one another in the active bank, and a switch to the next one where no room is left."""
from collections import namedtuple

from nvmpeer.configuration import body_pages
from nvmpeer.device import (CONTENT_KIND, ERASED_KIND, IDLE, KINDS, LAST, WORKED, Device, complements, filled, is_blank, is_gate,
                            mark_of)
from nvmpeer.flash import DONE, FAILED, OFF

HEAD, RECORD = 0x42, 0x52
FORMAT = 2
ERASE, COPY, SEAL, DOUBTFUL = "erase", "copy", "seal", "doubtful"

# a record in a bank: its header's page, how many pages it has, and what the header says
Record = namedtuple("Record", "page pages number kind length count committed")
# a bank that stands: its records, the page behind the last one, and whether anything stands there
Bank = namedtuple("Bank", "format generation records end is_used")


def head_page(generation, page):
    said = bytes([HEAD, FORMAT]) + generation.to_bytes(4, "big")
    return filled(said + complements(said), page)


def header_page(it, page):
    said = bytes([RECORD, it.kind]) + it.number.to_bytes(2, "big") + it.length.to_bytes(2, "big") + it.count.to_bytes(4, "big")
    return filled(said, page)


def read_bank(data, page):
    """The bank of these bytes, or None where it doesn't stand."""
    head, count = data[:page], len(data) // page
    if head[0] != HEAD or head[1] not in (1, FORMAT) or head[6:12] != complements(head[:6]) or not is_blank(head[12:]):
        return None
    if not is_gate(data[page:2 * page]):
        return None
    found, at = [], 2
    while it := read_record(data, page, at, count, head[1]):
        found.append(it)
        at += it.pages
    return Bank(head[1], int.from_bytes(head[2:6], "big"), found, at, not is_blank(data[at * page:]))


def read_record(data, page, at, count, form):
    if count - at < 3 or not is_gate(data[(at + 1) * page:(at + 2) * page]):
        return None
    head = data[at * page:(at + 1) * page]
    kind, number, length = head[1], int.from_bytes(head[2:4], "big"), int.from_bytes(head[4:6], "big")
    if head[0] != RECORD or kind not in (1, 2, 3) or number in (0, 0xffff) or (kind == CONTENT_KIND) != (length > 0):
        return None
    if not is_blank(head[10 if form == FORMAT else 6:]):
        return None
    pages = 3 + body_pages(length, page)
    if at + pages > count:
        return None
    last = (at + pages - 1) * page
    return Record(at, pages, number, kind, length, int.from_bytes(head[6:10], "big") if form == FORMAT else 0, is_gate(data[last:last + page]))


def active_of(banks):
    """The number of the bank that counts, or None."""
    standing = [(it.generation, -number) for number, it in enumerate(banks) if it]
    return -max(standing)[1] if standing else None


def banks_in(data, count, page):
    size = len(data) // count
    return [read_bank(data[it * size:(it + 1) * size], page) for it in range(count)]


class Work:
    """A record that is being written: the pages to program, from its first one on."""

    def __init__(self, record, content, page):
        self.record, self.content, self.page, self.done = record, content, page, 0

    def piece(self):
        """The page that comes next."""
        if self.done == 0:
            return header_page(self.record, self.page)
        if self.done in (1, self.record.pages - 1):
            return bytes(self.page)
        start = (self.done - 2) * self.page
        return filled(self.content[start:start + self.page], self.page)

    def is_whole(self):
        return self.done == self.record.pages


class Banks(Device):
    def __init__(self, flash, lengths, reserve, banks):
        super().__init__(flash, lengths)
        self.reserve, self.banks, self.page = reserve, banks, flash.shape.page
        self.sectors = flash.shape.sectors // banks
        self.pages = flash.shape.size // banks // self.page
        self.clear(None, 0, {}, 2, False)
        self.stop_switch()

    def clear(self, active, generation, index, tail, closed):
        """A bank becomes the active one."""
        self.active, self.generation, self.index, self.tail, self.closed = active, generation, index, tail, closed
        self.work, self.owed, self.copied = None, None, set()

    def stop_switch(self):
        self.phase, self.target, self.erased, self.copy = None, None, 0, None

    def start(self):
        self.flash.power_on()
        self.job = self.outcome = None
        self.stop_switch()
        data = self.read_all()
        if data is None:
            return False
        banks = banks_in(data, self.banks, self.page)
        active = active_of(banks)
        it = banks[active] if active is not None else None
        self.clear(active, it.generation if it else 0, self.found_in(it), it.end if it else 2, bool(it) and (it.is_used or it.format != FORMAT))
        return True

    def found_in(self, bank):
        return {it.number: it for it in bank.records if it.committed and it.number in self.lengths
                and (it.kind != CONTENT_KIND or it.length == self.lengths[it.number])} if bank else {}

    def address(self, bank, page):
        return (bank * self.pages + page) * self.page

    def kind(self, number):
        return self.index[number].kind if number in self.index else ERASED_KIND

    def is_switching(self):
        return self.phase is not None

    def cancel(self):
        self.job = None
        if self.work:
            if self.work.done:
                self.tail = self.work.record.page + self.work.record.pages
            if self.work.done == 1:
                self.owed = self.work.record.page + 1
            self.work = None

    def turn(self):
        if self.job and self.job.operation == "read":
            return self.turn_read()
        if self.job and (self.work or self.has_room()):
            return self.append()
        if self.job and not self.phase and not self.begin_switch():
            self.end(FAILED)
            return WORKED
        return self.step() if self.phase else IDLE

    def turn_read(self):
        kind = self.kind(self.job.number)
        if kind == CONTENT_KIND:
            return self.read_content(self.address(self.active, self.index[self.job.number].page + 2))
        self.end(mark_of(kind, b""))
        return WORKED

    def record_pages(self):
        return 3 + body_pages(len(self.job.content), self.page)

    def has_room(self):
        free = 0 if self.active is None or self.closed else self.pages - self.tail
        if self.job.urgent:
            return free >= self.record_pages() and self.phase in (None, ERASE, COPY)
        return free >= self.record_pages() + self.reserve and not self.phase

    def append(self):
        """One page of the record, or the gate that an earlier one owes."""
        if not self.work:
            self.begin_record()
        if self.owed is not None:
            answer = self.program(self.address(self.active, self.owed), bytes(self.page))
            if answer == OFF:
                return OFF
            self.owed = None
            if answer == FAILED:
                self.work, self.closed = None, True
                self.end(FAILED)
            return WORKED
        work = self.work
        answer = self.program(self.address(self.active, work.record.page + work.done), work.piece())
        if answer == OFF:
            return OFF
        if answer == FAILED:
            self.closed |= work.done < 2
        else:
            work.done += 1
        if answer == FAILED or work.is_whole():
            self.work, self.tail = None, work.record.page + work.record.pages
            if answer == DONE:
                self.index[work.record.number] = work.record
            self.end(answer)
        return WORKED

    def begin_record(self):
        number, before = self.job.number, self.index.get(self.job.number)
        count = min(before.count + 1, LAST) if before else 1
        self.work = Work(Record(self.tail, self.record_pages(), number, KINDS[self.job.operation], len(self.job.content), count, True),
                         self.job.content, self.page)
        self.copied.discard(number)
        if self.copy and self.copy.record.number == number:
            self.copy.counts = False

    def begin_switch(self):
        if self.active is not None and self.generation == LAST:
            return False
        self.target = 0 if self.active is None else (self.active + 1) % self.banks
        self.begin_erase()
        return True

    def begin_erase(self):
        self.phase, self.erased, self.copy, self.copied = ERASE, 0, None, set()

    def begin_copies(self):
        self.phase, self.target_end, self.target_index = COPY, 2, {}
        self.seal_if_all()

    def seal_if_all(self):
        if not self.copy and all(number in self.copied for number in self.index):
            self.phase, self.head_is_there = SEAL, False

    def step(self):
        """One step of the switch. Where it fails the job that waits fails too."""
        answer = {ERASE: self.step_erase, COPY: self.step_copy, SEAL: self.step_seal, DOUBTFUL: self.step_seal}[self.phase]()
        if answer == OFF:
            return OFF
        if answer == FAILED and self.job:
            self.end(FAILED)
        return WORKED

    def step_erase(self):
        answer = self.erase(self.target * self.sectors + self.erased)
        if answer == DONE:
            self.erased += 1
            if self.erased == self.sectors:
                self.begin_copies()
        return answer

    def step_copy(self):
        if not self.copy:
            source = self.index[min(it for it in self.index if it not in self.copied)]
            self.copy = Work(source._replace(page=self.target_end), None, self.page)
            self.copy.counts, self.source = True, source
            if source.kind != CONTENT_KIND:
                self.copy.content = b""
        if self.copy.content is None:
            found = self.answered(self.flash.read(self.address(self.active, self.source.page + 2), self.source.length))
            if found == OFF:
                return OFF
            if found == FAILED:
                self.begin_erase()
                return FAILED
            self.copy.content = found
            return DONE
        answer = self.program(self.address(self.target, self.copy.record.page + self.copy.done), self.copy.piece())
        if answer == FAILED:
            self.begin_erase()
        elif answer == DONE:
            self.copy.done += 1
            if self.copy.is_whole():
                self.end_copy()
        return answer

    def end_copy(self):
        record, counts = self.copy.record, self.copy.counts
        self.target_index[record.number] = record
        self.target_end, self.copy = record.page + record.pages, None
        if counts:
            self.copied.add(record.number)
        self.seal_if_all()

    def step_seal(self):
        if not self.head_is_there:
            answer = self.program(self.address(self.target, 0), head_page(self.generation + 1 if self.active is not None else 1, self.page))
            self.head_is_there = answer == DONE
            if answer == FAILED:
                self.begin_erase()
            return answer
        answer = self.program(self.address(self.target, 1), bytes(self.page))
        if answer == FAILED:
            self.phase = DOUBTFUL
        elif answer == DONE:
            self.clear(self.target, self.generation + 1 if self.active is not None else 1, self.target_index, self.target_end, False)
            self.stop_switch()
        return answer


def lines_of_dump(data, count, page):
    banks = banks_in(data, count, page)
    for number, bank in enumerate(banks):
        if not bank:
            yield f"bank {number} none"
            continue
        yield f"bank {number} format {bank.format} generation {bank.generation}"
        for it in bank.records:
            counted = f" count {it.count}" if bank.format == FORMAT else ""
            yield f"at {it.page} number {it.number} kind {it.kind} length {it.length}{counted} {'committed' if it.committed else 'abandoned'}"
        yield f"tail {'used' if bank.is_used else 'blank'}"
    active = active_of(banks)
    yield f"active {'none' if active is None else active}"
