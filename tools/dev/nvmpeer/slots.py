"""The device over paired slots: a write goes to the slot that doesn't hold the settled mark."""
from collections import namedtuple

from nvmpeer.configuration import body_pages
from nvmpeer.device import CONTENT_KIND, IDLE, KINDS, LAST, WORKED, Device, complements, filled, is_blank, is_gate, mark_of
from nvmpeer.flash import DONE, FAILED, OFF

SLOT = 0x45
HEAD_END = 16

# the head of a slot
Head = namedtuple("Head", "kind length sequence")


def head_page(head, page):
    said = bytes([SLOT, head.kind]) + head.length.to_bytes(2, "big") + head.sequence.to_bytes(4, "big")
    return filled(said + complements(said), page)


def read_head(page):
    head = Head(page[1], int.from_bytes(page[2:4], "big"), int.from_bytes(page[4:8], "big"))
    if page[0] != SLOT or page[8:16] != complements(page[:8]) or not is_blank(page[HEAD_END:]):
        return None
    return head if head.kind in (1, 2, 3) and (head.kind == CONTENT_KIND) == (head.length > 0) else None


class Slots(Device):
    def __init__(self, flash, lengths):
        super().__init__(flash, lengths)
        self.shape, self.places = flash.shape, {number: place for place, number in enumerate(sorted(lengths))}
        self.heads, self.targets, self.step, self.made = {}, {}, 0, None

    def start(self):
        self.flash.power_on()
        self.job = self.outcome = None
        data = self.read_all()
        if data is None:
            return False
        for number, place in self.places.items():
            first, second = (self.standing(data, number, place, slot) for slot in (0, 1))
            holds = 1 if second and (not first or second.sequence > first.sequence) else 0
            self.heads[number] = (first, second)[holds]
            self.targets[number] = 1 - holds if self.heads[number] else 0
        return True

    def standing(self, data, number, place, slot):
        """The head with which a slot stands, or None."""
        start, page = (4 * place + 2 * slot) * self.shape.sector, self.shape.page
        head = read_head(data[start:start + page])
        fits = head and (head.kind != CONTENT_KIND or head.length == self.lengths[number])
        return head if fits and is_gate(data[start + page:start + 2 * page]) else None

    def is_switching(self):
        return False

    def kind(self, number):
        return self.heads[number].kind if self.heads[number] else 3

    def begin(self, operation, number, content=b"", urgent=False):
        super().begin(operation, number, content, urgent)
        self.step = 0

    def cancel(self):
        self.job = None

    def turn(self):
        if not self.job:
            return IDLE
        number = self.job.number
        if self.job.operation == "read":
            if self.kind(number) == CONTENT_KIND:
                return self.read_content(self.sector(number, 1 - self.targets[number], 1) * self.shape.sector)
            self.end(mark_of(self.kind(number), b""))
            return WORKED
        before = self.heads[number].sequence if self.heads[number] else 0
        if before == LAST:
            self.end(FAILED)
            return WORKED
        return self.write(number, Head(KINDS[self.job.operation], len(self.job.content), before + 1))

    def sector(self, number, slot, part):
        return 4 * self.places[number] + 2 * slot + part

    def write(self, number, head):
        """One step of a write: both sectors are erased, then come the body's pages, the head and the gate."""
        target, page, bodies = self.targets[number], self.shape.page, body_pages(head.length, self.shape.page)
        head_at, body_at = (self.sector(number, target, part) * self.shape.sector for part in (0, 1))
        step = self.step
        if step < 2:
            answer = self.erase(self.sector(number, target, step))
        elif step < 2 + bodies:
            start = (step - 2) * page
            answer = self.program(body_at + start, filled(self.job.content[start:start + page], page))
        elif step == 2 + bodies:
            answer = self.program(head_at, head_page(head, page))
        else:
            answer = self.program(head_at + page, bytes(page))
        if answer == OFF:
            return OFF
        self.step += 1
        if answer == FAILED:
            self.end(FAILED)
        elif step == 3 + bodies:
            self.heads[number], self.targets[number] = head, 1 - target
            self.end(DONE)
        return WORKED

