"""What the two devices have in common: one job at a time, one call of the flash in a turn."""
from nvmpeer.flash import FAILED, OFF
from nvmpeer.texts import INVALID

IDLE, WORKED = "idle", "worked"
CONTENT_KIND, INVALID_KIND, ERASED_KIND = 1, 2, 3
KINDS = {"write": CONTENT_KIND, "invalidate": INVALID_KIND, "erase": ERASED_KIND}
LAST = 2**32 - 1


class Job:
    def __init__(self, operation, number, content, urgent):
        self.operation, self.number, self.content, self.urgent = operation, number, content, urgent


class Device:
    """A device over a flash. Behind a turn `outcome` tells how the job ended: a mark for a read, "done" or FAILED, or None while
    it is open."""

    def __init__(self, flash, lengths):
        self.flash, self.lengths, self.job, self.outcome, self.ops, self.faults = flash, lengths, None, None, 0, 0

    def begin(self, operation, number, content=b"", urgent=False):
        self.job, self.outcome = Job(operation, number, content, urgent), None

    def end(self, outcome):
        self.job, self.outcome = None, outcome

    def answered(self, answer):
        """Notes what the flash answered."""
        self.faults += answer == FAILED
        return answer

    def program(self, address, page):
        self.ops += 1
        return self.answered(self.flash.program(address, page))

    def erase(self, sector):
        self.ops += 1
        return self.answered(self.flash.erase(sector))

    def read_content(self, address):
        """A turn of a read whose content stands at an address."""
        found = self.answered(self.flash.read(address, self.lengths[self.job.number]))
        if found == OFF:
            return OFF
        self.end(found)
        return WORKED

    def read_all(self):
        """The bytes of the flash, sector by sector, or None where a read fails."""
        size, found = self.flash.shape.sector, []
        for sector in range(self.flash.shape.sectors):
            found.append(self.answered(self.flash.read(sector * size, size)))
            if found[-1] == FAILED:
                return None
        return b"".join(found)


def mark_of(kind, content):
    return content if kind == CONTENT_KIND else INVALID if kind == INVALID_KIND else None


def complements(data):
    return bytes(0xff - it for it in data)


def is_gate(page):
    return not any(page)


def is_blank(data):
    return data.count(0xff) == len(data)


def filled(data, page):
    return data + b"\xff" * (page - len(data))

