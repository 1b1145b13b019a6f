"""A flash: an erase sets all bits of a sector, a program clears bits of a page. A power cut or a fault may come at any operation."""
DONE, FAILED, OFF = "done", "failed", "off"


class Flash:
    """The flash below a device. Of an operation that is cut or fails the first bytes are done, of an erase none or all."""

    def __init__(self, shape, data=b"", operations=(), reads=()):
        self.shape, self.data = shape, bytearray(data or b"\xff" * shape.size)
        self.failing, self.failing_reads = dict(operations), set(reads)
        self.made = self.read_calls = self.faults = 0
        self.plan, self.off = None, False

    def power_on(self):
        self.plan, self.off = None, False

    def arm(self, nth, keep):
        self.plan = [nth, keep]

    def read(self, address, length):
        """The bytes, or FAILED or OFF."""
        if self.off:
            return OFF
        self.read_calls += 1
        if self.read_calls in self.failing_reads:
            self.faults += 1
            return FAILED
        return bytes(self.data[address:address + length])

    def program(self, address, page):
        return self.change(lambda keep: self.clear(address, page[:keep]), len(page))

    def erase(self, sector):
        return self.change(lambda keep: self.blank(sector) if keep else None, 1)

    def change(self, do, whole):
        if self.off:
            return OFF
        if self.plan:
            self.plan[0] -= 1
            if not self.plan[0]:
                do(self.plan[1])
                self.plan, self.off = None, True
                return OFF
        # (an operation that is cut never comes to the flash, so it has no number there)
        self.made += 1
        if self.made in self.failing:
            do(self.failing[self.made])
            self.faults += 1
            return FAILED
        do(whole)
        return DONE

    def clear(self, address, piece):
        for at, byte in enumerate(piece, address):
            self.data[at] &= byte

    def blank(self, sector):
        size = self.shape.sector
        self.data[sector * size:(sector + 1) * size] = b"\xff" * size
