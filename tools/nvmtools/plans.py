"""What a unit comes to before anything is played: room, turns and operations. docs/CONFIGURATION.md, 'How much flash'.

Turns are those of the main function, from a request on, where no other job waits or is in hand: one is the Pick, one the Post.
Operations are the changing ones of the flash. The figures at most follow the definitions of promise_run (job_turns)."""
from collections import namedtuple

PICK, POST = 1, 1
# of a write to a slot of a second device, beside the pages of its body: two erases, its head and its gate
SLOT_STEPS = 4
# the sectors of an instance there: two slots of two
SLOT_SECTORS = 4
# of the promise of an immediate write, beside its pages: docs/MODEL.md, 'The promise of a whole run'
PROMISED = 4

Figure = namedtuple("Figure", "turns operations")


class Plan:
    """The sums of a unit."""

    def __init__(self, unit):
        self.unit = unit
        self.total, self.most, self.urgent, self.need = unit.room()
        self.sectors = unit.sectors // unit.banks
        self.instances = len(unit.lengths())
        # where every instance holds a content: the erases, each copy with the read before it, head and gate
        self.switch = Figure(self.sectors + self.total + self.instances + 2, self.sectors + self.total + 2)
        # the greatest one: a number may be copied again behind an immediate write
        self.most_switch = Figure(*(it + self.most for it in self.switch))
        # of a bank behind a switch that copied a content of every instance, without the pages kept for immediate writes
        self.fresh = unit.bank_pages - 2 - self.total - self.urgent
        self.members = {name: [block for block in unit.blocks if block != 1 and unit.blocks[block].get(name) is True]
                        for name in ("readall", "writeall")}

    def pages(self, block):
        return self.unit.record_pages(self.unit.blocks[block]["length"])

    def body_pages(self, block):
        """The pages of a content in a slot of the second device."""
        return -(-self.unit.blocks[block]["length"] // self.unit.second.page)

    def write_pages(self, block):
        """The pages of the banks that a write takes: none where the second device stores the block."""
        return self.pages(block) * self.unit.copies(block) if self.unit.is_first(block) else 0

    def steps(self, block):
        """The operations of one copy of a write: the pages of its record, or the steps of its slot."""
        return self.pages(block) if self.unit.is_first(block) else self.body_pages(block) + SLOT_STEPS

    def write_steps(self, block):
        return self.steps(block) * self.unit.copies(block)

    def as_a_rule(self, block):
        """A write that finds its pages free, and whose tries don't fail."""
        return Figure(PICK + self.write_steps(block) + POST, self.write_steps(block))

    def with_switch(self, block):
        """A write that finds no room, so that the banks are switched first; None where the second device stores the block, which has
        no banks."""
        return plus(self.as_a_rule(block), self.switch) if self.unit.is_first(block) else None

    def at_most(self, block):
        """A write with every fault that its retries allow: an open switch, each try of each copy with a gate that is owed and a
        switch, and the Post. To the second device each try takes its steps, and no switch of the banks comes before it."""
        tries = self.unit.copies(block) * (self.unit.blocks[block].get("writes", 0) + 1)
        if not self.unit.is_first(block):
            return Figure(PICK + tries * self.steps(block) + POST, tries * self.steps(block))
        turns, operations = (switch + tries * (self.pages(block) + 1 + switch) for switch in self.most_switch)
        return Figure(PICK + turns + POST, operations)

    def promised(self, block):
        """The turns within which an immediate write is posted, or None; of the second device's blocks none is promised."""
        is_promised = self.unit.is_immediate(block) and self.unit.is_first(block) and block != 1
        return self.write_pages(block) + PROMISED if is_promised else None

    def second_instances(self):
        return len(self.unit.lengths(is_first=False))

    def second_room(self):
        """How many instances the second device's sectors have room for."""
        return self.unit.second.sectors // SLOT_SECTORS

    def slot_erases(self, writes):
        """The erases of a sector a day by block of the second device, where so many writes a day come to each: every second write of
        an instance goes to the same slot. Of a dataset all may come to one index."""
        return {block: count / 2 for block, count in writes.items() if not self.unit.is_first(block)}

    def read_all(self):
        """A ReadAll whose members are all stored, block 1 among them: each has a Pick, a read and a Post."""
        return Figure(PICK + 3 * (1 + len(self.members["readall"])) + POST, 0)

    def first_read_all(self):
        """A ReadAll over a blank flash. It reads both copies of block 1, finds no configuration id, and reads what is resistant;
        of any other member there is a Post alone."""
        resistant = [block for block in self.members["readall"] if self.unit.blocks[block].get("resistant") is True]
        reads = sum(PICK + self.unit.copies(block) + POST for block in [1, *resistant])
        return Figure(PICK + reads + len(self.members["readall"]) - len(resistant) + POST, 0)

    def shutdown(self):
        """A WriteAll of all members changed, each of which finds its pages free. Block 1 is passed over."""
        steps = sum(self.write_steps(block) for block in self.members["writeall"])
        return Figure(PICK + 1 + steps + 2 * len(self.members["writeall"]) + POST, steps)

    def shutdown_switches(self):
        """The most switches in such a WriteAll: its first record finds no room."""
        switches, free = 0, 0
        for block in filter(self.unit.is_first, self.members["writeall"]):
            for _ in range(self.unit.copies(block)):
                if free < self.pages(block):
                    switches, free = switches + 1, self.fresh
                free -= self.pages(block)
        return switches

    def shutdown_with_switch(self):
        return plus(self.shutdown(), Figure(*(self.shutdown_switches() * it for it in self.switch)))


def plus(one, two):
    return Figure(one.turns + two.turns, one.operations + two.operations)
