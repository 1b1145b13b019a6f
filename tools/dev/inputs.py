"""Units, and inputs that are drawn for them. Contents count on over all inputs of a draw, so that an older one is told from a newer
one."""
import json

from nvmtools import histories, units

MULTIPLIER, INCREMENT = 6364136223846793005, 1442695040888963407


def unit(page, sector, sectors, blocks, banks=2):
    line = json.dumps({"id": 7, "page": page, "sector": sector, "sectors": sectors, "banks": banks, "standard": 64, "immediate": 8,
                       "blocks": blocks}, separators=(",", ":"))
    return units.Unit("a drawn unit", line, json.loads(line), [])


SMALL = [
    unit(16, 256, 8, [{"length": 4, "priority": 10}, {"length": 20, "priority": 0}]),
    unit(16, 512, 8, [{"length": 40}, {"kind": "redundant", "length": 20}, {"length": 6, "priority": 0, "writes": 1}]),
    unit(64, 4096, 2, [{"length": 8}, {"length": 100, "ram": "permanent", "writeall": True, "readall": True},
                       {"length": 30, "kind": "redundant"}, {"length": 16, "kind": "dataset", "nv": 3},
                       {"length": 64, "priority": 0}]),
    unit(256, 16384, 2, [{"length": 700}, {"length": 8, "priority": 0}]),
    unit(16, 1024, 4, [{"length": 9, "ram": "sync", "writeall": True}, {"length": 7, "kind": "dataset", "nv": 2, "rom": ["07*7"]},
                       {"length": 5, "once": True}]),
    unit(16, 256, 12, [{"length": 20}, {"length": 4, "priority": 0}], banks=3),
    unit(16, 1024, 8, [{"length": 40}, {"kind": "redundant", "length": 6}, {"length": 20, "priority": 0, "writes": 1}], banks=8),
]
# whose records go over several pages of a page cache
LARGE = [
    unit(16, 4096, 4, [{"length": 40}, {"length": 20, "priority": 0}, {"length": 600}]),
    unit(64, 8192, 4, [{"length": 4096}, {"length": 8, "priority": 0}, {"length": 40}]),
    unit(64, 16384, 2, [{"length": 3000}, {"length": 1500, "priority": 0}]),
    unit(256, 16384, 4, [{"length": 4096}, {"length": 8, "priority": 0}, {"length": 200}]),
    unit(16, 4096, 8, [{"length": 4, "writes": 1}, {"length": 20, "priority": 0, "writes": 1}, {"length": 200, "writes": 1}]),
    unit(64, 16384, 4, [{"length": 3000, "kind": "redundant"}, {"length": 8, "priority": 0}, {"length": 900}]),
]


class Inputs:
    def __init__(self, draw):
        self.draw, self.last = draw, 0

    def content(self, length):
        self.last += 1
        number = self.last.to_bytes(4, "big")
        return (number * (length // 4 + 1))[:length].hex() if length >= 4 else (self.last % 256).to_bytes(1, "big").hex() * length

    def request(self, unit, block, caller=""):
        """A request on a block, with what has to come before it."""
        it, chance = unit.blocks[block], self.draw.random()
        before = [f"{caller}setindex {block} {self.draw.randrange(it['nv'])}"] if it.get("kind") == "dataset" else []
        if it.get("ram") in ("permanent", "sync") and chance < 0.5:
            ram = f"{caller}ram {block} {self.content(it['length'])}"
            return [*before, ram, self.draw.choice([f"{caller}writeram {block}", f"{caller}setram {block} 1"])]
        if chance < 0.86:
            return [*before, f"{caller}write {block} {self.content(it['length'])}"]
        if chance < 0.92:
            return [*before, f"{caller}invalidate {block}"]
        return [*before, f"{caller}erase {block}" if it.get("priority") == 0 else f"{caller}read {block}"]

    def groups(self, unit, count):
        """Groups of steps of `play`: in each a request or more, then turns, mostly until nothing is left to do."""
        groups, blocks = [], [block for block in unit.blocks if block != 1]
        for _ in range(count):
            group = self.request(unit, self.draw.choice(blocks))
            if self.draw.random() < 0.2:
                group += self.request(unit, self.draw.choice(blocks))
            chance = self.draw.random()
            group.append("drain" if chance < 0.8 else f"turn {self.draw.randrange(1, 9)}")
            if chance > 0.97:
                group += ["writeall", "drain"]
            if 0.75 < chance < 0.8:
                group.append("restart")
            groups.append(group)
        return [*groups, ["drain"]]

    def run(self, unit, count):
        """Programs of callers, each with blocks of its own; most wait for each job."""
        callers, steps = self.draw.randrange(1, 5), []
        for _ in range(count):
            block = self.draw.choice([block for block in unit.blocks if block != 1])
            caller = f"{block % callers}: "
            steps += self.request(unit, block, caller)
            if self.draw.random() < 0.8:
                steps.append(f"{caller}await {block}")
        return steps

    def uds(self, unit, count):
        blocks = [block for block in unit.blocks if block != 1]
        drawn = [self.draw.choice(blocks) for _ in range(count)]
        return [f"2e{0x100 + block:04x}{self.content(unit.blocks[block]['length'])}" if self.draw.random() < 0.8
                else f"22{0x100 + block:04x}" for block in drawn]

    def call(self, unit, count):
        """The words of a command and its lines."""
        command = self.draw.choice(["play", "play", "run", "uds", "soak"])
        if command == "soak":
            return ["soak", str(self.draw.randrange(2 ** 32)), str(count)], [unit.line]
        lines = sum(self.groups(unit, count), []) if command == "play" else getattr(self, command)(unit, count)
        return [command], [unit.line, *lines]


def soaked(unit, seed, count):
    """The steps that `soak` draws, as docs/SCRIPT.md has them."""
    def draws(state):
        while True:
            state = (state * MULTIPLIER + INCREMENT) % 2 ** 64
            yield state >> 33
    drawn, steps, blocks = draws(seed), [], [block for block in unit.blocks if block != 1]
    for _ in range(count):
        which, block, value = next(drawn) % 8, blocks[next(drawn) % len(blocks)], next(drawn) % 256
        if which < 4:
            steps.append(f"write {block} {value:02x}*{unit.blocks[block]['length']}")
        else:
            steps.append([f"read {block}", f"turn {1 + value}", "drain", "restart" if value < 16 else "turn 1"][which - 4])
    return [*steps, "drain"] if count else steps


def is_asked(unit, step):
    """Whether a step of `play` has a line of its own in the history."""
    words = step.split()
    return words[0] not in ("turn", "drain", "restart") and (words[0] != "ram" or unit.blocks[int(words[1])]["ram"] != "sync")


def group_of(unit, groups, lines, operation):
    """The number of the group of steps in which an operation of the flash was made, by the history of all."""
    asks = [sum(is_asked(unit, step) for step in group) for group in groups]
    number, left = 0, asks[0]
    for entry in histories.entries(lines):
        while entry.kind == "ask" and not left:
            number += 1
            left = asks[number]
        left -= entry.kind == "ask"
        if entry.ops is not None and entry.ops >= operation:
            return number
    return len(groups) - 1
