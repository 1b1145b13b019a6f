"""The configuration: its rules in their order, and what they leave."""
import json

from nvmpeer.texts import content_of

DEMO = {"id": 1, "page": 16, "sector": 256, "sectors": 8, "standard": 8, "immediate": 4, "blocks": [
    {"length": 4, "priority": 10, "ram": "permanent", "readall": True, "writeall": True, "reads": 1, "writes": 1},
    {"length": 20, "priority": 0, "defaults": "a5*20", "reads": 1, "writes": 1}]}
KEYS = ("id", "page", "sector", "sectors", "standard", "immediate", "blocks", "eeprom", "banks")
FLAGS = ("readall", "writeall", "once", "protected", "resistant")
TRIES = ("reads", "writes", "repeats")
BLOCK_KEYS = ("kind", "length", "priority", "ram", "defaults", "nv", "rom", "device", *FLAGS, *TRIES)


class Broken(Exception):
    """The first rule that a configuration breaks, and its block."""


class Block:
    def __init__(self, block, given):
        self.id, self.kind, self.length = block, given.get("kind", "native"), given["length"]
        self.priority, self.ram, self.device = given.get("priority", 100), given.get("ram", "none"), given.get("device", 0)
        self.defaults = content_of(given["defaults"]) if "defaults" in given else None
        self.rom = [content_of(it) for it in given.get("rom", [])]
        self.nv = given["nv"] if self.kind == "dataset" else 2 if self.kind == "redundant" else 1
        self.readall, self.writeall, self.once, self.protected, self.resistant = (given.get(it, False) for it in FLAGS)
        self.reads, self.writes, self.repeats = (given.get(it, 0) for it in TRIES)
        self.is_dataset, self.copies = self.kind == "dataset", 2 if self.kind == "redundant" else 1

    def numbers(self):
        return [64 * self.id + index for index in range(self.nv)]


class Geometry:
    def __init__(self, given):
        self.page, self.sector, self.sectors = given["page"], given["sector"], given["sectors"]
        self.size = self.sector * self.sectors


def body_pages(length, page):
    return (length + page - 1) // page


class Configuration:
    def __init__(self, given):
        self.id, self.standard, self.immediate, self.banks = given["id"], given["standard"], given["immediate"], given.get("banks", 2)
        self.first = Geometry(given)
        self.second = Geometry(given["eeprom"]) if "eeprom" in given else None
        own = {"kind": "redundant", "length": 2, "priority": 255, "ram": "permanent", "reads": 1, "writes": 1, "readall": True, "writeall": True}
        self.blocks = {number: Block(number, it) for number, it in enumerate([own, *given["blocks"]], 1)}
        self.blocks[1].defaults = self.id.to_bytes(2, "big")
        self.last = len(self.blocks)
        self.bank_pages = self.first.size // self.banks // self.first.page
        self.need, self.reserve = self.room()

    def lengths(self, device):
        """The device's numbers with their lengths, ascending."""
        return {number: it.length for it in self.blocks.values() if it.device == device for number in it.numbers()}

    def room(self):
        pages = {it: 3 + body_pages(it.length, self.first.page) for it in self.blocks.values() if it.device == 0}
        every = sum(it.nv * count for it, count in pages.items())
        urgent = max((it.copies * count for it, count in pages.items() if it.priority == 0), default=0)
        return every + 2 * max(pages.values()) + 2 * urgent + 1, urgent


def is_number(value, least, most):
    return type(value) is int and least <= value <= most


def no_number(text):
    """A number that isn't digits alone is none of any rule."""
    return text


def read(line):
    """The configuration of a first line, or an end that names the first broken rule."""
    given = DEMO if line == b"@demo" else parsed(line)
    stop_at_whole(given)
    blocks = list(enumerate(given["blocks"], 2))
    for rule, is_broken in BLOCK_RULES:
        for block, it in blocks:
            if is_broken(it):
                raise Broken(rule, block)
    count = 2 + sum(instances(it) for _, it in blocks)
    if count > 4096:
        raise Broken(23, 0)
    banks, has_banks = given.get("banks", 2), True
    if not is_number(banks, 2, 8) or given["sectors"] % banks:
        has_banks = False
    if has_banks and (made := Configuration({**given, "eeprom": given["eeprom"]} if is_shape(given.get("eeprom")) else
                                            {key: it for key, it in given.items() if key != "eeprom"})) and made.bank_pages < made.need:
        raise Broken(24, 0)
    stop_at_second(given, blocks)
    if not has_banks:
        raise Broken(29, 0)
    return made


def parsed(line):
    def refuse(_):
        raise ValueError
    try:
        text = line.decode("utf-8")
        stop_at_depth(text)
        given = json.loads(text, parse_float=no_number, parse_constant=refuse, parse_int=lambda it: int(it) if it.isdigit() and len(it) < 20 else it)
        json.dumps(given, ensure_ascii=False).encode("utf-8")
        return given
    except (ValueError, RecursionError):
        raise Broken(1, 0) from None


def stop_at_depth(text):
    depth, is_text, skip = 0, False, False
    for it in text:
        if skip:
            skip = False
        elif is_text:
            skip, is_text = it == "\\", it != '"'
        elif it == '"':
            is_text = True
        elif it in "[{":
            depth += 1
            if depth > 127:
                raise ValueError
        elif it in "]}":
            depth -= 1


def shape_fault(given):
    """The first of the rules 4 to 7 that the shape of a flash breaks, or None."""
    page, sector, sectors = (given.get(it) for it in ("page", "sector", "sectors"))
    if type(page) is not int or page not in (16, 32, 64, 128, 256):
        return 4
    if not is_number(sector, 4 * page, 65536) or sector % page:
        return 5
    if not is_number(sectors, 2, 64) or sectors % 2:
        return 6
    return 7 if sector * sectors > 4194304 else None


def is_shape(given):
    return isinstance(given, dict) and set(given) == {"page", "sector", "sectors"} and shape_fault(given) is None


def stop_at_whole(given):
    if not isinstance(given, dict) or any(it not in KEYS for it in given):
        raise Broken(2, 0)
    if not is_number(given.get("id"), 0, 65535):
        raise Broken(3, 0)
    if rule := shape_fault(given):
        raise Broken(rule, 0)
    for rule, key in ((8, "standard"), (9, "immediate")):
        if not is_number(given.get(key), 1, 256):
            raise Broken(rule, 0)
    if not isinstance(given.get("blocks"), list) or not 1 <= len(given["blocks"]) <= 511:
        raise Broken(10, 0)


def is_content(value, length):
    found = content_of(value) if isinstance(value, str) else None
    return found is not None and len(found) == length


def kind_of(it):
    return it.get("kind", "native")


def instances(it):
    return it["nv"] if kind_of(it) == "dataset" else 2 if kind_of(it) == "redundant" else 1


BLOCK_RULES = [
    (11, lambda it: not isinstance(it, dict) or any(key not in BLOCK_KEYS for key in it)),
    (12, lambda it: kind_of(it) not in ("native", "redundant", "dataset")),
    (13, lambda it: not is_number(it.get("length"), 1, 4096)),
    (14, lambda it: not is_number(it.get("priority", 100), 0, 255)),
    (15, lambda it: it.get("ram", "none") not in ("none", "permanent", "sync")),
    (16, lambda it: "defaults" in it and (kind_of(it) == "dataset" or not is_content(it["defaults"], it["length"]))),
    (17, lambda it: ("nv" in it) != (kind_of(it) == "dataset") or "nv" in it and not is_number(it["nv"], 1, 64)),
    (18, lambda it: "rom" in it and (kind_of(it) != "dataset" or not isinstance(it["rom"], list) or len(it["rom"]) > 16
                                     or not all(is_content(rom, it["length"]) for rom in it["rom"]))),
    (19, lambda it: any(not isinstance(it.get(key, False), bool) for key in FLAGS)),
    (20, lambda it: (it.get("readall", False) or it.get("writeall", False)) and it.get("ram", "none") == "none"),
    (21, lambda it: it.get("once", False) and kind_of(it) == "dataset"),
    (22, lambda it: any(not is_number(it.get(key, 0), 0, 7) for key in TRIES)),
]


def stop_at_second(given, blocks):
    for block, it in blocks:
        if not is_number(it.get("device", 0), 0, 1):
            raise Broken(25, block)
    on_second = [(block, it) for block, it in blocks if it.get("device", 0) == 1]
    if ("eeprom" in given) != bool(on_second) or "eeprom" in given and not is_shape(given["eeprom"]):
        raise Broken(26, 0)
    for block, it in on_second:
        if it["length"] > given["eeprom"]["sector"]:
            raise Broken(27, block)
    if on_second and 4 * sum(instances(it) for _, it in on_second) > given["eeprom"]["sectors"]:
        raise Broken(28, 0)
