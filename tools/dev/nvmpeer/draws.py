"""Units and scripts that are drawn: of every kind of block, with power cuts of each flash, and faults."""
import json

from nvmpeer import commands

LENGTHS = (1, 2, 4, 5, 16, 17, 20, 33, 40, 100)
PAGES = (16, 16, 32, 64)


def block_of(draw, may_be_second):
    chance, given = draw.random, {"length": draw.choice(LENGTHS)}
    kind = chance()
    if kind < 0.2:
        given["kind"] = "redundant"
    elif kind < 0.35:
        given.update(kind="dataset", nv=draw.randint(1, 3), rom=[content(draw, given["length"])] * draw.randint(0, 2))
    if chance() < 0.3:
        given["priority"] = draw.choice((0, 0, 0, 1, 255))
    if chance() < 0.5:
        given["ram"] = draw.choice(("permanent", "permanent", "sync"))
        given.update({key: True for key in ("readall", "writeall") if chance() < 0.6})
    if kind >= 0.35 or kind < 0.2:
        given.update({key: value for key, value, part in (("defaults", content(draw, given["length"]), 0.4), ("once", True, 0.1)) if chance() < part})
    given.update({key: True for key in ("protected", "resistant") if chance() < 0.15})
    given.update({key: draw.randint(0, 2) for key in ("reads", "writes", "repeats") if chance() < 0.3})
    if may_be_second and chance() < 0.5:
        given["device"] = 1
    return given


def content(draw, length):
    return f"{draw.randrange(256):02x}*{length}" if draw.random() < 0.5 else bytes(draw.randrange(256) for _ in range(length)).hex()


def unit_of(draw, may_be_second):
    """A unit as its object and its line, which breaks no rule."""
    while True:
        page, banks = draw.choice(PAGES), draw.choice((2, 2, 2, 3, 4))
        blocks = [block_of(draw, may_be_second) for _ in range(draw.randint(1, 5))]
        given = {"id": draw.randrange(65536), "page": page, "sector": page * draw.choice((4, 8, 16)), "sectors": banks * 2 * draw.randint(1, 3),
                 "banks": banks, "standard": draw.choice((1, 2, 8)), "immediate": draw.choice((1, 2, 4)), "blocks": blocks}
        second = [it for it in blocks if "device" in it]
        if second:
            count = sum(it.get("nv", 2 if it.get("kind") == "redundant" else 1) for it in second)
            page = draw.choice((16, 32))
            pages = max(4, *(-(-it["length"] // page) for it in second))
            given["eeprom"] = {"page": page, "sector": page * pages, "sectors": 4 * count + draw.choice((0, 2))}
        line = json.dumps(given, separators=(",", ":"))
        if not commands.check(line.encode())[1]:
            return given, line


def step_of(draw, unit):
    """Some steps that belong together."""
    most = len(unit["blocks"]) + 1
    block = draw.randint(2, most) if draw.random() < 0.9 else draw.choice((0, 1, most + 1, 77))
    it = unit["blocks"][block - 2] if 2 <= block <= most else {"length": 2}
    value, chance = content(draw, it["length"] if draw.random() < 0.98 else 3), draw.random()
    keeps = (0, 1, 7, unit["page"] - 1, unit["page"], 256)
    for most_chance, steps in (
            (0.30, [f"write {block} {value}"]), (0.36, [f"{draw.choice(('read', 'readram', 'restore', 'restoreram', 'writeram'))} {block}"]),
            (0.42, [f"{draw.choice(('erase', 'invalidate'))} {block}"]), (0.47, [f"setindex {block} {draw.randint(0, 3)}"]),
            (0.49, [f"{draw.choice(('getindex', 'status'))} {block}"]),
            (0.52, [f"{draw.choice(('protect', 'lock', 'setram'))} {block} {draw.randint(0, 1)}"]),
            (0.58, [f"ram {block} {content(draw, it['length'])}", draw.choice((f"setram {block} 1", f"writeram {block}"))]),
            (0.60, [draw.choice(("readall", "writeall", "cancel", "writeall"))]),
            (0.62, [f"refuse {block} {draw.randint(1, 3)}"] if it.get("ram") == "sync" else ["drain"]),
            (0.65, [f"cut {draw.randint(1, 25)} {draw.choice(keeps)}"]),
            (0.68, [f"cutee {draw.randint(1, 12)} {draw.choice((0, 1, 7, 8, 15, 16, 256))}"] if "eeprom" in unit else ["drain"]),
            (0.72, ["restart"]), (0.86, [f"turn {draw.randint(1, 30)}"])):
        if chance < most_chance:
            return steps
    return ["drain"]


WITHOUT_CALLER = ("turn", "drain", "restart", "cut", "cutee", "refuse")


def script_of(draw, unit):
    steps = [it for _ in range(draw.randint(5, 60)) for it in step_of(draw, unit)]
    return [f"{draw.randint(0, 15)}: {it}" if draw.random() < 0.1 and it.split()[0] not in WITHOUT_CALLER else it for it in steps]


def faults_of(draw, page):
    """Failing operations, each with the bytes of it that are done, and failing reads."""
    operations = sorted({draw.randint(1, 150): draw.choice((0, 1, page - 1, page)) for _ in range(draw.randint(0, 6))}.items())
    return operations, sorted({draw.randint(5, 60) for _ in range(draw.choice((0, 0, 1, 3)))})
