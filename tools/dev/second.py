"""What the tools print of a unit with a second device: over tools/dev/peer, and over the program where it takes a second flash."""
import contextlib
import json
import os

import figures
from nvmpeer import commands
from nvmtools import calls, histories, plans, units

HEAD = '{"id":1,"page":16,"sector":256,"sectors":8,"standard":8,"immediate":4,"eeprom":{"page":16,"sector":64,"sectors":%s},"blocks":[%s]}\n'
# what is printed of these is worked out: a write to a slot of one body page is two erases, the page, the head and the gate
CUT = HEAD % (4, '{"length":4,"device":1}') + "write 2 11223344\ndrain\nwrite 2 55667788\ncutee 5 %s\ndrain\nrestart\n"
FAULT = HEAD % (4, '{"length":4},{"length":4,"device":1}') + "write 2 0a0a0a0a\nwrite 3 0b0b0b0b\ndrain\n"
UNIT = """{"id": 1, "page": 16, "sector": 256, "sectors": 8, "standard": 8, "immediate": 4, "eeprom": {"page": 16, "sector": 64, "sectors": 8},
 "blocks": [
  {"id": 2, "name": "seat position", "length": 4, "writes": 1},
  {"id": 3, "name": "odometer", "kind": "redundant", "length": 20, "device": 1, "writes": 1},
]}
"""
SCRIPT = (HEAD % (8, '{"length":4},{"kind":"redundant","length":20,"device":1}')
          + "write 3 01*20\nwrite 2 11223344\ndrain\nrestart\nwrite 3 02*20\ndrain\n")
VALUES = '{"odometer": "07*20", "seat position": "0a0b0c0d"}'
BOTH = "$first.img $two.json --second $second.img"

# of the peer alone, whose options let an operation fail
PEER_CASES = [("peer_cut", 0, "dev/peer mem play mem", CUT % 0), ("peer_cut_keeps_all", 0, "dev/peer mem play mem", CUT % 16),
              ("peer_fault", 0, "dev/peer mem play mem --operation 1:0", FAULT), ("peer_words", 2, "dev/peer mem soak 1 1", ""),
              ("peer_no_second", 14, "dev/peer mem play", CUT % 0)]
CASES = [
    ("second_lint", 0, "lint -", SCRIPT),
    ("second_plan", 0, "plan $two.json --writes odometer=100 --writes 2=3 --turn-ms 5", ""),
    ("second_plan_json", 0, "plan $two.json --writes odometer=100 --json", ""),
    ("second_timeline", 0, "timeline - --summary", SCRIPT),
    ("second_cuts", 0, "cuts - --keep 0,all", SCRIPT),
    ("second_sweep", 0, "sweep -", FAULT),
    ("second_sweep_json", 0, "sweep - --json --jobs 2", HEAD % (4, '{"length":4,"device":1}') + "write 2 11223344\ndrain\n"),
    ("second_provision", 0, "provision $two.json - $first.img --second $second.img", VALUES),
    ("second_provision_again", 2, "provision $two.json - $other.img --second $second.img", VALUES),
    ("second_provision_alone", 2, "provision $two.json - $other.img", VALUES),
    ("second_provision_twice", 2, "provision $two.json - $other.img --second $other.img", VALUES),
    ("second_picture", 0, f"picture {BOTH} --text", ""),
    ("second_picture_drawn", 0, f"picture {BOTH}", ""),
    ("second_picture_json", 0, f"picture {BOTH} --json", ""),
    ("second_picture_values", 0, f"picture {BOTH} --values", ""),
    ("second_picture_check", 0, f"picture {BOTH} --check", ""),
    ("second_picture_unsound", 1, "picture $first.img $two.json --second $unsound.img --check", ""),
    ("second_picture_other", 1, f"picture {BOTH} --other $first.img $unsound.img", ""),
    ("second_picture_one_other", 2, f"picture {BOTH} --other $first.img", ""),
    ("second_picture_alone", 2, "picture $first.img $two.json --values", ""),
    ("second_picture_size", 2, "picture $first.img $two.json --second $first.img", ""),
    ("second_picture_none", 2, "picture $first.img examples/first.nvm --second $second.img", ""),
    ("second_judge", 2, "judge $two.json - --image $first.img", "found 0 ops 0\nfound 0 ops 0\n"),
    ("second_judge_both", 1, "judge $two.json - --image $first.img --second $second.img", "found 0 ops 0\n"),
    ("second_header", 3, "header $two.json $made", ""),
]


@contextlib.contextmanager
def program(path):
    """The tools call another program in place of ./nvm."""
    before = os.environ.get("NVM")
    os.environ["NVM"] = path
    try:
        yield
    finally:
        os.environ.pop("NVM")
        if before is not None:
            os.environ["NVM"] = before


def make(folder):
    """The unit of the cases, and an image of its second device that isn't sound: an open gate behind zeros, of which an erase that is cut
    may make a head."""
    with open(f"{folder}/two.json", "w", encoding="utf-8") as file:
        file.write(UNIT)
    data = bytearray(b"\xff" * 512)
    data[0:32] = bytes(32)
    with open(f"{folder}/unsound.img", "wb") as file:
        file.write(data)


# blocks of both devices whose figures are counted, and of the second one two that are members and one that is redundant
BLOCKS = [{"length": 4, "ram": "permanent", "readall": True, "writeall": True},
          {"length": 20, "device": 1, "ram": "permanent", "readall": True, "writeall": True, "resistant": True, "writes": 1},
          {"kind": "redundant", "length": 33, "device": 1, "writes": 2, "priority": 0}]


def figures_agree():
    """Whether the figures of tools/plan are those that the peer makes of a unit with a second device. At most are tries that each fail
    at their last step, but for the last one of each copy."""
    source = {**json.loads(HEAD % (16, "")), "blocks": BLOCKS}
    plan = plans.Plan(units.Unit("figures", json.dumps(source, separators=(",", ":")), source, []))
    stored = figures.stores(plan.unit)
    tries = [figures.Try("first start", [], ["readall"], 0, figure=plan.first_read_all()),
             figures.Try("ReadAll", [*stored, "restart"], ["readall"], 0, figure=plan.read_all()),
             figures.Try("shutdown", stored, [*figures.changes(plan.unit, plan.members["writeall"]), "writeall"], 0, figure=plan.shutdown())]
    for block in (3, 4):
        write, steps = [figures.steps_of(block, plan.unit, 0x44)], plan.steps(block)
        more = plan.unit.blocks[block]["writes"] + 1
        failing = [copy * more * steps + it * steps for copy in range(plan.unit.copies(block)) for it in range(1, more)]
        tries += [figures.Try("as a rule", stored, write, block, figure=plan.as_a_rule(block)),
                  figures.Try("at most", stored, write, block, failing, plan.at_most(block))]
    return all([is_so(plan.unit, it) for it in tries])


def is_so(unit, it):
    before = peer_plays(unit, it.before, [])
    made = len(histories.operations_of(unit, histories.entries(before))[1])
    probes = figures.PROBE * (it.figure.turns + 1)
    found = figures.counted(peer_plays(unit, [*it.before, *it.asked, *probes], [(made + at, 0) for at in it.faults]), it)
    if found != it.figure:
        print(f"plan: second device, block {it.block}, {it.what}: {tuple(it.figure)}, and the peer makes {found and tuple(found)}")
    return found == it.figure


def peer_plays(unit, lines, failing):
    """The history of a script over blank flashes, in which these operations of the second one fail."""
    return commands.play("\n".join([unit.line, *lines, ""]).encode(), [b"", b""], [((), ()), (failing, ())])[0]


def second_is_as_stored(folder, write, is_as_stored, names):
    """Whether each case prints what is stored, by the peer and, where it takes a second flash, by the program too."""
    make(folder)
    asked = lambda cases: [it for it in cases if not names or it[0] in names]
    with program(f"{calls.TOP}/tools/dev/peer"):
        well = [is_as_stored(it, folder, write) for it in asked(PEER_CASES + CASES)]
    if calls.takes_second():
        for name in ("first.img", "second.img"):
            if os.path.exists(f"{folder}/{name}"):
                os.unlink(f"{folder}/{name}")
        well += [is_as_stored(it, folder, False) for it in asked(CASES)]
    return well if names else [*well, figures_agree()]
