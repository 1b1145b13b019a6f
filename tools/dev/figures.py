"""Whether the figures of tools/plan are those that the program makes: turns and operations, counted in histories.

A turn that does nothing else leaves no entry, so behind each one stands a request that does: the status of block 1."""
import json
from collections import namedtuple

from nvmtools import calls, histories, plans, units

# four blocks of each kind that counts turns otherwise, over a flash that is soon full
BLOCKS = [{"length": 4, "ram": "permanent", "readall": True, "writeall": True, "writes": 1},
          {"kind": "redundant", "length": 8, "ram": "permanent", "readall": True, "writeall": True, "resistant": True, "writes": 2},
          {"kind": "dataset", "length": 16, "nv": 3, "ram": "permanent", "readall": True, "writeall": True},
          {"length": 20, "priority": 0, "writes": 1},
          {"length": 6, "ram": "sync", "defaults": "00*6", "readall": True, "writeall": True, "resistant": True}]
HEADS = [{"id": 7, "page": 16, "sector": 256, "sectors": 16, "standard": 8, "immediate": 4},
         {"id": 7, "page": 32, "sector": 512, "sectors": 18, "banks": 3, "standard": 8, "immediate": 4}]
IMMEDIATE = 5
MOST_WRITES = 40
PROBE = ["turn 1", "status 1"]

# a job to be counted: what it is, the steps before its request, the request, its block, the faults, and whether it has the
# figure or at most the turns of it
Try = namedtuple("Try", "what before asked block faults figure is_most", defaults=([], None, False))


def steps_of(block, unit, byte):
    return f"write {block} {byte:02x}*{unit.blocks[block]['length']}"


def stores(unit):
    """Steps behind which each instance holds a content, and block 1 this configuration's id."""
    found = ["readall", "drain"]
    for block in list(unit.blocks)[1:]:
        is_dataset = unit.blocks[block].get("kind") == "dataset"
        for index in range(unit.instances(block) if is_dataset else 1):
            found += [*([f"setindex {block} {index}"] if is_dataset else []), steps_of(block, unit, 0x11), "drain"]
    return [*found, "writeall", "drain"]


def changes(unit, members):
    return [step for block in members for step in (f"ram {block} {'33' * unit.blocks[block]['length']}", f"setram {block} 1")]


def writes_before_a_switch(plan, stored, block):
    """How many writes of a block end before one finds no room."""
    write = [steps_of(block, plan.unit, 0x22), "drain"]
    *history, _ = calls.play_well([plan.unit.line, *stored, *write * MOST_WRITES])
    posts = [it.ops for it in histories.entries(history) if it.kind == "post"][-MOST_WRITES - 1:]
    return next(place for place in range(MOST_WRITES) if posts[place + 1] - posts[place] > plan.write_pages(block))


def tries_of(plan):
    """The jobs that are counted of a unit."""
    unit, stored = plan.unit, stores(plan.unit)
    shutdown = [*changes(unit, plan.members["writeall"]), "writeall"]
    yield Try("first start", [], ["readall"], 0, figure=plan.first_read_all())
    yield Try("ReadAll", [*stored, "restart"], ["readall"], 0, figure=plan.read_all())
    yield Try("shutdown", stored, shutdown, 0, figure=plan.shutdown())
    for block in list(unit.blocks)[1:]:
        write = steps_of(block, unit, 0x44)
        full = [*stored, *[steps_of(block, unit, 0x22), "drain"] * writes_before_a_switch(plan, stored, block)]
        yield Try("as a rule", stored, [write], block, figure=plan.as_a_rule(block))
        yield Try("with a switch", full, [write], block, figure=plan.with_switch(block))
        # (behind a switch the program of a header gate fails, which closes the bank: the next try begins with another switch)
        yield Try("at most", full, [write], block, [plan.switch.operations + 2], plan.at_most(block), True)
        if block == 2:
            yield Try("shutdown with a switch", full, shutdown, 0, figure=plan.shutdown_with_switch())
            for turns in range(1, plan.with_switch(block).turns):
                yield Try(f"promised, behind {turns} turns", [*full, write, f"turn {turns}"],
                          [steps_of(IMMEDIATE, unit, 0x55)], IMMEDIATE,
                          figure=plans.Figure(plan.promised(IMMEDIATE), plan.at_most(IMMEDIATE).operations), is_most=True)


def counted(history, it):
    """The turns and operations from the last request to the Post of its block; a Post of the job in hand before isn't counted."""
    entries = histories.entries(history)
    turns, start = 0, max(place for place, entry in enumerate(entries) if entry.kind == "ask" and entry.words[1] != "status")
    before = max((entry.ops for entry in entries[:start] if entry.ops is not None), default=0)
    for entry in entries[start + 1:]:
        if entry.kind == "post" and int(entry.words[0]) == it.block:
            return plans.Figure(turns + 1, entry.ops - before)
        turns += entry.kind == "ask"
        turns -= entry.kind == "post" and it.block not in (0, int(entry.words[0])) and it.what.startswith("promised")
    return None


def case_of(unit, it, before):
    most = it.figure.turns + 1
    faults = [f"operation {before + fault} 0" for fault in it.faults]
    return calls.Case("play", [unit.line, *it.before, *it.asked, *PROBE * most], ["quiet", *faults])


def unit_agrees(head):
    """Whether each figure of a unit is what is counted."""
    source = {**head, "blocks": BLOCKS}
    plan = plans.Plan(units.Unit("figures", json.dumps(source, separators=(",", ":")), source, []))
    tries = list(tries_of(plan))
    befores = calls.try_cases([calls.Case("play", [plan.unit.line, *it.before], ["quiet"]) for it in tries])
    ops = [max(entry.ops or 0 for entry in histories.entries(before.written)) for before in befores]
    well = True
    for it, played in zip(tries, calls.try_cases([case_of(plan.unit, it, before) for it, before in zip(tries, ops)])):
        found = counted(played.written, it)
        is_so = found and (found.turns <= it.figure.turns and found.operations <= it.figure.operations if it.is_most
                           else found == it.figure)
        if not is_so:
            print(f"plan: block {it.block}, {it.what}: {tuple(it.figure)}, and the program makes {found and tuple(found)}")
            well = False
    return well


def figures_agree():
    return all([unit_agrees(head) for head in HEADS])
