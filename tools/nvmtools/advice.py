"""What a unit or a script is warned of: what is right, and yet seldom meant."""
from nvmtools import histories, steps
from nvmtools.places import Place
from nvmtools.units import DEMO_LINE, Finding

# an immediate block is large where its write takes more pages than this, and at least so many times those of the other ones
LARGE, TIMES = 8, 2
# the requests of one block that make a job, and those that make turns
JOBS = ("write", "writeram", "read", "readram", "restore", "restoreram", "erase", "invalidate")
TURNS = ("turn", "drain", "restart")


def of_unit(unit):
    """Warnings of a configuration, but of the demo, which nobody can change."""
    if unit.line == DEMO_LINE:
        return []
    return [*members_without_defaults(unit), *large_immediate_blocks(unit)]


def members_without_defaults(unit):
    for number, block in unit.blocks.items():
        if number != 1 and block.get("readall") is True and not (block.get("resistant") is True or "defaults" in block
                                                                 or block.get("kind") == "dataset"):
            yield Finding(unit.place(number, "readall"), "warning", None,
                          f"{unit.called(number)} is read by ReadAll, has no defaults and isn't resistant: behind a new \"id\" it "
                          "ends with 3, as at the first start, and with its old content again at the start behind that")


def large_immediate_blocks(unit):
    pages = {number: unit.record_pages(block["length"]) * unit.copies(number) for number, block in unit.blocks.items()
             if unit.is_immediate(number) and unit.is_first(number)}
    for number, count in pages.items():
        others = max((pages[other] for other in pages if other != number), default=0)
        if count > LARGE and count >= TIMES * others:
            yield Finding(unit.place(number, "priority"), "warning", None,
                          f"{unit.called(number)} has priority 0, and a write of it takes {count} pages: so many of each bank are "
                          f"kept for immediate writes, where without it {others} would be, and rule 24 asks for {2 * count} in "
                          f"place of {2 * others}")


def of_script(unit, command, printed):
    """Warnings of the steps of a script, whose history was printed."""
    return [*writes_before_a_read(unit), *(requests_without_a_turn(unit) if command == "play" else []),
            *(cuts_that_cannot_come(unit, printed) if command == "play" and unit.script else [])]


def lines_of(unit):
    """The lines of the steps with their fields, and as they are written."""
    for number, (line, written) in enumerate(zip(unit.script, unit.written), 2):
        if not steps.is_idle(line):
            yield number, steps.fields(line), written


def writes_before_a_read(unit):
    for number, words, written in lines_of(unit):
        if words == ["readall"]:
            return
        if words == ["writeall"]:
            yield Finding(Place(unit.path, number), "warning", None,
                          "no readall stands before this writeall: where no id is stored it passes block 1 over, and the next "
                          "ReadAll gives defaults, or result 3, for what it stores", written)
            return


def requests_without_a_turn(unit):
    waiting = {}
    for number, words, written in lines_of(unit):
        if words[0] in TURNS:
            waiting = {}
        if words[0] not in JOBS or steps.certain_refusal(unit, " ".join(words)):
            continue
        block = int(words[1])
        if block in waiting:
            yield Finding(Place(unit.path, number), "warning", None,
                          f"no turn is made since line {waiting[block]}: where that is accepted, this is refused 11, as a job of "
                          f"{unit.called(block)} waits", written)
        else:
            waiting[block] = number


def cuts_that_cannot_come(unit, printed):
    """Of a cut that has too few turns behind it whatever the flash holds, and of one that doesn't come over a blank flash."""
    entries = histories.entries(printed)
    starts = [place for place, entry in enumerate(entries) if entry.kind == "found"]
    is_off = [any(entry.kind == "off" for entry in entries[start:end]) for start, end in zip(starts, [*starts[1:], len(entries)])]
    life, open_cut, turns = 0, None, 0
    for number, words, written in [*lines_of(unit), (0, ["restart"], "")]:
        if words[0] in ("cut", "restart"):
            if open_cut:
                yield from why_no_cut(unit, *open_cut, turns, is_last=words[0] == "restart", came=is_off[life])
            open_cut, turns = ((number, int(words[1]), written) if words[0] == "cut" else None), 0
        life += words[0] == "restart"
        turns += int(words[1]) if words[0] == "turn" else float("inf") if words[0] == "drain" else 0


def why_no_cut(unit, number, operations, written, turns, is_last, came):
    if turns < operations:
        why = f"this cut can't come: {turns} turns stand behind it, and each makes one operation at most"
    elif is_last and not came:
        why = "this cut doesn't come over a blank flash: the steps up to the next start-up make fewer operations"
    else:
        return
    yield Finding(Place(unit.path, number), "warning", None, why, written)
