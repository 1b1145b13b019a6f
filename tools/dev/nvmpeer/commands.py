"""The commands: what each writes, and its status."""
from nvmpeer import banks
from nvmpeer.configuration import Broken, read
from nvmpeer.flash import Flash
from nvmpeer.script import Wrong, lines_of, steps_of
from nvmpeer.stack import FlashFault, Full, Stack

MOST_INPUT = 16_777_216
OK, BAD_WORDS, BAD_CONFIG, BAD_SCRIPT, FLASH_FAULT, WRONG_SIZE, TOO_LONG, HISTORY_FULL, NO_SECOND = 0, 2, 3, 4, 7, 9, 10, 11, 14


def check(given):
    """The configuration of an input with its lines, or the end of the call."""
    if len(given) > MOST_INPUT:
        return None, (["input too long"], TOO_LONG)
    lines = lines_of(given)
    try:
        return (read(lines[0]), lines), None
    except Broken as it:
        return None, ([f"config rule {it.args[0]} block {it.args[1]}"], BAD_CONFIG)


def measures(config):
    count = sum(it.nv for it in config.blocks.values())
    return f"config ok blocks {config.last} instances {count} need {config.need} bank {config.bank_pages}"


def wrong_size(config, data):
    """The first size that is wrong, of both flashes where there is a second one."""
    for shape, it in zip((config.first, config.second), data):
        if shape and it is not None and len(it) not in (0, shape.size):
            return len(it), shape.size
    return None


def play(given, data, faults=()):
    """Plays a script over flashes of these bytes, the second one's None where there is none: its lines, its status, and the flashes,
    or None where none was touched. Faults are of each flash its failing operations and its failing reads."""
    read_well, end = check(given)
    if end:
        return *end, None
    config, lines = read_well
    try:
        steps = steps_of(config, lines[1:])
    except Wrong as it:
        return [f"script {it.args[0]}"], BAD_SCRIPT, None
    if config.second and data[1] is None:
        return ["no second device"], NO_SECOND, None
    if size := wrong_size(config, data):
        return [f"size {size[0]} {size[1]}"], WRONG_SIZE, None
    shapes = [config.first] + ([config.second] if config.second else [])
    flashes = [Flash(shape, it, *more) for shape, it, more in zip(shapes, data, [*faults, ((), ()), ((), ())])]
    stack = Stack(config, flashes)
    try:
        stack.start()
        for it in steps:
            make(stack, flashes, it)
    except FlashFault:
        return [*stack.lines, "flash fault"], FLASH_FAULT, flashes
    except Full:
        return [*stack.lines, "history full"], HISTORY_FULL, flashes
    return [*stack.lines, f"end {len(stack.lines)}"], OK, flashes


def make(stack, flashes, it):
    """Makes a step."""
    if it.word == "turn":
        stack.turns(it.given[0])
    elif it.word in ("drain", "restart"):
        {"drain": stack.drain, "restart": stack.start}[it.word]()
    elif it.word in ("cut", "cutee"):
        flashes[it.word == "cutee"].arm(*it.given)
    elif it.word == "refuse":
        stack.mirrors[it.block].refused += it.given
    elif it.word == "ram" and it.block in stack.mirrors:
        stack.mirrors[it.block].store(it.caller, it.given)
    else:
        stack.ask(it.caller, it.word, it.block, it.given)


def dump(given, data):
    read_well, end = check(given)
    if end:
        return end
    config = read_well[0]
    if size := wrong_size(config, (data, None)):
        return [f"size {size[0]} {size[1]}"], WRONG_SIZE
    return list(banks.lines_of_dump(data or b"\xff" * config.first.size, config.banks, config.first.page)), OK


