"""The diagnostic identifiers of a unit (ISO 14229-1, dataIdentifier): a block's key "did", and the security level of its key "security"."""
import re
from collections import namedtuple

from nvmtools.tool import Stop

# of a block without "did", beside which its id stands, as 'IMAGE uds' has it
FIRST = 0x0100
MANAGERS_OWN = 1
# a security level has two sub-functions of SecurityAccess, which end at 41 and 42
MOST_LEVEL = 33

# what an identifier names: a block, and one of its datasets where it has some, else 0
Place = namedtuple("Place", "block index")


def of_block(unit, number):
    """A block's key "did": one identifier of four hexadecimal digits, or of a dataset one for each instance."""
    given = unit.blocks[number].get("did")
    listed = given if isinstance(given, list) else [given] if given is not None else []
    if not all(isinstance(it, str) and re.fullmatch("[0-9A-Fa-f]{4}", it) for it in listed):
        raise Stop(f'{unit.place(number, "did")}: {unit.called(number)}: "did" is four hexadecimal digits, or a list of such', 3)
    if isinstance(given, list) and unit.blocks[number].get("kind") != "dataset":
        raise Stop(f'{unit.place(number, "did")}: {unit.called(number)}: "did" is a list of a dataset alone', 3)
    if len(listed) not in (0, 1 if not isinstance(given, list) else unit.instances(number)):
        raise Stop(f'{unit.place(number, "did")}: {unit.called(number)}: "did" lists one for each of {unit.instances(number)} instances', 3)
    return listed


def security_of(unit, number):
    """A block's key "security": the level that a tester unlocks before it writes the block, or None."""
    level = unit.blocks[number].get("security")
    if level is not None and not (type(level) is int and 1 <= level <= MOST_LEVEL):
        raise Stop(f'{unit.place(number, "security")}: {unit.called(number)}: "security" is a level, 1 to {MOST_LEVEL}', 3)
    return level


def places_of(unit):
    """What each identifier of a unit names. A block without "did" has 0x0100 and its id, of a dataset the first one."""
    found = {}
    for number in unit.blocks:
        if number == MANAGERS_OWN:
            continue
        is_dataset = unit.blocks[number].get("kind") == "dataset"
        listed = [int(it, 16) for it in of_block(unit, number)] or [FIRST + number]
        for index, identifier in enumerate(listed):
            if identifier in found:
                raise Stop(f"{unit.path}: {unit.called(found[identifier].block)} and {unit.called(number)} both have the identifier "
                           f"{identifier:04x}", 3)
            found[identifier] = Place(number, index if is_dataset else 0)
    return found
