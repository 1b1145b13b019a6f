"""The steps of a script, as docs/SCRIPT.md has them: what is no step, and what will be refused whatever the flash holds."""
import re

from nvmtools.contents import read_content

# what follows a step's word: B a block, C a content, I an index, F a flag, N a count, K bytes
FORMS = {"write": "BC", "ram": "BC", "setindex": "BI", "protect": "BF", "lock": "BF", "setram": "BF", "turn": "N", "cut": "NK",
         "cutee": "NK", "refuse": "BN", "await": "B",
         **dict.fromkeys("read readram writeram restore restoreram erase invalidate getindex status".split(), "B"),
         **dict.fromkeys("readall writeall cancel drain restart".split(), "")}
NAMES = {"B": "BLOCK", "C": "CONTENT", "I": "INDEX", "F": "0|1", "N": "COUNT", "K": "BYTES"}
WITHOUT_CALLER = ("turn", "drain", "restart", "cut", "cutee", "refuse")
# the steps of one command alone
OF_PLAY, OF_RUN = WITHOUT_CALLER, ("await",)
COUNTS = {"turn": 100_000, "cut": 1_000_000, "cutee": 1_000_000, "refuse": 1_000}
LIMITS = {"B": (0, 65535), "I": (0, 255), "F": (0, 1), "K": (0, 256)}
MOST_CALLERS = 15

# the refusals that a request is tested for and that depend on the configuration alone: docs/MODEL.md, 'Requests and replies'
TESTED = {"read": (1,), "readram": (1, 6), "write": (1, 3, 5), "writeram": (1, 3, 6), "restore": (1, 3, 7),
          "restoreram": (1, 3, 6, 7), "erase": (1, 3, 8), "invalidate": (1, 3), "setindex": (1, 3, 4), "getindex": (1, 3),
          "protect": (1, 3, 9), "lock": (1, 3), "setram": (1, 3, 6), "ram": (1, 3, 5, 6), "status": (1,)}


def without_return(line):
    """A line without a carriage return at its end, which the program drops."""
    return line[:-1] if line.endswith("\r") else line


def is_idle(line):
    """Whether a line does nothing."""
    return line in ("", "\r") or line.startswith("#")


def is_cut(line):
    """Whether a line does nothing, or plans a power cut."""
    return is_idle(line) or fields(line)[0] in ("cut", "cutee")


def fields(line):
    """The fields of a step without its caller."""
    return re.sub(r"^[0-9]+: ", "", without_return(line)).split(" ")


def caller_of(line):
    """The caller of a step: 0 where it names none."""
    named = re.match(r"([0-9]+): ", line)
    return int(named[1]) if named else 0


def why_no_step(unit, line, near, command="play", owners=None):
    """Why a line is no step of `play`, or of `run`, or None. Of `run` the owners of synchronized RAM are those of the lines before,
    by block, and this line's is noted."""
    if is_idle(line):
        return None
    text = without_return(line)
    if text != text.strip(" ") or "  " in text or "\t" in text:
        return "one space between fields, and none at either end"
    words = text.split(" ")
    caller = re.fullmatch(r"([0-9]+):", words[0])
    if caller:
        if not re.fullmatch(r"0|[1-9][0-9]?", caller[1]) or int(caller[1]) > MOST_CALLERS:
            return f"a caller is 0 to {MOST_CALLERS}, and this one is {caller[1][:20]}"
        words = words[1:]
        if words and words[0] in WITHOUT_CALLER:
            return f'"{words[0]}" takes no caller'
    if not words or words[0] not in FORMS:
        word = words[0] if words else ""
        return f'no step "{word[:20]}"; {near(word, list(FORMS))}'
    if words[0] in (OF_PLAY if command == "run" else OF_RUN):
        return f'"{words[0]}" stands in {"play" if command == "run" else "run"} alone'
    form = FORMS[words[0]]
    if len(words) - 1 != len(form):
        return f'it is written: {" ".join([words[0], *(NAMES[kind] for kind in form)])}'
    wrong = next((why for kind, word in zip(form, words[1:]) for why in [why_no_field(words[0], kind, word)] if why), None)
    return wrong or why_not_of_block(unit, words) or (why_not_owner(unit, words, caller_of(text), owners) if command == "run" else None)


def why_no_field(step, kind, word):
    if kind == "C":
        wanted = "an even number of hexadecimal digits, or two digits, * and a count of 1 to 4096"
        return None if read_content(word) else f'no content "{word[:20]}": {wanted}'
    if not re.fullmatch(r"0|[1-9][0-9]*", word):
        return f'no number "{word[:20]}": digits, without a sign and leading zeros'
    least, most = (1, COUNTS[step]) if kind == "N" else LIMITS[kind]
    is_in_range = len(word) <= len(str(most)) and least <= int(word) <= most
    return None if is_in_range else f"{word[:20]} is out of range: {least} to {most}"


def why_not_owner(unit, words, caller, owners):
    """What the program refuses as a step of `run` since another caller owns the synchronized block's RAM."""
    if words[0] not in ("ram", "writeram") or unit.blocks.get(int(words[1]), {}).get("ram") != "sync":
        return None
    owner = owners.setdefault(int(words[1]), caller)
    return None if owner == caller else f"{unit.called(int(words[1]))} is synchronized, and its RAM is caller {owner}'s, not {caller}'s"


def why_not_of_block(unit, words):
    """What the program refuses as a step since the unit has no second device, or the block isn't of that kind."""
    if words[0] == "cutee" and "eeprom" not in unit.source:
        return 'there is no "eeprom", so no flash of a second device is cut'
    if words[0] == "await" and int(words[1]) > max(unit.blocks):
        return f"there is no block {words[1]}; the last one is {max(unit.blocks)}"
    if words[0] not in ("refuse", "ram"):
        return None
    block = unit.blocks.get(int(words[1]), {})
    is_synchronized = block.get("ram") == "sync"
    if words[0] == "refuse" and not is_synchronized:
        return f'{unit.called(int(words[1]))} isn\'t synchronized ("ram":"sync"), so nothing is copied that could be refused'
    if words[0] == "ram" and is_synchronized and len(read_content(words[2])) != block["length"]:
        return f"{unit.called(int(words[1]))} has {block['length']} bytes, and this content {len(read_content(words[2]))}"
    return None


def certain_refusal(unit, line):
    """The refusal of a request that comes whatever the flash holds, with its reason, or None."""
    words = fields(line)
    if is_idle(line) or words[0] not in TESTED:
        return None
    number = int(words[1])
    if number not in unit.blocks:
        is_of_all = words[0] == "status" and number == 0
        return None if is_of_all else (1, f"there is no block {number}; the last one is {max(unit.blocks)}")
    block, who = unit.blocks[number], unit.called(number)
    is_dataset = block.get("kind") == "dataset"
    length = len(read_content(words[2])) if FORMS[words[0]] == "BC" else None
    datasets = block.get("nv", 0) + len(block.get("rom", []))
    causes = {
        3: (is_dataset, f"{who} is a dataset, which isn't restored") if words[0].startswith("restore") else
           (not is_dataset, f"{who} is no dataset") if words[0].endswith("index")
           else (number == 1, "block 1 is the manager's own"),
        4: (words[0] == "setindex" and int(words[2]) >= datasets, f"{who} has {datasets} datasets, 0 to {datasets - 1}"),
        5: (length is not None and length != block["length"], f"{who} has {block['length']} bytes, and this content {length}"),
        6: (block.get("ram", "none") == "none", f"{who} has no RAM of its own"),
        7: ("defaults" not in block and number != 1, f"{who} has no defaults"),
        8: (not unit.is_immediate(number),
            f"{who} has priority {block.get('priority', 100)}, and only an immediate block is erased"),
        9: (block.get("once") is True, f"{who} is written once"),
    }
    return next(((refusal, causes[refusal][1]) for refusal in TESTED[words[0]] if refusal != 1 and causes[refusal][0]), None)
