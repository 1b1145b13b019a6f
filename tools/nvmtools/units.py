"""A unit: the configuration that a file gives, and the program's one line of it. docs/CONFIGURATION.md has its keys and rules.

A unit file is JSON over as many lines as one likes, with comments from // to the end of a line, a comma behind a last item, and
for each block a "name" and an "id" in any order; the program's line has none of these. A script is read too: its first line is
the configuration, and the others are its steps. Where that line is @FILE, the configuration is the unit of that file, and names
may stand in the steps. This is the one place at which the tools read sources."""
import copy
import difflib
import json
import os
import re
from collections import namedtuple

from nvmtools import calls, manual, names, steps
from nvmtools.calls import Stop
from nvmtools.places import Place, Places, parse

DEMO = ('{"id":1,"page":16,"sector":256,"sectors":8,"standard":8,"immediate":4,"blocks":[{"length":4,"priority":10,'
        '"ram":"permanent","readall":true,"writeall":true,"reads":1,"writes":1},{"length":20,"priority":0,"defaults":"a5*20",'
        '"reads":1,"writes":1}]}')
DEMO_LINE = "@demo"
KEYS = ("id", "page", "sector", "sectors", "standard", "immediate", "blocks", "eeprom", "banks")
FLAGS = ("readall", "writeall", "once", "protected", "resistant")
TRIES = ("reads", "writes", "repeats")
BLOCK_KEYS = ("kind", "length", "priority", "ram", "defaults", "nv", "rom", *FLAGS, *TRIES, "device")
# the keys that the program's line doesn't have
OURS = ("name", "id", "did", "security", "c")
MANAGERS_OWN = {"kind": "redundant", "length": 2, "ram": "permanent", "name": "configuration id", "reads": 1, "writes": 1,
                "priority": 255}
# (a half of a character that takes two numbers is none)
NAME = r"[^\s.\"\ud800-\udfff](?:[^.\"\n\ud800-\udfff]*[^\s.\"\ud800-\udfff])?"
FIRST_ID = 2
MOST_SECTORS, MOST_BYTES, MOST_BLOCKS = 64, 4_194_304, 511
FEWEST_BANKS, MOST_BANKS = 2, 8

# what a file says: its path, the program's line, the JSON of it, and the lines below it where the file is a script: as the
# program reads them, as they are written, and by their place why one is no step; and the file that the configuration stands in,
# where its parts stand, and the places of its blocks by their ids
Given = namedtuple("Given", "path line source script written faults config places order", defaults=((), {}, None, None, ()))
# the flash of a second device
Second = namedtuple("Second", "page sector sectors size")
# what is wrong with a unit or a script: its place, of what kind it is, its rule or refusal, the text, and the line of a script
Finding = namedtuple("Finding", "place kind number text line", defaults=(None,))


class Unit:
    """What a file says of a unit: the program's line, the steps behind it, and the blocks by id."""

    def __init__(self, path, line, source, script, written=(), faults=None, config=None, places=None, order=()):
        self.path, self.line, self.source, self.script, self.written = path, line, source, script, written
        self.faults, self.config, self.places, self.order = faults or {}, config or path, places, order
        self.page, self.sector, self.sectors = source["page"], source["sector"], source["sectors"]
        self.size = self.sector * self.sectors
        self.banks = source.get("banks", 2)
        self.bank_pages = self.size // self.banks // self.page
        self.second = second_of(source)
        self.blocks = blocks_of(source)
        self.has_names = any(block.get("name") for block in source["blocks"])

    def instances(self, block):
        """How many instances of the block are stored."""
        kind = self.blocks[block].get("kind", "native")
        return self.blocks[block]["nv"] if kind == "dataset" else 2 if kind == "redundant" else 1

    def copies(self, block):
        """How many instances one write of the block writes."""
        return 2 if self.blocks[block].get("kind") == "redundant" else 1

    def lengths(self, is_first=True):
        """The length of each instance that the flash stores, or the second one, by device number."""
        return {block * 64 + i: self.blocks[block]["length"] for block in self.blocks if self.is_first(block) == is_first
                for i in range(self.instances(block))}

    def flashes(self):
        """The flash, and the second one where there is one."""
        return [self, *([self.second] if self.second else [])]

    def record_pages(self, length):
        """The pages of a record of a content."""
        return 3 + -(-length // self.page)

    def is_first(self, block):
        return self.blocks[block].get("device", 0) == 0

    def is_immediate(self, block):
        return self.blocks[block].get("priority", 100) == 0

    def room(self):
        """Rule 24: the pages of all instances, of the greatest write, of the greatest immediate one, and what is needed."""
        each = {block: self.record_pages(self.blocks[block]["length"]) for block in self.blocks if self.is_first(block)}
        total = sum(each[block] * self.instances(block) for block in each)
        urgent = max((each[block] * self.copies(block) for block in each if self.is_immediate(block)), default=0)
        most = max(each.values())
        return total, most, urgent, total + 2 * most + 2 * urgent + 1

    def name(self, block):
        return self.blocks.get(block, {}).get("name")

    def called(self, block):
        """A block as a person is told of it."""
        if block == 0:
            return "all blocks"
        return f"block {block}" + (f" ({self.name(block)})" if self.name(block) else "")

    def place(self, block, key=None):
        return place_of(self, block, key)

    def instance(self, word):
        """An instance of a history, as 7.1, by the name of its block where the unit has names."""
        number, _, index = word.partition(".")
        name = self.name(int(number)) if self.has_names else None
        return word if not name else name if self.instances(int(number)) == 1 else f"{name}.{index}"

    def marks(self, found):
        """Marks by instance, as a person is told of them."""
        return ", ".join(f"{self.instance(instance)} {mark}" for instance, mark in found.items()) or "nothing"

    def step(self, words):
        """A step or a job, with the name of its block where the unit has names."""
        name = self.name(int(words[1])) if self.has_names and len(words) > 1 and words[1].isdigit() else None
        return " ".join([words[0], f'"{name}"' if " " in name else name, *words[2:]] if name else words)

    def key(self, block, index):
        """An instance as a key of values: by name where the block has one, with an index where it is a dataset."""
        return (self.name(block) or str(block)) + (f".{index}" if self.blocks[block].get("kind") == "dataset" else "")


def place_of(given, block, key=None):
    """The place of a key of a block, or of the whole configuration where the block is 0; where the key is absent, of what lacks
    it."""
    way = ("blocks", given.order[block - FIRST_ID]) if block else ()
    return given.places.of(*way, *([key] if key else []))


def second_of(source):
    """The flash of the second device, or None."""
    given = source.get("eeprom")
    return Second(given["page"], given["sector"], given["sectors"], given["sector"] * given["sectors"]) if given else None


def blocks_of(source):
    """The blocks of a configuration by their ids."""
    return {1: MANAGERS_OWN, **{FIRST_ID + i: block for i, block in enumerate(source["blocks"])}}


def near(word, words):
    """The word that was meant, or all that there are."""
    found = difflib.get_close_matches(word, words, 1)
    return f'did you mean "{found[0]}"?' if found else f"there are {', '.join(words)}"


def order_by_id(places, blocks):
    """The places of the blocks by their ids, where they have ids."""
    if not any(isinstance(block, dict) and "id" in block for block in blocks):
        return range(len(blocks))
    for place, block in enumerate(blocks):
        if not isinstance(block, dict) or type(block.get("id")) is not int:
            raise Stop(f"{places.of('blocks', place)}: item {place + 1} of the blocks has no \"id\": each block has one, or none has", 3)
    order = sorted(range(len(blocks)), key=lambda place: blocks[place]["id"])
    for wanted, place in enumerate(order, FIRST_ID):
        block = blocks[place]
        if block["id"] != wanted:
            raise Stop(f"{places.of('blocks', place, 'id')}: the ids are {FIRST_ID}, {FIRST_ID + 1} and so on without a gap: "
                       f"{block['id']} ({block.get('name', 'no name')}) stands where {wanted} is due", 3)
    return order


def stop_on_names(places, blocks):
    """Names tell blocks apart, and can't be taken for ids or indices."""
    seen = set()
    for place, block in enumerate(blocks):
        name = block.get("name") if isinstance(block, dict) else None
        if name is None:
            continue
        if not isinstance(name, str) or not re.fullmatch(NAME, name) or name.isdigit():
            raise Stop(f"{places.of('blocks', place, 'name')}: {json.dumps(name)} is no name: a text without dots and quotes "
                       "that is no number", 3)
        if name in seen:
            raise Stop(f"{places.of('blocks', place, 'name')}: two blocks have the name {json.dumps(name)}", 3)
        seen.add(name)


def line_of(source):
    """The program's one line of a unit."""
    if not isinstance(source, dict) or not isinstance(source.get("blocks"), list):
        return json.dumps(source, separators=(",", ":"))
    kept = [{key: value for key, value in block.items() if key not in OURS} if isinstance(block, dict) else block
            for block in source["blocks"]]
    return json.dumps({**source, "blocks": kept}, separators=(",", ":"))


def line_with_mirrors(source):
    """The same, in which the manager has the RAM of a synchronized block, a mirror, as C and Python have it."""
    blocks = [{key: value for key, value in {**block, "ram": "permanent"}.items() if key != "repeats"}
              if block.get("ram") == "sync" else block for block in source["blocks"]]
    return line_of({**source, "blocks": blocks})


def is_script(lines):
    """Whether the first line is a configuration by itself, and the others are steps."""
    first = lines[0].strip()
    if first.startswith("@"):
        return True
    if not any(line.strip() for line in lines[1:]):
        return False
    try:
        json.loads(first)
        return True
    except (ValueError, RecursionError):
        pass
    words = [line.split() for line in lines[1:]]
    return any(it and it[0] in steps.FORMS for it in words)


def read_unit(path):
    """The unit of a unit file or of a script; where the program refuses its configuration, an end that says why."""
    given = read_source(path)
    return accept(given, *check(given.line))


def check(line):
    """What the program says of a configuration line, and its status."""
    printed, status = calls.call(["mem", "check"], line + "\n")
    if status in (0, 3) and not (printed and re.match("config ok " if status == 0 else r"config rule \d+ block \d+$", printed[-1])):
        raise Stop(f"{calls.start_of('nvm_bench')} isn't this program: of a configuration it says "
                   f"{printed[-1][:60] if printed else 'nothing'}", 127)
    return printed, status


def read_source(path):
    """What a unit file or a script says, before the program has looked at it."""
    text = calls.read_text(path)
    lines = [steps.without_return(line) for line in text.split("\n")]
    if not is_script(lines):
        return unit_file(path, text)
    first = lines[0]
    # (a last line is a line with or without its newline)
    below = lines[1:-1] if lines[-1] == "" else lines[1:]
    if first.startswith("@") and first != DEMO_LINE:
        return beside_unit(path, first[1:], below)
    source = json.loads(DEMO) if first == DEMO_LINE else parse(path, first)
    return Given(path, first, source, below, below, places=Places(path, first), order=range(MOST_BLOCKS))


def beside_unit(path, name, written):
    """What a script says whose first line names the file of its unit, from the script's folder on: each line below as the program
    reads it."""
    config = os.path.join(os.path.dirname(path), name)
    if not os.path.exists(config):
        raise Stop(f"{path}:1: there is no file {config}: the first line is @demo, a configuration, or @ and the file of a unit")
    unit = unit_file(config, calls.read_text(config))
    is_whole = isinstance(unit.source, dict) and isinstance(unit.source.get("blocks"), list)
    blocks = blocks_of(unit.source) if is_whole else {}
    ids = names.ids_of({number: block for number, block in blocks.items() if isinstance(block, dict)})
    read = [names.plain_step(ids, near, line) for line in written]
    faults = {number: why for number, (_, why) in enumerate(read, 2) if why}
    return unit._replace(path=path, script=[line for line, _ in read], written=written, faults=faults)


def unit_file(path, text):
    source, places, order = parse(path, text), Places(path, text), range(MOST_BLOCKS)
    if isinstance(source, dict) and isinstance(source.get("blocks"), list):
        order = order_by_id(places, source["blocks"])
        stop_on_names(places, source["blocks"])
        source = {**source, "blocks": [source["blocks"][place] for place in order]}
    return Given(path, line_of(source), source, [], config=path, places=places, order=order)


def accept(given, printed, status):
    """The unit, by what the program's check printed of its line, or an end that says why it is refused."""
    if status:
        it = refusal(given, given.source, printed[-1] if printed else "", status)
        raise Stop(f"{it.place}: {it.text}", 3)
    for number, why in given.faults.items():
        raise Stop(f"{given.path}:{number}: {why}", 4)
    return Unit(*given)


# the key by which a rule about several is told
OF_KEY = {7: "sectors", 23: "blocks", 24: "sectors", 26: "eeprom", 27: "length", 28: "eeprom"}
# the rules that the parts of a configuration break together: what is mended of a part would change what they say
TOGETHER = (1, 7, 10, 23, 24, 26, 27, 28)
MOST_REFUSALS = 50


def refusals(given):
    """Each rule that a configuration breaks, in words: the program names the first, and behind it the next of what is left when
    what breaks it is taken out, up to one that many parts break together."""
    source, found = copy.deepcopy(given.source), []
    printed, status = check(given.line)
    while status and len(found) < MOST_REFUSALS:
        said = re.fullmatch(r"config rule (\d+) block (\d+)", printed[-1]) if printed else None
        if found and (not said or int(said[1]) in TOGETHER):
            break
        found.append(refusal(given, source, printed[-1] if printed else "", status))
        if not said or int(said[1]) in TOGETHER or not mend(source, int(said[1]), int(said[2])):
            break
        printed, status = check(line_of(source))
    return found


def mend(source, rule, block):
    """Takes out what breaks a rule, with what depends on it, and returns whether it could."""
    if not isinstance(source, dict):
        return False
    if not block:
        key = key_of(source, rule)
        # (as many sectors as banks share evenly)
        banks = source.get("banks", FEWEST_BANKS)
        sectors = 2 * banks if is_number(banks, FEWEST_BANKS, MOST_BANKS) else 2
        well = {"id": 1, "page": 16, "sector": 4096, "sectors": sectors, "standard": 1, "immediate": 1}
        if key in well:
            source[key] = well[key]
            return True
        return source.pop(key, None) is not None
    place = block - FIRST_ID
    where = source["blocks"][place]
    key = key_of(where, rule)
    if key is None:
        source["blocks"][place] = {"length": 1}
    elif key in ("length", "kind", "nv", "rom"):
        kept = {name: where[name] for name in where if name in (*OURS, "priority", *TRIES)}
        source["blocks"][place] = {**kept, "length": 1}
    else:
        for name in (key, *(FLAGS[:2] if key == "ram" else ())):
            where.pop(name, None)
    return True


def refusal(given, source, printed, status):
    """Why the program refuses a configuration, in words, and where that stands."""
    said = re.fullmatch(r"config rule (\d+) block (\d+)", printed)
    if not said:
        return Finding(Place(given.config or given.path), "status", status, f"the program ends with status {status}: {printed}")
    rule, block = int(said[1]), int(said[2])
    where, what = (source["blocks"][block - FIRST_ID] if block else source), f"rule {rule}"
    if block:
        name = where.get("name") if isinstance(where, dict) else None
        what += f", block {block}" + (f" ({name})" if name else "")
    key = OF_KEY.get(rule) or key_of(where, rule)
    return Finding(place_of(given, block, key), "rule", rule, f"{what}: {broken(source, where, rule, key)}")


def broken(source, where, rule, key):
    """What breaks a rule: the key and its value beside what the manual wants, or the sum that is too great."""
    if rule == 1:
        return "no JSON as the program reads it: one object on one line"
    if rule == 7:
        sector, count = source["sector"], source["sectors"]
        return f"{count} sectors of {sector} are {sector * count} bytes: a flash has at most {MOST_BYTES}"
    if rule == 24:
        return too_small(source)
    if rule in (2, 11):
        if not key:
            return f"{json.dumps(where)[:40]} is no object"
        return f'there is no key "{key}"; {near(key, KEYS if rule == 2 else BLOCK_KEYS)}'
    wanted = next((row for row in manual.rule(rule) if key and key in row[0].split(", ")), manual.rule(rule)[0])
    found = "" if key is None else f'"{key}" is {json.dumps(where[key])[:60]}; ' if key in where else f'"{key}" is missing; '
    if key in FLAGS:
        # (the first part of what to do is about the value, and the other one about the block)
        return f"{found}wanted: true or false" if rule == 19 else found + wanted[2].partition("; ")[2]
    return f"{found}wanted: {wanted[2]}" if key in TRIES else f"{found}wanted: {wanted[1]} ({wanted[2]})"


def is_number(value, least, most):
    return type(value) is int and least <= value <= most


def key_of(where, rule):
    """The key that breaks a rule of an object or a block."""
    if not isinstance(where, dict):
        return None
    single = {3: "id", 4: "page", 5: "sector", 6: "sectors", 8: "standard", 9: "immediate", 10: "blocks", 12: "kind",
              13: "length", 14: "priority", 15: "ram", 16: "defaults", 17: "nv", 18: "rom", 21: "once", 25: "device",
              29: "banks"}
    if rule in single:
        return single[rule]
    # (a script's own line has no names and ids; a unit file's are taken out)
    ours = () if all(key in (*BLOCK_KEYS, *OURS) for key in where) else OURS
    wrong = {2: lambda key: key not in KEYS, 11: lambda key: key not in (*BLOCK_KEYS, *ours),
             19: lambda key: key in FLAGS and not isinstance(where[key], bool), 20: lambda key: key in FLAGS[:2] and where[key],
             22: lambda key: key in TRIES and not is_number(where[key], 0, 7)}
    return next((key for key in where if rule in wrong and wrong[rule](key)), None)


def too_small(source):
    """Rule 24 in numbers."""
    unit = Unit("", "", source, [])
    total, most, urgent, need = unit.room()
    sectors = unit.banks * -(-need * unit.page // unit.sector)
    sectors += sectors % 2 * unit.banks
    way = (f"{sectors} sectors would do" if sectors <= MOST_SECTORS and sectors * unit.sector <= MOST_BYTES else
           "no flash has so many sectors: take smaller pages, or shorten blocks")
    return (f"a bank has {unit.bank_pages} pages and needs {need}: {total} for all instances, twice {most} for the greatest "
            f"write, twice {urgent} for the greatest immediate one, and 1; {way}")
