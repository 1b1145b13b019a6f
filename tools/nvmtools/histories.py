"""The lines of a history, as docs/SCRIPT.md has them ('What you read'), and which marks may stand then (docs/MODEL.md, 'What it
is')."""
import re
from collections import namedtuple

from nvmtools import contents
from nvmtools.files import MOST, read_text
from nvmtools.tool import Stop

RESULTS = ("done", "FAILED", "pending", "never written, no defaults", "passed over", "invalidated", "canceled",
           "ONE COPY OF TWO", "defaults given")
# results that aren't what was asked for
BAD_RESULTS = (1, 3, 5, 7)
REFUSALS = ("", "no such block", "the power is off", "no such request of this block", "no such dataset", "wrong length",
            "no RAM", "no defaults", "not immediate", "written once", "a request for all blocks is pending",
            "a job of this block is pending", "locked", "protected", "a ROM dataset", "nothing to cancel", "the queue is full",
            "the history is full")
WRITES = ("write", "invalidate", "erase")

NUMBER = "[0-9]{1,18}"
CONTENT = r"(?:[0-9a-f]{2}\*[1-9][0-9]{0,3}|(?:[0-9a-f]{2})+)"
MARK = f"(?:data {CONTENT}|invalid|erased)"
# an entry, or what stands behind the last one
LINE = re.compile(
    rf"(?:found {NUMBER}(?: {NUMBER}\.{NUMBER} {MARK})*|off|wrote {NUMBER}\.{NUMBER} {MARK}"
    rf"|pick {NUMBER} (?:read|restore|erase|invalidate|readall|writeall"
    rf"|write (?:{CONTENT}(?: store {NUMBER})?|refused {NUMBER}|stale {NUMBER} {NUMBER}))"
    rf"|post {NUMBER} [0-8](?: data {CONTENT}| refused {NUMBER})?) ops {NUMBER}"
    rf"|ask {NUMBER} (?:(?:readall|writeall|cancel)|[a-z]+ {NUMBER}(?: store {NUMBER}| {NUMBER}| {CONTENT})?)"
    rf" -> (?:ok|refused (?:[1-9]|1[0-7])|status [0-8]|index {NUMBER})")
LAST = re.compile(rf"end {NUMBER}|uds [0-9a-f]+|flash fault|flash in use|history full|power off")

# an entry: its line, its first word, its other words, and the operations of its line, if it has them
Entry = namedtuple("Entry", "line kind words ops")


def entries(lines, path="the program's output"):
    """The entries of a history, without its last line."""
    found = []
    for number, line in enumerate(lines, 1):
        if not line or LAST.fullmatch(line):
            continue
        if not LINE.fullmatch(line):
            raise Stop(f"{path}:{number}: no line of a history: {line[:60]}", 4)
        text, _, ops = line.rpartition(" ops ") if not line.startswith("ask ") else (line, "", None)
        kind, _, rest = text.partition(" ")
        found.append(Entry(line, kind, rest.split(), ops and int(ops)))
    return found


def history_of(unit, path, most=MOST):
    """The entries of a history of this unit, of at most so many bytes, that a file holds, or standard input where the path is '-'."""
    found = entries(read_text(path, most).split("\n"), path)
    if not found or found[0].kind != "found":
        raise Stop(f"{path}: no history: its first line is a start-up, found ..", 4)
    for it in found:
        if why := why_of_another(unit, it):
            raise Stop(f"{path}: no history of {unit.path}, which has {why}: {it.line[:60]}", 4)
    return found


def why_of_another(unit, entry):
    """What a unit has otherwise than an entry tells, or None."""
    if entry.kind in ("pick", "post") and block_of(entry) not in (0, *unit.blocks):
        return f"no block {block_of(entry)}"
    marks = found_marks(entry) if entry.kind == "found" else {entry.words[0]: mark_in(entry.words[1:])[0]} if entry.kind == "wrote" else {}
    for instance, mark in marks.items():
        block, index = map(int, instance.split("."))
        if block not in unit.blocks or index >= unit.instances(block):
            return f"no instance {instance}"
        length = unit.blocks[block]["length"]
        if mark not in (None, "invalid") and len(contents.read_content(mark) or b"") != length:
            return f"{length} bytes in block {block}"
    return None


def block_of(entry):
    """The block that an entry is about, 0 for a request on all blocks, or None."""
    if entry.kind in ("pick", "post"):
        return int(entry.words[0])
    if entry.kind == "wrote":
        return int(entry.words[0].split(".")[0])
    if entry.kind == "ask":
        return int(entry.words[2]) if entry.words[2].isdigit() else 0
    return None


def operations_of(unit, entries):
    """The numbers of the operations of each flash of a unit, by the block of the job in hand: with none in hand it is the first one."""
    found, hand, last = [[], []], None, 0
    for entry in entries:
        if entry.ops is None:
            continue
        is_second = hand in unit.blocks and not unit.is_first(hand)
        found[is_second] += range(last + 1, entry.ops + 1)
        last = entry.ops
        if entry.kind != "wrote":
            hand = block_of(entry) if entry.kind == "pick" else None
    return found


def refused(entry):
    """The number of a request's refusal, or None."""
    return int(entry.words[-1]) if entry.kind == "ask" and entry.words[-2] == "refused" else None


def result(entry):
    """The result of a job that ended, or None."""
    return int(entry.words[1]) if entry.kind == "post" else None


def first_posts(entries):
    """The places of the Posts of members, and of the whole, in each ReadAll of a first start: no id is stored, or another one (of
    block 1 it ends with 8), and else nothing failed but that blocks without defaults were never written."""
    places, begun = set(), None
    for place, entry in enumerate(entries):
        if entry.kind == "pick" and entry.words == ["0", "readall"]:
            begun = place
        elif entry.kind in ("found", "off"):
            begun = None
        elif begun is not None and entry.kind == "post" and entry.words[0] == "0":
            posts = [it for it in range(begun, place) if entries[it].kind == "post"]
            results = {it: result(entries[it]) for it in posts}
            if result(entry) == 1 and any(entries[it].words[0] == "1" and results[it] == 8 for it in posts) \
                    and set(results.values()) <= {0, 3, 8}:
                places |= {place, *(it for it in posts if results[it] == 3)}
            begun = None
    return places


def mark_in(words):
    """A mark at the beginning of some words, and how many they are; Erased is None."""
    if words[0] == "data":
        return words[1], 2
    return (None if words[0] == "erased" else words[0]), 1


def found_marks(entry):
    """What a start-up found, by instance."""
    words, marks = entry.words[1:], {}
    while words:
        mark, count = mark_in(words[1:])
        marks[words[0]] = mark
        words = words[1 + count:]
    return marks


def in_words(unit, entry):
    """An entry as a sentence."""
    words = entry.words
    if entry.kind == "ask":
        asked, _, reply = " ".join(words[1:]).partition(" -> ")
        number = int(reply.split()[-1]) if " " in reply else 0
        says = {"ok": "accepted", "refused": f"REFUSED: {REFUSALS[number] if number < len(REFUSALS) else number}",
                "status": f"status: {RESULTS[number] if number < len(RESULTS) else number}",
                "index": f"index {number}"}[reply.split()[0]]
        return f"caller {words[0]} asks: {unit.step(asked.split())}: {says}"
    if entry.kind == "pick":
        return f"{unit.called(int(words[0]))}: {' '.join(words[1:])} is taken in hand"
    if entry.kind == "wrote":
        return f"instance {unit.instance(words[0])} is stored: {' '.join(words[1:])}"
    if entry.kind == "post":
        ended = f"{unit.called(int(words[0]))}: ended, {RESULTS[int(words[1])]}"
        return f"{ended}: {' '.join(words[2:])}" if words[2:] else ended
    if entry.kind == "off":
        return "THE POWER IS OFF"
    found = found_marks(entry)
    return f"a start-up finds {words[0]} marks" + (f": {unit.marks(found)}" if found else "")


class Marks:
    """Which marks may stand in each instance: the settled one, and its doubts. Instances that aren't named hold nothing."""

    def __init__(self, unit):
        self.unit, self.settled, self.doubts, self.index = unit, {}, {}, {}

    def add(self, entry):
        if entry.kind == "found":
            self.settled, self.doubts, self.index = found_marks(entry), {}, {}
        elif entry.kind == "ask" and entry.words[1] == "setindex" and entry.words[-1] == "ok":
            self.index[entry.words[2]] = int(entry.words[3])
        elif entry.kind == "wrote":
            self.settled[entry.words[0]] = mark_in(entry.words[1:])[0]
            self.doubts.pop(entry.words[0], None)
        elif entry.kind == "pick" and entry.words[1] in WRITES and entry.words[2:3] not in (["refused"], ["stale"]):
            mark = entry.words[2] if entry.words[1] == "write" else "invalid" if entry.words[1] == "invalidate" else None
            for instance in self.instances(entry.words[0]):
                self.doubts.setdefault(instance, []).append(mark)

    def instances(self, block):
        """The instances that a write of a block works on."""
        first = self.index.get(block, 0)
        return [f"{block}.{first + copy}" for copy in range(self.unit.copies(int(block)))]

    def wrong(self, found):
        """The instances in which a start-up found a mark that may not stand there."""
        every = {*found, *self.settled, *self.doubts}
        return sorted(it for it in every if found.get(it) != self.settled.get(it)
                      and found.get(it) not in self.doubts.get(it, []))


def marks_behind(unit, lines):
    marks = Marks(unit)
    for entry in entries(lines):
        marks.add(entry)
    return marks
