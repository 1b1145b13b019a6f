"""The lines behind the configuration: steps of `play`, or the first line that is none."""
import re

from nvmpeer.stack import Step
from nvmpeer.texts import content_of

FORMS = {**dict.fromkeys(("read", "readram", "writeram", "restore", "restoreram", "erase", "invalidate", "getindex", "status"), "b"),
         **dict.fromkeys(("write", "ram"), "bc"), "setindex": "bi", **dict.fromkeys(("protect", "lock", "setram"), "bf"),
         **dict.fromkeys(("readall", "writeall", "cancel", "drain", "restart"), ""), "turn": "t", "cut": "nk", "cutee": "nk", "refuse": "br"}
RANGES = {"b": (0, 65535), "i": (0, 255), "f": (0, 1), "t": (1, 100_000), "n": (1, 1_000_000), "k": (0, 256), "r": (1, 1000)}
WITHOUT_CALLER = ("turn", "drain", "restart", "cut", "cutee", "refuse")


class Wrong(Exception):
    """The number of the first line that is no step."""


def number_of(word, least, most):
    if not re.fullmatch("0|[1-9][0-9]{0,9}", word, re.ASCII) or not least <= int(word) <= most:
        return None
    return int(word)


def lines_of(data):
    """The lines of an input; the last one needs no newline."""
    lines = data.split(b"\n")
    if lines[-1] == b"":
        lines.pop()
    return [it[:-1] if it.endswith(b"\r") else it for it in lines] or [b""]


def step_of(config, number, line):
    try:
        text = line.decode("ascii")
    except UnicodeDecodeError:
        raise Wrong(number) from None
    caller = 0
    words = text.split(" ")
    if words[0].endswith(":"):
        caller = number_of(words[0][:-1], 0, 15)
        words = words[1:]
        if caller is None or not words or words[0] in WITHOUT_CALLER:
            raise Wrong(number)
    form = FORMS.get(words[0])
    if form is None or len(form) != len(words) - 1:
        raise Wrong(number)
    fields = [content_of(word) if it == "c" else number_of(word, *RANGES[it]) for it, word in zip(form, words[1:])]
    if None in fields or words[0] == "cutee" and not config.second:
        raise Wrong(number)
    block, given = (fields + [None])[:2] if form[:1] == "b" else (0, fields or None)
    it = config.blocks.get(block)
    is_synchronized = it is not None and it.ram == "sync"
    if words[0] == "refuse" and not is_synchronized or words[0] == "ram" and is_synchronized and len(given) != it.length:
        raise Wrong(number)
    return Step(number, caller, words[0], block, bool(given) if form[1:] == "f" else given)


def steps_of(config, lines):
    """The steps of the lines from the second one on."""
    return [step_of(config, number, line) for number, line in enumerate(lines, 2) if line and not line.startswith(b"#")]
