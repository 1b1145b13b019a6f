"""Names and texts in the steps of a script that stands beside its unit: docs/SCRIPT.md, 'Names'."""
import json
import re

from nvmtools import steps
from nvmtools.contents import print_content

# a field: a text in quotes, or anything without a space and a quote
FIELD = re.compile(r'"(?:[^"\\]|\\.)*"|[^ "]+')
LINE = re.compile(rf"(?:{FIELD.pattern})(?: (?:{FIELD.pattern}))*")
NUMBER = re.compile(r"(be|le)(8|16|24|32|40|48|56|64):([0-9]{1,20})")
ORDERS = {"be": "big", "le": "little"}


def ids_of(blocks):
    """The ids of blocks by their names."""
    return {block["name"]: number for number, block in blocks.items() if block.get("name")}


def plain_step(ids, near, line):
    """A step as the program reads it; and why it is none, where a name or a content of it can't be read."""
    text = steps.without_return(line)
    if steps.is_idle(line):
        return line, None
    if not LINE.fullmatch(text):
        return line, "a quote that isn't closed, or a space that is missing beside one" if '"' in text else None
    words = FIELD.findall(text)
    start = 1 if re.fullmatch(r"[0-9]+:", words[0]) and len(words) > 1 else 0
    form = steps.FORMS.get(words[start], "")
    if len(words) - start - 1 != len(form):
        return line, None
    fields = []
    for kind, word in zip(form, words[start + 1:]):
        field, why = plain_block(ids, near, word) if kind == "B" else plain_content(word) if kind == "C" else (word, None)
        if why:
            return line, why
        fields.append(field)
    return " ".join([*words[:start + 1], *fields]), None


def plain_block(ids, near, word):
    """The id that a block's name, in quotes or without them, stands for. A number stands for itself."""
    if re.fullmatch(r"[0-9]+", word):
        return word, None
    name = text_of(word) if word.startswith('"') else word
    if name in ids:
        return str(ids[name]), None
    return word, f'no block {word[:24]}; {near(name or "", list(ids))}'


def plain_content(word):
    """A content as the program reads it: "text" is its bytes in UTF-8, and be32:4711 or le16:7 a number in so many bits, its
    highest or its lowest byte first."""
    number = NUMBER.fullmatch(word)
    if number:
        size, value = int(number[2]) // 8, int(number[3])
        if value >= 256 ** size:
            return word, f"{value} takes more than {size} bytes"
        return value.to_bytes(size, ORDERS[number[1]]).hex(), None
    if not word.startswith('"'):
        return word, None
    text = text_of(word)
    if not text:
        return word, f"no text {word[:24]}: a JSON text of one character or more"
    return print_content(text.encode()), None


def text_of(word):
    """The text that stands in quotes, as JSON has it, or None."""
    try:
        text = json.loads(word)
        text.encode()
    except ValueError:
        return None
    return text


def word_of_c(name, number):
    """The name of a block, if it has one, as one word of C: of "fault memory" it is FaultMemory."""
    parts = re.findall(r"[A-Za-z0-9]+", name or f"Block {number}")
    text = "".join(part[0].upper() + part[1:] for part in parts)
    return text if re.fullmatch("[A-Za-z_][A-Za-z0-9_]*", text) else f"Block{number}{text}"
