"""Contents and marks, as they are written and printed."""
import re

MOST = 4096


def content_of(text):
    """The bytes of a content, or None."""
    if it := re.fullmatch(r"([0-9a-fA-F]{2})\*([1-9][0-9]*)", text, re.ASCII):
        return bytes.fromhex(it[1]) * int(it[2]) if len(it[2]) < 5 and int(it[2]) <= MOST else None
    if re.fullmatch(r"([0-9a-fA-F][0-9a-fA-F])+", text, re.ASCII) and len(text) <= 2 * MOST:
        return bytes.fromhex(text)
    return None


def shown(content):
    return f"{content[0]:02x}*{len(content)}" if len(content) >= 5 and content == content[:1] * len(content) else content.hex()


def mark_shown(mark):
    """A mark is a content, INVALID, or None for Erased."""
    return "erased" if mark is None else "invalid" if mark == INVALID else f"data {shown(mark)}"


INVALID = "invalid"
