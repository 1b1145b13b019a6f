"""Contents as the program reads and prints them: docs/SCRIPT.md, 'What you write' and 'What you read'."""
import re

MOST = 4096


def read_content(text):
    """The bytes of a content, or None where the text is none."""
    repeated = re.fullmatch(r"([0-9a-fA-F]{2})\*([1-9][0-9]{0,3})", text)
    if repeated:
        count = int(repeated[2])
        return bytes.fromhex(repeated[1]) * count if count <= MOST else None
    if re.fullmatch(r"([0-9a-fA-F]{2})+", text) and len(text) <= 2 * MOST:
        return bytes.fromhex(text)
    return None


def print_content(data):
    """A content as the program prints it."""
    return f"{data[0]:02x}*{len(data)}" if len(data) >= 5 and len(set(data)) == 1 else data.hex()
