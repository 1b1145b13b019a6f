"""JSON as a person writes it, with comments and a comma behind a last item: what it says, and where each part of it stands."""
import bisect
import json
import re
from collections import namedtuple

from nvmtools.tool import Stop

# a text, a number, true, false or null, or a mark between them
TOKEN = re.compile(r'"(?:\\.|[^"\\])*"|[^\s",:{}\[\]]+|[{}\[\],:]')
# a text stays; a comment, and a comma before the end of an object or an array, are blanks
IGNORED = re.compile(r'("(?:\\.|[^"\\])*")|//[^\n]*|,(?=(?:\s|//[^\n]*(?:\n|$))*[\]}])')
MOST_DIGITS = 20
MOST_SHOWN = 78


class Place(namedtuple("Place", "file line column", defaults=(None, None))):
    """A place in a file, which is told as FILE:LINE:COLUMN, as far as it is known."""

    def __str__(self):
        return ":".join(str(it) for it in self if it is not None)


def without_comments(text):
    """The same text with blanks in place of comments and of commas behind a last item, so that each place stays."""
    return IGNORED.sub(lambda it: it[1] or " " * len(it[0]), text)


def has_comments(text):
    return any(it[0].startswith("//") for it in IGNORED.finditer(text))


def parse(path, text, what="rule 1: no JSON"):
    """What a JSON text says, or an end that shows the place where it is none."""
    bare = without_comments(text)
    long = next((it for it in TOKEN.finditer(bare) if it[0][0] in "-0123456789" and len(it[0]) > MOST_DIGITS), None)
    try:
        if long:
            raise json.JSONDecodeError(f"a number of more than {MOST_DIGITS} digits", bare, long.start())
        return json.loads(bare)
    except json.JSONDecodeError as error:
        line = text.split("\n")[error.lineno - 1].rstrip("\r")
        start = max(0, error.colno - 40)
        place = f"\n  {line[start:start + MOST_SHOWN]}\n  {' ' * (error.colno - 1 - start)}^" if line else ""
        raise Stop(f"{Place(path, error.lineno, error.colno)}: {what}: {error.msg}{place}", 3) from None
    except RecursionError:
        raise Stop(f"{path}: {what}: nested deeper than 127", 3) from None


class Places:
    """Where the keys and items of a JSON text stand, each by the way to it, as ("blocks", 3, "length")."""

    def __init__(self, path, text):
        self.path, self.found = path, {}
        self.lines = [it.start() + 1 for it in re.finditer("\n", text)]
        way = []
        for token in TOKEN.finditer(without_comments(text)):
            if token[0] == ",":
                way[-1] = None if isinstance(way[-1], str) else way[-1] + 1
            elif token[0] in ("]", "}"):
                way.pop()
            elif token[0] != ":" and way and way[-1] is None:
                way[-1] = json.loads(token[0])
                self.found[tuple(way)] = token.start()
            elif token[0] != ":":
                self.found.setdefault(tuple(way), token.start())
                way += {"{": [None], "[": [0]}.get(token[0], [])

    def of(self, *way):
        """The place of a part, or of what it would be in."""
        while way and way not in self.found:
            way = way[:-1]
        at = self.found.get(way, 0)
        line = bisect.bisect_right(self.lines, at)
        return Place(self.path, line + 1, at - (self.lines[line - 1] if line else 0) + 1)
