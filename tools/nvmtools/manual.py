"""The tables of the manual: docs/SCRIPT.md and docs/CONFIGURATION.md."""
import os
import re

from nvmtools.calls import TOP, Stop, read_text

# the pages stand beside the tools, as in the repository and in a release; a wheel brings those that its modules read along
BESIDE = os.path.join(os.path.dirname(os.path.abspath(__file__)), "docs")
PAGES = BESIDE if os.path.isdir(BESIDE) else os.path.join(TOP, "docs")


def plain(cell):
    """A cell without the marks of Markdown."""
    return re.sub(r"\[([^\]]*)\]\([^)]*\)", r"\1", cell).replace("`", "").strip()


def tables(page):
    """The tables of a page of docs/: the headings of each, and its rows by heading."""
    found, headings = [], None
    for line in read_text(os.path.join(PAGES, page)).splitlines():
        cells = [plain(cell) for cell in line.strip().strip("|").split("|")] if line.startswith("|") else None
        if cells is None:
            headings = None
        elif headings is None:
            headings = cells
            found.append((headings, []))
        elif set("".join(cells)) - set("-: "):
            found[-1][1].append(dict(zip(headings, cells)))
    return found


def rows(page, heading):
    """The rows of the tables of a page that have a column of this heading."""
    found = [row for headings, rows_below in tables(page) if heading in headings for row in rows_below]
    if not found:
        raise Stop(f"docs/{page} has no table with a column '{heading}'")
    return found


def commands():
    """What follows the program's name, and what it does."""
    return [(row["Words"], row[""]) for row in rows("SCRIPT.md", "Words")]


def numbered(heading):
    """The rows of a table of numbers in SCRIPT.md: Refusal, Result or Status."""
    return [(row[heading], row.get("Meaning") or row["Why"], row["What to do"]) for row in rows("SCRIPT.md", heading)]


def rule(number):
    """What a rule of the configuration wants: the key, if it is about one, the value, and what to do."""
    found = [row for row in rows("CONFIGURATION.md", "Rule") if str(number) in re.split(r"[, ]+", row["Rule"])]
    return [(row.get("Key", ""), row.get("Value") or row.get("", ""), row["What to do about it"]) for row in found]
