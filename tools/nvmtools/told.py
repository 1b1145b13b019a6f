"""What is told of an ECU configuration that becomes a unit: what was dropped, changed or refused, and the parameters that it takes."""
import re
from collections import namedtuple

REFUSED = 3
MOST_DIGITS, SHOWN = 20, 60

# what is told of a parameter: its place, whether it was dropped, changed or refused, its path, the text, and the status where it was refused
Line = namedtuple("Line", "place verdict path text status", defaults=(0,))


class Told:
    """What is told of a description, line by line."""

    def __init__(self):
        self.lines, self.others = [], []

    def drop(self, place, path, text):
        self.lines.append(Line(place, "dropped", path, text))

    def change(self, place, path, text):
        self.lines.append(Line(place, "changed", path, text))

    def refuse(self, place, path, text, status=REFUSED):
        self.lines.append(Line(place, "refused", path, text, status))

    def status(self):
        """The status of what was refused first, or 0."""
        return next((it.status for it in self.lines if it.status), 0)


def shown(text):
    """A text of a description on one line."""
    line = " ".join((text or "").split())
    return line if len(line) <= SHOWN else line[:SHOWN] + ".."


def is_flag(text):
    return text.lower() in ("true", "false", "1", "0")


def flag_of(text):
    return text.lower() in ("true", "1")


def number_of(text):
    """A whole number as ARXML writes it, or None."""
    if len(text) > MOST_DIGITS:
        return None
    for form, base in ((r"\+?(0[xX][0-9a-fA-F]+)", 16), (r"\+?(0[bB][01]+)", 2), (r"\+?(0[0-7]*)", 8), (r"\+?([1-9][0-9]*)(?:\.0*)?", 10)):
        if found := re.fullmatch(form, text, re.ASCII):
            return int(found[1], base)
    return None


class Taker:
    """Takes parameters out of containers, and tells of those that can't be."""

    def __init__(self, told):
        self.told = told

    def take(self, container, name):
        """A parameter that is there and not empty, or None."""
        container.used.add(name)
        value = container.values.get(name)
        return value if value and value.text else None

    def number(self, container, name, usual=None, least=0, most=None):
        value = self.take(container, name)
        if not value:
            return usual
        number = number_of(value.text)
        if number is None or number < least or most is not None and number > most:
            limits = f"{least} or more" if most is None else f"{least} to {most}"
            self.refuse(container, value, f"a whole number is wanted, {limits}" if number is None else f"it is {limits} here")
            return usual
        return number

    def flag(self, container, name, usual=False):
        value = self.take(container, name)
        if value and not is_flag(value.text):
            self.refuse(container, value, "true or false is wanted")
        return flag_of(value.text) if value else usual

    def refuse(self, container, value, text, status=REFUSED):
        self.told.refuse(value.place, path_of(container, value), text, status)

    def change(self, container, name, text):
        """Tells that a parameter was taken as something else."""
        value = container.values.get(name) or container.references.get(name)
        self.told.change(value.place if value else container.place, path_of(container, value) if value else container.path, text)

    def drop(self, container, value, text):
        self.told.drop(value.place, path_of(container, value), text)


def path_of(container, value):
    """A parameter's path, with what it is."""
    return f"{container.path}/{value.name}" + (f" = {shown(value.text)}" if value.text is not None else "")
