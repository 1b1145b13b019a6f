"""Runs of the worked cases' program side by side, whose lines are read as they come; and how rows of them are told."""
import contextlib
import os
import re
import signal
import sys
import time
from collections import namedtuple

from nvmtools import calls
from nvmtools.calls import Stop

# of a mark so many letters are shown
MOST_MARK = 40
NOTHING, THE_SAME = "nothing", "the same"
# seconds between two signs of life
BETWEEN = 0.1
# what the judge prints of a history: a mark that may not stand, and what was judged
WRONG = re.compile(r"\d+: the mark in (\d+)\.(\d+) isn't allowed behind (\d+) entries")
COUNTS = re.compile(r"runs \d+ cuts (\d+) start-ups (\d+) contents \d+ .*")
# of a history: the marks that may not stand, each a block, an index and the entries before it, and what was judged
Judged = namedtuple("Judged", "wrong power_cuts start_ups")


def add_jobs(words):
    words.add_argument("--jobs", type=int, default=None, metavar="N", help="runs that are made side by side (one a processor)")


def jobs_of(given):
    """How many processes run side by side."""
    if given.jobs is not None and not 1 <= given.jobs <= 256:
        raise Stop("--jobs is 1 to 256")
    return given.jobs or os.cpu_count() or 1


def text_of(number, case):
    """A worked case as its program reads it."""
    return "\n".join([f"case {number}", f"words mem {case.command}", *(f"< {line}" for line in case.lines), *case.more, "", ""])


def begin(texts):
    """The program on each of some inputs, all at once: of each the lines as they come."""
    coming = [calls.lines_of([], text, "nvm_rows") for text in texts]
    return [with_first(next(lines, None), lines) for lines in coming]


def with_first(first, lines):
    """These lines behind the first one, which was read so that the program is started."""
    if first is not None:
        yield first
        status = yield from lines
        if status:
            raise Stop(f"the worked cases' program ends with status {status}", 4)


def each_case(cases, jobs):
    """What is printed of each of some worked cases, in their order and as it comes."""
    jobs = max(1, min(jobs, len(cases)))
    shares = ["".join(text_of(number, case) for number, case in enumerate(cases) if number % jobs == share)
              for share in range(jobs)]
    coming = begin(shares) if cases else []
    for number in range(len(cases)):
        yield calls.tried_of(lines_of_case(coming[number % jobs]))


def lines_of_case(coming):
    """The lines of the next case, which an empty line ends."""
    found = []
    for line in coming:
        if not line and found:
            return found
        if line and not line.startswith("case "):
            found.append(line)
    raise Stop(calls.SHORT, 4)


def judged(unit, run, further):
    """What the judge of the worked cases' program says of a history and of what a further call printed."""
    text = ["case 0", "words mem play", f"< {unit.line}", *(f"printed {it}" for it in run), f"printed end {len(run)}",
            *(f"further {it}" for it in further), ""]
    printed, status = calls.call([], "\n".join(text), "nvm_rows")
    counts = next((found for line in printed if (found := COUNTS.fullmatch(line))), None)
    if status or not counts:
        raise Stop(f"no history of {unit.path}: {printed[-1] if printed else 'no output'}", 4)
    return Judged([tuple(map(int, found.groups())) for line in printed if (found := WRONG.fullmatch(line))], int(counts[1]), int(counts[2]))


# a call over the image files of both flashes of a unit: the history, that of a further start-up over what they are then, and the bytes
Both = namedtuple("Both", "history further data")


def over_both(unit, lines):
    """Plays a script over a blank flash and a blank second one, in files that are gone then."""
    with calls.scratch() as folder:
        paths = [os.path.join(folder, name) for name in ("first", "second")]
        history = calls.play_well([unit.line, *lines], *paths)
        data = [calls.read_file(it) for it in paths]
        return Both(history, calls.play_well([unit.line], *paths), data)


class Progress:
    """How far the runs are, on standard error where that is a terminal."""

    def __init__(self, what):
        self.what, self.done, self.all, self.told, self.shown = what, 0, 0, 0.0, sys.stderr.isatty()

    def add(self, count):
        self.done += count
        if self.shown and time.monotonic() - self.told > BETWEEN:
            self.told = time.monotonic()
            print(f"\r{self.says()}", end="", file=sys.stderr, flush=True)

    def says(self):
        return f"{self.done:,} of {self.all:,} {self.what}"

    def clear(self):
        """Takes the sign off the terminal, where a row follows."""
        if self.shown:
            print("\r\033[K", end="", file=sys.stderr, flush=True)

    def print(self, text):
        self.clear()
        print(text, flush=True)


@contextlib.contextmanager
def told_when_ended(progress, print_rest):
    """Prints what isn't printed yet, and how far it came, also where the tool is ended before."""
    before = signal.signal(signal.SIGTERM, lambda number, _: sys.exit(128 + number))
    try:
        yield
        print_rest()
    except (KeyboardInterrupt, SystemExit):
        print_rest()
        progress.print(f"ended behind {progress.says()}")
        raise
    finally:
        progress.clear()
        signal.signal(signal.SIGTERM, before)


def short(mark):
    return mark if mark is None or len(mark) <= MOST_MARK else f"{mark[:MOST_MARK]}.. ({len(mark) // 2} bytes)"


def differences(unit, above, found):
    """What a start-up found, as the difference to the row above: + where an instance has a mark that had none, - where it has none any
    more, and -> where it has another one. All marks stand there where that is shorter, and in the first row."""
    if not found:
        return NOTHING
    whole = [f"{unit.instance(it)} {short(mark)}" for it, mark in found.items()]
    if above is None:
        return ", ".join(whole)
    if found == above:
        return THE_SAME
    changed = [f"+{unit.instance(it)} {short(mark)}" if it not in above
               else f"{unit.instance(it)} {short(above[it])} -> {short(mark)}"
               for it, mark in found.items() if above.get(it) != mark]
    changed += [f"-{unit.instance(it)}" for it in above if it not in found]
    return ", ".join(min(whole, changed, key=lambda items: (sum(map(len, items)), items is whole)))
