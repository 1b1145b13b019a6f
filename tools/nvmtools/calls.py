"""Calls of the program and of the worked cases' program. What a tool needs to begin and end, and of files, is passed on."""
import functools
import os
import re
import select
import signal
import subprocess
import tempfile
from collections import namedtuple

from nvmtools.files import read_file, read_text, scratch
from nvmtools.tool import Stop, run_tool

__all__ = ["Stop", "read_file", "read_text", "run_tool", "scratch"]

TOP = os.path.dirname(os.path.dirname(os.path.dirname(os.path.abspath(__file__))))
# where ./nvm couldn't start the program, it says why itself
NOT_STARTED = (125, 126, 127)
# what the program ends with where a unit has a second device and no flash is named for it
NO_SECOND = 14
# a program that NVM or NVM_ROWS names is given up where it prints nothing for so many seconds, or more than so much
SECONDS = 600
MOST_ANSWER, MOST_LINES = 1 << 30, 1_000_000
# seconds that a program has to end once it is told to
ENDING = 2


def start_of(program):
    """The file that is started for a program: NVM or NVM_ROWS may name another one in place of ./nvm."""
    return os.environ.get({"nvm_bench": "NVM", "nvm_rows": "NVM_ROWS"}[program]) or f"{TOP}/nvm"


def silence(start):
    """For how many seconds a program may print nothing: ./nvm for ever, as it may have to prove and build the program first."""
    told = os.environ.get("NVM_SECONDS", "")
    if told and not re.fullmatch("[1-9][0-9]{0,5}", told):
        raise Stop(f"NVM_SECONDS is {told[:20]}: a number of seconds")
    return int(told) if told else None if start == f"{TOP}/nvm" else SECONDS


def lines_of(words, text, program="nvm_bench"):
    """Calls a program of this repository with words and an input: yields its lines as they come, and returns its status."""
    start = start_of(program)
    limit = silence(start)
    with tempfile.TemporaryFile() as given:
        given.write(text.encode())
        given.seek(0)
        try:
            ran = subprocess.Popen([start, *words], stdin=given, stdout=subprocess.PIPE, start_new_session=True,
                                   env={**os.environ, "NVM_PROGRAM": program})
        except (OSError, ValueError) as error:
            raise Stop(f"{start}: {getattr(error, 'strerror', error)}", 127) from None
    try:
        yield from lines_in(ran.stdout, start, limit)
        ran.wait(limit)
    except subprocess.TimeoutExpired:
        raise Stop(f"{start} doesn't end: nothing came for {limit} seconds", 127) from None
    finally:
        if ran.poll() is None:
            stop(ran)
        ran.stdout.close()
    if ran.returncode in NOT_STARTED or ran.returncode < 0:
        raise Stop(f"{start} ended with {ran.returncode}", 127)
    return ran.returncode


def stop(ran):
    """Ends a program with all that it called; ./nvm may be building, and then its toolchain is told first."""
    os.killpg(ran.pid, signal.SIGTERM)
    try:
        ran.wait(ENDING)
    except subprocess.TimeoutExpired:
        os.killpg(ran.pid, signal.SIGKILL)
        ran.wait()


def lines_in(pipe, start, limit):
    """The lines that come through a pipe."""
    size, begun = 0, []
    while True:
        if not select.select([pipe], [], [], limit)[0]:
            raise Stop(f"{start} doesn't answer: nothing came for {limit} seconds", 127)
        part = os.read(pipe.fileno(), 1 << 16)
        size += len(part)
        if size > MOST_ANSWER:
            raise Stop(f"{start} doesn't end: more than {MOST_ANSWER:,} bytes came", 127)
        *whole, rest = part.split(b"\n")
        for line in whole:
            yield b"".join([*begun, line]).decode(errors="replace")
            begun = []
        if not part:
            break
        begun.append(rest)
    if last := b"".join(begun):
        yield last.decode(errors="replace")


def call(words, text, program="nvm_bench"):
    """Calls a program of this repository with words and an input: its lines and its status."""
    lines, coming = [], lines_of(words, text, program)
    while len(lines) <= MOST_LINES:
        try:
            lines.append(next(coming))
        except StopIteration as end:
            return lines, end.value
    raise Stop(f"{start_of(program)} doesn't end: more than {MOST_LINES:,} lines came", 127)


@functools.lru_cache(None)
def takes_second():
    """Whether the program plays over a second device's flash: one that doesn't takes the words for wrong ones."""
    return call(["mem", "play", "mem"], "@demo\n")[1] == 0


def second_in_memory(unit):
    """The word for the flash of a unit's second device, or None where it has none or the program plays over none: then it says so itself."""
    return "mem" if unit.second and takes_second() else None


def play(lines, image="mem", second=None):
    """The history of a script, and the status."""
    return call([image, "play", *([second] if second else [])], "\n".join(lines) + "\n")


def play_well(lines, image="mem", second=None):
    """The history of a script that is played to its end."""
    history, status = play(lines, image, second)
    stop_on_end(image, history, status)
    return history


def stop_without_second(unit):
    """Ends where the program has no words for the flash of a unit's second device."""
    if unit.second and not takes_second():
        raise Stop(f'{unit.path}: it has a second device ("eeprom"), and {start_of("nvm_bench")} plays over none', NO_SECOND)


def stop_on_end(path, history, status):
    """Ends where a script wasn't played to its end."""
    if status == 4:
        raise Stop(f"{path}: line {history[-1].split()[-1]} is no step; tools/lint says why", 4)
    if status:
        last = history[-1] if history else "no output"
        raise Stop(f"{path}: the program ends with status {status}: {last} (./nvm --status {status})", 4)


# a worked case: the command, the lines of its input, and what else is shown
Case = namedtuple("Case", "command lines more")
# what the program of the worked cases prints of one: what was written, the status, and what was asked for beside
Tried = namedtuple("Tried", "written status rest")


SHORT = "the worked cases' program printed less than was asked for"


def try_cases(cases):
    """Runs worked cases in memory: for each what is printed of it. docs/CONTRIBUTING.md has what a case's line means."""
    text = []
    for number, case in enumerate(cases):
        text += [f"case {number}", f"words mem {case.command}", *(f"< {line}" for line in case.lines), *case.more, ""]
    printed, status = call([], "\n".join(text), "nvm_rows")
    if status:
        raise Stop(f"the worked cases' program ends with status {status}", 4)
    found, last = [], None
    for line in printed:
        if line.startswith("case "):
            last = []
            found.append(last)
        elif line:
            last.append(line)
    if len(found) != len(cases):
        raise Stop(SHORT, 4)
    return [tried_of(lines) for lines in found]


def tried_of(lines):
    """What is printed of a case, but for its name."""
    end = next((place for place, line in enumerate(lines) if re.fullmatch("status [0-9]{1,3}", line)), None)
    if end is None:
        raise Stop(SHORT, 4)
    return Tried([line[2:] for line in lines[:end]], int(lines[end].split()[1]), lines[end + 1:])
