"""How a tool begins and ends: its words and its help, one line where it can't go on, and its one JSON object."""
import argparse
import contextlib
import json
import os
import shutil
import signal
import subprocess
import sys
import textwrap

# what ./nvm ends with where standard input or output is closed, or can't be read or written
NO_INPUT, NO_OUTPUT = 5, 6
NO_MEMORY = 8
INTERRUPTED, KILLED = 130, 128
# of the JSON object that a tool prints: raised where a key goes, or means something else
FORMAT = 1


class Stop(Exception):
    """Ends a tool with one line and a status that isn't 0."""

    def __init__(self, text, status=2):
        super().__init__(text)
        self.status = status


class Words(argparse.ArgumentParser):
    """The words of a tool. Wrong ones get one line."""

    def error(self, message):
        self.exit(2, f"{self.prog}: {message}; see {self.prog} --help\n")

    def _print_message(self, message, file=None):
        # (argparse's own one takes a help that can't be written for one that was)
        (file or sys.stderr).write(message or "")


def words_of(doc, add_words, name=None):
    """The words of a tool, whose help is its doc."""
    wide = min(shutil.get_terminal_size().columns, 100)
    about = "\n\n".join(textwrap.fill(" ".join(it.split()), wide) for it in doc.split("\n\n"))
    words = Words(prog=name, description=about, formatter_class=argparse.RawDescriptionHelpFormatter)
    add_words(words)
    return words


def add_json(words):
    """Lets a tool take --json, which tell answers."""
    words.add_argument("--json", action="store_true", help="one JSON object, to be read by a program")


def tell(given, status, **told):
    """Prints the one object that a tool prints with --json, as docs/TOOLS.md has its form, and gives back the status."""
    print(json.dumps({"tool": given.tool, "format": FORMAT, "status": status, **told}, indent=1))
    return status


def run_tool(main, doc, add_words, name=None):
    """Reads the words of a tool, runs it, and ends with the status that it returns. Its name is that of its file, or is told."""
    words = words_of(doc, add_words, name)
    for number in (signal.SIGTERM, signal.SIGHUP):
        # (so that what it called ends with it)
        signal.signal(number, lambda it, _: sys.exit(KILLED + it))
    try:
        status = status_of(main, words)
        if sys.stdout:
            sys.stdout.flush()
    except OSError as error:
        status = status_at(error, words.prog)
    sys.exit(status)


def status_of(main, words):
    """The status with which a tool ends, once it has said why."""
    given = None
    try:
        open_streams()
        given = words.parse_args()
        given.tool = words.prog
        return main(given) or 0
    except SystemExit as end:
        return end.code or 0
    except Stop as stop:
        complain(f"{words.prog}: {stop}")
        return tell(given, stop.status, error=str(stop)) if getattr(given, "json", False) else stop.status
    except subprocess.SubprocessError as error:
        complain(f"{words.prog}: {error}")
        return 1
    except MemoryError:
        complain(f"{words.prog}: there is no memory")
        return NO_MEMORY
    except KeyboardInterrupt:
        return INTERRUPTED


def open_streams():
    """What is printed is UTF-8 whatever the locale is, as units are; a half of a character that isn't is shown by its number."""
    if sys.stderr is None:
        sys.stderr = open(os.devnull, "w")
    if sys.stdout is None:
        raise Stop("standard output is closed", NO_OUTPUT)
    for stream in (sys.stdout, sys.stderr):
        stream.reconfigure(encoding="utf-8", errors="backslashreplace")


def status_at(error, name):
    """The status where the system refuses something: mostly the output, which nobody reads any more or has no room."""
    if error.filename is None:
        if not isinstance(error, BrokenPipeError):
            complain(f"{name}: standard output: {error.strerror}")
        # (what wasn't written yet isn't written at the end either)
        os.dup2(os.open(os.devnull, os.O_WRONLY), sys.stdout.fileno())
        return NO_OUTPUT
    complain(f"{name}: {error.filename}: {error.strerror}")
    return 2


def complain(text):
    with contextlib.suppress(OSError):
        print(text, file=sys.stderr, flush=True)
