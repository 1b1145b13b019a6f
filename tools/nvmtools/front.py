#!/usr/bin/env python3
"""Prints the manual of ./nvm, or one row of it: a rule, a refusal, a result or an exit status, with what to do about it.

./nvm hands its options on to this file. All of it is made of the tables of docs/SCRIPT.md and docs/CONFIGURATION.md, and so are the man
pages and the words for bash (tools/dev/manual). The status is 2 where there is no such row."""
import os
import sys
import textwrap

sys.dont_write_bytecode = True
sys.path.insert(0, os.path.dirname(os.path.dirname(os.path.abspath(__file__))))
from nvmtools import calls, manual, reports
from nvmtools.calls import Stop

NAME = "nvm"
SHORT = "plays scripts on an NVRAM memory stack whose promise about power cuts is proved"
ABOUT = ("The input comes from standard input. Its first line is the configuration, as docs/CONFIGURATION.md has it, or @demo; "
         "for 'play' and 'run' each later line is a step and for 'uds' a request, as docs/SCRIPT.md has them. IMAGE is 'mem' for a blank "
         "flash in memory, or the path of an image file, which is made where it is absent.")
OPTIONS = [
    ("--help", "this page"),
    ("--version", "the version, the commit, the format of the image, and whether the program that stands here is proved"),
    ("--proved", "proves the program first and builds it, which takes hours the first time; words of a call may follow"),
    ("--rule N", "rule N of the configuration, which 'config rule N' names"),
    ("--refused N", "why a request is refused with N"),
    ("--result N", "what the result N of a job means"),
    ("--status N", "why the program ends with status N"),
]
FRONT_STATUSES = [
    ("125", "the program couldn't be built", "see what the toolchain said"),
    ("127", "there is no command 'rt', by which the program is built", "put the Rattle kit on the path"),
]
ENVIRONMENT = [("NVM=FILE, NVM_ROWS=FILE", "the tools call a program that was built elsewhere"),
               ("NVM_SECONDS=N", "the tools give a program up that prints nothing for so long: 600 where NVM or NVM_ROWS names it")]
TOOLS = [("lint", "what is wrong with a unit or a script, in words"),
         ("sweep", "a power cut and a fault at each operation of a script, each start-up judged"),
         ("cuts", "what a power cut at each operation leaves, as a table"),
         ("timeline", "a history as a drawing, in words or counted"),
         ("picture", "what an image file holds"), ("plan", "room, turns and wear of a configuration"),
         ("provision", "an image file of given values"),
         ("header", "NvM_Cfg.h and NvM_Cfg.c of a unit, for software in C"),
         ("arxml", "a unit of an ECU configuration in ARXML, and back"),
         ("judge", "whether a history that was printed elsewhere is one that may be"),
         ("build", "the program and the judge of sweeps: proved, or without proofs"),
         ("take", "a repository of one's own, with what a program over the stack needs"),
         ("release", "a tarball, a Debian package and a wheel of what the gate proved")]
WIDE = 100
IN_REPOSITORY = os.path.isdir(f"{calls.TOP}/crates")


def words(it):
    one = it.add_mutually_exclusive_group()
    for name in ("rule", "refused", "result", "status"):
        one.add_argument(f"--{name}", metavar="N", help=dict(OPTIONS)[f"--{name} N"])
    reports.add_json(it)


def statuses():
    return [*manual.numbered("Status"), *FRONT_STATUSES]


def sections():
    """The manual: each section's title and its rows, each a term and its text."""
    calls_of_it = [(f"{NAME} {words}", text) for words, text in manual.commands()]
    return [("COMMANDS", calls_of_it), ("OPTIONS", OPTIONS), ("ENVIRONMENT", ENVIRONMENT),
            ("EXIT STATUS", [(number, f"{why}. To do: {what}.") for number, why, what in statuses()]),
            ("TOOLS", [(f"{'tools/' if IN_REPOSITORY else 'nvm-'}{name}", text) for name, text in TOOLS
                       if os.path.exists(f"{calls.TOP}/tools/{name}")])]


def print_help():
    print(f"{NAME}: {SHORT}\n")
    print(textwrap.fill(ABOUT, WIDE))
    for title, below in sections():
        print(f"\n{title}")
        for term, text in below:
            print(f"  {term}")
            print(textwrap.fill(text, WIDE, initial_indent="      ", subsequent_indent="      "))
    print("\ndocs/SCRIPT.md has the steps, the lines of a history, the refusals and the results;"
          "\ndocs/CONFIGURATION.md has the keys and rules.")


def rows_of(kind, number):
    """The rows of a number, each why it comes and what to do; it ends where there is none."""
    if kind == "rule":
        found = [(f"{key}: {value}" if key else value, what) for key, value, what in manual.rule(number)]
    else:
        table = statuses() if kind == "status" else manual.numbered({"refused": "Refusal", "result": "Result"}[kind])
        found = [(why, what) for it, why, what in table if it == number]
    if not found or not number.isdigit():
        raise Stop(f"there is no {kind} {number}")
    return found


def print_row(kind, number):
    for why, what in rows_of(kind, number):
        print(textwrap.fill(f"{kind} {number}: {why}", WIDE, subsequent_indent="    "))
        print(textwrap.fill(f"to do: {what}", WIDE, initial_indent="    ", subsequent_indent="    "))


def main(given):
    asked = next(((kind, getattr(given, kind)) for kind in ("rule", "refused", "result", "status")
                  if getattr(given, kind) is not None), None)
    if given.json:
        if not asked:
            raise Stop("--json is of one row: of --rule, --refused, --result or --status")
        return reports.tell(given, 0, kind=asked[0], number=int(asked[1]),
                            rows=[{"why": why, "to_do": what} for why, what in rows_of(*asked)])
    if asked:
        print_row(*asked)
    else:
        print_help()
    return 0


if __name__ == "__main__":
    calls.run_tool(main, __doc__, words, NAME)
