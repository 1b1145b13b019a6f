"""The rooms of this repository, as crates.txt lists them."""
import os

from nvmtools.calls import TOP


def rooms():
    """Each crate of crates.txt, lowest first, with what it names; the kit's crates are among that."""
    found = {}
    with open(os.path.join(TOP, "crates.txt"), encoding="utf-8") as file:
        for line in file:
            head, _, needs = line.partition("#")[0].partition(":")
            if head.split():
                found[head.split()[0]] = needs.split()
    return found


def below(crates, name):
    """The crates of this repository that one stands on, lowest first."""
    wanted, rest = set(), list(crates[name])
    while rest:
        it = rest.pop()
        if it in crates and it not in wanted:
            wanted.add(it)
            rest += crates[it]
    return [it for it in crates if it in wanted]


def lines_of(name):
    """How many lines of code, specs and proofs a crate has."""
    count = 0
    for folder, folders, files in os.walk(os.path.join(TOP, "crates", name)):
        folders[:] = [it for it in folders if it not in ("out", "must-fail", "data")]
        for it in files:
            if it.endswith((".rt", ".antt")):
                with open(os.path.join(folder, it), "rb") as file:
                    count += file.read().count(b"\n")
    return count
