"""Whether each tool ends with one line and a status over input that is broken, too long or endless, with a program that doesn't
answer, and with an output that can't be written."""
import concurrent.futures
import os
import re
import signal
import socket
import stat
import subprocess
import time
from collections import namedtuple

from nvmtools import calls

UNIT, SCRIPT, DESCRIPTION = "examples/unit.json", "examples/first.nvm", "examples/engine_controller.arxml"
LONG = "9" * 5000
SCRIPTS = ("sweep", "cuts", "timeline")
CONFIGS = ("lint -", "plan -", *(f"{it} -" for it in SCRIPTS), "picture $image -", "provision - $none $new", "header - $folder", "judge - $history")
NO_UTF8 = {"LC_ALL": "C", "LANG": "C", "PYTHONUTF8": "0", "PYTHONCOERCECLOCALE": "0"}
TWO = (b'{"id":1,"page":16,"sector":256,"sectors":8,"standard":8,"immediate":4,"eeprom":{"page":16,"sector":64,"sectors":4},'
       b'"blocks":[{"length":4,"device":1}]}\n')
SECONDS = 600
AT_ONCE = 4

# a call of a tool: its words, where $NAME is a file of the folder, its input, the status and the line that are wanted, what else
# stands in the environment, and how its streams are redirected
Try = namedtuple("Try", "words given status line more streams", defaults=({}, ""))


def unit_of(page="16", name='"a"', key="length"):
    return (f'{{"id":1,"page":{page},"sector":256,"sectors":8,"standard":8,"immediate":4,"blocks":[{{"name":{name},"id":2,'
            f'"{key}":4}}]}}').encode()


def broken_texts():
    """Texts that no tool takes for a unit, and how each one says so."""
    digits = r"-:1:16: rule 1: no JSON: a number of more than 20 digits"
    for words in CONFIGS:
        yield Try(words, unit_of(page=LONG), 3, digits)
        yield Try(words, unit_of(name='"\\ud800"'), 3, r'-:1:\d+: "\\ud800" is no name: .*')
        yield Try(words, unit_of(key="\\ud800"), 3, "-:1:1: rule 1: no JSON as the program reads it: one object on one line")
        yield Try(words, unit_of(key="\U0001f600"), 3, '-:1:[0-9]+: rule 11, block 2 .*')
        yield Try(words, b"\xef\xbb\xbf" + unit_of(), 2, "-:1:1: it begins with a byte order mark, .*")
        yield Try(words, b"\xff\xfe", 2, "-: byte 0 isn't UTF-8")
        yield Try(words, b"[" * 100_000, 3, "-: rule 1: no JSON: nested deeper than 127")
        yield Try(words, b"", 5, "standard input is closed", streams="<&-")
        yield Try(words.replace("-", "$endless", 1), b"", 2, "FOLDER/endless: it has more than 16,777,216 bytes")
        yield Try(words.replace("-", "$folder", 1), b"", 2, "FOLDER/folder: Is a directory")


def broken_others():
    values = "provision examples/body_controller.json - $new"
    yield Try(values, b'{"odometer": %s}' % LONG.encode(), 3, "-:1:14: no JSON: a number of more than 20 digits")
    yield Try(values, b'{"%s": "00"}' % LONG.encode(), 3, '-:1:2: there is no block "9{40}"; there are .*')
    yield Try(values, '{"٢": "00*8"}'.encode(), 3, '-:1:2: there is no block "٢"; there are .*')
    yield Try(values, b'{"fault memory.%s": "00*16"}' % LONG.encode(), 3, "-:1:2: .* is a dataset: .*")
    yield Try(values, b'{"a": ' + b"[" * 100_000, 3, "-: no JSON: nested deeper than 127")
    yield Try("lint - --strict", b"@demo\nread %s\n" % LONG.encode(), 4, r"-:2: 9{20} is out of range: 0 to 65535")
    yield Try("lint -", b"@demo\n%s: read 2\n" % LONG.encode(), 4, r"-:2: a caller is 0 to 15, and this one is 9{20}")
    yield Try("lint -", "@demo\nread ٢\n".encode(), 4, r'-:2: no number "٢": digits, without a sign and leading zeros')
    yield Try(f"cuts {SCRIPT} --keep {LONG}", b"", 2, "--keep .*")
    yield Try(f"plan {UNIT} --writes 2={LONG}", b"", 2, "--writes .*")
    yield Try(f"plan {UNIT} --writes 2=nan", b"", 2, "--writes .*")
    yield Try(f"plan {UNIT} --turn-ms nan", b"", 2, "--endurance is .*")
    yield Try(f"plan {UNIT} --endurance {LONG}", b"", 2, "argument --endurance: invalid int value: .*")
    yield Try("dev/edges nothing", b"", 2, "crates.txt has no crate nothing")
    yield Try("dev/trusted nothing command", b"", 2, "crates.txt has no crate nothing")
    yield Try("dev/trusted nvm_top", b"", 2, "a crate and a call of it, or neither")
    yield Try(f"../nvm --rule {LONG}", b"", 2, "there is no rule 9.*")
    for line in (b"post 2 77 ops 1", b"found x", b"wrote 2 data 11 ops 3", b"<script>", b"ask 0 write 2 00 -> refused 99"):
        yield Try(f"timeline {SCRIPT} --history -", b"found 0 ops 0\n%s\n" % line, 4, "-:2: no line of a history: .*")
    history = f"judge {SCRIPT} -"
    for given, status, line in ((b"\xff", 2, "-: byte 0 isn't UTF-8"), (b"found 0 ops 0\npost 2 77 ops 1\n", 4, "-:2: no line of a history: .*"),
                                (b"", 4, "-: no history: .*"), (b"off ops 0\n", 4, "-: no history: .*"), (b"found 0 ops 0\n", 4, "-: one start-up alone, .*"),
                                (b"found 0 ops 0\nfound 1 9.0 data 00 ops 0\n", 4, f"-: no history of {SCRIPT}, which has no instance 9.0: .*"),
                                (b"found 0 ops 0\npick 9 write 00 ops 0\n", 4, f"-: no history of {SCRIPT}, which has no block 9: .*"),
                                (b"found 0 ops 0\nwrote 2.0 data 00 ops 4\n", 4, f"-: no history of {SCRIPT}, which has 4 bytes in block 2: .*")):
        yield Try(history, given, status, line)
    yield Try(history, b"", 5, "standard input is closed", streams="<&-")
    yield Try(f"judge {SCRIPT} $endless", b"", 2, "FOLDER/endless: it has more than 16,777,216 bytes")
    yield Try(f"judge {SCRIPT} $history --image $zeros", b"", 4, "FOLDER/zeros: the program ends with status 9: .*")
    yield Try(f"judge {SCRIPT} $history --image $endless", b"", 2, "FOLDER/endless: it has more than 16,777,216 bytes")
    yield Try(f"judge {SCRIPT} $history --image $absent", b"", 2, "FOLDER/absent: No such file or directory")
    yield Try(f"header {UNIT} $none", b"", 2, "FOLDER/none: File exists")
    yield Try(f"picture $image {SCRIPT} --second $zeros", b"", 2, f"{SCRIPT} has no second device .*, so FOLDER/zeros is none of its images")
    yield Try(f"provision {UNIT} $none $new --second $new", b"", 2, f"{UNIT} has no second device .*")
    yield Try(f"judge {SCRIPT} $history --second $image", b"", 2, f"{SCRIPT} has no second device .*")
    for path, line in (("$zeros", "FOLDER/zeros has 100 bytes, and the flash of the second device of - has .*"),
                       ("$endless", "FOLDER/endless: it has more than 16,777,216 bytes"), ("$folder", "FOLDER/folder: Is a directory")):
        yield Try(f"picture $image - --second {path}", TWO, 2, line)
    yield Try("picture $image - --second $new", TWO, 2, "FOLDER/new: No such file or directory")
    yield Try("header - $folder", TWO, 3, "-:1:[0-9]+: the services in C run over one flash, .*")
    yield Try("dev/peer mem play", b"", 5, "standard input is closed", streams="<&-")
    yield Try("dev/peer $folder play", b"@demo\n", 2, "FOLDER/folder: Is a directory")
    yield Try("dev/peer mem play --read x", b"@demo\n", 2, "a fault is .*")
    yield Try("dev/compare $absent", b"", 127, "FOLDER/absent: No such file or directory")
    yield Try("dev/compare $absent --count -1", b"", 2, "--count is .*")
    for name, line in (("zeros", ".*: no XML: .*"), ("endless", ".*: no XML: .*")):
        yield Try(f"arxml ${name}", b"", 4, f"FOLDER/{name}{line}")
    yield Try("arxml $folder", b"", 2, "FOLDER/folder: Is a directory")
    yield Try("arxml -", b"", 5, "standard input is closed", streams="<&-")
    yield Try(f"arxml {DESCRIPTION} --elf $endless", b"", 2, "FOLDER/endless: it has more than 268,435,456 bytes")
    yield Try(f"arxml {DESCRIPTION} --values $zeros", b"", 12, "FOLDER/zeros:1:1: no JSON: .*")
    yield Try("arxml --from-unit $zeros", b"", 3, "FOLDER/zeros:1:1: rule 1: no JSON: .*")
    yield Try("picture $zeros examples/first.nvm --text", b"", 2, r"FOLDER/zeros has 100 bytes, and .*")
    yield Try("picture $endless examples/first.nvm --text", b"", 2, "FOLDER/endless: it has more than 16,777,216 bytes")
    yield Try(f"picture $image {SCRIPT} --other $endless", b"", 2, "FOLDER/endless: it has more than 16,777,216 bytes")


def programs_that_do_not_answer():
    silent = {"NVM": "FOLDER/silent", "NVM_ROWS": "FOLDER/silent", "NVM_SECONDS": "1"}
    endless, absent = ({"NVM": f"FOLDER/{it}", "NVM_ROWS": f"FOLDER/{it}"} for it in ("yes", "absent"))
    for words in (f"lint {UNIT}", f"plan {UNIT}", f"arxml {DESCRIPTION}", f"arxml --from-unit {UNIT}", *(f"{it} {SCRIPT}" for it in SCRIPTS), f"picture $image {SCRIPT}",
                  f"provision {UNIT} $none $new", f"header {UNIT} $folder", f"judge {SCRIPT} $history"):
        yield Try(words, b"", 127, "FOLDER/silent doesn't answer: nothing came for 1 seconds", silent)
        yield Try(words, b"", 127, "FOLDER/yes doesn't end: more than .* came", endless)
        yield Try(words, b"", 127, "FOLDER/absent: No such file or directory", absent)
        yield Try(words, b"", 127, "FOLDER/killed ended with -9", {"NVM": "FOLDER/killed", "NVM_ROWS": "FOLDER/killed"})


def outputs_that_cannot_be_written():
    told = [f"lint {UNIT}", f"lint {UNIT} --json", f"plan {UNIT}", f"sweep {SCRIPT}", f"cuts {SCRIPT}", f"timeline {SCRIPT}",
            f"picture $image {SCRIPT} --text", f"provision {UNIT} $none $made --replace", "../nvm --help", "dev/manual lint", "lint --help", f"arxml {DESCRIPTION}", f"arxml {DESCRIPTION} --json", f"arxml --from-unit {UNIT}",
            "dev/edges", "dev/edges nvm_top", "dev/try --help", f"judge {SCRIPT} $history", f"header {UNIT} --line"]
    for words in told:
        yield Try(words, b"", 6, "standard output is closed", streams=">&-")
        yield Try(words, b"", 6, "standard output: No space left on device", streams=">/dev/full")
        yield Try(words, b"", 6, None, streams="gone")


def outputs_that_are_no_plain_files():
    for name in ("pipe", "link", "loose", "socket", "folder"):
        line = f"FOLDER/{name} is no plain file, which alone is replaced: .*"
        yield Try(f"provision {UNIT} $none ${name} --replace", b"", 2, line)
        yield Try(f"sweep {SCRIPT} --junit ${name}", b"", 2, line)
        yield Try(f"arxml --from-unit {UNIT} --into ${name} --replace", b"", 2, line)
    yield Try(f"provision {UNIT} $none '' --replace", b"", 2, "an empty name is no plain file, .*")
    yield Try(f"provision {UNIT} $none . --replace", b"", 2, r"\. is no plain file, .*")
    yield Try(f"provision {UNIT} $none $absent/new", b"", 2, "FOLDER/absent/new: No such file or directory")


def write(path, text, mode=0o666):
    with open(path, "wb") as file:
        file.write(text)
    os.chmod(path, mode)


def make(folder):
    """What the tries name, and what no tool may change."""
    write(f"{folder}/none", b"{}")
    write(f"{folder}/zeros", bytes(100))
    write(f"{folder}/aim", b"kept")
    write(f"{folder}/image", b"\xff" * 2048)
    write(f"{folder}/history", b"found 0 ops 0\nfound 0 ops 0\n")
    # (an endless file is a link to what is one, which is only read)
    os.symlink("/dev/zero", f"{folder}/endless")
    os.symlink(f"{folder}/aim", f"{folder}/link")
    os.symlink(f"{folder}/nothing", f"{folder}/loose")
    os.mkfifo(f"{folder}/pipe")
    os.mkdir(f"{folder}/folder")
    with socket.socket(socket.AF_UNIX) as it:
        it.bind(f"{folder}/socket")
    for name, does in (("silent", "sleep 1000"), ("yes", "yes"), ("killed", "kill -KILL $$")):
        write(f"{folder}/{name}", f"#!/bin/sh\n{does}\n".encode(), 0o755)


def ended(it, folder):
    """The status of a call, and what it says on standard error."""
    tool, *words = [f"{folder}/{word[1:]}" if word.startswith("$") else word.replace("$", f"{folder}/") if "/" in word else word
                    for word in ("" if word == "''" else word for word in it.words.split())]
    start = [f"{calls.TOP}/tools/{tool}", *words]
    env = {**os.environ, **{name: value.replace("FOLDER", folder) for name, value in it.more.items()}}
    if it.streams and it.streams != "gone":
        start = ["sh", "-c", f'exec "$0" "$@" {it.streams}', *start]
    output = subprocess.PIPE
    if it.streams == "gone":
        reader, output = os.pipe()
        os.close(reader)
    ran = subprocess.run(start, input=it.given, stdout=output, stderr=subprocess.PIPE, cwd=calls.TOP, env=env, timeout=SECONDS)
    if it.streams == "gone":
        os.close(output)
    return ran.returncode, ran.stderr.decode(), (ran.stdout or b"").decode()


def why_not(it, folder):
    """What is wrong with how a call ends, or None."""
    try:
        status, said, printed = ended(it, folder)
    except subprocess.TimeoutExpired:
        return f"{it.words[:70]} {it.streams} {it.more.get('NVM', '')}: no end within {SECONDS} seconds"
    shown = it.words.replace(LONG, "9..")[:70], it.streams, it.more.get("NVM", "")
    lines = (said if said else printed).splitlines()
    if "Traceback" in said or status != it.status:
        return f"{shown}: status {status}, wanted {it.status}: {said[-300:]}{printed[-200:]}"
    if it.line is None:
        return f"{shown}: {said[-300:]}" if said else None
    line = it.line.replace("FOLDER", re.escape(folder))
    if not lines or not re.fullmatch(f"(?:[a-z_]+: )?{line}(?:; see .*)?", lines[0]):
        return f"{shown}: says {lines[:1]}, wanted {it.line}"
    return None


def names_are_read(folder):
    """Whether a name beyond ASCII is read and printed where the locale isn't UTF-8."""
    unit = unit_of(name='"Tür"')
    for encoding in ({}, {"PYTHONIOENCODING": "ascii"}):
        it = Try("lint - --names", unit, 0, "", {**NO_UTF8, **encoding})
        status, said, printed = ended(it, folder)
        if status or "Tür" not in printed:
            return f"names in a locale that isn't UTF-8: {status} {said}{printed}"
    return None


def what_is_called_ends(folder):
    """Whether a tool that is ended ends what it called."""
    env = {**os.environ, "NVM": f"{folder}/silent"}
    with subprocess.Popen([f"{calls.TOP}/tools/lint", UNIT], cwd=calls.TOP, env=env, stderr=subprocess.DEVNULL) as run:
        time.sleep(2)
        with open(f"/proc/{run.pid}/task/{run.pid}/children") as file:
            below = file.read().split()
        run.send_signal(signal.SIGTERM)
        status = run.wait()
    alive = [it for it in below if os.path.exists(f"/proc/{it}") and "Z" not in open(f"/proc/{it}/stat").read().split(")")[1]]
    return None if status == 143 and below and not alive else f"a tool that is ended: status {status}, below it {below}, left {alive}"


def hostile_input_is_told(folder):
    """Whether all of these end as they are to."""
    place = f"{folder}/hostile"
    os.mkdir(place)
    make(place)
    kinds = {name: stat.S_IFMT(os.lstat(f"{place}/{name}").st_mode) for name in os.listdir(place)}
    tries = [*broken_texts(), *broken_others(), *programs_that_do_not_answer(), *outputs_that_cannot_be_written(),
             *outputs_that_are_no_plain_files()]
    with concurrent.futures.ThreadPoolExecutor(AT_ONCE) as pool:
        wrong = [*filter(None, pool.map(lambda it: why_not(it, place), tries))]
    wrong += filter(None, [names_are_read(place), what_is_called_ends(place)])
    # (the image whose line couldn't be printed is there)
    left = {name: stat.S_IFMT(os.lstat(f"{place}/{name}").st_mode) for name in os.listdir(place) if name != "made"}
    if left != kinds or calls.read_file(f"{place}/aim") != b"kept":
        wrong.append(f"what stands in the folder is other: {sorted(set(left.items()) ^ set(kinds.items()))}")
    for it in wrong:
        print(f"hostile input: {it}")
    print(f"hostile input: {len(tries) + 2 - len(wrong)} of {len(tries) + 2} calls end as they are to")
    return not wrong
