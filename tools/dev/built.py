"""Whether ./nvm takes a proved program, else one that was built without proofs, and builds that once, in a small repository whose 'rt' only
says that it builds; and what tools/take and tools/release make or refuse."""
import os
import shutil
import subprocess
import time

from nvmtools import calls, rooms

# what stands for the toolchain: it notes its calls, and what it builds hands its words on to the program of this repository
RT = """#!/bin/sh
echo "$1 $(basename "$PWD")" >> {folder}/calls
[ ! -e {folder}/fails ] || {{ echo "no proof of $1"; exit 1; }}
make() {{ printf '#!/bin/sh\\nexec {program} "$@"\\n' > "$1"; chmod 755 "$1"; }}
case $1 in
try) mkdir "$TMPDIR/work"; make "$TMPDIR/work/program"; sleep 0.3; rm -r "$TMPDIR/work" ;;
run) mkdir -p out; make "out/$(basename "$PWD")" ;;
esac
"""
ROOMS = "low:\nhigh: low hex\nbeside:\nnvm_bench: high\n"
SCRIPT = "@demo\nwrite 2 11223344\ndrain\n"
HISTORY = ["found 0 ops 0", "ask 0 write 2 11223344 -> ok"]


class Place:
    """A small repository."""

    def __init__(self, folder):
        self.folder = f"{folder}/repository"
        os.makedirs(f"{self.folder}/bin")
        for name in ("nvm", "VERSION"):
            shutil.copy(f"{calls.TOP}/{name}", self.folder)
        for name in ("tools", "docs", "examples"):
            shutil.copytree(f"{calls.TOP}/{name}", f"{self.folder}/{name}", ignore=shutil.ignore_patterns("__pycache__"))
        for name in ("low", "high", "beside", "nvm_bench"):
            os.makedirs(f"{self.folder}/crates/{name}/src")
            self.write(f"crates/{name}/src/main.rt", "// code\n")
        self.write("crates.txt", ROOMS)
        self.write("bin/rt", RT.format(folder=self.folder, program=calls.start_of("nvm_bench")))
        os.chmod(f"{self.folder}/bin/rt", 0o755)

    def write(self, name, text):
        with open(f"{self.folder}/{name}", "w", encoding="utf-8") as file:
            file.write(text)

    def touch(self, name):
        """A change of a file, behind all that was built."""
        later = time.time() + 2
        os.utime(f"{self.folder}/{name}", (later, later))

    def begin(self, *words, path=None):
        env = {**os.environ, "PATH": path or f"{self.folder}/bin:{os.environ['PATH']}"}
        return subprocess.Popen([f"{self.folder}/nvm", *words], stdin=subprocess.PIPE, stdout=subprocess.PIPE, stderr=subprocess.PIPE, text=True,
                                env=env)

    def call(self, *words, **more):
        ran = self.begin(*words, **more)
        out, said = ran.communicate(SCRIPT)
        return ran.returncode, out.splitlines(), said.splitlines()

    def plays(self, said):
        """Whether a call plays the script, and says so many lines."""
        status, out, lines = self.call("mem", "play")
        return status == 0 and out[:2] == HISTORY and len(lines) == said

    def noted(self):
        """The calls of the toolchain since the last time that this was asked."""
        path = f"{self.folder}/calls"
        found = calls.read_text(path).splitlines() if os.path.exists(path) else []
        if found:
            os.unlink(path)
        return found


def front_builds(folder):
    place = Place(folder)
    well = {}
    well["without rt the status is 127"] = place.call("mem", "play", path="/usr/bin:/bin")[0] == 127 or bool(shutil.which("rt", path="/usr/bin:/bin"))
    well["wrong words build nothing"] = place.call("mem", "nothing")[0] == 2 and not place.noted()
    well["nothing is built yet"] = place.call("--version")[1][1:] == ["program: not built yet"]
    place.write("fails", "")
    failed = place.call("mem", "play")
    os.unlink(f"{place.folder}/fails")
    well["a build that fails is told"] = failed[0] == 125 and "no proof of try" in failed[2] and place.noted() == ["try nvm_bench"]
    shutil.rmtree(f"{place.folder}/.cache")
    place.write(".cache", "")
    well["where nothing can be kept the status is 125"] = place.call("mem", "play")[0] == 125 and not place.noted()
    os.unlink(f"{place.folder}/.cache")
    both = [place.begin("mem", "play") for _ in range(2)]
    ended = [it.communicate(SCRIPT) for it in both]
    well["two first calls build once"] = place.noted() == ["try nvm_bench"] and all(out.splitlines()[:2] == HISTORY for out, _ in ended)
    well["one line says that nothing was proved"] = sorted(len(said.splitlines()) for _, said in ended) == [0, 1]
    well["a later call builds nothing"] = place.plays(0) and not place.noted()
    well["the version says so"] = place.call("--version")[1][1:] == ["program: built without proofs"]
    well["nothing else is kept"] = sorted(os.listdir(f"{place.folder}/.cache/unproved")) == ["lock", "nvm_bench"]
    place.write("crates/low/src/main.antt", "")
    place.touch("crates/low/src/main.antt")
    well["a changed proof builds nothing"] = place.plays(0) and not place.noted()
    proved = place.call("--proved")
    counted = [it.split(",")[0] for it in proved[2]]
    well["rooms are proved, lowest first"] = place.noted() == ["lib low", "lib high", "run nvm_bench"]
    well["rooms are counted"] = counted == ["nvm: 1 of 3 rooms: low", "nvm: 2 of 3 rooms: high", "nvm: 3 of 3 rooms: nvm_bench"] and \
        all(it.endswith(" left") for it in proved[2]) and proved[:2] == (0, [])
    # (the proof that was changed counts as if it were changed later)
    os.utime(f"{place.folder}/crates/low/src/main.antt")
    time.sleep(0.01)
    os.utime(f"{place.folder}/crates/nvm_bench/out/nvm_bench")
    os.unlink(f"{place.folder}/.cache/unproved/nvm_bench")
    well["a proved program is taken"] = place.plays(0) and not place.noted()
    well["the version says that too"] = place.call("--version")[1][1:] == ["program: proved"]
    well["a call may follow"] = place.call("--proved", "mem", "play")[1][:2] == HISTORY and place.noted()[-1] == "run nvm_bench"
    place.touch("crates/high/src/main.rt")
    well["behind a change it isn't taken"] = place.plays(1) and place.noted() == ["try nvm_bench"]
    for name in (name for name, holds in well.items() if not holds):
        print(f"what ./nvm builds: not so: {name}")
    return all(well.values())


# a toolchain whose work lasts, in a session of its own as that of 'rt try' is
LASTS = """#!/bin/sh
setsid sleep 600 &
child=$!
echo $child > {folder}/child
trap 'kill $child; exit 143' TERM
wait
"""
MOST_SECONDS = 60


def waited_for(holds):
    """Whether something comes to hold."""
    end = time.monotonic() + MOST_SECONDS
    while not holds() and time.monotonic() < end:
        time.sleep(0.05)
    return holds()


def is_running(path):
    """Whether the process runs whose number a file has."""
    try:
        os.kill(int(calls.read_text(path)), 0)
    except ProcessLookupError:
        return False
    return True


def ended_builds_leave_nothing(folder):
    """Whether a tool that is ended while ./nvm builds for it ends the toolchain too, and leaves no part of a program."""
    place = Place(f"{folder}/ended")
    place.write("bin/rt", LASTS.format(folder=place.folder))
    ran = subprocess.Popen([f"{place.folder}/tools/plan", f"{place.folder}/examples/unit.json"], stdout=subprocess.PIPE, stderr=subprocess.PIPE,
                           env={**{name: value for name, value in os.environ.items() if name not in ("NVM", "NVM_ROWS")},
                                "PATH": f"{place.folder}/bin:{os.environ['PATH']}"})
    child = f"{place.folder}/child"
    begun = waited_for(lambda: os.path.exists(child) and calls.read_text(child).endswith("\n"))
    ran.terminate()
    ran.communicate()
    well = begun and ran.returncode == 143 and waited_for(lambda: not is_running(child)) \
        and waited_for(lambda: os.listdir(f"{place.folder}/.cache/unproved") == ["lock"])
    if not well:
        print(f"a build that is ended: begun {begun}, status {ran.returncode}, the toolchain runs on or a part stays")
    return well


def run(*words):
    return subprocess.run(words, capture_output=True, text=True, cwd=calls.TOP)


def repository_is_taken(folder):
    """Whether tools/take makes a repository whose rooms name nothing that isn't there, and puts newer rooms into one that has grown."""
    mine, crates = f"{folder}/taken", rooms.rooms()
    made = run("tools/take", mine)
    if made.returncode:
        print(f"tools/take ends with {made.returncode}: {made.stderr}")
        return False
    taken = lambda: {it.partition(":")[0].split()[0]: it.partition(":")[2].split() for it in calls.read_text(f"{mine}/crates.txt").splitlines()}
    first = taken()
    well = {"it is made": made.returncode == 0 and made.stdout.startswith(f"{mine}: {len(first) - 1} rooms of natukeri "),
            "its rooms are those of its lines": set(os.listdir(f"{mine}/crates")) == set(first),
            "each names rooms that are there": all(below in first for it in first.values() for below in it if below in crates),
            "the program and its library are there": {"nvm", "unit_example"} <= set(first) and "nvm_top" not in first,
            "its files are these": sorted(os.listdir(mine)) == [".gitignore", "HANDLES", "LICENSE-natukeri", "README.md", "crates", "crates.txt"],
            "no wrong body and nothing built is there": not any({"out", "must-fail"} & set(below) for _, below, _ in os.walk(mine)),
            "what is there stays": run("tools/take", mine).returncode == 2 and taken() == first,
            "no other folder gets rooms": run("tools/take", "--rooms", folder).returncode == 2}
    for name, text in (("crates/nvm/src/older.rt", "old"), ("crates/mine.rt", "own")):
        with open(f"{mine}/{name}", "w", encoding="utf-8") as file:
            file.write(text)
    with open(f"{mine}/crates.txt", "a", encoding="utf-8") as file:
        file.write("my_unit: nvm\n")
    well["rooms are replaced"] = run("tools/take", "--rooms", mine).returncode == 0 and not os.path.exists(f"{mine}/crates/nvm/src/older.rt")
    well["all else stays"] = taken() == {**first, "my_unit": ["nvm"]} and os.path.exists(f"{mine}/crates/mine.rt")
    for name in (name for name, holds in well.items() if not holds):
        print(f"tools/take: not so: {name}")
    return all(well.values())


def version_is_that_of_the_image(folder):
    """Whether ./nvm --version names the number of VERSION and the format of the images that are written."""
    path = f"{folder}/version.img"
    calls.play_well(SCRIPT.splitlines(), path)
    dumped, _ = calls.call([path, "dump"], "@demo\n")
    said = run("./nvm", "--version").stdout
    formats = {it.split()[3] for it in dumped if it.startswith("bank ") and it.endswith("generation 1")}
    number = calls.read_text(f"{calls.TOP}/VERSION").strip()
    well = said.startswith(f"natukeri {number}, commit ") and [f"image format {it}" in said for it in formats] == [True]
    if not well:
        print(f"./nvm --version: {said!r}, and {dumped[:3]}")
    return well


def release_asks_for_a_proof(folder):
    """Whether tools/release makes nothing where it isn't told that the gate passed."""
    place = f"{folder}/none_made"
    tries = [run("tools/release", place), run("tools/release", place, "--proof", "145 passed, 1 failed"),
             run("tools/release", place, "--proof", "passed")]
    well = all(it.returncode == 2 and "--proof takes the gate's last line" in it.stderr for it in tries) and not os.path.exists(place)
    if not well:
        print(f"tools/release: {[(it.returncode, it.stderr[-200:]) for it in tries]}")
    return well


def all_is_built_as_told(folder):
    return [front_builds(folder), ended_builds_leave_nothing(folder), repository_is_taken(folder), version_is_that_of_the_image(folder), release_asks_for_a_proof(folder)]
