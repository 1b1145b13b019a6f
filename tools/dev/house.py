"""Whether what stands around the tools fits them: help, completion, the front, what other programs read, the pages, the drawings."""
import os
import pty
import re
import shutil
import subprocess
import xml.etree.ElementTree as xml

from nvmtools import calls, images, reports, units

USERS = ("lint", "sweep", "cuts", "timeline", "picture", "plan", "provision", "header", "arxml", "judge", "build", "take", "release")
DEVELOPERS = ("callers_soak", "compare", "edges", "faults", "instructions", "instructions_c", "kills", "manual", "peer", "price", "refuse", "trusted", "try", "try_c",
              "try_python", "try_release", "try_tester", "try_unit")
FIRST_START = "@demo\nreadall\ndrain\n"
RED = "#c00000"


def told(what, holds, more=""):
    if not holds:
        print(f"not so: {what} {more}".rstrip())
    return bool(holds)


def run(*words, text="", **more):
    return subprocess.run(words, input=text, capture_output=True, text=True, cwd=calls.TOP, **more)


def helps_have_examples():
    """Whether each tool has --help with an example that names it."""
    names = [*(f"tools/{it}" for it in USERS), *(f"tools/dev/{it}" for it in DEVELOPERS)]
    there = {f"tools/{it}" for folder in ("", "dev/") for it in (f"{folder}{name}" for name in os.listdir(f"{calls.TOP}/tools/{folder}"))
             if os.access(f"{calls.TOP}/tools/{it}", os.X_OK) and os.path.isfile(f"{calls.TOP}/tools/{it}")}
    well = [told("these are the tools", there == set(names), there ^ set(names))]
    for name in names:
        ran = run(f"{calls.TOP}/{name}", "--help")
        well.append(told(f"{name} has an example", not ran.returncode and f"Example: {name}" in ran.stdout, ran.stderr[-200:]))
    return all(well)


def completion_knows(tool, begun):
    script = f'source tools/nvm.bash; _nvm_tool {tool} {begun} {tool}; echo "${{COMPREPLY[@]}}"'
    return run("bash", "-c", script).stdout.split()


def completion_is_as_told():
    return all([told("lint completes --s", completion_knows("tools/lint", "--s") == ["--strict"]),
                told("sweep completes --j", completion_knows("./tools/sweep", "--j") == ["--jobs", "--json", "--junit"]),
                told("of a release too", completion_knows("/usr/bin/nvm-lint", "--s") == ["--strict"]),
                told("a file is left to bash", completion_knows("tools/plan", "ex") == [])])


def on_terminal(command):
    """The status of a call, and what it says where standard error is a terminal."""
    reader, writer = pty.openpty()
    ran = subprocess.run(["sh", "-c", command], stdout=subprocess.PIPE, stderr=writer, cwd=calls.TOP)
    os.close(writer)
    try:
        said = os.read(reader, 4096).decode()
    except OSError:
        # (of a terminal that nobody has written to any more)
        said = ""
    os.close(reader)
    return ran.returncode, said


def front_explains():
    """Whether ./nvm names what explains the statuses 2, 3 and 4, and leaves the program's output as it is."""
    nothing, words = run("./nvm"), run("./nvm", "mem", "play", "--help")
    rule = run("./nvm", "mem", "check", text='{"id":1,"page":60}\n')
    well = run("./nvm", "mem", "check", text="@demo\n")
    return all([
        told("no words", (nothing.returncode, nothing.stdout) == (2, "bad words\n") and "./nvm --help" in nothing.stderr),
        told("wrong words", (words.returncode, words.stdout) == (2, "bad words\n") and "./nvm --help" in words.stderr),
        told("a rule's words", (rule.returncode, rule.stdout) == (3, "config rule 4 block 0\n") and "tools/lint" in rule.stderr
             and "bytes of a page: 16, 32, 64, 128 or 256" in rule.stderr, rule.stderr),
        told("a configuration", (well.returncode, well.stderr) == (0, "") and well.stdout.startswith("config ok "), well.stderr),
        told("a wrong line on a terminal", (it := on_terminal("printf '@demo\\nx\\n' | ./nvm mem play"))[0] == 4
             and "tools/lint" in it[1], it),
        told("a refused line on a terminal", (it := on_terminal("echo '{}' | ./nvm mem play"))[0] == 3 and "tools/lint" in it[1], it),
        told("a script on a terminal", on_terminal("./nvm mem play < examples/first.nvm") == (0, "")),
        told("a wrong line without one", run("./nvm", "mem", "play", text="@demo\nx\n").stderr == "")])


def junit_is_as_told(folder):
    """Whether JUnit's file has each case, and the text of one that failed whatever it has in it."""
    path = f"{folder}/junit.xml"
    reports.write_junit(path, "sweep", "a.nvm", [("one", None), ("two", "2.0 <\"&' isn't allowed")])
    suite = xml.parse(path).getroot()
    cases = [(it.get("classname"), it.get("name"), it.findtext("failure")) for it in suite]
    wanted = [("sweep.a_nvm", "one", None), ("sweep.a_nvm", "two", "2.0 <\"&' isn't allowed")]
    return told("a JUnit file", (suite.tag, suite.get("tests"), suite.get("failures"), cases) == ("testsuite", "2", "1", wanted), cases)


def drawings_are_as_told(folder):
    """Whether a first start isn't red, a failure is, a record has its name where it has room, and switches stand where they were."""
    first = run("tools/timeline", "-", text=FIRST_START).stdout
    cut = run("tools/timeline", "examples/power_cut.nvm").stdout
    # (the legend has each colour once)
    unit = units.read_unit(f"{calls.TOP}/examples/body_controller.json")
    path = f"{folder}/named.img"
    calls.play_well([unit.line, "write 2 00*8", "write 5 00*6", "drain"], path)
    # a blank bank is erased, 4 sectors, and has a head and a gate; four records of 13 pages follow, so the fifth finds 58 operations.
    # Before the head and the gate of the other bank come 13 pages of a copy, 5 of the urgent record, and 5 of its copy.
    urgent = run("tools/timeline", "examples/urgent_write.nvm").stdout
    switched = ["1 to 4: bank 0 is", "5 to 6: what", "59 to 62: bank 1 is", "63 to 87: what"]
    drawn = run("tools/picture", path, "examples/body_controller.json").stdout
    image = images.read_image(path, unit)
    return all([told("a first start isn't red", first.count(RED) == 1), told("a cut is", cut.count(RED) > 1),
                told("switches stand where they were", re.findall("operations ([0-9]+ to [0-9]+: [a-z]+(?: [0-9] is)?)", urgent) == switched),
                told("both records stand", len(image.found) == 3),
                told("a record has its name", drawn.count(">2 odometer<") == 2 and ">5<" in drawn)])


def pipeline_works(folder):
    """Whether the pipeline of docs/CI.md goes through, and ends where a script has a refused request."""
    page = calls.read_text(f"{calls.TOP}/docs/CI.md")
    script, mine, out = f"{folder}/tried.sh", f"{folder}/mine", f"{folder}/out"
    with open(script, "w", encoding="utf-8") as file:
        file.write(page.split("```\n")[1])
    os.mkdir(mine)
    shutil.copy(f"{calls.TOP}/examples/unit.json", mine)
    shutil.copy(f"{calls.TOP}/examples/first.nvm", mine)
    went = run("sh", script, mine, calls.TOP, out)
    made = sorted(os.listdir(out))
    wanted = ["first.cuts.txt", "first.cuts.xml", "first.svg", "first.sweep.txt", "first.sweep.xml", "unit.plan.json"]
    with open(f"{mine}/first.nvm", "a", encoding="utf-8") as file:
        file.write("read 9\n")
    failed = run("sh", script, mine, calls.TOP, out)
    return all([told("the pipeline goes through", went.returncode == 0 and made == wanted, f"{made} {went.stderr[-300:]}"),
                told("the pipeline fails", failed.returncode == 1 and "refused 1" in failed.stdout)])


def pages_name_what_is_there():
    """Whether each tool that a page or a script names is there."""
    files = run("git", "ls-files", "*.md", "*.1", ".ci/run", "nvm", "tools/nvm.bash").stdout.split()
    lacking = {(file, name) for file in files for name in re.findall(r"(?<![\w./])(?:\./)?(tools/(?:dev/)?[a-z_]+(?:\.[a-z]+)?)",
                                                                    calls.read_text(f"{calls.TOP}/{file}"))
               if not os.path.exists(f"{calls.TOP}/{name}")}
    return told("pages name tools that are there", files and not lacking, sorted(lacking))


def house_is_in_order(folder):
    return [helps_have_examples(), completion_is_as_told(), front_explains(), junit_is_as_told(folder), drawings_are_as_told(folder),
            pipeline_works(folder), pages_name_what_is_there()]
