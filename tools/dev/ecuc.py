"""Whether tools/arxml brings each unit there and back as it was, tells what it can't, and ends as told over descriptions that are wrong."""
import contextlib
import io
import json
import os
import random
import re
import runpy
import struct
import subprocess
import sys
from unittest import mock

from nvmtools import calls, descriptions, exports, imports, parameters, places, tool, units
from nvmtools.told import Told

EXAMPLE = "examples/engine_controller"
PACKAGE = "/ActiveEcuC"
DRAWN, SEED = 100, 4711
SECOND = ('{"eeprom":{"page":16,"sector":64,"sectors":8},"id":7,"page":64,"sector":4096,"sectors":16,"standard":32,"immediate":4,"banks":4,"blocks":['
          '{"length":8,"device":1,"ram":"permanent","priority":100,"readall":false},{"kind":"dataset","length":3,"nv":2,"rom":[]},'
          '{"length":2,"defaults":"A5a5","kind":"native","device":0,"reads":0,"c":{}}]}')
NAMED = ('{"id":65535,"page":16,"sector":65536,"sectors":2,"standard":256,"immediate":1,"blocks":[{"id":4,"name":"T\\u00fcr <&> 1","length":4096},'
         '{"name":"t r 1","id":2,"length":1,"did":"f190"},{"id":3,"length":2,"name":"NvMCommon","ram":"permanent","c":{"set_ram":true,"auto":true}},'
         '{"id":5,"name":"---","length":1,"ram":"permanent","c":{"ram":"NvM_Ram_X"}},{"id":6,"length":9,"name":"tR 1","ram":"permanent"}]}')

# a description of one block, whose parts the tries below change
HEAD = '<?xml version="1.0" encoding="UTF-8"?>\n'
ROOT = '<AUTOSAR xmlns="http://autosar.org/schema/r4.0">'
PAIR = "<ECUC-{form}-PARAM-VALUE><DEFINITION-REF>/A/{name}</DEFINITION-REF><VALUE>{value}</VALUE></ECUC-{form}-PARAM-VALUE>"


def value(name, it, form="NUMERICAL"):
    return PAIR.format(name=name, value=it, form=form)


def container(name, definition, values="", below=""):
    inner = (f"<PARAMETER-VALUES>{values}</PARAMETER-VALUES>" if values else "") + (f"<SUB-CONTAINERS>{below}</SUB-CONTAINERS>" if below else "")
    return f"\n<ECUC-CONTAINER-VALUE><SHORT-NAME>{name}</SHORT-NAME><DEFINITION-REF>/A/{definition}</DEFINITION-REF>{inner}</ECUC-CONTAINER-VALUE>"


def module(name, *inside, short=None):
    return (f"\n<ECUC-MODULE-CONFIGURATION-VALUES><SHORT-NAME>{short or name}</SHORT-NAME><DEFINITION-REF>/A/{name}</DEFINITION-REF>"
            f"<CONTAINERS>{''.join(inside)}</CONTAINERS></ECUC-MODULE-CONFIGURATION-VALUES>")


def package(*inside):
    return f"<AR-PACKAGES><AR-PACKAGE><SHORT-NAME>P</SHORT-NAME><ELEMENTS>{''.join(inside)}</ELEMENTS></AR-PACKAGE></AR-PACKAGES></AUTOSAR>"


def reference(kind, to):
    return (f"<ECUC-CONTAINER-VALUE><SHORT-NAME>Ref</SHORT-NAME><DEFINITION-REF>/A/NvM{kind}Ref</DEFINITION-REF><REFERENCE-VALUES><ECUC-REFERENCE-VALUE>"
            f"<DEFINITION-REF>/A/NvMNameOf{kind}Block</DEFINITION-REF><VALUE-REF>{to}</VALUE-REF></ECUC-REFERENCE-VALUE></REFERENCE-VALUES>"
            "</ECUC-CONTAINER-VALUE>")


COMMON = container("NvMCommon", "NvMCommon", value("NvMCompiledConfigId", 1) + value("NvMSizeStandardJobQueue", 8) + value("NvMSizeImmediateJobQueue", 4))


def block(number=2, more="", name="One", below="", length=4, kind="NATIVE"):
    return container(name, "NvMBlockDescriptor", value("NvMNvramBlockIdentifier", number) + value("NvMNvBlockLength", length)
                     + value("NvMBlockManagementType", f"NVM_BLOCK_{kind}", "TEXTUAL") + more, below)


FEE = module("Fee", container("FeeGeneral", "FeeGeneral", value("FeeVirtualPageSize", 16)), container("One", "FeeBlockConfiguration"))


def fls(sectors=8, size=256, page=16):
    return module("Fls", container("S", "FlsSector", value("FlsNumberOfSectors", sectors) + value("FlsSectorSize", size) + value("FlsPageSize", page)))


def whole(*blocks, more=FEE, flash=None, root=ROOT):
    return HEAD + root + package(module("NvM", COMMON, *blocks), more, fls() if flash is None else flash)


ROM = value("NvMRomBlockDataAddress", "&amp;Rom_One", "TEXTUAL")
BOMB = '<!DOCTYPE a [<!ENTITY a "aaaaaaaaaa"><!ENTITY b "&a;&a;&a;&a;&a;&a;&a;&a;">]>\n'
OUTSIDE = '<!DOCTYPE a [<!ENTITY a SYSTEM "file:///etc/passwd">]>\n'


def no_arxml():
    """What is no ARXML: each with the status and the line that tells it."""
    yield "", 4, "-:1:1: no XML: no element found"
    yield "{}", 4, "-:1:1: no XML: not well-formed .*"
    yield HEAD + BOMB + ROOT + package(), 4, r"-:2:\d+: a document type \(DTD\), .*"
    yield HEAD + OUTSIDE + ROOT + package(), 4, r"-:2:\d+: a document type \(DTD\), .*"
    yield whole(block())[:-40], 4, r"-:\d+:\d+: no XML: .*"
    yield whole(block()).replace("</ELEMENTS>", "</ELEMENT>"), 4, r"-:\d+:\d+: no XML: mismatched tag; in /P"
    yield whole(block(), more="&lol;"), 4, r"-:\d+:\d+: no XML: undefined entity; in /P"
    yield whole(block().replace("</VALUE>", "</value>", 1)), 4, r"-:5:\d+: no XML: mismatched tag; in /P/NvM/One"
    yield HEAD.replace("UTF-8", "utf-7") + ROOT + package(), 4, r"-:1.*: no XML.*"
    yield HEAD + "<html/>", 4, "-:2:1: no ARXML: its root is html and not AUTOSAR"
    yield HEAD + "<AUTOSAR/>", 4, "-:2:1: an ARXML without a namespace: .*"
    yield whole(root='<AUTOSAR xmlns="http://autosar.org/3.2.1">'), 4, r"-:2:1: an ARXML of schema 3\.2\.1: .* Release 4, .*"
    yield whole(root='<AUTOSAR xmlns="urn:x">'), 4, "-:2:1: an ARXML of the namespace urn:x: .*"
    yield whole(block(), more='<x:include xmlns:x="http://www.w3.org/2001/XInclude" href="/etc/passwd"/>'), 4, r"-:\d+:1?\d+: an element include of another namespace .*"
    yield HEAD + ROOT + "<AR-PACKAGES>" * 300, 4, r"-:2:\d+: nested deeper than 200"


def wrong_parameters():
    """Descriptions of which a parameter can't be taken, or that break a rule."""
    yield HEAD + ROOT + package(FEE), 3, "there is no module NvM in these files"
    yield HEAD + ROOT + package(module("NvM")), 3, "-:3: refused: /P/NvM: it has no NvMBlockDescriptor"
    yield whole(block(length=0)), 3, "-:5: refused: /P/NvM/One/NvMNvBlockLength = 0: it is 1 to 4096 here"
    yield whole(block(length=4097)), 3, "-:5: refused: /P/NvM/One/NvMNvBlockLength = 4097: it is 1 to 4096 here"
    yield whole(block(length="four")), 3, "-:5: refused: .*NvMNvBlockLength = four: a whole number is wanted, 1 to 4096"
    yield whole(block(length="08")), 3, "-:5: refused: .*NvMNvBlockLength = 08: a whole number is wanted, .*"
    yield whole(block(length="9" * 5000)), 3, "-:5: refused: .*NvMNvBlockLength = 9{60}[.][.]: a whole number is wanted, .*"
    yield whole(block(length="٤")), 3, "-:5: refused: .*NvMNvBlockLength = ٤: a whole number is wanted, .*"
    yield whole(block(kind="TWICE")), 3, "-:5: refused: .*NvMBlockManagementType = NVM_BLOCK_TWICE: it is one of NVM_BLOCK_NATIVE, .*"
    yield whole(block(kind="DATASET", more=value("NvMNvBlockNum", 65))), 3, "-:5: refused: .*NvMNvBlockNum = 65: it is 1 to 64 here"
    yield whole(block(more=value("NvMWriteBlockOnce", "yes"))), 3, "-:5: refused: .*NvMWriteBlockOnce = yes: true or false is wanted"
    yield whole(block(more=value("NvMRomBlockNum", 2) + ROM)), 3, "-:5: refused: .*NvMRomBlockNum = 2: .*"
    yield whole(block(more=value("NvMSelectBlockForReadAll", "true"))), 3, r"-:5: refused: /P/NvM: rule 20, block 2 \(One\): .*"
    yield whole(block(length=4000)), 3, "-:3: refused: /P/NvM: rule 24: a bank has 64 pages and needs .*"
    yield whole(block(name="Two.Names")), 3, '-:5: refused: /P/NvM/Two.Names: "Two.Names" is no name: .*'
    yield whole(block(more=value("NvMBlockUseCrc", 1).replace("</ECUC-N", "<VARIATION-POINT/></ECUC-N"))), 3, \
        "-:5: refused: /P/NvM/One/NvMBlockUseCrc: it is there in some variants alone, .*"
    yield whole(block().replace("</SHORT-NAME>", "</SHORT-NAME><VARIATION-POINT/>")), 3, "-:5: refused: /P/NvM/One: it is there in some variants alone, .*"
    yield whole(block().replace("<VALUE>4</VALUE>", "<VALUE><MS/></VALUE>")), 3, "-:5: refused: .*NvMNvBlockLength: its VALUE is a formula .*"
    yield whole(block().replace("<DEFINITION-REF>/A/NvMNvBlockLength</DEFINITION-REF>", "")), 3, "-:5: refused: .*: a parameter without a DEFINITION-REF.*"
    yield whole(block().replace("<SHORT-NAME>One</SHORT-NAME>", "")), 3, r"-:5: refused: /P/NvM/\?: a container without a SHORT-NAME"
    yield whole(block(513)), 3, "-:5: refused: .*NvMNvramBlockIdentifier = 513: ids are 2 to 512 here, without a gap"
    yield whole(block(more=value("NvMNvramDeviceId", 2))), 3, "-:5: refused: .*NvMNvramDeviceId = 2: it is 0 to 1 here"
    yield whole(block(), flash=fls(size=99999)), 3, r"-:\d+: refused: .*FlsSectorSize = 99999: a sector has 4 pages or more here .*"
    yield whole(block(), more=FEE.replace(">16<", ">300<")), 3, r"-:\d+: refused: .*FeeVirtualPageSize = 300: a page here has one of .*"


def wrong_parts():
    """Descriptions of which something stands twice or leads to nothing, or whose defaults can't be had: with the words behind the file."""
    yield whole(block(), block(3)), 10, "-:6: refused: /P/NvM/One: two containers have this path: the other one stands in line 5"
    yield whole(block(), block(name="Two")), 10, "-:6: refused: /P/NvM/Two/NvMNvramBlockIdentifier = 2: /P/NvM/One has it too"
    yield whole(block(more=value("NvMNvBlockLength", 5))), 10, "-:5: refused: /P/NvM/One/NvMNvBlockLength = 5: it stands twice, first in line 5"
    yield whole(block(), more=FEE + FEE), 10, r"-:\d+: refused: /P/Fee: two modules have this path: .*"
    yield whole(block(), more=FEE + module("Fee", short="Fee2")), 10, r"-:\d+: refused: /P/Fee2: a second module Fee: the other one is /P/Fee in -:\d+"
    yield whole(block(), COMMON.replace(">NvMCommon<", ">Common2<", 1)), 10, r"-:6: refused: /P/NvM/Common2: a second NvMCommon: .*"
    yield whole(block(below=reference("Fee", "/P/Fee/Two"))), 11, "-:5: refused: /P/NvM/One/Ref/NvMNameOfFeeBlock = /P/Fee/Two: it leads to nothing in these files"
    yield whole(block(below=reference("Fee", "Fee/One"))), 11, "-:5: refused: .* it leads to nothing in these files"
    yield whole(block(below=reference("Fee", "/P/Fee/FeeGeneral"))), 11, "-:5: refused: .*: it leads to a FeeGeneral and not to a FeeBlockConfiguration"
    yield whole(block(below=reference("Fee", ""))), 11, "-:5: refused: .* it leads to nothing in these files"
    yield whole(block(more=ROM)), 12, "FOLDER/values.json:1:2: refused: Rom_One: \"00\" is no content of 4 bytes", "--values", '{"Rom_One": "00"}'
    yield whole(block(more=ROM)), 12, "FOLDER/values.json:1:13: no JSON: .*", "--values", '{"Rom_One": }'
    yield whole(block(more=ROM)), 12, "FOLDER/values.json: one object, .*", "--values", "[]"
    yield whole(block(more=ROM)), 12, "FOLDER/program.elf: no ELF file", "--elf", b"\x7fELX" + bytes(100)
    yield whole(block(more=ROM)), 12, "FOLDER/program.elf: an ELF file that is cut off or broken", "--elf", elf(2, "<", {"Rom_One": b"1234"})[:100]
    yield whole(block(more=ROM)), 12, "-:5: refused: .*NvMRomBlockDataAddress = &Rom_One: there is no such symbol with bytes in .*", "--elf", \
        elf(2, "<", {"Rom_Two": b"1234"})
    yield whole(block(more=ROM)), 12, "-:5: refused: .* the symbol has 3 bytes, and 4 are needed", "--elf", elf(2, "<", {"Rom_One": b"123"})


def taken():
    """Descriptions that a unit comes of: the keys of its first block or of the unit that are wanted, and the words behind the file."""
    yield whole(block()), {"length": 4, "name": "One"}, []
    yield whole(block(length="0x10")), {"length": 16}, []
    yield whole(block(length="0b101")), {"length": 5}, []
    yield whole(block(length=" 017 ")), {"length": 15}, []
    yield whole(block(length="12.0")), {"length": 12}, []
    yield whole(block(below=reference("Fee", "/P/Fee/One"))), {"length": 4}, []
    yield whole(block()).replace(ROOT, ROOT[:-1] + ' xmlns:x="y" x:z="1">'), {"length": 4}, []
    yield whole(block(more=ROM)), {"defaults": "00ff00ff"}, ["--values", '{"Rom_One": "00ff00ff"}']
    yield whole(block(more=ROM)), {"defaults": "a5a5a5a5"}, ["--values", '{"One": "a5*4"}']
    yield whole(block(more=ROM + value("NvMRomBlockNum", 2), kind="DATASET")), {"rom": ["31323334", "35363738"]}, ["--elf", elf(2, "<", {"Rom_One": b"12345678"})]
    for bits in (1, 2):
        for order in "<>":
            yield whole(block(more=ROM)), {"defaults": "31323334"}, ["--elf", elf(bits, order, {"Other": b"xx", "Rom_One": b"1234"})]
    yield whole(block(more=ROM)), {"defaults": "31323334"}, ["--elf", elf(2, "<", {"Rom_One": b"1234"}, sizes=False)]
    yield whole(block(more=value("NvMBlockUseSyncMechanism", "1") + value("NvMReadRamBlockFromNvCallback", "Out", "FUNCTION")
                + value("NvMWriteRamBlockToNvCallback", "In", "FUNCTION"))), {"ram": "sync", "c": {"to_nvm": "In", "from_nvm": "Out"}}, []
    yield whole(block(), flash=""), {"length": 4}, []
    yield whole(block(), flash=fls(size=100)), {"length": 4}, []


def elf(bits, order, symbols, sizes=True):
    """A program of these symbols in one section, as a linker leaves it."""
    head, section, symbol, start = (52, 40, 16, 0x8000) if bits == 1 else (64, 64, 24, 0x8000)
    data, names, listed = b"", b"\0", [bytes(symbol)]
    for name, content in symbols.items():
        fields = (len(names), start + len(data), len(content) if sizes else 0)
        listed.append(struct.pack(order + "IIIBBH", *fields, 0x11, 0, 1) if bits == 1 else struct.pack(order + "IBBHQQ", fields[0], 0x11, 0, 1, *fields[1:]))
        names, data = names + name.encode() + b"\0", data + content
    table, parts = b"".join(listed), [b"", data, b"", names]
    parts[2] = table
    at, sections = head, [bytes(section)]
    for part, (kind, address, link, entry) in zip(parts[1:], ((1, start, 0, 0), (2, 0, 3, symbol), (3, 0, 0, 0))):
        form = "IIIIIIIIII" if bits == 1 else "IIQQQQIIQQ"
        sections.append(struct.pack(order + form, 0, kind, 0, address, at, len(part), link, 0, 1, entry))
        at += len(part)
    ident = b"\x7fELF" + bytes([bits, 1 if order == "<" else 2, 1]) + bytes(9)
    form = "HHIIIIIHHHHHH" if bits == 1 else "HHIQQQIHHHHHH"
    top = ident + struct.pack(order + form, 2, 40, 1, 0, 0, at, 0, head, 0, 0, section, len(sections), 3)
    return top + b"".join(parts) + b"".join(sections)


def drawn(draw):
    """A unit of keys that are drawn, each at its usual value too."""
    def maybe(name, *values):
        return {name: draw.choice(values)} if draw.random() < 0.4 else {}
    blocks, named, with_ids = [], draw.random() < 0.7, draw.random() < 0.5
    is_second = draw.random() < 0.3
    for number in range(2, draw.randint(3, 9)):
        kind, length = draw.choice(("native", "redundant", "dataset")), draw.randint(1, 64)
        ram = draw.choice(("none", "permanent", "sync"))
        it = {"length": length, **maybe("priority", 0, 1, 100, 255), **maybe("repeats", 0, 3), **maybe("reads", 0, 7), **maybe("writes", 0, 1),
              **maybe("once", False), **maybe("protected", True, False), **maybe("resistant", True, False), **maybe("did", "f190", ["0201"])}
        if kind != "native" or draw.random() < 0.3:
            it["kind"] = kind
        if ram != "none" or draw.random() < 0.3:
            it["ram"] = ram
            it.update({} if ram == "none" else {**maybe("readall", True, False), **maybe("writeall", True, False)})
        if kind == "dataset":
            it.update({"nv": draw.randint(1, 5), **maybe("rom", [], ["5A" * length], [f"0f*{length}"] * 3)})
        else:
            it.update(maybe("defaults", f"00*{length}", "aB" * length))
        names = {**maybe("done", f"Done_{number}"), **maybe("bswm", True, False), **maybe("first_init", True, False)}
        names.update({} if ram == "none" else {**maybe("init", "Make"), **maybe("set_ram", True, False), **maybe("auto", True, False)})
        names.update({**maybe("ram", f"Ram_{number}")} if ram == "permanent" else {"to_nvm": "In", "from_nvm": "Out"} if ram == "sync" else {})
        it.update(maybe("c", names))
        it.update(maybe("device", 0, 1) if is_second else {})
        it.update({"name": draw.choice(("block ", "Block_", "b", "1 ", "ä")) + str(number)} if named else {})
        it.update({"id": number} if with_ids else {})
        pairs = list(it.items())
        draw.shuffle(pairs)
        blocks.append(dict(pairs))
    if with_ids:
        draw.shuffle(blocks)
    unit = {"id": draw.randint(0, 65535), "page": draw.choice((16, 64)), "sector": 4096, "sectors": 16, "standard": 8, "immediate": 4, "blocks": blocks,
            **maybe("banks", 2, 4)}
    if any(it.get("device") for it in blocks):
        unit["eeprom"] = {"page": 16, "sector": 64, "sectors": 64}
    pairs = list(unit.items())
    draw.shuffle(pairs)
    return json.dumps(dict(pairs))


def there_and_back(text, folder):
    """What comes of a unit by way of an ARXML, and what is told on the way."""
    unit = units.Unit(*units.unit_file("unit", text))
    path, told = f"{folder}/unit.arxml", Told()
    with open(path, "w", encoding="utf-8") as file:
        file.write(exports.Exporter(unit, PACKAGE).text())
    description = descriptions.Description([path], parameters.MODULES, told)
    return imports.Importer(description, lambda *_: None, None, told).unit(), told.lines


def units_go_round(folder):
    """Whether each unit of examples/ and c/, each that is drawn and those above come back with the same keys in the same order, and nothing is told."""
    draw, wrong = random.Random(SEED), []
    files = [f"{calls.TOP}/{it}" for it in ("examples/body_controller.json", "examples/unit.json", f"{EXAMPLE}.json", "c/gearbox/gearbox.json",
                                            "c/odometer/odometer.json")]
    for text in (*(calls.read_text(path) for path in files if os.path.exists(path)), SECOND, NAMED, *(drawn(draw) for _ in range(DRAWN))):
        back, told = there_and_back(text, folder)
        if told or json.dumps(back) != json.dumps(json.loads(places.without_comments(text))):
            wrong.append(f"{text[:300]}\n  came back as {json.dumps(back)[:300]}, and told was {told[:2]}")
    for it in wrong[:3]:
        print(f"a unit by way of an ARXML: {it}")
    return not wrong


def run(*words, text=""):
    return subprocess.run([f"{calls.TOP}/tools/arxml", *words], input=text.encode(), capture_output=True, cwd=calls.TOP)


class Inside:
    """The tool as it runs in this process, so that a hundred calls are over at once: its status and what it printed."""

    def __init__(self):
        self.found = runpy.run_path(f"{calls.TOP}/tools/arxml")
        self.words = tool.words_of(self.found["__doc__"], self.found["words"], "arxml")

    def run(self, *words, text=""):
        given, out, said = (io.TextIOWrapper(io.BytesIO(it)) for it in (text.encode(), b"", b""))
        with mock.patch.multiple(sys, argv=["arxml", *words], stdin=given), contextlib.redirect_stdout(out), contextlib.redirect_stderr(said):
            status = tool.status_of(self.found["main"], self.words)
            out.flush()
            said.flush()
        return subprocess.CompletedProcess(words, status, out.buffer.getvalue(), said.buffer.getvalue())


def example_is_as_made(folder):
    """Whether the example is what the tool makes of its unit, and the unit comes of it, key by key."""
    made = run("--from-unit", f"{EXAMPLE}.json", "--package", PACKAGE)
    back = run(f"{EXAMPLE}.arxml", "--strict", "--into", f"{folder}/engine.json")
    unit = json.loads(places.without_comments(calls.read_text(f"{calls.TOP}/{EXAMPLE}.json")))
    found = json.loads(calls.read_text(f"{folder}/engine.json")) if not back.returncode else None
    well = {"it is made anew by tools/arxml --from-unit": made.stdout.decode() == calls.read_text(f"{calls.TOP}/{EXAMPLE}.arxml"),
            "it gives its unit": (back.returncode, back.stderr, json.dumps(found)) == (0, b"", json.dumps(unit)), "it has forty blocks": len(unit["blocks"]) == 40}
    for name in (name for name, holds in well.items() if not holds):
        print(f"{EXAMPLE}.arxml: not so: {name}")
    return all(well.values())


def behind(words, folder):
    """The words behind the file of a try, whose content is put into the folder."""
    if not words:
        return []
    option, content = words
    path = f"{folder}/{'program.elf' if option == '--elf' else 'values.json'}"
    with open(path, "wb") as file:
        file.write(content if isinstance(content, bytes) else content.encode())
    return [option, path]


def why_not_refused(inside, number, it, folder):
    text, status, line, *words = it
    place = f"{folder}/{number}"
    os.mkdir(place)
    into = f"{place}/unit.json"
    with open(into, "w", encoding="utf-8") as file:
        file.write("kept")
    ran = inside.run("-", "--into", into, "--replace", *behind(words, place), text=text)
    said = ran.stderr.decode()
    wanted = line.replace("FOLDER", re.escape(place))
    lines = [it.removeprefix("arxml: ") for it in said.splitlines()]
    if ran.returncode != status or "Traceback" in said or not any(re.fullmatch(wanted, it) for it in lines):
        return f"wanted {status} {line}: ended with {ran.returncode}: {said[-300:]}"
    if calls.read_text(into) != "kept" or ran.stdout or sorted(os.listdir(place)) != sorted({"unit.json", *(os.path.basename(it) for it in behind(words, place)[1:])}):
        return f"{line}: something was written"
    return None


def why_not_taken(inside, number, it, folder):
    text, wanted, words = it
    place = f"{folder}/taken{number}"
    os.mkdir(place)
    ran = inside.run("-", *behind(words, place), text=text)
    if ran.returncode:
        return f"wanted {wanted}: ended with {ran.returncode}: {ran.stderr.decode()[-300:]}"
    found = json.loads(ran.stdout)["blocks"][0]
    return None if all(found.get(key) == value for key, value in wanted.items()) else f"wanted {wanted}, and {found} came"


def wrong_descriptions_are_refused(folder):
    """Whether each of these ends with its status and its line, and leaves what stands there; and what is right is taken."""
    os.mkdir(f"{folder}/ecuc")
    inside, tries, others = Inside(), [*enumerate([*no_arxml(), *wrong_parameters(), *wrong_parts()])], [*enumerate(taken())]
    wrong = [*filter(None, (why_not_refused(inside, *it, f"{folder}/ecuc") for it in tries))]
    wrong += filter(None, (why_not_taken(inside, *it, f"{folder}/ecuc") for it in others))
    for it in wrong:
        print(f"a description: {it}")
    print(f"descriptions: {len(tries) + len(others) - len(wrong)} of {len(tries) + len(others)} end as they are to")
    return not wrong


def outputs_are_whole_or_not_at_all(folder):
    """Whether a file that is there stays without --replace, where something is told with --strict, and where a rule is broken; and what --anyway does."""
    path, other = f"{folder}/whole.json", whole(block(more=value("NvMBlockUseCrc", 1)))
    broken = whole(block(length=4000))
    with open(path, "w", encoding="utf-8") as file:
        file.write("kept")
    tries = [(("-", "--into", path), other, 2), (("-", "--into", path, "--replace", "--strict"), other, 1),
             (("-", "--into", path, "--replace"), broken, 3), (("-", "--into", folder, "--replace"), other, 2)]
    wrong = [words for words, text, status in tries if run(*words, text=text).returncode != status or calls.read_text(path) != "kept"]
    anyway = run("-", "--into", path, "--replace", "--anyway", text=broken)
    if anyway.returncode != 3 or b"rule 24" not in anyway.stderr or json.loads(calls.read_text(path))["blocks"][0]["length"] != 4000:
        wrong.append("--anyway")
    several = [f"{folder}/a.arxml", f"{folder}/b.arxml"]
    for name, text in zip(several, (whole(block(below=reference("Fee", "/P/Fee/One")), more="", flash=""), HEAD + ROOT + package(FEE, fls()))):
        with open(name, "w", encoding="utf-8") as file:
            file.write(text)
    both = run(*several, "--strict")
    if both.returncode or json.loads(both.stdout)["sectors"] != 8:
        wrong.append(f"two files: {both.stderr.decode()}")
    told = json.loads(run("-", "--json", text=other).stdout)
    if (told["status"], len(told["told"]), told["told"][0]["verdict"], told["unit"]["blocks"][0]["length"]) != (0, 1, "dropped", 4):
        wrong.append("--json")
    for it in wrong:
        print(f"what tools/arxml writes: not so: {it}")
    return not wrong


def definitions(rows):
    """A file of definitions as the standard's own one is, with these parameters."""
    modules = {}
    for name, inside, parameter in rows:
        modules.setdefault(name, {}).setdefault(inside, []).append(parameter)
    parts = [f"<ECUC-MODULE-DEF><SHORT-NAME>{name}</SHORT-NAME><CONTAINERS>" + "".join(
        f"<ECUC-PARAM-CONF-CONTAINER-DEF><SHORT-NAME>{inside}</SHORT-NAME><PARAMETERS>" + "".join(
            f"<ECUC-INTEGER-PARAM-DEF><SHORT-NAME>{it}</SHORT-NAME><MAX>1</MAX></ECUC-INTEGER-PARAM-DEF>" for it in found)
        + "</PARAMETERS></ECUC-PARAM-CONF-CONTAINER-DEF>" for inside, found in containers.items()) + "</CONTAINERS></ECUC-MODULE-DEF>"
        for name, containers in modules.items()]
    return HEAD + ROOT + package(*parts)


def names_are_compared(folder):
    """Whether --definitions tells the names that a file of definitions lacks, and those that it has beside them."""
    rows = [it[:3] for it in parameters.rows()]
    all_there, ran = run("-", "--definitions", text=definitions(rows)), run("-", "--definitions", text=definitions([*rows[1:], ("NvM", "NvMCommon", "NvMNew")]))
    lines = ran.stdout.decode().splitlines()
    well = {"all are there": all_there.returncode == 0 and all_there.stdout.decode().startswith(f"{len(rows)} of {len(rows)} names"),
            "one isn't": ran.returncode == 1 and lines[0] == "/".join(rows[0]) + ": isn't in it", "one is new": lines[1] == "NvM/NvMCommon/NvMNew: is in it alone"}
    for name in (name for name, holds in well.items() if not holds):
        print(f"--definitions: not so: {name}: {lines[:3]}")
    return all(well.values())


def descriptions_are_in_order(folder):
    return [units_go_round(folder), example_is_as_made(folder), wrong_descriptions_are_refused(folder), outputs_are_whole_or_not_at_all(folder),
            names_are_compared(folder)]
