"""An ECU configuration of a unit: ARXML of Release 4, with the modules NvM, Fee and Fls, and Ea and Eep where a block stands on the second device.

What no parameter has, as the bytes of defaults, stands beside each block in ADMIN-DATA, in a group that is called natukeri."""
import json
import re
from xml.sax.saxutils import escape

from nvmtools import imports, parameters, units
from nvmtools.descriptions import NAMESPACE, OWN
from nvmtools.names import word_of_c

SCHEMA = "AUTOSAR_4-2-2.xsd"
DEFINITIONS = "/AUTOSAR/EcucDefs"
SHORT_NAME = r"[A-Za-z][A-Za-z0-9_]{0,127}"
LONGEST = 128
# the short names of what stands beside the blocks
TAKEN = ("NvMCommon", "FeeGeneral", "EaGeneral")
KIND_OF = {parameters.INTEGER: ("NUMERICAL", "INTEGER-PARAM"), parameters.FLAG: ("NUMERICAL", "BOOLEAN-PARAM"),
           parameters.CHOICE: ("TEXTUAL", "ENUMERATION-PARAM"), parameters.TEXT: ("TEXTUAL", "STRING-PARAM"),
           parameters.FUNCTION: ("TEXTUAL", "FUNCTION-NAME")}
# of a block: what it is kept beside its parameters
KEPT = ("name", "defaults", "rom", "repeats", *imports.KEPT)


class Writer:
    """Puts an ARXML together, line by line."""

    def __init__(self):
        self.lines, self.open = ['<?xml version="1.0" encoding="UTF-8"?>'], []

    def begin(self, tag, attributes=""):
        self.lines.append(f"{' ' * len(self.open)}<{tag}{attributes}>")
        self.open.append(tag)

    def end(self, count=1):
        for _ in range(count):
            tag = self.open.pop()
            self.lines.append(f"{' ' * len(self.open)}</{tag}>")

    def text(self, tag, text, attributes=""):
        self.lines.append(f"{' ' * len(self.open)}<{tag}{attributes}>{escape(text)}</{tag}>")

    def definition(self, path, kind):
        self.text("DEFINITION-REF", path, f' DEST="ECUC-{kind}-DEF"')

    def module(self, name):
        self.begin("ECUC-MODULE-CONFIGURATION-VALUES")
        self.text("SHORT-NAME", name)
        self.definition(f"{DEFINITIONS}/{name}", "MODULE")
        self.begin("CONTAINERS")

    def container(self, name, path, kind="PARAM-CONF-CONTAINER", own=None):
        """Begins a container, with what is kept of a unit in it."""
        self.begin("ECUC-CONTAINER-VALUE")
        self.text("SHORT-NAME", name)
        if own:
            self.begin("ADMIN-DATA")
            self.begin("SDGS")
            self.begin("SDG", f' GID="{OWN}"')
            for key, value in own.items():
                self.text("SD", json.dumps(value), f' GID="{key}"')
            self.end(3)
        self.definition(path, kind)

    def values(self, path, values):
        """Parameters, each of the type that the table has."""
        module, container = path.split("/")[3], path.rpartition("/")[2]
        if not values:
            return
        self.begin("PARAMETER-VALUES")
        for name, value in values.items():
            form, kind = KIND_OF[parameters.known(module, container, name).type]
            self.begin(f"ECUC-{form}-PARAM-VALUE")
            self.definition(f"{path}/{name}", kind)
            self.text("VALUE", str(value).lower() if isinstance(value, bool) else str(value))
            self.end()
        self.end()

    def reference(self, path, to):
        self.begin("REFERENCE-VALUES")
        self.begin("ECUC-REFERENCE-VALUE")
        self.definition(path, "SYMBOLIC-NAME-REFERENCE")
        self.text("VALUE-REF", to, ' DEST="ECUC-CONTAINER-VALUE"')
        self.end(2)


class Exporter:
    """Makes a description of a unit."""

    def __init__(self, unit, package):
        self.unit, self.out, self.package, self.rams = unit, Writer(), package, {}
        # (as the file has the blocks)
        ids = [number for number in unit.blocks if number != 1]
        self.blocks = sorted(ids, key=lambda number: unit.order[number - units.FIRST_ID])
        self.names = short_names(unit, self.blocks)

    def text(self):
        out = self.out
        out.begin("AUTOSAR", f' xmlns="{NAMESPACE}" xmlns:xsi="http://www.w3.org/2001/XMLSchema-instance" '
                  f'xsi:schemaLocation="{NAMESPACE} {SCHEMA}"')
        parts = self.package.strip("/").split("/")
        for part in parts:
            out.begin("AR-PACKAGES")
            out.begin("AR-PACKAGE")
            out.text("SHORT-NAME", part)
        out.begin("ELEMENTS")
        self.manager()
        is_second = "eeprom" in self.unit.source
        self.emulation("Fee", 0, self.unit.page, "/Fls/FlsGeneral")
        if is_second:
            self.emulation("Ea", 1, self.unit.source["eeprom"]["page"], "/Eep/EepGeneral")
        self.flash()
        if is_second:
            self.eeprom()
        out.end(2 + 2 * len(parts))
        return "\n".join(out.lines) + "\n"

    def manager(self):
        source, out, path = self.unit.source, self.out, f"{DEFINITIONS}/NvM"
        out.module("NvM")
        own = {"keys": list(source), **{key: source[key] for key in ("banks",) if key in source}}
        out.container("NvMCommon", f"{path}/NvMCommon", own=own)
        repeats = max((block.get("repeats", 0) for block in self.unit.blocks.values()), default=0)
        out.values(f"{path}/NvMCommon", {
            "NvMApiConfigClass": "NVM_API_CONFIG_CLASS_3", "NvMCompiledConfigId": source["id"], "NvMDatasetSelectionBits": 6,
            "NvMDynamicConfiguration": True, "NvMJobPrioritization": True, "NvMPollingMode": True, "NvMRepeatMirrorOperations": repeats,
            "NvMSetRamBlockStatusApi": True, "NvMSizeImmediateJobQueue": source["immediate"], "NvMSizeStandardJobQueue": source["standard"]})
        out.end()
        for number in self.blocks:
            self.block(number, f"{path}/NvMBlockDescriptor")
        out.end(2)

    def block(self, number, path):
        out, it, name = self.out, self.unit.blocks[number], self.names[number]
        names = names_of_c(self.unit, number)
        if self.rams.setdefault(names.get("ram"), number) != number and "ram" in names:
            raise units.Stop(f'{self.unit.place(number, "c")}: {self.unit.called(number)}: "ram" is {names["ram"]}, which '
                             f'{self.unit.called(self.rams[names["ram"]])} has too', 3)
        own = {"keys": list(it), **{key: it[key] for key in KEPT if key in it}}
        if "name" in it:
            own["short_name"] = name
        if "c" in it:
            own["c"] = list(names)
        ram = names.get("ram", f"NvM_Ram_{name}") if it.get("ram") == "permanent" else None
        if ram and "ram" not in names:
            own["ram"] = ram
        out.container(name, path, own=own)
        out.values(path, block_values(number, it, names, ram, name))
        out.begin("SUB-CONTAINERS")
        for key, (container, inner) in imports.CALLBACKS.items():
            if inner and key in names:
                out.container(container, f"{path}/{container}")
                out.values(f"{path}/{container}", {inner: names[key]})
                out.end()
        kind = "Fee" if self.unit.is_first(number) else "Ea"
        choice = f"{path}/NvMTargetBlockReference"
        out.container("NvMTargetBlockReference", choice, "CHOICE-CONTAINER")
        out.begin("SUB-CONTAINERS")
        out.container(f"NvM{kind}Ref", f"{choice}/NvM{kind}Ref")
        out.reference(f"{choice}/NvM{kind}Ref/NvMNameOf{kind}Block", f"{self.top()}/{kind}/{name}")
        out.end(5)

    def top(self):
        return "/" + self.package.strip("/")

    def emulation(self, prefix, device, page, driver):
        """The module Fee or Ea."""
        out, path = self.out, f"{DEFINITIONS}/{prefix}"
        out.module(prefix)
        out.container(f"{prefix}General", f"{path}/{prefix}General")
        out.values(f"{path}/{prefix}General", {f"{prefix}PollingMode": True, f"{prefix}SetModeSupported": False, f"{prefix}VirtualPageSize": page})
        out.end()
        for number in self.blocks:
            it = self.unit.blocks[number]
            if it.get("device", 0) != device:
                continue
            below = f"{path}/{prefix}BlockConfiguration"
            out.container(self.names[number], below)
            out.values(below, {f"{prefix}BlockNumber": 64 * number, f"{prefix}BlockSize": it["length"],
                               f"{prefix}ImmediateData": self.unit.is_immediate(number)})
            out.reference(f"{below}/{prefix}DeviceIndex", self.top() + driver)
            out.end()
        out.end(2)

    def flash(self):
        unit, out, path = self.unit, self.out, f"{DEFINITIONS}/Fls"
        out.module("Fls")
        out.container("FlsGeneral", f"{path}/FlsGeneral")
        out.values(f"{path}/FlsGeneral", {"FlsDriverIndex": 0, "FlsTotalSize": unit.size})
        out.end()
        path += "/FlsConfigSet"
        out.container("FlsConfigSet", path)
        out.begin("SUB-CONTAINERS")
        out.container("FlsSectorList", f"{path}/FlsSectorList")
        out.begin("SUB-CONTAINERS")
        out.container("FlsSector_0", f"{path}/FlsSectorList/FlsSector")
        out.values(f"{path}/FlsSectorList/FlsSector", {"FlsNumberOfSectors": unit.sectors, "FlsPageSize": unit.page, "FlsSectorSize": unit.sector,
                                                       "FlsSectorStartaddress": 0})
        out.end(7)

    def eeprom(self):
        shape, out, path = self.unit.source["eeprom"], self.out, f"{DEFINITIONS}/Eep"
        out.module("Eep")
        for name, values in (("EepGeneral", {"EepDriverIndex": 0}), ("EepInitConfiguration", {"EepSize": shape["sector"] * shape["sectors"]}),
                             ("EepPublishedInformation", {"EepEraseUnitSize": shape["sector"], "EepWriteUnitSize": shape["page"]})):
            out.container(name, f"{path}/{name}")
            out.values(f"{path}/{name}", values)
            out.end()
        out.end(2)


def block_values(number, it, names, ram, name):
    """The parameters of a block."""
    kind = it.get("kind", "native")
    copies = it["nv"] if kind == "dataset" else 2 if kind == "redundant" else 1
    values = {
        "NvMBlockJobPriority": it.get("priority", 100), "NvMBlockManagementType": f"NVM_BLOCK_{kind.upper()}", "NvMBlockUseCrc": False,
        "NvMBlockUseSyncMechanism": it.get("ram") == "sync", "NvMNvBlockBaseNumber": number, "NvMNvBlockLength": it["length"],
        "NvMNvBlockNum": copies, "NvMNvramBlockIdentifier": number, "NvMNvramDeviceId": it.get("device", 0), "NvMRamBlockDataAddress": ram,
        "NvMRomBlockDataAddress": f"NvM_Rom_{name}" if it.get("rom") or "defaults" in it else None,
        "NvMRomBlockNum": len(it["rom"]) if "rom" in it else int("defaults" in it), "NvMStaticBlockIDCheck": False, "NvMWriteVerification": False,
        **{parameter: it.get(key, False) for parameter, key in imports.FLAGS.items()},
        **{parameter: it.get(key, 0) for parameter, key in imports.TRIES.items()},
        **{parameter: names.get(key, usual) for key, (parameter, usual) in imports.SETTINGS.items()},
        **{parameter: names.get(key) for key, (parameter, inner) in imports.CALLBACKS.items() if not inner},
    }
    return {name: values[name] for name in sorted(values) if values[name] is not None}


def names_of_c(unit, number):
    """A block's key c, or an end where a parameter can't have what stands there."""
    given, who = unit.blocks[number].get("c", {}), f"{unit.place(number, 'c')}: {unit.called(number)}"
    if not isinstance(given, dict):
        raise units.Stop(f'{who}: "c" is an object', 3)
    known = ("ram", *imports.CALLBACKS, *imports.SETTINGS)
    ram = unit.blocks[number].get("ram", "none")
    for key, value in given.items():
        if key not in known:
            raise units.Stop(f'{who}: "c" has no key "{key}"; {units.near(key, list(known))}', 3)
        if not (isinstance(value, bool) if key in imports.SETTINGS else isinstance(value, str) and re.fullmatch(imports.C_NAME, value)):
            raise units.Stop(f'{who}: "{key}" is {"true or false" if key in imports.SETTINGS else "a name of C"}', 3)
        if key in imports.NEEDS and ram not in imports.NEEDS[key]:
            raise units.Stop(f'{who}: "{key}" is of a block with "ram" {" or ".join(imports.NEEDS[key])}', 3)
    return given


def short_names(unit, blocks):
    """A short name for each block: its name as one word, as tools/header has it in C, and its id behind it where another block has that."""
    found, taken = {}, set(TAKEN)
    for number in blocks:
        name = re.sub(r"^[^A-Za-z]*", "", word_of_c(unit.name(number), number))[:LONGEST] or f"Block{number}"
        if name in taken:
            name = f"{name[:LONGEST - 8]}_{number}"
        taken.add(name)
        found[number] = name
    return found
