"""A unit of an ECU configuration: each parameter becomes a key, or a line tells what it would have meant (docs/ARXML.md).

Nothing is guessed in silence: what has no counterpart is dropped and told, what has another value here is changed and told, and what can't
be taken is refused and told, so that no unit comes of it."""
import re

from nvmtools import contents, parameters, shapes, units
from nvmtools.descriptions import NOWHERE, TWICE
from nvmtools.told import REFUSED, Taker, number_of, path_of
from nvmtools.tool import Stop

NO_CONTENT = 12
KINDS = {f"NVM_BLOCK_{it.upper()}": it for it in ("native", "redundant", "dataset")}
MOST_LENGTH, MOST_DATASETS, MOST_ROM, MOST_QUEUE, MOST_TRIES, MOST_ID = 4096, 64, 16, 256, 7, 65_535
C_NAME = r"[A-Za-z_][A-Za-z0-9_]*"
NO_ADDRESS = ("", "NULL", "NULL_PTR", "0", "0x0")
FLAGS = {"NvMSelectBlockForReadAll": "readall", "NvMSelectBlockForWriteAll": "writeall", "NvMWriteBlockOnce": "once", "NvMBlockWriteProt": "protected",
         "NvMResistantToChangedSw": "resistant"}
TRIES = {"NvMMaxNumOfReadRetries": "reads", "NvMMaxNumOfWriteRetries": "writes"}
# callbacks by the key of "c": the name of the parameter or its container, and that of the parameter in the container
CALLBACKS = {"done": ("NvMSingleBlockCallback", "NvMSingleBlockCallbackFnc"), "init": ("NvMInitBlockCallback", "NvMInitBlockCallbackFnc"),
             "to_nvm": ("NvMWriteRamBlockToNvCallback", None), "from_nvm": ("NvMReadRamBlockFromNvCallback", None)}
SETTINGS = {"set_ram": ("NvMBlockUseSetRamBlockStatus", True), "auto": ("NvMBlockUseAutoValidation", False),
            "first_init": ("NvMSelectBlockForFirstInitAll", False), "bswm": ("NvMBswMBlockStatusInformation", False)}
# what the RAM of a block has to be for a key of "c"
NEEDS = {"ram": ("permanent",), "init": ("permanent", "sync"), "set_ram": ("permanent", "sync"), "auto": ("permanent", "sync"), "to_nvm": ("sync",),
         "from_nvm": ("sync",)}
# what a key is where it isn't written
USUAL = {"kind": "native", "priority": 100, "ram": "none", "rom": [], **dict.fromkeys(FLAGS.values(), False), "reads": 0, "writes": 0, "repeats": 0,
         "device": 0, "c": {}}
# what of a block stands in a unit file alone, and in no parameter
KEPT = tuple(it for it in units.OURS if it not in ("name", "id", "c"))
USUAL_OF_C = {name: usual for name, (_, usual) in SETTINGS.items()}


def symbol_of(text):
    """The symbol of an address, as &Table or Table[0]; None where it is none."""
    found = re.fullmatch(rf"\(?&?\s*({C_NAME})\s*(?:\[0\])?\)?", text)
    return found[1] if found else None


def is_own(block):
    """Whether this tool made a block's description of a unit, whose keys stand beside it."""
    return isinstance(block.own.get("keys"), list)


def ordered(made, own, usual):
    """Keys in the order in which a unit had them, with those at their usual value that it had, and what else there is behind them."""
    listed = [key for key in own if isinstance(key, str)] if isinstance(own, list) else []
    first = {key: made.get(key, usual.get(key)) for key in listed if key in made or key in usual}
    return {**first, **{key: value for key, value in made.items() if key not in first}}


class Importer:
    """Makes a unit of a description."""

    def __init__(self, description, bytes_of, flash, told):
        self.description, self.bytes_of, self.told = description, bytes_of, told
        self.taker, self.rams, self.stores, self.places = Taker(told), {}, {}, {}
        self.flash = shapes.Flash(description, self.taker, flash)

    def unit(self):
        """The unit, with all that is told; a part of one where something was refused."""
        if "NvM" not in self.description.modules:
            raise Stop("there is no module NvM in these files", REFUSED)
        found = {definition: self.flash.containers("NvM", definition) for definition in ("NvMCommon", "NvMBlockDescriptor")}
        for it in found["NvMCommon"][1:]:
            self.told.refuse(it.place, it.path, f"a second NvMCommon: the other one is {found['NvMCommon'][0].path}", TWICE)
        common = next(iter(found["NvMCommon"]), None)
        described = [it for it in found["NvMBlockDescriptor"] if not self.is_managers_own(it)]
        if not described:
            module = self.description.modules["NvM"]
            self.told.refuse(module.place, module.path, "it has no NvMBlockDescriptor")
            return {}
        page = self.flash.page()
        blocks = self.in_order([(it, self.block(it, common)) for it in described])
        made = {**self.head(common), **self.flash.shape(page, [it for it in blocks if it.get("device", 0) == 0])}
        self.tell_repeats(common, described)
        order = ("id", "page", "sector", "sectors", "standard", "immediate")
        made = {key: made[key] for key in order}
        made["blocks"] = blocks
        second = [it for it in blocks if it.get("device") == 1]
        if second:
            made["eeprom"] = self.flash.eeprom(second)
        own = common.own if common else {}
        if "banks" in own:
            made["banks"] = own["banks"]
        self.tell_what_is_left()
        return ordered(made, own.get("keys"), {})

    def head(self, common):
        """The keys id, standard and immediate."""
        number = self.taker.number
        if common is None:
            module = self.description.modules["NvM"]
            self.told.change(module.place, module.path, "no NvMCommon: id 1, standard 16 and immediate 4 are taken")
            return {"id": 1, "standard": 16, "immediate": 4}
        made = {"id": number(common, "NvMCompiledConfigId", None, 0, MOST_ID)}
        if made["id"] is None:
            made["id"] = 1
            self.told.change(common.place, f"{common.path}/NvMCompiledConfigId", "it isn't there: 1 is taken")
        number(common, "NvMRepeatMirrorOperations", 0)
        for key, name, usual in (("standard", "NvMSizeStandardJobQueue", 16), ("immediate", "NvMSizeImmediateJobQueue", 4)):
            found = number(common, name)
            made[key] = min(max(found or usual, 1), MOST_QUEUE)
            if found is not None and found != made[key]:
                self.taker.change(common, name, f"{made[key]} is taken: 1 to {MOST_QUEUE} jobs may wait")
            elif found is None:
                self.told.change(common.place, f"{common.path}/{name}", f"it isn't there: {usual} is taken")
        return made

    def is_managers_own(self, block):
        """Whether a block is block 1, which the manager has by itself."""
        value = block.values.get("NvMNvramBlockIdentifier")
        if not value or not value.text or number_of(value.text) != 1:
            return False
        own = {"NvMNvramBlockIdentifier": "1", "NvMNvBlockLength": "2", "NvMBlockManagementType": "NVM_BLOCK_REDUNDANT", "NvMNvBlockNum": "2"}
        for name, it in block.values.items():
            block.used.add(name)
            if name in own and (it.text or "") not in ("", own[name]):
                self.taker.drop(block, it, f"block 1 is the manager's own: it holds the configuration's id, and this is {own[name]} of it")
        for it in block.whole():
            it.used.update((*it.values, *it.references))
        return True

    def block(self, it, common):
        """The keys of a block."""
        taker, own = self.taker, it.own
        made = {"id": taker.number(it, "NvMNvramBlockIdentifier", None, 2), "name": self.name(it)}
        kind = self.kind(it)
        made["kind"] = kind
        made["length"] = self.length(it)
        self.datasets(it, kind, made)
        device, store = self.store(it)
        self.priority(it, store, made)
        made["device"] = device
        names = self.names(it, made)
        self.defaults(it, made)
        made.update((key, taker.flag(it, name)) for name, key in FLAGS.items())
        made.update((key, self.tries(it, name)) for name, key in TRIES.items())
        made["repeats"] = 0 if is_own(it) else self.repeats(common, made)
        made.update((key, own[key]) for key in ("repeats", *KEPT) if key in own)
        names = ordered(names, own.get("c"), USUAL_OF_C)
        if names:
            made["c"] = names
        made = {key: value for key, value in made.items() if value != USUAL.get(key) and value is not None}
        if is_own(it):
            made = {key: value for key, value in made.items() if key in own["keys"] or key not in ("name", "id")}
        made = ordered(made, own.get("keys"), USUAL)
        self.places[id(made)] = it
        return made

    def name(self, it):
        """The block's name: that of a unit where the short name is still made of it."""
        own = it.own.get("name")
        return own if isinstance(own, str) and it.own.get("short_name") == it.name else it.name

    def kind(self, it):
        value = self.taker.take(it, "NvMBlockManagementType")
        if value and value.text in KINDS:
            return KINDS[value.text]
        if value:
            self.taker.refuse(it, value, f"it is one of {', '.join(KINDS)}")
        else:
            self.told.change(it.place, f"{it.path}/NvMBlockManagementType", "it isn't there: NVM_BLOCK_NATIVE is taken")
        return "native"

    def length(self, it):
        length = self.taker.number(it, "NvMNvBlockLength", None, 1, MOST_LENGTH)
        if length is None and "NvMNvBlockLength" not in it.values:
            self.told.refuse(it.place, f"{it.path}/NvMNvBlockLength", "it isn't there, and nothing else tells the block's length")
        return length

    def datasets(self, it, kind, made):
        """The key nv; and what the number of copies is here."""
        if kind == "dataset":
            made["nv"] = self.taker.number(it, "NvMNvBlockNum", 1, 1, MOST_DATASETS)
            return
        number, copies = self.taker.number(it, "NvMNvBlockNum"), 2 if kind == "redundant" else 1
        if number not in (None, copies):
            self.taker.change(it, "NvMNvBlockNum", f"a {kind} block is stored {'twice' if copies == 2 else 'once'}")

    def store(self, it):
        """The device of a block, by its reference, and its container of Fee or Ea."""
        found = [(module, below, value) for module, name in (("Fee", "NvMNameOfFeeBlock"), ("Ea", "NvMNameOfEaBlock")) for below in it.whole()
                 for value in [below.references.get(name)] if value]
        told = self.taker.number(it, "NvMNvramDeviceId", None, 0, 1)
        for _, below, value in found:
            below.used.add(value.name)
        if not found:
            return told or 0, None
        module, below, value = found[0]
        if len(found) > 1:
            self.taker.refuse(found[1][1], found[1][2], f"a second device: {path_of(below, value)} is the first", TWICE)
        device = int(module == "Ea")
        if told not in (None, device):
            self.taker.change(it, "NvMNvramDeviceId", f"the reference to {module} decides: device {device}")
        return device, self.stored_as(module, it, below, value)

    def stored_as(self, module, it, below, value):
        """The container that a reference of a block leads to, with what it tells of the block."""
        store = self.description.led_to(below, value)
        if store is None and module not in self.description.modules:
            self.taker.drop(below, value, f"the module {module} isn't in these files: nothing of its block is known")
        elif store is None:
            self.taker.refuse(below, value, "it leads to nothing in these files", NOWHERE)
        elif store.definition != f"{module}BlockConfiguration":
            self.taker.refuse(below, value, f"it leads to a {store.definition} and not to a {module}BlockConfiguration", NOWHERE)
        elif store.path in self.stores:
            self.taker.change(below, value.name, f"{self.stores[store.path]} has it too: each has records of its own here")
        else:
            self.stores[store.path] = it.path
            store.used.update((f"{module}ImmediateData", f"{module}BlockSize", f"{module}BlockNumber", f"{module}DeviceIndex"))
        return store

    def priority(self, it, store, made):
        """The key priority, beside what Fee or Ea has of it."""
        made["priority"] = self.taker.number(it, "NvMBlockJobPriority", 100, 0, 255)
        if store is None:
            return
        prefix = store.definition[:-len("BlockConfiguration")]
        if store.values.get(f"{prefix}ImmediateData"):
            immediate = self.taker.flag(store, f"{prefix}ImmediateData")
            if immediate != (made["priority"] == 0):
                self.taker.change(store, f"{prefix}ImmediateData", f"NvMBlockJobPriority {made['priority']} decides: "
                                  f"{'immediate' if made['priority'] == 0 else 'not immediate'}")
        for name, due in ((f"{prefix}BlockSize", made["length"]), (f"{prefix}BlockNumber", made["id"] and 64 * made["id"])):
            found = self.taker.number(store, name)
            if found is not None and due is not None and found != due:
                self.taker.change(store, name, f"{due} is taken: " + parameters.known(prefix, store.definition, name).means)

    def tries(self, it, name):
        count = self.taker.number(it, name, 0)
        if count > MOST_TRIES:
            self.taker.change(it, name, f"{MOST_TRIES} is taken, the most")
        return min(count, MOST_TRIES)

    def repeats(self, common, made):
        """The key repeats: NvMCommon has it for all blocks."""
        value = common.values.get("NvMRepeatMirrorOperations") if common else None
        count = number_of(value.text) if value and value.text else 0
        return min(count or 0, MOST_TRIES) if made.get("ram") == "sync" else 0

    def tell_repeats(self, common, described):
        """Tells of NvMRepeatMirrorOperations where it was changed behind what the blocks of a unit have."""
        value = common.values.get("NvMRepeatMirrorOperations") if common else None
        of_blocks = [it.own.get("repeats", 0) for it in described if is_own(it)]
        if value and of_blocks and number_of(value.text or "") not in of_blocks:
            self.taker.change(common, value.name, f"each block of the unit has its own: {', '.join(sorted({str(it) for it in of_blocks}))}")

    def names(self, it, made):
        """The key c, and the key ram beside it."""
        taker = self.taker
        address = taker.take(it, "NvMRamBlockDataAddress")
        address = None if address and address.text in NO_ADDRESS else address
        is_sync = taker.flag(it, "NvMBlockUseSyncMechanism")
        made["ram"] = "sync" if is_sync else "permanent" if address else "none"
        names = {}
        if address and is_sync:
            taker.drop(it, address, "the block's RAM: with NvMBlockUseSyncMechanism its callbacks copy it")
        elif address:
            self.ram(it, address, names)
        names.update((key, found) for key in CALLBACKS if (found := self.callback(it, key, made["ram"])))
        for key, (name, usual) in SETTINGS.items():
            found = taker.flag(it, name, usual)
            if found != usual and made["ram"] not in NEEDS.get(key, made["ram"]):
                taker.drop(it, it.values[name], "it is about the block's RAM, and the block has none")
            elif found != usual:
                names[key] = found
        return names

    def ram(self, it, address, names):
        """The name of a permanent RAM block."""
        symbol = symbol_of(address.text)
        listed = it.own.get("c")
        if symbol and symbol == it.own.get("ram") and not (isinstance(listed, list) and "ram" in listed):
            # (the unit had none, and the tool gave it one)
            return
        if not symbol:
            self.taker.drop(it, address, "no plain name of C: NvM_Cfg.c defines the RAM block, as tools/header makes it")
        elif symbol in self.rams:
            self.taker.drop(it, address, f"{self.rams[symbol]} has it too: NvM_Cfg.c defines another RAM block, as tools/header makes it")
        else:
            self.rams[symbol] = it.path
            names["ram"] = symbol

    def callback(self, it, key, ram):
        """The function of a callback: a parameter of the block, or of a container of its own."""
        name, inner = CALLBACKS[key]
        at = next((one for one in [it, *it.inner(name)] if one.values.get(name) or inner and one.values.get(inner)), None)
        for one in (it, *it.inner(name)):
            one.used.update((name, inner))
        if at is None:
            return None
        value = at.values.get(inner) or at.values.get(name)
        if not value.text or value.text in NO_ADDRESS:
            return None
        if not re.fullmatch(C_NAME, value.text):
            self.taker.drop(at, value, "no name of C, so nothing can be called")
        elif ram not in NEEDS.get(key, ram):
            self.taker.drop(at, value, "it makes the block's RAM, and the block has none" if key == "init" else
                            "it copies the RAM of a block with NvMBlockUseSyncMechanism, which this block doesn't have")
        else:
            return value.text
        return None

    def defaults(self, it, made):
        """The keys defaults and rom, out of values, a program, or what this tool left of a unit."""
        address, count = self.taker.take(it, "NvMRomBlockDataAddress"), self.taker.number(it, "NvMRomBlockNum", None, 0)
        address = None if address and address.text in NO_ADDRESS else address
        is_dataset, length = made["kind"] == "dataset", made["length"]
        own = {key: it.own[key] for key in ("defaults", "rom") if key in it.own}
        if address is None or count == 0:
            if address is not None:
                self.taker.drop(it, address, "the block's defaults: NvMRomBlockNum is 0")
            elif count:
                self.taker.drop(it, it.values["NvMRomBlockNum"], "the block's defaults: no NvMRomBlockDataAddress tells where they are")
            # (an empty list of ROM datasets has no address)
            made.update({key: value for key, value in own.items() if value == []})
            return
        if count and count > (MOST_ROM if is_dataset else 1):
            self.taker.refuse(it, it.values["NvMRomBlockNum"], f"a dataset has at most {MOST_ROM} ROM blocks here, and another block one")
            return
        if length is None:
            return
        parts = (count or 1) if is_dataset else 1
        data = self.bytes_of(it, address, parts, length, "rom" in own or "defaults" in own)
        if data is None:
            made.update(own)
        elif is_dataset:
            made["rom"] = [contents.print_content(data[at:at + length]) for at in range(0, parts * length, length)]
        elif data:
            made["defaults"] = contents.print_content(data)

    def in_order(self, made):
        """The blocks by their ids, or as they stand where they come from a unit; a filler where an id is missing."""
        blocks = [block for _, block in made]
        if not any("id" in block for block in blocks):
            if any("NvMNvramBlockIdentifier" not in it.values for it, _ in made):
                module = self.description.modules["NvM"]
                self.told.change(module.place, module.path, "no block has an NvMNvramBlockIdentifier: they count as they stand")
            return blocks
        seen = {}
        for it, block in made:
            if "id" not in block:
                self.told.refuse(it.place, f"{it.path}/NvMNvramBlockIdentifier", "it isn't there, and other blocks have one")
            elif block["id"] in seen:
                self.taker.refuse(it, it.values["NvMNvramBlockIdentifier"], f"{seen[block['id']]} has it too", TWICE)
            else:
                seen[block["id"]] = it.path
        return self.without_gaps(made, seen)

    def without_gaps(self, made, seen):
        last = max(seen, default=1)
        blocks = [block for it, block in made]
        if last > units.MOST_BLOCKS + 1:
            it = next(it for it, block in made if block.get("id") == last)
            self.taker.refuse(it, it.values["NvMNvramBlockIdentifier"], f"ids are 2 to {units.MOST_BLOCKS + 1} here, without a gap")
            return blocks
        module = self.description.modules["NvM"]
        for number in sorted({*range(2, last + 1)} - set(seen)):
            self.told.change(module.place, module.path, f"no block has the NvMNvramBlockIdentifier {number}: a block of one byte stands in its place, as "
                             "ids are places here")
            blocks.append({"id": number, "name": f"Unused{number}", "length": 1})
        return blocks if all(is_own(it) for it, _ in made) and len(blocks) == len(made) else sorted(blocks, key=lambda block: block.get("id", 0))

    def tell_what_is_left(self):
        """Tells of each parameter that nothing was made of."""
        for module, root in self.description.modules.items():
            for it in root.whole():
                for value in (*it.values.values(), *it.references.values()):
                    if value.name not in it.used:
                        self.tell(module, it, value)
                for value in it.further:
                    self.tell_further(module, it, value)
                if it is not root and it.definition not in parameters.MODULES[module] and not (it.values or it.references or it.below):
                    self.told.drop(it.place, it.path, "an empty container that this tool doesn't know")

    def tell_further(self, module, it, value):
        known = parameters.known(module, it.definition, value.name)
        if known and known.key:
            first = it.values.get(value.name) or it.references.get(value.name)
            self.taker.refuse(it, value, f"it stands twice, first in line {first.place.line}", TWICE)
        else:
            self.tell(module, it, value)

    def tell(self, module, it, value):
        """Tells of a parameter: nothing where it has the one value that the stack has."""
        known = parameters.known(module, it.definition, value.name)
        if it.definition == parameters.PUBLISHED_VERSION:
            self.taker.drop(it, value, "what the vendor's module tells of itself")
        elif known is None:
            self.taker.drop(it, value, f"no parameter of {it.definition} that this tool knows")
        elif known.key:
            self.taker.drop(it, value, f"{known.key}: no block stands on it")
        elif not self.is_fixed(it, value, known):
            self.taker.drop(it, value, re.sub("^(true|false): ", "", known.means))

    def is_fixed(self, it, value, known):
        """Whether a parameter has the value that the stack has."""
        text = value.text or ""
        if value.name == "NvMNvBlockBaseNumber":
            number = it.values.get("NvMNvramBlockIdentifier")
            return bool(number) and number_of(text) == number_of(number.text or "")
        if value.name == "FlsTotalSize":
            return number_of(text) == sum((number_of(one.values[name].text or "") or 0) * count for one, name, count in self.sectors())
        if known.type == parameters.FLAG:
            return is_flag_at(text, known.fixed)
        if known.type == parameters.INTEGER:
            return known.fixed is not None and number_of(text) == known.fixed
        return known.fixed is not None and text == known.fixed or text in NO_ADDRESS

    def sectors(self):
        for it in self.flash.containers("Fls", "FlsSector"):
            if "FlsSectorSize" in it.values:
                count = it.values.get("FlsNumberOfSectors")
                yield it, "FlsSectorSize", (number_of(count.text or "") or 1) if count else 1


def is_flag_at(text, fixed):
    return fixed is not None and text.lower() in (("true", "1") if fixed else ("false", "0"))
