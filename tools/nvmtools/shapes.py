"""The shapes of the flash and the EEPROM of a unit, out of an ECU configuration: what the rules don't take is changed to what they do, and told."""
import json

from nvmtools import units

PAGES = (16, 32, 64, 128, 256)
FEWEST_PAGES, MOST_SECTOR, SECTOR = 4, 65_536, 4096


class Flash:
    """The shapes of the flash, by Fee and Fls, and of the EEPROM, by Ea and Eep."""

    def __init__(self, description, taker, given):
        self.modules, self.taker, self.given = description.modules, taker, given

    def containers(self, module, definition):
        return [*self.modules[module].inner(definition)] if module in self.modules else []

    def first(self, module, definition):
        return next(iter(self.containers(module, definition)), None)

    def fitting(self, container, name, page):
        """The page of the unit for a page of the hardware."""
        fit = next((it for it in PAGES if page and it % page == 0), None)
        if fit is None:
            self.taker.refuse(container, container.values[name], f"a page here has one of {', '.join(map(str, PAGES))} bytes, and none is a multiple of it")
            return PAGES[0]
        if fit != page:
            self.taker.change(container, name, f"a page has {fit} bytes here, its multiple: a cut between its parts is a torn page")
        return fit

    def page(self):
        """The page of the flash, or None where nothing tells it."""
        general, sectors = self.first("Fee", "FeeGeneral"), self.containers("Fls", "FlsSector")
        virtual = self.taker.number(general, "FeeVirtualPageSize", least=1) if general else None
        own = [self.taker.number(it, "FlsPageSize", least=1) for it in sectors]
        if self.given:
            return self.given[0]
        if virtual:
            page = self.fitting(general, "FeeVirtualPageSize", virtual)
        elif sectors and own[0]:
            page = self.fitting(sectors[0], "FlsPageSize", own[0])
        else:
            return None
        for it, size in zip(sectors, own):
            if size and size != page and virtual:
                self.taker.change(it, "FlsPageSize", f"a page has {page} bytes here, by FeeVirtualPageSize: a cut between its parts is a torn page")
        return page

    def shape(self, page, blocks):
        """The keys page, sector and sectors of the flash."""
        found = []
        number, start = self.taker.number, 0
        for it in self.containers("Fls", "FlsSector"):
            size, count, told = number(it, "FlsSectorSize", least=1), number(it, "FlsNumberOfSectors", 1, 1), number(it, "FlsSectorStartaddress", None)
            found.append((it, size, count))
            if told not in (None, start):
                self.taker.change(it, "FlsSectorStartaddress", f"{start} is taken: sectors stand one behind the other here, the first one at 0")
            start += (size or 0) * count
        if self.given:
            return dict(zip(("page", "sector", "sectors"), self.given))
        found = [it for it in found if it[1]]
        if not found or not page:
            return self.chosen(page, blocks)
        greatest = max(size for _, size, _ in found)
        if any(greatest % size for _, size, _ in found):
            it = found[0][0]
            self.taker.refuse(it, it.values["FlsSectorSize"], "all sectors have one size here, and those of the flash are no parts of the greatest one")
            return {"page": page, "sector": SECTOR, "sectors": 2}
        total = sum(size * count // greatest * greatest for _, size, count in found)
        it = found[0][0]
        return self.grouped((it, "FlsSectorSize"), (it, "FlsNumberOfSectors"), page, greatest, total)

    def grouped(self, unit_of, total_of, page, unit, total, least=0):
        """Sectors of so many erase units that the rules take them, of a flash of so many bytes."""
        limit = min(total, units.MOST_BYTES)
        sector = next((it for it in range(unit, MOST_SECTOR + 1, unit)
                       if it % page == 0 and it >= max(FEWEST_PAGES * page, least) and limit // it <= units.MOST_SECTORS), None)
        if sector is None:
            self.taker.refuse(unit_of[0], unit_of[0].values[unit_of[1]], f"a sector has {FEWEST_PAGES} pages or more here and at most {MOST_SECTOR} bytes, "
                              f"and a flash at most {units.MOST_SECTORS} of them: no multiple of it is one")
            return {"page": page, "sector": SECTOR, "sectors": 2}
        sectors = limit // sector // 2 * 2
        if sector != unit:
            self.taker.change(*unit_of, f"a sector has {sector} bytes here: {sector // unit} erase units are one")
        if sector * sectors != total:
            self.taker.change(*total_of, f"{sectors} sectors of {sector} bytes are taken of its {total} bytes: an even number is needed, at most "
                              f"{units.MOST_SECTORS} and {units.MOST_BYTES} bytes")
        return {"page": page, "sector": sector, "sectors": sectors}

    def chosen(self, page, blocks):
        """A flash for blocks of which nothing tells the flash: twice the room that rule 24 asks for."""
        page = page or 64
        source = {"page": page, "sector": SECTOR, "sectors": 2, "blocks": [it for it in blocks if isinstance(it.get("length"), int)]}
        need = 2 * units.Unit("", "", source, []).room()[-1] * page
        sector = next((it for it in (SECTOR, 8192, 16384, 32768, MOST_SECTOR) if -(-need // it) <= units.MOST_SECTORS // 2), MOST_SECTOR)
        made = {"page": page, "sector": sector, "sectors": min(2 * max(1, -(-need // sector)), units.MOST_SECTORS)}
        module = self.modules["NvM"]
        self.taker.told.change(module.place, module.path, f"no FlsSector tells the flash: page {page}, sector {sector} and sectors {made['sectors']} are taken; "
                               "give the file of Fls too, or --flash")
        return made

    def eeprom(self, blocks):
        """The key eeprom, for the blocks on the second device."""
        general, init, published = (self.first(*it) for it in (("Ea", "EaGeneral"), ("Eep", "EepInitConfiguration"), ("Eep", "EepPublishedInformation")))
        number = self.taker.number
        virtual = number(general, "EaVirtualPageSize", least=1) if general else None
        write = number(published, "EepWriteUnitSize", least=1) if published else None
        page = self.fitting(general, "EaVirtualPageSize", virtual) if virtual else \
            self.fitting(published, "EepWriteUnitSize", write) if write else PAGES[0]
        longest = max(it.get("length") or 1 for it in blocks)
        erase = number(published, "EepEraseUnitSize", least=1) if published else None
        size = number(init, "EepSize", least=1) if init else None
        if erase and size:
            return self.grouped((published, "EepEraseUnitSize"), (init, "EepSize"), page, erase, size, longest)
        sector = max(-(-longest // page), FEWEST_PAGES) * page
        instances = sum(it.get("nv", 1) if it.get("kind") == "dataset" else 2 if it.get("kind") == "redundant" else 1 for it in blocks)
        made = {"page": page, "sector": sector, "sectors": 4 * instances}
        module = self.modules["NvM"]
        self.taker.told.change(module.place, module.path, f"no EepSize and EepEraseUnitSize tell the EEPROM: {json.dumps(made)} is taken; give the file of Eep too")
        return made
