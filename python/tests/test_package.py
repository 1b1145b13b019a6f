"""What the package does beside the stack: names, words, numbers, images, and that each power cut comes. python3 -m unittest runs it."""
import json
import os
import re
import sys
import tempfile
import unittest
from unittest import mock

HERE = os.path.dirname(os.path.abspath(__file__))
TOP = os.path.dirname(os.path.dirname(HERE))
sys.path.insert(0, os.path.dirname(HERE))

import natukeri  # noqa: E402
from natukeri import Cut, Refusal, Result, Service, Turn, Unit  # noqa: E402
from natukeri.sweeps import keeps_of  # noqa: E402
from natukeri.judge import Judge  # noqa: E402
from nvmtools import manual, units  # noqa: E402
from nvmtools.places import Places  # noqa: E402

BODY = os.path.join(TOP, "examples", "body_controller.json")
CRASH = b"\xaa" * 64


def text_of(*names):
    with open(os.path.join(TOP, *names), encoding="utf-8") as file:
        return file.read()


class Words(unittest.TestCase):
    """The package tells what the pages and the headers say."""

    def test_refusals_are_those_of_the_manual(self):
        self.assertEqual([(str(it.value), it.words) for it in Refusal], [(number, why) for number, why, _ in manual.numbered("Refusal")])

    def test_results_have_the_standards_names(self):
        self.assertEqual({str(it): it.value for it in Result},
                         {name: int(number) for name, number in re.findall(r"#define (NVM_REQ_\w+) (\d+)u", text_of("c", "NvM_Types.h"))})
        self.assertEqual([str(it.value) for it in Result], [number for number, _, _ in manual.numbered("Result")])

    def test_services_are_those_of_the_library(self):
        listed = re.search(r"enum \{(.*?)\}", text_of("c", "nvm_c.h"), re.DOTALL)[1]
        self.assertEqual({f"NVM_{it.name}": it.value for it in Service}, {name: int(number) for name, number in re.findall(r"(\w+) = (\d+)", listed)})

    def test_exceptions_say_what_was_asked_for(self):
        with Unit(BODY) as unit:
            with self.assertRaises(natukeri.Refused) as refused:
                unit.write("seat position", b"12345")
            with self.assertRaises(natukeri.Failed) as failed:
                unit.read("crash record")
        self.assertIs(refused.exception.reason, Refusal.LENGTH)
        self.assertEqual(str(refused.exception), "write block of \"seat position\" is refused: the content hasn't the block's length (5)")
        self.assertIs(failed.exception.result, Result.INTEGRITY_FAILED)
        self.assertEqual(str(failed.exception), 'read block of "crash record" ended with NVM_REQ_INTEGRITY_FAILED (3): nothing is stored, and there '
                                                "are no defaults")

    def test_the_version_is_that_of_the_repository(self):
        self.assertEqual(re.search('^version = "(.*)"$', text_of("python", "pyproject.toml"), re.MULTILINE)[1], text_of("VERSION").strip())


class Configurations(unittest.TestCase):
    """Blocks by name, and what is no configuration."""

    def unit_of(self, text):
        with tempfile.TemporaryDirectory() as place:
            path = os.path.join(place, "unit.json")
            with open(path, "w", encoding="utf-8") as file:
                file.write(text)
            return Unit(path)

    def refused(self, text):
        with self.assertRaises(natukeri.BadConfiguration) as bad:
            self.unit_of(text)
        return str(bad.exception)

    def test_a_name_that_is_wrong(self):
        with Unit(BODY) as unit, self.assertRaises(natukeri.NoSuchBlock) as wrong:
            unit.read("odometr")
        self.assertEqual(str(wrong.exception), 'no block "odometr"; did you mean "odometer"?')

    def test_numbers_that_are_none_of_theirs(self):
        with Unit(BODY) as unit:
            for call in (lambda: unit.read(65538), lambda: unit.set_index("fault memory", 256), lambda: unit.cut(0), lambda: unit.cut(1, 65)):
                self.assertRaises(ValueError, call)
            with self.assertRaises(natukeri.Refused) as refused:
                unit.write(9, b"1")
            self.assertIs(refused.exception.reason, Refusal.NO_BLOCK)

    def test_what_is_no_configuration(self):
        good = {"id": 1, "page": 16, "sector": 256, "sectors": 8, "standard": 8, "immediate": 4, "blocks": [{"length": 4}]}
        self.unit_of(json.dumps(good)).close()
        self.assertIn('unit.json:1:110: rule 2: there is no key "speed"; there are id, page', self.refused(json.dumps({**good, "speed": 3})))
        self.assertIn('unit.json:1:11: rule 4: "page" is 0; wanted: bytes of a page', self.refused(json.dumps({**good, "page": 0})))
        self.assertIn("rule 3", self.refused("{}"))
        self.assertIn(":1:", self.refused('{"id": 1 "page": 16}'))
        self.assertIn("second device", self.refused(json.dumps({**good, "eeprom": {"page": 16, "sector": 64, "sectors": 8},
                                                                "blocks": [{"length": 4}, {"length": 4, "device": 1}]})))
        self.assertRaises(natukeri.BadConfiguration, Unit, os.path.join(HERE, "nothing.json"))

    def test_a_broken_rule_is_told_as_lint_tells_it(self):
        short = {"id": 1, "page": 16, "sector": 64, "sectors": 2, "standard": 8, "immediate": 4, "blocks": [{"name": "a", "length": 4}]}
        tries = {**short, "sectors": 8, "blocks": [{"name": "a", "length": 4, "ram": "sync", "repeats": 8}]}
        for unit, rule, block in ((short, 24, 0), (tries, 22, 2)):
            with tempfile.TemporaryDirectory() as place, self.assertRaises(natukeri.BadConfiguration) as bad:
                path = os.path.join(place, "unit.json")
                with open(path, "w", encoding="utf-8") as file:
                    json.dump(unit, file)
                Unit(path)
            self.assertEqual((bad.exception.rule, bad.exception.block), (rule, block))
            given = units.Given(path, json.dumps(unit), unit, [], config=path, places=Places(path, json.dumps(unit)), order=range(1))
            told = units.refusal(given, unit, f"config rule {rule} block {block}", 3)
            self.assertEqual(str(bad.exception), f"{told.place}: {told.text}")
        with self.assertRaises(natukeri.SecondDevice):
            self.unit_of(json.dumps({**short, "sector": 256, "sectors": 8, "eeprom": {"page": 16, "sector": 64, "sectors": 8},
                                     "blocks": [{"length": 4}, {"length": 4, "device": 1}]}))

    def test_an_image_of_another_size(self):
        for size in (64, 65537):
            self.assertRaises(ValueError, Unit, BODY, b"\xff" * size)


class Requests(unittest.TestCase):
    """Each request once, over a blank flash."""

    def setUp(self):
        self.unit = Unit(BODY)
        self.addCleanup(self.unit.close)

    def test_values(self):
        self.unit.write("odometer", 1000)
        self.assertEqual((self.unit.read("odometer"), self.unit.read_number("odometer")), (b"\0\0\0\0\0\0\x03\xe8", 1000))
        self.unit.write("seat position", "seat 3")
        self.assertEqual(self.unit.read("seat position"), b"seat 3")
        self.assertRaises(OverflowError, self.unit.write, "seat position", 1 << 48)

    def test_defaults(self):
        self.assertEqual(self.unit.read_number("odometer"), 0)
        self.assertIs(self.unit.status("odometer"), Result.RESTORED_FROM_ROM)
        self.unit.write("odometer", 5)
        self.assertEqual(self.unit.restore("odometer"), bytes(8))
        self.assertEqual(self.unit.read_number("odometer"), 5)

    def test_erase_and_invalidate(self):
        for forget, result in ((self.unit.erase, Result.INTEGRITY_FAILED), (self.unit.invalidate, Result.NV_INVALIDATED)):
            self.unit.write("crash record", CRASH)
            self.assertEqual(self.unit.read("crash record"), CRASH)
            forget("crash record")
            with self.assertRaises(natukeri.Failed) as failed:
                self.unit.read("crash record")
            self.assertIs(failed.exception.result, result)

    def test_datasets(self):
        self.unit.set_index("fault memory", 3)
        self.unit.write("fault memory", "no oil pressure!")
        self.assertEqual(self.unit.may_hold("fault memory"), [b"no oil pressure!"])
        self.unit.set_index("fault memory", 10)
        self.assertEqual((self.unit.index("fault memory"), self.unit.chosen("fault memory"), self.unit.read("fault memory")), (10, 10, bytes(16)))
        self.assertEqual((self.unit.may_hold("fault memory"), self.unit.may_hold("fault memory", 0)), ([bytes(16)], [None]))
        self.unit.restart()
        self.assertEqual(self.unit.chosen("fault memory"), 0)
        self.unit.set_index("fault memory", 3)
        self.assertEqual(self.unit.read("fault memory"), b"no oil pressure!")

    def test_protection_and_lock(self):
        for setting, reason in ((self.unit.protect, Refusal.PROTECTED), (self.unit.lock, Refusal.LOCKED)):
            setting("odometer")
            with self.assertRaises(natukeri.Refused) as refused:
                self.unit.write("odometer", 1)
            self.assertIs(refused.exception.reason, reason)
            setting("odometer", False)
        self.unit.write("odometer", 1)

    def test_ram_blocks(self):
        self.assertIs(self.unit.read_all(), Result.OK)
        self.assertIs(self.unit.status("odometer"), Result.RESTORED_FROM_ROM)
        self.unit.put_ram("odometer", 7)
        self.unit.put_ram("seat position", "seat 3")
        self.assertIs(self.unit.write_all(), Result.OK)
        self.unit.restart()
        self.assertEqual((self.unit.ram("odometer"), self.unit.ram_is_valid("odometer")), (bytes(8), False))
        self.unit.read_all()
        self.assertEqual([self.unit.ram_is_valid(it) for it in ("odometer", "seat position", "crash record")], [True, True, False])
        self.assertEqual((self.unit.ram("odometer"), self.unit.ram("seat position")), (b"\0\0\0\0\0\0\0\x07", b"seat 3"))
        self.unit.put_ram("odometer", 8, changed=False)
        self.assertFalse(self.unit.ram_is_valid("odometer"))
        self.unit.write_all()
        self.assertEqual((self.unit.status("odometer"), self.unit.read_number("odometer")), (Result.BLOCK_SKIPPED, 7))
        self.unit.put_ram("odometer", 9)
        self.unit.write_all()
        self.assertEqual(self.unit.read_number("odometer"), 9)
        self.unit.put_ram("odometer", 8)
        self.unit.write_ram("odometer")
        self.assertEqual(self.unit.restore_ram("odometer"), bytes(8))
        self.assertEqual(self.unit.read_ram("odometer"), b"\0\0\0\0\0\0\0\x08")

    def test_requests_that_wait(self):
        self.unit.ask(Service.WRITE_BLOCK, "odometer", content=bytes(8))
        self.unit.ask(Service.WRITE_BLOCK, "seat position", content=bytes(6))
        self.assertIs(self.unit.status("odometer"), Result.PENDING)
        with self.assertRaises(natukeri.Refused) as refused:
            self.unit.read("odometer")
        self.assertIs(refused.exception.reason, Refusal.PENDING)
        self.assertIs(self.unit.turn(), Turn.PICKED)
        self.unit.drain()
        self.assertEqual((self.unit.turn(), self.unit.wait("odometer"), self.unit.wait("seat position")), (Turn.IDLE, Result.OK, Result.OK))

    def test_a_write_all_that_is_canceled(self):
        self.unit.read_all()
        self.unit.put_ram("odometer", 7)
        self.unit.ask(Service.WRITE_ALL)
        self.unit.cancel_write_all()
        self.assertIs(self.unit.wait(), Result.CANCELED)


class Power(unittest.TestCase):
    """Images, cuts and start-ups."""

    def test_an_image_is_taken_along(self):
        with Unit(BODY) as unit:
            unit.write("odometer", 7)
        image = unit.close()
        self.assertRaises(natukeri.UnitClosed, unit.read, "odometer")
        self.assertEqual((len(image), image), (65536, unit.image))
        with Unit(BODY, image) as other:
            self.assertEqual(other.read_number("odometer"), 7)

    def test_an_image_that_is_not_sound(self):
        with Unit(BODY) as unit:
            unit.write("odometer", 7)
        image, page = bytearray(unit.close()), unit.configuration.page
        # (the gate of the first bank stands, and the page before it is none of a bank)
        image[:page] = bytes(page)
        with Unit(BODY, bytes(image)) as other:
            other.write("odometer", 8)
            other.restart()
            self.assertEqual((other.history[-1], other.read_number("odometer")), (natukeri.unit.UNTOLD, 8))
            self.assertRaisesRegex(natukeri.UnitError, "not sound", other.may_hold, "odometer")

    def test_a_cut(self):
        with Unit(BODY) as unit:
            unit.write("odometer", 7)
            unit.cut(3, 8)
            with self.assertRaises(natukeri.PowerOff):
                unit.write("odometer", 8)
            self.assertTrue(unit.is_off)
            self.assertIs(unit.turn(), Turn.OFF)
            self.assertRaises(natukeri.PowerOff, unit.read, "odometer")
            unit.restart()
            self.assertEqual((unit.is_off, unit.read_number("odometer")), (False, 7))
            unit.cut(1)
            unit.ask(Service.WRITE_BLOCK, "odometer", content=bytes(8))
            self.assertRaises(natukeri.PowerOff, unit.drain)

    def test_a_history_is_what_the_program_prints(self):
        # (the first lines of README's example: a unit of the program's demo, whose script is in docs/)
        with Unit(os.path.join(TOP, "examples", "power_cut.nvm")) as unit:
            unit.write(2, bytes.fromhex("11223344"))
            unit.ask(Service.WRITE_BLOCK, 2, content=bytes.fromhex("55667788"))
            unit.cut(4)
            self.assertRaises(natukeri.PowerOff, unit.drain)
            unit.restart()
            unit.read(2)
            block = next(it for it in text_of("README.md").split("```\n")[1::2] if it.startswith("$ ./nvm mem play"))
            self.assertEqual(unit.history, block.splitlines()[1:-1])

    def test_no_more_cuts_than_it_was_opened_for(self):
        with Unit(BODY, cuts=1) as unit:
            unit.cut(1)
            self.assertRaisesRegex(natukeri.UnitError, "more `cuts`", unit.cut, 1)

    def test_a_restart_drops_a_cut(self):
        with Unit(BODY) as unit:
            unit.cut(1)
            unit.restart()
            unit.write("odometer", 7)
            self.assertFalse(unit.is_off)


def sold(unit):
    unit.write("odometer", 7)


def trip(unit):
    unit.write("crash record", CRASH)
    unit.write("odometer", 8)


class Judged(unittest.TestCase):
    """What may stand behind a power cut, by lines of a history: block 2 is the odometer in two copies, 3 the crash record, 4 the fault memory."""

    def setUp(self):
        self.config = natukeri.Configuration(BODY)
        self.judge = Judge(self.config)

    def holds(self, block, *lines, index=0):
        self.judge.go_on(lines)
        return [it and int.from_bytes(it, "big") for it in self.judge.values(block, index)]

    def test_what_is_stored(self):
        self.assertEqual(self.holds(3, "found 1 3.0 data 01*64 ops 0"), [int("01" * 64, 16)])
        self.assertEqual(self.holds(3, "ask 0 invalidate 3 -> ok", "pick 3 invalidate ops 0"), [int("01" * 64, 16), None])
        self.assertEqual(self.holds(3, "wrote 3.0 invalid ops 4", "post 3 0 ops 4"), [None])

    def test_what_waits_is_not_there(self):
        self.assertEqual(self.holds(3, "found 0 ops 0", f"ask 0 write 3 {'02' * 64} -> ok"), [None])
        self.assertEqual(self.holds(3, "pick 3 write 02*64 ops 0"), [None, int("02" * 64, 16)])
        self.assertEqual(self.holds(3, "off ops 3"), [None, int("02" * 64, 16)])

    def test_a_start_up_is_judged_by_what_came_before(self):
        old, new = int("01" * 64, 16), int("02" * 64, 16)
        self.holds(3, "found 1 3.0 data 01*64 ops 0", "pick 3 write 02*64 ops 0", "off ops 4")
        # (what it found doesn't decide until the next one)
        self.assertEqual(self.holds(3, "found 1 3.0 data 02*64 ops 4"), [old, new])
        self.assertEqual(self.holds(3, "off ops 4", "found 1 3.0 data 02*64 ops 4"), [new])
        self.assertEqual(self.holds(3, "pick 3 write 03*64 ops 4"), [new, int("03" * 64, 16)])
        self.assertEqual(self.holds(3, "wrote 3.0 data 03*64 ops 8"), [int("03" * 64, 16)])

    def test_what_was_never_stored_may_not_be_found(self):
        self.holds(3, "found 0 ops 0", "off ops 0", "found 1 3.0 data 02*64 ops 0")
        self.assertEqual(self.holds(3), [None])

    def test_two_copies(self):
        self.assertEqual(self.holds(2, "found 0 ops 0"), [0])
        self.assertEqual(self.holds(2, "pick 2 write 0000000000000007 ops 0"), [0, 7])
        self.assertEqual(self.holds(2, "wrote 2.0 data 0000000000000007 ops 4"), [7])
        self.assertEqual(self.holds(2, "wrote 2.1 data 0000000000000007 ops 8", "pick 2 write 0000000000000008 ops 8"), [7, 8])
        # (a second copy counts where the first one was erased)
        self.assertEqual(self.holds(2, "found 1 2.1 data 0000000000000007 ops 9", "found 1 2.1 data 0000000000000007 ops 9"), [7])

    def test_datasets(self):
        self.assertEqual(self.holds(4, "found 0 ops 0", "ask 0 setindex 4 3 -> ok", "pick 4 write 05*16 ops 0", index=3),
                         [None, int("05" * 16, 16)])
        self.assertEqual((self.holds(4, index=2), self.holds(4, index=10)), ([None], [0]))
        self.assertEqual(self.holds(4, "wrote 4.3 data 05*16 ops 4", "found 1 4.3 data 05*16 ops 4", index=3), [int("05" * 16, 16)])

    def test_it_is_what_a_unit_finds(self):
        image = natukeri.image_behind(BODY, sold)
        found = set()
        for cut, unit in natukeri.sweep(BODY, trip, image, "each"):
            for block in ("odometer", "crash record", "seat position"):
                self.assertIn(unit.held(block), unit.may_hold(block), cut)
            found.add((len(unit.may_hold("crash record")), len(unit.may_hold("odometer"))))
            self.assertEqual((unit.may_hold("seat position"), unit.may_hold("fault memory", 10)), ([bytes(6)], [bytes(16)]))
            unit.write("odometer", 9)
            self.assertEqual(unit.may_hold("odometer"), [(9).to_bytes(8, "big")])
        # (in the first record, and in the second one: before its first copy is stored, and behind that)
        self.assertEqual(found, {(2, 1), (1, 2), (1, 1)})
        with Unit(BODY, keeps_history=False) as unit:
            unit.write("odometer", 1)
            self.assertEqual((unit.history, unit.held("crash record"), unit.held("odometer")), ([], None, (1).to_bytes(8, "big")))
            self.assertRaises(natukeri.UnitError, unit.may_hold, "odometer")

    def test_what_is_no_block_and_no_dataset(self):
        with Unit(BODY) as unit:
            self.assertRaises(natukeri.NoSuchBlock, unit.may_hold, 9)
            self.assertRaises(ValueError, unit.may_hold, "fault memory", 11)
            self.assertEqual((unit.may_hold(1), unit.held(1)), ([b"\0\x07"], b"\0\x07"))


class Files(unittest.TestCase):
    """Units over an image file, by the rules of docs/IMAGE.md."""

    def setUp(self):
        self.folder = tempfile.TemporaryDirectory()
        self.addCleanup(self.folder.cleanup)
        self.path = os.path.join(self.folder.name, "body.img")

    def bytes_of(self, name=None):
        with open(name or self.path, "rb") as file:
            return file.read()

    def test_each_turn_is_in_the_file(self):
        with natukeri.StoredUnit(BODY, self.path) as unit:
            self.assertEqual((self.bytes_of(), os.listdir(self.folder.name)), (b"\xff" * 65536, ["body.img"]))
            unit.ask(Service.WRITE_BLOCK, "odometer", content=bytes(8))
            images = set()
            while unit.turn() is not Turn.IDLE:
                self.assertEqual(self.bytes_of(), unit.image)
                images.add(unit.image)
            self.assertGreater(len(images), 8)
            self.assertRaises(natukeri.ImageInUse, natukeri.StoredUnit, BODY, self.path)
        with natukeri.StoredUnit(BODY, self.path) as unit:
            self.assertEqual(unit.read_number("odometer"), 0)
            self.assertIs(unit.status("odometer"), Result.OK)

    def test_a_cut_is_in_the_file_too(self):
        with natukeri.StoredUnit(BODY, self.path) as unit:
            unit.write("odometer", 7)
            unit.cut(3, 8)
            self.assertRaises(natukeri.PowerOff, unit.write, "odometer", 8)
            self.assertEqual(self.bytes_of(), unit.image)
        with natukeri.StoredUnit(BODY, self.path) as unit:
            self.assertEqual(unit.read_number("odometer"), 7)

    def test_what_is_left_of_a_begun_image_is_taken(self):
        for left, taken in ((b"", True), (b"\xff" * 1000, True), (b"\xff" * 999 + b"\0", False), (b"\xff" * 65537, False)):
            with open(f"{self.path}.new", "wb") as file:
                file.write(left)
            if taken:
                natukeri.StoredUnit(BODY, self.path).close()
                self.assertEqual((self.bytes_of(), os.listdir(self.folder.name)), (b"\xff" * 65536, ["body.img"]))
                os.unlink(self.path)
            else:
                self.assertRaisesRegex(natukeri.ImageFault, "move it away", natukeri.StoredUnit, BODY, self.path)
                self.assertEqual(self.bytes_of(f"{self.path}.new"), left)

    def test_what_is_no_image(self):
        os.symlink("/dev/null", f"{self.path}.new")
        self.assertRaises(natukeri.ImageFault, natukeri.StoredUnit, BODY, self.path)
        os.unlink(f"{self.path}.new")
        self.assertRaises(natukeri.ImageFault, natukeri.StoredUnit, BODY, "/dev/null")
        self.assertRaises(natukeri.ImageFault, natukeri.StoredUnit, BODY, self.folder.name)
        with open(self.path, "wb") as file:
            file.write(b"\xff" * 100)
        self.assertRaises(natukeri.WrongImageSize, natukeri.StoredUnit, BODY, self.path)
        self.assertEqual(self.bytes_of(), b"\xff" * 100)

    def test_a_link_and_an_empty_file_are_filled_in_their_place(self):
        os.symlink("other.img", self.path)
        natukeri.StoredUnit(BODY, self.path).close()
        self.assertTrue(os.path.islink(self.path))
        self.assertEqual(len(self.bytes_of()), 65536)
        os.truncate(self.path, 0)
        natukeri.StoredUnit(BODY, self.path).close()
        self.assertEqual(len(self.bytes_of()), 65536)

    def test_a_file_that_is_forgotten_is_given_back(self):
        unit = natukeri.StoredUnit(BODY, self.path)
        del unit
        natukeri.StoredUnit(BODY, self.path).close()

    def test_a_write_that_fails(self):
        for name in ("os.pwrite", "os.fsync"):
            unit = natukeri.StoredUnit(BODY, self.path)
            with mock.patch(name, side_effect=OSError(28, "No space left on device")):
                self.assertRaisesRegex(natukeri.ImageFault, "body.img: No space left", unit.write, "odometer", 1)
            self.assertRaises(natukeri.ImageFault, unit.drain)
            unit.close()


class Sweeps(unittest.TestCase):
    """Each power cut of what a function does."""

    def test_bytes_that_are_done(self):
        self.assertEqual(keeps_of(16), [0, 8, 15, 16])
        self.assertEqual(keeps_of(16, "each"), list(range(17)))
        self.assertEqual(keeps_of(16, (3, 5)), [3, 5])
        for wrong in ("all", [17], [-1], []):
            self.assertRaises(ValueError, keeps_of, 16, wrong)

    def test_operations_are_the_pages_of_the_records(self):
        # (a record of one page has a header, a body, and gates: four pages. The odometer has two copies)
        image = natukeri.image_behind(BODY, sold)
        self.assertEqual(natukeri.operations_of(BODY, trip, image), 4 + 2 * 4)
        self.assertEqual(natukeri.operations_of(BODY, lambda unit: unit.read("odometer"), image), 0)
        self.assertRaisesRegex(ValueError, "no operation", natukeri.cuts_of, BODY, lambda unit: unit.read("odometer"), image)

    def test_each_cut_leaves_what_it_may(self):
        image, found = natukeri.image_behind(BODY, sold), []
        for cut, unit in natukeri.sweep(BODY, trip, image):
            try:
                record = unit.read("crash record")
            except natukeri.Failed as failed:
                self.assertIs(failed.result, Result.INTEGRITY_FAILED)
                record = None
            found.append((cut, record, unit.read_number("odometer")))
        self.assertEqual([cut for cut, _, _ in found], [Cut(nth, keep) for nth in range(1, 13) for keep in (0, 32, 63, 64)])
        # a record counts once all bytes of its last page, the gate, are done: the crash record at operation 4, a copy of the odometer at 8
        for cut, record, kilometres in found:
            self.assertEqual((record, kilometres), (CRASH if cut >= Cut(4, 64) else None, 8 if cut >= Cut(8, 64) else 7), cut)

    def test_what_is_cut_is_the_same_each_time(self):
        self.assertRaisesRegex(natukeri.UnitError, "no power cut came at operation 9, 0 bytes", natukeri.behind_cut, BODY, sold, Cut(9, 0),
                               natukeri.image_behind(BODY, sold))


if __name__ == "__main__":
    unittest.main()
