"""The UDS services over a unit in memory: each row of docs/UDS.md. python3 -m unittest runs it."""
import os
import re
import sys
import unittest

HERE = os.path.dirname(os.path.abspath(__file__))
TOP = os.path.dirname(os.path.dirname(HERE))
sys.path.insert(0, os.path.dirname(HERE))

import natukeri  # noqa: E402
from natukeri import Unit, uds  # noqa: E402
from natukeri.configuration import Configuration  # noqa: E402

ECU = os.path.join(HERE, "ecu.json")
VIN = b"WVWZZZ1JZXW000001"


class Clock:
    """Seconds that pass when the test says so."""

    def __init__(self):
        self.seconds = 100.0

    def __call__(self):
        return self.seconds


class Services(unittest.TestCase):
    """Requests and answers, in hexadecimal digits."""

    def setUp(self):
        self.unit, self.clock, self.seeds = Unit(ECU), Clock(), 0
        self.addCleanup(self.unit.close)
        self.server, self.session = uds.Server(self.unit, clock=self.clock, seed_of=self.seed), uds.Session()

    def seed(self, size):
        self.seeds += 1
        return self.seeds.to_bytes(size, "big")

    def ask(self, *requests, session=None, functional=False):
        answers = [self.server.answer(bytes.fromhex(it), session or self.session, functional) for it in requests]
        return [None if it is None else it.hex() for it in answers]

    def test_identifiers_are_those_of_the_unit(self):
        self.assertEqual({f"{it:04x}": tuple(place) for it, place in self.server.places.items()},
                         {"0102": (2, 0), "f190": (3, 0), "0104": (4, 0), "0201": (5, 0), "0202": (5, 1), "0203": (5, 2), "0300": (6, 0),
                          "0301": (7, 0)})

    def test_a_read_and_a_write(self):
        self.assertEqual(self.ask("220102", "2e01020000000000001234", "220102"),
                         ["6201020000000000000000", "6e0102", "6201020000000000001234"])
        self.assertEqual(self.unit.read_number("odometer"), 0x1234)
        self.assertEqual(self.ask("220104", "2e0104" + "ab" * 32, "220104"), ["7f2222", "6e0104", "620104" + "ab" * 32])

    def test_a_vehicle_identification_number(self):
        self.assertIsNone(self.server.vin)
        self.assertEqual(self.ask("22f190", "2ef190" + VIN.hex(), "22f190"), ["7f2222", "6ef190", "62f190" + VIN.hex()])
        self.assertEqual(self.server.vin, VIN)
        # (it is written once)
        self.assertEqual(self.ask("2ef190" + VIN.hex()), ["7f2e22"])
        self.assertEqual(self.ask("1101", "22f190"), ["5101", "62f190" + VIN.hex()])

    def test_requests_that_cannot_be_served(self):
        self.assertEqual(self.ask("22", "22f1", "22f190aa", "2e", "2ef190", "22ffff", "2effff00", "2e010212", "2e0102" + "00" * 9, "31010203", "00"),
                         ["7f2213", "7f2213", "7f2213", "7f2e13", "7f2e13", "7f2231", "7f2e31", "7f2e13", "7f2e13", "7f3111", "7f0011"])
        self.assertEqual(self.ask(""), [None])

    def test_several_identifiers(self):
        self.ask("2e0201" + "01" * 16, "2e0203" + "03" * 16)
        self.assertEqual(self.ask("2202030201", "220203ffff0102", "22ffff0105", "2202010202", "22" + "0102" * 16, "22" + "0102" * 17),
                         ["620203" + "03" * 16 + "0201" + "01" * 16, "620203" + "03" * 16 + "0102" + "00" * 8, "7f2231", "7f2222",
                          "62" + ("0102" + "00" * 8) * 16, "7f2213"])

    def test_datasets_are_told_apart(self):
        self.assertEqual(self.ask("2e0202" + "22" * 16, "220201", "220202"), ["6e0202", "7f2222", "620202" + "22" * 16])
        self.unit.set_index("fault memory", 1)
        self.assertEqual(self.unit.read("fault memory"), b"\x22" * 16)

    def test_the_manager_refuses(self):
        self.unit.lock("odometer")
        self.assertEqual(self.ask("2e0102" + "00" * 8, "220102"), ["7f2e22", "620102" + "00" * 8])
        self.unit.invalidate("crash record")
        self.assertEqual(self.ask("220104"), ["7f2222"])

    def test_sessions(self):
        self.assertEqual(self.ask("1001", "1003", "1002", "1004", "10", "100300", "1083", "1084"),
                         ["5001003201f4", "5003003201f4", "5002003201f4", "7f1012", "7f1013", "7f1013", None, "7f1012"])

    def test_resets(self):
        self.ask("2e0102" + "00" * 7 + "05")
        self.unit.lock("odometer")
        self.assertEqual(self.ask("1101", "1102", "1103", "1104", "11", "110100", "1181"),
                         ["5101", "5102", "5103", "7f1112", "7f1113", "7f1113", None])
        self.assertEqual(self.ask("2e0102" + "00" * 7 + "06", "220102"), ["6e0102", "620102" + "00" * 7 + "06"])

    def test_a_tester_is_present(self):
        self.assertEqual(self.ask("3e00", "3e80", "3e01", "3e", "3e0000"), ["7e00", None, "7f3e12", "7f3e13", "7f3e13"])

    def test_a_write_behind_security_access(self):
        write = "2e030011223344"
        self.assertEqual(self.ask("2701", write, "220300"), ["7f277f", "7f2e33", "7f2222"])
        self.assertEqual(self.ask("1003", "2702fffffffe", "2701", "2702fffffffe", write, "220300"),
                         ["5003003201f4", "7f2724", "670100000001", "6702", "6e0300", "62030011223344"])
        # (of another level it unlocks nothing, and of its own the seed is zeros)
        self.assertEqual(self.ask("2e03010000", "2701", "2705", "27", "270100"), ["7f2e33", "670100000000", "7f2712", "7f2713", "7f2713"])
        self.assertEqual(self.ask("2703", "2704fffffffd", "2e03010000", write), ["670300000002", "6704", "7f2e22", "7f2e33"])

    def test_what_locks_again(self):
        write = "2e030011223344"
        for request in ("1001", "1003", "1101"):
            self.assertEqual(self.ask("1003", "2701", f"2702{'f' * 6}{0xFF - self.seeds - 1:02x}", request)[2], "6702")
            self.assertEqual(self.ask(write), ["7f2e33"])
        self.assertEqual(self.ask("1003", "2701", f"2702{'f' * 6}{0xFF - self.seeds - 1:02x}")[2], "6702")
        other = uds.Session()
        self.assertEqual(self.ask(write, session=other), ["7f2e33"])
        self.clock.seconds += 4.9
        self.assertEqual(self.ask("3e80", write), [None, "6e0300"])
        self.clock.seconds += 5.1
        self.assertEqual(self.ask(write, "2701"), ["7f2e33", "7f277f"])

    def test_wrong_keys(self):
        self.assertEqual(self.ask("1003", "2701", "270200000000", "270200000000", "2701", "270200000000", "2701", "270200000000", "2701")[1:],
                         ["670100000001", "7f2735", "7f2724", "670100000002", "7f2735", "670100000003", "7f2736", "7f2737"])
        for _ in range(3):
            self.clock.seconds += 3.4
            self.ask("3e80")
        self.assertEqual(self.ask("2701", "2702fffffffb"), ["670100000004", "6702"])

    def test_a_key_of_another_length_is_none(self):
        # (it counts as no wrong one, and the seed stays)
        self.assertEqual(self.ask("1003", "2701", *["2702", "270200", "2702fffffffeff"] * 3, "2702fffffffe", "2702fffffffe")[2:],
                         [*["7f2713"] * 9, "6702", "7f2724"])

    def test_an_algorithm_of_ones_own(self):
        self.server = uds.Server(self.unit, lambda level, seed: bytes([level]) + seed, self.clock, self.seed)
        self.assertEqual(self.ask("1003", "2703", "27040200000001"), ["5003003201f4", "670300000001", "6704"])

    def test_requests_to_all_units(self):
        self.assertEqual(self.ask("3e00", "3e80", "3e01", "22ffff", "3101", "2701", "22f190", "22", "2e0300ffffffff", functional=True),
                         ["7e00", None, None, None, None, None, "7f2222", "7f2213", "7f2e33"])

    def test_a_unit_without_security_knows_no_such_service(self):
        with Unit(os.path.join(TOP, "examples", "body_controller.json")) as unit:
            server = uds.Server(unit)
            self.assertEqual(server.answer(b"\x27\x01", uds.Session()), b"\x7f\x27\x11")

    def test_it_yields_behind_each_turn(self):
        self.unit.write("crash record", bytes(32))
        steps = list(self.server.serve(bytes.fromhex("2e0104" + "00" * 32), self.session))
        # (a pick, an operation for each of the four pages of its record, and a post)
        self.assertEqual(len(steps), 6)
        self.assertEqual([it.split()[0] for it in self.unit.history[-4:]], ["ask", "pick", "wrote", "post"])

    def test_the_page_has_each_code(self):
        with open(os.path.join(TOP, "docs", "UDS.md"), encoding="utf-8") as file:
            page = file.read()
        named = {int(number, 16) for number in re.findall(r"`7f (?:s|2e|22|27|\.\.) ([0-9a-f]{2})`", page)}
        self.assertEqual(named, {int(it) for it in uds.Code})


class Descriptions(unittest.TestCase):
    """Identifiers and levels that are none."""

    def stops(self, blocks):
        config = Configuration(ECU)
        config.described.source["blocks"] = blocks
        config.described.blocks = {1: config.blocks[1], **dict(enumerate(blocks, 2))}
        config.described.order = range(len(blocks))
        with self.assertRaises(natukeri.BadConfiguration) as bad:
            uds.described_by(config)
        return str(bad.exception)

    def test_what_is_none(self):
        self.assertIn("four hexadecimal digits", self.stops([{"length": 1, "did": "f19"}]))
        self.assertIn("a dataset alone", self.stops([{"length": 1, "kind": "redundant", "did": ["f190", "f191"]}]))
        self.assertIn("one for each of 2 instances", self.stops([{"length": 1, "kind": "dataset", "nv": 2, "did": ["f190"]}]))
        self.assertIn('"security" is a level, 1 to 33', self.stops([{"length": 1, "security": 0}]))
        self.assertIn("both have the identifier 0103", self.stops([{"length": 1, "did": "0103"}, {"length": 1}]))


if __name__ == "__main__":
    unittest.main()
