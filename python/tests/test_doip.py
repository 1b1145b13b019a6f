"""A unit behind DoIP as a tester meets it, also one that sends what is none. python3 -m unittest runs it."""
import asyncio
import contextlib
import os
import random
import socket
import struct
import subprocess
import sys
import tempfile
import threading
import time
import unittest
from unittest import mock

HERE = os.path.dirname(os.path.abspath(__file__))
sys.path[:0] = [HERE, os.path.dirname(HERE)]

from doip_client import ENTITY, FUNCTIONAL, PACKAGE, TESTER, Client, Process, datagram, message  # noqa: E402
from natukeri import StoredUnit, Unit, answers, doip, uds  # noqa: E402

ECU = os.path.join(HERE, "ecu.json")
VIN = b"WVWZZZ1JZXW000001"
EID = bytes.fromhex("020000001010")
SIZE = 8 * 4096
# kilobytes that a server may have more behind what its testers sent
MOST_GROWTH = 16384


class Inside:
    """A connection to a server that runs in this process."""

    def __init__(self, reader, writer, tester):
        self.reader, self.writer, self.tester = reader, writer, tester

    async def activate(self):
        self.writer.write(message(5, struct.pack(">HBI", self.tester, 0, 0)))
        return (await self.receive(6))[4]

    def request(self, text, target=ENTITY):
        self.writer.write(message(0x8001, struct.pack(">HH", self.tester, target) + bytes.fromhex(text)))

    async def receive(self, wanted):
        """The payload of the next message of a type; others are passed over."""
        while True:
            _, kind, length = struct.unpack(">HHI", await self.reader.readexactly(8))
            payload = await self.reader.readexactly(length)
            if kind == wanted:
                return payload

    async def answers(self):
        """The answers up to one that doesn't say that one is pending."""
        found = []
        while not found or found[-1][4:] == "78":
            found.append((await self.receive(0x8001))[4:].hex())
        return found


async def served(unit, trial):
    """What comes of a trial, which is given an entity over a unit and how testers connect to it."""
    entity, testers = doip.Entity(uds.Server(unit)), []
    server = await asyncio.start_server(entity.connection, "127.0.0.1", 0)

    async def connect(tester=TESTER, activates=True):
        it = Inside(*await asyncio.open_connection(*server.sockets[0].getsockname()), tester)
        testers.append(it)
        if activates and await it.activate() != 0x10:
            raise AssertionError(f"{tester:04x} isn't activated")
        return it

    try:
        return await trial(entity, connect)
    finally:
        server.close()
        for it in [*testers, *entity.links]:
            it.writer.transport.abort()


class Served(unittest.TestCase):
    """Over one server in a process of its own, with an image file."""

    @classmethod
    def setUpClass(cls):
        cls.folder = tempfile.TemporaryDirectory()
        cls.addClassCleanup(cls.folder.cleanup)
        cls.image = os.path.join(cls.folder.name, "ecu.img")
        cls.server = Process(ECU, cls.image)
        cls.addClassCleanup(cls.server.kill)
        cls.port = cls.server.port

    @classmethod
    def tearDownClass(cls):
        # (whatever came, it goes on to its end, and complains of nothing)
        ended = cls.server.end()
        if ended != (0, ""):
            raise AssertionError(f"the server ended with {ended}")

    def connected(self, number=TESTER, **more):
        it = Client(self.port, number, **more)
        self.addCleanup(it.close)
        return it


class Identification(Served):
    """Over UDP: who it is, what it can, and what is none of its messages."""

    def asked(self, kind, payload=b"", **more):
        return datagram(self.port, message(kind, payload, **more))

    def test_who_it_is(self):
        for version, answered in ((2, 2), (3, 3), (0xFF, 2)):
            self.assertEqual(self.asked(1, version=version), message(4, bytes(17) + b"\x10\x10" + EID + bytes(7), answered))
        self.assertEqual(self.asked(2, EID)[:4], b"\x02\xfd\0\x04")

    def test_who_it_is_not(self):
        for kind, payload in ((2, bytes(6)), (3, VIN), (3, bytes(17))):
            self.assertIsNone(datagram(self.port, message(kind, payload), 0.3))

    def test_what_it_can(self):
        self.assertEqual(self.asked(0x4001), message(0x4002, struct.pack(">BBBI", 1, 8, 0, 4103)))
        self.assertEqual(self.asked(0x4003), message(0x4004, b"\x01"))

    def test_what_is_no_message(self):
        for data, code in ((b"", 0), (b"\x02\xfd\0", 0), (bytes(8), 0), (message(1, version=4), 0), (message(0x4001, version=0xFF), 0),
                           (message(1, inverse=0xFE), 0), (message(5, bytes(7)), 1), (message(0x8001, bytes(5)), 1), (message(0x1234), 1),
                           (message(1, b"\0"), 4), (message(3, VIN[1:]), 4), (message(1, length=2), 4), (message(2, EID, length=5), 4),
                           (message(1) * 2, 4), (message(1, length=0xFFFFFFFF), 2)):
            found = datagram(self.port, data)
            self.assertEqual((found[2:8], found[8]), (b"\0\0\0\0\0\x01", code), data.hex())

    def test_answers_of_others_are_left_alone(self):
        for kind, payload in ((0, b"\0"), (4, bytes(32)), (0x4002, bytes(7)), (0x4004, b"\x01")):
            self.assertIsNone(datagram(self.port, message(kind, payload), 0.3))


class Connections(Served):
    """Over TCP: routing activation, addresses, and testers beside each other."""

    def test_an_activation(self):
        it = self.connected()
        self.assertEqual((it.activate(TESTER), it.ask("3e00")), (0x10, ["7e00"]))
        self.assertEqual((it.activate(0x0E01), it.is_closed()), (0x02, True))

    def test_activations_that_are_denied(self):
        for number, kind, code in ((0x0DFF, 0, 0x00), (0x1000, 0, 0x00), (TESTER, 0xE0, 0x06)):
            it = self.connected(activates=False)
            self.assertEqual((it.activate(number, kind), it.is_closed()), (code, True))
        it = self.connected(activates=False)
        self.assertEqual(it.activate(0x0E33, 1), 0x10)
        it.send(0x0005, struct.pack(">HBII", 0x0E33, 0, 0, 7))
        self.assertEqual(it.receive(), (6, struct.pack(">HHBI", 0x0E33, ENTITY, 0x10, 0)))

    def test_no_request_comes_before_an_activation(self):
        it = self.connected(activates=False)
        it.request("3e00")
        self.assertEqual((it.acknowledged(), it.is_closed()), ("nack 02", True))

    def test_addresses(self):
        it = self.connected(0x0E02)
        it.request("3e00", target=0x1011)
        self.assertEqual(it.acknowledged(), "nack 03")
        it.request("3e00", target=FUNCTIONAL)
        self.assertEqual((it.acknowledged(), it.answered()), ("ack 00", "7e00"))
        it.tester = 0x0E03
        it.request("3e00")
        self.assertEqual((it.acknowledged(), it.is_closed()), ("nack 02", True))

    def test_two_testers(self):
        one, other = self.connected(0x0E04), self.connected(0x0E05)
        self.assertEqual(one.ask("2e0201" + "11" * 16), ["6e0201"])
        # (each has a session of its own)
        self.assertEqual((one.ask("1003", "2701")[1][:4], other.ask("2701")), ("6701", ["7f277f"]))
        for _ in range(20):
            one.request("2e0202" + "22" * 16)
            other.request("220201")
            self.assertEqual([(it.acknowledged(), it.answered()) for it in (one, other)], [("ack 00", "6e0202"), ("ack 00", "620201" + "11" * 16)])
        one.ask("1003")
        other.ask("1101")
        self.assertEqual(one.ask("2701"), ["7f277f"])

    def test_a_tester_that_comes_again(self):
        first = self.connected(0x0E06)
        second = self.connected(activates=False)
        second.send(0x0005, struct.pack(">HBI", 0x0E06, 0, 0))
        self.assertEqual(first.receive(), (7, b""))
        first.send(0x0008, b"\x0e\x06")
        self.assertEqual((second.receive()[1][4], second.is_closed()), (0x03, True))
        self.assertEqual(first.ask("3e00"), ["7e00"])
        # (one that is gone, or doesn't answer, makes room)
        third = self.connected(0x0E06)
        self.assertEqual((first.receive(), first.is_closed()), ((7, b""), True))
        self.assertEqual(third.ask("3e00"), ["7e00"])

    def test_more_testers_than_it_takes(self):
        testers = [self.connected(0x0F00 + number) for number in range(8)]
        status = datagram(self.port, message(0x4001))
        self.assertEqual(status[9:11], b"\x08\x08")
        late = self.connected(activates=False)
        late.send(0x0005, struct.pack(">HBI", 0x0F10, 0, 0))
        for number, it in enumerate(testers):
            self.assertEqual(it.receive(), (7, b""))
            it.send(0x0008, (0x0F00 + number).to_bytes(2, "big"))
        self.assertEqual((late.receive()[1][4], late.is_closed()), (0x01, True))
        late = self.connected(activates=False)
        late.send(0x0005, struct.pack(">HBI", 0x0F10, 0, 0))
        for number, it in enumerate(testers[1:], 1):
            self.assertEqual(it.receive(), (7, b""))
            it.send(0x0008, (0x0F00 + number).to_bytes(2, "big"))
        self.assertEqual((late.receive()[1][4], testers[0].receive(), testers[0].is_closed()), (0x10, (7, b""), True))


class Streams(Served):
    """Messages however they come in segments, and what is none."""

    def setUp(self):
        self.good = self.connected(0x0EF0)
        self.addCleanup(lambda: self.assertEqual(self.good.ask("3e00"), ["7e00"]))

    def test_several_messages_in_a_segment(self):
        it = self.connected(0x0E10)
        asked = ("3e00", "220102", "3e80", "22ffff")
        it.socket.sendall(b"".join(message(0x8001, struct.pack(">HH", 0x0E10, ENTITY) + bytes.fromhex(text)) for text in asked))
        self.assertEqual([(it.acknowledged(), it.answered()) for _ in range(2)], [("ack 00", "7e00"), ("ack 00", "620102" + "00" * 8)])
        self.assertEqual((it.acknowledged(), it.acknowledged(), it.answered()), ("ack 00", "ack 00", "7f2231"))

    def test_one_message_over_many_segments(self):
        it = self.connected(activates=False)
        for byte in message(5, struct.pack(">HBI", 0x0E11, 0, 0)) + message(0x8001, struct.pack(">HH", 0x0E11, ENTITY) + b"\x22\x01\x02"):
            it.socket.sendall(bytes([byte]))
        it.tester = 0x0E11
        self.assertEqual(it.receive()[1][4], 0x10)
        self.assertEqual((it.acknowledged(), it.answered()), ("ack 00", "620102" + "00" * 8))

    def test_what_closes_a_connection(self):
        for data, code in ((bytes(8), 0), (message(5, bytes(7), version=4), 0), (message(5, bytes(7), version=0xFF), 0),
                           (message(5, bytes(7), inverse=0), 0), (message(5, bytes(8)), 4), (message(5, length=0), 4), (message(8, b"\x0e"), 4),
                           (message(0x8001, bytes(4)), 4), (b"GET / HTTP/1.1\r\n\r\n", 0)):
            it = self.connected(activates=False)
            it.socket.sendall(data)
            self.assertEqual((it.receive(), it.is_closed()), ((0, bytes([code])), True), data.hex())

    def test_what_is_passed_over(self):
        it = self.connected(0x0E12)
        for data, code in ((message(0x1234, b"abc"), 1), (message(1), 1), (message(0x4001), 1), (message(7), 1), (message(0x8002, bytes(5)), 1),
                           (message(0x8001, bytes(4104)), 2), (message(0x8001, bytes(300000)), 2), (message(0x1234, bytes(300000)), 1)):
            it.socket.sendall(data)
            self.assertEqual(it.receive(), (0, bytes([code])))
            self.assertEqual(it.ask("3e00"), ["7e00"])
        it.socket.sendall(message(0, b"\x04") + message(8, b"\x0e\x13"))
        self.assertEqual(it.ask("3e00"), ["7e00"])

    def test_the_longest_request(self):
        it = self.connected(0x0E14)
        self.assertEqual(it.ask("2e0102" + "00" * 4096, "22" + "0102" * 16), ["7f2e13", "62" + ("0102" + "00" * 8) * 16])

    def test_connections_that_drop(self):
        def drop(value, size=None, reset=False):
            it = Client(self.port, 0x0E15)
            it.socket.sendall(message(0x8001, struct.pack(">HH", 0x0E15, ENTITY) + bytes.fromhex("2e0203" + value * 16))[:size])
            it.socket.setsockopt(socket.SOL_SOCKET, socket.SO_LINGER, struct.pack("ii", reset, 0))
            it.close()

        self.assertEqual(self.good.ask("2e0203" + "33" * 16), ["6e0203"])
        for size in range(0, 31):
            drop("44", size, size % 2)
        self.assertEqual(self.good.ask("220203"), ["620203" + "33" * 16])
        # (what was asked for whole is written, whoever is gone)
        drop("55")
        end = time.monotonic() + 60
        while self.good.ask("220203") == ["620203" + "33" * 16] and time.monotonic() < end:
            pass
        self.assertEqual(self.good.ask("220203"), ["620203" + "55" * 16])
        # (behind a reset that comes before it was read it isn't)
        drop("66", reset=True)
        self.assertIn(self.good.ask("220203"), [["620203" + it * 16] for it in ("55", "66")])

    def test_random_bytes(self):
        draws = random.Random(7)
        for _ in range(60):
            it = Client(self.port, 0x0E17)
            data = bytearray(b"".join(message(draws.choice((5, 7, 8, 0x8001, draws.randrange(65536))), draws.randbytes(draws.randrange(40)))
                                      for _ in range(4)))
            for _ in range(draws.randrange(6)):
                data[draws.randrange(len(data))] = draws.randrange(256)
            # (behind what closes a connection the rest isn't taken)
            with contextlib.suppress(OSError):
                while data:
                    size = draws.choice((1, 7, 8, 9, len(data)))
                    it.socket.sendall(data[:size])
                    data = data[size:]
                it.socket.shutdown(socket.SHUT_WR)
            while it.receive() is not None:
                pass
            it.close()
            datagram(self.port, draws.randbytes(draws.randrange(60)), 0.01)

    def test_memory_is_bounded(self):
        before, greedy = self.server.kilobytes(), self.connected(0x0E18)
        asked = message(0x8001, struct.pack(">HH", 0x0E18, ENTITY) + bytes.fromhex("22" + "0102" * 16))
        greedy.socket.settimeout(0.5)
        # (a tester that asks and takes no answer is cut off, or has to wait)
        sent = 0
        try:
            while sent < 64 << 20:
                sent += greedy.socket.send(asked * 1000)
        except (socket.timeout, ConnectionError):
            pass
        self.assertLess(sent, 64 << 20)
        huge = self.connected(0x0E19)
        huge.socket.sendall(message(0x8001, length=0xFFFFFFFF))
        self.assertEqual(huge.receive(), (0, b"\x02"))
        for _ in range(16):
            huge.socket.sendall(bytes(1 << 20))
        idle = [socket.create_connection(("127.0.0.1", self.port)) for _ in range(40)]
        self.assertEqual(self.good.ask("3e00"), ["7e00"])
        self.assertLess(self.server.kilobytes(), before + MOST_GROWTH)
        for it in idle:
            it.close()


class Silence(unittest.TestCase):
    """Connections on which nothing comes, by the standard's times."""

    def test_a_connection_without_an_activation_ends(self):
        server = Process(ECU, "mem", initial=doip.INITIAL_SECONDS)
        self.addCleanup(server.kill)
        began = time.monotonic()
        for sent in (b"", b"\x02\xfd", message(8, bytes(2)), message(0x1234, length=1 << 30)):
            it = Client(server.port, activates=False)
            self.addCleanup(it.close)
            it.socket.sendall(sent)
            while it.receive() is not None:
                pass
        self.assertGreater(time.monotonic() - began, 4 * 2 - 1)
        self.assertEqual((doip.INITIAL_SECONDS, doip.SILENT_SECONDS, doip.ALIVE_SECONDS), (2.0, 300.0, 0.5))
        self.assertEqual(server.end(), (0, ""))


class Written(unittest.TestCase):
    """What is answered is on the disk."""

    def setUp(self):
        folder = tempfile.TemporaryDirectory()
        self.addCleanup(folder.cleanup)
        self.image = os.path.join(folder.name, "ecu.img")

    def begin(self, *more):
        server = Process(ECU, self.image, *more)
        self.addCleanup(server.kill)
        return server

    def test_a_number_is_written_and_found_behind_a_kill(self):
        server = self.begin()
        it = Client(server.port)
        self.assertEqual(it.ask("22f190", "2ef190" + VIN.hex()), ["7f2222", "6ef190"])
        server.kill()
        it.close()
        server = self.begin()
        self.assertEqual(datagram(server.port, message(3, VIN))[8:25], VIN)
        it = Client(server.port)
        self.assertEqual(it.ask("22f190", "2ef190" + VIN.hex()), ["62f190" + VIN.hex(), "7f2e22"])
        it.close()
        self.assertEqual(server.end(), (0, ""))
        with open(self.image, "rb") as file, Unit(ECU, file.read()) as unit:
            self.assertEqual(unit.read("VIN"), VIN)

    def test_kills_at_any_time(self):
        draws, last = random.Random(3), 0
        for _ in range(6):
            server = self.begin()
            it = Client(server.port)
            found = int(it.ask("220102")[0][6:], 16)
            # (the one that was answered last, or the one that was asked for then)
            self.assertIn(found, (last, last + 1))
            last = found
            killing = threading.Timer(draws.uniform(0.01, 0.3), server.ran.kill)
            killing.start()
            try:
                while it.ask(f"2e0102{last + 1:016x}") == ["6e0102"]:
                    last += 1
            except (AssertionError, OSError, TypeError):
                pass
            killing.join()
            it.close()
            server.wait()

    def test_a_sync_that_fails_ends_it_without_an_answer(self):
        async def trial(entity, connect):
            it = await connect()
            with mock.patch("os.fsync", side_effect=OSError(5, "Input/output error")):
                it.request("2ef190" + VIN.hex())
                rest = await it.reader.read()
            self.assertEqual(rest, message(0x8002, struct.pack(">HHB", ENTITY, TESTER, 0)))
            await entity.failed

        with StoredUnit(ECU, self.image) as unit:
            with self.assertRaisesRegex(answers.ImageFault, "ecu.img: Input/output error"):
                asyncio.run(served(unit, trial))
            self.assertRaises(answers.ImageFault, unit.write, "odometer", 1)


class Busy(unittest.TestCase):
    """Where a request waits until another one has been served."""

    def tried(self, trial):
        with Unit(ECU) as unit:
            return asyncio.run(served(unit, trial))

    def test_an_answer_that_was_pending_comes_in_any_case(self):
        async def trial(entity, connect):
            testers = [await connect(TESTER + number) for number in range(3)]
            async with entity.serving:
                for it, request, target in zip(testers, ("220102", "3e80", "31"), (ENTITY, ENTITY, FUNCTIONAL)):
                    it.request(request, target)
                    await it.receive(0x8002)
                await asyncio.sleep(2 * uds.P2)
            return [await it.answers() for it in testers]

        # (neither a TesterPresent without a response nor a service that isn't there, asked for of all units, is answered else)
        self.assertEqual(self.tried(trial), [["7f2278", "620102" + "00" * 8], ["7f3e78", "7e00"], ["7f3178", "7f3111"]])

    def test_a_tester_whose_request_is_served_is_alive(self):
        async def trial(entity, connect):
            first, second = await connect(), await connect(activates=False)
            async with entity.serving:
                first.request("3e00")
                await first.receive(0x8002)
                code = await second.activate()
            return code, (await first.answers())[-1]

        with mock.patch.object(doip, "ALIVE_SECONDS", 0.02):
            self.assertEqual(self.tried(trial), (0x03, "7e00"))


class Announced(unittest.TestCase):
    """What it tells without being asked, and what it is told by words."""

    def test_announcements(self):
        async def trial(unit, port):
            entity = doip.Entity(uds.Server(unit), 0x1234, eid=bytes(range(6)))
            with mock.patch("natukeri.doip.BETWEEN", 0.01):
                await doip.announce(entity, "127.0.0.1", "127.0.0.1", port)

        with socket.socket(socket.AF_INET, socket.SOCK_DGRAM) as it, Unit(ECU) as unit:
            it.bind(("127.0.0.1", 0))
            it.settimeout(60)
            unit.write("VIN", VIN)
            asyncio.run(trial(unit, it.getsockname()[1]))
            self.assertEqual([it.recv(100) for _ in range(3)], [message(4, VIN + b"\x12\x34" + bytes(range(6)) + bytes(7))] * 3)

    def test_an_algorithm_of_ones_own(self):
        with tempfile.TemporaryDirectory() as folder:
            with open(os.path.join(folder, "keys_of_mine.py"), "w", encoding="utf-8") as file:
                file.write("def key_of(level, seed):\n    return seed[::-1]\n")
            env = {**os.environ, "PYTHONDONTWRITEBYTECODE": "1"}
            with mock.patch.dict(os.environ, env), mock.patch("os.getcwd", return_value=folder):
                self.assertEqual(doip.key_algorithm("keys_of_mine:key_of")(1, b"\1\2\3\4"), b"\4\3\2\1")
            sys.path.remove(folder)


class Calls(unittest.TestCase):
    """How it ends where it can't begin: a line, and a status."""

    def setUp(self):
        self.folder = tempfile.TemporaryDirectory()
        self.addCleanup(self.folder.cleanup)

    def path(self, name, content=None):
        path = os.path.join(self.folder.name, name)
        if content is not None:
            with open(path, "wb") as file:
                file.write(content)
        return path

    def ended(self, *words):
        env = {**os.environ, "PYTHONPATH": PACKAGE, "PYTHONDONTWRITEBYTECODE": "1"}
        ran = subprocess.run([sys.executable, "-m", "natukeri.doip", *words], capture_output=True, text=True, env=env, timeout=60,
                             cwd=self.folder.name)
        self.assertEqual((ran.stdout, ran.stderr.count("\n")), ("", 1), (words, ran.returncode, ran.stderr))
        return ran.returncode, ran.stderr

    def test_statuses(self):
        bad = self.path("bad.json", b'{"id": 1, "page": 17, "sector": 256, "sectors": 8, "standard": 8, "immediate": 4, "blocks": [{"length": 4}]}')
        twins = self.path("twins.json", b'{"id": 1, "page": 16, "sector": 256, "sectors": 8, "standard": 8, "immediate": 4,'
                                        b' "blocks": [{"length": 4, "did": "0103"}, {"length": 4}]}')
        image, held = self.path("new.img"), self.path("held.img")
        server = Process(ECU, held)
        self.addCleanup(server.kill)
        for words, status, said in (((), 2, "required: UNIT, IMAGE"), ((ECU, "mem", "--port", "65536"), 2, "65536"),
                                    ((ECU, "mem", "--address", "x"), 2, "x isn't 0 to ffff"), ((ECU, "mem", "--eid", "12"), 2, "six bytes"),
                                    ((ECU, "mem", "--announce", "here"), 2, "here is no address"),
                                    ((ECU, "mem", "--key", "nothing:at_all"), 2, "nothing"),
                                    ((ECU, "mem", "--key", "os:name"), 2, "no function"),
                                    ((self.path("none.json"), "mem"), 2, "none.json"),
                                    ((bad, image), 3, 'bad.json:1:11: rule 4: "page" is 17'), ((twins, image), 3, "both have the identifier 0103"),
                                    ((ECU, self.path("short.img", b"\xff" * 100)), 9, "100 bytes"), ((ECU, self.folder.name), 7, "directory"),
                                    ((ECU, os.path.join(self.folder.name, "no", "ecu.img")), 7, "No such file"),
                                    ((ECU, held), 75, "another process has it"),
                                    ((ECU, "mem", "--port", str(server.port)), 2, f"port {server.port}"),
                                    ((ECU, "mem", "--host", "203.0.113.7", "--port", "0"), 2, "203.0.113.7")):
            found = self.ended(*words)
            self.assertEqual((found[0], said in found[1]), (status, True), (words, found))
        self.assertFalse(os.path.exists(image))


if __name__ == "__main__":
    unittest.main()
