"""A unit behind DoIP (ISO 13400-2), for a tester over Ethernet.

UNIT is a unit file or a script, and IMAGE the path of its image file, which is made where it is absent, or 'mem' for a blank flash in memory. A
tester identifies the unit by UDP, activates its routing by TCP, and sends it the requests of docs/UDS.md, each of which is answered once what it
wrote is on the disk. It prints a line once it listens, and ends with 0 by Ctrl-C or SIGTERM.

Example: python3 -m natukeri.doip ecu.json ecu.img --host 192.168.0.2"""
from __future__ import annotations

import argparse
import asyncio
import contextlib
import importlib
import ipaddress
import os
import signal
import socket
import struct
import sys
import time
from typing import Optional

from natukeri.answers import BadConfiguration, HistoryFull, ImageInUse, SecondDevice, UnitError, WrongImageSize
from natukeri.configuration import configuration_of
from natukeri.doip_messages import (ANSWERS, ANY_VERSION, HEADER, MOST_PAYLOAD, OVER_TCP, OVER_UDP, VERSIONS, Activation, Header, Nack, Payload,
                                    header_fault, message)
from natukeri.image_file import StoredUnit
from natukeri.uds import NEGATIVE, P2, P2_PENDING, Answer, Code, KeyOf, Server, Session, complement, described_by
from natukeri.unit import Unit
from nvmtools.files import read_text
from nvmtools.tool import Stop, run_tool

PORT, ADDRESS, FUNCTIONAL = 13400, 0x1010, 0xE400
TESTERS = range(0x0E00, 0x1000)
ACTIVATIONS = (0, 1)
# testers whose routing is active, and connections in all
MOST_TESTERS, MOST_CONNECTIONS = 8, 24
# seconds: to an activation, without a message, to the answer of an alive check, and that a tester may leave an answer unread
INITIAL_SECONDS, SILENT_SECONDS, ALIVE_SECONDS, UNREAD_SECONDS = 2.0, 300.0, 0.5, 5.0
ANNOUNCEMENTS, BETWEEN = 3, 0.5
# of the program, docs/SCRIPT.md
BAD_CONFIGURATION, FLASH_FAULT, WRONG_SIZE, HISTORY_FULL, NO_SECOND, IN_USE = 3, 7, 9, 11, 14, 75


class Link:
    """A tester's connection: its address once its routing is active, its session, and whether a request of it is being served."""

    def __init__(self, writer: asyncio.StreamWriter):
        self.writer, self.version, self.opened = writer, VERSIONS[0], time.monotonic()
        self.tester: Optional[int] = None
        self.session, self.is_alive, self.is_served = Session(), asyncio.Event(), False

    def send(self, kind: Payload, payload: bytes = b"") -> None:
        self.writer.write(message(self.version, kind, payload))

    async def flush(self) -> None:
        """Waits until what was sent is taken, but no longer than a tester may take."""
        await asyncio.wait_for(self.writer.drain(), UNREAD_SECONDS)

    def seconds(self) -> float:
        """How long the next message may take."""
        return SILENT_SECONDS if self.tester is not None else max(0.0, self.opened + INITIAL_SECONDS - time.monotonic())


class Entity:
    """A DoIP entity over a server of UDS: its logical address, its identity, and the connections that it has.

    `failed` gets the exception that ends it: behind a fault of the image file nothing is answered any more."""

    def __init__(self, server: Server, address: int = ADDRESS, functional: int = FUNCTIONAL, eid: Optional[bytes] = None, gap: float = 0.0):
        self.server, self.address, self.functional, self._gap = server, address, functional, gap
        # (as a locally administered address of Ethernet)
        self.eid = b"\x02\0\0\0" + address.to_bytes(2, "big") if eid is None else eid
        self.links: set[Link] = set()
        # (who has `serving` has the unit)
        self._activating, self.serving = asyncio.Lock(), asyncio.Lock()
        self.failed: "asyncio.Future[None]" = asyncio.get_running_loop().create_future()

    # over UDP

    def announcement(self, version: int = VERSIONS[0]) -> bytes:
        """Who it is: the VIN or zeros, the address, the EID, no group, and that no further action is needed."""
        vin = self.server.vin or bytes(17)
        return message(version, Payload.ANNOUNCEMENT, vin + self.address.to_bytes(2, "big") + self.eid + bytes(6) + b"\0")

    def datagram(self, data: bytes) -> Optional[bytes]:
        """The answer to a datagram, which is one message, or None where there is none."""
        if len(data) < HEADER.size:
            return message(VERSIONS[0], Payload.HEADER_NACK, bytes([Header.PATTERN]))
        version, inverse, kind, length = HEADER.unpack_from(data)
        payload = data[HEADER.size:]
        is_identification = kind in (Payload.IDENTIFY, Payload.IDENTIFY_BY_EID, Payload.IDENTIFY_BY_VIN)
        fault = header_fault(OVER_UDP, version, inverse, kind, length, (*VERSIONS, ANY_VERSION) if is_identification else VERSIONS)
        if fault is None and length != len(payload):
            fault = Header.LENGTH
        version = version if version in VERSIONS else VERSIONS[0]
        if fault is not None:
            return None if kind in ANSWERS and fault is Header.UNKNOWN_TYPE else message(version, Payload.HEADER_NACK, bytes([fault]))
        if kind == Payload.ENTITY_STATUS:
            testers = sum(it.tester is not None for it in self.links)
            return message(version, Payload.ENTITY_STATUS_ANSWER, struct.pack(">BBBI", 1, MOST_TESTERS, testers, MOST_PAYLOAD))
        if kind == Payload.POWER_MODE:
            return message(version, Payload.POWER_MODE_ANSWER, b"\x01")
        is_meant = kind == Payload.IDENTIFY or payload == (self.eid if kind == Payload.IDENTIFY_BY_EID else self.server.vin)
        return self.announcement(version) if is_meant else None

    # over TCP

    async def connection(self, reader: asyncio.StreamReader, writer: asyncio.StreamWriter) -> None:
        """Serves a connection to its end."""
        if len(self.links) >= MOST_CONNECTIONS or self.failed.done():
            writer.transport.abort()
            return
        link = Link(writer)
        self.links.add(link)
        try:
            while await self._message(reader, link):
                await link.flush()
            await link.flush()
        except (asyncio.IncompleteReadError, asyncio.TimeoutError, asyncio.CancelledError, ConnectionError):
            # (it ends with its tester, or with the entity)
            pass
        except (UnitError, MemoryError) as error:
            if not self.failed.done():
                self.failed.set_exception(error)
        finally:
            self.links.discard(link)
            writer.close()

    async def _message(self, reader: asyncio.StreamReader, link: Link) -> bool:
        """Takes one message, and tells whether the connection goes on."""
        head = await asyncio.wait_for(reader.readexactly(HEADER.size), link.seconds())
        version, inverse, kind, length = HEADER.unpack(head)
        fault = header_fault(OVER_TCP, version, inverse, kind, length)
        link.version = version if version in VERSIONS else link.version
        if fault is not None:
            link.send(Payload.HEADER_NACK, bytes([fault]))
            if fault in (Header.PATTERN, Header.LENGTH):
                return False
            await asyncio.wait_for(_pass_over(reader, length), link.seconds())
            return True
        payload = await asyncio.wait_for(reader.readexactly(length), link.seconds())
        if kind == Payload.ACTIVATION:
            return await self._activate(link, payload)
        if kind == Payload.DIAGNOSTIC:
            return await self._diagnostic(link, payload)
        if kind == Payload.ALIVE_ANSWER and int.from_bytes(payload, "big") == link.tester:
            link.is_alive.set()
        return True

    async def _activate(self, link: Link, payload: bytes) -> bool:
        source, kind = struct.unpack_from(">HB", payload)
        async with self._activating:
            code = await self._activation(link, source, kind)
        link.send(Payload.ACTIVATION_ANSWER, struct.pack(">HHBI", source, self.address, code, 0))
        return code is Activation.ACTIVE

    async def _activation(self, link: Link, source: int, kind: int) -> Activation:
        if source not in TESTERS:
            return Activation.UNKNOWN_SOURCE
        if kind not in ACTIVATIONS:
            return Activation.UNKNOWN_KIND
        if link.tester is not None:
            return Activation.ACTIVE if link.tester == source else Activation.OTHER_SOURCE
        same = [it for it in self.links if it.tester == source]
        if same and await self._are_alive(same):
            return Activation.SOURCE_IN_USE
        active = [it for it in self.links if it.tester is not None]
        if len(active) >= MOST_TESTERS and await self._are_alive(active):
            return Activation.NO_SOCKET
        # (here, before another activation is looked at)
        link.tester = source
        return Activation.ACTIVE

    async def _are_alive(self, links: list[Link]) -> bool:
        """Whether all these testers answer an alive check; whoever doesn't loses its connection."""
        for it in links:
            it.is_alive.clear()
            it.send(Payload.ALIVE_CHECK)
        _, waiting = await asyncio.wait([asyncio.ensure_future(it.is_alive.wait()) for it in links], timeout=ALIVE_SECONDS)
        for task in waiting:
            task.cancel()
        # (nothing is read from one whose request is being served)
        dead = [it for it in links if not it.is_alive.is_set() and not it.is_served]
        for it in dead:
            it.tester = None
            it.writer.transport.abort()
        return not dead

    async def _diagnostic(self, link: Link, payload: bytes) -> bool:
        source, target = struct.unpack_from(">HH", payload)
        request, back = payload[4:], struct.pack(">HH", target, source)
        if source != link.tester:
            link.send(Payload.DIAGNOSTIC_NACK, back + bytes([Nack.SOURCE]))
            return False
        if target not in (self.address, self.functional):
            link.send(Payload.DIAGNOSTIC_NACK, back + bytes([Nack.TARGET]))
            return True
        link.send(Payload.DIAGNOSTIC_ACK, back + b"\0")
        await link.flush()
        link.is_served = True
        try:
            if self._gap:
                await asyncio.sleep(self._gap)
            await self._answer(link, request, target == self.functional)
        finally:
            link.is_served = False
            link.is_alive.set()
        return True

    async def _answer(self, link: Link, request: bytes, functional: bool) -> None:
        """Sends the answer of the unit; where it takes longer than P2, it is told to be pending meanwhile, and comes then in any case."""
        back = struct.pack(">HH", self.address, link.tester or 0)
        work, limit, is_pending = asyncio.ensure_future(self._served(link, request, functional)), P2, False
        while not (await asyncio.wait({work}, timeout=limit * 0.8))[0]:
            link.send(Payload.DIAGNOSTIC, back + bytes([NEGATIVE, request[0], Code.RESPONSE_PENDING]))
            limit, is_pending = P2_PENDING, True
        answer = work.result()
        if is_pending or not answer.is_withheld:
            link.send(Payload.DIAGNOSTIC, back + answer.data)

    async def _served(self, link: Link, request: bytes, functional: bool) -> Answer:
        async with self.serving:
            if self.failed.done():
                raise ConnectionAbortedError
            steps = self.server.serve(request, link.session, functional)
            while True:
                try:
                    next(steps)
                except StopIteration as end:
                    answer: Answer = end.value
                    return answer
                # (other connections go on between two turns)
                await asyncio.sleep(0)


async def _pass_over(reader: asyncio.StreamReader, length: int) -> None:
    while length:
        part = await reader.read(min(length, MOST_PAYLOAD))
        if not part:
            raise asyncio.IncompleteReadError(b"", length)
        length -= len(part)


class Datagrams(asyncio.DatagramProtocol):
    """The entity's end of UDP."""

    def __init__(self, entity: Entity):
        self._entity = entity
        self._transport: Optional[asyncio.DatagramTransport] = None

    def connection_made(self, transport: asyncio.BaseTransport) -> None:
        self._transport = transport  # type: ignore[assignment]

    def datagram_received(self, data: bytes, address: tuple[str, int]) -> None:
        answer = self._entity.datagram(data)
        if answer and self._transport:
            with contextlib.suppress(OSError):
                self._transport.sendto(answer, address)


async def announce(entity: Entity, host: str, to: str, port: int) -> None:
    """Tells who it is, some times, without being asked."""
    with socket.socket(socket.AF_INET, socket.SOCK_DGRAM) as sender:
        sender.setsockopt(socket.SOL_SOCKET, socket.SO_BROADCAST, 1)
        # (a network that isn't there now may be there at the next one)
        with contextlib.suppress(OSError):
            sender.bind((host, 0))
        for _ in range(ANNOUNCEMENTS):
            with contextlib.suppress(OSError):
                sender.sendto(entity.announcement(), (to, port))
            await asyncio.sleep(BETWEEN)


async def serve(entity: Entity, host: str = "127.0.0.1", port: int = PORT, to: Optional[str] = None) -> None:
    """Listens until the task is canceled, or the entity fails: then its exception comes."""
    # (no more of a connection stands in memory than a message and what comes behind it)
    server = await asyncio.start_server(entity.connection, host, port, limit=MOST_PAYLOAD + HEADER.size)
    port = server.sockets[0].getsockname()[1]
    loop = asyncio.get_running_loop()
    datagrams, _ = await loop.create_datagram_endpoint(lambda: Datagrams(entity), local_addr=(host, port))
    print(f"0x{entity.address:04x} on {host}:{port}, {len(entity.server.places)} identifiers", flush=True)
    telling = asyncio.ensure_future(announce(entity, host, to, PORT)) if to else None
    try:
        await entity.failed
    finally:
        if telling:
            telling.cancel()
        datagrams.close()
        server.close()
        for it in list(entity.links):
            it.writer.transport.abort()


async def _run(unit: Unit, key_of: KeyOf, given: argparse.Namespace) -> None:
    entity = Entity(Server(unit, key_of), given.address, given.functional, given.eid, given.gap / 1000)
    task, loop = asyncio.ensure_future(serve(entity, given.host, given.port, given.announce)), asyncio.get_running_loop()
    for number in (signal.SIGINT, signal.SIGTERM):
        loop.add_signal_handler(number, task.cancel)
    with contextlib.suppress(asyncio.CancelledError):
        await task


def number_in(text: str, base: int, most: int) -> int:
    try:
        number = int(text, base)
    except ValueError:
        number = -1
    if not 0 <= number <= most:
        raise argparse.ArgumentTypeError(f"{text[:20]} isn't 0 to {most:x}" if base == 16 else f"{text[:20]} isn't 0 to {most}")
    return number


def address(text: str) -> int:
    """A logical address."""
    return number_in(text, 16, 0xFFFF)


def internet_address(text: str) -> str:
    try:
        return str(ipaddress.IPv4Address(text))
    except ValueError:
        raise argparse.ArgumentTypeError(f"{text[:40]} is no address, as 192.168.0.255") from None


def eid(text: str) -> bytes:
    """An entity identifier, mostly the address of Ethernet."""
    try:
        found = bytes.fromhex(text.replace(":", ""))
    except ValueError:
        found = b""
    if len(found) != 6:
        raise argparse.ArgumentTypeError(f"{text[:20]} isn't six bytes, as 02:00:00:00:10:10")
    return found


def key_algorithm(text: str) -> KeyOf:
    """A function of a module in the folder in which it is called, or on Python's path."""
    module, _, name = text.partition(":")
    try:
        sys.path.insert(0, os.getcwd())
        found: KeyOf = getattr(importlib.import_module(module), name)
    except (AttributeError, ImportError, ValueError) as error:
        raise argparse.ArgumentTypeError(f"{text[:60]}: {error}") from None
    if not callable(found):
        raise argparse.ArgumentTypeError(f"{text[:60]} is no function")
    return found


def words(it: argparse.ArgumentParser) -> None:
    it.add_argument("unit", metavar="UNIT", help="a unit or a script")
    it.add_argument("image", metavar="IMAGE", help="an image file, or mem")
    it.add_argument("--host", metavar="ADDRESS", default="127.0.0.1", help="where it listens; 127.0.0.1 if it is left out, 0.0.0.0 for all")
    it.add_argument("--port", metavar="N", type=lambda text: number_in(text, 10, 65535), default=PORT,
                    help=f"by TCP and UDP; {PORT}, or 0 for a free one")
    it.add_argument("--address", metavar="HEX", type=address, default=ADDRESS, help=f"the logical address; {ADDRESS:04x}")
    it.add_argument("--functional", metavar="HEX", type=address, default=FUNCTIONAL, help=f"that of requests to all units; {FUNCTIONAL:04x}")
    it.add_argument("--eid", metavar="HEX", type=eid, help="the entity identifier, six bytes")
    it.add_argument("--announce", metavar="ADDRESS", type=internet_address,
                    help=f"tells who it is to this address, port {PORT}, three times, as 192.168.0.255")
    it.add_argument("--key", metavar="MODULE:NAME", type=key_algorithm, default=complement,
                    help="a function of a level and a seed that gives the key; without it the key is the complement of the seed")
    it.add_argument("--gap", metavar="MS", type=lambda text: number_in(text, 10, 10000), default=0,
                    help="milliseconds between an acknowledgement and its answer, for testers that take one message a segment")


def unit_of(given: argparse.Namespace) -> Unit:
    """The unit, or an end that says why there is none, with the status that the program has for it."""
    read_text(given.unit)
    try:
        config = configuration_of(given.unit)
        described_by(config)
        return Unit(config, cuts=0, keeps_history=False) if given.image == "mem" else StoredUnit(config, given.image, 0, False)
    except UnitError as error:
        raise Stop(str(error), status_of(error)) from None
    except OSError as error:
        # (there is no library)
        raise Stop(str(error), 127) from None


def status_of(error: UnitError) -> int:
    """The status with which the program ends for such a cause."""
    known = ((SecondDevice, NO_SECOND), (BadConfiguration, BAD_CONFIGURATION), (ImageInUse, IN_USE), (WrongImageSize, WRONG_SIZE),
             (HistoryFull, HISTORY_FULL))
    return next((status for kind, status in known if isinstance(error, kind)), FLASH_FAULT)


def main(given: argparse.Namespace) -> int:
    with unit_of(given) as unit:
        try:
            asyncio.run(_run(unit, given.key, given))
        except UnitError as error:
            raise Stop(str(error), status_of(error)) from None
        except OSError as error:
            raise Stop(f"{given.host}, port {given.port}: {error.strerror or error}") from None
    return 0


if __name__ == "__main__":
    run_tool(main, __doc__, words, "natukeri.doip")
