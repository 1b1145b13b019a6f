"""The UDS services of a unit (ISO 14229-1), by the table of docs/UDS.md; whatever carries the requests is the caller's, as natukeri.doip.

ReadDataByIdentifier and WriteDataByIdentifier give the answers that 'IMAGE uds' gives, and a read takes several identifiers. Beside them stand
DiagnosticSessionControl, ECUReset, SecurityAccess where a block of the unit has the key "security", and TesterPresent."""
from __future__ import annotations

import os
import time
from collections.abc import Generator
from dataclasses import dataclass, field
from enum import IntEnum
from typing import Callable, NamedTuple, Optional

from natukeri.answers import BadConfiguration, PowerOff, Refused, Result, Service, Turn
from natukeri.configuration import Configuration
from natukeri.unit import GIVES, Unit
from nvmtools import identifiers
from nvmtools.tool import Stop


class Code(IntEnum):
    """Negative response codes of ISO 14229-1."""
    SERVICE_NOT_SUPPORTED = 0x11
    SUB_FUNCTION_NOT_SUPPORTED = 0x12
    INCORRECT_LENGTH = 0x13
    CONDITIONS_NOT_CORRECT = 0x22
    REQUEST_SEQUENCE_ERROR = 0x24
    OUT_OF_RANGE = 0x31
    SECURITY_ACCESS_DENIED = 0x33
    INVALID_KEY = 0x35
    TOO_MANY_ATTEMPTS = 0x36
    DELAY_NOT_EXPIRED = 0x37
    PROGRAMMING_FAILURE = 0x72
    RESPONSE_PENDING = 0x78
    NOT_IN_THIS_SESSION = 0x7F


SESSION, RESET, READ, SECURITY, WRITE, PRESENT, NEGATIVE = 0x10, 0x11, 0x22, 0x27, 0x2E, 0x3E, 0x7F
WITH_SUB_FUNCTION = (SESSION, RESET, SECURITY, PRESENT)
POSITIVE, SUPPRESSED = 0x40, 0x80
DEFAULT_SESSION, PROGRAMMING_SESSION, EXTENDED_SESSION = 1, 2, 3
HARD_RESET, KEY_OFF_ON, SOFT_RESET = 1, 2, 3
# in seconds: within P2 an answer comes, or the sign that it is pending, and within P2* the next sign; behind S3 without a request the default
# session is there again
P2, P2_PENDING, S3 = 0.05, 5.0, 5.0
# how many wrong keys there may be, and for how many seconds no seed is given behind the last one
ATTEMPTS, DELAY = 3, 10.0
SEED = 4
MOST_IDENTIFIERS = 16
VIN, VIN_LENGTH = 0xF190, 17
# a request that isn't of one unit alone isn't answered with these
UNANSWERED = (Code.SERVICE_NOT_SUPPORTED, Code.SUB_FUNCTION_NOT_SUPPORTED, Code.OUT_OF_RANGE, Code.NOT_IN_THIS_SESSION)

KeyOf = Callable[[int, bytes], bytes]
# what makes turns: it yields behind each one, and returns its answer
Steps = Generator[None, None, bytes]


class Answer(NamedTuple):
    """An answer, and whether it is withheld: then it is sent to a tester alone who was told meanwhile that it is pending."""
    data: bytes
    is_withheld: bool


class _Negative(Exception):
    def __init__(self, code: Code):
        super().__init__(code)
        self.code = code


def complement(_level: int, seed: bytes) -> bytes:
    """The key of a seed where nobody gives another algorithm: each bit of it the other way. It keeps nobody out."""
    return bytes(it ^ 0xFF for it in seed)


def described_by(configuration: Configuration) -> tuple[dict[int, identifiers.Place], dict[int, Optional[int]]]:
    """What each identifier names, and the security level of each block. BadConfiguration where a block has no right "did" or "security"."""
    unit = configuration.described
    try:
        return identifiers.places_of(unit), {number: identifiers.security_of(unit, number) for number in unit.blocks}
    except Stop as stop:
        raise BadConfiguration(str(stop)) from None


@dataclass
class Session:
    """What a tester has of a unit: its diagnostic session, and the security level that it unlocked (0 for none)."""
    kind: int = DEFAULT_SESSION
    unlocked: int = 0
    seed: Optional[tuple[int, bytes]] = None
    begun: int = 0
    last: float = field(default=0.0)

    def end(self) -> None:
        """The default session, in which nothing is unlocked."""
        self.kind, self.unlocked, self.seed = DEFAULT_SESSION, 0, None


class Server:
    """Answers UDS requests over a unit, which has no job pending meanwhile. Requests of several testers come one after the other, each with its
    tester's Session. BadConfiguration where two blocks have the same identifier, or one has no right "did" or "security".

    `key_of(level, seed)` gives the key of a seed, and `clock` the seconds of S3 and of the delay behind wrong keys."""

    def __init__(self, unit: Unit, key_of: KeyOf = complement, clock: Callable[[], float] = time.monotonic,
                 seed_of: Callable[[int], bytes] = os.urandom):
        self.unit, self._key_of, self._clock, self._seed_of = unit, key_of, clock, seed_of
        self.places, self._levels = described_by(unit.configuration)
        self._known = set(filter(None, self._levels.values()))
        self._wrong_keys, self._delayed_to, self._starts = dict.fromkeys(self._known, 0), dict.fromkeys(self._known, float("-inf")), 0
        self.vin: Optional[bytes] = None
        self._read_vin()

    def answer(self, request: bytes, session: Session, functional: bool = False) -> Optional[bytes]:
        """The answer to a request, or None where there is none; the turns that it takes are made."""
        steps = self.serve(request, session, functional)
        while True:
            try:
                next(steps)
            except StopIteration as end:
                answer: Answer = end.value
                return None if answer.is_withheld else answer.data

    def serve(self, request: bytes, session: Session, functional: bool = False) -> Generator[None, None, Answer]:
        """The same turn by turn: it yields behind each one. `functional` is a request to all units at once, which isn't answered with some codes."""
        if not request:
            return Answer(b"", True)
        self._bring_up_to_date(session)
        try:
            data = yield from self._served(request, session)
        except (_Negative, Refused) as stop:
            code = stop.code if isinstance(stop, _Negative) else Code.CONDITIONS_NOT_CORRECT
            return Answer(bytes([NEGATIVE, request[0], code]), functional and code in UNANSWERED)
        finally:
            session.last = self._clock()
        return Answer(data, request[0] in WITH_SUB_FUNCTION and bool(request[1] & SUPPRESSED))

    def _bring_up_to_date(self, session: Session) -> None:
        """A session ends with a reset, and where its tester was silent for too long."""
        if session.begun != self._starts or self._clock() - session.last > S3:
            session.end()
        session.begun = self._starts

    def _served(self, request: bytes, session: Session) -> Steps:
        if request[0] == READ:
            return (yield from self._read(request))
        if request[0] == WRITE:
            return (yield from self._write(request, session))
        if request[0] == SECURITY and self._known:
            return self._security(request, session)
        at_once = {SESSION: self._session, RESET: self._reset, PRESENT: self._present}
        if request[0] not in at_once:
            raise _Negative(Code.SERVICE_NOT_SUPPORTED)
        return at_once[request[0]](request, session)

    # the services

    @staticmethod
    def _sub_function(request: bytes, known: tuple[int, ...], length: Optional[int] = 2) -> int:
        """The sub-function of a request, which may be the one of these alone."""
        if len(request) < 2:
            raise _Negative(Code.INCORRECT_LENGTH)
        if request[1] & ~SUPPRESSED not in known:
            raise _Negative(Code.SUB_FUNCTION_NOT_SUPPORTED)
        if length is not None and len(request) != length:
            raise _Negative(Code.INCORRECT_LENGTH)
        return request[1] & ~SUPPRESSED

    def _session(self, request: bytes, session: Session) -> bytes:
        kind = self._sub_function(request, (DEFAULT_SESSION, PROGRAMMING_SESSION, EXTENDED_SESSION))
        session.end()
        session.kind = kind
        # P2 in milliseconds, and P2* in tens of them
        return bytes([SESSION + POSITIVE, kind, *int(P2 * 1000).to_bytes(2, "big"), *int(P2_PENDING * 100).to_bytes(2, "big")])

    def _reset(self, request: bytes, session: Session) -> bytes:
        kind = self._sub_function(request, (HARD_RESET, KEY_OFF_ON, SOFT_RESET))
        self.unit.restart()
        self._starts += 1
        self._bring_up_to_date(session)
        self._read_vin()
        return bytes([RESET + POSITIVE, kind])

    def _present(self, request: bytes, _session: Session) -> bytes:
        return bytes([PRESENT + POSITIVE, self._sub_function(request, (0,))])

    def _security(self, request: bytes, session: Session) -> bytes:
        if session.kind == DEFAULT_SESSION:
            raise _Negative(Code.NOT_IN_THIS_SESSION)
        kind = self._sub_function(request, tuple(sub for level in self._known for sub in (2 * level - 1, 2 * level)), None)
        level = (kind + 1) // 2
        return self._seed(request, session, level) if kind % 2 else self._key(request, session, level)

    def _seed(self, request: bytes, session: Session, level: int) -> bytes:
        if len(request) != 2:
            raise _Negative(Code.INCORRECT_LENGTH)
        if self._clock() < self._delayed_to[level]:
            raise _Negative(Code.DELAY_NOT_EXPIRED)
        # (of a level that is unlocked the seed is zeros)
        seed = bytes(SEED) if session.unlocked == level else self._seed_of(SEED)
        session.seed = None if session.unlocked == level else (level, seed)
        return bytes([SECURITY + POSITIVE, 2 * level - 1]) + seed

    def _key(self, request: bytes, session: Session, level: int) -> bytes:
        if session.seed is None or session.seed[0] != level:
            raise _Negative(Code.REQUEST_SEQUENCE_ERROR)
        key = self._key_of(level, session.seed[1])
        if len(request) != 2 + len(key):
            raise _Negative(Code.INCORRECT_LENGTH)
        session.seed = None
        if request[2:] != key:
            self._wrong_keys[level] += 1
            if self._wrong_keys[level] < ATTEMPTS:
                raise _Negative(Code.INVALID_KEY)
            self._wrong_keys[level], self._delayed_to[level] = 0, self._clock() + DELAY
            raise _Negative(Code.TOO_MANY_ATTEMPTS)
        self._wrong_keys[level], session.unlocked = 0, level
        return bytes([SECURITY + POSITIVE, 2 * level])

    def _read(self, request: bytes) -> Steps:
        if len(request) < 3 or len(request) % 2 == 0 or len(request) > 1 + 2 * MOST_IDENTIFIERS:
            raise _Negative(Code.INCORRECT_LENGTH)
        asked = [int.from_bytes(request[at:at + 2], "big") for at in range(1, len(request), 2)]
        known = [it for it in asked if it in self.places]
        if not known:
            raise _Negative(Code.OUT_OF_RANGE)
        answer = bytes([READ + POSITIVE])
        for it in known:
            answer += it.to_bytes(2, "big") + (yield from self._content(it))
        return answer

    def _content(self, identifier: int) -> Steps:
        block = self._chosen(identifier)
        result = yield from self._posted(Service.READ_BLOCK, block)
        if result not in GIVES:
            raise _Negative(Code.CONDITIONS_NOT_CORRECT)
        return self.unit.given(block)

    def _write(self, request: bytes, session: Session) -> Steps:
        if len(request) < 4:
            raise _Negative(Code.INCORRECT_LENGTH)
        identifier, content = int.from_bytes(request[1:3], "big"), request[3:]
        if identifier not in self.places:
            raise _Negative(Code.OUT_OF_RANGE)
        block = self.places[identifier].block
        if self._levels[block] not in (None, session.unlocked):
            raise _Negative(Code.SECURITY_ACCESS_DENIED)
        if len(content) != self.unit.configuration.length(block):
            raise _Negative(Code.INCORRECT_LENGTH)
        self._chosen(identifier)
        result = yield from self._posted(Service.WRITE_BLOCK, block, content)
        if identifier == VIN:
            self._read_vin()
        if result is not Result.OK:
            raise _Negative(Code.PROGRAMMING_FAILURE)
        return bytes([WRITE + POSITIVE]) + request[1:3]

    # the unit

    def _chosen(self, identifier: int) -> int:
        """The block of an identifier, whose dataset is chosen."""
        block: int = self.places[identifier].block
        index: int = self.places[identifier].index
        if self.unit.chosen(block) != index:
            self.unit.set_index(block, index)
        return block

    def _posted(self, service: Service, block: int, content: bytes = b"") -> Generator[None, None, Result]:
        self.unit.ask(service, block, 0, content)
        while (result := self.unit.status(block)) is Result.PENDING:
            if self.unit.turn() is Turn.OFF:
                raise PowerOff("the power went off in a request")
            yield
        return result

    def _read_vin(self) -> None:
        """The vehicle identification number, where F190 names a block that holds one."""
        block = self.places[VIN].block if VIN in self.places else None
        is_one = block is not None and self.unit.configuration.length(block) == VIN_LENGTH
        self.vin = self.unit.held(self._chosen(VIN)) if is_one else None
