"""The messages of DoIP (ISO 13400-2): payload types, codes, and headers."""
from __future__ import annotations

import struct
from collections.abc import Container, Mapping
from enum import IntEnum
from typing import Optional

# of 2012 and of 2019; an identification may also ask any of them
VERSIONS, ANY_VERSION = (2, 3), 0xFF
HEADER = struct.Struct(">BBHI")
# a diagnostic message has two addresses, and a write of the longest block
MOST_PAYLOAD = 4 + 3 + 4096


class Payload(IntEnum):
    """Payload types."""
    HEADER_NACK = 0x0000
    IDENTIFY = 0x0001
    IDENTIFY_BY_EID = 0x0002
    IDENTIFY_BY_VIN = 0x0003
    ANNOUNCEMENT = 0x0004
    ACTIVATION = 0x0005
    ACTIVATION_ANSWER = 0x0006
    ALIVE_CHECK = 0x0007
    ALIVE_ANSWER = 0x0008
    ENTITY_STATUS = 0x4001
    ENTITY_STATUS_ANSWER = 0x4002
    POWER_MODE = 0x4003
    POWER_MODE_ANSWER = 0x4004
    DIAGNOSTIC = 0x8001
    DIAGNOSTIC_ACK = 0x8002
    DIAGNOSTIC_NACK = 0x8003


class Header(IntEnum):
    """Why a header is refused."""
    PATTERN = 0
    UNKNOWN_TYPE = 1
    TOO_LARGE = 2
    LENGTH = 4


class Activation(IntEnum):
    """What comes of a routing activation."""
    UNKNOWN_SOURCE = 0x00
    NO_SOCKET = 0x01
    OTHER_SOURCE = 0x02
    SOURCE_IN_USE = 0x03
    UNKNOWN_KIND = 0x06
    ACTIVE = 0x10


class Nack(IntEnum):
    """Why a diagnostic message is refused."""
    SOURCE = 2
    TARGET = 3


# how long the payload of each type is that comes over UDP, or over TCP
Lengths = Mapping[Payload, Container[int]]
OVER_UDP: Lengths = {Payload.IDENTIFY: (0,), Payload.IDENTIFY_BY_EID: (6,), Payload.IDENTIFY_BY_VIN: (17,), Payload.ENTITY_STATUS: (0,),
                     Payload.POWER_MODE: (0,)}
OVER_TCP: Lengths = {Payload.HEADER_NACK: (1,), Payload.ACTIVATION: (7, 11), Payload.ALIVE_ANSWER: (2,),
                     Payload.DIAGNOSTIC: range(5, MOST_PAYLOAD + 1)}
# what other entities answer, which is left alone
ANSWERS = (Payload.HEADER_NACK, Payload.ANNOUNCEMENT, Payload.ENTITY_STATUS_ANSWER, Payload.POWER_MODE_ANSWER)


def message(version: int, kind: Payload, payload: bytes = b"") -> bytes:
    """A DoIP message."""
    return HEADER.pack(version, version ^ 0xFF, kind, len(payload)) + payload


def header_fault(known: Lengths, version: int, inverse: int, kind: int, length: int, versions: tuple[int, ...] = VERSIONS) -> Optional[Header]:
    """Why a header is refused, in the standard's order, or None."""
    if inverse != version ^ 0xFF or version not in versions:
        return Header.PATTERN
    if kind not in known:
        return Header.UNKNOWN_TYPE
    if length > MOST_PAYLOAD:
        return Header.TOO_LARGE
    return Header.LENGTH if length not in known[Payload(kind)] else None
