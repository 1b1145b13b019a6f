"""What the stack answers, in words: what a turn did, results of jobs, refusals of requests, and the exceptions that tell them.

docs/SCRIPT.md has the numbers with what to do about each."""
from __future__ import annotations

from enum import Enum
from typing import Optional


class Service(Enum):
    """A service that is asked for, by the standard's number; PUT_RAM is one of our own: the application writes a RAM block."""
    SET_DATA_INDEX = 1
    GET_DATA_INDEX = 2
    SET_BLOCK_PROTECTION = 3
    SET_RAM_BLOCK_STATUS = 5
    READ_BLOCK = 6
    WRITE_BLOCK = 7
    RESTORE_BLOCK_DEFAULTS = 8
    ERASE_NV_BLOCK = 9
    CANCEL_WRITE_ALL = 10
    INVALIDATE_NV_BLOCK = 11
    READ_ALL = 12
    WRITE_ALL = 13
    SET_BLOCK_LOCK_STATUS = 19
    READ_PERMANENT_RAM = 22
    WRITE_PERMANENT_RAM = 23
    RESTORE_PERMANENT_RAM = 24
    PUT_RAM = 128

    def __str__(self) -> str:
        return self.name.lower().replace("_", " ")


class Turn(Enum):
    """What one turn of the main function did."""
    IDLE = 0
    WORKED = 1
    PICKED = 2
    POSTED = 3
    OFF = 4


class _Told(Enum):
    """A number with its words."""
    words: str

    # (words are left out where a member is looked up by its number)
    def __new__(cls, number: int, words: str = "") -> "_Told":
        it = object.__new__(cls)
        it._value_, it.words = number, words
        return it


class Result(_Told):
    """How the last job of a block ended, or the last request on all blocks: NvM_RequestResultType of the standard."""
    OK = 0, "done"
    NOT_OK = 1, "it failed at every try; of all blocks, a member didn't end well"
    PENDING = 2, "a job waits or is in hand"
    INTEGRITY_FAILED = 3, "nothing is stored, and there are no defaults"
    BLOCK_SKIPPED = 4, "WriteAll passed it over"
    NV_INVALIDATED = 5, "it was invalidated"
    CANCELED = 6, "the request for all blocks was canceled"
    REDUNDANCY_FAILED = 7, "one of two copies was served; the other failed"
    RESTORED_FROM_ROM = 8, "the defaults were given"

    def __str__(self) -> str:
        return f"NVM_REQ_{self.name}"


class Refusal(_Told):
    """Why a request was refused; it changed nothing."""
    NO_BLOCK = 1, "there is no such block"
    OFF = 2, "the power is off"
    KIND = 3, ("the block takes no such request: only a dataset has an index, only other blocks are restored, and block 1 is the manager's own "
               "and is read and restored alone")
    INDEX = 4, "the index is none of the block's datasets"
    LENGTH = 5, "the content hasn't the block's length"
    NO_RAM = 6, "the block has no RAM of its own"
    NO_DEFAULTS = 7, "the block has no defaults"
    NOT_IMMEDIATE = 8, "only an immediate block is erased"
    ONCE = 9, "the protection of a block that is written once can't be changed"
    ALL_PENDING = 10, "a request for all blocks is pending"
    PENDING = 11, "a job of this block is pending"
    LOCKED = 12, "the block is locked"
    PROTECTED = 13, "the block is protected"
    ROM = 14, "the index is that of a ROM dataset"
    NO_WRITE_ALL = 15, "no WriteAll is pending, or it was canceled already"
    QUEUE = 16, "the queue is full of jobs that wait to be taken in hand"
    HISTORY = 17, "the history has no room for the request and all that would follow from it"


class UnitError(Exception):
    """What a unit can't do; each of the others below is one."""


class BadConfiguration(UnitError):
    """The unit file says no configuration that this stack runs. Where it breaks a rule of docs/CONFIGURATION.md, `rule` is the first by its number,
    and `block` the id of the block that breaks it, or 0; else both are None."""

    def __init__(self, text: str, rule: Optional[int] = None, block: Optional[int] = None):
        super().__init__(text)
        self.rule, self.block = rule, block


class SecondDevice(BadConfiguration):
    """The configuration names a second device, which isn't run here."""


class NoSuchBlock(UnitError):
    """No block has this name."""


class Refused(UnitError):
    """A request was refused: `reason` tells why."""

    def __init__(self, request: str, reason: Refusal):
        super().__init__(f"{request} is refused: {reason.words} ({reason.value})")
        self.request, self.reason = request, reason


class Failed(UnitError):
    """A job ended otherwise than was asked for: `result` tells how."""

    def __init__(self, request: str, result: Result):
        super().__init__(f"{request} ended with {result} ({result.value}): {result.words}")
        self.request, self.result = request, result


class PowerOff(UnitError):
    """The power went off, or is off: what was pending is lost. Unit.restart turns it on again."""


class StartUpFailed(UnitError):
    """The last start-up failed, so the unit answers nothing else until another one stands."""


class HistoryFull(UnitError):
    """The history has as many entries as there can be, 4,294,967,295."""


class UnitClosed(UnitError):
    """The unit was closed."""


class ImageFault(UnitError):
    """The image file couldn't be opened, locked, read, written or synced. A unit over it answers nothing else behind that."""


class ImageInUse(ImageFault):
    """Another process has the image file, or makes it."""


class WrongImageSize(ImageFault):
    """The image file hasn't the size of the flash."""
