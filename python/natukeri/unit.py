"""A unit: its flash, its requests and turns, and its power."""
from __future__ import annotations

import ctypes
import os
import weakref
from collections.abc import Collection
from typing import Optional, Union

from natukeri import library
from natukeri.answers import (BadConfiguration, Failed, HistoryFull, PowerOff, Refusal, Refused, Result, SecondDevice, Service, StartUpFailed,
                              Turn, UnitClosed, UnitError)
from natukeri.configuration import Block, Configuration, UnitPath, Value, configuration_of
from natukeri.judge import Judge

_RESULTS, _TURNS = tuple(Result), tuple(Turn)
_ASKED, _REFUSED, _INDEX, _FULL, _NO_MEMORY, _DOWN = range(6)
# with these a read gives a content
GIVES = (Result.OK, Result.REDUNDANCY_FAILED, Result.RESTORED_FROM_ROM)
# and with these it gives none, without a failure of the flash
GIVES_NONE = (Result.INTEGRITY_FAILED, Result.NV_INVALIDATED)
MOST_INDEX, MOST_OPERATIONS = 0xFF, 0xFFFFFFFF
# bytes of a line of the history that is no start-up's, as a rule
LINE = 256
# the line of a start-up of which nvm_line doesn't tell what it found, with what that answers (docs/C.md)
UNTOLD, _UNSOUND = "found, not told: the image was not sound", 6


def _close(calls: ctypes.CDLL, handle: library.Handle, _flash: object) -> None:
    # (the flash is named so that its bytes are there until the unit is closed)
    calls.nvm_close(handle, library.Memory())


def _within(number: int, least: int, most: int, what: str) -> int:
    if not least <= number <= most:
        raise ValueError(f"{what} is {number}: it is {least} to {most}")
    return int(number)


class _Untold(UnitError):
    """What stands on the flash isn't told."""


class Unit:
    """The stack of a unit file over a flash in memory, behind its first start-up.

    The flash begins with the bytes of `image`, or blank; `cuts` is how many power cuts can be planned. `history` has a line for each entry, as the
    program prints them (docs/SCRIPT.md), and none where `keeps_history` is false, as for a unit that serves for long. Where `image` isn't sound, as
    one of another program, the line of a start-up behind an operation is UNTOLD. A unit is used in one thread. Without `with` it is closed when
    nothing names it any more."""

    def __init__(self, unit: Union[UnitPath, Configuration], image: Optional[bytes] = None, cuts: int = 1000, keeps_history: bool = True):
        self.configuration = configuration_of(unit)
        size = self.configuration.flash_size
        if image is not None and len(image) != size:
            raise ValueError(f"the image has {len(image)} bytes, and the flash of {self.configuration.path} has {size}")
        self._calls, self._handle = library.load(), library.Handle()
        self._flash = (ctypes.c_uint8 * size).from_buffer_copy(b"\xff" * size if image is None else image)
        self._is_off = False
        self.history: list[str] = []
        self._keeps_history, self._entries = keeps_history, 0
        self._judge, self._judged = Judge(self.configuration), 0
        self._chosen: dict[int, int] = {}
        self._open(_within(cuts, 0, MOST_OPERATIONS, "cuts"))
        self._closing = weakref.finalize(self, _close, self._calls, self._handle, self._flash)
        self._tell()

    def _open(self, cuts: int) -> None:
        text = self.configuration.line.encode()
        lent = library.Memory(ctypes.addressof(self._flash), len(self._flash))
        code = self._calls.nvm_open(self._handle, text, len(text), lent, cuts, library.Memory())
        if code == _NO_MEMORY:
            raise MemoryError
        if code == 1:
            raise BadConfiguration(f"{self.configuration.path} is no configuration of a unit in C")
        if code == 5:
            raise SecondDevice(f"{self.configuration.path} names a second device, which isn't run here")
        if code:
            raise StartUpFailed(f"nvm_open answers {code}")

    def __repr__(self) -> str:
        return f"<Unit {os.path.basename(self.configuration.path)}>"

    def __enter__(self) -> "Unit":
        return self

    def __exit__(self, *_: object) -> None:
        self.close()

    def close(self) -> bytes:
        """Ends the unit, also where it is closed already, and gives the image."""
        self._closing()
        return bytes(self._flash)

    @property
    def image(self) -> bytes:
        """The bytes of the flash as they are now (docs/IMAGE.md)."""
        return bytes(self._flash)

    @property
    def is_off(self) -> bool:
        """Whether the power went off, and no restart came since."""
        return self._is_off

    def _call(self, name: str, *given: object) -> int:
        if not self._closing.alive:
            raise UnitClosed(f"the unit of {self.configuration.path} is closed")
        return int(getattr(self._calls, name)(self._handle, *given))

    def _tell(self) -> None:
        if not self._keeps_history:
            return
        # (a call adds one entry at most, and the library keeps the last one alone)
        entries = self._call("nvm_entries")
        if entries != self._entries:
            self._entries = entries
            try:
                self.history.append(self._look("nvm_line", room=LINE).decode().rstrip("\n"))
            except _Untold:
                self.history.append(UNTOLD)

    # what the stack is asked for

    def ask(self, service: Service, block: Block = 0, number: int = 0, content: bytes = b"") -> Optional[int]:
        """Asks for a service, and makes no turn. `number` is an index, or a setting where 0 is off. GET_DATA_INDEX gives the index.

        Refused where the stack refuses it, PowerOff where that is because the power is off."""
        value = ctypes.c_uint8()
        code = self._call("nvm_ask", service.value, self.configuration.id(block), _within(number, 0, MOST_INDEX, "the number"), content,
                          len(content), value)
        self._tell()
        if code == _REFUSED:
            raise self._refused(service, block, Refusal(value.value))
        if code == _FULL:
            raise HistoryFull
        if code == _NO_MEMORY:
            raise MemoryError
        if code == _DOWN:
            raise StartUpFailed
        if service is Service.SET_DATA_INDEX:
            self._chosen[self.configuration.id(block)] = number
        return value.value if code == _INDEX else None

    def _refused(self, service: Service, block: Block, reason: Refusal) -> UnitError:
        request = self._request(service, block)
        if reason is Refusal.OFF:
            return PowerOff(f"{request} is refused: {reason.words}")
        return Refused(request, reason)

    def _request(self, service: Service, block: Block) -> str:
        return f"{service} of {self.configuration.called(block)}" if block else str(service)

    def turn(self) -> Turn:
        """One turn of the main function: one operation of the flash at most."""
        code = self._call("nvm_turn")
        if code == _DOWN:
            raise StartUpFailed
        turned = _TURNS[code]
        self._tell()
        self._is_off = self._is_off or turned is Turn.OFF
        return turned

    def drain(self) -> None:
        """Makes turns until nothing is left to do. PowerOff where the power goes off."""
        while (turned := self.turn()) is not Turn.IDLE:
            if turned is Turn.OFF:
                raise PowerOff("the power went off")

    def status(self, block: Block = 0) -> Result:
        """The result of the block's last job, or PENDING; of 0 that of the last request on all blocks."""
        return _RESULTS[self._call("nvm_status", self.configuration.id(block))]

    def wait(self, block: Block = 0) -> Result:
        """Makes turns until the block isn't pending any more, and gives its result. PowerOff where the power goes off before."""
        while (result := self.status(block)) is Result.PENDING:
            while (turned := self.turn()) is not Turn.POSTED:
                if turned is Turn.OFF:
                    raise PowerOff(f"the power went off, and {self.configuration.called(block)} is pending")
                if turned is Turn.IDLE:
                    raise UnitError(f"nothing is left to do, and {self.configuration.called(block)} is pending")
        return result

    def _serve(self, service: Service, block: Block, content: bytes = b"", wanted: Collection[Result] = (Result.OK,)) -> None:
        self.ask(service, block, 0, content)
        result = self.wait(block)
        if result not in wanted:
            raise Failed(self._request(service, block), result)

    def _look(self, name: str, *given: object, room: int) -> bytes:
        """The content that a look copies, which may have more bytes than there is room for at first."""
        while True:
            into, size = ctypes.create_string_buffer(room), ctypes.c_size_t()
            code = self._call(name, *given, into, room, size)
            if code == _NO_MEMORY:
                raise MemoryError
            if code == _UNSOUND:
                raise _Untold(f"{name}: the image was not sound")
            if code:
                raise UnitError(f"{name}: there is nothing to look at")
            if size.value <= room:
                return into.raw[:size.value]
            room = size.value

    def given(self, block: Block) -> bytes:
        """What the job of the block gave that was posted in the last turn."""
        return self._look("nvm_given", room=self.configuration.length(block))

    # one block: each makes turns until its job has ended; Failed where it ended otherwise than was asked for

    def write(self, block: Block, value: Value) -> None:
        """Stores a value: bytes, a number with its highest byte first, or a text in UTF-8."""
        self._serve(Service.WRITE_BLOCK, block, self.configuration.content(block, value))

    def read(self, block: Block) -> bytes:
        """What is stored, or the defaults. Behind it `status` tells which: OK, RESTORED_FROM_ROM, or REDUNDANCY_FAILED where one of two copies
        was served."""
        self._serve(Service.READ_BLOCK, block, wanted=GIVES)
        return self.given(block)

    def read_number(self, block: Block) -> int:
        """The same as a number with its highest byte first."""
        return int.from_bytes(self.read(block), "big")

    def held(self, block: Block) -> Optional[bytes]:
        """What a read gives, or None where it gives nothing: nothing is stored and there are no defaults, or it was invalidated."""
        try:
            return self.read(block)
        except Failed as failed:
            if failed.result in GIVES_NONE:
                return None
            raise

    def may_hold(self, block: Block, index: Optional[int] = None) -> list[Optional[bytes]]:
        """What the block may hold behind a power cut, as `held` tells it: by the history the content that was stored last, and each that a job took
        in hand for it since. `index` is that of a dataset, else the one that is chosen.

        Before a cut it is what a cut in the next turn may leave; behind a restart what this start-up might have found, until the block is stored
        again. What is asked for and waits isn't among them. So `held(block) in may_hold(block)` judges a start-up by what came before it."""
        if not self._keeps_history:
            raise UnitError(f"the history of {self!r} isn't kept, by which it is told")
        if UNTOLD in self.history:
            raise UnitError(f"the image of {self!r} was not sound, and what a start-up found is not told")
        number = self.configuration.id(block)
        most = self.configuration.datasets(number)
        self._judge.go_on(self.history[self._judged:])
        self._judged = len(self.history)
        at = self.chosen(number) if index is None else index
        return self._judge.values(number, _within(at, 0, most - 1, "the index"))

    def restore(self, block: Block) -> bytes:
        """The block's defaults; nothing is stored."""
        self._serve(Service.RESTORE_BLOCK_DEFAULTS, block, wanted=GIVES)
        return self.given(block)

    def erase(self, block: Block) -> None:
        """Erases an immediate block."""
        self._serve(Service.ERASE_NV_BLOCK, block)

    def invalidate(self, block: Block) -> None:
        """Marks what is stored as invalid."""
        self._serve(Service.INVALIDATE_NV_BLOCK, block)

    # settings of one block, at once

    def set_index(self, block: Block, index: int) -> None:
        """Chooses the dataset, from 0; those in ROM stand behind the stored ones."""
        self.ask(Service.SET_DATA_INDEX, block, index)

    def index(self, block: Block) -> int:
        """The dataset that is chosen."""
        return self.ask(Service.GET_DATA_INDEX, block) or 0

    def chosen(self, block: Block) -> int:
        """The same without asking the stack: the one that was set last since the start-up, or 0."""
        return self._chosen.get(self.configuration.id(block), 0)

    def protect(self, block: Block, on: bool = True) -> None:
        """Sets the block's write protection, or takes it off."""
        self.ask(Service.SET_BLOCK_PROTECTION, block, on)

    def lock(self, block: Block, on: bool = True) -> None:
        """Sets the block's lock, or takes it off; a restart does too."""
        self.ask(Service.SET_BLOCK_LOCK_STATUS, block, on)

    # the application's RAM blocks, and all blocks

    def put_ram(self, block: Block, value: Value, changed: bool = True) -> None:
        """The application writes its RAM block, and says that it is changed: then write_all stores it."""
        self.ask(Service.PUT_RAM, block, 0, self.configuration.content(block, value))
        self.ask(Service.SET_RAM_BLOCK_STATUS, block, changed)

    def ram(self, block: Block) -> bytes:
        """What the RAM block holds; zeros behind a start-up."""
        return self._look("nvm_ram", self.configuration.id(block), room=self.configuration.length(block))

    def ram_is_valid(self, block: Block) -> bool:
        """Whether the RAM block is valid: something was read or restored into it, or the application said so, since the start-up."""
        return bool(self._call("nvm_ram_is_valid", self.configuration.id(block)))

    def write_ram(self, block: Block) -> None:
        """Stores the RAM block."""
        self._serve(Service.WRITE_PERMANENT_RAM, block)

    def read_ram(self, block: Block) -> bytes:
        """Reads what is stored, or the defaults, into the RAM block, and gives it."""
        self._serve(Service.READ_PERMANENT_RAM, block, wanted=GIVES)
        return self.ram(block)

    def restore_ram(self, block: Block) -> bytes:
        """Puts the defaults into the RAM block, and gives it."""
        self._serve(Service.RESTORE_PERMANENT_RAM, block, wanted=GIVES)
        return self.ram(block)

    def read_all(self) -> Result:
        """Reads all members into their RAM, and gives the result of block 0: NOT_OK at the first start of a unit that has a member without
        defaults. `status` has each member's own."""
        self.ask(Service.READ_ALL)
        return self.wait()

    def write_all(self) -> Result:
        """Stores each member whose RAM is changed, and gives the result of block 0. It comes behind a first read_all, else the id of the
        configuration isn't stored (docs/SCRIPT.md)."""
        self.ask(Service.WRITE_ALL)
        return self.wait()

    def cancel_write_all(self) -> None:
        """Cancels a WriteAll that was asked for; what it has in hand is stored."""
        self.ask(Service.CANCEL_WRITE_ALL)

    # power

    def cut(self, nth: int, keep: int = 0) -> None:
        """Plans a power cut: in the nth changing operation of the flash from now, a program or an erase, with the first `keep` bytes of it done. An
        erase isn't done where that is 0, else it is. It replaces one that is planned."""
        code = self._call("nvm_cut", _within(nth, 1, MOST_OPERATIONS, "nth"), _within(keep, 0, self.configuration.page, "keep"))
        if code == _DOWN:
            raise StartUpFailed
        if code:
            raise UnitError("no further power cut can be planned: open the unit with more `cuts`")

    def restart(self) -> None:
        """Turns the power on: a start-up on what is stored. What was pending is lost, and a cut that is still planned is dropped."""
        code = self._call("nvm_restart")
        if code == _FULL:
            raise HistoryFull
        if code == _NO_MEMORY:
            raise MemoryError
        if code:
            raise StartUpFailed
        self._is_off = False
        self._chosen.clear()
        self._tell()
