"""The configuration of a unit: what its file says, by the names of its blocks."""
from __future__ import annotations

import ctypes
import functools
import os
import sys
from pathlib import Path
from typing import Any, Union

from natukeri import library
from natukeri.answers import BadConfiguration, NoSuchBlock

# the tools stand beside the package, as in the repository and in a release; a wheel brings their modules along
_TOOLS = Path(__file__).resolve().parents[2] / "tools"
if (_TOOLS / "nvmtools").is_dir() and str(_TOOLS) not in sys.path:
    sys.path.append(str(_TOOLS))

from nvmtools import calls, units  # noqa: E402

UnitPath = Union[str, "os.PathLike[str]"]
# a block's name or its id, and what is written: bytes, a number with its highest byte first, or a text in UTF-8
Block = Union[int, str]
Value = Union[bytes, bytearray, int, str]
MOST_ID = 0xFFFF


class Configuration:
    """What a unit file says, or the first line of a script (docs/CONFIGURATION.md); BadConfiguration where that is none.

    `line` is the text that the stack reads, `flash_size` the bytes of the flash, `page` those that one operation programs, `blocks` the keys of
    each block by its id, and `names` has the ids by the names. The application's RAM of a block with "ram": "sync" is the manager's here, as it
    is in C."""

    def __init__(self, path: UnitPath):
        self.path = os.fspath(path)
        try:
            self._given = units.read_source(self.path)
        except calls.Stop as stop:
            raise BadConfiguration(str(stop)) from None
        self._stop_unless_accepted()
        self.described = units.Unit(*self._given)
        self.line: str = units.line_with_mirrors(self._given.source)
        self.flash_size, self.page = int(self.described.size), int(self.described.page)
        self.blocks: dict[int, dict[str, Any]] = self.described.blocks
        self.names: dict[str, int] = {block["name"]: number for number, block in self.blocks.items() if block.get("name")}

    def _stop_unless_accepted(self) -> None:
        """The first rule that the line breaks is told by the library (nvm_check), and in the words of the manual."""
        line = units.DEMO if self._given.line == units.DEMO_LINE else self._given.line
        text, rule, block = line.encode(), ctypes.c_uint8(), ctypes.c_uint16()
        code = library.load().nvm_check(text, len(text), rule, block)
        if code == 4:
            raise MemoryError
        if code == 0:
            return
        told = f"rule {rule.value}" + (f", block {block.value}" if block.value else "")
        try:
            finding = units.refusal(self._given, self._given.source, f"config rule {rule.value} block {block.value}", code)
            told = f"{finding.place}: {finding.text}"
        except calls.Stop:
            # (without the page that has the words)
            told = f"{self.path}: {told} is broken"
        raise BadConfiguration(told, rule.value, block.value)

    def id(self, block: Block) -> int:
        """The id of a block by its name; a number stands for itself."""
        if isinstance(block, str):
            if block not in self.names:
                raise NoSuchBlock(f'no block "{block}"; {units.near(block, list(self.names))}')
            return self.names[block]
        if not 0 <= block <= MOST_ID:
            raise ValueError(f"{block} is no id of a block, which is at most {MOST_ID}")
        return block

    def length(self, block: Block) -> int:
        """The bytes of a block's content."""
        number = self.id(block)
        if number not in self.blocks:
            raise NoSuchBlock(f"no block {number}; the last one is {max(self.blocks)}")
        return int(self.blocks[number]["length"])

    def datasets(self, block: Block) -> int:
        """How many datasets a block has, those in ROM among them; 1 of another kind."""
        self.length(block)
        number = self.id(block)
        is_dataset = self.blocks[number].get("kind") == "dataset"
        return int(self.described.instances(number)) + len(self.blocks[number].get("rom", [])) if is_dataset else 1

    def content(self, block: Block, value: Value) -> bytes:
        """A value as the block's bytes; OverflowError where a number takes more than it has. Others may have any length: the stack refuses a
        content of another length than the block's."""
        if isinstance(value, int):
            return value.to_bytes(self.length(block), "big")
        return value.encode() if isinstance(value, str) else bytes(value)

    def called(self, block: Block) -> str:
        """A block as a person is told of it."""
        return f'"{block}"' if isinstance(block, str) else f"block {block}" if block else "all blocks"


@functools.lru_cache(maxsize=64)
def _read(path: str, _whole: str, _changed: int) -> Configuration:
    return Configuration(path)


def configuration_of(unit: Union[UnitPath, Configuration]) -> Configuration:
    """The configuration of a unit file, which is read again where it was changed."""
    if isinstance(unit, Configuration):
        return unit
    path = os.fspath(unit)
    try:
        changed = os.stat(path).st_mtime_ns
    except OSError as error:
        raise BadConfiguration(f"{path}: {error.strerror}") from None
    return _read(path, os.path.abspath(path), changed)
