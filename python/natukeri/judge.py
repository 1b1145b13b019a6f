"""What a block may hold behind a power cut, by the history alone (docs/MODEL.md, 'What it is')."""
from __future__ import annotations

import itertools
from collections.abc import Iterable
from typing import Optional

from natukeri.configuration import Configuration
from nvmtools import contents, histories

INVALID, ERASED = "invalid", None
MANAGERS_OWN = 1


class Judge:
    """Goes through the history of a unit, and tells what may stand in each stored instance.

    In an instance stands the mark that was stored last, or one that a job took in hand for it since. What a start-up found is known from the next
    one on: until an instance is stored again, it may hold each mark that the last start-up might have found."""

    def __init__(self, configuration: Configuration):
        self._configuration = configuration
        self._marks = histories.Marks(configuration.described)
        # by the last start-up but the first: what it might have found, and the instances that were stored since
        self._before: Optional[dict[str, list[Optional[str]]]] = None
        self._stored: set[str] = set()
        self._begun = False

    def go_on(self, lines: Iterable[str]) -> None:
        """Takes the next lines of the history."""
        for entry in histories.entries(lines):
            if entry.kind == "found":
                if self._begun:
                    marks = self._marks
                    self._before = {it: [marks.settled.get(it), *marks.doubts.get(it, [])] for it in {*marks.settled, *marks.doubts}}
                self._begun, self._stored = True, set()
            elif entry.kind == "wrote":
                self._stored.add(entry.words[0])
            self._marks.add(entry)

    def marks(self, instance: str) -> list[Optional[str]]:
        """The marks that may stand in an instance, which is named as in a history, as 7.1: a content, "invalid", or None where it is erased."""
        if self._before is None or instance in self._stored:
            least = [self._marks.settled.get(instance)]
        else:
            least = self._before.get(instance, [ERASED])
        return list(dict.fromkeys([*least, *self._marks.doubts.get(instance, [])]))

    def values(self, block: int, index: int) -> list[Optional[bytes]]:
        """What a read of a block may give, of the dataset of this index: contents, and None where it gives none."""
        described = self._configuration.described
        roms = self._configuration.blocks[block].get("rom", [])
        is_dataset = self._configuration.blocks[block].get("kind") == "dataset"
        if is_dataset and index >= described.instances(block):
            return [contents.read_content(roms[index - described.instances(block)])]
        each = [self.marks(f"{block}.{index + copy}") for copy in range(described.copies(block))]
        return list(dict.fromkeys(self._given(block, marks) for marks in itertools.product(*each)))

    def _given(self, block: int, marks: tuple[Optional[str], ...]) -> Optional[bytes]:
        # (of a redundant block the first copy that isn't erased decides)
        decides = next((it for it in marks if it is not ERASED), ERASED)
        if decides is ERASED:
            return self._defaults(block)
        return None if decides == INVALID else contents.read_content(decides)

    def _defaults(self, block: int) -> Optional[bytes]:
        if block == MANAGERS_OWN:
            return int(self._configuration.described.source["id"]).to_bytes(2, "big")
        text = self._configuration.blocks[block].get("defaults")
        return None if text is None else contents.read_content(text)
