"""What a start-up may find: of an image by its bytes, and of a call by its printed history."""
import copy

from nvmtools import histories, images


def found_in(unit, data):
    """What a start-up finds in these bytes, by instance: none where there is no image, or an empty one."""
    if not data or len(data) != unit.size:
        return {}
    return {f"{number // 64}.{number % 64}": images.mark_of(record) for number, record in images.Image(unit, data).found.items()}


class Judge:
    """Goes through a history by its numbers of operations: which marks may stand behind so many of them."""

    def __init__(self, unit, lines, before=None):
        self.marks = copy.deepcopy(before) if before else histories.Marks(unit)
        self.entries = [it for it in histories.entries(lines) if it.kind in ("found", "ask", "pick", "wrote")]
        self.at, self.found_wrong = 0, []

    def behind(self, operations, may_start=True):
        """The marks behind so many operations. A further start-up may not have begun there, where the file is to be settled yet."""
        while self.at < len(self.entries) and (self.entries[self.at].ops or 0) <= operations:
            entry = self.entries[self.at]
            if entry.kind == "found" and self.at and entry.ops == operations and not may_start:
                break
            if entry.kind == "found":
                self.found_wrong += self.marks.wrong(histories.found_marks(entry))
            self.marks.add(entry)
            self.at += 1
        return self.marks

    def whole(self):
        return self.behind(1 << 60)


def found_of(line):
    """What a start-up's line says that it found."""
    entry = next(iter(histories.entries([line])), None)
    return histories.found_marks(entry) if entry and entry.kind == "found" else None
