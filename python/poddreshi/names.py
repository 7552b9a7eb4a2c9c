"""The names of a plan's windows, from the plan's own text or from lines of a position and a name."""
from typing import List, Optional, Tuple

from .failures import Mistake
from .plans import Window
from .texts import Faulty, Row, clean, parse, read_rows, unquoted
from .times import NUMBER, Clock
from .wording import cited, counted


class Names(list):
    """A name for each position, which may be empty."""

    def place(self, position: int) -> str:
        """`3`, or with its name `3 (North pier)`."""
        return str(position) + (f" ({self[position]})" if self[position] else "")

    def label(self, position: int) -> str:
        """`window 3`, or with its name `window 3 (North pier)`."""
        return f"window {self.place(position)}"

    def position(self, word: str) -> int:
        """The position that a word of the command means: a number, or the name of one window."""
        if NUMBER.fullmatch(word):
            return int(word)
        found = [position for position, name in enumerate(self) if name and name == word]
        if len(found) == 1:
            return found[0]
        if found:
            raise Mistake(f"{cited(word)} is the name of {len(found)} windows: {', '.join(map(str, found[:8]))}")
        hint = "a position is a number from 0" + (", or a name" if any(self) else "; names come with --names")
        raise Mistake(f"there is no window {cited(word)}; {hint}")


def read(data: bytes, windows: List[Window], clock: Clock) -> Tuple[Names, Clock]:
    """The names in a file, and the clock. It is the plan's text where its windows are the plan's, and a unit that it states is
    then the plan's too; otherwise lines of a position and a name."""
    return _of_text(data, windows, clock) or (_of_lines(data, windows), clock.checked())


def _of_text(data: bytes, windows: List[Window], clock: Clock) -> Optional[Tuple[Names, Clock]]:
    text = parse(data, clock)
    if text.disputed:
        raise Faulty(text.disputed)
    entries = sorted(text.entries, key=lambda entry: entry.window.offset)
    if text.faults or [entry.window for entry in entries] != windows:
        return None
    return Names([entry.name for entry in entries]), text.clock


def _of_lines(data: bytes, windows: List[Window]) -> Names:
    names, seen = Names([""] * len(windows)), {}
    _, faults = read_rows(data, ("position", "name"), 2, lambda line: line.split(None, 1), lambda row: _put(names, seen, row))
    if faults:
        raise Faulty(faults)
    return names


def _put(names: Names, seen: dict, row: Row) -> None:
    if len(row.cells) != 2 or not NUMBER.fullmatch(row.cells[0]):
        whose = "the file is the text of just this plan (which takes --origin where it has dates, and the plan's --unit)"
        raise ValueError(f"a line of names has a position and a name, unless {whose}")
    position = int(row.cells[0])
    if position >= len(names):
        raise ValueError(f"there is no window {position:,}: the plan has {counted(len(names), 'window')}")
    if position in seen:
        raise ValueError(f"window {position} has its name on line {seen[position]}")
    names[position], seen[position] = clean(unquoted(row.cells[1])), row.line
