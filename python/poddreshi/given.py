"""A plan that is answered from, with its names and its dates."""
from typing import List, NamedTuple, Sequence

from .names import Names
from .plans import Window, minimum_of
from .replies import aligned
from .times import Clock


class Given(NamedTuple):
    file: bytes
    number: int
    windows: List[Window]
    names: Names
    clock: Clock

    @property
    def minimum(self) -> int:
        """The minimum handover."""
        return minimum_of(self.file)

    @property
    def minimum_words(self) -> str:
        return f"minimum handover {self.clock.tell_length(self.minimum)}"

    def margin_words(self, margin: int) -> str:
        """`shares 3`, `touches`, `1 second apart`."""
        length = self.clock.tell_length(abs(margin))
        return f"shares {length}" if margin > 0 else f"{length} apart" if margin < 0 else "touches"

    def shown(self, position: int) -> list:
        """A row of a table: the window, its name, begin and end."""
        window = self.windows[position]
        return [str(position), self.names[position], self.clock.show(window.offset), self.clock.show(window.end)]

    def lines(self, positions: Sequence[int], beside: Sequence[str] = ()) -> str:
        """A line for each of these windows, where names or dates were asked for or there are words to stand beside each; otherwise
        none. Without names and dates the words stand beside the positions alone."""
        told = any(self.names) or self.clock.origin
        if not positions or not (told or beside):
            return ""
        rows = [self.shown(position) if told else [str(position)] for position in positions]
        if beside:
            rows = [[*row, words] for row, words in zip(rows, beside)]
        return aligned(rows, right=(0,))

    def data(self, position: int) -> dict:
        """The same for JSON."""
        return {"position": position, "name": self.names[position], **self.times(self.windows[position])}

    def interval(self, position: int) -> str:
        """The same in words."""
        window = self.windows[position]
        return self.clock.tell_interval(window.offset, window.end)

    def times(self, window: Window) -> dict:
        """The numbers of a window for JSON, and the dates where there is an origin."""
        data = {"offset": window.offset, "length": window.length}
        if self.clock.origin:
            data.update(begin=self.clock.show(window.offset), end=self.clock.show(window.end))
        return data

    def span(self, positions: Sequence[int]) -> Window:
        """The time from the first begin of some windows to their last end."""
        begin = min(self.windows[position].offset for position in positions)
        return Window(begin, max(self.windows[position].end for position in positions) - begin)


def shared_time(one: Window, other: Window) -> tuple:
    """When two overlapping windows can hand over: from the greater offset to the smaller end."""
    return max(one.offset, other.offset), min(one.end, other.end)
