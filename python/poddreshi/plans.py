"""The bytes of a plan file: its minimum handover and its windows. Nothing is judged here: `validate` of the library says what is
a plan."""
from typing import Iterable, List, NamedTuple

from .figures import HEADER, HEADER_LENGTH, MINIMUM_LEAST, PLAN_NUMBER_LIMIT, WINDOW


class Window(NamedTuple):
    offset: int
    length: int

    @property
    def end(self) -> int:
        return self.offset + self.length


def pack(number: int, windows: Iterable[Window], minimum: int = MINIMUM_LEAST) -> bytes:
    """A plan file of these windows. More windows than the header can count are counted as the most that it can."""
    windows = list(windows)
    header = HEADER.pack(number, min(len(windows), PLAN_NUMBER_LIMIT), minimum)
    return header + b"".join(WINDOW.pack(*window) for window in windows)


def minimum_of(file) -> int:
    """The minimum handover of an accepted plan."""
    return HEADER.unpack_from(file)[2]


def windows_of(file) -> List[Window]:
    """The windows of an accepted plan."""
    return [Window(*pair) for pair in WINDOW.iter_unpack(memoryview(file)[HEADER_LENGTH:])]
