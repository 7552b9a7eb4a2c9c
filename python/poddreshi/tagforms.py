"""The two forms of a tag, long and short. All that differs between them stands here."""
import struct
from typing import NamedTuple, Sequence

from .figures import SHORT_TAG, SHORT_TAG_FIELDS, TAG, TAG_FIELDS


class Tag(NamedTuple):
    plan: int
    component: int
    depth: int
    rank: int
    last_rank: int

    def __str__(self) -> str:
        return ", ".join(f"{name} {field}" for name, field in zip(("plan", *TAG_FIELDS[1:]), self))


class ShortTag(NamedTuple):
    plan: int
    component: int
    depth: int
    rank: int

    __str__ = Tag.__str__  # of the names it takes as many as it has numbers


class TagForm(NamedTuple):
    thing: str  # what words call it
    prefix: str  # how the names of its calls begin
    layout: struct.Struct
    fields: Sequence[str]
    answer: type  # of its numbers

    @property
    def length(self) -> int:
        return self.layout.size

    def at(self, tags: bytes, position: int) -> bytes:
        """The tag at a position of a tag file that the library has found to be there."""
        return tags[self.length * position : self.length * (position + 1)]


LONG = TagForm("tag", "", TAG, TAG_FIELDS, Tag)
SHORT = TagForm("short tag", "short_", SHORT_TAG, SHORT_TAG_FIELDS, ShortTag)
