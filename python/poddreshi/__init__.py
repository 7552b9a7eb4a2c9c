"""Poddreshi from Python: service windows, their distance tree and ten-byte tags, over the proved library.

    >>> import pathlib, poddreshi
    >>> plan = pathlib.Path("examples/plan-12.plan").read_bytes()
    >>> poddreshi.chain(plan, 1, 5)
    Chain(positions=(5, 4, 2, 1))
    >>> poddreshi.reach(plan, 1)
    Reach(handovers=3, smaller=0, larger=5)
    >>> tags = poddreshi.tags(plan).tags
    >>> print(poddreshi.pair(tags[40:50], tags[50:60]))
    1 handover

Many pairs of one tag file are answered in one call. One that is refused has its refusal for an answer, and spoils no other.

    >>> for answer in poddreshi.page(tags, [(1, 5), (5, 6), (5, 7)]):
    ...     print(answer)
    3 handovers
    no chain
    refused by question 7: there is no window 7: the tag file has 7 tags, 0 to 6

A plan changes by a window that is added or withdrawn, and has a new number then. The changed plan comes with its tags, and with the
positions whose tags changed in more than the plan number.

    >>> changed = poddreshi.add(plan, 13, 20, 5)
    >>> print(changed)
    plan 13, 8 windows, 2 components
    >>> changed.altered
    (6, 7)
    >>> poddreshi.chain(changed.file, 6, 7)
    Chain(positions=(7, 6))
    >>> poddreshi.withdraw(changed.file, 14, 7).altered
    (6,)

Two windows overlap when they share at least the plan's minimum handover, which is 1 where none is given. What the numbers count,
minutes or seconds, is agreed outside the file.

    >>> bolting = poddreshi.pack(21, [(0, 60), (20, 90), (50, 70)], minimum=30)
    >>> poddreshi.chain(bolting, 0, 2)
    Chain(positions=(2, 1, 0))

The margin of two windows is how much they share, whatever the minimum is; 0 where one ends as the other begins; and below 0 how
far they lie apart.

    >>> poddreshi.margin(bolting, 0, 2)
    10
    >>> [poddreshi.margin(plan, 4, at) for at in (2, 6, 0)]
    [4, 0, -2]

Where no window of a plan ends before the one ahead of it, short tags of eight bytes are enough.

    >>> even = pathlib.Path("examples/even.plan").read_bytes()
    >>> poddreshi.short_pair_at(poddreshi.short_tags(even).tags, 1, 4)
    Handovers(count=2)

A plan, a tag and a tag file are bytes, a bytearray or a memoryview. A refusal is raised as Refused, but for those of the pairs
of a page. The library is loaded at the first call, from the built checkout or the installed tree that the package stands in,
or from PODDRESHI_LIBRARY.
"""
from ._version import __version__
from .calls import Accepted, Chain, Changed, Handovers, Neighbours, Reach, Sameness, ShortTag, Tag, Tags, Tree
from .calls import add, build, chain, lookup, margin, neighbours, page, pair, pair_at, reach, read, same, tags
from .calls import validate, withdraw, write
from .calls import short_lookup, short_pair, short_pair_at, short_read, short_tags, short_write
from .library import LibraryMissing
from .oldplans import renewed
from .plans import Window, minimum_of, pack, windows_of
from .refusals import Refused

__all__ = [
    *("Accepted", "Chain", "Changed", "Handovers", "LibraryMissing", "Neighbours", "Reach", "Refused", "Sameness", "ShortTag"),
    *("Tag", "Tags", "Tree", "Window", "__version__", "add", "build", "chain", "lookup", "margin", "minimum_of", "neighbours"),
    *("pack", "page", "pair", "pair_at", "reach", "read", "renewed", "same", "short_lookup", "short_pair", "short_pair_at"),
    *("short_read", "short_tags", "short_write", "tags", "validate", "windows_of", "withdraw", "write"),
]
