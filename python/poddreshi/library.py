"""The C interface (poddreshi.h) by ctypes: each call's arguments stand once, in CALLS."""
import ctypes
from array import array
from enum import IntEnum
from functools import lru_cache
from typing import List, Tuple

from . import figures, places

_READ = (ctypes.c_void_p, ctypes.c_size_t)  # bytes lent to be read
_BYTES = (ctypes.POINTER(ctypes.c_uint8), ctypes.c_size_t)  # bytes lent to be written
_TABLE = (ctypes.POINTER(ctypes.c_uint16), ctypes.c_size_t)  # numbers lent to be written


class Query(ctypes.Structure):
    """A record of a page, as poddreshi.h has it."""

    _fields_ = [("first", ctypes.c_size_t), ("second", ctypes.c_size_t), ("answer", ctypes.c_uint64)]


_PAGE = (ctypes.POINTER(Query), ctypes.c_size_t)  # records lent to be filled
_AT = (ctypes.c_size_t,)
_FIELD = (ctypes.c_uint16,)
_TIME = (ctypes.c_uint32,)

CALLS = {
    "validate": _READ,
    "build": _READ + 5 * _TABLE + _BYTES,
    "tags": _READ + _BYTES,
    "add": _READ + _FIELD + 2 * _TIME + 2 * _BYTES,
    "withdraw": _READ + _FIELD + _AT + 2 * _BYTES,
    "reach": _READ + _AT,
    "chain": _READ + 2 * _AT + _TABLE,
    "neighbours": _READ + _AT + _TABLE,
    "margin": _READ + 2 * _AT + (ctypes.POINTER(ctypes.c_int64),),
    "same": 2 * _READ,
    "pair": 2 * _READ,
    "pair_at": _READ + 2 * _AT,
    "page": _READ + _PAGE,
    "lookup": _READ + _AT + (ctypes.POINTER(ctypes.c_size_t),),
    "write": 5 * _FIELD + _BYTES,
    "short_tags": _READ + _BYTES,
    "short_pair": 2 * _READ,
    "short_pair_at": _READ + 2 * _AT,
    "short_write": 4 * _FIELD + _BYTES,
}


# What the first field of an answer says, from 0.
_KINDS = "REFUSED ACCEPTED BUILT REACH CHAIN NO_CHAIN NEIGHBOURS SAME DIFFERENT HANDOVERS FOUND WRITTEN FILLED MARGIN"
Kind = IntEnum("Kind", _KINDS, start=0)


class LibraryMissing(OSError):
    """The shared library is not there, or is older than the package."""


def older() -> LibraryMissing:
    return LibraryMissing(f"the library {places.library()} is older than this package")


@lru_cache(maxsize=None)
def _library() -> ctypes.CDLL:
    path = places.library()
    try:
        library = ctypes.CDLL(str(path))
        for name, arguments in CALLS.items():
            function = getattr(library, "poddreshi_" + name)
            function.argtypes, function.restype = arguments, ctypes.c_uint64
    except OSError:
        raise LibraryMissing(f"the library {path} cannot be loaded; {_hint()}") from None
    except AttributeError:
        raise older() from None
    return library


def _hint() -> str:
    if places.told():
        return "it is the one that PODDRESHI_LIBRARY names"
    return "run ./poddreshi build" if places.checkout() else "install it, or name it in PODDRESHI_LIBRARY"


def taken_apart(answer: int) -> Tuple[Kind, List[int]]:
    """The kind of an answer, that of a call or of a record, and its three other fields."""
    return Kind(answer & 0xFFFF), [answer >> 16 & 0xFFFF, answer >> 32 & 0xFFFF, answer >> 48]


def ask(name: str, *arguments) -> Tuple[Kind, List[int]]:
    """The answer of a call, taken apart."""
    return taken_apart(getattr(_library(), "poddreshi_" + name)(*arguments))


def lend(data) -> tuple:
    """Bytes to be read, and how many. What is not bytes is copied: a view may lie in pieces, and ctypes cannot lend all views."""
    data = data if isinstance(data, bytes) else memoryview(data).tobytes()
    return data, len(data)


def table(entries: int) -> tuple:
    """Room for two-byte numbers, and how many."""
    return (ctypes.c_uint16 * entries)(), entries


def room(length: int) -> tuple:
    """Room for bytes, and how many."""
    return (ctypes.c_uint8 * length)(), length


def offset() -> ctypes.c_size_t:
    """Room for the place of a tag."""
    return ctypes.c_size_t()


def margin() -> ctypes.c_int64:
    """Room for a margin, which has a sign."""
    return ctypes.c_int64()


def position(at: int) -> int:
    """A position as the call takes it. One that has more than 64 bits is past the end of every plan, as the greatest is."""
    if at < 0:
        raise ValueError("a position is a number from 0")
    return min(at, figures.POSITION_LIMIT)


def records(numbers: List[int]) -> array:
    """The records of a page as C has them, in one piece, from three numbers for each: two positions and the place for an
    answer. All are taken at once where they fit, since one by one takes several times as long."""
    try:
        return array("Q", numbers)
    except OverflowError:  # one is negative, or has more than 64 bits
        return array("Q", map(position, numbers))


def lend_records(page: array) -> tuple:
    """Records to be filled, and how many."""
    count = len(page) // len(Query._fields_)
    return (Query * count).from_buffer(page), count
