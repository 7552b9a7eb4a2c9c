"""The compiled library by its C interface (include/poddreshi.h), with the calls as methods that reader.Reader has."""
import ctypes
from array import array

from reader import Refused

REFUSED, NO_CHAIN, SAME, HANDOVERS, FILLED, MARGIN = 0, 5, 7, 9, 12, 13
WORD, TABLE = ctypes.c_size_t, {list: ctypes.c_uint16, bytearray: ctypes.c_uint8}


class Library:
    """read, short_read, parents and lasts are no calls of the C interface."""

    def __init__(self, path):
        self.library = ctypes.CDLL(path)

    def has(self, call):
        return hasattr(self.library, "poddreshi_" + call)

    def ask(self, call, *arguments):
        """Bytes and tables are passed with their lengths behind them. A table that is lent is copied back, all of it."""
        passed, lent = [], []
        for argument in arguments:
            if isinstance(argument, bytes):
                passed += [ctypes.c_char_p(argument), WORD(len(argument))]
            elif type(argument) in TABLE:
                copy = (TABLE[type(argument)] * max(1, len(argument)))(*argument)
                lent.append((argument, copy))
                passed += [copy, WORD(len(argument))]
            else:
                passed.append(argument)
        function = getattr(self.library, "poddreshi_" + call)
        function.restype = ctypes.c_uint64
        answer = function(*passed)
        for table, copy in lent:
            table[:] = copy[: len(table)]
        kind, *fields = (answer >> 16 * field & 0xFFFF for field in range(4))
        if kind == REFUSED:
            raise Refused(*fields)
        return kind, fields

    def validate(self, file):
        return tuple(self.ask("validate", file)[1][:2])

    def build(self, file, *lent):
        return tuple(self.ask("build", file, *lent)[1])

    def tags(self, file, tags):
        return tuple(self.ask("tags", file, tags)[1])

    def short_tags(self, file, tags):
        return tuple(self.ask("short_tags", file, tags)[1])

    def write_numbers(self, call, *arguments):
        *numbers, out = arguments
        self.ask(call, *map(ctypes.c_uint16, numbers), out)

    def write(self, *arguments):
        self.write_numbers("write", *arguments)

    def short_write(self, *arguments):
        self.write_numbers("short_write", *arguments)

    def lookup(self, tags, at):
        before = 2**64 - 1
        offset = WORD(before)
        try:
            self.ask("lookup", tags, WORD(at), ctypes.byref(offset))
        except Refused:
            assert offset.value == before
            raise
        return tags[offset.value : offset.value + 10]

    def count(self, call, *arguments):
        kind, fields = self.ask(call, *arguments)
        return None if kind == NO_CHAIN else fields[0]

    def pair(self, first, second):
        return self.count("pair", first, second)

    def pair_at(self, tags, first, second):
        return self.count("pair_at", tags, WORD(first), WORD(second))

    def short_pair(self, first, second):
        return self.count("short_pair", first, second)

    def short_pair_at(self, tags, first, second):
        return self.count("short_pair_at", tags, WORD(first), WORD(second))

    def page(self, tags, pairs):
        """What stands in each record of a page afterwards: its two positions, and the answer as vectors have it."""
        numbers = array("Q", [number for pair in pairs for number in (*pair, 2**64 - 1)])
        before, lent = numbers[:], (ctypes.c_uint64 * len(numbers)).from_buffer(numbers)
        try:
            assert self.ask("page", tags, lent, WORD(len(pairs))) == (FILLED, [0, 0, 0])
        except Refused:
            assert numbers == before
            raise
        return [(first, second, self.answer(packed)) for first, second, packed in zip(*(numbers[at::3] for at in range(3)))]

    def answer(self, packed):
        kind, *fields = (packed >> 16 * field & 0xFFFF for field in range(4))
        return {REFUSED: ("refused", *fields), NO_CHAIN: ("no_chain",), HANDOVERS: ("handovers", fields[0])}[kind]

    def chain(self, file, first, second, out):
        return self.count("chain", file, WORD(first), WORD(second), out)

    def neighbours(self, file, at, out):
        return self.count("neighbours", file, WORD(at), out)

    def reach(self, file, at):
        return tuple(self.ask("reach", file, WORD(at))[1])

    def margin(self, file, first, second, place):
        margin = ctypes.c_int64(place[0])
        try:
            assert self.ask("margin", file, WORD(first), WORD(second), ctypes.byref(margin)) == (MARGIN, [0, 0, 0])
        finally:
            place[0] = margin.value

    def same(self, first, second):
        return self.ask("same", first, second)[0] == SAME

    def add(self, file, number, offset, length, changed, tags):
        window = ctypes.c_uint32(offset), ctypes.c_uint32(length)
        return tuple(self.ask("add", file, ctypes.c_uint16(number), *window, changed, tags)[1])

    def withdraw(self, file, number, at, changed, tags):
        return tuple(self.ask("withdraw", file, ctypes.c_uint16(number), WORD(at), changed, tags)[1])
