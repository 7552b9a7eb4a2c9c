"""Many pairs of one tag file: read from lines of text, asked page after page, and written as they are answered."""
import itertools
import json
from typing import Callable, Iterable, Iterator, List, NamedTuple, Sequence, Tuple, Union

from . import calls
from .figures import TAG_LENGTH
from .refusals import Refused
from .replies import csv_lines
from .texts import Faulty, Row, read_rows
from .times import NUMBER
from .wording import cited

Pair = Tuple[int, int]
Answer = Union[calls.Handovers, Refused]
_HEADER = ("first", "second", "handovers")
_PAGE = 4096  # pairs that are asked about at a time, so that all pairs of a long tag file take no more memory than these


def read(data: bytes) -> List[Pair]:
    """The pairs of a text, in its order. All that is wrong is raised at once, as Faulty."""
    pairs, faults = read_rows(data, _HEADER[:2], 2, str.split, _taken)
    if faults:
        raise Faulty(faults)
    return pairs


def _taken(row: Row) -> Pair:
    if len(row.cells) != 2 or not all(row.cells):
        hint = f"; CSV begins with a line {','.join(_HEADER[:2])}" if set(row.cells[0]) & set(",;") else ""
        raise ValueError(f"a line has two positions and nothing more{hint}")
    for word in row.cells:
        if not NUMBER.fullmatch(word):
            raise ValueError(f"a position is a number from 0, not {cited(word)}")
    return int(row.cells[0]), int(row.cells[1])


class _Form(NamedTuple):
    """How a form begins, what stands between two pages, and how it ends."""

    begin: str = ""
    between: str = ""
    end: str = ""


_FORMS = {"text": _Form(), "csv": _Form(csv_lines([_HEADER])), "json": _Form('{\n  "pairs": [', ",", "\n  ]\n}\n")}


class Answers:
    """The answers to pairs, in place of a Reply: a page is written before the next is asked about."""

    refused, faults, files, aside = False, (), (), ()  # a pair that is refused is no refusal of the page

    def __init__(self, tags: bytes, pairs: Iterable[Pair], widths: Sequence[int]):
        self._tags, self._pairs, self._widths = tags, iter(pairs), widths
        self.otherwise = False  # some pair has no chain, which is known when all is written

    @classmethod
    def of(cls, tags: bytes, pairs: Sequence[Pair]) -> "Answers":
        return cls(tags, pairs, [len(str(max(column))) for column in zip(*pairs)])

    @classmethod
    def of_all(cls, tags: bytes) -> "Answers":
        """Every position beside every position: for each what `count --all` has."""
        positions = range(len(tags) // TAG_LENGTH)
        return cls(tags, itertools.product(positions, repeat=2), [len(str(positions.stop - 1))] * 2)

    def encoded(self, form: str) -> Iterator[bytes]:
        begin, between, end = _FORMS[form]
        shown = {"text": self._lines, "csv": _csv, "json": _json}[form]
        yield begin.encode()
        for at, page in enumerate(self._pages()):
            yield ((between if at else "") + shown(*page)).encode()
        yield end.encode()

    def _pages(self) -> Iterator[Tuple[List[Pair], List[Answer]]]:
        while pairs := list(itertools.islice(self._pairs, _PAGE)):
            answers = calls.page(self._tags, pairs)
            self.otherwise = self.otherwise or calls.Handovers(None) in answers
            yield pairs, answers

    def _lines(self, pairs: List[Pair], answers: List[Answer]) -> str:
        left, right = self._widths
        rows = zip(pairs, _each(str, answers))
        return "".join(f"{first:>{left}}  {second:>{right}}  {words}\n" for (first, second), words in rows)


def _each(make: Callable[[Answer], object], answers: List[Answer]) -> Iterator:
    """What is made of each answer. Few differ, so it is made once for those that are equal."""
    made = {answer: make(answer) for answer in set(answers)}
    return map(made.__getitem__, answers)


def _csv(pairs: List[Pair], answers: List[Answer]) -> str:
    return csv_lines([(*pair, cell) for pair, cell in zip(pairs, _each(_cell, answers))])


def _cell(answer: Answer) -> Union[int, str]:
    return str(answer) if isinstance(answer, Refused) or answer.count is None else answer.count


def _json(pairs: List[Pair], answers: List[Answer]) -> str:
    rows = zip(pairs, _each(_data, answers))
    return ",".join("\n    " + json.dumps({"first": first, "second": second, **data}) for (first, second), data in rows)


def _data(answer: Answer) -> dict:
    if isinstance(answer, Refused):
        return {"refused": answer.number, "words": answer.words}
    return {"handovers": answer.count}
