"""The calls of the library, each with an answer that has a text form. A refusal is raised as Refused, but for those of the
pairs of a page.

A plan, a tag and a tag file are bytes, a bytearray or a memoryview. Everything is decided in the library. What long and short
tags share is written once, for tags of a form that is given; the calls whose names begin with short_ give the short one.
"""
from functools import lru_cache
from typing import Iterable, List, NamedTuple, Optional, Tuple, Union

from . import library
from .figures import HEADER_LENGTH, NUMBER_LIMIT, PLAN_LIMIT, PLAN_NUMBER_LENGTH, PLAN_NUMBER_LIMIT
from .figures import TAG_LENGTH, WINDOW_LENGTH, WINDOWS_LIMIT
from .library import Kind, lend, lend_records, position, records, room, table, taken_apart
from .plans import Window, windows_of
from .refusals import Asked, Refused, refusal
from .tagforms import LONG, SHORT, ShortTag, Tag, TagForm
from .wording import counted


class Accepted(NamedTuple):
    plan: int
    windows: int

    def __str__(self) -> str:
        return f"plan {self.plan}, {counted(self.windows, 'window')}"


class Tags(NamedTuple):
    """The tag file of a plan."""

    plan: int
    windows: int
    components: int
    tags: bytes

    def __str__(self) -> str:
        return f"plan {self.plan}, {counted(self.windows, 'window')}, {counted(self.components, 'component')}"


class Changed(NamedTuple):
    """A plan with a window more or less, its file and its tag file. `was` has for each position that of the same window in the plan
    before, and None for the added one. `altered` has the positions whose tags changed in more than the plan number; the added
    window's is always one of them."""

    plan: int
    windows: int
    components: int
    file: bytes
    tags: bytes
    was: Tuple[Optional[int], ...]
    altered: Tuple[int, ...]

    __str__ = Tags.__str__


class Tree(NamedTuple):
    """The five tables, by position, and the tag file of a plan."""

    plan: int
    windows: int
    components: int
    parents: Tuple[int, ...]
    component_of: Tuple[int, ...]
    depths: Tuple[int, ...]
    ranks: Tuple[int, ...]
    last_ranks: Tuple[int, ...]
    tags: bytes

    __str__ = Tags.__str__


class Handovers(NamedTuple):
    """The least number of handovers between two windows, or None where no chain joins them."""

    count: Optional[int]

    def __str__(self) -> str:
        if self.count is None:
            return "no chain"
        return counted(self.count, "handover") if self.count else "0 handovers"


class Chain(NamedTuple):
    """A shortest chain, from the later window to the earlier, or None where no chain joins them."""

    positions: Optional[Tuple[int, ...]]

    @property
    def handovers(self) -> Handovers:
        return Handovers(None if self.positions is None else len(self.positions) - 1)

    def __str__(self) -> str:
        return "no chain" if self.positions is None else " ".join(map(str, self.positions))


class Neighbours(NamedTuple):
    """The windows that overlap one window, rising, without itself."""

    positions: Tuple[int, ...]

    def __str__(self) -> str:
        return " ".join(map(str, self.positions)) or "none"


class Reach(NamedTuple):
    """The greatest number of handovers between two windows of a component, and the first pair that has it, by smaller position and
    then by larger. Of a component of one window it is 0, and its window twice."""

    handovers: int
    smaller: int
    larger: int

    def __str__(self) -> str:
        return f"{self.handovers}: from {self.smaller} to {self.larger}"


class Sameness(NamedTuple):
    """Whether the same pairs of positions overlap in two plans."""

    same: bool

    def __str__(self) -> str:
        return "same" if self.same else "different"


def _worded(numbers: list, asked: Asked) -> Refused:
    if asked.tag_file is not None and numbers[0] > 9:  # a refusal of the tags that stand at the positions
        asked = Asked(tags=[asked.form.at(asked.tag_file, at) for at in asked.positions], form=asked.form)
    return refusal(*numbers, asked)


def _ask(name: str, asked: Asked, *arguments) -> Tuple[Kind, list]:
    kind, numbers = library.ask(name, *arguments)
    if kind is Kind.REFUSED:
        raise _worded(numbers, asked)
    return kind, numbers


def validate(file) -> Accepted:
    """Is the file that of an accepted plan?"""
    _, (plan, windows, _) = _ask("validate", Asked(plans=[file]), *lend(file))
    return Accepted(plan, windows)


def build(file) -> Tree:
    """The five tables and the tag file of a plan."""
    tables, tags = [table(WINDOWS_LIMIT) for _ in range(5)], room(TAG_LENGTH * WINDOWS_LIMIT)
    lent = [part for each in tables for part in each]
    _, (plan, n, components) = _ask("build", Asked(plans=[file]), *lend(file), *lent, *tags)
    return Tree(plan, n, components, *(tuple(each[0][:n]) for each in tables), bytes(tags[0][: TAG_LENGTH * n]))


def tags(file, form: TagForm = LONG) -> Tags:
    """The tag file of a plan."""
    out = room(form.length * WINDOWS_LIMIT)
    _, (plan, n, components) = _ask(form.prefix + "tags", Asked(plans=[file]), *lend(file), *out)
    return Tags(plan, n, components, bytes(out[0][: form.length * n]))


def _ranged(number: int, limit: int, thing: str) -> int:
    """A number that C can hold; of another it would take the lowest bytes."""
    if not 0 <= number <= limit:
        raise ValueError(f"{thing} is 0 to {limit:,}")
    return number


def _change(name: str, asked: Asked, *change) -> Tuple[bytes, Tags]:
    """The file and the tag file of a changed plan."""
    (file,), changed, out = asked.plans, room(PLAN_LIMIT), room(TAG_LENGTH * WINDOWS_LIMIT)
    kind, numbers = library.ask(name, *lend(file), *change, *changed, *out)
    if kind is Kind.REFUSED:
        validate(file)  # raised here if the plan itself is refused, as everywhere; what is left is about the change
        raise _worded(numbers, asked)
    plan, n, components = numbers
    made = Tags(plan, n, components, bytes(out[0][: TAG_LENGTH * n]))
    return bytes(changed[0][: HEADER_LENGTH + WINDOW_LENGTH * n]), made


def _compared(before: bytes, after: bytes, made: Tags, was: List[Optional[int]]) -> Changed:
    """The changed plan, with what became of each tag."""
    old, new = tags(before).tags, made.tags

    def altered(position: int) -> bool:
        at = was[position]
        return at is None or LONG.at(old, at)[PLAN_NUMBER_LENGTH:] != LONG.at(new, position)[PLAN_NUMBER_LENGTH:]

    return Changed(*made[:3], after, new, tuple(was), tuple(filter(altered, range(made.windows))))


def add(file, number: int, offset: int, length: int) -> Changed:
    """The plan with a window more, behind all that have the same or a smaller offset, and with a new plan number."""
    file, number = lend(file)[0], _ranged(number, PLAN_NUMBER_LIMIT, "a plan number")
    window = Window(_ranged(offset, NUMBER_LIMIT, "an offset"), _ranged(length, NUMBER_LIMIT, "a length"))
    after, made = _change("add", Asked(plans=[file], added=window), number, *window)
    at = sum(each.offset <= offset for each in windows_of(file))
    return _compared(file, after, made, [*range(at), None, *range(at, made.windows - 1)])


def withdraw(file, number: int, at: int) -> Changed:
    """The plan without the window at a position, and with a new plan number."""
    file, number = lend(file)[0], _ranged(number, PLAN_NUMBER_LIMIT, "a plan number")
    after, made = _change("withdraw", Asked(plans=[file], positions=[at]), number, position(at))
    return _compared(file, after, made, [*range(at), *range(at + 1, made.windows + 1)])


def reach(file, at: int) -> Reach:
    """How many handovers two windows of a window's component are apart at most, and the first two that are."""
    _, (handovers, smaller, larger) = _ask("reach", Asked(plans=[file], positions=[at]), *lend(file), position(at))
    if handovers and smaller == larger:  # so only a library of before version 3 answers: a bound, with 0 and 0 for the pair
        raise library.older()
    return Reach(handovers, smaller, larger)


def chain(file, first: int, second: int) -> Chain:
    """A shortest chain between two windows, and of those the one with the earliest window at each step."""
    asked, out = Asked(plans=[file], positions=[first, second]), table(WINDOWS_LIMIT)
    kind, (entries, _, _) = _ask("chain", asked, *lend(file), position(first), position(second), *out)
    return Chain(tuple(out[0][:entries]) if kind is Kind.CHAIN else None)


def neighbours(file, at: int) -> Neighbours:
    """The windows that overlap one window."""
    out = table(WINDOWS_LIMIT)
    _, (count, _, _) = _ask("neighbours", Asked(plans=[file], positions=[at]), *lend(file), position(at), *out)
    return Neighbours(tuple(out[0][:count]))


def margin(file, first: int, second: int) -> int:
    """The smaller end of two windows less the greater offset: how much they share, 0 where one ends as the other begins, and
    below 0 how far they lie apart. Of one window named twice it is the window's length."""
    asked, out = Asked(plans=[file], positions=[first, second]), library.margin()
    _ask("margin", asked, *lend(file), position(first), position(second), out)
    return out.value


def same(first, second) -> Sameness:
    """Do the same pairs of positions overlap in both plans?"""
    kind, _ = _ask("same", Asked(plans=[first, second]), *lend(first), *lend(second))
    return Sameness(kind is Kind.SAME)


def _handovers(kind: Kind, numbers: list) -> Handovers:
    return Handovers(numbers[0] if kind is Kind.HANDOVERS else None)


def pair(first, second, form: TagForm = LONG) -> Handovers:
    """The least number of handovers between the windows of two tags, from the tags alone."""
    asked = Asked(tags=[first, second], form=form)
    return _handovers(*_ask(form.prefix + "pair", asked, *lend(first), *lend(second)))


def pair_at(tags, first: int, second: int, form: TagForm = LONG) -> Handovers:
    """The same for the tags at two positions of a tag file."""
    file, length = lend(tags)
    asked = Asked(tag_file=file, positions=[first, second], form=form)
    return _handovers(*_ask(form.prefix + "pair_at", asked, file, length, position(first), position(second)))


@lru_cache(maxsize=4096)  # there are 2,051 that are no refusal
def _answer_of(record: int) -> Optional[Handovers]:
    """What stands in a record of a page, or None for a refusal."""
    kind, numbers = taken_apart(record)
    return None if kind is Kind.REFUSED else _handovers(kind, numbers)


def page(tags, pairs: Iterable[Tuple[int, int]]) -> List[Union[Handovers, Refused]]:
    """The same for many pairs of positions, in one call: an answer for each pair, in their order. A refusal of two positions or of
    their tags, which pair_at raises, stands in the pair's place as a Refused that is not raised, and spoils no other answer. A tag
    file of wrong length is refused as a whole, and that is raised."""
    file, length = lend(tags)
    numbers = [number for first, second in pairs for number in (first, second, 0)]
    filled = records(numbers)
    _ask("page", Asked(tag_file=file), file, length, *lend_records(filled))
    answers = filled[2::3]
    known = {answer: _answer_of(answer) for answer in set(answers)}
    return [  # a Handovers is true, also of 0
        known[answer] or _worded(taken_apart(answer)[1], Asked(tag_file=file, positions=numbers[at : at + 2]))
        for at, answer in zip(range(0, len(numbers), 3), answers)
    ]


def lookup(tags, at: int) -> bytes:
    """The tag at a position of a tag file."""
    (file, length), offset = lend(tags), library.offset()
    _ask("lookup", Asked(tag_file=file, positions=[at]), file, length, position(at), offset)
    return file[offset.value : offset.value + TAG_LENGTH]


def read(tag, form: TagForm = LONG) -> Union[Tag, ShortTag]:
    """The numbers of a tag. A tag beside itself is refused just where the tag is."""
    lent, length = lend(tag)
    _ask(form.prefix + "pair", Asked(tags=[lent], form=form), lent, length, lent, length)
    return form.answer(*form.layout.unpack(lent))


def _write(form: TagForm, *numbers: int) -> bytes:
    if not all(0 <= number <= PLAN_NUMBER_LIMIT for number in numbers):
        raise ValueError("a tag's numbers have two bytes")
    out = room(form.length)
    _ask(form.prefix + "write", Asked(tags=[form.layout.pack(*numbers)], form=form), *numbers, *out)
    return bytes(out[0])


def write(plan: int, component: int, depth: int, rank: int, last_rank: int) -> bytes:
    """The ten bytes of a tag."""
    return _write(LONG, plan, component, depth, rank, last_rank)


def short_tags(file) -> Tags:
    """The short tag file of an even plan: one in which no window ends before the one ahead of it."""
    return tags(file, SHORT)


def short_pair(first, second) -> Handovers:
    """The least number of handovers between the windows of two short tags."""
    return pair(first, second, SHORT)


def short_pair_at(tags, first: int, second: int) -> Handovers:
    """The same for the short tags at two positions of a short tag file."""
    return pair_at(tags, first, second, SHORT)


def short_lookup(tags, at: int) -> bytes:
    """The short tag at a position of a short tag file. It is asked about beside itself, so it is one that can be read."""
    file, length = lend(tags)
    asked = Asked(tag_file=file, positions=[at], form=SHORT)
    _ask("short_pair_at", asked, file, length, position(at), position(at))
    return SHORT.at(file, at)


def short_read(tag) -> ShortTag:
    """The four numbers of a short tag."""
    return read(tag, SHORT)


def short_write(plan: int, component: int, depth: int, rank: int) -> bytes:
    """The eight bytes of a short tag."""
    return _write(SHORT, plan, component, depth, rank)
