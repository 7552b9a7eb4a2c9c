"""A time axis: the numbers of a plan to places on a sheet, with empty stretches cut out, and the marks that it carries."""
import itertools
from datetime import datetime, timedelta
from typing import Iterator, List, NamedTuple, Sequence, Tuple

from .plans import Window
from .svg import width
from .times import Clock

_DAY = timedelta(days=1)
_STEPS = (  # of a clock or a calendar; past these, round numbers of days
    *(timedelta(seconds=count) for count in (1, 2, 5, 10, 15, 30)),
    *(timedelta(minutes=count) for count in (1, 2, 5, 10, 15, 30)),
    *(timedelta(hours=count) for count in (1, 2, 3, 6, 12)),
    *(timedelta(days=count) for count in (1, 2, 7, 14)),
)
_MONTHS = ((1, 28), (2, 59), (3, 90), (6, 181))  # each with its days, at least; past these, round numbers of years
CUT = 26  # pixels of a stretch that is cut out
LABEL = 11  # size of a label
_APART = 74  # pixels from one labelled mark to the next, at least


class Stretch(NamedTuple):
    """What the axis shows, or cuts, and where on the sheet."""

    start: int
    end: int
    left: float
    right: float
    cut: bool


class Axis:
    """From the least to the greatest number that the windows cover, between two places on the sheet."""

    def __init__(self, windows: Sequence[Window], start: int, end: int, left: float, right: float):
        covered = _covered(windows, start, end)
        self.left, self.right, self.start, self.end = left, right, covered[0][0], covered[-1][1]
        self.stretches = _laid_out(covered, left, right)
        first = self.stretches[0]  # which no cut is
        self.scale = (first.right - first.left) / (first.end - first.start)

    def place(self, number: float) -> float:
        """Where a number stands; one before or after the axis stands at its end."""
        for stretch in self.stretches:
            if number <= stretch.end:
                share = (max(number, stretch.start) - stretch.start) / (stretch.end - stretch.start)
                return stretch.left + share * (stretch.right - stretch.left)
        return self.right


def _covered(windows: Sequence[Window], start: int, end: int) -> List[Tuple[int, int]]:
    """The stretches in which some window is, in order."""
    found: List[Tuple[int, int]] = []
    for window in sorted(windows):
        begin, finish = max(window.offset, start), min(window.end, end)
        if found and begin <= found[-1][1]:
            found[-1] = (found[-1][0], max(found[-1][1], finish))
        else:
            found.append((begin, finish))
    return found


def _laid_out(covered: List[Tuple[int, int]], left: float, right: float) -> List[Stretch]:
    gaps = [(before[1], after[0]) for before, after in zip(covered, covered[1:])]
    cut, scale = _cuts(gaps, covered[-1][1] - covered[0][0], right - left)
    stretches, start, place = [], covered[0][0], left
    for gap in [gap for gap in gaps if gap in cut] + [(covered[-1][1],) * 2]:
        reached = place + scale * (gap[0] - start)
        stretches.append(Stretch(start, gap[0], place, reached, False))
        if gap[1] > gap[0]:
            stretches.append(Stretch(gap[0], gap[1], reached, reached + CUT, True))
        start, place = gap[1], reached + CUT
    return stretches


def _cuts(gaps: List[Tuple[int, int]], span: int, room: float) -> Tuple[set, float]:
    """Which gaps are cut: those that would be much wider than the mark of a cut. Cutting one widens the others, so from the
    longest on, as long as it is worth it and most of the room is left to the windows."""
    cut, scale = set(), room / span
    for gap in sorted(gaps, key=lambda gap: gap[0] - gap[1]):
        if scale * (gap[1] - gap[0]) < 2 * CUT or CUT * (len(cut) + 1) > room / 2:
            break
        cut.add(gap)
        span -= gap[1] - gap[0]
        scale = (room - CUT * len(cut)) / span
    return cut, scale


class Mark(NamedTuple):
    number: int
    label: str
    date: str  # above the label where it is another one than before, with an origin


def _label(number: int, clock: Clock) -> Tuple[str, str]:
    """The date, where there is an origin, and the time, with seconds where it has some; or the bare number."""
    if clock.origin is None:
        return "", f"{number:,}"
    moment = clock.date(number)
    return moment.date().isoformat(), moment.time().isoformat("seconds" if moment.second else "minutes")


def label_width(end: int, clock: Clock) -> float:
    """Pixels of the widest label on an axis up to this number: none has more digits."""
    return width(_label(end, clock)[1], LABEL)


def apart(axis: Axis, clock: Clock) -> float:
    """Pixels from one labelled mark to the next, at least."""
    return max(_APART, label_width(axis.end, clock) + 10)


def marks(axis: Axis, clock: Clock) -> List[Mark]:
    """Marks that are far enough apart to be read; each stretch begins with one where there is room."""
    found: List[Mark] = []
    room = apart(axis, clock)
    free, date = axis.left - room, ""
    for stretch in axis.stretches:
        if stretch.cut:
            continue
        numbers = list(_numbers(stretch, room / axis.scale, clock))
        if not numbers or axis.place(numbers[0]) - stretch.left > room / 2:
            numbers.insert(0, stretch.start)
        for number in numbers:
            if axis.place(number) - free >= room:
                day, label = _label(number, clock)
                found.append(Mark(number, label, day if day != date else ""))
                free, date = axis.place(number), day
    return found


def _decimals() -> Iterator[int]:
    """1, 2, 5, 10, 20, 50 and on without end."""
    return (digit * 10**power for power in itertools.count() for digit in (1, 2, 5))


def _steps(clock: Clock) -> Iterator[int]:
    """Round steps, rising without end: of numbers that count nothing known, or of time."""
    if clock.origin is None and clock.unit is None:
        return _decimals()
    days = itertools.dropwhile(lambda count: count * _DAY <= _STEPS[-1], _decimals())
    known = (step // clock.step for step in _STEPS if step >= clock.step)
    return itertools.chain(known, (_DAY // clock.step * count for count in days))


def _numbers(stretch: Stretch, least: float, clock: Clock) -> Iterator[int]:
    """Round numbers, or round times of the calendar, so far apart at least."""
    if clock.origin is not None and least > _STEPS[-1] // clock.step:
        yield from _months(stretch, least, clock)
        return
    step = next(step for step in _steps(clock) if step >= least)
    # With an origin, steps are counted from a Monday at midnight long ago.
    base = 0 if clock.origin is None else (clock.origin - datetime.min) // clock.step
    number = -(-(stretch.start + base) // step) * step - base
    while number <= stretch.end:
        yield number
        number += step


def _months(stretch: Stretch, least: float, clock: Clock) -> Iterator[int]:
    steps = itertools.chain(_MONTHS, ((12 * years, 365 * years) for years in _decimals()))
    step = next(step for step, days in steps if days * (_DAY // clock.step) >= least)
    start = clock.date(stretch.start)
    month = (12 * start.year + start.month - 1) // step * step
    while month < 12 * 9999:
        moment = datetime(max(month // 12, 1), month % 12 + 1, 1)
        number = (moment - clock.origin) // clock.step
        if number > stretch.end:
            return
        if number >= stretch.start:
            yield number
        month += step
