"""The numbers of a plan as a planner writes and reads them: bare, with their unit where the plan's maker says it, or as dates
from an origin. No time zone and no locale plays a part."""
import re
from datetime import datetime, timedelta
from typing import NamedTuple, Optional, Tuple

from .failures import Mistake
from .wording import cited, counted

_DATE = re.compile(r"(\d{4})-(\d\d)-(\d\d)(?:(?:[ \t]+|T)(\d\d?):(\d\d)(?::(\d\d))?)?", re.ASCII)
NUMBER = re.compile(r"\d{1,20}", re.ASCII)
_SIZES = {letter: timedelta(**{name: 1}) for letter, name in zip("wdhms", ("weeks", "days", "hours", "minutes", "seconds"))}
_LENGTH = re.compile("".join(rf"(?:(\d{{1,10}}){letter})?" for letter in _SIZES), re.ASCII)
_SHOWN = "hms"  # the letters with which lengths are shown


class Unit(NamedTuple):
    """What the numbers of a plan count. A plan file does not say it: its maker does."""

    name: str  # of one
    step: timedelta
    short: Tuple[str, ...]  # what else stands for it over a column

    def __str__(self) -> str:
        """Of many: as it is written everywhere, and as isoformat calls dates that are shown so finely."""
        return f"{self.name}s"


MINUTES = Unit("minute", timedelta(minutes=1), ("minute", "mins", "min", "m"))
SECONDS = Unit("second", timedelta(seconds=1), ("second", "secs", "sec", "s"))
UNITS = (MINUTES, SECONDS)
_FINER = f"has {SECONDS}; --unit {SECONDS} takes it, and so does a text with the line `unit {SECONDS}`"


def unit(word: str) -> Unit:
    """`minutes` or `seconds`, in full."""
    for each in UNITS:
        if word == str(each):
            return each
    raise ValueError(f"a unit is {' or '.join(map(str, UNITS))}, not {cited(word)}")


def date(words: str) -> datetime:
    """`2026-02-06`, `2026-02-06 08:00`, `2026-02-06T08:00` or `2026-02-06 08:00:30`."""
    found = _DATE.fullmatch(words.strip())
    if not found:
        raise ValueError(f"{cited(words)} is no date; write 2026-02-06, or 2026-02-06 08:00")
    try:
        return datetime(*(int(part or 0) for part in found.groups()))
    except ValueError:
        raise ValueError(f"{cited(words)} is no date of the calendar") from None


class Clock(NamedTuple):
    """How the numbers of a plan are read and shown: with their unit where one is said, and as dates where there is an origin."""

    origin: Optional[datetime] = None
    unit: Optional[Unit] = None

    @property
    def _counted(self) -> Unit:
        """What dates and lengths with letters are counted in, also where no unit is said."""
        return self.unit or MINUTES

    @property
    def step(self) -> timedelta:
        return self._counted.step

    def checked(self) -> "Clock":
        """Itself, where its origin is no finer than its unit. It is asked when the unit is known, since a text may state it."""
        if self.origin is not None and self._is_finer(self.origin):
            raise Mistake(f"the origin {self.origin} {_FINER}")
        return self

    def _is_finer(self, moment: datetime) -> bool:
        return bool((moment - datetime.min) % self.step)

    def offset(self, words: str) -> int:
        """What is meant by a number or a date."""
        if NUMBER.fullmatch(words):
            return int(words)
        if not _DATE.fullmatch(words):
            example = self._stamp(datetime(2026, 2, 6, 8, 0, 30))
            raise ValueError(f"{cited(words)} is no offset; write a number (1440) or a date ({example})")
        if self.origin is None:
            raise ValueError(f"{cited(words)} is a date; say with --origin which date 0 is")
        moment = date(words)
        if self._is_finer(moment):
            raise ValueError(f"{cited(words)} {_FINER}")
        if moment < self.origin:
            raise ValueError(f"{cited(words)} lies before the origin, {self._stamp(self.origin)}")
        return (moment - self.origin) // self.step

    def length(self, word: str) -> int:
        """A bare number (`90`), or weeks, days, hours and minutes (`2d`, `48h`, `1h30m`), in seconds those too (`1h30m20s`)."""
        if NUMBER.fullmatch(word):
            return int(word)
        found = _LENGTH.fullmatch(word) if word else None
        if not found:
            example = self._lettered(timedelta(hours=1, minutes=30, seconds=20) // self.step)
            raise ValueError(f"{cited(word)} is no length; write a number (90), or numbers with letters (2d, 48h, {example})")
        parts = [(size, int(part)) for size, part in zip(_SIZES.values(), found.groups()) if part]
        if any(size < self.step for size, _ in parts):
            raise ValueError(f"{cited(word)} {_FINER}")
        return sum(size // self.step * part for size, part in parts)

    def date(self, number: int) -> datetime:
        try:
            return self.origin + number * self.step
        except OverflowError:
            raise Mistake(f"{number:,} from the origin {self._stamp(self.origin)} lies past the year 9999") from None

    def show(self, number: int) -> str:
        return str(number) if self.origin is None else self._stamp(self.date(number))

    def show_length(self, number: int) -> str:
        return str(number) if self.origin is None else self._lettered(number)

    def tell_length(self, number: int) -> str:
        """The same in words, with the unit where one is said."""
        if self.origin is not None:
            return self._lettered(number)
        return f"{number:,}" if self.unit is None else counted(number, self.unit.name)

    def tell_interval(self, begin: int, end: int) -> str:
        """`4 to 16`, `seconds 4 to 16`, or from one date to the other."""
        if self.origin is not None:
            return f"{self.show(begin)} to {self.show(end)}"
        return ("" if self.unit is None else f"{self.unit} ") + f"{begin:,} to {end:,}"

    def _stamp(self, moment: datetime) -> str:
        """Not by strftime, which leaves out zeros of early years on some systems."""
        return moment.isoformat(sep=" ", timespec=str(self._counted))

    def _lettered(self, number: int) -> str:
        """`48h`, `1h30m`, `45m`; where the unit is seconds `1h30m20s`, `45s`."""
        letters, words = [letter for letter in _SHOWN if _SIZES[letter] >= self.step], ""
        for letter in letters:
            count, number = divmod(number, _SIZES[letter] // self.step)
            words += f"{count}{letter}" if count else ""
        return words or f"0{letters[-1]}"
