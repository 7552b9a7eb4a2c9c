"""A planner's text: a line for each window, or CSV with a header. Every fault of a text is found, by line.

    # offset length [name]; what follows a # is left out
    unit minutes                        what the numbers count, or `unit seconds`; no line need state it
    minimum 30                          the plan's minimum handover, 1 where no line states it
    1440 480 North pier                 numbers
    2026-02-06 08:00 48h "Bay #3"       dates, with an origin; a name in quotes may hold a #
"""
import csv
import itertools
import re
import unicodedata
from typing import Callable, Dict, Iterable, Iterator, List, NamedTuple, Optional, Sequence, Tuple, Union

from . import calls, times
from .failures import Mistake
from .figures import END_LIMIT, MINIMUM_LEAST, NUMBER_LIMIT, WINDOWS_LIMIT
from .plans import Window, minimum_of, pack
from .refusals import Asked, Refused, refusal
from .replies import aligned
from .times import UNITS, Clock, Unit

_QUOTED = r'(?:(?<=\s)|^)"(?:[^"]|"")*"(?=\s|$)'
_QUOTED_OR_COMMENT = re.compile(_QUOTED + r"|(?:(?<=\s)|^)(#)")
_WORD = re.compile(_QUOTED + r"|\S+")
_LINE = re.compile(
    r"(?P<offset>\d{4}-\d\d-\d\d(?:(?:\s+|T)\d\d?:\d\d(?::\d\d)?)?|\S+)(?:\s+(?P<length>\S+)(?:\s+(?P<name>.+))?)?", re.ASCII
)
_COLUMNS = ("offset", "length", "name")
_HEADED = {word: unit for unit in UNITS for word in (str(unit), *unit.short)}  # the words over a column that state a unit


class Fault(NamedTuple):
    line: int
    words: str

    def __str__(self) -> str:
        return f"line {self.line}: {self.words}"


class Faulty(Exception):
    """A text that is not accepted, with all that is wrong in it, in order of lines."""

    def __init__(self, faults: List[Fault]):
        super().__init__("; ".join(map(str, faults)))
        self.faults = sorted(faults, key=lambda fault: fault.line)
        self.source = "the text"


class Entry(NamedTuple):
    """A window of a text, with its line and its name, which may be empty."""

    line: int
    window: Window
    name: str


class Minimum(NamedTuple):
    """The minimum handover that a text states, with its line; or that the command gives, with none."""

    line: Optional[int]
    length: int


class Stated(NamedTuple):
    """The unit that a text states, with its line."""

    line: int
    unit: Unit


class Text(NamedTuple):
    """What a text holds: its windows in its order, its minimum handover where it states one, the clock by which it is read, and
    all that is wrong in it; of that, what is said against its unit stands once more alone."""

    entries: List[Entry]
    minimum: Optional[Minimum]
    clock: Clock
    faults: List[Fault]
    disputed: List[Fault]


class Row(NamedTuple):
    """A line of a text in its cells."""

    line: int
    cells: List[str]


class Table(NamedTuple):
    """The rows of a text. Over those of CSV stands a header, which has what follows the name of each column."""

    rows: List[Row]
    header: Optional[Row] = None


def _lines_of(data: bytes) -> Tuple[List[str], List[Fault]]:
    """The lines of a text in UTF-8; a line that is not is a fault, and is taken as empty."""
    lines, faults = [], []
    for number, line in enumerate(data.replace(b"\r\n", b"\n").replace(b"\r", b"\n").split(b"\n"), 1):
        try:
            lines.append(line.decode("utf-8-sig" if number == 1 else "utf-8"))
        except UnicodeDecodeError:
            lines.append("")
            faults.append(Fault(number, "is no text in UTF-8"))
    return lines, faults


def _uncommented(line: str) -> str:
    """The line without its comment: from a # that begins a word, outside quotes."""
    line = line.replace("\xa0", " ")
    comment = next((found for found in _QUOTED_OR_COMMENT.finditer(line) if found[1]), None)
    return (line[: comment.start()] if comment else line).strip()


def words_of(line: str) -> List[str]:
    """The words of a line, of which one in quotes may hold spaces."""
    return [unquoted(word) for word in _WORD.findall(line)]


def unquoted(name: str) -> str:
    return name[1:-1].replace('""', '"') if len(name) > 1 and name[0] == name[-1] == '"' else name


def quoted(name: str) -> str:
    """A name as it is written at the end of a line, so that it is read back as it was."""
    return '"' + name.replace('"', '""') + '"' if re.search(r'["#]|^\s|\s$', name) else name


def clean(name: str) -> str:
    """A name that can be shown anywhere; a control character cannot."""
    name = name.replace("\t", " ").strip()
    if any(unicodedata.category(character) == "Cc" for character in name):
        raise ValueError("a name has no control characters")
    return name


def _header(line: List[str], delimiter: str) -> Dict[str, Tuple[int, str]]:
    """For the first word of each cell its place, and the words that follow: "Offset (minutes)" is an offset too."""
    try:
        cells = [cell.lower().split(None, 1) for cell in next(csv.reader(line, delimiter=delimiter), [])]
    except csv.Error:  # a zero byte, or a cell of great length
        return {}
    places = reversed(list(enumerate(cells)))  # so that of two of one name the first is kept
    return {cell[0]: (at, "".join(cell[1:])) for at, cell in places if cell}


def _csv_table(lines: List[str], columns: Sequence[str], wanted: int, faults: List[Fault]) -> Optional[Table]:
    """The rows of CSV in the order of `columns`, or None where the first line is no header with the first `wanted` of them.
    What is wrong is added to the faults."""
    start = next((at for at, line in enumerate(lines) if _uncommented(line)), len(lines))
    for delimiter in ",;\t":
        header = _header(lines[start : start + 1], delimiter)
        if all(column in header for column in columns[:wanted]):
            break
    else:
        return None
    places, behind = zip(*(header.get(column, (None, "")) for column in columns))
    kept = ["\n" if line.lstrip().startswith("#") else line + "\n" for line in lines[start + 1 :]]
    rows, reader = [], csv.reader(kept, delimiter=delimiter, strict=True)
    while True:
        try:
            cells = next(reader)
        except StopIteration:
            return Table(rows, Row(start + 1, list(behind)))
        except csv.Error as error:
            faults.append(Fault(start + 1 + reader.line_num, f"is no line of CSV: {error}"))
            continue
        if any(cell.strip() for cell in cells):
            taken = [cells[at].strip() if at is not None and at < len(cells) else "" for at in places]
            rows.append(Row(start + 1 + reader.line_num, taken))


def _table(data: bytes, columns: Sequence[str], wanted: int, split: Callable) -> Tuple[Table, List[Fault]]:
    """The rows of CSV, or of lines that `split` makes cells of, and the lines that are neither."""
    lines, faults = _lines_of(data)
    table = _csv_table(lines, columns, wanted, faults)
    if table is None:
        table = Table([Row(number, split(line)) for number, line in enumerate(map(_uncommented, lines), 1) if line])
    return table, faults


def _take(rows: Iterable[Row], take: Callable, faults: List[Fault]) -> list:
    """What `take` makes of each row. The rows of which it makes nothing are added to the faults."""
    taken = []
    for row in rows:
        try:
            taken.append(take(row))
        except (ValueError, Mistake, Refused) as error:
            faults.append(Fault(row.line, str(error)))
    return taken


def read_rows(data: bytes, columns: Sequence[str], wanted: int, split: Callable, take: Callable) -> Tuple[list, List[Fault]]:
    """What `take` makes of each row of CSV, or of lines that `split` makes cells of, and the rows of which it makes nothing."""
    table, faults = _table(data, columns, wanted, split)
    taken = _take(table.rows, take, faults)
    return taken, sorted(faults, key=lambda fault: fault.line)


def _cells(line: str) -> List[str]:
    parts = _LINE.fullmatch(line)
    return [parts["offset"], parts["length"] or "", unquoted(parts["name"] or "")]


def _fitting(number: int, what: str) -> int:
    if number > NUMBER_LIMIT:
        raise ValueError(f"{what} of {number:,} does not fit a plan file, which holds up to {NUMBER_LIMIT:,}")
    return number


def _minimum(word: str, clock: Clock) -> int:
    """A minimum handover: a number, or a length with letters."""
    return _fitting(clock.length(word), "a minimum handover")


def minimum_given(word: Optional[str], clock: Clock) -> Optional[int]:
    """That of the command, where it has one. It is read by the unit, so it can be wrong only when that is known."""
    try:
        return None if word is None else _minimum(word, clock)
    except ValueError as error:
        raise Mistake(f"argument --minimum: {error}") from None


def window(offset: str, length: str, clock: Clock) -> Window:
    """A window from its two words."""
    return Window(_fitting(clock.offset(offset), "an offset"), _fitting(clock.length(length), "a length"))


def _taken(row: Row, clock: Clock) -> Union[Entry, Minimum]:
    offset, length, name = row.cells
    if offset.lower() == "minimum":
        if not length or name:
            raise ValueError("the line of the minimum handover has a length and nothing more: minimum 30, or minimum 2h")
        return Minimum(row.line, _minimum(length, clock))
    if not offset or not length:
        hint = "; CSV begins with a line offset,length,name" if set(offset) & set(",;") else ""
        raise ValueError(f"a line has an offset and a length, and may have a name{hint}")
    return Entry(row.line, window(offset, length, clock), clean(name))


def _states_unit(row: Row) -> bool:
    return row.cells[0].lower() == "unit"


def _stated(row: Row) -> Stated:
    _, word, more = row.cells
    if not word or more:
        raise ValueError(f"the line of the unit is {' or '.join(f'unit {unit}' for unit in UNITS)}, and nothing more")
    return Stated(row.line, times.unit(word.lower()))


def _headed(header: Optional[Row]) -> List[Stated]:
    """The units over the columns of offsets and lengths: `Offset (seconds)`, `Length [min]`."""
    words = [word.strip("()[],;:.") for cell in (header.cells[:2] if header else ()) for word in cell.split()]
    return [Stated(header.line, _HEADED[word]) for word in words if word in _HEADED]


def _agreed(stated: List[Stated], given: Optional[Unit]) -> Tuple[Optional[Unit], List[Fault]]:
    """The unit of a text: the first that it states, or else the given one; and every line that is against that."""
    if not stated:
        return given, []
    first = stated[0]
    others = [each for each in stated if each.unit != first.unit]
    disputed = [Fault(each.line, f"the unit is {each.unit} here, and {first.unit} on line {first.line}") for each in others]
    if given not in (None, first.unit):
        disputed.append(Fault(first.line, f"the unit is {first.unit} here, and {given} by --unit"))
    return first.unit, disputed


def parse(data: bytes, clock: Clock) -> Text:
    """What a text holds, read by the unit that it states, wherever it does, or else by that of the clock."""
    table, faults = _table(data, _COLUMNS, 2, _cells)
    stated = _headed(table.header) + _take(filter(_states_unit, table.rows), _stated, faults)
    unit, disputed = _agreed(stated, clock.unit)
    clock = clock._replace(unit=unit).checked()
    taken = _take(itertools.filterfalse(_states_unit, table.rows), lambda row: _taken(row, clock), faults)
    first, *more = [each for each in taken if isinstance(each, Minimum)] or [None]
    faults += [Fault(each.line, f"the minimum handover is stated on line {first.line}") for each in more]
    return Text([each for each in taken if isinstance(each, Entry)], first, clock, faults + disputed, disputed)


def _refusals(entries: List[Entry], file: bytes) -> Iterator[Fault]:
    """What the library refuses, asked of each window alone and then of its order, so that one fault hides no other."""
    for position, entry in enumerate(entries):
        pair = [each.window.offset for each in entries[max(position - 1, 0) : position + 1]]
        # Two windows of which nothing can be refused but that one begins before the other.
        in_order = [Window(min(offset - min(pair), END_LIMIT - MINIMUM_LEAST), MINIMUM_LEAST) for offset in pair]
        for asked in (pack(0, [entry.window], minimum_of(file)), pack(0, in_order)):
            try:
                calls.validate(asked)
            except Refused as no:
                yield Fault(entry.line, str(refusal(no.number, 0, position, Asked(plans=[file]))))


def _ask_minimum(minimum: Minimum, faults: List[Fault]) -> None:
    """Of a minimum that is refused no window can be asked."""
    try:
        calls.validate(pack(0, [], minimum.length))
    except Refused as no:
        if minimum.line is None:
            raise
        raise Faulty([*faults, Fault(minimum.line, str(no))]) from None


def make(
    number: int, data: bytes, clock: Clock, sort: bool = False, empty: bool = False, minimum: Optional[str] = None
) -> Tuple[bytes, List[Entry]]:
    """The plan file of a text, and its entries by position. All that is wrong is raised at once, as Faulty. A minimum that is
    given takes the place of the text's."""
    entries, stated, clock, faults, _ = parse(data, clock)
    given = minimum_given(minimum, clock)
    if not entries and not faults and not empty:
        raise Faulty([Fault(1, "the text has no window; --empty makes a plan of none")])
    if sort:
        entries.sort(key=lambda entry: entry.window.offset)
    used = Minimum(None, given) if given is not None else stated or Minimum(None, MINIMUM_LEAST)
    _ask_minimum(used, faults)
    file = pack(number, [entry.window for entry in entries], used.length)
    faults += _refusals(entries, file)
    try:
        calls.validate(file)
    except Refused as no:
        if no.number not in (4, 5, 6):  # those have been told with their lines
            faults.append(Fault(entries[min(WINDOWS_LIMIT, len(entries) - 1)].line, str(no)))
    if faults:
        raise Faulty(faults)
    return file, entries


def write(windows: List[Window], names: List[str], minimum: int, clock: Clock) -> str:
    """The lines of a text, aligned."""
    each = zip(windows, names)
    rows = [(clock.show(window.offset), clock.show_length(window.length), quoted(name)) for window, name in each]
    unit = "" if clock.unit is None else f"unit {clock.unit}\n"
    return f"{unit}minimum {clock.show_length(minimum)}\n" + aligned(rows, right=(0, 1), between=" ")
