"""Friday's sheet: for each rig, the chain from its present window to the window where it is wanted."""
from typing import List, NamedTuple, Optional, Sequence, Tuple, Union

from . import calls
from .given import Given, shared_time
from .replies import Reply, aligned
from .texts import Fault, Faulty, Row, clean, read_rows, words_of
from .wording import counted

_LINE = "a line has a rig's name, its present window and the window where it is wanted"
HEADER = (
    *("line", "rig", "present", "wanted", "answer", "handovers"),
    *("step", "window", "name", "begin", "end", "handover_from", "handover_to"),
)


class Trip(NamedTuple):
    """A rig with its two windows, and its chain in the order in which it travels."""

    line: int
    rig: str
    present: int
    wanted: int
    chain: Optional[Tuple[int, ...]]

    @property
    def handovers(self) -> calls.Handovers:
        return calls.Chain(self.chain).handovers


class Sheet(NamedTuple):
    plan: Given
    trips: Sequence[Trip]
    faults: Sequence[Fault]

    @property
    def in_order(self) -> List[Union[Trip, Fault]]:
        return sorted([*self.trips, *self.faults], key=lambda each: each.line)


def make(plan: Given, data: bytes) -> Sheet:
    """The sheet for lines of a rig's name and two windows. A line that is wrong is kept as a fault, and spoils no other."""
    trips, faults = read_rows(data, ("rig", "present", "wanted"), 3, _cells, lambda row: _trip(plan, row))
    if not trips and not faults:
        raise Faulty([Fault(1, f"there is no rig; {_LINE}")])
    return Sheet(plan, trips, faults)


def _cells(line: str) -> List[str]:
    """The last two words are windows, and a rig's name may have several."""
    words = words_of(line)
    return [" ".join(words[:-2]), *words[-2:]]


def _trip(plan: Given, row: Row) -> Trip:
    if len(row.cells) != 3 or not all(row.cells):
        raise ValueError(_LINE)
    name, (present, wanted) = clean(row.cells[0]), (plan.names.position(word) for word in row.cells[1:])
    chain = calls.chain(plan.file, present, wanted).positions
    if chain and chain[0] != present:
        chain = chain[::-1]
    return Trip(row.line, name, present, wanted, chain)


def steps(plan: Given, trip: Trip) -> List[list]:
    """A row for each window of the chain: position, name, begin, end, and when it can hand over to the next."""
    rows = []
    for at, position in enumerate(trip.chain or ()):
        shared = ["", ""]
        if at + 1 < len(trip.chain):
            shared = list(map(plan.clock.show, shared_time(plan.windows[position], plan.windows[trip.chain[at + 1]])))
        rows.append([*plan.shown(position), *shared])
    return rows


def heading(plan: Given, trip: Trip) -> str:
    return f"{trip.rig}: from {plan.names.label(trip.present)} to {plan.names.label(trip.wanted)}: {trip.handovers}"


def summary(sheet: Sheet) -> str:
    joined = [trip for trip in sheet.trips if trip.chain]
    words = [f"{counted(len(sheet.trips) + len(sheet.faults), 'rig')}: {len(joined)} with a chain"]
    words.append(f"{len(sheet.trips) - len(joined)} with no chain")
    if sheet.faults:
        words.append(f"{counted(len(sheet.faults), 'line')} not read")
    if joined:
        longest = max(joined, key=lambda trip: trip.handovers)
        total = sum(trip.handovers.count for trip in joined)
        words.append(f"{total} handovers in all, at most {longest.handovers.count} ({longest.rig})")
    return ", ".join([*words, sheet.plan.minimum_words])


def _text(sheet: Sheet) -> str:
    parts = []
    for each in sheet.in_order:
        if isinstance(each, Fault):
            parts.append(f"{each}\n")
            continue
        rows = [
            ["", position, name, f"{begin} to {end}", f"hand over {start} to {stop}" if start else ""]
            for position, name, begin, end, start, stop in steps(sheet.plan, each)
        ]
        parts.append(f"{heading(sheet.plan, each)}\n" + (aligned(rows, right=(1,)) if rows else ""))
    return "\n".join([*parts, summary(sheet) + "\n"])


def _csv(sheet: Sheet) -> List[list]:
    rows = []
    for each in sheet.in_order:
        if isinstance(each, Fault):
            rows.append([each.line, "", "", "", f"not read: {each.words}"] + [""] * 8)
        elif each.chain is None:
            rows.append([*each[:4], "no chain"] + [""] * 8)
        else:
            head = [*each[:4], "chain", each.handovers.count]
            rows += [[*head, step, *row] for step, row in enumerate(steps(sheet.plan, each))]
    return rows


def _data(sheet: Sheet) -> dict:
    rigs = [
        {**trip._asdict(), "handovers": trip.handovers.count, "chain": trip.chain and [*map(sheet.plan.data, trip.chain)]}
        for trip in sheet.trips
    ]
    faults = [fault._asdict() for fault in sheet.faults]
    plan = {"plan": sheet.plan.number, "minimum": sheet.plan.minimum}
    return {**plan, "rigs": rigs, "faults": faults, "summary": summary(sheet)}


def reply(sheet: Sheet, source: str) -> Reply:
    faults, apart = [f"{source}, {fault}" for fault in sheet.faults], any(trip.chain is None for trip in sheet.trips)
    return Reply(_text(sheet), HEADER, _csv(sheet), _data(sheet), otherwise=apart, faults=faults)
