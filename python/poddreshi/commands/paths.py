"""chain, neighbours, margin, reach, same: answers from plans."""
import itertools
from typing import Optional, Sequence, Tuple

from .. import calls, files
from ..commandline import NAMES, ORIGIN, PLAN, UNIT, command, exit_code, forms, given, once, option, word
from ..figures import PLAN_LIMIT
from ..given import Given
from ..plans import minimum_of
from ..replies import Reply, aligned
from ..times import Clock
from ..wording import counted, ordinal

_COLUMNS = ("window", "name", "begin", "end")
_WINDOW = "a position, or a name"
_MARGINS = "say of each how much it shares with this one"


def _columns_of(*ends: str) -> Tuple[str, ...]:
    """What a row tells of each of two windows whose positions it has."""
    return tuple(f"{end}_{column}" for end in ends for column in _COLUMNS[1:])


def _told_of(plan: Given, *positions: int) -> list:
    """The same of these windows."""
    return [cell for position in positions for cell in plan.shown(position)[1:]]


_REACH = ("handovers", "smaller", "larger", *_columns_of("smaller", "larger"))
_MARGIN = ("first", "second", "margin", *_columns_of("first", "second"))


@command(
    "chain",
    "a shortest chain between two windows, from the later to the earlier",
    [PLAN, word("first", _WINDOW), word("second", _WINDOW), NAMES, ORIGIN, UNIT, exit_code("no chain"), forms()],
    [
        "poddreshi chain examples/plan-12.plan 1 5",
        "poddreshi chain examples/bolting.plan 0 2",
        "poddreshi chain year.plan 2 7 --names examples/year.txt --origin 2026-01-01",
    ],
    "Of the shortest chains it is the one with the earliest window at each step. With --names or --origin there is a line "
    "for each window: position, name, begin and end.",
)
def _chain(args) -> Reply:
    plan = given(args)
    first, second = plan.names.position(args.first), plan.names.position(args.second)
    found = calls.chain(plan.file, first, second)
    positions = found.positions or ()
    rows = [(step, *plan.shown(position)) for step, position in enumerate(positions)]
    data = {
        "first": first,
        "second": second,
        "handovers": found.handovers.count,
        "chain": None if found.positions is None else [plan.data(position) for position in positions],
    }
    text = plan.lines(positions) or str(found)
    return Reply(text, ("step", *_COLUMNS), rows, data, otherwise=found.positions is None)


@command(
    "neighbours",
    "the windows that overlap one window",
    [PLAN, word("position", _WINDOW), option("--margins", action="store_true", help=_MARGINS), NAMES, ORIGIN, UNIT, forms()],
    [
        "poddreshi neighbours examples/plan-12.plan 2",
        "poddreshi neighbours examples/bolting.plan 0",
        "poddreshi neighbours examples/plan-12.plan 2 --margins",
        "poddreshi neighbours year.plan 9 --margins --names examples/year.txt --origin 2026-01-01",
    ],
    "Two windows overlap when they share at least the plan's minimum handover. With --margins there is a line for each, which ends "
    "with what `margin` says of the two: `0  shares 6`. CSV has the margin in a last column, and JSON with each window.",
)
def _neighbours(args) -> Reply:
    plan = given(args)
    at = plan.names.position(args.position)
    found = calls.neighbours(plan.file, at)
    rows, data = [plan.shown(position) for position in found.positions], [plan.data(position) for position in found.positions]
    if not args.margins:
        return Reply(plan.lines(found.positions) or str(found), _COLUMNS, rows, {"position": at, "neighbours": data})
    margins = [calls.margin(plan.file, at, position) for position in found.positions]
    text = plan.lines(found.positions, [plan.margin_words(margin) for margin in margins]) or str(found)
    rows = [(*row, margin) for row, margin in zip(rows, margins)]
    data = [{**each, "margin": margin} for each, margin in zip(data, margins)]
    return Reply(text, (*_COLUMNS, "margin"), rows, {"position": at, "neighbours": data})


@command(
    "margin",
    "how much two windows share, or how far apart they lie",
    [
        *(PLAN, word("first", _WINDOW), word("second", _WINDOW), NAMES, ORIGIN, UNIT),
        forms(number="answer as the bare number, below 0 where they lie apart"),
    ],
    [
        "poddreshi margin examples/plan-12.plan 0 2",
        "poddreshi margin examples/plan-12.plan 0 2 --unit minutes",
        "poddreshi margin examples/plan-12.plan 0 4 --number",
        "poddreshi margin examples/bolting.plan 0 2",
        "poddreshi margin examples/shift.plan 0 2 --names examples/shift.txt --origin 2026-01-01",
        "poddreshi margin year.plan 2 7 --names examples/year.txt --origin 2026-01-01",
    ],
    "It is the smaller end of the two less the greater offset: `shares 6`, `touches` where one ends as the other begins, or `2 "
    "apart`; with --unit `shares 6 seconds`. A window with itself shares its length. Two windows overlap when they share at "
    "least the plan's minimum handover; those that share less do not overlap. With --names or --origin a line for each of the "
    "two windows follows: position, name, begin and end. CSV and JSON have the number of --number.",
)
def _margin(args) -> Reply:
    plan = given(args)
    first, second = plan.names.position(args.first), plan.names.position(args.second)
    found = calls.margin(plan.file, first, second)
    if args.form == "number":
        return Reply(content=f"{found}\n".encode())
    ends = (first, second) if first != second else (first,)
    row = [first, second, found, *_told_of(plan, first, second)]
    data = {"first": first, "second": second, "margin": found, "windows": [plan.data(first), plan.data(second)]}
    return Reply(f"{plan.margin_words(found)}\n{plan.lines(ends)}", _MARGIN, [row], data)


def _reach_row(plan: Given, found: calls.Reach) -> list:
    return [*found, *_told_of(plan, found.smaller, found.larger)]


def _reach_data(plan: Given, found: calls.Reach) -> dict:
    return {**found._asdict(), "smaller": plan.data(found.smaller), "larger": plan.data(found.larger)}


def _reach_of_each(plan: Given) -> Reply:
    """A line for each component. Its windows stand together, and one of them is enough to ask about all."""
    component_of = calls.build(plan.file).component_of
    header, lines, rows, data = ("component", "first", "last", "begin", "end", *_REACH), [], [], []
    for component, positions in itertools.groupby(range(len(plan.windows)), key=component_of.__getitem__):
        positions = list(positions)
        first, last, span = positions[0], positions[-1], plan.span(positions)
        begin, end = plan.clock.show(span.offset), plan.clock.show(span.end)
        found = calls.reach(plan.file, first)
        when = f" {begin} to {end} " if plan.clock.origin else ""  # the blanks set it apart, as the empty cell does
        pair = f"from {plan.names.place(found.smaller)} to {plan.names.place(found.larger)}"
        lines.append(("component", str(component), "", "windows", str(first), "to", str(last), when, f"{found.handovers}:", pair))
        rows.append((component, first, last, begin, end, *_reach_row(plan, found)))
        data.append({"component": component, "first": first, "last": last, **plan.times(span), **_reach_data(plan, found)})
    return Reply(aligned(lines, right=(1, 4, 6, 8), between=" "), header, rows, data)


@command(
    "reach",
    "how far apart two windows of a component are at most, and which two",
    [PLAN, word("position", f"{_WINDOW}; without it, all components", nargs="?"), NAMES, ORIGIN, UNIT, forms()],
    [
        "poddreshi reach examples/plan-12.plan 3",
        "poddreshi reach examples/plan-12.plan",
        "poddreshi reach year.plan 25 --names examples/year.txt --origin 2026-01-01",
        "poddreshi reach year.plan --names examples/year.txt --origin 2026-01-01",
        "poddreshi reach year.plan --csv -o reach.csv",
    ],
    "`3: from 0 to 5` says of the component of a window that its windows 0 and 5 are 3 handovers apart and that no two are further. "
    "Of several pairs it is the first, by the smaller position and then by the larger; a window alone is `0: from 6 to 6`. With "
    "--names or --origin a line for each of the two windows follows: position, name, begin and end. Without a position each "
    "component has one line: its first and its last window, with --origin its begin and end, and its reach, with the pair's names.",
)
def _reach(args) -> Reply:
    plan = given(args)
    if args.position is None:
        return _reach_of_each(plan)
    at = plan.names.position(args.position)
    found = calls.reach(plan.file, at)
    pair = sorted({found.smaller, found.larger})  # of a window alone, that window once
    text = f"{found}\n{plan.lines(pair)}"
    return Reply(text, ("position", *_REACH), [(at, *_reach_row(plan, found))], {"position": at, **_reach_data(plan, found)})


def _difference(plans: Sequence[bytes], windows: int) -> Optional[Tuple[int, int, int]]:
    """The first position whose neighbours differ, the first window that overlaps it in one plan alone, and in which."""
    for position in range(windows):
        first, second = (set(calls.neighbours(file, position).positions) for file in plans)
        if first != second:
            other = min(first ^ second)
            return position, other, 0 if other in first else 1
    return None


@command(
    "same",
    "whether the same pairs of windows overlap in two plans",
    [word("first", "a plan file", "PLAN"), word("second", "another", "PLAN"), UNIT, exit_code("different"), forms()],
    ["poddreshi same examples/plan-12.plan examples/plan-31.plan --exit-code"],
    "Where they differ, the first position and the first window that overlaps it in one of the plans alone are named, and the "
    "two minimum handovers where these are unequal.",
)
def _same(args) -> Reply:
    once(args.first, args.second)
    plans = [files.read(name, PLAN_LIMIT) for name in (args.first, args.second)]
    header = ("answer", "difference", "position", "other")
    if calls.same(*plans).same:
        return Reply("same", header, [("same", "", "", "")], {"same": True})
    counts, minimums = [calls.validate(file).windows for file in plans], [minimum_of(file) for file in plans]
    data, words, pair = {"same": False, "windows": counts, "minimums": minimums}, [], ["", ""]
    if counts[0] != counts[1]:
        words.append(f"the first plan has {counted(counts[0], 'window')} and the second {counted(counts[1], 'window')}")
    found = _difference(plans, min(counts))
    if found:
        *pair, holder = found
        there, elsewhere = ordinal(holder), ordinal(1 - holder)
        words.append(f"windows {pair[0]} and {pair[1]} overlap in the {there} plan and not in the {elsewhere}")
        data.update(position=pair[0], other=pair[1], overlap_in=there)
    if minimums[0] != minimums[1]:
        first, second = map(Clock(unit=args.unit).tell_length, minimums)
        words.append(f"the minimum handover of the first plan is {first} and that of the second {second}")
    row = ("different", "; ".join(words), *pair)
    return Reply(": ".join(row[:2]), header, [row], data, otherwise=True)


COMMANDS = [_chain, _neighbours, _margin, _reach, _same]
