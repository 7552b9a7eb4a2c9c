"""draw: a plan as a picture."""
from typing import Optional, Tuple

from .. import calls
from ..commandline import NAMES, ORIGIN, OUTPUT, PLAN, UNIT, command, given, option, word
from ..failures import Mistake
from ..figures import END_LIMIT
from ..given import Given
from ..pictures import Scene, draw
from ..replies import Reply


def _span(args, plan: Given) -> Tuple[int, int]:
    """The stretch that is asked for."""
    try:
        start = 0 if args.since is None else plan.clock.offset(args.since)
        end = max(END_LIMIT, start + 1) if args.until is None else plan.clock.offset(args.until)
    except ValueError as error:
        raise Mistake(str(error)) from None
    if start >= end:
        raise Mistake("--from lies before --to")
    return start, end


def _ends(args, plan: Given) -> Optional[Tuple[int, int]]:
    """The two windows whose chain is marked."""
    if args.reach is not None:
        found = calls.reach(plan.file, plan.names.position(args.reach))
        return found.smaller, found.larger
    return None if args.first is None else (plan.names.position(args.first), plan.names.position(args.second))


@command(
    "draw",
    "a picture of a plan (SVG), with a chain marked where two windows are named",
    [
        PLAN,
        word("first", "a position, or a name; its chain to SECOND is marked", nargs="?"),
        word("second", "a position, or a name", nargs="?"),
        option("--from", dest="since", metavar="TIME", help="leave out what lies before: a number, or a date"),
        option("--to", dest="until", metavar="TIME", help="leave out what lies after"),
        option("--reach", metavar="POSITION", help="mark the farthest two windows of this one's component, and their chain"),
        option("--whole", action="store_true", help="show all windows, also beside a chain"),
        *(NAMES, ORIGIN, UNIT, OUTPUT),
    ],
    [
        "poddreshi draw examples/plan-12.plan -o plan-12.svg",
        "poddreshi draw examples/plan-12.plan 1 5 -o chain.svg",
        "poddreshi draw examples/plan-12.plan --reach 3 -o reach.svg",
        "poddreshi draw examples/shift.plan 0 4 --names examples/shift.txt --origin 2026-01-01 -o shift.svg",
        "poddreshi draw year.plan --origin 2026-01-01 --from 2026-02-01 --to 2026-04-01 -o spring.svg",
    ],
    "With two windows or --reach the picture shows their components alone. Stretches with no window are cut out, with a mark. "
    "The axis has bare numbers, with --unit their unit, and with --origin dates.",
)
def _draw(args) -> Reply:
    if (args.first is None) != (args.second is None):
        raise Mistake("draw takes a plan, and two positions where a chain is to be marked")
    if args.first is not None and args.reach is not None:
        raise Mistake("draw takes two positions or --reach, not both")
    plan = given(args)
    tree, ends, chain = calls.build(plan.file), _ends(args, plan), None
    shown = list(range(len(plan.windows)))
    if ends is not None:
        chain = calls.chain(plan.file, *ends).positions
        near = {tree.component_of[end] for end in ends}
        shown = [at for at in shown if args.whole or tree.component_of[at] in near]
    start, end = _span(args, plan)
    shown = [at for at in shown if plan.windows[at].offset < end and plan.windows[at].end > start]
    scene = Scene(plan, tree, shown, ends, chain, (start, end), reach=args.reach is not None)
    return Reply(content=draw(scene).encode())


COMMANDS = [_draw]
