"""add, withdraw: a plan with a window more or less, and its tags."""
import os

from .. import calls, files, texts
from ..commandline import NAMES, ORIGIN, PLAN, UNIT, command, forms, given, number, option, word
from ..failures import Mistake
from ..figures import PLAN_NUMBER_LIMIT
from ..given import Given
from ..names import Names
from ..plans import Window, windows_of
from ..replies import Reply
from ..wording import ranges

_NUMBER = word("number", "the number of the changed plan, 0 to 65,535; another than that of PLAN")
_TAGS = option("--tags", metavar="FILE", help="write the changed plan's tag file to another file")
_FORMS = forms(output=option("-o", "--output", dest="changed", metavar="FILE", help="write the changed plan to a file"))
_COLUMNS = ("position", "name", "begin", "end", "was", "altered")
_DETAILS = (
    "The minimum handover stays, and every tag has the new plan number. The changed plan goes to standard output, or to the file "
    "of -o; with --tags both files are replaced when all is there, or neither is. A line then says at which positions of the "
    "changed plan the tag changed in more than the plan number, so that a fitter knows which cabinets to visit: on standard "
    "output, or on standard error where standard output has the plan or its tags. With --names or --origin a line for each of "
    "them follows: position, name, begin and end. CSV and JSON have all windows of the changed plan, each with the position that "
    "it had (`was`) and whether its tag changed so (`altered`); for the changed plan, --names takes that CSV."
)


def _ask_outputs(args) -> None:
    """Tells of outputs that would be written over one another."""
    outputs = [args.changed] if args.tags is None else [args.changed, args.tags]
    there = sum(map(files.is_standard_output, outputs))
    if there > 1:
        raise Mistake("standard output can be one output and not two")
    if there and args.form != "text":
        raise Mistake(f"--{args.form} takes standard output, so the plan and its tags go to files: -o FILE, --tags FILE")
    if not there and len(outputs) > len(set(map(os.path.realpath, outputs))):
        raise Mistake("the plan and its tags go to two files, not one")


def _number(args) -> int:
    return number(args.number, PLAN_NUMBER_LIMIT, "a plan number")


def _window(args, plan: Given) -> Window:
    """The window of the command, read by the plan's clock."""
    try:
        return texts.window(args.offset, args.length, plan.clock)
    except ValueError as error:
        raise Mistake(str(error)) from None


def _after(plan: Given, changed: calls.Changed) -> Given:
    """The changed plan, whose windows keep their names."""
    names = Names("" if at is None else plan.names[at] for at in changed.was)
    return plan._replace(file=changed.file, number=changed.plan, windows=windows_of(changed.file), names=names)


def _reply(args, after: Given, changed: calls.Changed, done: str, window: dict) -> Reply:
    """What is said of a changed plan: what was done, in words and for JSON, and what became of the tags."""
    words = "no tag changed in more than the plan number"
    if changed.altered:
        words = f"tags changed in more than the plan number: {ranges(changed.altered)}"
    text = f"{changed}: {done}; {words}\n{after.lines(changed.altered)}"
    outputs = [(args.changed, changed.file)] + ([] if args.tags is None else [(args.tags, changed.tags)])
    if any(files.is_standard_output(name) for name, _ in outputs):
        return Reply(files=outputs, aside=text.rstrip("\n").split("\n"))
    altered = set(changed.altered)
    rows, windows = [], []
    for position, was in enumerate(changed.was):
        rows.append((*after.shown(position), was, "yes" if position in altered else "no"))
        windows.append({**after.data(position), "was": was, "altered": position in altered})
    data = {"plan": changed.plan, "components": changed.components, **window, "altered": changed.altered, "windows": windows}
    return Reply(text, _COLUMNS, rows, data, files=outputs)


@command(
    "add",
    "a plan file with a window more, and its tags",
    [
        *(PLAN, _NUMBER),
        word("offset", "where the window begins: a number, or a date with --origin"),
        word("length", "a number (90), or 48h"),
        *(_TAGS, NAMES, ORIGIN, UNIT, _FORMS),
    ],
    [
        "poddreshi add examples/plan-12.plan 13 20 5 -o plan-13.plan --tags plan-13.tags",
        'poddreshi add year.plan 41 "2026-02-04 08:00" 36h --names examples/year.txt --origin 2026-01-01 -o year-41.plan',
        'poddreshi add examples/shift.plan 53 "2026-09-19 03:58:20" 1h5m30s --unit seconds --origin 2026-01-01 -o shift-53.plan',
        "poddreshi add examples/plan-12.plan 13 20 5 --csv -o plan-13.plan",
        "poddreshi add examples/plan-12.plan 13 20 5 | poddreshi withdraw - 14 3 -o plan-14.plan",
    ],
    f"The window stands behind all that have the same offset or a smaller one. {_DETAILS}",
)
def _add(args) -> Reply:
    _ask_outputs(args)
    new, plan = _number(args), given(args)
    changed = calls.add(plan.file, new, *_window(args, plan))
    after, at = _after(plan, changed), changed.was.index(None)
    return _reply(args, after, changed, f"window {at} added", {"added": after.data(at)})


@command(
    "withdraw",
    "a plan file with a window less, and its tags",
    [*(PLAN, _NUMBER), word("position", "a position in PLAN, or a name"), *(_TAGS, NAMES, ORIGIN, UNIT, _FORMS)],
    [
        "poddreshi withdraw examples/plan-12.plan 13 3 -o plan-13.plan --tags plan-13.tags",
        'poddreshi withdraw year.plan 41 "Weir, lift" --names examples/year.txt --origin 2026-01-01 -o year-41.plan',
        "poddreshi withdraw examples/plan-12.plan 13 3 --json -o plan-13.plan",
    ],
    f"The windows behind it stand one position earlier then. {_DETAILS}",
)
def _withdraw(args) -> Reply:
    _ask_outputs(args)
    new, plan = _number(args), given(args)
    at = plan.names.position(args.position)
    changed = calls.withdraw(plan.file, new, at)
    done = f"{plan.names.label(at)} of plan {plan.number} withdrawn"
    return _reply(args, _after(plan, changed), changed, done, {"withdrawn": plan.data(at)})


COMMANDS = [_add, _withdraw]
