"""list, text, plan, renew: a plan file shown, written as text, made of text, and made of an old one."""
import subprocess

from .. import calls, files, oldplans, places, texts
from ..commandline import MINIMUM, NAMES, ORIGIN, OUTPUT, PLAN, UNIT, command, forms, given, number, option, reading, word
from ..failures import Failure, Unfit
from ..figures import END_LIMIT, MINIMUM_LEAST, PLAN_LIMIT, PLAN_NUMBER_LIMIT, TEXT_LIMIT
from ..plans import minimum_of
from ..refusals import Asked, refusal
from ..replies import Reply
from ..times import Clock
from ..wording import counted

_COLUMNS = ("position", "parent", "component", "depth", "rank", "last_rank")


def _listed(file: bytes) -> str:
    """What the listing program prints."""
    program = places.listing()
    try:
        done = subprocess.run([str(program)], input=file, stdout=subprocess.PIPE)
    except OSError as error:
        raise Failure.of(f"the listing program {program} does not run", error) from None
    if done.returncode or not done.stdout:
        raise Failure(f"the listing program {program} ended with status {done.returncode}")
    return done.stdout.decode("ascii")


@command(
    "list",
    "the distance tree of a plan",
    [PLAN, forms()],
    ["poddreshi list examples/plan-12.plan", "poddreshi plan 31 examples/plan-31.txt | poddreshi list -"],
    "First PLAN WINDOWS COMPONENTS, then for each window its position, parent (a root's is its own), component, depth, "
    "rank and rank of the last. A refusal is the line `refused NUMBER POSITION` on standard output.",
)
def _list(args) -> Reply:
    file = files.read(args.plan, PLAN_LIMIT)
    text = _listed(file)
    first, *rows = ([int(word) for word in line.split() if word != "refused"] for line in text.splitlines())
    if text.startswith("refused"):
        if args.form != "text":
            raise refusal(first[0], 0, first[1], Asked(plans=[file]))
        args.output = None  # the line that paper 01 fixes is for standard output, and a file stays as it was
        return Reply(text, refused=True, faults=[] if oldplans.unlike(file) else [f"({oldplans.HINT})"])
    data = dict(zip(("plan", "windows", "components"), first), minimum=minimum_of(file))
    return Reply(text, _COLUMNS, rows, {**data, "tree": [dict(zip(_COLUMNS, row)) for row in rows]})


@command(
    "text",
    "the text of a plan, from which `plan` makes it again",
    [PLAN, NAMES, ORIGIN, UNIT, forms()],
    [
        "poddreshi text examples/plan-12.plan",
        "poddreshi text examples/shift.plan --unit seconds",
        "poddreshi text year.plan --origin 2026-01-01 --names examples/year.txt --csv",
    ],
    "A line states the minimum handover, `minimum 30`, and in CSV a row does where it is more than 1. With --unit a line or a "
    "row before it states the unit. The plan number is given to `plan`.",
)
def _text(args) -> Reply:
    plan, rows = given(args), []
    clock = plan.clock
    columns = "begin and length" if clock.origin else "offset and length" + (f" in {clock.unit}" if clock.unit else "")
    heading = f"# plan {plan.number}, {counted(len(plan.windows), 'window')}: {columns}\n"
    if clock.unit:
        rows.append(("unit", str(clock.unit), ""))
    if plan.minimum != MINIMUM_LEAST:  # what `plan` takes where no row states it, so that other programs find windows alone
        rows.append(("minimum", clock.show_length(plan.minimum), ""))
    for window, name in zip(plan.windows, plan.names):
        rows.append((clock.show(window.offset), clock.show_length(window.length), name))
    windows = [plan.data(position) for position in range(len(plan.windows))]
    data = {"plan": plan.number, "minimum": plan.minimum, "windows": windows}
    text = heading + texts.write(plan.windows, plan.names, plan.minimum, clock)
    return Reply(text, ("offset", "length", "name"), rows, data)


@command(
    "plan",
    "a plan file from a planner's text",
    [
        word("number", "the plan number, 0 to 65,535"),
        word("text", "a planner's text"),
        option("--sort", action="store_true", help="put the windows in order of their offsets"),
        option("--empty", action="store_true", help="accept a text with no window"),
        *(MINIMUM, ORIGIN, UNIT, OUTPUT),
    ],
    [
        "poddreshi plan 31 examples/plan-31.txt -o plan-31.plan",
        "poddreshi plan 21 examples/bolting.txt --minimum 45 -o longer.plan",
        "poddreshi plan 40 examples/year.txt --origin 2026-01-01 --sort -o year.plan",
        "poddreshi plan 52 examples/shift.txt --origin 2026-01-01 -o shift.plan",
    ],
    "A line has an offset and a length and may have a name: `1440 480 North pier`. With --origin an offset may be a date, and a "
    "length may have letters: `2026-02-06 08:00 48h North pier`. What follows a # is left out, and a name in double quotes may "
    "hold one. A text whose first line is `offset,length,name` is CSV (also with ; or tabs). Two windows overlap when they share "
    "the minimum handover, and none is shorter. A line `minimum 30` states it, or a row of CSV with `minimum` for its offset; "
    "--minimum goes before what the text states, and without either it is 1. What the numbers count is in no plan file; a line "
    "`unit seconds` or `unit minutes` states it, or such a row of CSV, or its header, `Offset (seconds)`, or else --unit says "
    "it. Dates and letters become a number for each minute, or where the unit is seconds for each second, and `08:00:30` and "
    f"`1h30m20s` are taken then. An end is at most {END_LIMIT:,}. Every line that is wrong is named, and then nothing is "
    "written.",
)
def _plan(args) -> Reply:
    plan_number = number(args.number, PLAN_NUMBER_LIMIT, "a plan number")
    with reading(args.text):
        data = files.read_whole(args.text, TEXT_LIMIT, "planner's text")
        file, _ = texts.make(plan_number, data, Clock(args.origin, args.unit), args.sort, args.empty, args.minimum)
    return Reply(content=file)


@command(
    "renew",
    "a plan file with a minimum handover from an old one, which has none",
    [word("old", "a plan file of before version 2, whose header has 4 bytes"), MINIMUM, UNIT, OUTPUT],
    [
        "poddreshi renew examples/plan-31.old -o plan-31.plan",
        "poddreshi renew examples/plan-31.old --minimum 15 -o plan-31.plan",
    ],
    "The minimum handover is 1 where --minimum is left out: then the same windows overlap as before. --unit says what `2h` is. "
    "Old files are known by their length. A plan that is refused is not written.",
)
def _renew(args) -> Reply:
    minimum = texts.minimum_given(args.minimum, Clock(unit=args.unit))
    old = files.read(args.old, PLAN_LIMIT)
    try:
        file = oldplans.renewed(old, MINIMUM_LEAST if minimum is None else minimum)
    except ValueError as error:
        raise Unfit(f"{files.called(args.old)}: {error}") from None
    calls.validate(file)
    return Reply(content=file)


COMMANDS = [_list, _text, _plan, _renew]
