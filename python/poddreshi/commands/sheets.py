"""chains: Friday's sheet."""
from .. import files, pages, sheets
from ..commandline import NAMES, ORIGIN, PLAN, UNIT, command, exit_code, forms, given, once, reading, word
from ..figures import TEXT_LIMIT
from ..replies import Reply


@command(
    "chains",
    "Friday's sheet: for each rig the count and its chain, window by window",
    [
        PLAN,
        word("rigs", "lines of a rig's name, its present window and the window where it is wanted"),
        *(NAMES, ORIGIN, UNIT, exit_code("no chain"), forms("html")),
    ],
    [
        "poddreshi chains year.plan examples/rigs.txt --names examples/year.txt --origin 2026-01-01",
        "poddreshi chains year.plan examples/rigs.txt --html -o friday.html",
    ],
    "The last two words of a line are positions, or names in double quotes where --names gives them; or RIGS is CSV with "
    "the header `rig,present,wanted`. A line that is wrong is named and spoils no other; the exit status is then 1.",
)
def _chains(args) -> Reply:
    once(args.plan, args.names, args.rigs)
    plan = given(args)
    with reading(args.rigs):
        sheet = sheets.make(plan, files.read_whole(args.rigs, TEXT_LIMIT, "list of rigs"))
    reply = sheets.reply(sheet, files.called(args.rigs))
    return reply._replace(content=pages.page(sheet).encode()) if args.form == "html" else reply


COMMANDS = [_chains]
