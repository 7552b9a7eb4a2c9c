"""tags, tag, explain, count, page: tag files, tags, and the answer from two of them, once or for many pairs."""
import contextlib
from pathlib import Path
from typing import Iterator, Optional, Sequence

from .. import calls, files, pairs
from ..commandline import OUTPUT, PLAN, command, exit_code, forms, number, once, option, reading, word
from ..failures import Failure, Mistake
from ..figures import PLAN_LIMIT, TAGS_LIMIT, TEXT_LIMIT
from ..refusals import Refused
from ..replies import Reply, aligned
from ..tagforms import LONG, SHORT, TagForm
from ..wording import counted

_SHORT = option(
    "--short",
    dest="tag_form",
    action="store_const",
    const=SHORT,
    default=LONG,
    help="short tags, eight bytes each, of a plan in which no window ends before the one ahead of it",
)
_ADVICE = {LONG: "leave out --short", SHORT: "add --short"}


def _tag_file(name: str, form: TagForm) -> bytes:
    return files.read_whole(name, TAGS_LIMIT * form.length, f"{form.thing} file")


def _one_tag(name: str) -> bytes:
    """So much that a tag of the other form is seen to be one."""
    return files.read(name, LONG.length)


def _hint(form: TagForm, inputs: Sequence[bytes], at_fault: int, advice: str) -> str:
    """What an input that was refused may be, judged by its length: nothing in a tag says of which form it is."""
    other = LONG if form is SHORT else SHORT
    length = len(inputs[at_fault])
    if not length or length % other.length:
        return ""
    if any(len(each) == form.length for each in inputs):
        return " (one may be a short tag and the other not: a pair takes two of one form)"
    return f" ({counted(length, 'byte')} may be {counted(length // other.length, other.thing)}: {advice or _ADVICE[other]})"


@contextlib.contextmanager
def _hinting(form: TagForm, *inputs: bytes, advice: str = "") -> Iterator[None]:
    """Adds the hint to a refusal of two tags, or of a tag or a tag file. A command that has no --short gives other advice."""
    try:
        yield
    except Refused as no:
        hint = _hint(form, inputs, min(no.input, len(inputs) - 1), advice)  # input 1 may be the second position in one file
        raise Refused(no.number, no.input, no.position, no.words + hint) from None


def _lookup(tags: bytes, at: int, form: TagForm) -> bytes:
    return calls.short_lookup(tags, at) if form is SHORT else calls.lookup(tags, at)


def _pair_at(tags: bytes, first: int, second: int, form: TagForm) -> calls.Handovers:
    with _hinting(form, tags):
        return calls.pair_at(tags, first, second, form)


@command(
    "tags",
    "the tag file of a plan, ten bytes for each window",
    [
        *(PLAN, _SHORT),
        option("--into", metavar="DIR", help="a file for each window's tag, 0000.tag and on, in a new folder"),
        OUTPUT,
    ],
    [
        "poddreshi tags examples/plan-12.plan -o plan-12.tags",
        "poddreshi tags year.plan -o year.tags",
        "poddreshi tags examples/plan-12.plan --into cabinets",
        "poddreshi tags --short examples/even.plan -o even.tags",
        "poddreshi tags --short examples/even.plan --into small-cabinets",
    ],
    "The folder of --into is new or empty, so that no cabinet is left with the tag of an older plan. With --short it is eight "
    "bytes for each window. Nothing in a tag says of which form it is: the other commands take --short for short tags alone.",
)
def _tags(args) -> Reply:
    form = args.tag_form
    made = calls.tags(files.read(args.plan, PLAN_LIMIT), form)
    if args.into is None:
        return Reply(content=made.tags)
    if args.output is not None:
        raise Mistake("tags writes to a file or into a folder, not both")
    try:
        with files.new_folder(Path(args.into)) as folder:
            for position in range(made.windows):
                files.replace(folder / f"{position:04}.tag", _lookup(made.tags, position, form))
    except OSError as error:
        raise Failure.of(args.into, error) from None
    return Reply(f"{made}: a {form.thing} for each in {args.into}")


@command(
    "tag",
    "one tag of a tag file, ten bytes",
    [word("tags", "a tag file"), word("position", "a window's position in the plan"), _SHORT, OUTPUT],
    ["poddreshi tag plan-12.tags 4 -o 4.tag", "poddreshi tag --short even.tags 4 -o small-4.tag"],
)
def _tag(args) -> Reply:
    at, form = number(args.position), args.tag_form
    tags = _tag_file(args.tags, form)
    with _hinting(form, tags):
        return Reply(content=_lookup(tags, at, form))


@command(
    "explain",
    "the numbers of a tag",
    [
        word("tag", "a tag, or a tag file where a position follows"),
        word("position", "a position in the tag file", nargs="?"),
        *(_SHORT, forms()),
    ],
    [
        "poddreshi explain 4.tag",
        "poddreshi explain plan-12.tags 4",
        "poddreshi explain --short small-4.tag",
        "poddreshi explain --short even.tags 4",
    ],
)
def _explain(args) -> Reply:
    form = args.tag_form
    given = _one_tag(args.tag) if args.position is None else _tag_file(args.tag, form)
    with _hinting(form, given):
        tag = given if args.position is None else _lookup(given, number(args.position), form)
        numbers = calls.read(tag, form)
    text = aligned([(name, str(field)) for name, field in zip(form.fields, numbers)], right=(1,))
    return Reply(text, numbers._fields, [numbers], numbers._asdict())


@command(
    "count",
    "the least number of handovers between two windows, from their tags alone",
    [
        word("tags", "a tag file, or the first of two tags"),
        word("first", "a position, or the second of two tags"),
        word("second", "a position", nargs="?"),
        option("--all", action="store_true", help="between one position and every position of the tag file"),
        *(_SHORT, exit_code("no chain"), forms()),
    ],
    [
        "poddreshi count cabinets/0004.tag cabinets/0005.tag",
        "poddreshi count plan-12.tags 1 5",
        "poddreshi count plan-12.tags 1 --all --csv",
        "poddreshi count --short small-cabinets/0004.tag small-cabinets/0005.tag",
        "poddreshi count --short even.tags 1 5",
        "poddreshi count --short even.tags 1 --all",
    ],
    "Both tags are of one form, and --short says that they are short: a file does not tell.",
    usage="\n       ".join(f"%(prog)s [options] {form}" for form in ("TAG TAG", "TAGS FIRST SECOND", "TAGS FIRST --all")),
)
def _count(args) -> Reply:
    form = args.tag_form
    if args.all:
        if args.second is not None:
            raise Mistake("count takes a tag file and one position with --all")
        return _count_all(_tag_file(args.tags, form), number(args.first), form)
    if args.second is not None:
        first, second = number(args.first), number(args.second)
        return _counted(_pair_at(_tag_file(args.tags, form), first, second, form), first, second)
    once(args.tags, args.first)
    two = [_one_tag(name) for name in (args.tags, args.first)]
    with _hinting(form, *two):
        return _counted(calls.pair(*two, form))


def _counted(answer: calls.Handovers, first: Optional[int] = None, second: Optional[int] = None) -> Reply:
    named = {} if first is None else {"first": first, "second": second}
    row = [*named.values(), str(answer) if answer.count is None else answer.count]
    data = {**named, "handovers": answer.count}
    return Reply(str(answer), tuple(data), [row], data, otherwise=answer.count is None)


def _count_all(tags: bytes, first: int, form: TagForm) -> Reply:
    """One position beside every other; a tag that is refused spoils no other row."""
    with _hinting(form, tags):
        _lookup(tags, first, form)
    rows, shown, data, faults = [], [], [], []
    for second in range(len(tags) // form.length):
        try:
            answer = _pair_at(tags, first, second, form)
            words, row = str(answer), {"second": second, "handovers": answer.count}
        except Refused as no:
            words, row = str(no), {"second": second, "refused": no.number}
            faults.append(f"window {second}: {no}")
        shown.append((str(second), words))
        data.append(row)
        rows.append((first, second, words if row.get("handovers") is None else row["handovers"]))
    header, apart = ("first", "second", "handovers"), any(row.get("handovers") is None for row in data)
    return Reply(aligned(shown, right=(0,)), header, rows, {"first": first, "counts": data}, otherwise=apart, faults=faults)


@command(
    "page",
    "the least numbers of handovers for many pairs of a tag file, a line for each pair",
    [
        word("tags", "a tag file"),
        word("pairs", "lines of two positions; without it, or for -, standard input", nargs="?"),
        option("--all", action="store_true", help="every position of the tag file beside every position, in place of PAIRS"),
        *(exit_code("no chain"), forms()),
    ],
    [
        "poddreshi page year.tags examples/pairs.txt",
        "poddreshi page plan-12.tags --all --csv -o plan-12.csv",
        "echo 1 5 | poddreshi page plan-12.tags",
    ],
    "A line of PAIRS has two positions with blanks between them, and what follows a # is left out; or PAIRS is CSV with the "
    "header `first,second`. A line that is wrong is named, and then no pair is answered. A pair that is refused has its refusal "
    "for an answer and spoils no other; the exit status is still 0. With --all each position has the rows of `count TAGS FIRST "
    "--all`, its own among them; they are written as they are answered.",
    usage="\n       ".join(f"%(prog)s [options] {form}" for form in ("TAGS [PAIRS]", "TAGS --all")),
)
def _page(args) -> pairs.Answers:
    if args.all and args.pairs is not None:
        raise Mistake("page takes a list of pairs or --all, not both")
    source = "-" if args.pairs is None else args.pairs
    if not args.all:
        once(args.tags, source)
    tags = _tag_file(args.tags, LONG)
    with _hinting(LONG, tags, advice="a page takes none"):
        calls.page(tags, [])  # so that a tag file of wrong length is refused before a line is written
    if args.all:
        return pairs.Answers.of_all(tags)
    with reading(source):
        return pairs.Answers.of(tags, pairs.read(files.read_whole(source, TEXT_LIMIT, "list of pairs")))


COMMANDS = [_tags, _tag, _explain, _count, _page]
