"""The command line: a subcommand is a Command, and its run gives a Reply. Here are the options that several share, and the one
place where a reply is written and an exit status chosen."""
import argparse
import contextlib
import os
import shutil
import signal
import sys
import textwrap
from typing import Callable, Iterator, NamedTuple, Optional, Sequence

from . import building, calls, failures, files, figures, names, places, times
from ._version import __version__
from .failures import Failure, Mistake, Unfit
from .given import Given
from .library import LibraryMissing
from .plans import windows_of
from .refusals import Refused
from .replies import Reply
from .texts import Faulty
from .times import Clock
from .wording import cited

DESCRIPTION = """Service windows, their distance tree and ten-byte tags. PLAN, OLD, TEXT, TAGS, TAG, PAIRS and RIGS are files, or
- for standard input."""
STATUS = """The exit status is 0 for an answer, 1 where an input is refused, 2 where the command is mistaken and 3 where an input
or an output failed. With --exit-code it is 4 for the answers "no chain" and "different". A refusal goes to standard error in
words."""
WIDTH = min(shutil.get_terminal_size().columns, 100)  # of the help


class Parser(argparse.ArgumentParser):
    def __init__(self, **options):
        super().__init__(
            add_help=False,
            allow_abbrev=False,
            formatter_class=lambda prog: argparse.RawDescriptionHelpFormatter(prog, max_help_position=26, width=WIDTH),
            **options,
        )
        self.add_argument("-h", "--help", action="help", help="show this and exit")

    def error(self, message: str):
        raise Mistake(f"{message}; see {self.prog} --help")

    def _print_message(self, message: str, file=None) -> None:
        """Help and version go the way of every output, so that a full disk is seen."""
        files.write(None, message.encode())


Argument = Callable[[Parser], object]  # adds an argument or some


class Command(NamedTuple):
    run: Callable[[argparse.Namespace], Reply]
    name: str
    summary: str
    arguments: Sequence[Argument]
    examples: Sequence[str]
    details: str = ""
    usage: Optional[str] = None


def command(*words, **options) -> Callable[[Callable], Command]:
    """Makes the function below it a subcommand."""
    return lambda run: Command(run, *words, **options)


def _typed(read: Callable) -> Callable:
    """What `read` makes of a word of the command; what it says of one that is wrong is the command's mistake."""

    def typed(words: str):
        try:
            return read(words)
        except ValueError as error:
            raise argparse.ArgumentTypeError(str(error)) from None

    return typed


def word(name: str, help: str, metavar: str = "", **options) -> Argument:
    """A word of the command, which the help has in capitals."""
    return lambda parser: parser.add_argument(name, metavar=metavar or name.upper(), help=help, **options)


def option(*names: str, **options) -> Argument:
    return lambda parser: parser.add_argument(*names, **options)


def forms(*others: str, output: Optional[Argument] = None, **worded: str) -> Argument:
    """The forms of an answer beside text, some with words of their own, and where it goes, or what else the command writes."""

    def add(parser: Parser) -> None:
        group = parser.add_mutually_exclusive_group()
        for form in ("csv", "json", *others, *worded):
            words = worded.get(form, f"answer as {form.upper()}")
            group.add_argument(f"--{form}", dest="form", action="store_const", const=form, default="text", help=words)
        (output or OUTPUT)(parser)

    return add


def exit_code(answer: str) -> Argument:
    return option("--exit-code", action="store_true", help=f'exit with 4 where the answer is "{answer}"')


PLAN = word("plan", "a plan file")
OUTPUT = option("-o", "--output", metavar="FILE", help="write to a file, which is replaced when all is there")
ORIGIN = option("--origin", metavar="DATE", type=_typed(times.date), help="the date of number 0: 2026-01-01, or with a time")
_UNIT = f"what the plan's numbers count, which no plan file says: {' or '.join(map(str, times.UNITS))}"
UNIT = option("--unit", metavar="UNIT", type=_typed(times.unit), help=_UNIT)
MINIMUM = option("--minimum", metavar="LENGTH", help="the minimum handover: a number (30), or 2h")
NAMES = option("--names", metavar="FILE", help="show names: the plan's own text, with its unit, or lines of position and name")


def number(words: str, limit: Optional[int] = None, thing: str = "a position") -> int:
    """A decimal number of the command."""
    if not (words.isascii() and words.isdigit() and len(words) <= 40):
        raise Mistake(f"{thing} is a number from 0, not {cited(words)}")
    if limit is not None and int(words) > limit:
        raise Mistake(f"{thing} is at most {limit:,}")
    return int(words)


def given(args: argparse.Namespace) -> Given:
    """The plan of the command, with names, dates and a unit where they were asked for, or a unit where its text states one."""
    once(args.plan, args.names)
    file = files.read(args.plan, figures.PLAN_LIMIT)
    accepted, windows, clock = calls.validate(file), windows_of(file), Clock(args.origin, args.unit)
    if args.names is None:
        return Given(file, accepted.plan, windows, names.Names([""] * len(windows)), clock.checked())
    with reading(args.names):
        named = names.read(files.read_whole(args.names, figures.TEXT_LIMIT, "file of names"), windows, clock)
    return Given(file, accepted.plan, windows, *named)


def once(*inputs: Optional[str]) -> None:
    if inputs.count("-") > 1:
        raise Mistake("standard input can be one input and not two")


@contextlib.contextmanager
def reading(name: str) -> Iterator[None]:
    """Says in which file the faults of a text are."""
    try:
        yield
    except Faulty as bad:
        bad.source = files.called(name)
        raise


def _filled(words: str) -> str:
    return textwrap.fill(words, WIDTH, break_long_words=False, break_on_hyphens=False)


def parser(commands: Sequence[Command]) -> Parser:
    top = Parser(prog="poddreshi", description=_filled(DESCRIPTION), epilog=_filled(STATUS))
    top.add_argument("--version", action="version", version=f"poddreshi {__version__}", help="show the version and exit")
    below = top.add_subparsers(metavar="COMMAND", dest="command", required=True)
    for each in commands:
        own = below.add_parser(
            each.name,
            help=each.summary,
            description=_filled(f"{each.summary[0].upper()}{each.summary[1:]}. {each.details}"),
            epilog="\n  ".join(["examples:", *each.examples]),
            usage=each.usage,
        )
        for add in each.arguments:
            add(own)
        own.set_defaults(run=each.run)
    return top


def _answer(commands: Sequence[Command], words: Optional[Sequence[str]]) -> int:
    args = parser(commands).parse_args(words)
    root = places.checkout()
    if root and not places.told():
        building.ensure(root)
    reply = args.run(args)
    answer = (getattr(args, "output", None), reply.encoded(getattr(args, "form", "text")))
    files.write_together([*reply.files, answer])
    for line in (*reply.aside, *reply.faults):
        files.say(line)
    if reply.refused or reply.faults:
        return failures.REFUSED
    return failures.OTHERWISE if reply.otherwise and getattr(args, "exit_code", False) else failures.ANSWERED


def main(commands: Sequence[Command], words: Optional[Sequence[str]] = None) -> int:
    """Runs a subcommand and gives the exit status; what goes wrong is told in a line and never by a traceback."""
    files.hold_standard_streams()
    signal.signal(signal.SIGTERM, lambda *_: sys.exit(128 + signal.SIGTERM))  # so that what stands beside is removed
    try:
        return _answer(commands, words)
    except (Refused, Unfit) as no:
        files.say(str(no))
        return failures.REFUSED
    except Faulty as bad:
        for fault in bad.faults:
            files.say(f"{bad.source}, {fault}")
        return failures.REFUSED
    except Mistake as mistake:
        files.say(f"poddreshi: {mistake}")
        return failures.MISTAKEN
    except (Failure, LibraryMissing) as failure:
        files.say(f"poddreshi: {failure}")
        return failures.FAILED
    except OSError as error:
        files.say(f"poddreshi: {Failure.of(error.filename or 'the system', error)}")
        return failures.FAILED
    except MemoryError:
        files.say("poddreshi: there is too little memory")
        return failures.FAILED
    except KeyboardInterrupt:
        return failures.INTERRUPTED
    except Exception:
        if os.environ.get("PODDRESHI_TRACEBACK"):
            raise
        files.say("poddreshi: something went wrong that should not have; PODDRESHI_TRACEBACK=1 shows where")
        return failures.FAILED
