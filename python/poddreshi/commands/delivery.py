"""build, install: in a checkout alone."""
from .. import building, installing, places
from ..commandline import command, word
from ..failures import Failure, Mistake
from ..replies import Reply


@command(
    "build",
    "prove and build the library and the listing program",
    [],
    ["./poddreshi build"],
    "Prints the folder of the libraries. Every other command does this by itself where it is needed. It takes "
    f"{building.HOW_LONG}.",
)
def _build(args) -> Reply:
    return Reply(str(building.ensure(places.checkout()) / "lib"))


@command(
    "install",
    "lay down the libraries, the header, the Python package and this command",
    [word("prefix", "such as /usr/local; DESTDIR is respected")],
    ["./poddreshi install /usr/local", "DESTDIR=stage ./poddreshi install /usr"],
    "The tree runs on a computer with no prover and no compiler, and may be moved.",
)
def _install(args) -> Reply:
    if not args.prefix:  # as a variable that is not set
        raise Mistake("PREFIX is the name of a folder")
    root = places.checkout()
    built = building.ensure(root)
    try:
        target = installing.install(root, built, args.prefix)
    except OSError as error:
        raise Failure.of(str(error.filename or installing.staged(args.prefix)), error) from None
    return Reply(f"installed in {target}")


COMMANDS = [_build, _install]
