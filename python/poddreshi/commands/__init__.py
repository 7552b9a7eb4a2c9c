"""The subcommands, in the order in which the help names them."""
from typing import List

from .. import places
from ..commandline import Command
from . import changes, delivery, paths, pictures, plans, sheets, tags


def all_commands() -> List[Command]:
    """Building and installing are for a checkout alone."""
    found = [*plans.COMMANDS, *changes.COMMANDS, *tags.COMMANDS, *paths.COMMANDS, *pictures.COMMANDS, *sheets.COMMANDS]
    return found + (delivery.COMMANDS if places.checkout() else [])
