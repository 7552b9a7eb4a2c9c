"""What ends a command early, and the exit status of each."""
import os

ANSWERED, REFUSED, MISTAKEN, FAILED, OTHERWISE, INTERRUPTED = 0, 1, 2, 3, 4, 130


class Mistake(Exception):
    """The command is mistaken."""


class Unfit(Exception):
    """An input is not what the command takes, which no question of the library says."""


class Failure(Exception):
    """An input or an output failed, or what the command needs is not there."""

    @classmethod
    def of(cls, what: str, error: OSError) -> "Failure":
        what = what or "a file with no name"
        return cls(f"{what}: {(error.strerror or os.strerror(error.errno or 0)).lower()}")
