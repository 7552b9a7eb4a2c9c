"""Building in a checkout: the prover makes two static libraries and the listing program, `ar` joins the two, and a C compiler makes
the shared library of them.

What is built stands in a folder named for the content of its sources, so it is there or it is not: nothing is judged by file
times, and a copied or moved checkout stays built.
"""
import contextlib
import fcntl
import os
import shutil
import subprocess
import sys
import tempfile
from pathlib import Path
from typing import Iterator, List

from . import files, places
from .failures import Failure
from .sources import LIBRARIES

HOW_LONG = "some six minutes on two processors the first time, and less after a change"
STATIC = "libpoddreshi.a"
PROCESSOR = ("--cpu", "x86-64")  # every x86-64 processor; without it rt leaves out the oldest


def ensure(root: Path) -> Path:
    """The folder of what is built, which is made where it is missing."""
    done = places.built(root)
    if done.is_dir():
        return done
    _needed("rt", "which proves and builds it")
    _needed("ar", "which joins the static library")
    _needed(_compiler()[0], "a C compiler, which makes the shared library")
    try:
        (root / "target").mkdir(exist_ok=True)
        with _alone(root / "target" / "front.lock"):
            if not done.is_dir():
                _make(root, done)
    except OSError as error:
        raise Failure.of(f"the library is not built, and it cannot be built in {root}", error) from None
    return done


def _needed(program: str, what: str) -> None:
    if not shutil.which(program):
        raise Failure(f"the library is not built for these sources, and {program}, {what}, is not on the path")


def _compiler() -> List[str]:
    return os.environ.get("CC", "").split() or ["cc"]


@contextlib.contextmanager
def _alone(lock: Path) -> Iterator[None]:
    """One at a time; whoever comes second waits."""
    with open(lock, "w") as held:
        try:
            fcntl.flock(held, fcntl.LOCK_EX | fcntl.LOCK_NB)
        except BlockingIOError:
            files.say("poddreshi: another command is building the library; waiting for it")
            fcntl.flock(held, fcntl.LOCK_EX)
        yield


def _make(root: Path, done: Path) -> None:
    files.say(f"poddreshi: proving and building the library: {HOW_LONG}")
    for name in LIBRARIES:
        _run(_crate(root, name), ["rt", "lib", *PROCESSOR], "the library is not proved, so it was not built")
    # It is made by being run; with nothing to read it prints a line, which nobody wants.
    otherwise = "the listing program is not proved, so it was not built"
    _run(_crate(root, "listing"), ["rt", "run", *PROCESSOR], otherwise, subprocess.DEVNULL)
    older = list(done.parent.iterdir()) if done.parent.is_dir() else []
    with files.new_folder(done) as folder:
        lib = folder / "lib"
        (lib / "poddreshi").mkdir(parents=True)
        _join([_crate(root, name) / "out" / f"lib{name}.a" for name in LIBRARIES], lib / STATIC)
        shutil.copy(_crate(root, "listing") / "out" / "listing", lib / "poddreshi")
        archive = ["-Wl,--whole-archive", str(lib / STATIC), "-Wl,--no-whole-archive"]
        linked = ["-shared", f"-Wl,-soname,{places.LIBRARY}", "-o", str(lib / places.LIBRARY), *archive]
        _run(root, [*_compiler(), *linked], "the shared library could not be linked")
    for folder in older:
        shutil.rmtree(folder, ignore_errors=True)
    files.say("poddreshi: built")


def _crate(root: Path, name: str) -> Path:
    return root / "crates" / name


def _join(archives: List[Path], whole: Path) -> None:
    """One archive with the object of each, so that a program that calls on tags alone has no code on plans in it."""
    otherwise = "the static library could not be joined"
    with tempfile.TemporaryDirectory(dir=whole.parent) as scratch:
        for archive in archives:
            _run(Path(scratch), ["ar", "x", str(archive)], otherwise)
        _run(Path(scratch), ["ar", "rcs", str(whole), *sorted(os.listdir(scratch))], otherwise)


def _run(folder: Path, words: List[str], otherwise: str, printed=sys.stderr) -> None:
    """A step of the build, with what it prints on standard error, or where `printed` says."""
    if subprocess.run(words, cwd=folder, stdin=subprocess.DEVNULL, stdout=printed).returncode:
        raise Failure(otherwise)
