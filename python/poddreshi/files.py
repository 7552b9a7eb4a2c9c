"""Inputs that are read no further than their format goes, and outputs that are whole or not there."""
import contextlib
import errno
import os
import select
import shutil
import stat
import sys
import tempfile
from pathlib import Path
from typing import Iterable, Iterator, Optional, Sequence, Tuple, Union

from .failures import Failure

_STREAMS = ("/dev/std", "/dev/fd/", "/proc/")
_BESIDE = ".poddreshi."  # how the name of a file or folder begins that is not yet whole, or kept until another is
_closed = set()

Data = Union[bytes, Iterable[bytes]]  # what is written: whole, or in parts that are made as they are written


def hold_standard_streams() -> None:
    """Keeps the places of streams that the caller closed, so that no other file is opened there and written over."""
    for descriptor in range(3):
        try:
            os.fstat(descriptor)
        except OSError:
            os.open(os.devnull, os.O_RDWR)  # the lowest place that is free, which is this one
            _closed.add(descriptor)
    if sys.stderr is None:
        sys.stderr = open(os.devnull, "w", encoding="utf-8")


def say(line: str) -> None:
    """A line on standard error. What an input holds is shown, and never obeyed by a terminal."""
    shown = "".join(each if each.isprintable() else each.encode("unicode_escape").decode() for each in line)
    with contextlib.suppress(OSError):
        sys.stderr.write(shown + "\n")
        sys.stderr.flush()


def _standard(place: int) -> int:
    """A descriptor of its own for a standard stream: some file systems tell of a full disk only when one is closed."""
    if place in _closed:
        raise OSError(errno.EBADF, os.strerror(errno.EBADF))
    return os.dup(place)


def called(name: str) -> str:
    """How an input is called."""
    return "standard input" if name == "-" else name


def read(name: str, limit: int) -> bytes:
    """The file, or standard input for `-`, up to one byte past the limit."""
    data = bytearray()
    try:
        with open(_standard(0) if name == "-" else name, "rb", buffering=0) as stream:
            while part := stream.read(limit + 1 - len(data)):
                data += part
    except OSError as error:
        raise Failure.of(called(name), error) from None
    return bytes(data)


def read_whole(name: str, limit: int, thing: str) -> bytes:
    """The same, for an input whose length the library does not judge."""
    data = read(name, limit)
    if len(data) > limit:
        raise Failure(f"{called(name)}: is longer than {limit:,} bytes, so it is no {thing}")
    return data


def _write_part(descriptor: int, part: bytes) -> None:
    rest = memoryview(part)
    while rest:
        try:
            rest = rest[os.write(descriptor, rest) :]
        except BlockingIOError:  # whoever opened the pipe does not wait for it; we do
            select.select([], [descriptor], [])


def _write_all(descriptor: int, data: Data, to_disk: bool = False) -> None:
    """Writes to the last byte, and closes."""
    try:
        for part in [data] if isinstance(data, bytes) else data:
            _write_part(descriptor, part)
        if to_disk:
            os.fsync(descriptor)
    finally:
        os.close(descriptor)


def _mode(path: Path) -> int:
    """That of the file that is replaced, or of a new one."""
    try:
        return stat.S_IMODE(path.stat().st_mode)
    except FileNotFoundError:
        mask = os.umask(0)
        os.umask(mask)
        return 0o666 & ~mask


@contextlib.contextmanager
def _beside(path: Path, data: Data, mode: Optional[int] = None) -> Iterator[str]:
    """A whole new file beside another, which is still to be renamed. Where that fails it is removed."""
    descriptor, beside = tempfile.mkstemp(prefix=_BESIDE, dir=path.parent)
    try:
        _write_all(descriptor, data, to_disk=True)
        os.chmod(beside, _mode(path) if mode is None else mode)
        yield beside
    except BaseException:
        with contextlib.suppress(OSError):
            os.unlink(beside)
        raise


def replace(path: Path, data: Data, mode: Optional[int] = None) -> None:
    """Writes a file beside and renames it, so that the old one stays until the new one is whole."""
    with _beside(path, data, mode) as beside:
        os.replace(beside, path)


@contextlib.contextmanager
def _in_place(beside: str, path: Path) -> Iterator[None]:
    """A file beside another takes its place. Where what follows fails, the old one has its place again, or there is none again."""
    old, new = beside + ".old", not path.exists()
    with contextlib.suppress(OSError):  # a file system without second names keeps no old file, and the new one stays
        os.link(path, old)
    try:
        os.replace(beside, path)
        yield
    except BaseException:
        with contextlib.suppress(OSError):
            if new:
                os.unlink(path)
            else:
                os.replace(old, path)
        raise
    finally:
        with contextlib.suppress(OSError):
            os.unlink(old)


def _is_file(name: Optional[str]) -> bool:
    """Whether an output is a file to be replaced. /dev/stdout may lead to one that others write to as well, so it is not."""
    return name not in (None, "-") and not name.startswith(_STREAMS) and (os.path.isfile(name) or not os.path.exists(name))


def is_standard_output(name: Optional[str]) -> bool:
    """Whether an output goes there, by whatever name."""
    if name in (None, "-"):
        return True
    with contextlib.suppress(OSError):
        return os.path.samestat(os.stat(name), os.fstat(1))
    return False


@contextlib.contextmanager
def _writing(name: Optional[str]) -> Iterator[None]:
    """Says which output failed."""
    try:
        yield
    except OSError as error:
        raise Failure.of("standard output" if name in (None, "-") else name, error) from None


def _write_stream(name: Optional[str], data: Data) -> None:
    _write_all(_standard(1) if name in (None, "-") else os.open(name, os.O_WRONLY | os.O_APPEND), data)


def write(name: Optional[str], data: Data) -> None:
    """To a file, or to standard output for None and `-`. A pipe or a device is written to as it is."""
    write_together([(name, data)])


def write_together(outputs: Sequence[Tuple[Optional[str], Data]]) -> None:
    """The same for several outputs, all or none as far as it can be had: no file takes its place before all are whole, and where one
    of them cannot, or a pipe or a device fails after that, the old ones have their places again."""
    files = [(name, Path(os.path.realpath(name)), data) for name, data in outputs if _is_file(name)]
    streams = [(name, data) for name, data in outputs if not _is_file(name)]
    with contextlib.ExitStack() as stack:
        waiting = []
        for name, path, data in files:
            with _writing(name):
                waiting.append((name, path, stack.enter_context(_beside(path, data))))
        for name, path, beside in waiting:
            with _writing(name):
                stack.enter_context(_in_place(beside, path))
        for name, data in streams:
            with _writing(name):
                _write_stream(name, data)


@contextlib.contextmanager
def new_folder(path: Path, over: bool = False) -> Iterator[Path]:
    """A folder to fill, which takes its name when all of it is there. One of that name that is not empty is in the way, or
    goes where the new one stands over it."""
    path = Path(os.path.realpath(path))
    path.parent.mkdir(parents=True, exist_ok=True)
    scratch = Path(tempfile.mkdtemp(prefix=_BESIDE, dir=path.parent))
    try:
        fresh = scratch / "new"
        fresh.mkdir()
        yield fresh
        if over and path.exists():
            path.rename(scratch / "old")
        fresh.rename(path)
    finally:
        shutil.rmtree(scratch, ignore_errors=True)
