"""What the tests of the front share. They run on a built checkout: ./poddreshi build, then tests/run."""
import csv
import ctypes
import io
import json
import os
import random
import resource
import shutil
import struct
import subprocess
import sys
import tempfile
import threading
import traceback
import unittest
from pathlib import Path

ROOT = Path(__file__).resolve().parents[2]
FRONT = ROOT / "poddreshi"
EXAMPLES = ROOT / "examples"
sys.path.insert(0, str(ROOT / "python"))

import poddreshi  # noqa: E402
from poddreshi import commandline, places  # noqa: E402
from poddreshi.commands import all_commands  # noqa: E402

PYTHON = {"PYTHONPYCACHEPREFIX": str(ROOT / "target" / "tests" / "python")}

PLAN_12 = (EXAMPLES / "plan-12.plan").read_bytes()
TAGS_12 = bytes.fromhex(
    "0c000000000005000400" "0c000000010000000300" "0c000000010003000200" "0c000000010004000400"
    "0c000000020002000100" "0c000000030001000100" "0c000100000000000000"
)
EVEN = (EXAMPLES / "even.plan").read_bytes()  # plan 14
SHORT_TAGS = bytes.fromhex(
    "0e00000000000500" "0e00000001000200" "0e00000001000400" "0e00000002000100"
    "0e00000002000300" "0e00000003000000" "0e00010000000100" "0e00010001000000"
)
BOLTING = (EXAMPLES / "bolting.plan").read_bytes()  # plan 21, with a minimum of 30
SHIFT = (EXAMPLES / "shift.plan").read_bytes()  # plan 52, in seconds, with a minimum of 90
PLAN_31 = EXAMPLES / "plan-31.plan"
END_LIMIT = 2**32 - 1
NAMED = ("--names", EXAMPLES / "year.txt", "--origin", "2026-01-01")
LISTING_12 = "12 7 2\n0 0 0 0 5 4\n1 0 0 1 0 3\n2 0 0 1 3 2\n3 0 0 1 4 4\n4 2 0 2 2 1\n5 4 0 3 1 1\n6 6 1 0 0 0\n"


def built() -> Path:
    return places.built(ROOT)


def plan(*windows, number=12, minimum=1) -> bytes:
    return poddreshi.pack(number, windows, minimum)


# A plan that each question refuses, with the words of the refusal.
REFUSED_PLANS = {
    b"\x0c\0\0": "1: the plan has 3 bytes; a plan has at least 8",
    b"\x0c\0\x01\x08\0\0\0\0": "2: the plan is said to have 2,049 windows; a plan has at most 2,048",
    plan((0, 9), minimum=0)[:-1]: "14: the plan has a minimum handover of 0; a minimum is 1 to 86,400",
    plan((0, 9))[:-1]: "3: the plan has 15 bytes; with 1 window it has exactly 16",
    plan((5, 0), (6, 5)): "4: window 0 of the plan has length 0; a length is at least the minimum handover, 1",
    plan((5, 5), (4, 0)): "4: window 1 of the plan has length 0; a length is at least the minimum handover, 1",
    plan((END_LIMIT, 1)): "5: window 0 of the plan ends at 4,294,967,296; an end is at most 4,294,967,295",
    plan((5, 5), (4, 5)): "6: window 1 of the plan begins at 4, earlier than the window before it, at 5",
}


def old_plan(*windows, number=12) -> bytes:
    """A plan file of before the minimum handover."""
    return struct.pack(f"<HH{2 * len(windows)}I", number, len(windows), *(each for window in windows for each in window))


def random_windows(generator: random.Random, count: int, span: int = 5000, longest: int = 400) -> list:
    return sorted((generator.randrange(span), generator.randrange(1, longest)) for _ in range(count))


def line_plan(count: int = 2048) -> bytes:
    """Each window overlaps the one before and the one behind alone."""
    return plan(*((2 * v, 3) for v in range(count)))


def refusal(call, *arguments):
    """The three numbers of a call's refusal, or None where it answers."""
    try:
        call(*arguments)
    except poddreshi.Refused as no:
        return no.number, no.input, no.position
    return None


def obey_modes() -> None:
    """In a child: root, too, is kept out by a file's mode (CAP_DAC_OVERRIDE is left behind at the next program)."""
    if os.geteuid() == 0:
        ctypes.CDLL(None).prctl(24, 1, 0, 0, 0)


def needs_modes(test):
    """Skips a test where that cannot be had."""
    with tempfile.TemporaryDirectory() as folder:
        os.chmod(folder, 0o555)
        tried = subprocess.run(["touch", folder + "/x"], preexec_fn=obey_modes, stderr=subprocess.DEVNULL)
    return unittest.skipIf(tried.returncode == 0, "the superuser is kept out of nothing here")(test)


def _drained(descriptor: int) -> "tuple[threading.Thread, list]":
    parts = []

    def drain():
        with open(descriptor, "rb") as stream:
            parts.append(stream.read())

    thread = threading.Thread(target=drain)
    thread.start()
    return thread, parts


def forked(words, environment, stdin, stdout, cwd, preexec_fn=lambda: None) -> subprocess.CompletedProcess:
    """The command line in a child that has all modules already; streams and exit status as with subprocess.run."""
    errors, out = os.pipe(), os.pipe() if stdout == subprocess.PIPE else None
    target = out[1] if out else stdout if isinstance(stdout, int) else stdout.fileno()
    child = os.fork()
    if child == 0:
        status = 70
        try:
            for place, descriptor in ((0, stdin.fileno()), (1, target), (2, errors[1])):
                os.dup2(descriptor, place)
            os.closerange(3, 256)
            os.chdir(cwd)
            os.environ.clear()
            os.environ.update(environment)
            sys.stderr = open(2, "w", encoding="utf-8", errors="backslashreplace", closefd=False)
            preexec_fn()
            status = commandline.main(all_commands(), words)
        except SystemExit as left:
            status = left.code
        except BaseException:
            traceback.print_exc()
        finally:
            os._exit(status)
    drains = []
    for pipe in filter(None, (errors, out)):
        os.close(pipe[1])
        drains.append(_drained(pipe[0]))
    status = os.waitstatus_to_exitcode(os.waitpid(child, 0)[1])
    for thread, _ in drains:
        thread.join()
    return subprocess.CompletedProcess(words, status, drains[1][1][0] if out else None, drains[0][1][0])


def at_most(length):
    """In a child: no file grows past this many bytes."""
    return lambda: resource.setrlimit(resource.RLIMIT_FSIZE, (length, length))


class Case(unittest.TestCase):
    """A test with a folder of its own."""

    def setUp(self):
        self.folder = Path(tempfile.mkdtemp(prefix="poddreshi test "))
        self.addCleanup(self.remove)

    def remove(self):
        for path in [self.folder, *self.folder.rglob("*")]:
            if path.is_dir() and not path.is_symlink():
                path.chmod(0o755)
        shutil.rmtree(self.folder)

    def file(self, name: str, content) -> str:
        path = self.folder / name
        path.write_bytes(content if isinstance(content, bytes) else content.encode())
        return str(path)

    def run_front(self, *words, front=None, stdin=b"", environment=None, **options):
        """The command with some words, and what it did. Without `front` it runs in a fork of this process, which spares the
        start of an interpreter; with `front` it is that program."""
        if "stdin_file" not in options:
            options["stdin_file"] = tempfile.TemporaryFile(buffering=0)
            self.addCleanup(options["stdin_file"].close)
            options["stdin_file"].write(stdin)
            options["stdin_file"].seek(0)
        options["stdin"] = options.pop("stdin_file")
        options.setdefault("stdout", subprocess.PIPE)
        options.setdefault("cwd", self.folder)
        words, environment = [str(word) for word in words], {**os.environ, **PYTHON, **(environment or {})}
        if front is None:
            return forked(words, environment, **options)
        command = [sys.executable, str(front)] if front == FRONT else [str(front)]
        return subprocess.run([*command, *words], stderr=subprocess.PIPE, env=environment, timeout=120, **options)

    def answers(self, *words, **options) -> bytes:
        """The output of a command that answers, and that says nothing else."""
        done = self.run_front(*words, **options)
        self.assertEqual((done.returncode, done.stderr), (0, b""), words)
        return done.stdout

    def says(self, status: int, error: str, *words, **options) -> None:
        """The command ends with this status, says these lines and writes nothing."""
        done = self.run_front(*words, **options)
        self.assertEqual((done.stderr.decode(), done.returncode, done.stdout or b""), (error + "\n", status, b""), words)

    def fails(self, status: int, *words, about: str = "", **options) -> str:
        """The command ends with this status and says one line, with no traceback."""
        done = self.run_front(*words, **options)
        error = done.stderr.decode()
        self.assertEqual((done.returncode, error.count("\n")), (status, 1), (words, error))
        self.assertIn(about, error)
        self.assertNotIn("Traceback", error)
        return error


class Forms(Case):
    """A test of what a command says of plan 12 and of the year's plan, in each form; `text` is the test's own."""

    def setUp(self):
        super().setUp()
        self.plan = self.file("12.plan", PLAN_12)
        self.year = self.file("year.plan", self.answers("plan", 40, EXAMPLES / "year.txt", "--origin", "2026-01-01"))

    def data(self, *words, **options):
        return json.loads(self.text(*words, "--json", **options))

    def rows(self, *words, **options) -> list:
        return list(csv.DictReader(io.StringIO(self.text(*words, "--csv", **options))))


class OldFile(Case):
    """A test with a file that an output may replace."""

    def setUp(self):
        super().setUp()
        self.old = self.folder / "old"
        self.old.write_bytes(b"as it was")

    def unchanged(self, *beside):
        """It is as it was, and nothing stands there but it and these."""
        self.assertEqual(self.old.read_bytes(), b"as it was")
        self.assertEqual(sorted(path.name for path in self.folder.iterdir()), sorted(["old", *beside]))
