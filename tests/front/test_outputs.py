"""Outputs that are whole or not there, and inputs that are read no further than they need be."""
import os
import signal
import subprocess
import sys
import time
import unittest

from support import EXAMPLES, FRONT, PLAN_12, PYTHON, ROOT, TAGS_12, Case, OldFile, at_most, line_plan, needs_modes, obey_modes

PLAN_31 = EXAMPLES / "plan-31.plan"
WRITING = (
    ("list", PLAN_31),
    ("tags", PLAN_31),
    ("text", PLAN_31),
    ("plan", 31, EXAMPLES / "plan-31.txt"),
    ("draw", PLAN_31),
    ("chain", PLAN_31, 10, 16, "--json"),
    ("chains", PLAN_31, "-", "--html"),
    ("--help",),
    ("chain", "--help"),
    ("--version",),
)
RIGS = b"Rig 10 16\n"


class StandardOutput(Case):
    def test_a_full_disk(self):
        for words in WRITING:
            with open("/dev/full", "wb") as full:
                self.fails(3, *words, stdin=RIGS, stdout=full, about="standard output: no space left on device")

    def test_a_limit_in_the_middle(self):
        for words in WRITING[:5]:
            with open(self.folder / "cut", "wb") as cut:
                self.fails(3, *words, stdout=cut, preexec_fn=at_most(20), about="standard output: file too large")

    def test_a_closed_pipe(self):
        reading, writing = os.pipe()
        os.close(reading)
        for words in WRITING[:5]:
            self.fails(3, *words, stdout=writing, about="standard output: broken pipe")
        os.close(writing)

    def test_closed_streams(self):
        for words in (*WRITING[:2], *WRITING[-2:]):
            done = self.run_front(*words, stdin=RIGS, front=FRONT, preexec_fn=lambda: os.close(1))
            self.assertEqual((done.returncode, done.stderr), (3, b"poddreshi: standard output: bad file descriptor\n"))
        self.fails(3, "list", "-", front=FRONT, preexec_fn=lambda: os.close(0), about="standard input: bad file descriptor")
        done = self.run_front("tags", "nowhere", front=FRONT, preexec_fn=lambda: os.close(2))
        self.assertEqual((done.returncode, done.stdout), (3, b""))
        # No file takes the place of a closed stream, to be written over.
        done = self.run_front("tags", PLAN_31, "-o", "31.tags", front=FRONT, preexec_fn=lambda: os.closerange(0, 3))
        self.assertEqual(done.returncode, 0)
        self.assertEqual((self.folder / "31.tags").stat().st_size, 480)

    def test_the_place_of_a_closed_stream_is_held(self):
        code = "import os\nfrom poddreshi import files\nfiles.hold_standard_streams()\nos.fstat(1)"
        environment = {"PYTHONPATH": str(ROOT / "python"), **PYTHON}
        subprocess.run([sys.executable, "-c", code], env=environment, preexec_fn=lambda: os.close(1), check=True)

    def test_long_output_through_a_slow_pipe(self):
        plan = self.file("long.plan", line_plan())
        for blocking in (True, False):
            reading, writing = os.pipe()
            os.set_blocking(writing, blocking)
            with subprocess.Popen([sys.executable, str(FRONT), "draw", plan], stdout=writing) as front:
                os.close(writing)
                time.sleep(0.5)
                with open(reading, "rb") as pipe:
                    self.assertEqual(pipe.read(), self.answers("draw", plan))
            self.assertEqual(front.returncode, 0)


class OutputFile(OldFile):
    def test_the_file_is_replaced(self):
        self.old.chmod(0o640)
        self.answers("tags", EXAMPLES / "plan-12.plan", "-o", "old")
        self.assertEqual(self.old.read_bytes(), TAGS_12)
        self.assertEqual(self.old.stat().st_mode & 0o777, 0o640)
        self.assertEqual([path.name for path in self.folder.iterdir()], ["old"])
        self.answers("list", EXAMPLES / "plan-12.plan", "-o", "new", preexec_fn=lambda: os.umask(0o027))
        self.assertEqual((self.folder / "new").stat().st_mode & 0o777, 0o640)

    def test_a_refusal_leaves_the_old_file(self):
        self.fails(1, "tags", "-", "-o", "old", stdin=b"\0\0\0")
        self.fails(1, "plan", 1, "-", "-o", "old", stdin=b"5 0\n")
        self.fails(1, "plan", 1, "-", "--minimum", 0, "-o", "old", stdin=b"5 1\n")
        self.fails(1, "plan", 1, "-", "--minimum", 2, "-o", "old", stdin=b"5 1\n")
        self.fails(1, "draw", "-", 0, 9, "-o", "old", stdin=PLAN_12)
        self.fails(1, "draw", "-", "--reach", 7, "-o", "old", stdin=PLAN_12, about="refused by question 7: there is no window 7")
        done = self.run_front("list", "-", "-o", "old", stdin=b"\0\0\0")
        self.assertEqual((done.returncode, done.stdout, done.stderr), (1, b"refused 1 0\n", b""))
        self.unchanged()

    def test_a_full_disk_leaves_the_old_file(self):
        self.fails(3, "tags", PLAN_31, "-o", "old", preexec_fn=at_most(20), about="old: file too large")
        self.fails(3, "tags", PLAN_31, "--into", "cabinets", preexec_fn=at_most(5), about="cabinets: file too large")
        self.unchanged()
        self.fails(3, "tags", PLAN_31, "-o", "/dev/full", about="/dev/full: no space left on device")

    @needs_modes
    def test_a_folder_that_cannot_be_written(self):
        self.folder.chmod(0o555)
        self.fails(3, "draw", PLAN_31, "-o", "old", front=FRONT, preexec_fn=obey_modes, about="old: permission denied")
        self.fails(3, "tags", PLAN_31, "--into", "x", front=FRONT, preexec_fn=obey_modes, about="x: permission denied")
        self.fails(3, "draw", PLAN_31, "-o", "/nowhere/at/all", about="no such file or directory")
        self.fails(3, "draw", PLAN_31, "-o", self.folder, about="is a directory")
        self.unchanged()

    def test_a_link_is_followed(self):
        (self.folder / "link").symlink_to("old")
        self.answers("tags", EXAMPLES / "plan-12.plan", "-o", "link")
        self.assertTrue((self.folder / "link").is_symlink())
        self.assertEqual(self.old.read_bytes(), TAGS_12)

    def test_what_is_no_file_is_written_to(self):
        self.assertEqual(self.answers("tags", EXAMPLES / "plan-12.plan", "-o", "/dev/stdout"), TAGS_12)
        self.assertEqual(self.answers("tags", EXAMPLES / "plan-12.plan", "-o", "-"), TAGS_12)
        self.answers("tags", EXAMPLES / "plan-12.plan", "-o", "/dev/null")
        os.mkfifo(self.folder / "pipe")
        with subprocess.Popen(["cat", str(self.folder / "pipe")], stdout=subprocess.PIPE) as reader:
            self.answers("tags", EXAMPLES / "plan-12.plan", "-o", "pipe")
            self.assertEqual(reader.stdout.read(), TAGS_12)

    def test_long_names(self):
        name = "渡" * 80  # 240 bytes
        self.answers("tags", EXAMPLES / "plan-12.plan", "-o", name)
        self.assertEqual((self.folder / name).read_bytes(), TAGS_12)

    def test_an_empty_folder_is_filled(self):
        (self.folder / "cabinets").mkdir()
        self.answers("tags", EXAMPLES / "plan-12.plan", "--into", "cabinets")
        self.assertEqual(len(list((self.folder / "cabinets").iterdir())), 7)

    def test_a_plan_may_be_written_over_itself(self):
        (self.folder / "plan").write_bytes(PLAN_12)
        self.answers("tags", "plan", "-o", "plan")
        self.assertEqual((self.folder / "plan").read_bytes(), TAGS_12)


class Inputs(Case):
    def test_endless_inputs_are_not_read_to_their_end(self):
        for words in (("list", "-"), ("chain", "-", 0, 1), ("count", "-", 0, 0), ("plan", 1, "-"), ("explain", "-")):
            with open("/dev/zero", "rb") as endless:
                done = self.run_front(*words, stdin_file=endless)
            self.assertIn(done.returncode, (1, 3), words)

    def test_no_more_is_read_than_the_limit_and_one(self):
        with open(self.file("long", bytes(100_000)), "rb", buffering=0) as long:
            self.run_front("chain", "-", 0, 1, stdin_file=long)
            self.assertEqual(os.lseek(long.fileno(), 0, os.SEEK_CUR), 16393)

    def test_an_interrupt_is_quiet(self):
        front = subprocess.Popen(
            [sys.executable, str(FRONT), "list", "-"],
            **dict.fromkeys(("stdin", "stdout", "stderr"), subprocess.PIPE),
            # Tests that a shell runs in the background ignore interrupts, and whatever they start would too.
            preexec_fn=lambda: signal.signal(signal.SIGINT, signal.SIG_DFL),
        )
        front.stdin.write(b"\0")
        front.stdin.flush()
        time.sleep(1)
        front.send_signal(signal.SIGINT)
        out, error = front.communicate(timeout=20)
        self.assertEqual((front.returncode, out, error), (130, b"", b""))


if __name__ == "__main__":
    unittest.main()
