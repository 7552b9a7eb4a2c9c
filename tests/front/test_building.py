"""Building in a checkout, with a stand-in for the prover that hands out what was built here: two at once, copies, folders that
cannot be written, and what is said where something is missing."""
import os
import shutil
import subprocess
import sys
import unittest
from pathlib import Path

from support import FRONT, LISTING_12, PLAN_12, ROOT, Case, built, needs_modes, obey_modes

RT = """\
#!/bin/sh
name=${PWD##*/}
echo "rt $* in $name" >> "$RT_LOG"
echo "rt: proving" >&2
sleep "${RT_SLEEP:-0}"
[ -z "$RT_FAILS" ] || { echo "rt: a fact does not hold" >&2; exit 1; }
case $1 in
lib) mkdir -p out && cp "$BUILT/lib/libpoddreshi.a" "out/lib$name.a" ;;
run) mkdir -p out && cp "$BUILT/lib/poddreshi/listing" out/ && echo "refused 1 0" ;;
esac
"""
PROVED = [
    "rt lib --cpu x86-64 in poddreshi_c",
    "rt lib --cpu x86-64 in poddreshi_reader_c",
    "rt run --cpu x86-64 in listing",
]


class Checkout(Case):
    """A small checkout: the front as it is, and crates of a few words."""

    def setUp(self):
        super().setUp()
        self.root = self.folder / "a checkout"
        shutil.copytree(ROOT / "python", self.root / "python", ignore=shutil.ignore_patterns("__pycache__"))
        shutil.copy(FRONT, self.root)
        (self.root / "crates.txt").write_text("# crates\ntag:\npoddreshi_c staticlib: tag\npoddreshi_reader_c staticlib: tag\nlisting: tag\nother:\n")
        for name in ("tag", "poddreshi_c", "poddreshi_reader_c", "listing", "other"):
            (self.root / "crates" / name / "src").mkdir(parents=True)
            (self.root / "crates" / name / "src" / "lib.rt").write_text(name)
        tools = self.folder / "tools"
        tools.mkdir()
        (tools / "rt").write_text(RT)
        (tools / "rt").chmod(0o755)
        self.log = self.folder / "rt.log"
        self.log.touch()
        own = {"PODDRESHI_LIBRARY": "", "RT_LOG": str(self.log), "BUILT": str(built())}
        self.with_rt = {**own, "PATH": f"{tools}:{self.bare()}:{os.environ['PATH']}"}
        self.without = {**own, "PATH": str(self.bare())}
        self.plan = self.file("12.plan", PLAN_12)

    def bare(self) -> Path:
        """A path with Python and nothing else: no prover, no compiler."""
        bare = self.folder / "bare"
        bare.mkdir(exist_ok=True)
        if not (bare / "python3").exists():
            (bare / "python3").symlink_to(sys.executable)
        return bare

    def lists(self, front=None, environment=None, **options):
        """What is said beside the right listing."""
        front, environment = front or self.root / "poddreshi", environment or self.without
        done = self.run_front("list", self.plan, front=front, environment=environment, **options)
        self.assertEqual((done.stdout.decode(), done.returncode), (LISTING_12, 0), done.stderr)
        return done.stderr.decode()

    def build(self):
        return self.lists(environment=self.with_rt)

    def runs(self) -> list:
        return self.log.read_text().splitlines()

    def test_first_use(self):
        told = self.build()
        self.assertEqual(self.runs(), PROVED)
        lines = told.splitlines()
        self.assertIn("proving and building the library: some six minutes", lines[0])
        self.assertEqual(lines[1:], ["rt: proving"] * len(PROVED) + ["poddreshi: built"])
        self.assertEqual(self.build(), "")
        self.assertEqual(self.runs(), PROVED)

    def test_two_first_uses_at_once(self):
        command = [str(self.root / "poddreshi"), "list", self.plan]
        environment = {**os.environ, **self.with_rt, "RT_SLEEP": "0.7"}
        pipes = {"stdout": subprocess.PIPE, "stderr": subprocess.PIPE}
        fronts = [subprocess.Popen(command, env=environment, **pipes) for _ in range(3)]
        told = [front.communicate(timeout=60) for front in fronts]
        self.assertEqual([(out.decode(), front.returncode) for (out, _), front in zip(told, fronts)], [(LISTING_12, 0)] * 3)
        self.assertEqual(self.runs(), PROVED)
        self.assertEqual(sum(b"waiting" in error for _, error in told), 2)

    def test_file_times_play_no_part(self):
        self.build()
        for path in (self.root / "crates").rglob("*"):
            os.utime(path, (2**32, 2**32))
        self.assertEqual(self.lists(), "")

    def test_a_copy_and_a_moved_checkout(self):
        self.build()
        shutil.copytree(self.root, self.folder / "copy", copy_function=shutil.copyfile, symlinks=True)
        for path in (self.folder / "copy" / "poddreshi", *(self.folder / "copy").glob("target/front/*/lib/poddreshi/listing")):
            path.chmod(0o755)
        self.root.rename(self.folder / "moved to")
        for folder in ("copy", "moved to"):
            self.assertEqual(self.lists(front=self.folder / folder / "poddreshi"), "")

    def test_changed_sources_are_built_again(self):
        self.build()
        (self.root / "crates" / "other" / "src" / "lib.rt").write_text("no part of what is built")
        self.assertEqual(self.lists(), "")
        (self.root / "crates" / "tag" / "src" / "lib.rt").write_text("changed")
        options = {"front": self.root / "poddreshi", "environment": self.without}
        self.fails(3, "list", self.plan, about="the library is not built", **options)
        self.build()
        self.assertEqual(self.runs(), 2 * PROVED)
        self.assertEqual(len(list((self.root / "target" / "front").iterdir())), 1)

    @needs_modes
    def test_a_checkout_that_cannot_be_written(self):
        unbuilt = self.folder / "unbuilt"
        shutil.copytree(self.root, unbuilt)
        self.build()
        for root in (self.root, unbuilt):
            for path in [root, *root.rglob("*")]:
                if path.is_dir():
                    path.chmod(0o555)
        self.assertEqual(self.lists(preexec_fn=obey_modes), "")
        options = {"front": unbuilt / "poddreshi", "environment": self.with_rt, "preexec_fn": obey_modes}
        self.fails(3, "list", self.plan, about="the library is not built, and it cannot be built in", **options)

    def test_what_is_missing_is_said_in_a_line(self):
        options = {"front": self.root / "poddreshi", "environment": self.without}
        for command in (("list", self.plan), ("build",), ("install", "there")):
            self.fails(3, *command, about="rt, which proves and builds it, is not on the path", **options)
        options["environment"] = {**self.without, "PATH": f"{self.folder / 'tools'}:{self.bare()}"}
        self.fails(3, "list", self.plan, about="ar, which joins the static library, is not on the path", **options)
        options["environment"] = {**self.with_rt, "CC": "no-such-compiler -O2"}
        self.fails(3, "list", self.plan, about="no-such-compiler, a C compiler, which makes the shared library, is not", **options)
        self.assertIn(b"examples:", self.run_front("list", "--help", **options).stdout)

    def test_a_failed_proof(self):
        done = self.run_front("list", self.plan, front=self.root / "poddreshi", environment={**self.with_rt, "RT_FAILS": "1"})
        self.assertEqual((done.returncode, done.stdout), (3, b""))
        said = ["rt: a fact does not hold", "poddreshi: the library is not proved, so it was not built"]
        self.assertEqual(done.stderr.decode().splitlines()[-2:], said)
        self.assertFalse((self.root / "target" / "front").exists())
        self.build()

    def test_from_anywhere(self):
        self.build()
        (self.folder / "link").symlink_to(self.root / "poddreshi")
        (self.folder / "link to a link").symlink_to("link")
        elsewhere = self.folder / "else where"
        elsewhere.mkdir()
        for front in ("link", "link to a link"):
            self.assertEqual(self.lists(front=self.folder / front, cwd=elsewhere), "")
        self.assertEqual(self.lists(front="../a checkout/poddreshi", cwd=elsewhere), "")
        self.assertEqual(self.lists(environment={**self.without, "CDPATH": str(self.folder)}, cwd=self.root), "")


if __name__ == "__main__":
    unittest.main()
