"""The installed tree: it runs with no prover and no compiler, and may be moved."""
import os
import shutil
import subprocess
import sys
import unittest

from support import EXAMPLES, LISTING_12, PLAN_12, SHORT_TAGS, TAGS_12, Case

import poddreshi


class Installed(Case):
    def setUp(self):
        super().setUp()
        done = self.run_front("install", "/opt/a b", environment={"DESTDIR": str(self.folder / "stage")})
        self.assertEqual((done.returncode, done.stderr), (0, b""))
        self.tree = self.folder / "moved"
        (self.folder / "stage" / "opt" / "a b").rename(self.tree)
        bare = self.folder / "bare"
        bare.mkdir()
        (bare / "python3").symlink_to(sys.executable)
        self.bare = {"PATH": str(bare), "PODDRESHI_LIBRARY": ""}
        self.plan = self.file("12.plan", PLAN_12)

    def there(self, *words, **options) -> bytes:
        return self.answers(*words, front=self.tree / "bin" / "poddreshi", environment=self.bare, **options)

    def test_all_that_is_laid_down(self):
        found = {str(path.relative_to(self.tree)) for path in self.tree.rglob("*") if path.is_file()}
        self.assertLessEqual(
            {
                *("bin/poddreshi", "include/poddreshi.h", "lib/libpoddreshi.a", "lib/libpoddreshi.so"),
                *("lib/pkgconfig/poddreshi.pc", "lib/poddreshi/listing", "lib/poddreshi/poddreshi/__init__.py"),
            },
            found,
        )
        self.assertFalse([name for name in found if "__pycache__" in name or "/." in name])
        self.assertEqual((self.tree / "lib" / "libpoddreshi.a").stat().st_mode & 0o777, 0o644)

    def test_it_runs_with_python_alone(self):
        self.assertEqual(self.there("list", self.plan).decode(), LISTING_12)
        self.assertEqual(self.there("tags", self.plan), TAGS_12)
        self.assertEqual(self.there("tags", "--short", EXAMPLES / "even.plan"), SHORT_TAGS)
        self.assertEqual(self.there("chain", self.plan, 1, 5), b"5 4 2 1\n")
        self.assertEqual(self.there("reach", self.plan, 1), b"3: from 0 to 5\n")
        self.assertEqual(self.there("margin", self.plan, 0, 4), b"2 apart\n")
        self.assertEqual(self.there("withdraw", self.plan, 13, 6, "-o", "13.plan", "--tags", "13.tags")[:19], b"plan 13, 6 windows,")
        self.assertEqual(self.there("tags", "13.plan"), (self.folder / "13.tags").read_bytes())
        self.assertIn(b"<svg", self.there("draw", self.plan, 1, 5))
        self.assertEqual(self.there("--version").decode(), f"poddreshi {poddreshi.__version__}\n")
        self.assertNotIn(b"install", self.there("--help"))
        (self.folder / "command").symlink_to(self.tree / "bin" / "poddreshi")
        linked = {"front": self.folder / "command", "environment": self.bare}
        self.assertEqual(self.answers("count", "-", 4, 5, stdin=TAGS_12, **linked), b"1 handover\n")
        self.assertEqual(self.there("page", self.file("12.tags", TAGS_12), stdin=b"5 6\n"), b"5  6  no chain\n")

    def test_the_package_alone(self):
        code = "import poddreshi, sys; print(poddreshi.chain(sys.stdin.buffer.read(), 1, 5), poddreshi.__file__)"
        environment = {"PYTHONPATH": str(self.tree / "lib" / "poddreshi"), **self.bare}
        done = subprocess.run([sys.executable, "-c", code], input=PLAN_12, stdout=subprocess.PIPE, env=environment)
        self.assertTrue(done.stdout.startswith(b"5 4 2 1 " + os.fsencode(self.tree)), done.stdout)

    def test_programs_in_c(self):
        tags = [self.file(f"{v}.tag", TAGS_12[10 * v : 10 * v + 10]) for v in range(7)]
        file, flags = self.file("12.tags", TAGS_12), f"-I{self.tree / 'include'}"
        for name, libraries in {
            "static": [str(self.tree / "lib" / "libpoddreshi.a")],
            "shared": [f"-L{self.tree / 'lib'}", "-lpoddreshi", f"-Wl,-rpath,{self.tree / 'lib'}"],
        }.items():
            for example, words, told in (
                ("reader.c", tags[4:6], b"1\n"),
                ("page.c", [file, "1", "5", "5", "6", "5", "7"], b"1 5 3\n5 6 no chain\n5 7 refused 7: the second window\n"),
            ):
                program = str(self.folder / name)
                made = [*os.environ.get("CC", "cc").split(), "-o", program, flags, str(EXAMPLES / example), *libraries]
                subprocess.run(made, check=True)
                self.assertEqual(subprocess.run([program, *words], stdout=subprocess.PIPE).stdout, told)

    def test_pkg_config(self):
        text = (self.tree / "lib" / "pkgconfig" / "poddreshi.pc").read_text()
        self.assertIn(f"\nVersion: {poddreshi.__version__}\n", text)
        self.assertTrue(text.startswith("prefix=${pcfiledir}/../..\n"))
        if shutil.which("pkg-config"):
            environment = {**os.environ, "PKG_CONFIG_PATH": str(self.tree / "lib" / "pkgconfig")}
            done = subprocess.run(["pkg-config", "--cflags", "--libs", "poddreshi"], env=environment, stdout=subprocess.PIPE)
            self.assertIn(b"-lpoddreshi", done.stdout)

    def test_installing_over_an_older_tree(self):
        prefix = self.folder / "again"
        (prefix / "lib" / "poddreshi").mkdir(parents=True)
        (prefix / "lib" / "poddreshi" / "gone.py").touch()
        self.run_front("install", prefix)
        self.assertFalse((prefix / "lib" / "poddreshi" / "gone.py").exists())
        found = sorted(path.name for path in (prefix / "lib").iterdir())
        self.assertEqual(found, ["libpoddreshi.a", "libpoddreshi.so", "pkgconfig", "poddreshi"])

    def test_a_prefix_that_cannot_be_written(self):
        self.fails(3, "install", "/proc/nowhere", about="no such file or directory")

    def test_a_prefix_that_is_not_set(self):
        self.fails(2, "install", "", about="PREFIX is the name of a folder")


if __name__ == "__main__":
    unittest.main()
