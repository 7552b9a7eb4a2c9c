"""The package over the C interface."""
import ctypes
import doctest
import os
import re
import shutil
import subprocess
import sys
import tempfile
import unittest
from array import array
from ctypes.util import find_library

from support import PLAN_12, PYTHON, ROOT, TAGS_12, line_plan, plan, refusal

import poddreshi
from poddreshi import figures, library


class Answers(unittest.TestCase):
    def test_plan_12(self):
        tree = poddreshi.build(PLAN_12)
        self.assertEqual(tree[:3], (12, 7, 2))
        self.assertEqual(tree.tags, TAGS_12)
        self.assertEqual(poddreshi.tags(PLAN_12), (12, 7, 2, TAGS_12))
        rows = list(zip(tree.parents, tree.component_of, tree.depths, tree.ranks, tree.last_ranks))
        self.assertEqual(rows[4:], [(2, 0, 2, 2, 1), (4, 0, 3, 1, 1), (6, 1, 0, 0, 0)])
        self.assertEqual(poddreshi.validate(PLAN_12), (12, 7))
        self.assertEqual(poddreshi.chain(PLAN_12, 3, 5).positions, (5, 4, 2, 3))
        self.assertEqual(poddreshi.chain(PLAN_12, 5, 6).positions, None)
        self.assertEqual(poddreshi.neighbours(PLAN_12, 2).positions, (0, 1, 3, 4))
        self.assertEqual(poddreshi.reach(PLAN_12, 0), (3, 0, 5))
        self.assertEqual([poddreshi.margin(PLAN_12, 4, at) for at in (2, 6, 0)], [4, 0, -2])
        self.assertTrue(poddreshi.same(PLAN_12, PLAN_12).same)
        self.assertFalse(poddreshi.same(PLAN_12, plan()).same)

    def test_tags(self):
        tags = [poddreshi.lookup(TAGS_12, at) for at in range(7)]
        self.assertEqual(b"".join(tags), TAGS_12)
        self.assertEqual([poddreshi.pair(tags[5], tag).count for tag in tags], [3, 3, 2, 3, 1, 0, None])
        self.assertEqual([poddreshi.pair_at(TAGS_12, 5, at).count for at in range(7)], [3, 3, 2, 3, 1, 0, None])
        self.assertEqual(poddreshi.read(tags[4]), (12, 0, 2, 2, 1))
        self.assertEqual(poddreshi.write(12, 0, 2, 2, 1), tags[4])

    def test_text_forms(self):
        told = [
            (poddreshi.validate(PLAN_12), "plan 12, 7 windows"),
            (poddreshi.tags(PLAN_12), "plan 12, 7 windows, 2 components"),
            (poddreshi.build(PLAN_12), "plan 12, 7 windows, 2 components"),
            (poddreshi.chain(PLAN_12, 3, 5), "5 4 2 3"),
            (poddreshi.chain(PLAN_12, 5, 6), "no chain"),
            (poddreshi.neighbours(PLAN_12, 2), "0 1 3 4"),
            (poddreshi.neighbours(PLAN_12, 6), "none"),
            (poddreshi.reach(PLAN_12, 6), "0: from 6 to 6"),
            (poddreshi.pair_at(TAGS_12, 6, 6), "0 handovers"),
            (poddreshi.same(PLAN_12, PLAN_12), "same"),
            (poddreshi.read(TAGS_12[40:50]), "plan 12, component 0, depth 2, rank 2, rank of the last 1"),
        ]
        for answer, words in told:
            self.assertEqual(str(answer), words)

    def test_bytes_of_every_kind(self):
        writable, backwards = (lambda data: memoryview(bytearray(data))), (lambda data: memoryview(data[::-1])[::-1])
        for kind in (bytes, bytearray, memoryview, writable, backwards):
            self.assertEqual(poddreshi.chain(kind(PLAN_12), 3, 5).positions, (5, 4, 2, 3))
            self.assertEqual(poddreshi.pair(kind(TAGS_12[40:50]), kind(TAGS_12[50:60])).count, 1)
            self.assertEqual(poddreshi.lookup(kind(TAGS_12), 4), TAGS_12[40:50])
            self.assertEqual(refusal(poddreshi.validate, kind(b"")), (1, 0, 0))
            self.assertEqual(refusal(poddreshi.validate, kind(plan((5, 5), (4, 5)))), (6, 0, 1))
            self.assertEqual(refusal(poddreshi.pair, kind(TAGS_12[:10]), kind(b"\x0d" + TAGS_12[1:10])), (11, 1, 0))
            self.assertEqual(poddreshi.read(kind(TAGS_12[40:50])), (12, 0, 2, 2, 1))
        lent = bytearray(PLAN_12)
        poddreshi.validate(lent)
        lent.append(0)  # it is not held after the call

    def test_refusals(self):
        asked = {
            (1, 1, 0): (poddreshi.same, PLAN_12, b""),
            (2, 0, 0): (poddreshi.validate, b"\x0c\0\x01\x08\0\0\0\0"),
            (3, 0, 0): (poddreshi.build, PLAN_12 + b"\0"),
            (14, 1, 0): (poddreshi.same, PLAN_12, plan(minimum=0)),
            (14, 0, 0): (poddreshi.build, plan((0, 99_999), minimum=86_401) + b"\0"),
            (4, 0, 1): (poddreshi.tags, plan((5, 5), (4, 0))),
            (4, 1, 0): (poddreshi.same, PLAN_12, plan((0, 10), (5, 10), minimum=11)),
            (5, 0, 0): (poddreshi.validate, plan((2**32 - 1, 6))),
            (6, 0, 1): (poddreshi.validate, plan((5, 5), (4, 5))),
            (7, 0, 0): (poddreshi.lookup, TAGS_12, 7),
            (7, 1, 0): (poddreshi.pair_at, TAGS_12, 0, 7),
            (9, 0, 0): (poddreshi.pair_at, TAGS_12[1:], 0, 7),
            (9, 1, 0): (poddreshi.pair, TAGS_12[:10], TAGS_12[:9]),
            (10, 0, 0): (poddreshi.read, bytes.fromhex("0c000000000803000200")),
            (11, 1, 0): (poddreshi.pair, TAGS_12[:10], b"\x0d" + TAGS_12[1:10]),
            (12, 1, 0): (poddreshi.pair, TAGS_12[:10], TAGS_12[:9] + b"\x01"),
            (15, 0, 0): (poddreshi.add, line_plan(), 13, 0, 1),
            (16, 0, 0): (poddreshi.withdraw, PLAN_12, 12, 0),
        }
        self.assertEqual([refusal(*call) for call in asked.values()], list(asked))
        self.assertEqual(refusal(poddreshi.write, 12, 0, 2048, 0, 0), (10, 0, 0))

    def test_positions_out_of_range(self):
        for at in (7, 2**32, 2**64 - 1, 2**64, 10**30):
            self.assertEqual(refusal(poddreshi.reach, PLAN_12, at), (7, 0, 0))
            self.assertEqual(refusal(poddreshi.chain, PLAN_12, 0, at), (7, 1, 0))
        for call in (poddreshi.reach, poddreshi.neighbours):
            with self.assertRaises(ValueError):
                call(PLAN_12, -1)
        with self.assertRaises(ValueError):
            poddreshi.write(65536, 0, 0, 0, 0)


class Interface(unittest.TestCase):
    HEADER = (ROOT / "include" / "poddreshi.h").read_text(encoding="utf-8")

    def test_every_call_of_the_header(self):
        found = dict(re.findall(r"^uint64_t poddreshi_(\w+)\(([^;]*)\);", self.HEADER, re.M | re.S))
        self.assertEqual(set(library.CALLS), set(found))
        numbers = {"size_t": ctypes.c_size_t, "uint16_t": ctypes.c_uint16, "uint32_t": ctypes.c_uint32}
        lent = {**numbers, "uint8_t": ctypes.c_uint8, "int64_t": ctypes.c_int64, "struct poddreshi_query": library.Query}
        for name, arguments in found.items():
            for declared, here in zip(re.split(r",\s*", arguments), library.CALLS[name]):
                kind = re.sub(r"\w+$", "", declared.replace("const ", "")).strip()
                if not kind.endswith(" *"):
                    self.assertIs(here, numbers[kind], (name, declared))
                elif here is not ctypes.c_void_p or "const " not in declared:  # bytes to be read are lent with no kind
                    self.assertIs(here._type_, lent[kind[:-2]], (name, declared))
            self.assertEqual(len(re.split(r",\s*", arguments)), len(library.CALLS[name]), name)

    def test_every_call_in_rust(self):
        """Its declarations have the header's calls, with as many arguments of the same kinds."""
        rust = (ROOT / "include" / "poddreshi.rs").read_text(encoding="utf-8")
        kinds = {"u8": "uint8_t", "u16": "uint16_t", "u32": "uint32_t", "i64": "int64_t", "usize": "size_t"}
        kinds["Query"] = "struct poddreshi_query"

        def in_c(argument: str) -> str:
            lent, kind = re.fullmatch(r"\w+: (\*const |\*mut )?(\w+)", argument).groups()
            return ("const " if lent == "*const " else "") + kinds[kind] + (" *" if lent else "")

        found = re.findall(r"^    pub fn poddreshi_(\w+)\(([^)]*)\) -> u64;", rust, re.M)
        declared = {name: [in_c(each) for each in re.split(r",\s*", arguments.strip(", \n"))] for name, arguments in found}
        header = re.findall(r"^uint64_t poddreshi_(\w+)\(([^;]*)\);", self.HEADER, re.M | re.S)
        wanted = {name: [re.sub(r"\w+$", "", each).strip() for each in re.split(r",\s*", arguments)] for name, arguments in header}
        self.assertEqual(declared, wanted)

    def test_the_record_of_the_header(self):
        (fields,) = re.findall(r"^struct poddreshi_query \{\n(.*?)^\};", self.HEADER, re.M | re.S)
        sizes = {"size_t": ctypes.c_size_t, "uint64_t": ctypes.c_uint64}
        declared = [(name, sizes[kind]) for kind, name in re.findall(r"(\w+) (\w+);", fields)]
        self.assertEqual(declared, library.Query._fields_)
        self.assertEqual(ctypes.sizeof(library.Query), len(declared) * array("Q").itemsize)  # as the numbers of a page are laid out

    def test_every_kind_of_the_header(self):
        found = dict(re.findall(r"PODDRESHI_([A-Z_]+) = (\d+),?$", self.HEADER, re.M))
        kinds = {kind.name: str(kind.value) for kind in library.Kind}
        self.assertEqual({name: found[name] for name in kinds}, kinds)

    def test_every_figure_of_the_header(self):
        found = dict(re.findall(r"PODDRESHI_([A-Z_]+) = (\d+)", self.HEADER))
        stated = {name: int(figure) for name, figure in found.items() if name not in library.Kind.__members__}
        names = ("TAG_LENGTH", "SHORT_TAG_LENGTH", "FIELD_LIMIT", "WINDOWS_LIMIT")
        self.assertEqual(stated, {**{name: getattr(figures, name) for name in names}, "FILE_LIMIT": figures.PLAN_LIMIT})

    def test_public_names(self):
        for name in poddreshi.__all__:
            self.assertTrue(hasattr(poddreshi, name), name)

    def test_version_in_one_place(self):
        stated = re.findall(r'^#define PODDRESHI_VERSION "(.*)"$', self.HEADER, re.M)
        self.assertEqual(stated, [poddreshi.__version__])
        self.assertIn(f"## {poddreshi.__version__}", (ROOT / "CHANGELOG.md").read_text(encoding="utf-8"))
        others = [ROOT / "pyproject.toml", ROOT / "poddreshi", *ROOT.glob("python/**/*.py"), *ROOT.glob("include/*.rs")]
        self.assertEqual([path for path in others if poddreshi.__version__ in path.read_text(encoding="utf-8")], [])

    def without_library(self, package, **environment) -> str:
        """What the package says where its library is not there."""
        code = "import poddreshi\ntry:\n poddreshi.validate(b'')\nexcept poddreshi.LibraryMissing as e: print(e)"
        environment = {"PYTHONPATH": str(package), **PYTHON, **environment}
        return subprocess.run([sys.executable, "-c", code], env=environment, stdout=subprocess.PIPE).stdout.decode()

    def test_hints_where_the_library_is_missing(self):
        told = self.without_library(ROOT / "python", PODDRESHI_LIBRARY="/nowhere/libpoddreshi.so")
        self.assertIn("/nowhere/libpoddreshi.so cannot be loaded; it is the one that PODDRESHI_LIBRARY names", told)
        told = self.without_library(ROOT / "python", PODDRESHI_LIBRARY=find_library("m"))
        self.assertIn("is older than this package", told)
        with tempfile.TemporaryDirectory() as folder:
            shutil.copytree(ROOT / "python", folder + "/python", ignore=shutil.ignore_patterns("__pycache__"))
            self.assertIn("install it, or name it in PODDRESHI_LIBRARY", self.without_library(folder + "/python"))
            front = [sys.executable, "-m", "poddreshi", "list", str(ROOT / "examples" / "plan-12.plan")]
            done = subprocess.run(front, env={"PYTHONPATH": folder + "/python", **PYTHON}, stderr=subprocess.PIPE)
            self.assertEqual((done.returncode, b"the listing program stands beside the library" in done.stderr), (3, True))
            shutil.copy(ROOT / "crates.txt", folder)
            self.assertIn("run ./poddreshi build", self.without_library(folder + "/python"))

    def test_the_example_of_the_package(self):
        before = os.getcwd()
        os.chdir(ROOT)
        self.addCleanup(os.chdir, before)
        self.assertEqual(doctest.testmod(poddreshi), (0, 18))


if __name__ == "__main__":
    unittest.main()
