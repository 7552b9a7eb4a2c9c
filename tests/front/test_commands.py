"""Every subcommand: its answer in each form, and its exit status."""
import csv
import io
import json
import random
import shlex
import unittest

from support import EXAMPLES, LISTING_12, PLAN_12, TAGS_12, Case, line_plan, plan

import poddreshi
from poddreshi.commands import all_commands


class Commands(Case):
    def setUp(self):
        super().setUp()
        self.plan = self.file("12.plan", PLAN_12)
        self.tags = self.file("12.tags", TAGS_12)

    def text(self, *words, **options) -> str:
        return self.answers(*words, **options).decode()

    def data(self, *words, **options):
        return json.loads(self.answers(*words, "--json", **options))

    def rows(self, *words, **options) -> list:
        return list(csv.reader(io.StringIO(self.text(*words, "--csv", **options))))

    def test_help_and_version(self):
        self.assertEqual(self.text("--version"), f"poddreshi {poddreshi.__version__}\n")
        told = self.text("--help")
        for command in all_commands():
            self.assertIn(command.name, told)
            own = self.text(command.name, "--help")
            self.assertIn("examples:", own)
            for example in command.examples:
                self.assertIn(example, own)

    def test_the_examples_of_the_help(self):
        """They answer one after another, beside the folder of examples, once `plan` has made the year's plan."""
        (self.folder / "examples").symlink_to(EXAMPLES)
        for command in sorted(all_commands(), key=lambda command: command.name != "plan"):
            for example in command.examples:
                words = shlex.split(example)
                if words[0] == "poddreshi" and "|" not in words:
                    self.assertEqual(self.run_front(*words[1:]).returncode, 4 if "--exit-code" in words else 0, example)

    def test_list(self):
        self.assertEqual(self.text("list", self.plan), LISTING_12)
        self.assertEqual(self.text("list", "-", stdin=PLAN_12), LISTING_12)
        self.assertEqual(self.text("list", "-", stdin=b"\x0c\0\0\0\x01\0\0\0"), "12 0 0\n")
        self.assertEqual(self.rows("list", self.plan)[-1], ["6", "6", "1", "0", "0", "0"])
        data = self.data("list", self.plan)
        self.assertEqual((data["plan"], data["windows"], data["components"], data["minimum"]), (12, 7, 2, 1))
        self.assertEqual(data["tree"][4], {"position": 4, "parent": 2, "component": 0, "depth": 2, "rank": 2, "last_rank": 1})

    def test_list_of_the_largest_plan(self):
        wanted = ["12 2048 1"]
        wanted += [f"{v} {max(v - 1, 0)} 0 {v} {2047 - v} {max(2046 - v, 0)}" for v in range(2048)]
        self.assertEqual(self.text("list", "-", stdin=line_plan()), "\n".join(wanted) + "\n")
        self.assertEqual(self.run_front("list", "-", stdin=line_plan() + b"\0").stdout, b"refused 3 0\n")

    def test_list_refuses_as_paper_01_has_it(self):
        for file, line in {
            b"\x0c\0\0": "refused 1 0",
            b"\x0c\0\0\0\x01\0\0": "refused 1 0",
            b"\x0c\0\x01\x08\0\0\0\0": "refused 2 0",
            plan((0, 10), minimum=0): "refused 14 0",
            plan((0, 10), minimum=86_401)[:-1]: "refused 14 0",
            plan((0, 10))[:-1]: "refused 3 0",
            plan((5, 5), (4, 0)): "refused 4 1",
            plan((5, 5), (4, 4), minimum=5): "refused 4 1",
            plan((2**32 - 1, 6)): "refused 5 0",
            plan((5, 5), (4, 5)): "refused 6 1",
        }.items():
            done = self.run_front("list", "-", stdin=file)
            self.assertEqual((done.stdout.decode(), done.stderr, done.returncode), (line + "\n", b"", 1))
        words = "refused by question 1: the plan has 3 bytes; a plan has at least 8"
        self.says(1, words, "list", "-", "--json", stdin=b"\0\0\0")

    def test_tags_and_tag(self):
        self.assertEqual(self.answers("tags", self.plan), TAGS_12)
        self.assertEqual(self.answers("tags", "-", stdin=plan()), b"")
        self.assertEqual(self.answers("tag", self.tags, 4), TAGS_12[40:50])

    def test_tags_into_a_folder(self):
        self.answers("tags", self.plan, "--into", "new/cabinets")
        files = sorted((self.folder / "new" / "cabinets").iterdir())
        self.assertEqual([path.name for path in files], [f"{v:04}.tag" for v in range(7)])
        self.assertEqual(b"".join(path.read_bytes() for path in files), TAGS_12)
        self.assertEqual(list((self.folder / "new").iterdir()), [self.folder / "new" / "cabinets"])
        self.assertEqual(self.text("count", files[4], files[5]), "1 handover\n")
        self.fails(3, "tags", self.plan, "--into", "new/cabinets", about="new/cabinets: directory not empty")
        self.fails(2, "tags", self.plan, "--into", "other", "-o", "file")

    def test_explain(self):
        wanted = [("plan number", 12), ("component", 0), ("depth", 2), ("rank", 2), ("rank of the last", 1)]
        told = [line.rsplit(None, 1) for line in self.text("explain", self.tags, 4).splitlines()]
        self.assertEqual([(word, int(number)) for word, number in told], wanted)
        data = self.data("explain", "-", stdin=TAGS_12[40:50])
        self.assertEqual(data, {"plan": 12, "component": 0, "depth": 2, "rank": 2, "last_rank": 1})
        self.assertEqual(self.rows("explain", self.tags, 4)[1], ["12", "0", "2", "2", "1"])

    def test_count(self):
        self.assertEqual(self.text("count", self.tags, 1, 5), "3 handovers\n")
        self.assertEqual(self.text("count", self.tags, 6, 5), "no chain\n")
        self.assertEqual(self.text("count", self.tags, 6, 6), "0 handovers\n")
        first = self.file("4.tag", TAGS_12[40:50])
        self.assertEqual(self.text("count", first, "-", stdin=TAGS_12[50:60]), "1 handover\n")
        self.assertEqual(self.data("count", self.tags, 1, 5), {"first": 1, "second": 5, "handovers": 3})
        self.assertEqual(self.data("count", self.tags, 6, 5)["handovers"], None)
        self.assertEqual(self.rows("count", self.tags, 6, 5), [["first", "second", "handovers"], ["6", "5", "no chain"]])

    def test_count_all(self):
        told = "0  3 handovers\n1  3 handovers\n2  2 handovers\n3  3 handovers\n4  1 handover\n5  0 handovers\n6  no chain\n"
        self.assertEqual(self.text("count", self.tags, 5, "--all"), told)
        counts = self.data("count", self.tags, 5, "--all")["counts"]
        self.assertEqual([row["handovers"] for row in counts], [3, 3, 2, 3, 1, 0, None])
        rows = self.rows("count", self.tags, 5, "--all")
        self.assertEqual([row[2] for row in rows[1:]], ["3", "3", "2", "3", "1", "0", "no chain"])

    def test_count_all_beside_a_tag_that_is_refused(self):
        mixed = self.file("mixed.tags", TAGS_12[:20] + b"\x0d" + TAGS_12[21:])
        done = self.run_front("count", mixed, 1, "--all", "--csv")
        self.assertEqual(done.returncode, 1)
        self.assertEqual(done.stderr.count(b"\n"), 1)
        rows = [line.split(b",") for line in done.stdout.splitlines()]
        self.assertEqual((rows[1][2], rows[7][2], rows[3][2][:22]), (b"1", b"no chain", b"refused by question 11"))
        self.fails(1, "count", self.tags, 7, "--all", about="refused by question 7")

    def test_a_tag_file_of_65535_tags(self):
        tags = self.file("many.tags", TAGS_12[:10] * 65535)
        self.assertEqual(self.text("count", tags, 0, 65534), "0 handovers\n")
        self.fails(3, "count", "-", 0, 0, stdin=TAGS_12[:10] * 65536, about="longer than 655,350 bytes")

    def test_chain(self):
        self.assertEqual(self.text("chain", self.plan, 1, 5), "5 4 2 1\n")
        self.assertEqual(self.text("chain", self.plan, 5, 6), "no chain\n")
        self.assertEqual([step["position"] for step in self.data("chain", self.plan, 3, 5)["chain"]], [5, 4, 2, 3])
        self.assertEqual(self.data("chain", self.plan, 5, 6)["chain"], None)
        self.assertEqual(self.rows("chain", self.plan, 3, 5)[1:3], [["0", "5", "", "17", "18"], ["1", "4", "", "12", "18"]])

    def test_names_and_dates(self):
        names = self.file("names", "5 Quay\n4\tNorth pier # the long one\n")
        wanted = "5  Quay        17  18\n4  North pier  12  18\n2               4  16\n1               2   5\n"
        told = self.text("chain", self.plan, 1, "Quay", "--names", names)
        self.assertEqual([line.split() for line in told.splitlines()], [line.split() for line in wanted.splitlines()])
        told = self.text("neighbours", self.plan, "North pier", "--names", names, "--origin", "2026-02-06 08:00")
        self.assertEqual(told.splitlines()[1].split(), "5 Quay 2026-02-06 08:17 2026-02-06 08:18".split())
        self.fails(2, "chain", self.plan, 1, "Pier", "--names", names, about='no window "Pier"')
        self.fails(2, "chain", self.plan, 1, "Quay", about="names come with --names")
        year = self.answers("plan", 40, EXAMPLES / "year.txt", "--origin", "2026-01-01")
        done = self.run_front("chain", "-", 2, 7, "--names", EXAMPLES / "year.txt", stdin=year)
        self.assertEqual((done.returncode, done.stderr.count(b"which takes --origin where it has dates")), (1, 61))
        bad = self.file("bad", "9 nowhere\n1 here\n1 there\nnobody\n")
        done = self.run_front("chain", self.plan, 1, 5, "--names", bad)
        lines = [line.split(b": ")[0][-6:] for line in done.stderr.splitlines()]
        self.assertEqual((done.returncode, lines), (1, [b"line 1", b"line 3", b"line 4"]))

    def test_neighbours(self):
        self.assertEqual(self.text("neighbours", "-", 2, stdin=PLAN_12), "0 1 3 4\n")
        self.assertEqual(self.text("neighbours", self.plan, 6), "none\n")
        self.assertEqual([row["position"] for row in self.data("neighbours", self.plan, 2)["neighbours"]], [0, 1, 3, 4])
        self.assertEqual([row[0] for row in self.rows("neighbours", self.plan, 2)], ["window", "0", "1", "3", "4"])

    def test_same(self):
        moved = self.file("moved.plan", plan((100, 10), (102, 3), (104, 12), (109, 2), (112, 6), (117, 1), (118, 4), number=9))
        longer = self.file("longer.plan", plan((0, 10), (2, 3), (4, 12), (9, 2), (12, 6), (17, 2), (18, 4)))
        self.assertEqual(self.text("same", self.plan, moved), "same\n")
        told = "different: windows 5 and 6 overlap in the second plan and not in the first\n"
        self.assertEqual(self.text("same", self.plan, longer), told)
        told = "different: windows 5 and 6 overlap in the first plan and not in the second\n"
        self.assertEqual(self.text("same", longer, "-", stdin=PLAN_12), told)
        self.assertEqual(
            self.text("same", self.plan, EXAMPLES / "plan-31.plan"),
            "different: the first plan has 7 windows and the second 48 windows; "
            "windows 0 and 3 overlap in the first plan and not in the second; "
            "the minimum handover of the first plan is 1 and that of the second 15\n",
        )
        told = "different: the first plan has 7 windows and the second 8 windows\n"
        self.assertEqual(self.text("same", self.plan, "-", stdin=b"\x0c\0\x08" + PLAN_12[3:] + plan((99, 1))[8:]), told)
        apart, joined = plan((0, 1), (1, 1), (2, 1)), self.file("joined.plan", plan((0, 9), (1, 1), (2, 1)))
        told = "different: windows 0 and 1 overlap in the second plan and not in the first\n"
        self.assertEqual(self.text("same", "-", joined, stdin=apart), told)
        self.assertEqual(self.data("same", self.plan, moved), {"same": True})
        data = self.data("same", self.plan, longer)
        self.assertEqual((data["same"], data["position"], data["other"], data["overlap_in"]), (False, 5, 6, "second"))
        self.assertEqual(self.rows("same", self.plan, longer)[1][2:], ["5", "6"])

    def test_exit_code(self):
        other = self.file("other.plan", plan((0, 1)))
        all_of_them = ("count", self.tags, 5, "--all")
        for words in (("chain", self.plan, 5, 6), ("count", self.tags, 5, 6), all_of_them, ("same", self.plan, other)):
            self.assertEqual(self.run_front(*words).returncode, 0)
            self.assertEqual(self.run_front(*words, "--exit-code").returncode, 4)
        self.assertEqual(self.run_front("chain", self.plan, 4, 5, "--exit-code").returncode, 0)
        self.assertEqual(self.run_front("same", self.plan, self.plan, "--exit-code").returncode, 0)
        joined = self.file("joined.tags", TAGS_12[:60])
        self.assertEqual(self.run_front("count", joined, 5, "--all", "--exit-code").returncode, 0)

    def test_mistaken_commands(self):
        for words in (
            (),
            ("nothing",),
            ("chain", self.plan, 1),
            ("chain", self.plan, 1, -1),
            ("chain", self.plan, 1, "x"),
            ("chain", self.plan, 1, "1" * 41),
            ("tag", self.tags, "1.5"),
            ("reach", self.plan, "٣"),
            ("margin", self.plan, 1),
            ("margin", self.plan, 1, "x"),
            ("margin", self.plan, 1, 2, "--number", "--json"),
            ("count", "-", "-"),
            ("count", self.tags, 1, 2, "--all"),
            ("same", "-", "-"),
            ("list", self.plan, "--js"),
            ("list", self.plan, "--json", "--csv"),
            ("draw", self.plan, 1),
            ("draw", self.plan, "--from", 9, "--to", 3),
            ("draw", self.plan, "--from", "2026-01-01"),
            ("draw", self.plan, 1, 5, "--reach", 1),
            ("draw", self.plan, "--reach", "٣"),
            ("plan", 65536, "-"),
            ("plan", "x", "-"),
            ("text", self.plan, "--origin", "yesterday"),
            ("text", self.plan, "--origin", "2026-02-30"),
            ("text", self.plan, "--origin", "9999-12-31 23:59"),
            ("plan", 1, "-", "--minimum", "soon"),
            ("plan", 1, "-", "--minimum", ""),
            ("plan", 1, "-", "--minimum", -5),
            ("plan", 1, "-", "--minimum", 2**32),
            ("renew", "-", "--minimum", "1.5"),
            ("renew",),
            ("add", self.plan, 13, 0),
            ("add", self.plan, 65536, 0, 1),
            ("add", self.plan, 13, 2**32, 1),
            ("add", self.plan, 13, 0, 1, "--json"),
            ("add", self.plan, 13, 0, 1, "--tags", "-"),
            ("withdraw", self.plan, 13),
            ("withdraw", self.plan, 13, "x"),
            ("chain", "-", 0, 1, "--names", "-"),
        ):
            error = self.fails(2, *words, about="poddreshi: ")
            for internal in ("Namespace", "argparse", "_plan", "lambda", "<", "NoneType"):
                self.assertNotIn(internal, error)

    def test_any_bytes_at_all(self):
        """Whatever an input holds, the status is one of those that the help names, and what is said is no traceback."""
        generator = random.Random(5)
        names = self.file("any", generator.randbytes(200))
        pairs = self.file("pairs", "0 1\n5 6\n")
        plan_12, tags_12 = list(PLAN_12), list(TAGS_12)
        for case in range(15):
            altered = bytearray(generator.choice([plan_12, tags_12, b"0 10\n2 3 x\n# c\n4 12\n", b"offset,length\n1,2\n"]))
            for _ in range(generator.randrange(4)):
                altered[generator.randrange(len(altered))] = generator.choice([0, 9, 10, 34, 44, 48, 255, generator.randrange(256)])
            altered = altered[: generator.choice([len(altered), generator.randrange(len(altered))])]
            for words in (
                *(("tags", "-"), ("chain", "-", 0, 1), ("draw", "-"), ("text", "-", "--json"), ("same", self.plan, "-")),
                *(("renew", "-"), ("renew", "-", "--minimum", 3)),
                *(("add", "-", 7, 5, 3), ("withdraw", "-", 7, 0), ("withdraw", self.plan, 7, 0, "--names", "-")),
                *(("count", "-", 0, "--all"), ("explain", "-"), ("plan", 7, "-", "--sort"), ("chains", self.plan, "-", "--html")),
                *(("chain", self.plan, 0, 1, "--names", "-"), ("chain", "-", 0, 1, "--names", names), ("list", "-", "--csv")),
                *(("tags", "-", "--short"), ("count", "-", 0, "--all", "--short"), ("explain", "-", "--short")),
                *(("reach", "-"), ("reach", "-", 0, "--json"), ("draw", "-", "--reach", 0)),
                *(("margin", "-", 0, 1, "--number"), ("neighbours", "-", 0, "--margins")),
                *(("page", "-", "--all"), ("page", self.tags, "-", "--json"), ("page", "-", pairs, "--csv")),
            ):
                done = self.run_front(*words, stdin=bytes(altered))
                self.assertIn(done.returncode, (0, 1), (words, bytes(altered), done.stderr))
                self.assertNotIn(b"should not have", done.stderr)
                self.assertTrue(all(line.isprintable() for line in done.stderr.decode().splitlines()))

    def test_inputs_that_fail(self):
        self.fails(3, "list", "nowhere.plan", about="poddreshi: nowhere.plan: no such file or directory")
        self.fails(3, "chain", self.folder, 0, 1, about="is a directory")
        self.fails(3, "list", "", about="poddreshi: a file with no name: no such file or directory")
        self.fails(3, "plan", 1, "-", stdin=b"0 1\n" * 300_000, about="standard input: is longer than 1,048,576 bytes")


if __name__ == "__main__":
    unittest.main()
