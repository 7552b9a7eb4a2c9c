"""Reach: from Python and C, and as the command says it of one window's component and of every component."""
import itertools
import os
import random
import subprocess
import unittest
from collections import Counter
from unittest import mock

from support import BOLTING, EVEN, NAMED, PLAN_12, PLAN_31, REFUSED_PLANS, ROOT, Case, Forms, OldFile, at_most, line_plan, plan
from support import random_windows, refusal

import poddreshi
from poddreshi import commandline, library
from poddreshi.commands import all_commands

SHORT_SECOND = plan((0, 10), (1, 1), (5, 10), (6, 10))  # window 0 overlaps all, and window 1 overlaps window 0 alone


def components(file: bytes) -> list:
    """The positions of each, from the tags."""
    tags = poddreshi.tags(file).tags
    of = [poddreshi.read(tags[at : at + 10]).component for at in range(0, len(tags), 10)]
    return [[at for at, each in enumerate(of) if each == component] for component in sorted(set(of))]


def farthest(file: bytes, positions: list) -> tuple:
    """What reach should be, from the tags of every two windows of a component: max takes the first of equals."""
    tags = poddreshi.tags(file).tags
    pairs = list(itertools.combinations_with_replacement(positions, 2))
    counts = [answer.count for answer in poddreshi.page(tags, pairs)]
    return max(zip(counts, pairs), key=lambda each: each[0])


class Package(unittest.TestCase):
    def test_plan_12(self):
        self.assertEqual([poddreshi.reach(PLAN_12, at) for at in range(7)], [(3, 0, 5)] * 6 + [(0, 6, 6)])
        found = poddreshi.reach(PLAN_12, 2)
        self.assertEqual((found.handovers, found.smaller, found.larger), (3, 0, 5))
        self.assertEqual(repr(found), "Reach(handovers=3, smaller=0, larger=5)")
        self.assertEqual([str(poddreshi.reach(PLAN_12, at)) for at in (2, 6)], ["3: from 0 to 5", "0: from 6 to 6"])

    def test_the_bound_is_gone(self):
        self.assertEqual(poddreshi.Reach._fields, ("handovers", "smaller", "larger"))
        self.assertFalse(hasattr(poddreshi.Reach, "bound"))

    def test_the_pair_need_not_begin_with_the_first_window(self):
        self.assertEqual([poddreshi.reach(SHORT_SECOND, at) for at in range(4)], [(2, 1, 2)] * 4)
        self.assertEqual(poddreshi.reach(PLAN_31.read_bytes(), 17), (3, 18, 22))

    def test_the_minimum_counts(self):
        self.assertEqual(poddreshi.reach(BOLTING, 0), (3, 0, 3))
        hasty = plan(*poddreshi.windows_of(BOLTING), minimum=10)
        self.assertEqual(poddreshi.reach(hasty, 0), (2, 0, 3))

    def test_one_window_and_the_longest_line(self):
        self.assertEqual(poddreshi.reach(plan((5, 1)), 0), (0, 0, 0))
        self.assertEqual([poddreshi.reach(line_plan(), at) for at in (0, 1000, 2047)], [(2047, 0, 2047)] * 3)
        alone = plan(*((2 * v, 1) for v in range(2048)))
        self.assertEqual(poddreshi.reach(alone, 2047), (0, 2047, 2047))

    def test_every_component_beside_all_of_its_pairs(self):
        generator, later = random.Random(5), 0
        for case in range(60):
            windows = random_windows(generator, generator.randrange(1, 40), generator.choice([60, 400]), generator.choice([12, 90]))
            file = plan(*windows)
            for positions in components(file):
                count, pair = farthest(file, positions)
                self.assertEqual({poddreshi.reach(file, at) for at in positions}, {(count, *pair)}, windows)
                later += pair[0] != positions[0]
        self.assertGreater(later, 10)  # so that these were tried as well

    def test_bytes_of_every_kind(self):
        for kind in (bytearray, memoryview, lambda data: memoryview(data[::-1])[::-1]):
            self.assertEqual(poddreshi.reach(kind(PLAN_12), 4), (3, 0, 5))

    def test_refusals(self):
        for file, words in REFUSED_PLANS.items():
            for at in (0, 99):  # the plan's questions come before that of the position
                with self.assertRaises(poddreshi.Refused) as caught:
                    poddreshi.reach(file, at)
                self.assertEqual(str(caught.exception), f"refused by question {words}")
        for at in (7, 2**16, 2**64 - 1, 2**64, 10**30):
            self.assertEqual(refusal(poddreshi.reach, PLAN_12, at), (7, 0, 0))
        self.assertEqual(refusal(poddreshi.reach, plan(), 0), (7, 0, 0))
        with self.assertRaisesRegex(ValueError, "a position is a number from 0"):
            poddreshi.reach(PLAN_12, -1)

    def test_an_older_library_is_told(self):
        """Its answer is a bound and no pair: 4, 0 and 0 at position 0 of plan 12, and 1, 0 and 0 at position 6."""
        for numbers in ([4, 0, 0], [1, 0, 0]):
            with mock.patch.object(library, "ask", return_value=(library.Kind.REACH, numbers)):
                with self.assertRaisesRegex(poddreshi.LibraryMissing, "the library .* is older than this package"):
                    poddreshi.reach(PLAN_12, 0)


class Header(Case):
    def test_the_fields_of_reach(self):
        source = self.file(
            "fields.c",
            '#include <stdio.h>\n#include "poddreshi.h"\n'
            "int main(void) {\n"
            "    uint64_t answer = (uint64_t)0xfffe << 48 | (uint64_t)4660 << 32 | (uint64_t)2047 << 16 | PODDRESHI_REACH;\n"
            '    printf("%u %u %u", poddreshi_count(answer), poddreshi_smaller(answer), poddreshi_larger(answer));\n'
            "    return 0;\n"
            "}\n",
        )
        flags, program = ["-std=c99", "-pedantic", "-Wall", "-Wextra", "-Werror", f"-I{ROOT / 'include'}"], str(self.folder / "fields")
        subprocess.run([*os.environ.get("CC", "cc").split(), *flags, source, "-o", program], check=True)
        self.assertEqual(subprocess.run([program], stdout=subprocess.PIPE).stdout, b"2047 4660 65534")


class Command(Forms):
    def text(self, *words, **options) -> str:
        return self.answers("reach", *words, **options).decode()


class OneWindow(Command):
    def test_text(self):
        self.assertEqual([self.text(self.plan, at) for at in (0, 3, 5, 6)], ["3: from 0 to 5\n"] * 3 + ["0: from 6 to 6\n"])
        self.assertEqual(self.text("-", 0, stdin=SHORT_SECOND), "2: from 1 to 2\n")
        self.assertEqual(self.text("-", 2047, stdin=line_plan()), "2047: from 0 to 2047\n")

    def test_csv(self):
        told = "position,handovers,smaller,larger,smaller_name,smaller_begin,smaller_end,larger_name,larger_begin,larger_end\n"
        self.assertEqual(self.text(self.plan, 3, "--csv"), told + "3,3,0,5,,0,10,,17,18\n")
        self.assertEqual(self.text(self.plan, 6, "--csv"), told + "6,0,6,6,,18,22,,18,22\n")

    def test_json(self):
        ends = [{"position": at, "name": "", "offset": offset, "length": length} for at, offset, length in ((0, 0, 10), (5, 17, 1))]
        data = self.data(self.plan, 3)
        self.assertEqual(data, {"position": 3, "handovers": 3, "smaller": ends[0], "larger": ends[1]})
        self.assertEqual(list(data), ["position", "handovers", "smaller", "larger"])

    def test_names_and_dates(self):
        wanted = (
            "3: from 8 to 12\n"
            " 8  Weir, crane           2026-02-15 07:00  2026-02-17 07:00\n"
            "12  Tank yard, drill rig  2026-02-18 07:00  2026-02-18 19:00\n"
        )
        self.assertEqual(self.text(self.year, 9, *NAMED), wanted)
        alone = "0: from 36 to 36\n36  Ferry slip, crane  2026-06-28 08:00  2026-06-28 20:00\n"
        self.assertEqual(self.text(self.year, 36, *NAMED), alone)
        names = self.file("names", "5 Quay\n1 North pier\n")
        told = self.text(self.plan, "North pier", "--names", names).splitlines()
        self.assertEqual([line.split() for line in told[1:]], [["0", "0", "10"], ["5", "Quay", "17", "18"]])
        told = self.text(self.plan, 1, "--origin", "2026-02-06").splitlines()
        self.assertEqual(told[0], "3: from 0 to 5")
        self.assertEqual(told[1].split(), "0 2026-02-06 00:00 2026-02-06 00:10".split())
        (row,) = self.rows(self.year, "Lock 5, crane", *NAMED)
        self.assertEqual((row["position"], row["handovers"], row["smaller"], row["larger"]), ("20", "3", "16", "21"))
        self.assertEqual((row["smaller_name"], row["larger_name"]), ("North pier, generator", "Quarry gate, lift"))
        self.assertEqual((row["smaller_begin"], row["smaller_end"]), ("2026-04-04 08:00", "2026-04-06 08:00"))
        self.assertEqual((row["larger_begin"], row["larger_end"]), ("2026-04-08 14:00", "2026-04-11 14:00"))
        data = self.data(self.year, 20, *NAMED)
        self.assertEqual((data["smaller"]["name"], data["larger"]["begin"]), ("North pier, generator", "2026-04-08 14:00"))

    def test_refusals(self):
        for file, words in REFUSED_PLANS.items():
            for at in (0, 99):
                self.says(1, f"refused by question {words}", "reach", "-", at, stdin=file)
        told = "refused by question 7: there is no window 7: the plan has 7 windows, 0 to 6"
        for form in ((), ("--csv",), ("--json",)):
            self.says(1, told, "reach", self.plan, 7, *form)
        self.says(1, told.replace("window 7:", f"window {2**64:,}:"), "reach", self.plan, 2**64)
        self.says(1, "refused by question 7: there is no window 0: the plan has no windows", "reach", "-", 0, stdin=plan())

    def test_words_that_are_no_window(self):
        """As with chain and neighbours, and each in one line."""
        for word in ("٣", "３", "²", "x", "", " ", "1.5", "+1", "0x1", "1" * 21):
            hint = "a position is a number from 0; names come with --names"
            self.says(2, f'poddreshi: there is no window "{word}"; {hint}', "reach", self.plan, word)
            self.says(2, f'poddreshi: there is no window "{word}"; {hint}', "neighbours", self.plan, word)
        self.fails(2, "reach", self.plan, "-1", about="poddreshi: ")
        self.fails(2, "reach", self.plan, 1, 5, about="poddreshi: ")
        names = self.file("names", "5 Quay\n1 Quay\n")
        self.fails(2, "reach", self.plan, "Pier", "--names", names, about='no window "Pier"; a position is a number from 0, or a name')
        self.fails(2, "reach", self.plan, "Quay", "--names", names, about='"Quay" is the name of 2 windows: 1, 5')
        self.fails(2, "reach", self.plan, "", "--names", names, about='there is no window ""')
        self.fails(2, "reach", "-", 0, "--names", "-", about="standard input can be one input and not two")

    def test_an_empty_word_is_no_window(self):
        """Also where just one window has no name."""
        for words in (("reach", ""), ("neighbours", ""), ("chain", "", ""), ("draw", "", ""), ("draw", "--reach", "")):
            self.fails(2, words[0], "-", *words[1:], stdin=plan((0, 5)), about='there is no window ""')


class EachComponent(Command):
    def test_text(self):
        told = "component 0  windows 0 to 5  3: from 0 to 5\ncomponent 1  windows 6 to 6  0: from 6 to 6\n"
        self.assertEqual(self.text(self.plan), told)
        self.assertEqual(self.text("-", stdin=SHORT_SECOND), "component 0  windows 0 to 3  2: from 1 to 2\n")
        lines = self.text(PLAN_31).splitlines()
        self.assertEqual(lines[3], "component  3  windows 17 to 22  3: from 18 to 22")
        self.assertEqual(lines[10], "component 10  windows 34 to 40  4: from 34 to 40")
        self.assertEqual(len(lines), 13)

    def test_numbers_stand_below_one_another(self):
        line = [(2 * v, 3) for v in range(1, 13)]
        told = (
            "component 0  windows  0 to  0   0: from 0 to 0\n"
            "component 1  windows  1 to 12  11: from 1 to 12\n"
            "component 2  windows 13 to 13   0: from 13 to 13\n"
        )
        self.assertEqual(self.text("-", stdin=plan((0, 1), *line, (90, 1))), told)

    def test_names_and_dates(self):
        named = self.text(self.year, *NAMED).splitlines()
        self.assertEqual(
            named[2],
            "component  2  windows  8 to 13  2026-02-15 07:00 to 2026-02-20 19:00  "
            "3: from 8 (Weir, crane) to 12 (Tank yard, drill rig)",
        )
        self.assertEqual(len(named), 18)
        names = self.file("names", "5 Quay\n")
        self.assertEqual(self.text(self.plan, "--names", names).splitlines()[0], "component 0  windows 0 to 5  3: from 0 to 5 (Quay)")
        dated = self.text(self.plan, "--origin", "2026-02-06 08:00").splitlines()[1]
        self.assertEqual(dated, "component 1  windows 6 to 6  2026-02-06 08:18 to 2026-02-06 08:22  0: from 6 to 6")

    def test_a_component_ends_where_its_last_end_is(self):
        """Which need not be that of its last window."""
        self.assertEqual(self.rows("-", stdin=plan((3, 90), (4, 5)))[0]["end"], "93")
        self.assertEqual(self.rows("-", stdin=plan((3, 90), (4, 5)))[0]["begin"], "3")

    def test_csv(self):
        told = (
            "component,first,last,begin,end,handovers,smaller,larger,"
            "smaller_name,smaller_begin,smaller_end,larger_name,larger_begin,larger_end\n"
        )
        self.assertEqual(self.text(self.plan, "--csv"), told + "0,0,5,0,18,3,0,5,,0,10,,17,18\n1,6,6,18,22,0,6,6,,18,22,,18,22\n")
        row = self.rows(self.year, *NAMED)[2]
        self.assertEqual((row["begin"], row["end"]), ("2026-02-15 07:00", "2026-02-20 19:00"))
        self.assertEqual((row["smaller_name"], row["larger_begin"]), ("Weir, crane", "2026-02-18 07:00"))

    def test_json(self):
        ends = [{"position": at, "name": "", "offset": offset, "length": length} for at, offset, length in ((0, 0, 10), (5, 17, 1))]
        first, second = self.data(self.plan)
        own = {"component": 0, "first": 0, "last": 5, "offset": 0, "length": 18}
        self.assertEqual(first, {**own, "handovers": 3, "smaller": ends[0], "larger": ends[1]})
        self.assertEqual((second["component"], second["handovers"], second["larger"]["position"]), (1, 0, 6))
        row = self.data(self.year, *NAMED)[2]
        self.assertEqual((row["begin"], row["end"]), ("2026-02-15 07:00", "2026-02-20 19:00"))
        self.assertEqual(row["larger"]["name"], "Tank yard, drill rig")

    def test_the_components_are_those_of_the_tags(self):
        for file in (PLAN_12, EVEN, BOLTING, PLAN_31.read_bytes()):
            told = [(int(row["first"]), int(row["last"])) for row in self.rows("-", stdin=file)]
            self.assertEqual(told, [(positions[0], positions[-1]) for positions in components(file)])
            reaches = [(int(row["handovers"]), int(row["smaller"]), int(row["larger"])) for row in self.rows("-", stdin=file)]
            self.assertEqual(reaches, [poddreshi.reach(file, positions[0]) for positions in components(file)])

    def test_an_empty_plan(self):
        empty = self.file("empty.plan", plan())
        self.assertEqual(self.text(empty), "")
        self.assertEqual(self.text(empty, "--csv").splitlines()[1:], [])
        self.assertTrue(self.text(empty, "--csv").startswith("component,first,last,"))
        self.assertEqual(self.text(empty, "--json"), "[]\n")
        self.assertEqual(self.text(empty, "-o", "written"), "")
        self.assertEqual((self.folder / "written").read_bytes(), b"")

    def test_how_often_the_library_is_asked(self):
        """Once for the plan, once for its components and once for each."""
        args = commandline.parser(all_commands()).parse_args(["reach", str(PLAN_31)])
        with mock.patch.object(library, "ask", wraps=library.ask) as ask:
            args.run(args)
        self.assertEqual(Counter(call.args[0] for call in ask.call_args_list), {"validate": 1, "build": 1, "reach": 13})

    def test_refusals(self):
        for file, words in REFUSED_PLANS.items():
            for form in ((), ("--csv",), ("--json",)):
                self.says(1, f"refused by question {words}", "reach", "-", *form, stdin=file)

    def test_mistakes(self):
        self.fails(2, "reach", about="poddreshi: ")
        self.fails(2, "reach", self.plan, "--all", about="poddreshi: ")
        self.fails(2, "reach", self.plan, "--csv", "--json", about="poddreshi: ")
        self.fails(2, "reach", "-", "--names", "-", about="standard input can be one input and not two")
        self.fails(2, "reach", self.plan, "--origin", "9999-12-31 23:59", about="lies past the year 9999")


class Outputs(OldFile):
    def test_the_file_is_replaced(self):
        for words in ((17,), (), ("--csv",), (17, "--json")):
            self.assertEqual(self.answers("reach", PLAN_31, *words, "-o", "old"), b"")
            self.assertEqual(self.old.read_bytes(), self.answers("reach", PLAN_31, *words))

    def test_nothing_is_half_written(self):
        for words in ((), ("--csv",), ("--json",), (17, "--json")):
            self.fails(3, "reach", PLAN_31, *words, "-o", "old", preexec_fn=at_most(20), about="old: file too large")
            self.unchanged()
            with open("/dev/full", "wb") as full:
                self.fails(3, "reach", PLAN_31, *words, stdout=full, about="standard output: no space left on device")

    def test_a_refusal_leaves_the_old_file(self):
        self.fails(1, "reach", PLAN_31, 48, "-o", "old", about="refused by question 7")
        self.fails(1, "reach", "-", "-o", "old", stdin=plan((5, 5), (4, 5)), about="refused by question 6")
        self.fails(2, "reach", PLAN_31, "x", "-o", "old")
        self.unchanged()

    def test_no_more_is_read_than_the_limit_and_one(self):
        for words in (("reach", "-"), ("reach", "-", 0)):
            with open("/dev/zero", "rb") as endless:
                self.fails(1, *words, stdin_file=endless, about="refused by question 14")


if __name__ == "__main__":
    unittest.main()
