"""The minimum handover: from the option or the text to the plan file, and what the command says and draws of it."""
import csv
import io
import itertools
import json
import random
import re
import unittest
import xml.etree.ElementTree as ET

from support import BOLTING, EXAMPLES, PLAN_12, Case, line_plan, plan, random_windows, refusal

import poddreshi
from poddreshi import figures

SVG = "{http://www.w3.org/2000/svg}"
PAIR = ((0, 10), (5, 10))  # which share five minutes
BAD = "refused by question 14: the plan has a minimum handover of {}; a minimum is 1 to 86,400"


def shared(one: tuple, other: tuple) -> int:
    """The minutes that two windows share, counted one by one."""
    return len(set(range(one[0], sum(one))) & set(range(other[0], sum(other))))


class Calls(unittest.TestCase):
    def test_the_bytes(self):
        self.assertEqual(PLAN_12[:8].hex(), "0c00070001000000")
        self.assertEqual(len(PLAN_12), 64)
        self.assertEqual(figures.PLAN_LIMIT, 16_392)
        self.assertEqual(poddreshi.pack(12, [(0, 9)]).hex(), "0c000100" "01000000" "00000000" "09000000")
        self.assertEqual(poddreshi.pack(12, [], 86_400).hex(), "0c000000" "80510100")
        self.assertEqual([poddreshi.minimum_of(file) for file in (PLAN_12, plan(minimum=86_400), BOLTING)], [1, 86_400, 30])
        self.assertEqual(poddreshi.windows_of(plan(*PAIR, minimum=5)), list(PAIR))

    def test_the_cases_of_the_request(self):
        joined, apart = plan(*PAIR, minimum=5), plan(*PAIR, minimum=6)
        self.assertEqual(poddreshi.chain(joined, 0, 1).positions, (1, 0))
        self.assertEqual(poddreshi.chain(apart, 0, 1).positions, None)
        self.assertEqual((poddreshi.tags(joined).components, poddreshi.tags(apart).components), (1, 2))
        self.assertEqual(refusal(poddreshi.validate, plan(*PAIR, minimum=11)), (4, 0, 0))
        self.assertEqual(refusal(poddreshi.validate, plan((0, 99_999), minimum=86_400)), None)
        for minimum in (0, 86_401, 2**32 - 1):
            self.assertEqual(refusal(poddreshi.validate, plan((0, 99_999), minimum=minimum)), (14, 0, 0))

    def test_sameness_whatever_the_minimums(self):
        self.assertTrue(poddreshi.same(plan(*PAIR), plan(*PAIR, minimum=5)).same)
        self.assertFalse(poddreshi.same(plan(*PAIR), plan(*PAIR, minimum=6)).same)
        self.assertTrue(poddreshi.same(plan((0, 10), (10, 10)), plan(*PAIR, minimum=6)).same)

    def test_random_plans_by_minutes_counted_one_by_one(self):
        generator = random.Random(2)
        for case in range(60):
            windows = [(offset, length + 3) for offset, length in random_windows(generator, 9, 60, 25)]
            minimum = generator.randint(1, min(length for _, length in windows))
            file = plan(*windows, minimum=minimum)
            for at in range(9):
                due = tuple(v for v in range(9) if v != at and shared(windows[at], windows[v]) >= minimum)
                self.assertEqual(poddreshi.neighbours(file, at).positions, due, (windows, minimum, at))

    def test_the_largest_plan_with_a_minimum_near_the_lengths(self):
        file = plan(*((2 * v, 1002) for v in range(2048)), minimum=1000)
        self.assertEqual(poddreshi.neighbours(file, 1000).positions, (999, 1001))
        self.assertEqual(poddreshi.tags(plan(*((2 * v, 1002) for v in range(2048)), minimum=1001)).components, 2048)
        self.assertEqual(len(poddreshi.chain(file, 0, 2047).positions), 2048)


class Plan(Case):
    TEXT = b"0 10 a\n5 10 b\n"

    def made(self, text, *options) -> tuple:
        file = self.answers("plan", 12, "-", *options, stdin=text)
        return poddreshi.minimum_of(file), [tuple(window) for window in poddreshi.windows_of(file)]

    def test_the_option(self):
        self.assertEqual(self.made(self.TEXT), (1, list(PAIR)))
        for words, minimum in {"1": 1, "5": 5, "10": 10, "5m": 5, "0h7m": 7}.items():
            self.assertEqual(self.made(self.TEXT, "--minimum", words), (minimum, list(PAIR)))
        self.assertEqual(self.made(b"0 60d\n", "--minimum", "60d"), (86_400, [(0, 86_400)]))
        self.assertEqual(self.made(b"", "--empty", "--minimum", 7), (7, []))

    def test_the_text_states_it(self):
        for text in (
            b"minimum 5\n" + self.TEXT,
            self.TEXT + b"# at the end\n  Minimum 5m # a comment\n",
            b"offset,length,name\nminimum,5,\n0,10,a\n5,10,b\n",
            b"name;length;offset\na;10;0\n;5;minimum\nb;10;5\n",
        ):
            self.assertEqual(self.made(text), (5, list(PAIR)))
            self.assertEqual(self.made(text, "--minimum", 6), (6, list(PAIR)))  # the option goes before
        self.assertEqual(self.made(b"minimum 5\n5 10\n0 10\n", "--sort"), (5, list(PAIR)))
        self.assertEqual(self.made(b"minimum 0\n" + self.TEXT, "--minimum", 6), (6, list(PAIR)))

    def test_refused_by_14(self):
        for minimum in (0, 86_401, 2**32 - 1):
            self.says(1, BAD.format(f"{minimum:,}"), "plan", 12, "-", "--minimum", minimum, stdin=self.TEXT)
        self.says(1, f"standard input, line 3: {BAD.format(0)}", "plan", 12, "-", stdin=self.TEXT + b"minimum 0\n")

    def test_refused_by_4_at_each_line(self):
        short = "refused by question 4: window {} of the plan has length {}; a length is at least the minimum handover, 11"
        told = [f"standard input, line {line}: {short.format(line - 1, length)}" for line, length in ((1, 10), (3, 9))]
        self.says(1, "\n".join(told), "plan", 12, "-", "--minimum", 11, stdin=b"0 10\n5 11\n6 9\n7 12\n")

    def test_order_is_asked_whatever_the_minimum(self):
        done = self.run_front("plan", 12, "-", "--minimum", 10, stdin=b"5 10\n4 9\n3 10\n")
        told = re.findall(r"^standard input, (line \d): refused by question (\d)", done.stderr.decode(), re.M)
        self.assertEqual(told, [("line 2", "4"), ("line 2", "6"), ("line 3", "6")])

    def test_faults_of_the_line(self):
        alone = "the line of the minimum handover has a length and nothing more: minimum 30, or minimum 2h"
        for line, words in {
            "minimum": alone,
            "minimum 2 hours": alone,
            "minimum half": '"half" is no length; write a number (90), or numbers with letters (2d, 48h, 1h30m)',
            "minimum 4294967296": "a minimum handover of 4,294,967,296 does not fit a plan file, which holds up to 4,294,967,295",
        }.items():
            self.says(1, f"standard input, line 3: {words}", "plan", 12, "-", stdin=self.TEXT + line.encode() + b"\n")
        twice = b"minimum 5\n" + self.TEXT + b"minimum 5\nx 1\n"
        told = 'line 4: the minimum handover is stated on line 1\nstandard input, line 5: "x" is no offset'
        self.assertIn(f"standard input, {told}", self.run_front("plan", 12, "-", stdin=twice).stderr.decode())

    def test_other_faults_are_told_beside_a_minimum_that_is_refused(self):
        done = self.run_front("plan", 12, "-", stdin=b"x 1\nminimum 0\n5 y\n")
        told = [line.split(": ")[0][-6:] for line in done.stderr.decode().splitlines()]
        self.assertEqual((done.returncode, told), (1, ["line 1", "line 2", "line 3"]))

    def test_a_text_of_the_minimum_alone_has_no_window(self):
        told = "standard input, line 1: the text has no window; --empty makes a plan of none"
        self.says(1, told, "plan", 12, "-", stdin=b"minimum 5\n")


class Shown(Case):
    def setUp(self):
        super().setUp()
        self.plan = self.file("21.plan", BOLTING)

    def test_text(self):
        self.assertEqual(
            self.answers("text", self.plan, "--names", EXAMPLES / "bolting.txt").decode().splitlines()[:3],
            ["# plan 21, 4 windows: offset and length", "minimum 30", " 0 60 Crane yard"],
        )
        dated = self.answers("text", self.plan, "--origin", "2026-02-06").decode().splitlines()
        self.assertEqual(dated[1:3], ["minimum 30m", "2026-02-06 00:00    1h"])
        rows = list(csv.reader(io.StringIO(self.answers("text", self.plan, "--csv").decode())))
        self.assertEqual(rows[:3], [["offset", "length", "name"], ["minimum", "30", ""], ["0", "60", ""]])
        rows = list(csv.reader(io.StringIO(self.answers("text", "-", "--csv", stdin=PLAN_12).decode())))
        self.assertEqual(rows[:2], [["offset", "length", "name"], ["0", "10", ""]])

    def test_round_trip(self):
        for file in (BOLTING, PLAN_12, plan(minimum=86_400), plan((0, 86_400), minimum=86_400), line_plan()):
            number = str(int.from_bytes(file[:2], "little"))
            for form, origin in itertools.product(((), ("--csv",)), ((), ("--origin", "2026-02-06 08:00"))):
                text = self.answers("text", "-", *form, *origin, stdin=file)
                self.assertEqual(self.answers("plan", number, "-", "--empty", *origin, stdin=text), file)

    def test_data(self):
        self.assertEqual(json.loads(self.answers("text", self.plan, "--json"))["minimum"], 30)
        self.assertEqual(json.loads(self.answers("list", self.plan, "--json"))["minimum"], 30)
        sheet = json.loads(self.answers("chains", self.plan, "-", "--json", stdin=b"Rig 0 2\n"))
        self.assertEqual((sheet["minimum"], sheet["rigs"][0]["handovers"]), (30, 2))

    def test_the_example(self):
        self.assertEqual(self.answers("plan", 21, EXAMPLES / "bolting.txt"), BOLTING)
        for minimum, chains in {
            1: ("2 0", "3 1 0", "3 2"),
            30: ("2 1 0", "3 2 1 0", "3 2"),
            31: ("2 1 0", "no chain", "no chain"),
        }.items():
            file = self.file("tried.plan", self.answers("plan", 21, EXAMPLES / "bolting.txt", "--minimum", minimum))
            told = [self.answers("chain", file, *ends).decode().strip() for ends in ((0, 2), (0, 3), (2, 3))]
            self.assertEqual(tuple(told), chains, minimum)

    def test_neighbours_and_reach(self):
        self.assertEqual(self.answers("neighbours", self.plan, 0), b"1\n")
        self.assertEqual(self.answers("neighbours", "-", 0, stdin=plan(*poddreshi.windows_of(BOLTING))), b"1 2\n")
        self.assertEqual(self.answers("reach", self.plan, 0), b"3: from 0 to 3\n")

    def test_same(self):
        joined, apart = self.file("joined.plan", plan(*PAIR, minimum=5)), self.file("apart.plan", plan(*PAIR, minimum=6))
        self.assertEqual(
            self.answers("same", joined, apart).decode(),
            "different: windows 0 and 1 overlap in the first plan and not in the second; "
            "the minimum handover of the first plan is 5 and that of the second 6\n",
        )
        self.assertEqual(json.loads(self.answers("same", joined, apart, "--json"))["minimums"], [5, 6])
        self.assertEqual(self.answers("same", joined, "-", stdin=plan(*PAIR)), b"same\n")

    def test_sheet_and_page(self):
        told = self.answers("chains", self.plan, "-", stdin=b"Rig 0 2\n").decode()
        steps = [" ".join(line.split()) for line in told.splitlines()[1:4]]
        self.assertEqual(steps, ["0 0 to 60 hand over 20 to 60", "1 20 to 110 hand over 50 to 110", "2 50 to 120"])
        self.assertTrue(told.endswith("2 handovers in all, at most 2 (Rig), minimum handover 30\n"))
        page = self.answers("chains", self.plan, "-", "--html", "--origin", "2026-02-06", stdin=b"Rig 0 2\n").decode()
        self.assertIn("at most 2 (Rig), minimum handover 30m</p>", page)

    def test_title(self):
        for words, told in {
            (): "Plan 21, minimum handover 30: 4 windows, 1 component",
            (0, 2): "Plan 21, minimum handover 30: 2 handovers between window 0 and window 2",
            (0, 2, "--origin", "2026-02-06"): "Plan 21, minimum handover 30m: 2 handovers between window 0 and window 2",
        }.items():
            sheet = ET.fromstring(self.answers("draw", self.plan, *words))
            self.assertEqual(sheet.find(SVG + "title").text, told)
            self.assertIn(told, [text.text for text in sheet.iter(SVG + "text")])

    def test_only_overlaps_of_the_library_are_drawn(self):
        """With 31 window 3 shares too little with every other: it has no line to a parent and a component of its own, and the
        chain between 0 and 2 goes by 1."""
        file = plan(*poddreshi.windows_of(BOLTING), minimum=31)
        whole = ET.fromstring(self.answers("draw", "-", stdin=file))
        parents = [line for line in whole.iter(SVG + "line") if line.get("stroke-opacity")]
        self.assertEqual(len(parents), 2)
        told = [bar.find(SVG + "title").text for bar in whole.iter(SVG + "rect") if bar.get("rx")]
        self.assertIn("component 1, depth 0, a root", told[3])
        chain = ET.fromstring(self.answers("draw", "-", 0, 2, stdin=file))
        self.assertEqual(len(list(chain.iter(SVG + "circle"))), 4)
        self.assertIn("chain 2 1 0 (from the later window to the earlier)", [text.text for text in chain.iter(SVG + "text")])
        self.assertEqual(list(ET.fromstring(self.answers("draw", "-", 0, 3, stdin=file)).iter(SVG + "circle")), [])


if __name__ == "__main__":
    unittest.main()
