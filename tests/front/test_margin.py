"""The margin between two windows: from Python and C, as the command says it, and beside the neighbours of a window."""
import ctypes
import itertools
import json
import random
import unittest
from collections import Counter
from unittest import mock

from support import BOLTING, END_LIMIT, EXAMPLES, NAMED, PLAN_12, PLAN_31, REFUSED_PLANS, Forms, OldFile, at_most, line_plan, plan
from support import random_windows, refusal

import poddreshi
from poddreshi import commandline, library
from poddreshi.commands import all_commands

WINDOWS_12 = ((0, 10), (2, 3), (4, 12), (9, 2), (12, 6), (17, 1), (18, 4))
MARGINS_12 = {  # worked out by hand
    **{(0, 1): 3, (0, 2): 6, (0, 3): 1, (0, 4): -2, (0, 5): -7, (0, 6): -8, (1, 2): 1, (1, 3): -4, (2, 3): 2, (2, 4): 4},
    **{(2, 5): -1, (3, 4): -1, (4, 5): 1, (4, 6): 0, (5, 6): 0, (0, 0): 10, (5, 5): 1},
}
FARTHEST = plan((0, 1), (END_LIMIT - 1, 1))  # no two windows can lie further apart
LONGEST = plan((0, END_LIMIT))
FORMS = ((), ("--number",), ("--csv",), ("--json",))
NO_7 = "refused by question 7: there is no window 7: the plan has 7 windows, 0 to 6"
HINT = "a position is a number from 0; names come with --names"
WITHOUT_MARGINS = {  # what `neighbours` prints of plan 12 and window 2
    (): "0 1 3 4\n",
    ("--csv",): "window,name,begin,end\n0,,0,10\n1,,2,5\n3,,9,11\n4,,12,18\n",
    ("--json",): json.dumps(
        {
            "position": 2,
            "neighbours": [
                {"position": at, "name": "", "offset": WINDOWS_12[at][0], "length": WINDOWS_12[at][1]} for at in (0, 1, 3, 4)
            ],
        },
        indent=2,
    )
    + "\n",
    ("--origin", "2026-02-06"): "0    2026-02-06 00:00  2026-02-06 00:10\n"
    "1    2026-02-06 00:02  2026-02-06 00:05\n"
    "3    2026-02-06 00:09  2026-02-06 00:11\n"
    "4    2026-02-06 00:12  2026-02-06 00:18\n",
}


def laid_out(one: tuple, other: tuple) -> int:
    """The margin by the request's words, from the minutes themselves: those that both windows cover are counted, and where there are
    none, those between two covered ones that neither covers, with a minus."""
    first, second = (set(range(offset, offset + length)) for offset, length in (one, other))
    if first & second:
        return len(first & second)
    covered = sorted(first | second)
    return -sum(after - before - 1 for before, after in zip(covered, covered[1:]))


def some_plans(cases: int):
    """Plans with windows that touch, share little and lie apart, and minimums that some of them share and some do not."""
    generator = random.Random(7)
    for case in range(cases):
        minimum = generator.choice([1, 2, 5])
        windows = random_windows(generator, generator.randrange(1, 12), generator.choice([20, 90, 900]), generator.choice([6, 40]))
        windows = [(offset, length + minimum - 1) for offset, length in windows]
        yield windows, minimum, plan(*windows, minimum=minimum)


class Package(unittest.TestCase):
    def test_plan_12(self):
        self.assertEqual({pair: poddreshi.margin(PLAN_12, *pair) for pair in MARGINS_12}, MARGINS_12)
        for first, second in itertools.product(range(7), repeat=2):
            due = laid_out(WINDOWS_12[first], WINDOWS_12[second])
            self.assertEqual(poddreshi.margin(PLAN_12, first, second), due, (first, second))

    def test_a_plain_number(self):
        for second in (0, 1, 4):
            self.assertIs(type(poddreshi.margin(PLAN_12, 0, second)), int)

    def test_every_two_windows_by_minutes_laid_out(self):
        """Those that share a minute or more, touch and lie apart, and those that share fewer minutes than the minimum."""
        tried = Counter()
        for windows, minimum, file in some_plans(60):
            for first, second in itertools.product(range(len(windows)), repeat=2):
                due = laid_out(windows[first], windows[second])
                self.assertEqual(poddreshi.margin(file, first, second), due, (windows, minimum, first, second))
                tried["apart" if due < 0 else "touching" if due == 0 else "too little" if due < minimum else "enough"] += 1
        self.assertEqual(len(tried), 4, tried)
        self.assertGreater(min(tried.values()), 20, tried)

    def test_two_windows_overlap_where_it_reaches_the_minimum(self):
        just, short = 0, 0
        for windows, minimum, file in some_plans(60):
            for at in range(len(windows)):
                margins = {other: poddreshi.margin(file, at, other) for other in range(len(windows)) if other != at}
                due = tuple(other for other, margin in margins.items() if margin >= minimum)
                self.assertEqual(poddreshi.neighbours(file, at).positions, due, (windows, minimum, at))
                just, short = just + (minimum in margins.values()), short + (minimum - 1 in margins.values())
        self.assertGreater(min(just, short), 20)  # so that both sides of the edge were tried

    def test_fewer_minutes_than_the_minimum(self):
        self.assertEqual(poddreshi.margin(BOLTING, 0, 2), 10)  # the minimum is 30
        self.assertNotIn(2, poddreshi.neighbours(BOLTING, 0).positions)
        for minimum, positions in ((5, (1,)), (6, ())):
            file = plan((0, 10), (5, 10), minimum=minimum)
            self.assertEqual((poddreshi.margin(file, 0, 1), poddreshi.neighbours(file, 0).positions), (5, positions))

    def test_one_window_within_another(self):
        """Also where they begin together, or end together, or are alike."""
        for one, other in (((0, 100), (40, 5)), ((0, 100), (0, 5)), ((0, 5), (0, 100)), ((0, 100), (95, 5)), ((7, 5), (7, 5))):
            self.assertEqual([poddreshi.margin(plan(one, other), *pair) for pair in ((0, 1), (1, 0))], [5, 5])

    def test_the_greatest_and_the_least(self):
        self.assertEqual([poddreshi.margin(FARTHEST, *pair) for pair in ((0, 1), (1, 0))], [-4_294_967_293] * 2)
        self.assertEqual(laid_out((0, 1), (9_999_999, 1)), -9_999_998)
        self.assertEqual(poddreshi.margin(plan((0, 1), (9_999_999, 1)), 0, 1), -9_999_998)
        self.assertEqual(poddreshi.margin(LONGEST, 0, 0), 4_294_967_295)
        self.assertEqual(poddreshi.margin(plan((0, END_LIMIT), (END_LIMIT - 1, 1)), 1, 0), 1)
        self.assertEqual(poddreshi.margin(plan((0, END_LIMIT - 1), (END_LIMIT - 1, 1)), 0, 1), 0)

    def test_the_largest_plan(self):
        pairs = ((0, 1), (0, 2), (0, 2047), (2047, 0), (2046, 2047), (2047, 2047))
        self.assertEqual([poddreshi.margin(line_plan(), *pair) for pair in pairs], [1, -1, -4091, -4091, 1, 3])

    def test_bytes_of_every_kind(self):
        for kind in (bytearray, memoryview, lambda data: memoryview(data[::-1])[::-1]):
            self.assertEqual(poddreshi.margin(kind(PLAN_12), 0, 4), -2)
            self.assertEqual(refusal(poddreshi.margin, kind(PLAN_12), 0, 7), (7, 1, 0))

    def test_a_plan_that_is_refused(self):
        """Its questions come before those of the positions."""
        for file, words in REFUSED_PLANS.items():
            for pair in ((0, 0), (99, 0), (0, 99), (99, 98)):
                with self.assertRaises(poddreshi.Refused) as caught:
                    poddreshi.margin(file, *pair)
                self.assertEqual(str(caught.exception), f"refused by question {words}")

    def test_positions(self):
        """That of the first is asked before that of the second, also where they are the same."""
        for at in (7, 2**16, 2**32, 2**64 - 1, 2**64, 10**30):
            self.assertEqual(refusal(poddreshi.margin, PLAN_12, at, 0), (7, 0, 0))
            self.assertEqual(refusal(poddreshi.margin, PLAN_12, 0, at), (7, 1, 0))
            self.assertEqual(refusal(poddreshi.margin, PLAN_12, at, at), (7, 0, 0))
        self.assertEqual(refusal(poddreshi.margin, plan(), 0, 0), (7, 0, 0))
        for pair, at in (((7, 8), 7), ((8, 7), 8), ((0, 9), 9)):
            with self.assertRaises(poddreshi.Refused) as caught:
                poddreshi.margin(PLAN_12, *pair)
            self.assertEqual(caught.exception.words, f"there is no window {at}: the plan has 7 windows, 0 to 6")
        for pair in ((-1, 0), (0, -1)):
            with self.assertRaisesRegex(ValueError, "^a position is a number from 0$"):
                poddreshi.margin(PLAN_12, *pair)


class Lent(unittest.TestCase):
    """The one number, as C lends it."""

    BEFORE = (-77, -78, -79)

    def asked(self, file: bytes, *pair: int) -> tuple:
        """The answer where the second of three numbers is lent, and then the three."""
        numbers = (ctypes.c_int64 * 3)(*self.BEFORE)
        lent = ctypes.c_int64.from_buffer(numbers, ctypes.sizeof(ctypes.c_int64))
        return library.ask("margin", file, len(file), *pair, lent), tuple(numbers)

    def test_it_is_written_and_nothing_beside_it(self):
        for file, pair, due in ((PLAN_12, (0, 2), 6), (PLAN_12, (4, 6), 0), (FARTHEST, (1, 0), 2 - END_LIMIT), (LONGEST, (0, 0), END_LIMIT)):
            self.assertEqual(self.asked(file, *pair), ((library.Kind.MARGIN, [0, 0, 0]), (-77, due, -79)))

    def test_a_refusal_writes_nothing(self):
        for file in REFUSED_PLANS:
            (kind, _), numbers = self.asked(file, 0, 0)
            self.assertEqual((kind, numbers), (library.Kind.REFUSED, self.BEFORE))
        for pair, input in (((7, 0), 0), ((0, 7), 1), ((7, 7), 0)):
            self.assertEqual(self.asked(PLAN_12, *pair), ((library.Kind.REFUSED, [7, input, 0]), self.BEFORE))


class Command(Forms):
    def text(self, *words, **options) -> str:
        return self.answers("margin", *words, **options).decode()


class Answers(Command):
    def test_text(self):
        for pair, told in {
            (0, 1): "shares 3",
            (0, 3): "shares 1",
            (4, 6): "touches",
            (5, 6): "touches",
            (2, 5): "1 apart",
            (1, 3): "4 apart",
            (0, 0): "shares 10",
            (5, 5): "shares 1",
        }.items():
            self.assertEqual(self.text(self.plan, *pair), told + "\n")
            self.assertEqual(self.text(self.plan, *pair[::-1]), told + "\n")
        self.assertEqual(self.text("-", 0, 1, stdin=FARTHEST), "4,294,967,293 apart\n")
        self.assertEqual(self.text("-", 0, 0, stdin=LONGEST), "shares 4,294,967,295\n")

    def test_the_bare_number(self):
        for first, second in itertools.product(range(7), repeat=2):
            due = laid_out(WINDOWS_12[first], WINDOWS_12[second])
            self.assertEqual(self.text(self.plan, first, second, "--number"), f"{due}\n")
        self.assertEqual(self.text("-", 0, 1, "--number", stdin=FARTHEST), "-4294967293\n")
        self.assertEqual(self.text("-", 0, 0, "--number", stdin=LONGEST), "4294967295\n")
        told = self.text(self.year, "South pier, generator", "Tank yard, drill rig", "--number", *NAMED)
        self.assertEqual(told, "-360\n")  # in minutes, and nothing with it

    def test_fewer_minutes_than_the_minimum(self):
        bolting = self.file("21.plan", BOLTING)
        self.assertEqual(self.text(bolting, 0, 2), "shares 10\n")
        self.assertEqual(self.answers("chain", bolting, 0, 2), b"2 1 0\n")
        help = " ".join(self.text("--help").split())
        self.assertIn("share at least the plan's minimum handover; those that share less do not overlap.", help)
        self.assertIn("--number answer as the bare number, below 0 where they lie apart", help)

    def test_csv(self):
        told = "first,second,margin,first_name,first_begin,first_end,second_name,second_begin,second_end\n"
        self.assertEqual(self.text(self.plan, 0, 2, "--csv"), told + "0,2,6,,0,10,,4,16\n")
        self.assertEqual(self.text(self.plan, 4, 0, "--csv"), told + "4,0,-2,,12,18,,0,10\n")
        self.assertEqual(self.text(self.plan, 6, 6, "--csv"), told + "6,6,4,,18,22,,18,22\n")
        self.assertEqual(self.rows(self.plan, 4, 6)[0]["margin"], "0")

    def test_json(self):
        own = ((4, 12, 6), (0, 0, 10))
        windows = [{"position": at, "name": "", "offset": offset, "length": length} for at, offset, length in own]
        data = self.data(self.plan, 4, 0)
        self.assertEqual(data, {"first": 4, "second": 0, "margin": -2, "windows": windows})
        self.assertEqual(list(data), ["first", "second", "margin", "windows"])
        self.assertEqual(self.data(self.plan, 4, 6)["margin"], 0)
        self.assertEqual([each["position"] for each in self.data(self.plan, 5, 5)["windows"]], [5, 5])

    def test_names_and_dates(self):
        """Behind the answer there is a line for each window, in the order in which they are named; lengths are told in hours."""
        pier = " 9  South pier, generator  2026-02-16 13:00  2026-02-18 01:00\n"
        tank = "12  Tank yard, drill rig   2026-02-18 07:00  2026-02-18 19:00\n"
        self.assertEqual(self.text(self.year, 9, 12, *NAMED), "6h apart\n" + pier + tank)
        self.assertEqual(self.text(self.year, "Tank yard, drill rig", "South pier, generator", *NAMED), "6h apart\n" + tank + pier)
        alone = "shares 36h\n9  South pier, generator  2026-02-16 13:00  2026-02-18 01:00\n"
        self.assertEqual(self.text(self.year, 9, "South pier, generator", *NAMED), alone)
        self.assertEqual(self.text(self.year, "Ferry slip, lift", "Weir, lift", *NAMED).splitlines()[0], "shares 90h")
        self.assertEqual(self.text("-", 0, 1, "--origin", "2026-02-06", stdin=plan((0, 60), (151, 9))).splitlines()[0], "1h31m apart")
        touching = "touches\n4    2026-02-06 00:12  2026-02-06 00:18\n6    2026-02-06 00:18  2026-02-06 00:22\n"
        self.assertEqual(self.text(self.plan, 4, 6, "--origin", "2026-02-06"), touching)
        names = self.file("names", "4 Quay\n0 North pier\n")
        told = self.text(self.plan, "Quay", "North pier", "--names", names)
        self.assertEqual(told, "2 apart\n4  Quay        12  18\n0  North pier  0   10\n")

    def test_names_and_dates_for_other_programs(self):
        (row,) = self.rows(self.year, 9, "Tank yard, drill rig", *NAMED)
        self.assertEqual((row["first"], row["second"], row["margin"]), ("9", "12", "-360"))  # in minutes
        self.assertEqual((row["first_name"], row["second_name"]), ("South pier, generator", "Tank yard, drill rig"))
        self.assertEqual((row["first_begin"], row["first_end"]), ("2026-02-16 13:00", "2026-02-18 01:00"))
        self.assertEqual((row["second_begin"], row["second_end"]), ("2026-02-18 07:00", "2026-02-18 19:00"))
        data = self.data(self.year, 9, "Tank yard, drill rig", *NAMED)
        self.assertEqual((data["first"], data["second"], data["margin"]), (9, 12, -360))
        self.assertEqual((data["windows"][0]["name"], data["windows"][1]["end"]), ("South pier, generator", "2026-02-18 19:00"))


class Refusals(Command):
    def test_a_plan_that_is_refused(self):
        for file, words in REFUSED_PLANS.items():
            for pair in ((0, 0), (99, 98)):
                self.says(1, f"refused by question {words}", "margin", "-", *pair, stdin=file)
        for form in FORMS:
            words = "refused by question 6: window 1 of the plan begins at 4, earlier than the window before it, at 5"
            self.says(1, words, "margin", "-", 0, 0, *form, stdin=plan((5, 5), (4, 5)))

    def test_positions(self):
        for form in FORMS:
            for pair in ((7, 0), (0, 7), (7, 7), (7, 8)):
                self.says(1, NO_7, "margin", self.plan, *pair, *form)
        self.says(1, NO_7.replace("window 7:", f"window {2**64:,}:"), "margin", self.plan, 0, 2**64)
        self.says(1, "refused by question 7: there is no window 0: the plan has no windows", "margin", "-", 0, 0, stdin=plan())

    def test_words_that_are_no_window(self):
        for word in ("٣", "²", "x", "", "1.5", "+1", "1" * 21):
            for pair in ((word, 0), (0, word)):
                for form in FORMS:
                    self.says(2, f'poddreshi: there is no window "{word}"; {HINT}', "margin", self.plan, *pair, *form)
        names = self.file("names", "5 Quay\n1 Quay\n2 Pier\n")
        for pair in (("Lock", "Pier"), ("Pier", "Lock"), ("Lock", 99)):
            words = 'poddreshi: there is no window "Lock"; a position is a number from 0, or a name'
            self.says(2, words, "margin", self.plan, *pair, "--names", names)
        self.says(2, 'poddreshi: "Quay" is the name of 2 windows: 1, 5', "margin", self.plan, "Pier", "Quay", "--names", names)

    def test_mistakes(self):
        for words in (
            *((), (self.plan,), (self.plan, 0), (self.plan, 0, 1, 2), (self.plan, 0, "-1"), (self.plan, 0, 1, "--numbers")),
            *((self.plan, 0, 1, "--number", "--csv"), (self.plan, 0, 1, "--json", "--number"), (self.plan, 0, 1, "--exit-code")),
        ):
            self.fails(2, "margin", *words, about="poddreshi: ")
        self.fails(2, "margin", "-", 0, 1, "--names", "-", about="standard input can be one input and not two")
        self.fails(2, "margin", self.plan, 0, 1, "--origin", "9999-12-31 23:59", about="lies past the year 9999")


class Neighbours(Forms):
    def text(self, *words, **options) -> str:
        return self.answers("neighbours", *words, **options).decode()

    def test_without_the_option(self):
        """All is as it was, to the byte, and no margin is asked for."""
        for form, told in WITHOUT_MARGINS.items():
            self.assertEqual(self.text(self.plan, 2, *form), told)
        self.assertEqual(self.asked(), {"validate": 1, "neighbours": 1})

    def test_text(self):
        self.assertEqual(
            self.text(self.plan, 2, "--margins"),
            "0  shares 6\n1  shares 1\n3  shares 2\n4  shares 4\n",
        )
        self.assertEqual(self.text(self.plan, 6, "--margins"), "none\n")
        last = self.text("-", 10, "--margins", stdin=line_plan())
        self.assertEqual(last, " 9  shares 1\n11  shares 1\n")
        self.assertEqual(self.text("-", 0, "--margins", stdin=BOLTING), "1  shares 40\n")  # and not 2, which shares ten
        self.assertEqual(self.text("-", 0, "--margins", stdin=plan((0, 2000), (0, 1500))), "1  shares 1,500\n")

    def test_csv(self):
        told = "window,name,begin,end,margin\n0,,0,10,6\n1,,2,5,1\n3,,9,11,2\n4,,12,18,4\n"
        self.assertEqual(self.text(self.plan, 2, "--margins", "--csv"), told)
        self.assertEqual(self.text(self.plan, 6, "--csv", "--margins"), "window,name,begin,end,margin\n")

    def test_json(self):
        data = self.data(self.plan, 2, "--margins")
        without = json.loads(WITHOUT_MARGINS[("--json",)])
        margins = {0: 6, 1: 1, 3: 2, 4: 4}
        self.assertEqual(data["neighbours"], [{**each, "margin": margins[each["position"]]} for each in without["neighbours"]])
        self.assertEqual(list(data), ["position", "neighbours"])
        self.assertEqual(self.data(self.plan, 6, "--margins"), {"position": 6, "neighbours": []})

    def test_names_and_dates(self):
        wanted = (
            " 8  Weir, crane           2026-02-15 07:00  2026-02-17 07:00  shares 18h\n"
            "10  Boathouse, lift       2026-02-17 13:00  2026-02-19 01:00  shares 12h\n"
            "11  Tank yard, generator  2026-02-17 19:00  2026-02-20 19:00  shares 6h\n"
        )
        self.assertEqual(self.text(self.year, "South pier, generator", "--margins", *NAMED), wanted)
        rows = self.rows(self.year, 9, "--margins", *NAMED)
        self.assertEqual([(row["name"], row["margin"]) for row in rows][0], ("Weir, crane", "1080"))  # in minutes
        self.assertEqual([each["margin"] for each in self.data(self.year, 9, "--margins", *NAMED)["neighbours"]], [1080, 720, 360])
        names = self.file("names", "2 Quay\n0 North pier\n")
        told = self.text(self.plan, "Quay", "--margins", "--names", names).splitlines()
        self.assertEqual(told[0], "0  North pier  0   10  shares 6")
        self.assertEqual(told[1].split(), "1 2 5 shares 1".split())
        dated = self.text(self.plan, 2, "--margins", "--origin", "2026-02-06").splitlines()
        self.assertEqual(dated[3], "4    2026-02-06 00:12  2026-02-06 00:18  shares 4m")

    def test_every_window_by_minutes_laid_out(self):
        for windows, minimum, file in some_plans(12):
            name = self.file("some.plan", file)
            for at, one in enumerate(windows):
                margins = {other: laid_out(one, window) for other, window in enumerate(windows) if other != at}
                due = [(str(other), str(margin)) for other, margin in margins.items() if margin >= minimum]
                self.assertEqual([(row["window"], row["margin"]) for row in self.rows(name, at, "--margins")], due)

    def test_as_many_neighbours_as_can_be(self):
        """Window 0 shares with each of the others that one's length."""
        windows = [(0, 10_000), *((v, v % 7 + 1) for v in range(1, 2048))]
        told = [(int(row["window"]), int(row["margin"])) for row in self.rows("-", 0, "--margins", stdin=plan(*windows))]
        due = [(at, length) for at, (_, length) in enumerate(windows) if at]
        self.assertEqual(len(told), len(due))
        wrong = [pair for pair in zip(told, due) if pair[0] != pair[1]]
        self.assertEqual(wrong[:3], [])  # a few of them, since unittest takes minutes to show how two long lists differ

    def asked(self, *words) -> Counter:
        """How often each call of the library is made."""
        args = commandline.parser(all_commands()).parse_args(["neighbours", str(EXAMPLES / "plan-12.plan"), "2", *words])
        with mock.patch.object(library, "ask", wraps=library.ask) as ask:
            args.run(args)
        return Counter(call.args[0] for call in ask.call_args_list)

    def test_how_often_the_library_is_asked(self):
        for form in ((), ("--csv",), ("--json",)):
            self.assertEqual(self.asked("--margins", *form), {"validate": 1, "neighbours": 1, "margin": 4})

    def test_refusals(self):
        for file, words in REFUSED_PLANS.items():
            self.says(1, f"refused by question {words}", "neighbours", "-", 99, "--margins", stdin=file)
        for form in ((), ("--csv",), ("--json",)):
            self.says(1, NO_7, "neighbours", self.plan, 7, "--margins", *form)
            self.says(2, f'poddreshi: there is no window "x"; {HINT}', "neighbours", self.plan, "x", "--margins", *form)
        self.fails(2, "neighbours", self.plan, 2, "--margin", about="poddreshi: ")
        self.fails(2, "neighbours", self.plan, 2, "--margins", "--number", about="poddreshi: ")


class Outputs(OldFile):
    WORDS = (*(("margin", PLAN_31, 17, 22, *form) for form in FORMS), ("neighbours", PLAN_31, 17, "--margins"))

    def test_the_file_is_replaced(self):
        for words in self.WORDS:
            self.assertEqual(self.answers(*words, "-o", "old"), b"")
            self.assertEqual(self.old.read_bytes(), self.answers(*words))

    def test_nothing_is_half_written(self):
        for words in self.WORDS:
            self.fails(3, *words, "-o", "old", preexec_fn=at_most(1), about="old: file too large")
            self.unchanged()
            with open("/dev/full", "wb") as full:
                self.fails(3, *words, stdout=full, about="standard output: no space left on device")

    def test_a_refusal_leaves_the_old_file(self):
        for form in FORMS:
            self.fails(1, "margin", PLAN_31, 0, 48, *form, "-o", "old", about="refused by question 7")
            self.fails(1, "margin", "-", 0, 1, *form, "-o", "old", stdin=plan((5, 5), (4, 5)), about="refused by question 6")
            self.fails(2, "margin", PLAN_31, 0, "x", *form, "-o", "old")
        self.unchanged()

    def test_no_more_is_read_than_the_limit_and_one(self):
        for words in (("margin", "-", 0, 1), ("neighbours", "-", 0, "--margins")):
            with open("/dev/zero", "rb") as endless:
                self.fails(1, *words, stdin_file=endless, about="refused by question 14")


if __name__ == "__main__":
    unittest.main()
